cat > log <<'END'
{"at":100,"from":"all","raise":"A@x"}
{"at":101,"from":"all","raise":"B@x"}
{"at":102,"from":"other","raise":"C@y"}
{"at":103,"from":"all","clear":"B@x"}
{"at":104,"from":"all","clear":"B@x"}
{"at":159,"from":"all","raise":"D@x"}
{"at":160,"tick":true}
{"at":160,"from":"all","raise":"E@x"}
{"at":161,"edit":"create z Z"}
{"at":150,"from":"all","raise":"A@x"}
{"at":250,"from":"all","raise":"A@x"}
END
jq -cn --unbuffered --argjson window 60 -f $T/restate.jq log
