# A clock that doesn't wait, and an amtool that fails at the third time.
mkdir bin
PATH=$W/bin:$PATH
echo 1700000000 > now
echo 0 > asked
cat > bin/date <<'END'
#!/bin/sh
cat now
END
cat > bin/sleep <<'END'
#!/bin/sh
echo $(($(cat now) + $1)) > now
END
cat > bin/amtool <<'END'
#!/bin/sh
[ "$*" = "alert query -a -i -o json" ] || exit 2
n=$(($(cat asked) + 1))
echo "$n" > asked
case $n in
1) names='NotReady NoPing' ;;
2) names='NoPing Late' ;;
3) exit 1 ;;
4) names='NoPing NoPing' ;;
*) names= ;;
esac
for name in $names; do printf '{"labels":{"alertname":"%s","instance":"node-1"}}\n' "$name"; done | jq -s .
END
cat > firing <<'END'
#!/bin/sh
amtool alert query -a -i -o json > alerts && jq -r '.[].labels | .alertname + "@" + .instance' alerts && echo 'no alarm'
END
chmod +x bin/* firing
poll 15 ./firing | sed 12q
echo 1800000000 > now
poll 15 echo Up@x | sed 3q
