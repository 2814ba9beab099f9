{ sub(/\r$/, "") }
NR > 1 {
  print "create", $1, $2
  n = split($3, l, ";")
  for (i = 1; i <= n; i++) { split(l[i], p, "="); links = links "link " $1 " " p[1] " " p[2] "\n" }
}
END { printf "%s", links }
