act-on-events <<'END'
accepted book distance 3 radius 1 groups 17 columns 36
thin wanted 3 first quiet second Cut@a distance 2
book columns 22 of 35 distance 2 radius 0 groups 17
diagnosis all 10 70 raised 3 unknown 0 distance 0 radius 1 sure groups 1
  group Cut@a Cut@b
diagnosis all 20 80 raised 0 unknown 0 distance 0 radius 1 sure groups 1
  group quiet
diagnosis all 30 90 raised 1 unknown 0 distance 1 radius 1 sure groups 1
  group quiet
diagnosis all 40 100 raised 2 unknown 0 distance 1 radius 0 unsure groups 2
  group quiet
  group Dead@c
diagnosis other 50 110 raised 4 unknown 1 distance 0 radius 1 sure groups 1
  group Dead@c
refused 9 no-instance
skipped 11 not-json
END
cd $R/examples/ring
act-on-events < night.3.60.events
