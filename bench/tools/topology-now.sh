cd $R/examples/ring
topology-now ring.topology night.3.60.log night.3.60.events | diff ring.topology -
printf '%s\n' '{"at":1,"edit":"create narvik Node"}' '{"at":2,"edit":"create molde Node"}' '{"at":3,"edit":"mute' \
  '{"at":4,"from":"all","raise":"NoLight@oslo-bergen"}' '{"at":5,"edit":"link molde ports narvik/east"}' \
  '{"at":6,"edit":"delete tromso"}' > $W/log
jeknaule correlate ring.model ring.topology $W/log 3 60 > $W/events
topology-now ring.topology $W/log $W/events > $W/now
diff ring.topology $W/now
jeknaule burst ring.model $W/now /dev/null
