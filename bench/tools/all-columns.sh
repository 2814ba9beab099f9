cd $R/examples/ring
jeknaule codebook ring.model ring.topology 3 | jeknaule verify ring.model ring.topology -
all-columns ring.model ring.topology 3 > $W/all.certificate
jeknaule verify ring.model ring.topology $W/all.certificate
printf '{"at":1,"from":"all","raise":"Unreachable@%s"}\n' oslo bergen narvik tromso > $W/log
jeknaule decode ring.model ring.topology $W/all.certificate $W/log 60
all-columns ring.model ring.topology 4; echo "status $?"
cd ../pumps
all-columns pump.model plant.topology 2 | diff plant.2.certificate - && echo same
