cd $R/examples/ring
why ring.model ring.topology one-lost.symptoms
(cat two-problems.symptoms; echo; echo NoLight@nowhere; echo NoLight@nowhere) > $W/up
why ring.model ring.topology $W/up
why ring.model ring.topology /dev/null
why ring.model ring.topology misspelt.symptoms
why ring.model ring.topology nothing; echo "status $?"
cd ../feeder
why feeder.model town.topology one-lost.symptoms
grep -v quay/1 breaker.symptoms > $W/fewer
why feeder.model town.topology $W/fewer
