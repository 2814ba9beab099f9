cd $R/examples/ring
missing ring.model ring.topology one-lost.symptoms
(cat two-problems.symptoms; echo; echo NoLight@nowhere; echo NoLight@nowhere) > $W/up
missing ring.model ring.topology $W/up
missing ring.model ring.topology /dev/null
missing ring.model ring.topology nothing; echo "status $?"
