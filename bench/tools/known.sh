cd $R/examples/pumps
known pump.model plant.topology
known pump.model /dev/null
known pump.model nothing; echo "status $?"
