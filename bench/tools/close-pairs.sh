cd $R/examples/pumps
close-pairs pump.model plant.topology 2
close-pairs pump.model plant.topology 3
close-pairs pump.model nothing 3; echo "status $?"
