cd $R/examples/ring
uncaused ring.model ring.topology
sed '/rule dark:/d' ring.model > $W/less.model
uncaused $W/less.model ring.topology
uncaused ring.model nothing; echo "status $?"
