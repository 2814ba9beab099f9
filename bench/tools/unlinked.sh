cd $R/examples/ring
unlinked ring.model ring.topology
grep -v 'link oslo/east peer' ring.topology | unlinked ring.model -
echo
grep -v " ends " ring.topology > $W/less.topology
unlinked ring.model $W/less.topology
unlinked nothing ring.topology; echo "status $?"
