cd $R/examples/ring
one-by-one ring.model ring.topology two-problems.symptoms
one-by-one ring.model ring.topology misspelt.symptoms
one-by-one ring.model nothing cut.symptoms; echo "status $?"
# More than 128 groups.
cd ../cluster
missing cluster.model cluster.topology two-problems.symptoms
one-by-one cluster.model cluster.topology two-problems.symptoms
