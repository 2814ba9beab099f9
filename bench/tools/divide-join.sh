cd $R/examples/ring
divide 2 $W/part < night.3.60.log
cat $W/part.1
echo
cat $W/part.2
divide 3 $W/answers jeknaule correlate ring.model ring.topology - 3 60 < night.3.60.log
join 3 $W/answers | diff - night.3.60.events && echo same
sed '/^refused/d' $W/answers.2 > $W/other && mv $W/other $W/answers.2
join 3 $W/answers > /dev/null; echo "status $?"
divide 2 $W/answers jeknaule correlate ring.model nothing - 3 60 < night.3.60.log; echo "status $?"
