L=$R/examples/ring/night.3.60.log
window-alarms snmp 1700000000 60 < $L
echo
window-alarms snmp 1700000120 1 < $L
echo
window-alarms poller 1700000030 10 < $L
echo
window-alarms poller 1700000030 60 < $L
