cd $R/examples/cluster
follow cluster.model cluster.topology cap9999 60 "$PORT" > $W/answers &
python3 - "$PORT" <<'END'
import json, sys, time, urllib.request
names = ["Unhealthy", "ConnectTimeout", "DiskFilling"]
labels = [{"alertname": name, "instance": "tg/node-2"} for name in names]
alerts = [{"status": "firing", "labels": label, "startsAt": f"2123-11-28T03:12:0{k}.5Z"} for k, label in enumerate(labels)]
for count in (1, 3, 3):
    for _ in range(100):
        try:
            urllib.request.urlopen(f"http://127.0.0.1:{sys.argv[1]}/", json.dumps({"alerts": alerts[:count]}).encode())
            break
        except OSError:
            time.sleep(0.1)
END
kill $!
wait $!
echo "status $?"
# A time in the future counts as now.
sed 's/since 1[0-9]*$/since now/' $W/answers
# If `correlate` or the receiver ends by itself, so does follow, with its status.
follow cluster.model cluster.topology cap 60 "$PORT" 2>&1
echo "status $?"
receive.py "$PORT" > /dev/null &
sleep 1
follow cluster.model cluster.topology cap9999 60 "$PORT" 2> $W/faults
echo "status $?"
kill $!
sed "s/$PORT/PORT/" $W/faults
