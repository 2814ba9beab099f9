receive.py "$PORT" > posted &
post() {
  python3 - "$PORT" "$1" <<'END'
import sys, time, urllib.error, urllib.request
for _ in range(100):
    try:
        print(urllib.request.urlopen(f"http://127.0.0.1:{sys.argv[1]}/", sys.argv[2].encode()).status)
        break
    except urllib.error.HTTPError as refused:
        print(refused.code)
        break
    except OSError:
        time.sleep(0.1)
END
}
post '{"status": "firing",
  "alerts": []}'
post 'no json'
post '{"status":"resolved","alerts":[{"labels":{"alertname":"A"}}]}'
kill $!
wait $! 2> /dev/null
cat posted
