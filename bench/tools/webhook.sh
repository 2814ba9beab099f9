alert() { printf '{"status":"%s","labels":{"alertname":"%s","instance":"%s"},"startsAt":"2026-11-28T03:%sZ","endsAt":"%sZ"}' "$@"; }
none=0001-01-01T00:00:00
printf '%s\n' Unhealthy@tg/node-2 NotReady@node-1 > known
(
  printf '{"status":"firing","alerts":[%s]}\n' "$(alert firing Unhealthy tg/node-2 12:07.123 $none)"
  # All alerts of the group again, one that is unknown, and one of which the port is left out.
  printf '{"status":"firing","alerts":[%s,%s,%s]}\n' "$(alert firing Unhealthy tg/node-2 12:07.123 $none)" \
    "$(alert firing DiskFilling node-2:9100 12:20 $none)" "$(alert firing NotReady node-1:9100 12:21 $none)"
  printf '{"status":"firing","alerts":[%s,%s]}\n' "$(alert resolved Unhealthy tg/node-2 12:07.123 2026-11-28T03:14:07)" \
    "$(alert firing NotReady node-1:9100 12:21 $none)"
  # What is down already, and what goes up again.
  printf '{"status":"resolved","alerts":[%s]}\n' "$(alert resolved Unhealthy tg/node-2 12:07.123 2026-11-28T03:14:07)"
  printf '{"status":"firing","alerts":[%s]}\n' "$(alert firing Unhealthy tg/node-2 20:00 $none)"
) > posted
jq -cn --unbuffered --rawfile known known -f $T/webhook.jq posted
echo "What is no list of alerts; alerts without an instance, or with another time; and times with an offset:"
unhealthy='"labels":{"alertname":"Unhealthy","instance":"tg/node-2"}'
(
  printf '%s\n' '[]' '7' '{"version":"4"}' '{"alerts":7}' '{"alerts":[7,{}]}'
  printf '%s\n' '{"alerts":[{"status":"firing","labels":{"alertname":"Watchdog"},"startsAt":"2026-11-28T03:12:07Z"}]}'
  printf '{"alerts":[{"status":"firing",%s,"startsAt":"yesterday"}]}\n' "$unhealthy"
  printf '{"alerts":[{"status":"firing",%s,"startsAt":"2026-11-28T05:42:07.5+02:30"}]}\n' "$unhealthy"
  printf '{"alerts":[{"status":"resolved",%s,"startsAt":"2026-11-28T05:42:07.5+02:30","endsAt":"2026-11-27T22:12:08-05:00"}]}\n' "$unhealthy"
) | jq -cn --unbuffered --rawfile known known -f $T/webhook.jq
echo "Two alerts that are one alarm:"
disk() { printf '{"status":"%s","labels":{"alertname":"NotReady","instance":"node-1","disk":"%s"},"startsAt":"2026-11-28T03:%sZ","endsAt":"%sZ"}' "$@"; }
(
  printf '{"alerts":[%s,%s]}\n' "$(disk firing a 12:07 $none)" "$(disk firing b 12:09 $none)"
  printf '{"alerts":[%s,%s]}\n' "$(disk firing a 12:07 $none)" "$(disk firing b 12:09 $none)"
  printf '{"alerts":[%s,%s]}\n' "$(disk resolved a 12:07 2026-11-28T03:13:00)" "$(disk firing b 12:09 $none)"
  printf '{"alerts":[%s]}\n' "$(disk resolved b 12:09 2026-11-28T03:14:00)"
) | jq -cn --unbuffered --rawfile known known -f $T/webhook.jq
