line() { printf '{"__REALTIME_TIMESTAMP":"1700000000%s","_HOSTNAME":"bergen","SYSLOG_IDENTIFIER":"%s","MESSAGE":%s}\n' "$@"; }
(
  line 999999 opticd '"port east: loss of signal"'
  line 000001 meterd '"span bergen-narvik: no light"'
  line 000002 opticd '"port east: signal is back"'
  line 000003 meterd '"span bergen-narvik: light is back"'
  line 000004 meterd '"port east: loss of signal"'
  line 000005 opticd '"starting"'
  line 000006 opticd '[98, 121]'
) | jq -c --unbuffered -f $T/journal.jq
