# journalctl -f -o json | jq -c --unbuffered -f journal.jq: records with whole seconds since 1970, of the lines of two daemons.
# It prints no ticks, and raises again what a daemon says again.
select(.MESSAGE | type == "string")
| (.__REALTIME_TIMESTAMP | tonumber / 1000000 | floor) as $at
| ._HOSTNAME as $host
| .SYSLOG_IDENTIFIER as $daemon
| .MESSAGE
| (capture("^port (?<port>[^ ]+): (?<what>loss of signal|signal is back)$") | select($daemon == "opticd")
     | {at: $at, from: "all", (if .what == "loss of signal" then "raise" else "clear" end): ("LossOfSignal@" + $host + "/" + .port)}),
  (capture("^span (?<span>[^ ]+): (?<what>no light|light is back)$") | select($daemon == "meterd")
     | {at: $at, from: "all", (if .what == "no light" then "raise" else "clear" end): ("NoLight@" + .span)})
