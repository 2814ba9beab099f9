# jq -cn --unbuffered --rawfile known known -f webhook.jq: what Alertmanager posts to a webhook, a body a line, to records of a log, one for each alarm
# that goes up or down. A notification repeats all alerts of its group: what is up already is ignored, and so is what the model doesn't know, and an
# alert without `instance`, or with a time of another form. If several alerts are one alarm (they differ in other labels), it is up until the last
# of them is resolved. `known` is made by: known MODEL TOPOLOGY > known
def seconds:                                    # "2026-11-28T03:12:07.123Z" or "2026-11-28T04:12:07+01:00", in seconds since 1970
  capture("^(?<time>[0-9T:-]{19})(\\.[0-9]+)?(Z|(?<sign>[+-])(?<hours>[0-9]{2}):(?<minutes>[0-9]{2}))$")
  | (.time + "Z" | fromdateiso8601) - (if .sign then ((.hours | tonumber) * 3600 + (.minutes | tonumber) * 60) * (if .sign == "-" then -1 else 1 end) else 0 end);
def read:                                       # what is needed of an alert
  {node: (.labels.alertname + "@" + (.labels.instance | sub(":[0-9]+$"; ""))), label: (.fingerprint // (.labels | tojson)),
   firing: (.status == "firing"), since: .startsAt, at: (if .status == "firing" then .startsAt else .endsAt end | seconds)};
($known | split("\n") | map({(.): true}) | add) as $columns
| foreach (inputs | .alerts? // [] | .[]? | (try read catch empty) | select($columns[.node])) as $alert ({up: {}, record: null};
    (.up[$alert.node] // {}) as $was
    | .record = null
    | if $alert.firing and $was[$alert.label] != $alert.since then
        .up[$alert.node][$alert.label] = $alert.since
        | if $was == {} or $was[$alert.label] then .record = {at: $alert.at, from: "all", raise: $alert.node} else . end
      elif ($alert.firing | not) and $was[$alert.label] == $alert.since then
        del(.up[$alert.node][$alert.label])
        | if .up[$alert.node] == {} then .record = {at: $alert.at, from: "all", clear: $alert.node} else . end
      else . end;
    .record | select(. != null))
