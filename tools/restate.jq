# jq -cn --unbuffered --argjson window 60 -f restate.jq: records to records. Where a raise opens a window of its source, all that this source has raised
# earlier and not taken back is raised again with it, so that a window knows all that is up, and not only what came within it. A line that isn't JSON ends it.
foreach inputs as $record ({now: 0, opened: {}, up: {}, out: []};
  .now = ([.now, $record.at] | max)
  | .now as $now
  | $record.from as $from
  | if $record.raise then
      (.opened[$from] == null or $now - .opened[$from] >= $window) as $opens
      | .out = (if $opens then [(.up[$from] // {}) | keys[] | select(. != $record.raise) | {at: $now, from: $from, raise: .}] else [] end) + [$record]
      | (if $opens then .opened[$from] = $now else . end)
      | .up[$from][$record.raise] = true
    elif $record.clear then
      .out = [$record] | (if .up[$from] then del(.up[$from][$record.clear]) else . end)
    else .out = [$record] end;
  .out[])
