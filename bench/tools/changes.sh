shown() { sed 's/"at":1[0-9]\{9\}[,}]/"at":..,/'; }
cat > lines <<'END'
up LossOfSignal@bergen/east
up NoLight@oslo-bergen
up LossOfSignal@bergen/east
down LossOfSignal@bergen
down LossOfSignal@bergen/east
up LossOfSignal@bergen/east
upper NoLight@a
downwards NoLight@oslo-bergen
up NoLight
up NoLight@*
up NoLight@a@b
up 9@a
up NoLight@a now

down NoLight@oslo-bergen
down NoLight@oslo-bergen
END
changes 600 < lines | shown
# Ticks come while no line does, and no process is left when the reader has ended.
sleep 3 | changes 1 | shown | uniq
(echo up NoLight@a; sleep 6; [ -e ended ] || echo 'it goes on' >&2) | (changes 1; : > ended) | sed 1q | shown
