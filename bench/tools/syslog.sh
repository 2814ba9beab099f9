syslog <<'END'
Nov 28 03:12:07 bergen opticd[411]: port east: loss of signal
Nov 28 03:12:09 tromso opticd[398]: port west: loss of signal
Nov 28 03:12:31 tromso opticd[398]: port west: signal is back
Nov  8 03:12:32 bergen meterd[97]: span bergen-narvik: no light
Nov  8 03:12:40 bergen meterd[97]: span bergen-narvik: light is back
Nov  8 03:12:41 bergen meterd[97]: span bergen-narvik: no light at all
Nov  8 03:12:42 bergen meterd[97]: port east: loss of signal
Nov  8 03:12:43 bergen crond[97]: span bergen-narvik: no light

END
