trap_of() { echo " $1|.1.3.6.1.2.1.1.3.0 = Timeticks: (320993) 0:53:29.93|.1.3.6.1.6.3.1.1.4.1.0 = OID: .1.3.6.1.6.3.1.1.5.$2|$3"; }
name='.1.3.6.1.2.1.2.2.1.1.2 = INTEGER: 2|.1.3.6.1.2.1.31.1.1.1.1.2 = STRING:'
(
  trap_of bergen 3 "$name \"east\""
  trap_of tromso 3 "$name \"west\"|.1.3.6.1.2.1.2.2.1.8.2 = STRING: \"x\""
  trap_of tromso 4 "$name \"west\""
  trap_of tromso 1 "$name \"west\""
  trap_of tromso 3 '.1.3.6.1.2.1.2.2.1.1.2 = INTEGER: 2'
  echo no trap
) | traps
