cat > old <<'END'
# Two pumps that feed a tank.
create a Pump
create b Pump
create c Standby
create e Pump
create t Tank
create u Tank
link e feeds u
link a feeds t
link b feeds t
link c feeds t
mute Noise@a
mute Heat@b
END
cat > new <<'END'
create a Pump
create b Standby
create d Pump
create e Pump
create t Tank

link e feeds t
link b feeds t
link d feeds t
mute Noise@d
mute Heat@b
END
edits old new > made
cat made
edits new new
M=$R/examples/tank/tank.model
jeknaule matrix $M new > new.matrix
cat old made | jeknaule matrix $M - | diff - new.matrix && echo same
