about A ProbeAck is sent while ReleaseAck is owed and the Release is still in C (note 8), and goes over it.
clause REL 16 1
refused writes Needs
straight 16
shows stale_reader 0
file: crates/rules/specs/Probe.antt
old:  && not (eqb v.node.phase leaving) && eqb v.link.c empty
new:
