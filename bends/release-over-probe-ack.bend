about A Release is sent while the ProbeAck is still in C, and goes over it.
clause PRB 16 1
refused writes Needs
straight 16
shows stale_reader 0
file: crates/rules/specs/Release.antt
old:  && eqb v.link.c empty
new:
