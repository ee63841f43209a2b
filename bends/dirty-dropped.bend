about A ProbeAck that keeps B goes without data, and the node becomes clean all the same.
clause COPY 14 1
refused writes Effects
straight 0
shows stale_reader 0
file: crates/rules/specs/Probe.antt
old: probe_ack_for v.node.dirty
new: probe_ack_for (v.node.dirty && eqb v.node.cap cap_n)
old: carried v.node.dirty
new: carried (v.node.dirty && eqb v.node.cap cap_n)
