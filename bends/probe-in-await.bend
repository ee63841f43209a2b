about A node serves a probe while it awaits a GrantAck (note 18).
clause GRANT 19 3
refused coherence Invariant/Here
straight 15
shows two_readers 3 1
file: crates/rules/specs/Probe.antt
old: await = false
new: await = true
