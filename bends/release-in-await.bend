about A release is taken in Await for this child (a need that demand 3 can do without).
refused writes Needs
file: crates/rules/specs/Release.antt
old: not (awaits v.node.phase v.node.requester k)
new: eqb k k
