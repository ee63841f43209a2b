about A release that is taken also counts as the ProbeAck: the child leaves pending.
clause PRB 14 1
refused writes Effects
straight 15
shows two_readers 2 1
file: crates/rules/specs/Release.antt
old: ▷ leaves_to_probe
new: ▷ leaves_to_probe ▷ Rattle.rules.specs.Scenes.leaves_pending
