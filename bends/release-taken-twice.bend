about A Release stays in C when it is taken.
clause REL 11 1
refused writes Effects
straight 22
shows stale_reader 0
file: crates/rules/specs/Release.antt
old:  ▷ empties_c
new:
