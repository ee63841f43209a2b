about A node that takes data from below does not become dirty.
clause COPY 19 1
refused coherence Shared/DataTaken
straight 0
shows stale_reader 0
file: crates/rules/specs/Scenes.antt
old: (stored l.up m)
new: (with_value m l.up)
