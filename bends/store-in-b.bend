about A store is accepted in B.
clause LAST 8 0
refused writes Needs
straight 8
shows stale_reader 0
file: crates/rules/specs/Local.antt
old: = eqb (name_in v) name_tt
new: = (eqb (name_in v) name_b || eqb (name_in v) name_tt)
