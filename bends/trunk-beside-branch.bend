about A load is granted Trunk while another entry is Branch.
clause ROW 11 0
refused closed Grant
straight 11
shows two_readers 2 1
file: crates/rules/specs/Grant.antt
old: eqb name name_tt
new: readable_name name && eqb r tip
