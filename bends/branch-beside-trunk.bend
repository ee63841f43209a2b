about A load at T probes nobody, and Branch is granted beside the Trunk.
clause ROW 11 0
refused closed Acquire
straight 11
shows two_readers 1 2
file: crates/rules/specs/Acquire.antt
old: eqb name name_t && eqb e trunk
new: false
file: crates/rules/specs/Grant.antt
old: readable_name name
new: not (eqb r rights_n)
