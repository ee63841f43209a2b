about A node that takes GrantDataB becomes Tip.
clause QUIET 5 1
refused closed Grant
straight 0
shows two_readers 1 0
file: crates/rules/specs/Messages.antt
old: grant_data_b = rights_b
new: grant_data_b = tip
