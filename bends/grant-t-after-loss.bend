about GrantT goes to a requester that lost its copy, and the requester takes it in N.
clause COPY 34 1
refused closed Grant
straight 0
shows stale_reader 1
file: crates/rules/specs/Grant.antt
old: eqb r rights_b
new: (eqb r rights_b || eqb r rights_n)
old: choose (eqb e branch) grant_t grant_data_t
new: grant_t
