about Twelve needs that the proof does not use are replaced by tests that always hold, and the laws that repeat them are dropped or say the test.
file: crates/rules/specs/Local.antt
old: = eqb v.rights rights_n
new: = eqb v.rights v.rights
old: (eqb v.rights rights_n || eqb v.rights rights_b)
new: eqb v.rights v.rights
old: not (eqb v.rights rights_n)
new: eqb v.rights v.rights
file: crates/rules/specs/Acquire.antt
old: asks_from v.node.purpose v.rights
new: eqb v.rights v.rights
old: acquire_fits v.link.a v.entry
new: eqb v.entry v.entry
file: crates/rules/specs/Probe.antt
old: && eqb v.link.b empty
new: && eqb v.link.b v.link.b
old: not v.node.probe
new: eqb v.link.b v.link.b
old: v.node.release no_child
new: v.node.release v.node.release
old: not (eqb v.node.phase leaving)
new: eqb v.node.phase v.node.phase
file: crates/rules/specs/Grant.antt
old: && eqb v.link.e empty
new: && eqb v.link.e v.link.e
file: crates/rules/specs/Release.antt
old: let_go && eqb v.node.release no_child
new: let_go && eqb v.node.release v.node.release
old: not (eqb v.entry none)
new: eqb v.entry v.entry
file: crates/writes/proofs/Needs.antt
old: pub rights : rights s x ≡ rights_n
new: pub rights : eqb (rights s x) (rights s x) ≡ true
old: rights = is _ _ u.0
new: rights = u.0
old: pub rights : (rights s x ≡ rights_n) ⊎ (rights s x ≡ rights_b)
new: pub rights : eqb (rights s x) (rights s x) ≡ true
old: rights = go (either _ _ u.0)
new: rights = u.0
old: pub rights : rights s x ≢ rights_n
old:   pub quiet
new: pub rights : eqb (rights s x) (rights s x) ≡ true
new:   pub quiet
old: not (eqb (rights s x) rights_n)
new: eqb (rights s x) (rights s x)
old: rights = isnt _ _ w.0
new: rights = w.0
old:   pub asks : asks_from (purpose s x) (rights s x) ≡ true
new:
old: ; asks = u.1
new:
old:   pub fits : acquire_fits (slot_a s k) (entry s x k) ≡ true
new:
old: s x w.1; fits = u.1
new: s x w.1
old:   pub slot : slot_b s k ≡ empty
new:
old: = u.0; slot = is _ _ u.1
new: = u.0
old: slot_b s x ≢ empty
old:   pub probe : probing s x ≡ false
new: slot_b s x ≢ empty
old: (slot_b s x) empty) && not (probing s x) &&
new: (slot_b s x) empty) && eqb (slot_b s x) (slot_b s x) &&
old: (slot_b s x) empty) && not (probing s x))
new: (slot_b s x) empty) && eqb (slot_b s x) (slot_b s x))
old: v.0; probe = not-true _ v.1
new: v.0
old:   pub release : noted s x ≡ no_child
old:   pub main : phase s x ≢ leaving
new:
old: release = is _ _ y.1; main = isnt _ _ v.1; slot
new: slot
old:   pub slot : slot_e s x ≡ empty
new:
old: send_grant_ack_needs_lem s x h = let u = both _ _ h in record { main = is _ _ u.0; slot = is _ _ u.1 }
new: send_grant_ack_needs_lem s x h = let u = both _ _ h in record { main = is _ _ u.0 }
old: let_go
old:   pub release : noted s x ≡ no_child
new: let_go
old: release = is _ _ y.1; slot
new: slot
old:   pub held : entry s x k ≢ none
new:
old: ; held = isnt _ _ v.1
new:
