about The parent does not wait for the GrantAck. So a late eviction's data goes over a newer store.
clause GNT 5 1
refused writes Needs
straight 5
shows stale_reader 0
file: crates/rules/specs/Grant.antt
old:  && not (eqb v.link.e empty)
new:
