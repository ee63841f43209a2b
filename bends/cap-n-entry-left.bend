about A probe with cap N asks the trunk alone and is answered while Branch entries are left.
clause VALID 19 1
refused closed Probe
straight 19
shows no_configuration
onward take-probe-ack 0 from 1
then two_readers 0 3
file: crates/rules/specs/Probe.antt
old: cap_n = not (eqb e none)
new: cap_n = eqb e trunk
old: cap_n = bare
new: cap_n = not someTrunk
