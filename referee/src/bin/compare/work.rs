//! The comparison itself: units of work, each with its own random stream, shared among threads.

use crate::difference::expected;
use crate::endings;
use crate::program::{Program, Starter};
use crate::random::Random;
use crate::requests;
use crate::tally::Tally;
use crate::trails::{self, Damage};
use referee::answer::Request;
use referee::kinds::{Answers, Kind, Value};
use referee::trail::Trail;
use std::sync::atomic::{AtomicBool, AtomicUsize, Ordering};
use std::sync::Mutex;
use std::thread;

/// How much is compared.
#[derive(Clone, Copy)]
pub struct Plan {
    /// Rows of requests, with [`ROW_EVENTS`] events each.
    pub rows: usize,
    /// Trails of each kind of damage that fill 65,536 bytes, and of each that doesn't.
    pub long_trails: usize,
    pub short_trails: usize,
}

const ROW_EVENTS: usize = 2000;

#[derive(Clone, Copy)]
enum Unit {
    Row,
    Trail(Damage),
}

/// An input on which a program and the model differ.
pub struct Found {
    pub program: Program,
    pub input: Vec<u8>,
}

impl Plan {
    fn units(&self) -> Vec<Unit> {
        let mut units = vec![Unit::Row; self.rows];
        for &damage in Damage::ALL {
            let times = if damage.is_long() {
                self.long_trails
            } else {
                self.short_trails
            };
            units.extend(vec![Unit::Trail(damage); times]);
        }
        units
    }
}

/// Compares everything in the plan. The first difference is that of the unit that comes first.
pub fn compare(plan: &Plan, seed: u64, starter: &Starter) -> (Tally, Option<Found>) {
    let units = plan.units();
    let next = AtomicUsize::new(0);
    let stop = AtomicBool::new(false);
    let total = Mutex::new(Tally::new());
    let found: Mutex<Option<(usize, Found)>> = Mutex::new(None);
    let threads = thread::available_parallelism().map_or(2, |cores| cores.get().min(8));
    thread::scope(|scope| {
        for _ in 0..threads {
            scope.spawn(|| {
                let mut tally = Tally::new();
                while !stop.load(Ordering::Relaxed) {
                    let index = next.fetch_add(1, Ordering::Relaxed);
                    let Some(&unit) = units.get(index) else { break };
                    let mut random = Random::new(seed, index as u64);
                    let (program, input) = input(unit, &mut random, &mut tally);
                    let wanted = expected(program, &input).expect("only decided requests are made");
                    if starter.output(program, &input) != Ok(wanted) {
                        stop.store(true, Ordering::Relaxed);
                        let mut first = found.lock().expect("no thread panics");
                        if first.as_ref().is_none_or(|(other, _)| index < *other) {
                            *first = Some((index, Found { program, input }));
                        }
                    }
                }
                total.lock().expect("no thread panics").add(&tally);
            });
        }
    });
    let total = total.into_inner().expect("no thread panics");
    let found = found.into_inner().expect("no thread panics");
    (total, found.map(|(_, found)| found))
}

/// The input of a unit, with everything in it counted.
fn input(unit: Unit, random: &mut Random, tally: &mut Tally) -> (Program, Vec<u8>) {
    match unit {
        Unit::Row => {
            let requests = requests::row(random, tally, ROW_EVENTS);
            tally.requests += requests.len() as u64;
            let mut input: Vec<u8> = requests.iter().flat_map(Request::to_bytes).collect();
            let last = requests.last().expect("a row has requests");
            input.extend(endings::ending(random, last));
            (Program::Answer, input)
        }
        Unit::Trail(damage) => {
            let input = trails::trail(random, damage);
            tally.trail(damage);
            let trail = Trail::read(&input);
            let mut stored = trail.first.map(|(_, first_value)| first_value);
            trail.run(|configuration, event, outcome| {
                tally.event(Some(configuration), event, outcome);
                let (Some(kind), Ok(step)) = (Kind::from_code(event.kind), outcome) else {
                    return;
                };
                match kind.row().answers {
                    Answers::TheValue => {
                        assert_eq!(Some(step.value), stored, "the model's load is stale");
                    }
                    Answers::Zero => {}
                }
                match kind.row().value {
                    Value::Stored => stored = Some(event.value),
                    Value::Zero => {}
                }
            });
            (Program::Trail, input)
        }
    }
}
