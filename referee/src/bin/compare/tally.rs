//! What was met, counted; and what was never met.

use crate::events::{failing, KIND_CODES};
use crate::table::Table;
use crate::trails::Damage;
use referee::clauses::Clause;
use referee::configuration::Configuration;
use referee::event::Event;
use referee::kinds::Kind;
use referee::refusal::{Fault, Number, Refusal};
use referee::step::{number, Outcome};

/// One more than the last number.
const NUMBERS: usize = Number::LAST as usize + 1;

#[derive(Default)]
pub struct Tally {
    pub events: u64,
    pub requests: u64,
    pub trails: u64,
    numbers: [u64; NUMBERS],
    /// By kind, then by number.
    kinds: [[u64; NUMBERS]; KIND_CODES],
    /// By kind, then by need: how often it alone didn't hold.
    needs: [Vec<u64>; KIND_CODES],
    clauses: Vec<u64>,
    faults: [u64; Fault::ALL.len()],
    damages: Vec<u64>,
    resets: [u64; 2],
    without_number_2: u64,
}

impl Tally {
    pub fn new() -> Tally {
        let mut tally = Tally {
            clauses: vec![0; Clause::ALL.len()],
            damages: vec![0; Damage::ALL.len()],
            ..Tally::default()
        };
        for &kind in Kind::ALL {
            tally.needs[usize::from(kind.code())] = vec![0; needs(kind).count()];
        }
        tally
    }

    /// An event on a configuration, or on a record that isn't one.
    pub fn event(
        &mut self,
        configuration: Option<&Configuration>,
        event: &Event,
        outcome: &Outcome,
    ) {
        self.events += 1;
        let number = number(outcome) as usize;
        self.numbers[number] += 1;
        if let Some(kind) = Kind::from_code(event.kind) {
            self.kinds[usize::from(kind.code())][number] += 1;
        }
        match outcome {
            Ok(_) | Err(Refusal::BadTree | Refusal::WrongPlace(_)) => {}
            Err(Refusal::NotAConfiguration(clauses)) => {
                if clauses.iter().all(|&clause| clause == clauses[0]) {
                    self.clauses[clauses[0] as usize] += 1;
                }
            }
            Err(Refusal::BadEvent(fault)) => self.faults[*fault as usize] += 1,
            Err(Refusal::Need(_)) => {
                let failing = configuration.and_then(|configuration| failing(configuration, event));
                if let Some([need]) = failing.as_deref() {
                    self.needs[usize::from(event.kind)][*need] += 1;
                }
            }
        }
    }

    pub fn trail(&mut self, damage: Damage) {
        self.trails += 1;
        self.damages[damage as usize] += 1;
    }

    pub fn reset(&mut self, number: u8) {
        self.resets[usize::from(number)] += 1;
    }

    pub fn without_number_2(&mut self) {
        self.without_number_2 += 1;
    }

    pub fn add(&mut self, other: &Tally) {
        self.events += other.events;
        self.requests += other.requests;
        self.trails += other.trails;
        self.without_number_2 += other.without_number_2;
        add_each(&mut self.numbers, &other.numbers);
        add_each(&mut self.clauses, &other.clauses);
        add_each(&mut self.faults, &other.faults);
        add_each(&mut self.damages, &other.damages);
        add_each(&mut self.resets, &other.resets);
        for kind in 0..KIND_CODES {
            add_each(&mut self.kinds[kind], &other.kinds[kind]);
            add_each(&mut self.needs[kind], &other.needs[kind]);
        }
    }

    /// The table, and the names of what was never met.
    pub fn report(&self) -> (String, Vec<String>) {
        let mut table = Table::default();
        table.title("number", "events");
        for &number in Number::ALL {
            let words = format!("number {}", number.code());
            table.row(&words, self.numbers[number as usize]);
        }
        self.report_kinds(&mut table);
        table.title("number 2: this clause alone is broken", "events");
        for (clause, &count) in Clause::ALL.iter().zip(&self.clauses) {
            table.row(clause.words(), count);
        }
        table.title("number 3", "events");
        for (fault, &count) in Fault::ALL.iter().zip(&self.faults) {
            table.row(fault.words(), count);
        }
        table.title("request", "times");
        table.row("reset on a good tree", self.resets[0]);
        table.row("reset on a bad tree", self.resets[1]);
        table.row("step without number 2", self.without_number_2);
        table.title("trail", "times");
        for (damage, &count) in Damage::ALL.iter().zip(&self.damages) {
            table.row(damage.words(), count);
        }
        (table.text, table.missing)
    }

    fn report_kinds(&self, table: &mut Table) {
        table.text += "\nkind                  accepted  refused 3  refused 4  refused 5  (each of its needs alone)\n";
        for &kind in Kind::ALL {
            let counts = &self.kinds[usize::from(kind.code())];
            let by_number = |number: Number| counts[number as usize];
            let alone = &self.needs[usize::from(kind.code())];
            let name = format!("{} {}", kind.code(), kind.row().name);
            let judged = kind.row().place.is_judged();
            let wrong_place = match judged {
                true => by_number(Number::WrongPlace).to_string(),
                false => "-".to_string(),
            };
            let each_alone: Vec<String> = alone.iter().map(u64::to_string).collect();
            table.text += &format!(
                "{name:<20}{:>10} {:>10} {wrong_place:>10} {:>10}  ({})\n",
                by_number(Number::Accepted),
                by_number(Number::BadEvent),
                by_number(Number::Needs),
                each_alone.join(" ")
            );
            for &number in Number::ALL {
                let refused = format!("refused with {}", number.code());
                let words = match number {
                    Number::Accepted => "accepted".to_string(),
                    Number::BadEvent | Number::Needs => refused,
                    Number::WrongPlace if judged => refused,
                    // The first two don't look at the kind.
                    Number::WrongPlace | Number::BadTree | Number::NotAConfiguration => continue,
                };
                table.must_be_met(&format!("kind {name} {words}"), by_number(number));
            }
            for (need, &count) in needs(kind).zip(alone) {
                table.must_be_met(&format!("kind {name} refused by \"{need}\" alone"), count);
            }
        }
    }
}

/// The needs of a kind's row, in its words and order.
fn needs(kind: Kind) -> impl Iterator<Item = &'static str> {
    let needs = kind.row().rule.listed(None);
    needs.map(|(need, _)| need.words)
}

fn add_each(to: &mut [u64], from: &[u64]) {
    for (to, from) in to.iter_mut().zip(from) {
        *to += from;
    }
}
