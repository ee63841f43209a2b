//! Random rows of requests for `answer`.

use crate::events::{aimed, any, candidates};
use crate::random::Random;
use crate::tally::Tally;
use crate::walk::Walk;
use crate::{broken, scattered, trees};
use referee::answer::Request;
use referee::clauses::{breaches, Clause};
use referee::configuration::Configuration;
use referee::event::Event;
use referee::judge::configuration_of;
use referee::record::Record;
use referee::refusal::Number;
use referee::step::number;
use referee::tree::NODES;

/// Requests in the making.
pub struct Row<'a> {
    pub requests: Vec<Request>,
    random: &'a mut Random,
    tally: &'a mut Tally,
}

/// A row with about so many events, from every source.
pub fn row(random: &mut Random, tally: &mut Tally, events: usize) -> Vec<Request> {
    let mut row = Row {
        requests: Vec::new(),
        random,
        tally,
    };
    let mut made = 0;
    while made < events {
        made += match row.random.below(100) {
            0..4 => row.walk(),
            4..45 => row.scattered(),
            45..51 => row.altered_from_walk(),
            51..80 => row.broken(),
            80..90 => row.any_codes(),
            90..97 => row.bad_tree(),
            _ => row.reset(),
        };
    }
    row.requests
}

impl Row<'_> {
    /// One event on one record. The step without number 2 is asked as well now and then, where it is decided.
    fn event(&mut self, record: Record, event: Event) {
        let configuration = configuration_of(&record);
        let outcome = match &configuration {
            Ok(configuration) => configuration.step(&event),
            Err(refusal) => Err(refusal.clone()),
        };
        self.tally
            .event(configuration.as_ref().ok(), &event, &outcome);
        if let Ok(step) = &outcome {
            let next = &step.configuration;
            let broken = breaches(&next.tree, &next.to_record());
            assert!(broken.is_empty(), "the model's own step breaks {broken:?}");
        }
        let decided_without_2 = number(&outcome) != Number::NotAConfiguration;
        if decided_without_2 && self.random.percent(30) {
            self.tally.without_number_2();
            self.request(&record, event, false);
        }
        self.request(&record, event, true);
    }

    fn request(&mut self, record: &Record, event: Event, tests_number_2: bool) {
        self.requests.push(Request::Step {
            record: Box::new(record.clone()),
            event,
            tests_number_2,
        });
    }

    /// A few configurations of one walk from reset.
    fn walk(&mut self) -> usize {
        let mut walk = self.walked();
        let steps = 20;
        for _ in 0..steps {
            let event = walk.next_event(self.random);
            self.event(walk.configuration.to_record(), event);
            walk.take(&event);
        }
        steps
    }

    /// A walk that has come some way.
    fn walked(&mut self) -> Walk {
        let tree = trees::good(self.random);
        let first_value = self.random.value();
        let mut walk = Walk::new(self.random, tree, first_value);
        for _ in 0..self.random.below(100) {
            let event = walk.next_event(self.random);
            walk.take(&event);
        }
        walk
    }

    fn scattered(&mut self) -> usize {
        let tree = trees::good(self.random);
        let candidates = candidates(&tree);
        let times = 4;
        for _ in 0..times {
            let configuration = scattered::configuration(self.random, tree);
            self.aimed(&configuration, &candidates);
        }
        times
    }

    fn altered_from_walk(&mut self) -> usize {
        let walk = self.walked();
        let times = 10;
        for _ in 0..times {
            let configuration = scattered::altered(self.random, &walk.configuration);
            self.aimed(&configuration, &walk.candidates);
        }
        times
    }

    fn aimed(&mut self, configuration: &Configuration, candidates: &[Event]) {
        let event = aimed(self.random, configuration, candidates);
        self.event(configuration.to_record(), event);
    }

    /// A record with one clause broken, with an event that the unbroken configuration may accept.
    fn broken(&mut self) -> usize {
        let clause = self.random.pick(Clause::ALL);
        let (configuration, record) = broken::alone(self.random, clause);
        let candidates = candidates(&configuration.tree);
        let event = aimed(self.random, &configuration, &candidates);
        self.event(record, event);
        1
    }

    /// A configuration with a few fields set to any codes, good or bad.
    fn any_codes(&mut self) -> usize {
        let tree = trees::good(self.random);
        let configuration = scattered::configuration(self.random, tree);
        let mut record = configuration.to_record();
        for _ in 0..self.random.between(1, 3) {
            scattered::alter_field(self.random, &tree, &mut record);
        }
        let event = any(self.random, &tree);
        self.event(record, event);
        1
    }

    fn bad_tree(&mut self) -> usize {
        let tree = trees::good(self.random);
        let configuration = scattered::configuration(self.random, tree);
        let mut record = configuration.to_record();
        (record.count, record.parents) = trees::bad(self.random);
        let event = any(self.random, &tree);
        self.event(record, event);
        1
    }

    /// A reset, on a good tree with anything in the parents that it doesn't read, or on a bad one.
    fn reset(&mut self) -> usize {
        let (count, parents) = if self.random.percent(50) {
            trees::bad(self.random)
        } else {
            let tree = trees::good(self.random);
            let mut parents = trees::parents(&tree);
            for node in [
                0,
                self.random.between(tree.count().min(NODES - 1), NODES - 1),
            ] {
                if !(1..tree.count()).contains(&node) {
                    parents[node] = self.random.byte();
                }
            }
            (tree.count() as u8, parents)
        };
        let request = Request::Reset {
            count,
            parents,
            first_value: self.random.value(),
        };
        let answer = request.answer().expect("a reset is always decided");
        self.tally.reset(answer.number);
        self.requests.push(request);
        0
    }
}
