//! The step: the first number that applies, and the next configuration where none refuses.

use crate::configuration::Configuration;
use crate::event::Event;
use crate::judge::{configuration_of, judged};
use crate::kinds::Answers;
use crate::record::Record;
use crate::refusal::{Number, Refusal};
use crate::tree::{Tree, NODES};

/// An accepted step.
#[derive(Clone, Debug, PartialEq, Eq)]
pub struct Step {
    pub configuration: Configuration,
    /// The load's value, else 0.
    pub value: u64,
}

/// What comes of an event.
pub type Outcome = Result<Step, Refusal>;

impl Configuration {
    /// Numbers 3 upward, then the effect.
    pub fn step(&self, event: &Event) -> Outcome {
        let (row, act) = judged(self, event)?;
        let value = match row.answers {
            Answers::TheValue => self.nodes[act.node].value,
            Answers::Zero => 0,
        };
        let mut configuration = self.clone();
        (row.rule.effect)(&mut configuration, &act);
        Ok(Step {
            configuration,
            value,
        })
    }
}

pub fn number(outcome: &Outcome) -> Number {
    match outcome {
        Ok(_) => Number::Accepted,
        Err(refusal) => refusal.number(),
    }
}

/// What a caller gets: number, value, record.
#[derive(Clone, Debug, PartialEq, Eq)]
pub struct Answer {
    pub number: u8,
    pub value: u64,
    pub record: Record,
}

impl Answer {
    fn accepted(configuration: &Configuration, value: u64) -> Answer {
        Answer {
            number: Number::Accepted.code(),
            value,
            record: configuration.to_record(),
        }
    }

    /// A refusal returns value 0 and the configuration unchanged, bad ones included.
    fn refused(refusal: &Refusal, record: &Record) -> Answer {
        Answer {
            number: refusal.number().code(),
            value: 0,
            record: record.clone(),
        }
    }
}

/// The reset. A bad tree gives number 1 and an all-zero record.
pub fn reset(count: u8, parents: &[u8; NODES], first_value: u64) -> Answer {
    match Tree::new(count, parents) {
        Some(tree) => Answer::accepted(&Configuration::reset(tree, first_value), 0),
        None => Answer::refused(&Refusal::BadTree, &Record::default()),
    }
}

/// The step of a record, with all its numbers.
pub fn step(record: &Record, event: &Event) -> Answer {
    match configuration_of(record).and_then(|configuration| configuration.step(event)) {
        Ok(step) => Answer::accepted(&step.configuration, step.value),
        Err(refusal) => Answer::refused(&refusal, record),
    }
}

/// The step without the test for number 2. Document 01 says nothing of a record that isn't a configuration, so
/// there is no answer then. Elsewhere the missing test changes nothing.
pub fn step_without_number_2(record: &Record, event: &Event) -> Option<Answer> {
    let answer = step(record, event);
    (answer.number != Number::NotAConfiguration.code()).then_some(answer)
}
