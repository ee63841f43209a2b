//! The first number that applies: document 01 gives them in the order 1, 2, 3, 4, 5.

use crate::codes::Choice;
use crate::configuration::Configuration;
use crate::event::Event;
use crate::kinds::{Kind, Other, Row, Value};
use crate::record::Record;
use crate::refusal::{Fault, Refusal};
use crate::rules::{Act, Scene};
use crate::tree::Tree;

/// Numbers 1 and 2: the configuration that a record holds.
pub fn configuration_of(record: &Record) -> Result<Configuration, Refusal> {
    let tree = record.tree().ok_or(Refusal::BadTree)?;
    Configuration::from_record(tree, record).map_err(Refusal::NotAConfiguration)
}

/// Numbers 3 upward: the row of an event that is accepted, and what its effect acts by.
pub fn judged(
    configuration: &Configuration,
    event: &Event,
) -> Result<(&'static Row, Act), Refusal> {
    let (row, act) = named(&configuration.tree, event).map_err(Refusal::BadEvent)?;
    let scene = Scene { configuration, act };
    match TESTS.iter().find_map(|test| test(row, &scene)) {
        Some(refusal) => Err(refusal),
        None => Ok((row, act)),
    }
}

/// The tests after number 3, in the order in which their numbers are given.
const TESTS: &[fn(&Row, &Scene) -> Option<Refusal>] = &[wrong_place, missing_need];

/// Number 3: a kind of the list; node in the tree; other as named; value 0 where it must be.
pub fn named(tree: &Tree, event: &Event) -> Result<(&'static Row, Act), Fault> {
    let row = Kind::from_code(event.kind).ok_or(Fault::Kind)?.row();
    let act = Act {
        node: usize::from(event.node),
        other: usize::from(event.other),
        value: event.value,
    };
    if !tree.nodes().contains(&act.node) {
        return Err(Fault::Node);
    }
    let other_named = match row.other {
        Other::Child(_) => tree.is_child(act.other, act.node),
        Other::Choice => Choice::from_code(event.other).is_some(),
        Other::Zero => act.other == 0,
    };
    if !other_named {
        return Err(Fault::Other);
    }
    let value_named = match row.value {
        Value::Stored => true,
        Value::Zero => act.value == 0,
    };
    if !value_named {
        return Err(Fault::Value);
    }
    Ok((row, act))
}

/// Number 4: the kind doesn't happen at this node.
fn wrong_place(row: &Row, scene: &Scene) -> Option<Refusal> {
    let allowed = row.place.allows(&scene.configuration.tree, scene.act.node);
    (!allowed).then_some(Refusal::WrongPlace(row.place))
}

/// Number 5: the kind's needs don't hold.
fn missing_need(row: &Row, scene: &Scene) -> Option<Refusal> {
    row.rule.missing(scene).map(Refusal::Need)
}
