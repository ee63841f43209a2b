//! Random events: those that a configuration accepts, those that it nearly accepts, and any others.

use crate::random::Random;
use referee::codes::Choice;
use referee::configuration::Configuration;
use referee::event::Event;
use referee::judge::{judged, named};
use referee::kinds::{Kind, Other, Row, Value};
use referee::rules::{Act, Scene};
use referee::tree::{Tree, NODES};

/// Every event that numbers 3 and 4 let pass on a tree; stores with value 0.
pub fn candidates(tree: &Tree) -> Vec<Event> {
    let mut events = Vec::new();
    for &kind in Kind::ALL {
        for node in tree.nodes() {
            let others: Vec<u8> = match kind.row().other {
                Other::Child(_) => tree.children(node).map(|child| child as u8).collect(),
                Other::Choice => Choice::ALL.iter().map(|choice| choice.code()).collect(),
                Other::Zero => vec![0],
            };
            events.extend(others.into_iter().map(|other| Event {
                kind: kind.code(),
                node: node as u8,
                other,
                value: 0,
            }));
        }
    }
    events.retain(|event| placed(tree, event).is_some());
    events
}

/// The row and the act of an event that numbers 3 and 4 let pass.
fn placed(tree: &Tree, event: &Event) -> Option<(&'static Row, Act)> {
    let (row, act) = named(tree, event).ok()?;
    row.place.allows(tree, act.node).then_some((row, act))
}

/// The positions of the needs that don't hold, for an event that numbers 3 and 4 let pass.
pub fn failing(configuration: &Configuration, event: &Event) -> Option<Vec<usize>> {
    let (row, act) = placed(&configuration.tree, event)?;
    let scene = Scene { configuration, act };
    let needs = row.rule.listed(scene.purpose()).enumerate();
    let failing = needs.filter(|(_, (need, asked))| *asked && !(need.holds)(&scene));
    Some(failing.map(|(position, _)| position).collect())
}

/// The candidates that a configuration accepts.
pub fn accepted(configuration: &Configuration, candidates: &[Event]) -> Vec<Event> {
    let mut events = candidates.to_vec();
    events.retain(|event| judged(configuration, event).is_ok());
    events
}

/// A candidate that one need alone refuses: the kind and the need first, whatever the number of their events.
fn nearly_accepted(
    random: &mut Random,
    configuration: &Configuration,
    candidates: &[Event],
) -> Option<Event> {
    let near: Vec<(u8, usize, Event)> = candidates
        .iter()
        .filter_map(|event| match failing(configuration, event)?[..] {
            [need] => Some((event.kind, need, *event)),
            _ => None,
        })
        .collect();
    let mut causes: Vec<(u8, usize)> = near.iter().map(|&(kind, need, _)| (kind, need)).collect();
    causes.sort_unstable();
    causes.dedup();
    if causes.is_empty() {
        return None;
    }
    let cause = random.pick(&causes);
    let events: Vec<Event> = near
        .into_iter()
        .filter(|&(kind, need, _)| (kind, need) == cause)
        .map(|(_, _, event)| event)
        .collect();
    Some(random.pick(&events))
}

/// One more than the last kind's code.
pub const KIND_CODES: usize = Kind::LAST as usize + 1;

/// How often each kind is preferred, by its code.
pub type Weights = [usize; KIND_CODES];

/// One event, its kind first: by weight, whatever the number of its events.
pub fn choose(random: &mut Random, events: &[Event], weights: &Weights) -> Option<Event> {
    let mut kinds: Vec<u8> = events.iter().map(|event| event.kind).collect();
    kinds.dedup();
    let total: usize = kinds.iter().map(|&kind| weights[usize::from(kind)]).sum();
    if total == 0 {
        return None;
    }
    let mut left = random.below(total);
    let kind = kinds.into_iter().find(|&kind| {
        let weight = weights[usize::from(kind)];
        let found = left < weight;
        left = left.saturating_sub(weight);
        found
    })?;
    let of_kind: Vec<Event> = events
        .iter()
        .copied()
        .filter(|event| event.kind == kind)
        .collect();
    let mut event = random.pick(&of_kind);
    event.value = value(random, Kind::from_code(kind)?);
    Some(event)
}

/// A value as it is named for a kind.
fn value(random: &mut Random, kind: Kind) -> u64 {
    match kind.row().value {
        Value::Stored => random.value(),
        Value::Zero => 0,
    }
}

/// An event that is accepted, or that one need alone refuses, or any.
pub fn aimed(random: &mut Random, configuration: &Configuration, candidates: &[Event]) -> Event {
    let chosen = match random.below(10) {
        0..3 => choose(
            random,
            &accepted(configuration, candidates),
            &[1; KIND_CODES],
        ),
        3..7 => nearly_accepted(random, configuration, candidates),
        _ => None,
    };
    chosen.unwrap_or_else(|| any(random, &configuration.tree))
}

/// Any event, one in three damaged at one place.
pub fn any(random: &mut Random, tree: &Tree) -> Event {
    let kind = random.pick(Kind::ALL);
    let node = random.below(tree.count());
    let other = match kind.row().other {
        Other::Child(_) => {
            let children: Vec<usize> = tree.children(node).collect();
            let child = match children.is_empty() {
                true => random.below(tree.count()),
                false => random.pick(&children),
            };
            child as u8
        }
        Other::Choice => random.pick(Choice::ALL).code(),
        Other::Zero => 0,
    };
    let mut event = Event {
        kind: kind.code(),
        node: node as u8,
        other,
        value: value(random, kind),
    };
    if random.percent(33) {
        damage(random, tree, &mut event);
    }
    event
}

/// A number that no kind has: next to a kind's, the last, or any.
fn no_kind(random: &mut Random) -> u8 {
    let has = |code: u8| Kind::from_code(code).is_some();
    let none: Vec<u8> = (0..=u8::MAX).filter(|&code| !has(code)).collect();
    let beside = |code: u8| has(code.saturating_add(1)) || has(code.saturating_sub(1));
    let edges: Vec<u8> = none
        .iter()
        .copied()
        .filter(|&code| beside(code) || code == u8::MAX)
        .collect();
    match random.percent(60) {
        true => random.pick(&edges),
        false => random.pick(&none),
    }
}

fn damage(random: &mut Random, tree: &Tree, event: &mut Event) {
    let count = tree.count() as u8;
    let anything = random.byte();
    let limit = NODES as u8;
    let places = [0, 1, 2, count - 1, count, limit - 1, limit, 255, anything];
    match random.below(5) {
        0 => event.kind = no_kind(random),
        1 => event.node = random.pick(&places),
        2 => event.other = random.pick(&places),
        3 => event.value = random.nonzero(),
        _ => {
            let kinds: Vec<Kind> = Kind::ALL
                .iter()
                .copied()
                .filter(|kind| kind.row().place.is_judged())
                .collect();
            event.kind = random.pick(&kinds).code();
            event.node = random.below(tree.count()) as u8;
            event.other = 0;
            event.value = 0;
        }
    }
}
