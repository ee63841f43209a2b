//! From bytes to text.

use super::words::{child_word, choice_word, kind_word};
use crate::codes::Choice;
use crate::event::Event;
use crate::kinds::{Kind, Other, Value};
use crate::trail::{Bad, Trail};

/// The text of a good trail in bytes.
pub fn from_bytes(input: &[u8]) -> Result<String, Bad> {
    let trail = Trail::read(input);
    if let Some(bad) = trail.bad {
        return Err(bad);
    }
    let (tree, first_value) = trail.first.expect("a good trail has a first record");
    let mut text = "tree".to_string();
    for node in 1..tree.count() {
        text += &format!(" {}", tree.parent(node));
    }
    text += &format!(" first {first_value}\n");
    for event in &trail.events {
        text += &event_line(event);
        text.push('\n');
    }
    Ok(text)
}

/// An event by its name where that says everything, else its four numbers.
pub fn event_line(event: &Event) -> String {
    let Event {
        kind,
        node,
        other,
        value,
    } = *event;
    named(event).unwrap_or_else(|| format!("{kind} {node} {other} {value}"))
}

fn named(event: &Event) -> Option<String> {
    let kind = Kind::from_code(event.kind)?;
    let other = match kind.row().other {
        Other::Child(way) => format!(" {} {}", child_word(way), event.other),
        Other::Choice => format!(" {}", choice_word(Choice::from_code(event.other)?)),
        Other::Zero => (event.other == 0).then(String::new)?,
    };
    let value = match kind.row().value {
        Value::Stored => format!(" value {}", event.value),
        Value::Zero => (event.value == 0).then(String::new)?,
    };
    Some(format!("{} {}{other}{value}", kind_word(kind), event.node))
}
