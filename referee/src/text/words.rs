//! The words of the text form that both ways need.

use crate::codes::Choice;
use crate::kinds::{Kind, Way};

/// The kind's name in the event table as one word: "send ProbeAck" is `send-probe-ack`.
pub fn kind_word(kind: Kind) -> String {
    let mut word = String::new();
    for letter in kind.row().name.chars() {
        if letter == ' ' || (letter.is_uppercase() && !word.ends_with('-')) {
            word.push('-');
        }
        if letter != ' ' {
            word.push(letter.to_ascii_lowercase());
        }
    }
    word
}

/// The word before the child.
pub fn child_word(way: Way) -> &'static str {
    match way {
        Way::From => "from",
        Way::To => "to",
    }
}

pub fn choice_word(choice: Choice) -> &'static str {
    match choice {
        Choice::Shared => "shared",
        Choice::Sole => "sole",
    }
}
