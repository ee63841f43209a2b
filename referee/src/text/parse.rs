//! From text to bytes.

use super::words::{child_word, choice_word, kind_word};
use crate::codes::Choice;
use crate::event::Event;
use crate::kinds::{Kind, Other, Value};
use crate::trail::{Trail, LIMIT};
use crate::tree::{Tree, NODES};
use std::fmt;
use std::str::FromStr;

/// A line that can't be parsed.
#[derive(Clone, Debug, PartialEq, Eq)]
pub struct TextError {
    pub line: usize,
    pub what: String,
}

impl fmt::Display for TextError {
    fn fmt(&self, f: &mut fmt::Formatter) -> fmt::Result {
        write!(f, "line {}: {}", self.line, self.what)
    }
}

/// The bytes of a trail in text.
pub fn to_bytes(text: &str) -> Result<Vec<u8>, TextError> {
    let mut first: Option<(Tree, u64)> = None;
    let mut events = Vec::new();
    let mut line = 0;
    for raw in text.lines() {
        line += 1;
        let error = |what| TextError { line, what };
        let content = raw.split('#').next().unwrap_or("");
        let words: Vec<&str> = content.split_whitespace().collect();
        if words.is_empty() {
            continue;
        }
        let Some((tree, _)) = first else {
            first = Some(parse_tree(&words).map_err(error)?);
            continue;
        };
        events.push(parse_event(&words).map_err(error)?);
        if Trail::size(&tree, events.len()) > LIMIT {
            let most = events.len() - 1;
            return Err(error(format!(
                "too long: on this tree a trail holds {most} events"
            )));
        }
    }
    match first {
        Some((tree, first_value)) => Ok(Trail::to_bytes(&tree, first_value, &events)),
        None => Err(TextError {
            line: line.max(1),
            what: "the text ends without a line such as: tree 0 0 first 7".to_string(),
        }),
    }
}

fn parse_tree(words: &[&str]) -> Result<(Tree, u64), String> {
    let ["tree", parents @ .., "first", value] = words else {
        return Err("the first line is: tree PARENT... first VALUE".to_string());
    };
    let first_value = number::<u64>(value, "first value")?;
    let parents = parents
        .iter()
        .map(|word| number::<u8>(word, "parent"))
        .collect::<Result<Vec<_>, _>>()?;
    let (most, given) = (NODES - 1, parents.len());
    if !(1..=most).contains(&given) {
        return Err(format!(
            "a tree has 1 to {most} parents, those of nodes 1 upward; here are {given}"
        ));
    }
    for (node, &parent) in (1..).zip(&parents) {
        if usize::from(parent) >= node {
            return Err(format!(
                "parent {parent} of node {node} isn't smaller than {node}"
            ));
        }
    }
    let tree = Tree::of_parents(&parents).expect("each parent is smaller than its node");
    Ok((tree, first_value))
}

fn parse_event(words: &[&str]) -> Result<Event, String> {
    let is_number = |word: &&str| word.bytes().all(|byte| byte.is_ascii_digit());
    if let ([kind, node, other, value], true) = (words, words.iter().all(is_number)) {
        return Ok(Event {
            kind: number(kind, "kind")?,
            node: number(node, "node")?,
            other: number(other, "other")?,
            value: number(value, "value")?,
        });
    }
    let kind = parse_kind(words[0])?;
    let usage = || format!("kind {} is written: {}", kind.code(), form(kind));
    let node = number(words.get(1).ok_or_else(usage)?, "node")?;
    let row = kind.row();
    let rest = words[2..].split_at_checked(other_words(row.other));
    let (other, value) = rest.ok_or_else(usage)?;
    let value = match (row.value, value) {
        (Value::Stored, ["value", value]) => number(value, "value")?,
        (Value::Zero, []) => 0,
        (Value::Stored | Value::Zero, _) => return Err(usage()),
    };
    let other = match (row.other, other) {
        (Other::Child(way), [word, child]) if *word == child_word(way) => number(child, "child")?,
        (Other::Choice, [word]) => choice_of(word).ok_or_else(usage)?.code(),
        (Other::Zero, []) => 0,
        (Other::Child(_) | Other::Choice | Other::Zero, _) => return Err(usage()),
    };
    Ok(Event {
        kind: kind.code(),
        node,
        other,
        value,
    })
}

/// How many words say what "other" is.
fn other_words(other: Other) -> usize {
    match other {
        Other::Child(_) => 2,
        Other::Choice => 1,
        Other::Zero => 0,
    }
}

fn choice_of(word: &str) -> Option<Choice> {
    let mut choices = Choice::ALL.iter().copied();
    choices.find(|&choice| choice_word(choice) == word)
}

fn parse_kind(word: &str) -> Result<Kind, String> {
    if let Some(&kind) = Kind::ALL.iter().find(|kind| kind_word(**kind) == word) {
        return Ok(kind);
    }
    match word.parse() {
        Ok(code) => Kind::from_code(code)
            .ok_or_else(|| format!("kind {code} has no name; write the event as four numbers")),
        Err(_) => Err(format!("no kind is called {word:?}")),
    }
}

fn number<T: FromStr>(word: &str, what: &str) -> Result<T, String> {
    word.parse().map_err(|_| {
        let bits = 8 * size_of::<T>();
        format!("{what} {word:?} isn't a decimal number of at most {bits} bits")
    })
}

/// How an event of a kind is written.
fn form(kind: Kind) -> String {
    let (row, word) = (kind.row(), kind_word(kind));
    let value = match row.value {
        Value::Stored => " value VALUE",
        Value::Zero => "",
    };
    let others = match row.other {
        Other::Child(way) => vec![format!(" {} CHILD", child_word(way))],
        Other::Choice => {
            let word = |&choice: &Choice| format!(" {}", choice_word(choice));
            Choice::ALL.iter().map(word).collect()
        }
        Other::Zero => vec![String::new()],
    };
    let form = |other: String| format!("{word} NODE{other}{value}");
    let forms: Vec<String> = others.into_iter().map(form).collect();
    forms.join(", or ")
}
