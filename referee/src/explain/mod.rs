//! What happened at each line of a trail, in the paper's words.

mod changes;

use crate::configuration::Configuration;
use crate::event::Event;
use crate::kinds::{Answers, Kind};
use crate::step::{Outcome, Step};
use crate::trail::{last_line, line, Trail};
use changes::changes;

/// The printed lines are not the model's.
#[derive(Clone, Debug, PartialEq, Eq)]
pub struct Disagreement {
    /// The explained lines before it.
    pub explained: String,
    pub printed: Option<String>,
    pub expected: Option<String>,
}

/// The lines that the program printed for a trail, each with what happened beside it.
pub fn explain(input: &[u8], printed: &str) -> Result<String, Disagreement> {
    let trail = Trail::read(input);
    let mut expected: Vec<(String, String)> = Vec::new();
    let last = trail.run(|before, event, outcome| {
        let index = expected.len() + 1;
        expected.push((
            line(index, event, outcome),
            happened(before, event, outcome),
        ));
    });
    expected.push((
        last_line(trail.bad, last.as_ref()),
        trail.bad.map_or(String::new(), |bad| bad.why.to_string()),
    ));
    let explained_lines = expected.iter().filter(|(_, words)| !words.is_empty());
    let width = explained_lines.map(|(line, _)| line.len()).max();
    let width = width.unwrap_or(0);

    let mut explained = String::new();
    let mut printed = printed.lines();
    for (line, words) in &expected {
        let shown = printed.next();
        if shown != Some(line) {
            return Err(Disagreement {
                explained,
                printed: shown.map(str::to_string),
                expected: Some(line.clone()),
            });
        }
        explained += format!("{line:<width$}  {words}").trim_end();
        explained.push('\n');
    }
    match printed.next() {
        Some(more) => Err(Disagreement {
            explained,
            printed: Some(more.to_string()),
            expected: None,
        }),
        None => Ok(explained),
    }
}

/// The kind's name, the node's name before and after, and what changed or why it was refused.
fn happened(before: &Configuration, event: &Event, outcome: &Outcome) -> String {
    let node = usize::from(event.node);
    let kind = Kind::from_code(event.kind);
    let name = match kind {
        Some(kind) => kind.row().name.to_string(),
        None => format!("kind {}", event.kind),
    };
    let place = format!("{name} at node {node}");
    match outcome {
        Err(refusal) => {
            let stays = match before.tree.nodes().contains(&node) {
                true => format!(" stays {};", before.nodes[node].name()),
                false => String::new(),
            };
            let number = refusal.number().code();
            format!("{place}:{stays} refused with {number}: {refusal}")
        }
        Ok(step) => {
            let (old, new) = (&before.nodes[node], &step.configuration.nodes[node]);
            let names = if old.name() == new.name() {
                format!("stays {}", old.name())
            } else {
                format!("{} -> {}", old.name(), new.name())
            };
            let mut words = vec![format!("{place}: {names}")];
            words.extend(changes(before, &step.configuration, node));
            words.extend(kind.and_then(|kind| answer(kind, step)));
            words.join("; ")
        }
    }
}

fn answer(kind: Kind, step: &Step) -> Option<String> {
    match kind.row().answers {
        Answers::TheValue => Some(format!("answers {}", step.value)),
        Answers::Zero => None,
    }
}
