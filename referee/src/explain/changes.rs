//! What an accepted step changed, in words.

use crate::configuration::Configuration;
use crate::link::Link;
use crate::node::{Node, Set};

/// What an accepted step at a node changed, besides the node's name.
pub fn changes(before: &Configuration, after: &Configuration, node: usize) -> Vec<String> {
    let mut words = Vec::new();
    let parent = before.tree.parent(node);
    words.extend(messages(&before.links[node], &after.links[node], parent));
    for child in before.tree.children(node) {
        words.extend(messages(&before.links[child], &after.links[child], child));
    }
    let (old, new) = (&before.nodes[node], &after.nodes[node]);
    for child in before.tree.children(node) {
        let (was, is) = (old.entries[child], new.entries[child]);
        if was != is {
            words.push(format!("entry of node {child} {was:?} -> {is:?}"));
        }
    }
    words.extend(data(old, new));
    words.extend(transactions(old, new));
    words
}

/// The messages that were put on a link or taken from it; `peer` is the node at its other end.
fn messages(old: &Link, new: &Link, peer: usize) -> Vec<String> {
    let (old, new) = (slots(old), slots(new));
    old.into_iter()
        .zip(new)
        .filter_map(|change| match change {
            (None, Some(message)) => Some(format!("sends {message} to node {peer}")),
            (Some(message), None) => Some(format!("takes {message} from node {peer}")),
            (None, None) | (Some(_), Some(_)) => None,
        })
        .collect()
}

/// The five slots of a link in words.
fn slots(link: &Link) -> [Option<String>; 5] {
    let Link { a, b, c, d, e } = *link;
    let with = |data: Option<u64>| data.map_or(String::new(), |value| format!(" with {value}"));
    [
        a.map(|message| format!("{message:?}")),
        b.map(|cap| cap.message().to_string()),
        c.map(|message| {
            let kept = message.kept().map(|kept| format!(" (kept {kept:?})"));
            let kept = kept.unwrap_or_default();
            format!("{:?}{kept}{}", message.code(), with(message.data()))
        }),
        d.map(|message| format!("{:?}{}", message.code(), with(message.data()))),
        e.map(|message| format!("{message:?}")),
    ]
}

fn data(old: &Node, new: &Node) -> Vec<String> {
    let mut words = Vec::new();
    if old.value != new.value {
        words.push(format!("value {}", new.value));
    }
    match (old.dirty, new.dirty) {
        (false, true) => words.push("dirty".to_string()),
        (true, false) => words.push("clean".to_string()),
        (false, false) | (true, true) => {}
    }
    words
}

fn transactions(old: &Node, new: &Node) -> Vec<String> {
    let mut words = Vec::new();
    if old.phase != new.phase {
        let purpose = match new.purpose.filter(|_| old.purpose.is_none()) {
            Some(purpose) => format!(", purpose {purpose:?}").to_lowercase(),
            None => String::new(),
        };
        words.push(format!("{:?} -> {:?}{purpose}", old.phase, new.phase));
    }
    match (old.probe, new.probe) {
        (None, Some(cap)) => words.push(format!("opens a probe with cap {cap:?}")),
        (Some(_), None) => words.push("closes the probe".to_string()),
        (None, None) | (Some(_), Some(_)) => {}
    }
    match (old.release, new.release) {
        (None, Some(child)) => words.push(format!("owes ReleaseAck to node {child}")),
        (Some(_), None) => words.push("closes the release".to_string()),
        (None, None) | (Some(_), Some(_)) => {}
    }
    if let Some(members) = members(&new.to_probe).filter(|_| old.to_probe != new.to_probe) {
        words.push(format!("still to probe: {members}"));
    }
    if let Some(members) = members(&new.pending).filter(|_| old.pending != new.pending) {
        words.push(format!("ProbeAck pending: {members}"));
    }
    words
}

fn members(set: &Set) -> Option<String> {
    let members: Vec<String> = (0..set.len())
        .filter(|&child| set[child])
        .map(|child| child.to_string())
        .collect();
    (!members.is_empty()).then(|| members.join(" "))
}
