//! A difference between a proved program and the model: made small, saved, and shown.

use crate::program::{Program, Starter};
use crate::shrink::{answer_pieces, trail_pieces, Shrink};
use referee::answer::{answers, Request, ANSWER_BYTES};
use referee::record::{LINK_BYTES, NODE_BYTES, RECORD_BYTES};
use referee::text::{event_line, from_bytes};
use referee::trail;
use referee::tree::NODES;
use std::fs;
use std::io;
use std::path::{Path, PathBuf};

/// What the model writes for an input; nothing where document 01 leaves it open.
pub fn expected(program: Program, input: &[u8]) -> Option<Vec<u8>> {
    match program {
        Program::Trail => Some(trail::output(input).into_bytes()),
        Program::Answer => answers(input),
    }
}

/// Whether the program and the model differ on an input.
pub fn differs(starter: &Starter, program: Program, input: &[u8]) -> bool {
    expected(program, input).is_some_and(|expected| starter.output(program, input) != Ok(expected))
}

/// A smaller input that still shows the difference.
pub fn smallest(starter: &Starter, program: Program, input: &[u8]) -> Vec<u8> {
    let shrink = Shrink::new(|input: &[u8]| differs(starter, program, input));
    match program {
        Program::Trail => shrink.smallest(trail_pieces(input)),
        Program::Answer => {
            let pieces = answer_pieces(input);
            let alone = pieces
                .iter()
                .position(|piece| differs(starter, program, piece));
            match alone {
                Some(piece) => shrink.smallest(vec![pieces[piece].clone()]),
                None => shrink.smallest(pieces),
            }
        }
    }
}

/// Saves an input as `difference.trail` or `difference.answer`.
pub fn save(folder: &Path, program: Program, input: &[u8]) -> io::Result<PathBuf> {
    fs::create_dir_all(folder)?;
    let file = folder.join("difference").with_extension(program.name());
    fs::write(&file, input)?;
    Ok(file)
}

/// Which program a saved file is for.
pub fn program_of(file: &Path) -> Option<Program> {
    match file.extension()?.to_str()? {
        "trail" => Some(Program::Trail),
        "answer" => Some(Program::Answer),
        _ => None,
    }
}

/// Runs both sides on an input and says in words where they differ.
pub fn describe(starter: &Starter, program: Program, input: &[u8]) -> String {
    let Some(expected) = expected(program, input) else {
        return "document 01 leaves the answer to this input open".to_string();
    };
    match starter.output(program, input) {
        Err(error) => error,
        Ok(output) if output == expected => "no difference".to_string(),
        Ok(output) => match program {
            Program::Trail => describe_trail(input, &expected, &output),
            Program::Answer => describe_answer(input, &expected, &output),
        },
    }
}

fn describe_trail(input: &[u8], expected: &[u8], output: &[u8]) -> String {
    let trail = match from_bytes(input) {
        Ok(text) if text.len() < 2000 => text,
        Ok(_) => "a long trail\n".to_string(),
        Err(bad) => format!(
            "a trail that is bad at offset {}: {}\n",
            bad.offset, bad.why
        ),
    };
    let lines = |bytes| String::from_utf8_lossy(bytes).into_owned();
    let (expected, output) = (lines(expected), lines(output));
    let mut pairs = expected.lines().zip(output.lines());
    let (wanted, printed) = match pairs.find(|(wanted, printed)| wanted != printed) {
        Some(pair) => pair,
        None => (
            expected
                .lines()
                .nth(output.lines().count())
                .unwrap_or("no more"),
            output
                .lines()
                .nth(expected.lines().count())
                .unwrap_or("no more"),
        ),
    };
    format!("{trail}the model prints: {wanted}\nthe program prints: {printed}")
}

fn describe_answer(input: &[u8], expected: &[u8], output: &[u8]) -> String {
    let mut words = format!(
        "the model writes {} bytes, the program {}",
        expected.len(),
        output.len()
    );
    let mut answers = expected
        .chunks(ANSWER_BYTES)
        .zip(output.chunks(ANSWER_BYTES));
    let Some(index) = answers.position(|(wanted, got)| wanted != got) else {
        return words;
    };
    words += &format!("\nrequest {} differs: ", index + 1);
    let piece = answer_pieces(input).into_iter().nth(index);
    words += &match piece.as_deref().and_then(Request::split_first) {
        Some((
            Request::Step {
                event,
                tests_number_2,
                ..
            },
            _,
        )) => {
            let without = if tests_number_2 {
                ""
            } else {
                ", without number 2"
            };
            format!("event {}{without}", event_line(&event))
        }
        Some((Request::Reset { count, .. }, _)) => format!("reset with {count} nodes"),
        None => "no whole request".to_string(),
    };
    let from = index * ANSWER_BYTES;
    let pairs = expected[from..]
        .iter()
        .zip(&output[from..])
        .take(ANSWER_BYTES);
    for (offset, (wanted, got)) in pairs.enumerate().filter(|(_, (wanted, got))| wanted != got) {
        let field = answer_field(offset);
        words += &format!("\n{field}: the model has {wanted}, the program {got}");
    }
    words
}

/// The name of the byte at an offset of an answer.
fn answer_field(offset: usize) -> String {
    match offset {
        0 => "number".to_string(),
        1..9 => format!("value, byte {}", offset - 1),
        _ => record_field(offset - (ANSWER_BYTES - RECORD_BYTES)),
    }
}

/// The name of the byte at an offset of a record, by the tables of docs/FORMAT.md.
fn record_field(offset: usize) -> String {
    let rows = NODES * NODES;
    let mut rest = offset;
    for (name, size, width) in [
        ("count", 1, 1),
        ("parents", NODES, NODES),
        ("rights", NODES, NODES),
        ("entries", rows, NODES),
        ("to-probe", rows, NODES),
        ("pending", rows, NODES),
        ("node", NODES * NODE_BYTES, NODE_BYTES),
        ("link", NODES * LINK_BYTES, LINK_BYTES),
    ] {
        if rest < size {
            return match (size == rows, name) {
                (true, _) => format!("{name} of node {}, cell {}", rest / width, rest % width),
                (_, "node" | "link") => format!("{name} {}, byte {}", rest / width, rest % width),
                _ => format!("{name}, byte {rest}"),
            };
        }
        rest -= size;
    }
    format!("byte {offset}")
}
