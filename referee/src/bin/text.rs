//! The tool for trails by hand: text to bytes, bytes to text, and the explanation of what was printed.

use referee::explain::explain;
use referee::{text, trail};
use std::io::Write;
use std::process::ExitCode;
use std::{env, fs, io};

const USAGE: &str = "usage: text bytes FILE            the trail in FILE, text or bytes, as bytes
       text text FILE             the trail in FILE, text or bytes, as text
       text explain FILE PRINTED  the lines in PRINTED, which the program printed for FILE, explained";

fn main() -> ExitCode {
    let words: Vec<String> = env::args().skip(1).collect();
    let words: Vec<&str> = words.iter().map(String::as_str).collect();
    let result = match words.as_slice() {
        ["bytes", file] => trail_bytes(file).and_then(|bytes| show(&bytes)),
        ["text", file] => trail_text(file).and_then(|text| show(text.as_bytes())),
        ["explain", file, printed] => explained(file, printed),
        _ => {
            eprintln!("{USAGE}");
            return ExitCode::from(2);
        }
    };
    match result {
        Ok(()) => ExitCode::SUCCESS,
        Err(error) => {
            eprintln!("{error}");
            ExitCode::FAILURE
        }
    }
}

fn show(bytes: &[u8]) -> Result<(), String> {
    match io::stdout().write_all(bytes) {
        Err(error) if error.kind() != io::ErrorKind::BrokenPipe => Err(error.to_string()),
        _ => Ok(()),
    }
}

fn read(file: &str) -> Result<Vec<u8>, String> {
    fs::read(file).map_err(|error| format!("{file} can't be read: {error}"))
}

/// The trail in a file, in either form, as bytes.
fn trail_bytes(file: &str) -> Result<Vec<u8>, String> {
    let input = read(file)?;
    if text::is_bytes(&input) {
        return Ok(input);
    }
    let content = String::from_utf8_lossy(&input);
    text::to_bytes(&content).map_err(|error| format!("{file}: {error}"))
}

fn trail_text(file: &str) -> Result<String, String> {
    let bytes = trail_bytes(file)?;
    text::from_bytes(&bytes).map_err(|trail::Bad { offset, why }| {
        format!("{file}: the trail is bad at offset {offset}: {why}")
    })
}

fn explained(file: &str, printed: &str) -> Result<(), String> {
    let bytes = trail_bytes(file)?;
    let lines = String::from_utf8_lossy(&read(printed)?).into_owned();
    match explain(&bytes, &lines) {
        Ok(explained) => show(explained.as_bytes()),
        Err(disagreement) => {
            show(disagreement.explained.as_bytes())?;
            let shown = |line: Option<String>| line.unwrap_or("nothing".to_string());
            Err(format!(
                "the program and the model disagree: the program printed {:?}, the model expects {:?}",
                shown(disagreement.printed),
                shown(disagreement.expected)
            ))
        }
    }
}
