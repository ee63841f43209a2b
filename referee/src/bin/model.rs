//! The model in the place of the proved programs: what they should write for an input.

use referee::{answer, trail};
use std::io::{self, Read, Write};
use std::process::ExitCode;

fn main() -> ExitCode {
    let Some(program) = std::env::args().nth(1) else {
        eprintln!("usage: model trail|answer < INPUT");
        return ExitCode::from(2);
    };
    let mut input = Vec::new();
    if let Err(error) = io::stdin().read_to_end(&mut input) {
        eprintln!("the input can't be read: {error}");
        return ExitCode::FAILURE;
    }
    let output = match program.as_str() {
        "trail" => Some(trail::output(&input).into_bytes()),
        "answer" => answer::answers(&input),
        _ => {
            eprintln!("no program is called {program:?}");
            return ExitCode::from(2);
        }
    };
    let Some(output) = output else {
        eprintln!("document 01 leaves an answer open: a step without number 2 on what isn't a configuration");
        return ExitCode::FAILURE;
    };
    match io::stdout().write_all(&output) {
        Ok(()) => ExitCode::SUCCESS,
        Err(error) => {
            eprintln!("the output can't be written: {error}");
            ExitCode::FAILURE
        }
    }
}
