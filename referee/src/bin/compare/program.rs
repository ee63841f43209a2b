//! Starting a program and feeding it.

use std::io::{self, Read, Write};
use std::path::PathBuf;
use std::process::{Command, Stdio};
use std::thread;

/// Which of the two proved programs.
#[derive(Clone, Copy, Debug, PartialEq, Eq)]
pub enum Program {
    Trail,
    Answer,
}

impl Program {
    pub fn name(self) -> &'static str {
        match self {
            Program::Trail => "trail",
            Program::Answer => "answer",
        }
    }
}

/// What starts the programs: `starter NAME < input`.
#[derive(Clone, Debug)]
pub struct Starter {
    pub path: PathBuf,
}

impl Starter {
    /// What the program writes for an input. It is an error if it can't be started or a signal ends it.
    pub fn output(&self, program: Program, input: &[u8]) -> Result<Vec<u8>, String> {
        let failed = |what: &str, error: io::Error| format!("{} {what}: {error}", program.name());
        let mut child = Command::new(&self.path)
            .arg(program.name())
            .stdin(Stdio::piped())
            .stdout(Stdio::piped())
            .spawn()
            .map_err(|error| failed("can't be started", error))?;
        let mut to = child.stdin.take().expect("stdin is piped");
        let mut from = child.stdout.take().expect("stdout is piped");
        let mut output = Vec::new();
        let read = thread::scope(|scope| {
            // The program may end before it has read everything: a closed pipe is no error.
            scope.spawn(move || to.write_all(input).ok());
            from.read_to_end(&mut output)
        });
        read.map_err(|error| failed("can't be read", error))?;
        let status = child
            .wait()
            .map_err(|error| failed("can't be awaited", error))?;
        match status.code() {
            Some(_) => Ok(output),
            None => Err(format!("{} was ended: {status}", program.name())),
        }
    }
}
