//! Compares the proved programs `trail` and `answer` with the model, on random inputs.

mod broken;
mod difference;
mod endings;
mod events;
mod program;
mod random;
mod requests;
mod scattered;
mod shrink;
mod table;
mod tally;
mod trails;
mod trees;
mod walk;
mod work;

use program::Starter;
use std::path::{Path, PathBuf};
use std::process::{exit, ExitCode};
use std::time::{Instant, SystemTime, UNIX_EPOCH};
use std::{env, fs};
use work::{Found, Plan};

const USAGE: &str = "usage: ./compare [--long] [--seed N] [--model]
       ./compare --again FILE
  --long        at least 10 million events, from another seed each time; else some 300,000 from a fixed seed
  --seed N      the seed
  --model       the model in the place of the proved programs: a test of the comparison itself
  --again FILE  both sides once more on a saved difference";

const GATE: Plan = Plan {
    rows: 90,
    long_trails: 4,
    short_trails: 16,
};
const LONG: Plan = Plan {
    rows: 2600,
    long_trails: 170,
    short_trails: 400,
};
const GATE_SEED: u64 = 20191203;

struct Options {
    root: PathBuf,
    long: bool,
    seed: Option<u64>,
    model: bool,
    again: Option<PathBuf>,
}

fn options() -> Option<Options> {
    let mut options = Options {
        root: PathBuf::from("."),
        long: false,
        seed: None,
        model: false,
        again: None,
    };
    let mut words = env::args().skip(1);
    while let Some(word) = words.next() {
        match word.as_str() {
            "--help" => {
                println!("{USAGE}");
                exit(0);
            }
            "--root" => options.root = words.next()?.into(),
            "--long" => options.long = true,
            "--model" => options.model = true,
            "--seed" => options.seed = Some(words.next()?.parse().ok()?),
            "--again" => options.again = Some(words.next()?.into()),
            _ => return None,
        }
    }
    Some(options)
}

fn main() -> ExitCode {
    let Some(options) = options() else {
        eprintln!("{USAGE}");
        return ExitCode::from(2);
    };
    let starter = Starter {
        path: if options.model {
            let this = env::current_exe().expect("this program has a path");
            this.with_file_name("model")
        } else {
            options.root.join("tools/run")
        },
    };
    match &options.again {
        Some(file) => again(&starter, file),
        None => compare(&options, &starter),
    }
}

fn again(starter: &Starter, file: &Path) -> ExitCode {
    let Some(program) = difference::program_of(file) else {
        eprintln!(
            "{}: a saved difference ends in .trail or .answer",
            file.display()
        );
        return ExitCode::from(2);
    };
    let input = match fs::read(file) {
        Ok(input) => input,
        Err(error) => {
            eprintln!("{} can't be read: {error}", file.display());
            return ExitCode::from(2);
        }
    };
    println!("{}", difference::describe(starter, program, &input));
    ExitCode::from(u8::from(difference::differs(starter, program, &input)))
}

fn compare(options: &Options, starter: &Starter) -> ExitCode {
    let plan = if options.long { LONG } else { GATE };
    let seed = options.seed.unwrap_or_else(|| match options.long {
        true => SystemTime::now()
            .duration_since(UNIX_EPOCH)
            .map_or(0, |now| now.as_secs()),
        false => GATE_SEED,
    });
    println!("seed {seed}");
    let start = Instant::now();
    let (tally, found) = work::compare(&plan, seed, starter);
    if let Some(found) = found {
        return show(options, starter, &found);
    }
    let (table, missing) = tally.report();
    println!("{table}");
    if !missing.is_empty() {
        println!("compare: never met: {}", missing.join("; "));
        return ExitCode::FAILURE;
    }
    println!(
        "compare: no difference in {} events of {} requests and {} trails, in {:.1} seconds.",
        tally.events,
        tally.requests,
        tally.trails,
        start.elapsed().as_secs_f64()
    );
    ExitCode::SUCCESS
}

fn show(options: &Options, starter: &Starter, found: &Found) -> ExitCode {
    let program = found.program;
    println!("a difference of {}; making it small", program.name());
    let input = difference::smallest(starter, program, &found.input);
    println!("{}", difference::describe(starter, program, &input));
    let folder = options.root.join("target/compare");
    match difference::save(&folder, program, &input) {
        Ok(file) => println!(
            "compare: a difference, saved; see it again with: ./compare --again {}",
            file.display()
        ),
        Err(error) => println!("compare: a difference, which can't be saved: {error}"),
    }
    ExitCode::FAILURE
}
