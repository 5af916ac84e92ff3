//! Damaged books for the C interface.
//!
//!     damage make SEED CASES          writes the cases, for c/damage.c to read
//!     damage compare SEED CASES       reads what c/damage.c wrote and compares it; prints the counts

use std::io::{self, BufReader, BufWriter, Error};
use std::process::ExitCode;

use oracle::damage::{compare, write};

const USAGE: &str = "usage: damage make SEED CASES | damage compare SEED CASES";

fn main() -> ExitCode {
    let words: Vec<String> = std::env::args().skip(1).collect();
    let words: Vec<&str> = words.iter().map(String::as_str).collect();
    let (what, seed, cases) = match words.as_slice() {
        [what @ ("make" | "compare"), seed, cases] => (*what, seed.parse(), cases.parse()),
        _ => return usage(),
    };
    let (Ok(seed), Ok(cases)) = (seed, cases) else {
        return usage();
    };
    let done = match what {
        "make" => write(seed, cases, BufWriter::with_capacity(1 << 20, io::stdout())),
        _ => compared(seed, cases),
    };
    match done {
        Ok(()) => ExitCode::SUCCESS,
        Err(error) => {
            eprintln!("damage: {error}");
            ExitCode::FAILURE
        }
    }
}

fn usage() -> ExitCode {
    eprintln!("{USAGE}");
    ExitCode::from(2)
}

/// Compares, prints the counts, and fails where something was never reached.
fn compared(seed: u64, cases: u64) -> io::Result<()> {
    let tally = compare(seed, cases, BufReader::with_capacity(1 << 20, io::stdin()))?;
    print!("{}", tally.lines());
    println!("{} cases: no difference", tally.cases);
    let missing = tally.missing();
    if !missing.is_empty() {
        let missing = missing.join(", ");
        return Err(Error::other(format!("never reached: {missing}")));
    }
    Ok(())
}
