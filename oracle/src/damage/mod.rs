//! Damaged books for the C interface: the cases, what this program says of each, and the comparison.
//! They follow no section of the rules. A case is a call with all that it is lent; it is settled by the seed and its number, on
//! every machine alike, so the one who compares makes the cases again. c/damage.c makes the calls.

mod books;
mod calls;
mod case;
mod compare;
mod harm;
mod said;
mod tally;

pub use case::{Case, Record, Told, MEMORY_BYTES};
pub use compare::compare;
pub use tally::Tally;

use crate::scripts::Random;
use books::Snapshot;
use harm::Harm;
use std::io::{self, Write};

/// So many cases are made from one valid book and its memory.
const CASES_OF_A_BOOK: u64 = 40;

/// Hands every record of a seed to `each`, in order: a memory, the cases on it, the next memory, and so on; a last memory ends them.
pub fn records(
    seed: u64,
    cases: u64,
    mut each: impl FnMut(Record) -> io::Result<()>,
) -> io::Result<()> {
    let mut random = Random::new(seed, 0);
    let mut left = cases;
    for script in 0.. {
        for book in books::snapshots(seed, script) {
            each(Record::Memory(&book.memory))?;
            for _ in 0..left.min(CASES_OF_A_BOOK) {
                each(Record::Case(&case(&mut random, &book)))?;
            }
            left -= left.min(CASES_OF_A_BOOK);
            if left == 0 {
                return each(Record::Memory(&[0; MEMORY_BYTES]));
            }
        }
    }
    Ok(())
}

fn case(random: &mut Random, book: &Snapshot) -> Case {
    let harm = random.pick(&Harm::ALL);
    let mut words = book.words(random);
    harm.does(random, &mut words);
    calls::case(random, book, harm, words)
}

/// Writes the records as bytes, for c/damage.c to read.
pub fn write(seed: u64, cases: u64, mut output: impl Write) -> io::Result<()> {
    records(seed, cases, |record| output.write_all(&record.bytes()))?;
    output.flush()
}
