//! Compares what came back with what this program says.

use super::case::{Record, Told, MEMORY_BYTES, TOLD_BYTES};
use super::{records, Tally};
use std::io::{self, Error, Read};

/// Reads what c/damage.c wrote for a seed's cases. The first difference is an error, as is a byte too few or too many.
pub fn compare(seed: u64, cases: u64, mut input: impl Read) -> io::Result<Tally> {
    let mut tally = Tally::default();
    // The program's memory starts as zeros; what it holds comes back when the next one is sent.
    let mut memory = Box::new([0; MEMORY_BYTES]);
    let mut back = Box::new([0; MEMORY_BYTES]);
    let mut bytes = Box::new([0; TOLD_BYTES]);
    records(seed, cases, |record| match record {
        Record::Memory(next) => {
            input.read_exact(back.as_mut())?;
            if back != memory {
                return Err(different(&tally, "the lent memory was changed"));
            }
            memory.copy_from_slice(next);
            Ok(())
        }
        Record::Case(case) => {
            input.read_exact(bytes.as_mut())?;
            let theirs = Told::read(&bytes);
            let ours = case.told(&memory);
            if let Some(difference) = ours.difference(&theirs) {
                let (harm, call) = (case.harm.name(), case.call);
                let (ours, theirs) = (ours.said, theirs.said);
                let text = format!(
                    "{call:?}, damage: {harm}; the second program says {ours}, the archive {theirs}; {difference}"
                );
                return Err(different(&tally, &text));
            }
            tally.case(case, &ours);
            Ok(())
        }
    })?;
    match input.read(&mut [0])? {
        0 => Ok(tally),
        _ => Err(different(&tally, "more came back than was asked for")),
    }
}

fn different(tally: &Tally, what: &str) -> Error {
    Error::other(format!("DIFFERENT at case {}: {what}", tally.cases))
}

#[cfg(test)]
mod tests {
    use super::super::case::Call;
    use super::*;
    use crate::answer::FETCHES;
    use crate::book_words::{EVENT, KIND, WANTED};

    const SEED: u64 = 5;
    const CASES: u64 = 400;

    /// What c/damage.c would write if the archive said what this program says, with a change made to it.
    fn written(mut change: impl FnMut(Call, &mut Told)) -> Vec<u8> {
        let mut memory = Box::new([0; MEMORY_BYTES]);
        let mut text = Vec::new();
        let each = |record: Record| {
            match record {
                Record::Memory(next) => {
                    text.extend_from_slice(memory.as_slice());
                    memory.copy_from_slice(next);
                }
                Record::Case(case) => {
                    let mut told = case.told(&memory);
                    change(case.call, &mut told);
                    text.extend(told.said.to_le_bytes());
                    text.extend(told.lent.bytes());
                }
            }
            Ok(())
        };
        records(SEED, CASES, each).unwrap();
        text
    }

    #[test]
    fn the_same_is_no_difference() {
        let same = written(|_, _| {});
        let tally = compare(SEED, CASES, same.as_slice()).unwrap();
        assert_eq!(tally.cases, CASES);
    }

    #[test]
    fn another_address_is_a_difference() {
        let mut left = 1;
        let other = written(|call, told| {
            let words = &mut told.lent.answer;
            let of_a_fetch = words[KIND] == 4 && FETCHES.contains(&words[EVENT]);
            if call == Call::Ask && told.said == 100 && of_a_fetch && left > 0 {
                words[WANTED] ^= 1 << 55;
                left -= 1;
            }
        });
        assert_eq!(left, 0);
        let error = compare(SEED, CASES, other.as_slice()).err().unwrap();
        assert!(error.to_string().contains("the answer, word 2"), "{error}");
    }
}
