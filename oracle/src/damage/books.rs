//! Valid books to be damaged: those that the histories of `scripts` lead to, with the memory of the moment.

use super::case::MEMORY_BYTES;
use crate::book::{malformed, MOST_SLOTS};
use crate::book_words::{answer, encode, key, Words, ANSWER_WORDS};
use crate::registers::Registers;
use crate::script::{parse, Session};
use crate::scripts::{script, Random, Sort};

/// A book and its memory at some moment of a history.
pub struct Snapshot {
    pub registers: Registers,
    pub base: u64,
    /// The length that is lent; `memory` has more bytes, so that a longer one can be.
    pub length: u64,
    pub memory: Box<[u8; MEMORY_BYTES]>,
    words: Words,
}

/// The books that one script's lines lead to, at a few moments.
pub fn snapshots(seed: u64, index: u64) -> Vec<Snapshot> {
    let mut random = Random::new(!seed, index);
    let mut session = Session::default();
    let mut found = Vec::new();
    for line in script(Sort::Book, seed, index).split_inclusive(|byte| *byte == b'\n') {
        let Ok(command) = parse(line) else { break };
        let Some(command) = command else { continue };
        if session.run(&command).is_err() {
            break;
        }
        if random.percent(3) && !malformed(&session.book) {
            found.push(Snapshot::of(&session, &mut random));
        }
    }
    found
}

impl Snapshot {
    fn of(session: &Session, random: &mut Random) -> Snapshot {
        let mut memory = Box::new([0; MEMORY_BYTES]);
        memory[..session.bytes.len()].copy_from_slice(&session.bytes);
        // The tables are damaged too, now and then.
        for _ in 0..random.pick(&[0, 0, 0, 200, 5_000]) {
            let at = random.below(session.bytes.len().max(1) as u64) as usize;
            memory[at] ^= 1 << random.below(8);
        }
        Snapshot {
            registers: session.registers,
            base: session.base,
            length: session.bytes.len() as u64,
            memory,
            words: encode(&session.book),
        }
    }

    /// The book's words. An empty slot's answer can be any words: here it is 0, or what another slot holds.
    pub fn words(&self, random: &mut Random) -> Words {
        let mut words = self.words;
        if random.percent(50) {
            let held = held(&self.words);
            for slot in (0..MOST_SLOTS).filter(|slot| self.words[key(*slot)] == 0) {
                if let Some(other) = one(random, &held) {
                    let from = answer(other)..answer(other) + ANSWER_WORDS;
                    words.copy_within(from, answer(slot));
                }
            }
        }
        words
    }
}

/// The slots whose key isn't 0.
pub fn held(words: &Words) -> Vec<usize> {
    (0..MOST_SLOTS)
        .filter(|slot| words[key(*slot)] != 0)
        .collect()
}

/// One of them, if there is any.
pub fn one(random: &mut Random, slots: &[usize]) -> Option<usize> {
    (!slots.is_empty()).then(|| random.pick(slots))
}
