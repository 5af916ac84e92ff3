//! A case, and the bytes that go to c/damage.c and come back. All is little-endian, in words of 64 bits; a record's form is in c/damage.c.

use super::harm::Harm;
use crate::book_words::{AnswerWords, Words, ANSWER_WORDS, BOOK_WORDS};

/// The memory that the program holds: more than can be lent, so that too much can be.
pub const MEMORY_BYTES: usize = 65_600;

/// The report's buffer that the program holds: more than the longest report. c/damage.c has the same number.
pub const OUT_BYTES: usize = 2_888;

/// How many bytes come back for a case: what was said, and all that was lent.
pub const TOLD_BYTES: usize = 8 * (1 + 7 + BOOK_WORDS + ANSWER_WORDS + 1) + OUT_BYTES;

/// The calls, by their numbers in a record. 0 stands for a memory.
#[derive(Clone, Copy, Debug, PartialEq, Eq, PartialOrd, Ord)]
pub enum Call {
    Lookup = 1,
    StePart,
    Open,
    Ask,
    Notice,
    Report,
    IsRecorded,
}

/// What is lent and comes back: the registers, the book, the answer's words, the report's length and its buffer.
#[derive(Clone, Debug, PartialEq, Eq)]
pub struct Lent {
    pub registers: [u64; 7],
    pub book: Words,
    pub answer: AnswerWords,
    pub length: u64,
    pub out: [u8; OUT_BYTES],
}

/// A call and all that is handed to it.
#[derive(Clone, Debug)]
pub struct Case {
    pub harm: Harm,
    pub call: Call,
    pub strtab_base: u64,
    pub base: u64,
    /// How many bytes of the memory are lent; for `open`, the length.
    pub length: u64,
    pub stream: u32,
    pub given: u8,
    pub substream: u64,
    /// `open`: the slots. `notice`: the start. `is_recorded`: the event.
    pub number: u64,
    /// `notice`: the size.
    pub size: u64,
    /// How many bytes of the buffer are lent.
    pub out_length: u64,
    pub lent: Lent,
}

/// What is sent: a memory, or a case on the memory that was sent last.
pub enum Record<'a> {
    Memory(&'a [u8; MEMORY_BYTES]),
    Case(&'a Case),
}

impl Record<'_> {
    pub fn bytes(&self) -> Vec<u8> {
        match self {
            Record::Memory(memory) => [&[0; 8], memory.as_slice()].concat(),
            Record::Case(case) => case.bytes(),
        }
    }
}

impl Case {
    fn bytes(&self) -> Vec<u8> {
        let head = [
            self.call as u64,
            self.strtab_base,
            self.base,
            self.length,
            self.stream.into(),
            self.given.into(),
            self.substream,
            self.number,
            self.size,
            self.out_length,
        ];
        [words(&head), self.lent.bytes()].concat()
    }
}

impl Lent {
    pub(super) fn bytes(&self) -> Vec<u8> {
        let Lent {
            registers,
            book,
            answer,
            length,
            out,
        } = self;
        let before_out = [registers, book.as_slice(), answer, &[*length]].concat();
        [&words(&before_out), out.as_slice()].concat()
    }
}

fn words(words: &[u64]) -> Vec<u8> {
    words.iter().flat_map(|word| word.to_le_bytes()).collect()
}

/// What a call said, and all that it was lent as it is afterwards.
#[derive(Clone, Debug, PartialEq, Eq)]
pub struct Told {
    pub said: u64,
    pub lent: Lent,
}

impl Told {
    pub fn read(bytes: &[u8; TOLD_BYTES]) -> Told {
        let (before_out, out) = bytes.split_at(TOLD_BYTES - OUT_BYTES);
        let mut all = before_out
            .chunks_exact(8)
            .map(|word| u64::from_le_bytes(word.try_into().unwrap_or_default()));
        let mut next = || all.next().unwrap_or_default();
        Told {
            said: next(),
            lent: Lent {
                registers: std::array::from_fn(|_| next()),
                book: std::array::from_fn(|_| next()),
                answer: std::array::from_fn(|_| next()),
                length: next(),
                out: out.try_into().unwrap_or([0; OUT_BYTES]),
            },
        }
    }

    /// Where two differ, in words.
    pub fn difference(&self, other: &Told) -> Option<String> {
        if self.said != other.said {
            return Some("the number that the call says".to_string());
        }
        let (ours, theirs) = (&self.lent, &other.lent);
        let first = |name: &str, ours: &[u64], theirs: &[u64]| {
            let at = (0..ours.len()).find(|at| ours[*at] != theirs[*at])?;
            let (ours, theirs) = (ours[at], theirs[at]);
            Some(format!("{name}, word {at}: {ours:#x} and {theirs:#x}"))
        };
        first("the registers", &ours.registers, &theirs.registers)
            .or_else(|| first("the book", &ours.book, &theirs.book))
            .or_else(|| first("the answer", &ours.answer, &theirs.answer))
            .or_else(|| first("the length", &[ours.length], &[theirs.length]))
            .or_else(|| {
                let at = (0..OUT_BYTES).find(|at| ours.out[*at] != theirs.out[*at])?;
                Some(format!("the buffer, byte {at}"))
            })
    }
}
