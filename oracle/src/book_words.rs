//! A book as 1,227 words, and an answer as 18; and the book's calls on such words.
//! Follows refusal 7 of the rules and what include/llobatelh.h says of the words, under "Answers" and "The book".

use crate::answer::{Answer, Event, Outcome, Piece, Translation};
use crate::book::{self, Book, Held, Kept};
use crate::memory::Memory;
use crate::refusal::Refusal;
use crate::registers::Registers;
use crate::report;
use crate::request::Request;

pub const BOOK_WORDS: usize = 1_227;
pub const ANSWER_WORDS: usize = 18;
pub const SLOTS: usize = 0;
pub const REGISTERS: usize = 1;
pub const STRTAB_BASE: usize = 8;
pub const BASE: usize = 9;
pub const LENGTH: usize = 10;

/// In an answer's words.
pub const KIND: usize = 0;
pub const EVENT: usize = 1;
/// The address that the fetch wanted, of events 0x03 and 0x09; another event does not use the word.
pub const WANTED: usize = 2;
pub const ASID: usize = 3;
pub const T0SZ: usize = 4;
pub const TG0: usize = 5;
pub const EPD0: usize = 6;
pub const COUNT: usize = 9;
pub const PIECES: usize = 10;

const MOST_PIECES: u64 = 4;

pub type Words = [u64; BOOK_WORDS];
pub type AnswerWords = [u64; ANSWER_WORDS];

/// Where the key of a slot is.
pub const fn key(slot: usize) -> usize {
    11 + slot
}

/// Where the answer of a slot starts.
pub const fn answer(slot: usize) -> usize {
    75 + ANSWER_WORDS * slot
}

// From words.

/// The book that words stand for; none where a word stands for no value of its field.
/// What it holds can be malformed still: `book::malformed` says.
pub fn decode(words: &Words) -> Option<Book> {
    let mut book = Book {
        registers: registers(words)?,
        base: words[BASE],
        length: words[LENGTH],
        slots: words[SLOTS],
        ..Book::blank()
    };
    for (slot, held) in book.held.iter_mut().enumerate() {
        if words[key(slot)] != 0 {
            *held = Some(held_in(words, slot)?);
        }
    }
    Some(book)
}

/// The book, or refusal 7.
fn read(words: &Words) -> Result<Book, Refusal> {
    let book = decode(words).ok_or(Refusal(7))?;
    book::check_7(&book)?;
    Ok(book)
}

fn registers(words: &Words) -> Option<Registers> {
    let register = |at: usize| u32::try_from(words[REGISTERS + at]).ok();
    Some(Registers {
        idr0: register(0)?,
        idr1: register(1)?,
        idr5: register(2)?,
        cr0: register(3)?,
        cr2: register(4)?,
        gbpa: register(5)?,
        strtab_base_cfg: register(6)?,
        strtab_base: words[STRTAB_BASE],
    })
}

fn held_in(words: &Words, slot: usize) -> Option<Held> {
    let (stream, substream) = request(words[key(slot)])?;
    let from = answer(slot);
    Some(Held {
        stream,
        substream,
        answer: decode_answer(&words[from..from + ANSWER_WORDS])?,
    })
}

/// The request of a key: "the StreamID from bit 21 on; below it 0, or bit 20 and the SubstreamID".
pub fn request(key: u64) -> Option<(u64, Option<u64>)> {
    let word = key.checked_sub(1)?;
    let below = word & 0x1f_ffff;
    let substream = match (below >> 20, below & 0xf_ffff) {
        (0, 0) => None,
        (0, _) => return None,
        (_, substream) => Some(substream),
    };
    Some((word >> 21, substream))
}

fn decode_answer(words: &[u64]) -> Option<Answer> {
    let at_most = |at: usize, most: u64| (words[at] <= most).then_some(words[at]);
    let outcome = match words[KIND] {
        1 => Outcome::Translate(Translation {
            ste: words[1],
            cd: words[2],
            asid: at_most(ASID, 0xffff)?,
            t0sz: at_most(T0SZ, 63)?,
            tg0: at_most(TG0, 3)?,
            epd0: at_most(EPD0, 1)?,
            ips: words[7],
            ttb0: words[8],
        }),
        2 => Outcome::Bypass { ste: words[1] },
        3 => Outcome::GlobalBypass,
        4 => Outcome::Abort(Event::of(words[EVENT], words[WANTED])?),
        5 => Outcome::QuietAbort,
        6 => Outcome::Unserved { number: words[1] },
        _ => return None,
    };
    let count = at_most(COUNT, MOST_PIECES)? as usize;
    let pieces = words[PIECES..].chunks_exact(2).take(count);
    let list = pieces.map(|piece| Piece {
        address: piece[0],
        length: piece[1],
    });
    Some(Answer {
        outcome,
        list: list.collect(),
    })
}

// To words.

/// The words of a book that was just opened or whose empty slots' answers are all 0.
pub fn encode(book: &Book) -> Words {
    let mut words = [0; BOOK_WORDS];
    let registers = &book.registers;
    words[SLOTS] = book.slots;
    words[REGISTERS..STRTAB_BASE].copy_from_slice(&register_words(registers));
    words[STRTAB_BASE] = registers.strtab_base;
    words[BASE] = book.base;
    words[LENGTH] = book.length;
    for (slot, held) in book.held_slots() {
        put(&mut words, slot, held);
    }
    words
}

/// The seven registers of 32 bits, in the header's order.
pub fn register_words(registers: &Registers) -> [u64; 7] {
    [
        registers.idr0,
        registers.idr1,
        registers.idr5,
        registers.cr0,
        registers.cr2,
        registers.gbpa,
        registers.strtab_base_cfg,
    ]
    .map(u64::from)
}

fn put(words: &mut Words, slot: usize, held: &Held) {
    let below = held.substream.map_or(0, |substream| 1 << 20 | substream);
    words[key(slot)] = 1 + (held.stream << 21 | below);
    let from = answer(slot);
    words[from..from + ANSWER_WORDS].copy_from_slice(&encode_answer(&held.answer));
}

/// The words of an answer. Words that a kind does not use are 0.
pub fn encode_answer(answer: &Answer) -> AnswerWords {
    let mut words = [0; ANSWER_WORDS];
    let values: &[u64] = match &answer.outcome {
        Outcome::Translate(t) => &[1, t.ste, t.cd, t.asid, t.t0sz, t.tg0, t.epd0, t.ips, t.ttb0],
        Outcome::Bypass { ste } => &[2, *ste],
        Outcome::GlobalBypass => &[3],
        Outcome::Abort(event) => &[4, event.number(), event.wanted().unwrap_or(0)],
        Outcome::QuietAbort => &[5],
        Outcome::Unserved { number } => &[6, *number],
    };
    words[..values.len()].copy_from_slice(values);
    words[COUNT] = answer.list.len() as u64;
    for (place, piece) in answer.list.iter().enumerate() {
        words[PIECES + 2 * place] = piece.address;
        words[PIECES + 2 * place + 1] = piece.length;
    }
    words
}

// The calls. A refused one leaves the words as they were.

pub fn open(
    words: &mut Words,
    registers: Registers,
    base: u64,
    length: u64,
    slots: u64,
) -> Result<(), Refusal> {
    *words = encode(&book::open(registers, base, length, slots)?);
    Ok(())
}

/// The answer as words: a kept one's pieces past its count are the words that its slot has there.
pub fn ask(
    words: &mut Words,
    memory: Memory,
    request: Request,
) -> Result<(Kept, AnswerWords), Refusal> {
    let before = read(words)?;
    let mut book = before.clone();
    let (kept, answered) = book::ask(&mut book, memory, request)?;
    put_changes(words, &before, &book);
    let mut said = encode_answer(&answered);
    let held = |slot: &usize| before.held[*slot].as_ref();
    let is_it = |slot: &usize| held(slot).is_some_and(|held| held.request() == request.numbers());
    if let Some(slot) = (0..book::MOST_SLOTS).find(is_it) {
        let past = PIECES + 2 * answered.list.len();
        said[past..].copy_from_slice(&words[answer(slot)..][past..ANSWER_WORDS]);
    }
    Ok((kept, said))
}

pub fn notice(words: &mut Words, start: u64, size: u64) -> Result<(), Refusal> {
    let before = read(words)?;
    let mut book = before.clone();
    book::notice(&mut book, start, size)?;
    put_changes(words, &before, &book);
    Ok(())
}

pub fn report(words: &Words, out: &mut [u8]) -> Result<usize, Refusal> {
    report::report(&read(words)?, out)
}

/// A slot that was struck loses its key alone; one that is newly held has its key and its answer.
fn put_changes(words: &mut Words, before: &Book, after: &Book) {
    for slot in 0..book::MOST_SLOTS {
        match &after.held[slot] {
            held if *held == before.held[slot] => {}
            Some(held) => put(words, slot, held),
            None => words[key(slot)] = 0,
        }
    }
}
