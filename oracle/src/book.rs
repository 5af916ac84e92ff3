//! The book: opening, ask and notice.
//! Follows RULES, "The book", and refusals 4 to 7 of "When the bench says no".

use crate::answer::{Answer, Outcome, UNSERVED};
use crate::lookup::lookup;
use crate::memory::Memory;
use crate::refusal::{check_1, check_2, check_3, refuse_if, Refusal, END_OF_ADDRESSES};
use crate::registers::Registers;
use crate::request::{Request, SubstreamId};

/// A book has at most this many slots.
pub const MOST_SLOTS: usize = 64;

/// A list has at most this many pieces.
const MOST_PIECES: usize = 4;

/// A book. Its fields are open and can hold anything: refusal 7 says what is malformed.
#[derive(Clone, Debug, PartialEq, Eq)]
pub struct Book {
    pub registers: Registers,
    pub base: u64,
    pub length: u64,
    /// The number of slots.
    pub slots: u64,
    pub held: [Option<Held>; MOST_SLOTS],
}

/// What a held slot holds.
#[derive(Clone, Debug, PartialEq, Eq)]
pub struct Held {
    pub stream: u64,
    pub substream: Option<u64>,
    pub answer: Answer,
}

/// What an ask says about its answer.
#[derive(Clone, Copy, Debug, PartialEq, Eq)]
pub enum Kept {
    Before,
    Newly,
    Not,
}

impl Book {
    /// A book whose words are all 0: no book at all, and malformed.
    pub fn blank() -> Book {
        Book {
            registers: Registers::default(),
            base: 0,
            length: 0,
            slots: 0,
            held: std::array::from_fn(|_| None),
        }
    }

    /// The held slots in rising order, each with its number.
    pub fn held_slots(&self) -> impl Iterator<Item = (usize, &Held)> {
        let numbered = self.held.iter().enumerate();
        numbered.filter_map(|(slot, held)| Some((slot, held.as_ref()?)))
    }

    /// What is held for a request.
    pub fn held_for(&self, request: Request) -> Option<&Held> {
        let mut held = self.held.iter().flatten();
        held.find(|held| held.request() == request.numbers())
    }
}

impl Held {
    fn new(request: Request, answer: Answer) -> Held {
        let (stream, substream) = request.numbers();
        Held {
            stream,
            substream,
            answer,
        }
    }

    /// Its request, as plain numbers.
    pub fn request(&self) -> (u64, Option<u64>) {
        (self.stream, self.substream)
    }

    /// Whether a byte of a piece of the list is one of the `length` bytes from `start` on.
    fn shares_a_byte(&self, start: u64, length: u64) -> bool {
        let end = u128::from(start) + u128::from(length);
        self.answer.list.iter().any(|piece| {
            let piece_start = u128::from(piece.address);
            let piece_end = piece_start + u128::from(piece.length);
            u128::from(start).max(piece_start) < end.min(piece_end)
        })
    }
}

/// Opens a book. Order of the refusals: 1, 2, 4.
pub fn open(registers: Registers, base: u64, length: u64, slots: u64) -> Result<Book, Refusal> {
    check_1(&registers)?;
    check_2(base, length)?;
    check_4(slots)?;
    Ok(Book {
        registers,
        base,
        length,
        slots,
        ..Book::blank()
    })
}

/// Asks the book. Order of the refusals: 7, 6, 3.
pub fn ask(book: &mut Book, memory: Memory, request: Request) -> Result<(Kept, Answer), Refusal> {
    check_7(book)?;
    check_6(book, memory)?;
    check_3(request.substream)?;
    if let Some(held) = book.held_for(request) {
        return Ok((Kept::Before, held.answer.clone()));
    }
    let answer = lookup(&book.registers, memory, request)?;
    let mut slots = book.held.iter_mut().take(book.slots as usize);
    let Some(empty) = slots.find(|slot| slot.is_none()) else {
        return Ok((Kept::Not, answer));
    };
    *empty = Some(Held::new(request, answer.clone()));
    Ok((Kept::Newly, answer))
}

/// Strikes every slot whose list shares a byte with the notice. Order of the refusals: 7, 5.
pub fn notice(book: &mut Book, start: u64, length: u64) -> Result<(), Refusal> {
    check_7(book)?;
    check_5(start, length)?;
    for slot in &mut book.held {
        let held = slot.as_ref();
        if held.is_some_and(|held| held.shares_a_byte(start, length)) {
            *slot = None;
        }
    }
    Ok(())
}

/// 4: a book is opened with 0 slots or more than 64.
fn check_4(slots: u64) -> Result<(), Refusal> {
    refuse_if(!slots_are_1_to_64(slots), 4)
}

/// 5: a notice has start + length above 2^52.
fn check_5(start: u64, length: u64) -> Result<(), Refusal> {
    refuse_if(u128::from(start) + u128::from(length) > END_OF_ADDRESSES, 5)
}

/// 6: an ask's base or length isn't the one the book was opened with.
fn check_6(book: &Book, memory: Memory) -> Result<(), Refusal> {
    refuse_if(
        memory.base != book.base || memory.length() != book.length,
        6,
    )
}

/// 7: the book is malformed.
pub(crate) fn check_7(book: &Book) -> Result<(), Refusal> {
    refuse_if(malformed(book), 7)
}

/// Whether a book is malformed: refusal 7, item by item.
pub fn malformed(book: &Book) -> bool {
    // Slots not 1 to 64.
    !slots_are_1_to_64(book.slots)
        // Its registers or memory extent fail 1 or 2.
        || check_1(&book.registers).is_err()
        || check_2(book.base, book.length).is_err()
        // A slot past its number is held.
        || book.held_slots().any(|(slot, _)| slot as u64 >= book.slots)
        // Two held slots have equal requests.
        || two_are_for_equal_requests(book)
        || book.held_slots().any(|(_, held)| holds_wrongly(held))
}

fn slots_are_1_to_64(slots: u64) -> bool {
    (1..=MOST_SLOTS as u64).contains(&slots)
}

fn two_are_for_equal_requests(book: &Book) -> bool {
    book.held_slots().any(|(slot, held)| {
        let mut others = book.held_slots().filter(|(other, _)| *other != slot);
        others.any(|(_, other)| other.request() == held.request())
    })
}

/// The items of refusal 7 that concern one held slot.
fn holds_wrongly(held: &Held) -> bool {
    let list = &held.answer.list;
    // A held request fails 3; a StreamID of more than 32 bits is none at all.
    check_3(held.substream.map(SubstreamId)).is_err()
        || held.stream >= 1 << 32
        // A held list has more than four pieces or one ending past 2^52.
        || list.len() > MOST_PIECES
        || list.iter().any(|piece| {
            u128::from(piece.address) + u128::from(piece.length) > END_OF_ADDRESSES
        })
        // A held unserved number isn't one listed. A held event always is: `Event` has no other.
        || match held.answer.outcome {
            Outcome::Unserved { number } => !UNSERVED.contains(&number),
            _ => false,
        }
}
