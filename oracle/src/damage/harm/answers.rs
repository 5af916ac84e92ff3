//! Damage to held answers, and noise in words that are not looked at.

use crate::answer::*;
use crate::book::MOST_SLOTS;
use crate::book_words::*;
use crate::damage::books::{held, one};
use crate::scripts::Random;

/// 2^52, the end of all addresses.
const END: u64 = 1 << 52;

/// Where a held slot's answer starts.
fn a_held_answer(random: &mut Random, words: &Words) -> Option<usize> {
    one(random, &held(words)).map(answer)
}

/// Where a held answer of these kinds starts.
fn a_held_answer_of(random: &mut Random, words: &Words, kinds: &[u64]) -> Option<usize> {
    let mut slots = held(words);
    slots.retain(|slot| kinds.contains(&words[answer(*slot) + KIND]));
    one(random, &slots).map(answer)
}

pub fn kind(random: &mut Random, words: &mut Words) -> Option<()> {
    let at = a_held_answer(random, words)? + KIND;
    let old = words[at];
    let any = random.word();
    words[at] = random.pick(&[0, 1, 2, 3, 4, 5, 6, 7, 8, old | 1 << 32, u64::MAX, any]);
    Some(())
}

pub fn event_or_case(random: &mut Random, words: &mut Words) -> Option<()> {
    let from = match a_held_answer_of(random, words, &[4, 6]) {
        Some(from) => from,
        None => {
            let from = a_held_answer(random, words)?;
            words[from + KIND] = random.pick(&[4, 6]);
            from
        }
    };
    let old = words[from + EVENT];
    words[from + EVENT] = random.pick(&[
        0,
        1,
        2,
        3,
        4,
        5,
        6,
        7,
        8,
        9,
        10,
        11,
        16,
        19,
        20,
        21,
        22,
        23,
        old | 1 << 32,
        old | 1 << 63,
        old | 0x100,
        u64::MAX,
    ]);
    if random.percent(30) {
        words[from + KIND] ^= 2;
    }
    Some(())
}

/// Any address where a failed fetch has the one that it wanted; where no such answer is held, one becomes it.
pub fn any_address(random: &mut Random, words: &mut Words) -> Option<()> {
    let from = an_abort_with(random, words, &FETCHES)?;
    words[from + WANTED] = an_address(random);
    Some(())
}

/// A number in the same word of an abort with another event, which doesn't use it.
pub fn address_of_no_fetch(random: &mut Random, words: &mut Words) -> Option<()> {
    let from = an_abort_with(random, words, &OTHERS)?;
    words[from + WANTED] = an_address(random);
    Some(())
}

/// The events that are of no failed fetch.
const OTHERS: [u64; 5] = [
    C_BAD_STREAMID,
    C_BAD_STE,
    F_STREAM_DISABLED,
    C_BAD_SUBSTREAMID,
    C_BAD_CD,
];

/// Where a held abort with one of these events starts; where there is none, a held answer is made one.
fn an_abort_with(random: &mut Random, words: &mut Words, events: &[u64]) -> Option<usize> {
    let mut slots = held(words);
    slots.retain(|slot| {
        let from = answer(*slot);
        words[from + KIND] == 4 && events.contains(&words[from + EVENT])
    });
    if let Some(slot) = one(random, &slots) {
        return Some(answer(slot));
    }
    let from = a_held_answer(random, words)?;
    words[from + KIND] = 4;
    words[from + EVENT] = random.pick(events);
    Some(from)
}

/// An address of a table's size, at an edge, or of any 64 bits.
fn an_address(random: &mut Random) -> u64 {
    let any = random.word();
    let narrow = random.below(64);
    random.pick(&[
        0,
        1,
        0x1_0000,
        END - 64,
        END,
        1 << 57,
        1 << 63,
        u64::MAX,
        any,
        any >> narrow,
    ])
}

/// The last value of a field, the first that is too wide, and wider ones.
pub fn field_at_its_width(random: &mut Random, words: &mut Words) -> Option<()> {
    let from = match a_held_answer_of(random, words, &[1]) {
        Some(from) => from,
        None => {
            let from = a_held_answer(random, words)?;
            words[from] = 1;
            from
        }
    };
    let (at, width) = random.pick(&[(ASID, 16), (T0SZ, 6), (TG0, 2), (EPD0, 1)]);
    let first = 1 << width;
    words[from + at] = random.pick(&[first - 1, first - 1, first, first + 1, 1 << 63, u64::MAX]);
    // These may be any words.
    if random.percent(50) {
        let any = random.word();
        words[from + random.pick(&[1, 2, 7, 8])] = any;
    }
    Some(())
}

pub fn count_of_pieces(random: &mut Random, words: &mut Words) -> Option<()> {
    let at = a_held_answer(random, words)? + COUNT;
    let old = words[at];
    words[at] = random.pick(&[
        0,
        1,
        2,
        3,
        4,
        4,
        5,
        5,
        6,
        old.wrapping_add(1),
        old | 1 << 32,
        u64::MAX,
    ]);
    Some(())
}

/// A piece that ends at 2^52, past it by one, and past 2^64; within the count and just after it.
pub fn piece_at_the_end(random: &mut Random, words: &mut Words) -> Option<()> {
    let from = a_held_answer(random, words)?;
    let past = random.percent(30);
    let place = match (words[from + COUNT] as usize).min(3) {
        count if past => count,
        0 => {
            words[from + COUNT] = 1;
            0
        }
        count => random.below(count as u64) as usize,
    };
    let piece = random.pick(&[
        (END - 64, 64),
        (END - 63, 64),
        (END - 8, 8),
        (END - 7, 8),
        (END, 0),
        (END, 1),
        (END + 1, 0),
        (0, END),
        (0, END + 1),
        (1, END),
        (u64::MAX, 1),
        (u64::MAX, 0),
        (u64::MAX - 7, 8),
        (u64::MAX, u64::MAX),
        (8, u64::MAX),
        (0, 0),
    ]);
    let at = from + PIECES + 2 * place;
    (words[at], words[at + 1]) = piece;
    Some(())
}

/// Noise in empty slots' answers, in words that a kind does not use, and in pieces past the count.
pub fn not_looked_at(random: &mut Random, words: &mut Words) -> Option<()> {
    for slot in 0..MOST_SLOTS {
        let (from, empty) = (answer(slot), words[key(slot)] == 0);
        let used = match words[from + KIND] {
            _ if empty => 0,
            1 => 9,
            4 if FETCHES.contains(&words[from + EVENT]) => 3,
            2 | 4 | 6 => 2,
            _ => 1,
        };
        let listed = match empty {
            true => 0,
            false => PIECES + 2 * words[from + COUNT].min(4) as usize,
        };
        let count = if empty { COUNT..COUNT + 1 } else { 0..0 };
        for at in (used..COUNT)
            .chain(count)
            .chain(listed.max(PIECES)..ANSWER_WORDS)
        {
            if random.percent(60) {
                words[from + at] = random.word() >> random.pick(&[0, 20, 58]);
            }
        }
    }
    Some(())
}
