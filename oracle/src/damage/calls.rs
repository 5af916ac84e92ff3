//! Which call a case makes, and with what.

use super::books::{held, one, Snapshot};
use super::case::{Call, Case, Lent, MEMORY_BYTES, OUT_BYTES};
use super::harm::Harm;
use crate::book_words::{
    self, answer, key, register_words, request, Words, BASE, COUNT, LENGTH, PIECES,
};
use crate::report::{LONGEST, SHORTEST};
use crate::scripts::Random;

const END: u64 = 1 << 52;

/// A case on these words, which were damaged so.
pub fn case(random: &mut Random, book: &Snapshot, harm: Harm, words: Words) -> Case {
    let call = match random.below(20) {
        0..=7 => Call::Ask,
        8..=11 => Call::Notice,
        12..=15 => Call::Report,
        16 => Call::Open,
        17 => Call::Lookup,
        18 => Call::StePart,
        _ => Call::IsRecorded,
    };
    let mut case = plain(random, book, call, harm, words);
    match call {
        Call::Ask => ask(random, &mut case),
        Call::Notice => notice(random, &mut case),
        Call::Report => report(random, &mut case),
        Call::Open => open(random, &mut case),
        Call::Lookup | Call::StePart => lookup(random, &mut case),
        Call::IsRecorded => is_recorded(random, &mut case),
    }
    case
}

/// A call for a request that the book's words hold, or near one, with today's registers and memory, and a pattern in each buffer.
fn plain(random: &mut Random, book: &Snapshot, call: Call, harm: Harm, words: Words) -> Case {
    let slot = one(random, &held(&words)).unwrap_or(0);
    let (stream, substream) = request(words[key(slot)]).unwrap_or((random.word() >> 32, None));
    // Any number but 0 says that a SubstreamID is given; without one the number is not looked at.
    let given = random.pick(&[1, 1, 2, 128, 255]);
    let noise = random.word();
    let mut case = Case {
        harm,
        call,
        strtab_base: book.registers.strtab_base,
        base: book.base,
        length: book.length,
        stream: stream as u32,
        given: substream.map_or(0, |_| given),
        substream: substream.unwrap_or(random.pick(&[0, 1, noise])),
        number: random.word(),
        size: random.word(),
        out_length: random.below(OUT_BYTES as u64),
        lent: Lent {
            registers: register_words(&book.registers),
            book: words,
            answer: std::array::from_fn(|_| random.word()),
            length: random.word(),
            out: std::array::from_fn(|_| random.word() as u8),
        },
    };
    match random.below(8) {
        0 => case.stream = case.stream.wrapping_add(1),
        1 => case.stream = random.pick(&[0, u32::MAX, noise as u32]),
        2 => case.given = random.pick(&[0, 1]),
        3 => case.substream = random.pick(&[0, 1, (1 << 20) - 1]),
        _ => {}
    }
    case
}

/// A SubstreamID that is too large, now and then.
fn too_large(random: &mut Random, case: &mut Case) {
    if random.percent(8) {
        case.given = random.pick(&[1, 255, 0]);
        case.substream = random.pick(&[1 << 20, 1 << 20 | case.substream, 1 << 32, u64::MAX]);
    }
}

/// The book's own extent, for the book that may be damaged; now and then another one.
fn ask(random: &mut Random, case: &mut Case) {
    let (base, length) = (case.lent.book[BASE], case.lent.book[LENGTH]);
    if length <= MEMORY_BYTES as u64 {
        (case.base, case.length) = (base, length);
    }
    if random.percent(8) {
        let (base, length) = (case.base, case.length);
        let most = MEMORY_BYTES as u64;
        (case.base, case.length) = random.pick(&[
            (base ^ 64, length),
            (base | 1 << 63, length),
            (base, length.saturating_sub(1)),
            (base, (length + 1).min(most)),
            (base, 0),
            (base, most),
        ]);
    }
    too_large(random, case);
}

/// At the ends of a piece that the words hold, or of all addresses.
fn notice(random: &mut Random, case: &mut Case) {
    let book = &case.lent.book;
    let from = one(random, &held(book)).map_or(answer(0), answer);
    let place = random.below(book[from + COUNT].clamp(1, 4)) as usize;
    let at = from + PIECES + 2 * place;
    let (start, length) = (book[at], book[at + 1]);
    let end = start.wrapping_add(length);
    (case.number, case.size) = random.pick(&[
        (start, 1),
        (start, 0),
        (start, length),
        (end.wrapping_sub(1), 1),
        (end, 1),
        (start.wrapping_sub(1), 1),
        (start.wrapping_sub(1), 2),
        (start.wrapping_sub(16), 16),
        (end.wrapping_sub(1), 200),
        (0, END),
        (0, END + 1),
        (END, 0),
        (END, 1),
        (END + 1, 0),
        (END - 1, 1),
        (1, END),
        (u64::MAX, u64::MAX),
        (u64::MAX, 1),
        (1, u64::MAX),
        (case.number, case.size),
    ]);
}

/// A buffer as long as the text, one byte shorter, longer, and empty.
fn report(random: &mut Random, case: &mut Case) {
    let mut room = [0; LONGEST];
    let text = book_words::report(&case.lent.book, &mut room).unwrap_or(SHORTEST) as u64;
    case.out_length = random.pick(&[
        text,
        text,
        text - 1,
        text - 1,
        text + 1,
        LONGEST as u64,
        OUT_BYTES as u64,
        0,
        SHORTEST as u64 - 1,
    ]);
}

fn open(random: &mut Random, case: &mut Case) {
    let any = random.word();
    case.number = random.pick(&[0, 1, 2, 33, 63, 64, 64, 65, 1 << 32 | 1, u64::MAX, any]);
    if random.percent(30) {
        let (base, length) = (case.base, case.length);
        (case.base, case.length) = random.pick(&[
            (base.wrapping_add(1), length),
            (base ^ 32, length),
            (base, 65_537),
            (base, u64::MAX),
            (END - 65_536, 65_536),
            (END - 65_472, 65_536),
            (END, 0),
            (END + 64, 0),
            (u64::MAX - 63, 64),
        ]);
    }
    registers(random, case);
}

fn lookup(random: &mut Random, case: &mut Case) {
    if random.percent(15) {
        let (base, length) = (case.base, case.length);
        (case.base, case.length) = random.pick(&[
            (base.wrapping_add(1), length),
            (base.wrapping_add(32), length),
            (base, 65_537),
            (base, 65_536),
            (base, 0),
            (END - 64, 128),
            (END - 128, 128),
            (u64::MAX - 63, 64),
        ]);
    }
    too_large(random, case);
    registers(random, case);
}

fn is_recorded(random: &mut Random, case: &mut Case) {
    let any = random.word();
    case.number = random.pick(&[2, 2, 2, 3, 4, 6, 8, 9, 10, 0, 1 << 32 | 2, any]);
    case.lent.registers[4] ^= random.pick(&[0, 2]);
    registers(random, case);
}

/// Bits of the registers, now and then.
fn registers(random: &mut Random, case: &mut Case) {
    if random.percent(30) {
        let at = random.below(7) as usize;
        case.lent.registers[at] ^= 1 << random.below(32);
    }
    if random.percent(10) {
        let (at, bits) = random.pick(&[(1, 0x3f), (1, 0x7c0), (2, 7), (3, 1)]);
        case.lent.registers[at] = case.lent.registers[at] & !bits | bits & random.word();
    }
}
