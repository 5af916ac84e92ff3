//! Lines that are wrong for a given reason, often with reasons of lower precedence besides.

use super::bench::Bench;
use super::random::Random;
use crate::script::{parse, Command, Reason, LONGEST_LINE};

/// What a word of a line stands for.
#[derive(Clone, Copy, Debug, PartialEq, Eq)]
enum Part {
    Name,
    Number,
    Stream,
    Length,
    Hex,
}

use Part::*;

/// A command, its words, and how many of them there must be.
type Shape = (&'static str, &'static [Part], usize);

const LOOKUP_SHAPES: &[Shape] = &[
    ("register", &[Name, Stream], 2),
    ("memory", &[Number, Length], 2),
    ("write", &[Number, Hex], 2),
    ("fill", &[Number, Number, Hex], 3),
    ("lookup", &[Stream, Number], 1),
    ("part", &[Stream, Number], 1),
];

const BOOK_SHAPES: &[Shape] = &[
    ("open", &[Number], 1),
    ("ask", &[Stream, Number], 1),
    ("notice", &[Number, Number], 2),
    ("report", &[], 0),
];

/// Writes a line that is wrong for this reason, and lines after it that are not to be done.
pub fn write(bench: &mut Bench, reason: Reason, book: bool) {
    let line = line(bench, reason, book);
    bench.raw(&line);
    bench.raw(b"lookup 0");
    bench.raw(b"no more");
}

/// Writes a few lines that are right, many at an edge, and then one that is wrong for this reason.
pub fn write_short(bench: &mut Bench, reason: Reason, book: bool) {
    let base = bench.random.pick(&[0, 64, 0x1001, u64::MAX - 15]);
    let length = bench.random.pick(&[0, 16, 64, 4_096, 65_536]);
    bench.say(Command::Memory { base, length });
    for _ in 0..bench.random.below(5) {
        let line = right_line(&mut bench.random, book);
        let command = parse(&line).ok().flatten();
        if command.is_some_and(|command| bench.session.run(&command).is_ok()) {
            bench.raw(&line);
        }
    }
    if bench.random.percent(5) {
        let line = longest(&mut bench.random);
        bench.raw(&line);
    }
    write(bench, reason, book);
}

fn line(bench: &mut Bench, reason: Reason, book: bool) -> Vec<u8> {
    match reason {
        Reason::LineTooLong => too_long(&mut bench.random),
        Reason::NoSuchCommand => bench.random.pick(&NO_COMMANDS).to_vec(),
        Reason::TooFewWords | Reason::TooManyWords => count(&mut bench.random, reason, book),
        Reason::OutsideTheMemory => outside(bench),
        _ => word_at_fault(&mut bench.random, reason, book),
    }
}

/// The words as a line, parted by a space or oddly.
fn join(random: &mut Random, words: &[&str]) -> Vec<u8> {
    let between = random.pick(&[" ", " ", " ", "\t", "  ", " \t "]);
    let after = random.pick(&["", "", "", " ", "\t", "\r", " \r"]);
    (words.join(between) + after).into_bytes()
}

/// A line in which no word is wrong; an edit may be outside the memory.
fn right_line(random: &mut Random, book: bool) -> Vec<u8> {
    let (command, parts, least) = a_shape(random, book);
    let optional = (parts.len() - least) as u64;
    let count = least + random.below(optional + 1) as usize;
    let mut words = vec![command];
    for part in &parts[..count] {
        words.push(random.pick(right_words(*part)));
    }
    join(random, &words)
}

const NO_COMMANDS: [&[u8]; 12] = [
    b"lookups 0",
    b"LOOKUP 0",
    b"Lookup",
    b"look up 0",
    b"\r\r",
    b"lookup\r 0",
    b"\x0blookup 0",
    b"lookup,0",
    b"register: idr0 0",
    b"0",
    b"\xff\xfe\x00",
    b"\xef\xbb\xbflookup 0",
];

/// A line of as many bytes as one may have, which is right.
pub fn longest(random: &mut Random) -> Vec<u8> {
    let start: &[u8] = random.pick(&[b"#".as_slice(), b"lookup 0", b"\tpart 1", b""]);
    let mut line = start.to_vec();
    line.resize(LONGEST_LINE - 1, random.pick(b" \t"));
    line.push(random.pick(b"\r "));
    line
}

/// One byte more than a line may have.
fn too_long(random: &mut Random) -> Vec<u8> {
    let start: &[u8] = random.pick(&[b"#".as_slice(), b"lookup 0", b"no such", b"write 0x", b""]);
    let mut line = start.to_vec();
    line.resize(LONGEST_LINE, random.pick(b" \t0#"));
    line.push(random.pick(b"\r 0"));
    if random.percent(20) {
        line.resize(3 * LONGEST_LINE, b'0');
    }
    line
}

/// Too few or too many words, each right or not.
fn count(random: &mut Random, reason: Reason, book: bool) -> Vec<u8> {
    let (command, parts, least) = loop {
        let shape = a_shape(random, book);
        if reason == Reason::TooManyWords || shape.2 > 0 {
            break shape;
        }
    };
    let mut words = vec![command];
    for part in parts {
        words.push(a_word(random, *part, reason));
    }
    if reason == Reason::TooFewWords {
        words.truncate(1 + random.below(least as u64) as usize);
    } else {
        for _ in 0..=random.below(3) {
            words.push(random.pick(&["0", "#", "# and why", "zz"]));
        }
    }
    join(random, &words)
}

/// A line of the right length with one word that is wrong for the reason.
fn word_at_fault(random: &mut Random, reason: Reason, book: bool) -> Vec<u8> {
    let can_be = |part: &Part| !faults(*part, reason).is_empty();
    let (command, parts, place) = loop {
        let (command, parts, _) = a_shape(random, book);
        let place = random.below(parts.len() as u64) as usize;
        if parts.get(place).is_some_and(can_be) {
            break (command, parts, place);
        }
    };
    let mut words = vec![command];
    for (at, part) in parts.iter().enumerate() {
        words.push(match at == place {
            true => random.pick(faults(*part, reason)),
            false => a_word(random, *part, reason),
        });
    }
    join(random, &words)
}

/// An edit that leaves the memory at one of its ends.
fn outside(bench: &mut Bench) -> Vec<u8> {
    let base = bench.session.base;
    let length = bench.session.bytes.len() as u64;
    let random = &mut bench.random;
    let end = base.saturating_add(length);
    let (address, count, bytes) = match random.below(5) {
        0 => (random.pick(&[end, end, end.saturating_add(1)]), 1, 1),
        1 => (end.saturating_sub(7), 1, 8),
        2 => (base.wrapping_sub(1), 1, 2),
        3 => (base, random.pick(&[1 << 60, 1 << 63, u64::MAX]), 16),
        _ => (base, length / 8 + 1, 8),
    };
    let inside = bench
        .bytes_at(address, count.saturating_mul(bytes))
        .is_some();
    let count = if inside { u64::MAX } else { count };
    let hex = "5a".repeat(bytes as usize);
    match count {
        1 => format!("write {address:#x} {hex}").into_bytes(),
        _ => format!("fill {address:#x} {count} {hex}").into_bytes(),
    }
}

fn a_shape(random: &mut Random, book: bool) -> Shape {
    let shapes = match book && random.percent(60) {
        true => BOOK_SHAPES,
        false => LOOKUP_SHAPES,
    };
    random.pick(shapes)
}

/// A word that is right, or wrong for a reason that comes after the given one.
fn a_word(random: &mut Random, part: Part, reason: Reason) -> &'static str {
    let later = Reason::ALL.into_iter().skip_while(|other| *other != reason);
    let later = later.skip(1).map(|other| faults(part, other));
    let later: Vec<&[&str]> = later.filter(|words| !words.is_empty()).collect();
    if later.is_empty() || random.percent(50) {
        return random.pick(right_words(part));
    }
    let words = random.pick(&later);
    random.pick(words)
}

/// Words that are right where this part stands, many at an edge.
fn right_words(part: Part) -> &'static [&'static str] {
    match part {
        Name => &["idr0", "cr2", "strtab_base_cfg"],
        Number => &[
            "0",
            "64",
            "0x00",
            "0xffffffffffffffff",
            "18446744073709551615",
        ],
        Stream => &[
            "0",
            "256",
            "0xffffffff",
            "4294967295",
            "0x0000000000000000ff",
        ],
        Length => &["0", "4096", "65536", "0x10000"],
        Hex => &["00", "0aF9", "0011223344556677"],
    }
}

/// Words that are wrong for the reason where this part stands.
fn faults(part: Part, reason: Reason) -> &'static [&'static str] {
    match (part, reason) {
        (Name, Reason::NoSuchRegister) => &[
            "idr2", "IDR0", "idr", "idr00", "strtab", "cr1", "0", "\u{7f}",
        ],
        (Number | Stream | Length, Reason::NotANumber) => &[
            "0x", "0X10", "x10", "-1", "+1", "1_0", "0xfg", "12a", "1.0", "0x0x1", "ff", "#",
            "\u{b2}",
        ],
        (Number, Reason::NumberTooLarge) => &[
            "18446744073709551616",
            "0x10000000000000000",
            "0x000010000000000000000",
            "340282366920938463463374607431768211456",
            "99999999999999999999999999999999999999999999999999",
        ],
        (Stream, Reason::NumberTooLarge) => &[
            "4294967296",
            "0x100000000",
            "18446744073709551616",
            "0x100000000000000000000000000000000",
        ],
        (Length, Reason::NumberTooLarge) => &["65537", "0x10001", "18446744073709551616"],
        (Hex, Reason::NotPairs) => &["0", "000", "0x00", "zz", "0g", "g0", "+0", "00\u{7f}"],
        _ => &[],
    }
}
