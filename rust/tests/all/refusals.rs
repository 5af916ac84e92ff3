//! Every refusal of every call, in its order, and that a refused call leaves what it was lent.

use crate::bench::*;
use llobatelh::*;

/// SubstreamID 2^20.
const TOO_LARGE: u64 = 1 << 20;
const TOP: u64 = 1 << 52;

#[test]
fn ids_refuse_numbers_that_are_too_large() {
    assert_eq!(
        StreamId::new((1 << 32) - 1).map(StreamId::number),
        Ok(u32::MAX)
    );
    assert_eq!(StreamId::new(1 << 32), Err(TooLarge));
    assert_eq!(
        SubstreamId::new(TOO_LARGE - 1).map(SubstreamId::number),
        Ok(0xF_FFFF)
    );
    assert_eq!(SubstreamId::new(TOO_LARGE), Err(TooLarge));
    assert_eq!(SubstreamId::new(u64::MAX), Err(TooLarge));
}

#[test]
fn each_refusal_has_its_number() {
    for (place, refusal) in Refusal::ALL.into_iter().enumerate() {
        assert_eq!(usize::from(refusal.number()), place + 1);
        assert_eq!(Refusal::from_number(place as u64 + 1), Some(refusal));
        assert!(refusal
            .to_string()
            .starts_with(&format!("refused {}: ", place + 1)));
    }
    assert_eq!(Refusal::from_number(0), None);
    assert_eq!(Refusal::from_number(9), None);
    assert_eq!(Refusal::from_number(0x101), None);
}

#[test]
fn a_lookup_refuses_with_1_2_3() {
    let mut bench = figure();
    let ask = |bench: &Bench| bench.lookup(with(0, TOO_LARGE)).err();
    assert_eq!(ask(&bench), Some(Refusal::Substream));
    bench.base = 32;
    assert_eq!(ask(&bench), Some(Refusal::Memory));
    let good = bench.registers;
    for (idr1, idr5) in [(16, 7), (33, 5), (21 << 6, 5)] {
        bench.registers = Registers { idr1, idr5, ..good };
        assert_eq!(ask(&bench), Some(Refusal::Registers));
    }
    bench.registers = good;
    for (base, length) in [(0, 65_537), (TOP - 64, 65), (TOP, 1), (TOP + 64, 0)] {
        (bench.base, bench.bytes) = (base, vec![0; length]);
        assert_eq!(bench.lookup(without(0)), Err(Refusal::Memory), "{base:#x}");
    }
    for (base, length) in [(0, 65_536), (TOP - 64, 64), (TOP, 0), (0, 0)] {
        (bench.base, bench.bytes) = (base, vec![0; length]);
        assert!(bench.lookup(without(0)).is_ok(), "{base:#x}");
    }
}

#[test]
fn an_opening_refuses_with_1_2_4_and_leaves_the_book() {
    let bench = figure();
    let mut book = bench.open(4).unwrap();
    book.ask(bench.memory(), without(0)).unwrap();
    let before = book;
    let bad = Registers {
        idr5: 7,
        ..bench.registers
    };
    for (registers, base, slots, refusal) in [
        (&bad, 1, 0, Refusal::Registers),
        (&bench.registers, 1, 0, Refusal::Memory),
        (&bench.registers, 0, 0, Refusal::Slots),
        (&bench.registers, 0, 65, Refusal::Slots),
        (&bench.registers, 0, u64::MAX, Refusal::Slots),
    ] {
        assert_eq!(book.open_again(registers, base, 64, slots), Err(refusal));
        assert_eq!(book, before);
        assert_eq!(Book::open(registers, base, 64, slots), Err(refusal));
    }
    assert!(bench.open(SLOTS_MOST).is_ok());
}

#[test]
fn an_ask_refuses_with_7_6_3_and_leaves_the_book() {
    let bench = figure();
    let mut book = bench.open(4).unwrap();
    book.ask(bench.memory(), without(0)).unwrap();
    let before = book;
    let shorter = Memory {
        base: 0,
        bytes: &bench.bytes[..65_535],
    };
    let moved = Memory {
        base: 64,
        bytes: &bench.bytes,
    };
    let asked = book.ask(bench.memory(), with(0, TOO_LARGE));
    assert_eq!(asked, Err(Refusal::Substream));
    assert_eq!(book.ask(shorter, with(0, TOO_LARGE)), Err(Refusal::Extent));
    assert_eq!(book.ask(moved, without(0)), Err(Refusal::Extent));
    assert_eq!(book, before);
    let mut none = Book::from_words([0; BOOK_WORDS]);
    assert_eq!(none.ask(shorter, with(0, TOO_LARGE)), Err(Refusal::Book));
    assert_eq!(none.words(), &[0; BOOK_WORDS]);
}

#[test]
fn a_notice_refuses_with_7_5_and_leaves_the_book() {
    let bench = figure();
    let mut book = bench.open(4).unwrap();
    book.ask(bench.memory(), without(0)).unwrap();
    let before = book;
    for (start, size) in [(0, TOP + 1), (TOP, 1), (TOP + 1, 0), (u64::MAX, u64::MAX)] {
        assert_eq!(book.notice(start, size), Err(Refusal::Notice));
    }
    assert_eq!(book, before);
    assert_eq!(book.notice(TOP, 0), Ok(()));
    let mut none = Book::from_words([0; BOOK_WORDS]);
    assert_eq!(none.notice(0, TOP + 1), Err(Refusal::Book));
}

#[test]
fn a_report_refuses_with_7_8_and_leaves_the_buffer() {
    let bench = figure();
    let mut book = bench.open(4).unwrap();
    book.ask(bench.memory(), without(0)).unwrap();
    let mut out = [0xA5; REPORT_MOST];
    let length = book.report(&mut out).unwrap();
    let mut out = [0xA5; REPORT_MOST];
    assert_eq!(book.report(&mut out[..length - 1]), Err(Refusal::Buffer));
    assert_eq!(book.report(&mut []), Err(Refusal::Buffer));
    let none = Book::from_words([0; BOOK_WORDS]);
    assert_eq!(none.report(&mut []), Err(Refusal::Book));
    assert_eq!(out, [0xA5; REPORT_MOST]);
    assert_eq!(book.report(&mut out[..length]), Ok(length));
}

#[test]
fn a_damaged_book_is_refused_by_each_call_and_left() {
    let bench = figure();
    let mut book = bench.open(4).unwrap();
    book.ask(bench.memory(), without(0)).unwrap();
    book.ask(bench.memory(), without(256)).unwrap();
    let good = book.into_words();
    let key = |slot| header::book_key(slot) as usize;
    let answer = |place| (header::book_answer(0) + place) as usize;
    // Slots, a register, a slot past its number, a key twice, a kind, the count of pieces.
    for (at, word) in [
        (header::BOOK_SLOTS as usize, SLOTS_MOST + 1),
        (header::BOOK_REGISTERS as usize, 1 << 32),
        (key(4), 1),
        (key(1), good[key(0)]),
        (answer(header::ANSWER_KIND), header::UNSERVED + 1),
        (answer(header::ANSWER_COUNT), header::PIECES_MOST + 1),
    ] {
        let mut words = good;
        words[at] = word;
        let mut book = Book::from_words(words);
        assert_eq!(book.ask(bench.memory(), without(0)), Err(Refusal::Book));
        assert_eq!(book.notice(0, 1), Err(Refusal::Book));
        assert_eq!(book.report(&mut [0; REPORT_MOST]), Err(Refusal::Book));
        assert_eq!(book.words(), &words, "word {at}");
    }
}
