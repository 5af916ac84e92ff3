//! RULES, "When the bench says no": each refusal on both sides of each boundary, the orders,
//! and that a refused call changes nothing.

use crate::common::*;
use oracle::answer::{Answer, Event, Outcome, Piece, EVENTS};
use oracle::book::{ask, malformed, notice, open, Book, Held, Kept};
use oracle::memory::Memory;
use oracle::refusal::Refusal;
use oracle::registers::*;
use oracle::report::{report, LONGEST, SHORTEST};
use oracle::script::Session;

const END: u64 = 1 << 52;

fn refuses(session: &Session, number: u8) -> bool {
    look(session, 0, None) == Err(Refusal(number))
}

/// A book of four slots on the figure, with streams 256 and 260 in it.
fn book() -> Book {
    let figure = figure();
    let mut book = open(figure.registers, 0, 65_536, 4).unwrap();
    for stream in [256, 260] {
        ask(&mut book, figure.memory(), request(stream, None)).unwrap();
    }
    book
}

/// Asks, gives notice and reports, each on a copy. One that refuses must change nothing.
fn all_calls(book: &Book) -> [Option<Refusal>; 3] {
    let figure = figure();
    let mut asked = book.clone();
    let mut noticed = book.clone();
    let mut buffer = [0xee; LONGEST];
    let refusals = [
        ask(&mut asked, figure.memory(), request(0, None)).err(),
        notice(&mut noticed, 0, END).err(),
        report(book, &mut buffer).err(),
    ];
    assert!(refusals[0].is_none() || asked == *book);
    assert!(refusals[1].is_none() || noticed == *book);
    assert!(refusals[2].is_none() || buffer == [0xee; LONGEST]);
    refusals
}

/// Whether a change makes a book malformed; every call must say the same.
fn is_malformed(change: impl Fn(&mut Book)) -> bool {
    let mut book = book();
    assert!(!malformed(&book));
    change(&mut book);
    let malformed = malformed(&book);
    let seven = Some(Refusal(7));
    for refusal in all_calls(&book) {
        assert_eq!(refusal == seven, malformed);
    }
    malformed
}

// 1 to 3.

#[test]
fn refusal_1() {
    for (register, field, last_right) in [
        (Register::Idr5, OAS, 6),
        (Register::Idr1, SIDSIZE, 32),
        (Register::Idr1, SSIDSIZE, 20),
    ] {
        let mut session = figure();
        set(&mut session, register, field, last_right);
        assert!(look(&session, 0, None).is_ok());
        set(&mut session, register, field, last_right + 1);
        assert!(refuses(&session, 1));
        let opened = open(session.registers, 0, 65_536, 1);
        assert_eq!(opened, Err(Refusal(1)));
        // Also where nothing would be read.
        session.registers.cr0 = 0;
        assert!(refuses(&session, 1));
    }
}

#[test]
fn refusal_2() {
    for (base, length, refused) in [
        (64, 65_536, false),
        (63, 65_536, true),
        (1, 0, true),
        (32, 64, true),
        (0, 0, false),
        (0, 65_537, true),
        (END - 65_536, 65_536, false),
        (END - 65_472, 65_472, false),
        (END - 65_472, 65_473, true),
        (END, 0, false),
        (END, 1, true),
        (END + 64, 0, true),
        (u64::MAX - 63, 65_536, true),
    ] {
        let mut session = figure();
        session.base = base;
        session.bytes = vec![0; length];
        assert_eq!(refuses(&session, 2), refused, "{base:#x} {length}");
        let opened = open(session.registers, base, length as u64, 1);
        assert_eq!(opened.err(), refused.then_some(Refusal(2)));
    }
    let figure = figure();
    let opened = open(figure.registers, u64::MAX - 63, u64::MAX, 1);
    assert_eq!(opened, Err(Refusal(2)));
}

#[test]
fn refusal_3() {
    let figure = figure();
    for (substream, refused) in [
        (None, false),
        (Some((1 << 20) - 1), false),
        (Some(1 << 20), true),
        (Some(u64::MAX), true),
    ] {
        let looked = look(&figure, 0, substream);
        assert_eq!(looked.err(), refused.then_some(Refusal(3)));
        let asked = ask(&mut book(), figure.memory(), request(0, substream));
        assert_eq!(asked.err(), refused.then_some(Refusal(3)));
    }
}

// 4 to 6.

#[test]
fn refusal_4() {
    let registers = figure().registers;
    for (slots, refused) in [
        (0, true),
        (1, false),
        (64, false),
        (65, true),
        (u64::MAX, true),
    ] {
        let opened = open(registers, 0, 0, slots);
        assert_eq!(opened.err(), refused.then_some(Refusal(4)), "{slots}");
    }
    // All slots are empty at opening.
    let opened = open(registers, 64, 128, 64).unwrap();
    assert_eq!(
        (opened.registers, opened.base, opened.length),
        (registers, 64, 128)
    );
    assert_eq!((opened.slots, opened.held_slots().count()), (64, 0));
}

#[test]
fn refusal_5() {
    for (start, length, refused) in [
        (0, END, false),
        (0, END + 1, true),
        (1, END, true),
        (END, 0, false),
        (END, 1, true),
        (END + 1, 0, true),
        (END - 1, 1, false),
        (u64::MAX, u64::MAX, true),
        (u64::MAX, 1, true),
        (1, u64::MAX, true),
    ] {
        let mut noticed = book();
        let result = notice(&mut noticed, start, length);
        assert_eq!(
            result.err(),
            refused.then_some(Refusal(5)),
            "{start:#x} {length:#x}"
        );
        if refused {
            assert_eq!(noticed, book());
        }
    }
}

#[test]
fn refusal_6() {
    let figure = figure();
    let longer = vec![0; 65_537];
    for (base, length, refused) in [
        (0, 65_536, false),
        (64, 65_536, true),
        (0, 65_535, true),
        (0, 65_537, true),
        (0, 0, true),
    ] {
        let mut asked = book();
        let bytes = figure.bytes.get(..length).unwrap_or(&longer);
        let result = ask(&mut asked, Memory { base, bytes }, request(0, None));
        assert_eq!(
            result.err(),
            refused.then_some(Refusal(6)),
            "{base} {length}"
        );
        if refused {
            assert_eq!(asked, book());
        }
    }
}

// 7.

#[test]
fn refusal_7_slots_not_1_to_64() {
    for (slots, wrong) in [(2, false), (64, false), (65, true), (u64::MAX, true)] {
        assert_eq!(is_malformed(|book| book.slots = slots), wrong, "{slots}");
    }
    // With no slot held, the number alone decides.
    for (slots, wrong) in [(0, true), (1, false)] {
        let empty = |book: &mut Book| {
            book.slots = slots;
            book.held = Book::blank().held;
        };
        assert_eq!(is_malformed(empty), wrong);
    }
    assert!(malformed(&Book::blank()));
    assert_eq!(all_calls(&Book::blank()), [Some(Refusal(7)); 3]);
}

#[test]
fn refusal_7_registers_or_extent() {
    for (register, field, last_right) in [
        (Register::Idr5, OAS, 6),
        (Register::Idr1, SIDSIZE, 32),
        (Register::Idr1, SSIDSIZE, 20),
    ] {
        for (value, wrong) in [(last_right, false), (last_right + 1, true)] {
            let change = |book: &mut Book| {
                let word = field.put(book.registers.get(register).into(), value);
                book.registers.set(register, word as u64);
            };
            assert_eq!(is_malformed(change), wrong);
        }
    }
    for (base, length, wrong) in [
        (64, 65_536, false),
        (63, 65_536, true),
        (0, 65_537, true),
        (END - 65_536, 65_536, false),
        (END - 65_472, 65_536, true),
        (u64::MAX - 63, u64::MAX, true),
    ] {
        let change = |book: &mut Book| (book.base, book.length) = (base, length);
        assert_eq!(is_malformed(change), wrong, "{base:#x} {length}");
    }
}

/// Puts a copy of what slot 0 holds into another slot, changed.
fn hold(book: &mut Book, slot: usize, change: impl Fn(&mut Held)) {
    let mut held = book.held[0].clone().unwrap();
    change(&mut held);
    book.held[slot] = Some(held);
}

#[test]
fn refusal_7_a_slot_past_the_number() {
    for (slot, wrong) in [(3, false), (4, true), (63, true)] {
        let change = |book: &mut Book| hold(book, slot, |held| held.stream = 7);
        assert_eq!(is_malformed(change), wrong, "{slot}");
    }
}

#[test]
fn refusal_7_equal_requests() {
    for slot in [2, 3] {
        assert!(is_malformed(|book| hold(book, slot, |_| {})));
        // SubstreamID 0 and none are not equal.
        let with_0 = |held: &mut Held| held.substream = Some(0);
        assert!(!is_malformed(|book| hold(book, slot, with_0)));
    }
    assert!(is_malformed(|book| {
        hold(book, 2, |held| held.substream = Some(0));
        hold(book, 3, |held| held.substream = Some(0));
    }));
    assert!(!is_malformed(|book| {
        hold(book, 2, |held| held.substream = Some(0));
        hold(book, 3, |held| held.substream = Some(1));
    }));
}

#[test]
fn refusal_7_a_held_request_out_of_range() {
    for (substream, wrong) in [((1 << 20) - 1, false), (1 << 20, true), (u64::MAX, true)] {
        let change = |held: &mut Held| held.substream = Some(substream);
        assert_eq!(is_malformed(|book| hold(book, 2, change)), wrong);
    }
    // A word that stands for no StreamID.
    for (stream, wrong) in [((1 << 32) - 1, false), (1 << 32, true)] {
        let change = |held: &mut Held| held.stream = stream;
        assert_eq!(is_malformed(|book| hold(book, 2, change)), wrong);
    }
}

#[test]
fn refusal_7_a_held_list() {
    let holding = |list: Vec<Piece>| {
        is_malformed(|book| {
            let change = |held: &mut Held| {
                held.stream = 7;
                held.answer.list = list.clone();
            };
            hold(book, 2, change);
        })
    };
    assert!(!holding(list(&[])));
    assert!(!holding(list(&[(0, 8); 4])));
    assert!(holding(list(&[(0, 8); 5])));
    for (address, length, wrong) in [
        (END - 64, 64, false),
        (END - 64, 65, true),
        (END, 0, false),
        (END, 1, true),
        (END + 1, 0, true),
        (u64::MAX, u64::MAX, true),
        // Not what a lookup lists, and yet not listed by the rules as malformed.
        (3, 5, false),
        (0, END, false),
    ] {
        let pieces = [(0, 8), (0, 8), (0, 8), (address, length)];
        assert_eq!(holding(list(&pieces)), wrong, "{address:#x} {length}");
        assert_eq!(holding(list(&pieces[3..])), wrong);
    }
}

#[test]
fn refusal_7_a_held_number() {
    let holding = |outcome: Outcome| {
        is_malformed(|book| {
            let change = |held: &mut Held| {
                held.stream = 7;
                held.answer.outcome = outcome;
            };
            hold(book, 2, change);
        })
    };
    for number in (0..300).chain([u64::MAX]) {
        // An event that isn't listed is no event: the words of such a book are refused (words.rs).
        let event = matches!(number, 2 | 3 | 4 | 6 | 8 | 9 | 10);
        assert_eq!(Event::of(number, 0).is_some(), event);
        let unserved = matches!(number, 20..=22);
        assert_eq!(holding(Outcome::Unserved { number }), !unserved);
    }
    for event in EVENTS {
        for wanted in [0, 1, END, u64::MAX] {
            let event = Event::of(event, wanted).unwrap();
            assert!(!holding(Outcome::Abort(event)));
        }
    }
    assert!(!holding(Outcome::QuietAbort));
    assert!(!holding(Outcome::GlobalBypass));
}

// 8.

#[test]
fn refusal_8() {
    let book = book();
    let mut buffer = [0; LONGEST];
    let length = report(&book, &mut buffer).unwrap();
    for (room, refused) in [(length, false), (length - 1, true), (0, true)] {
        let mut buffer = vec![0xee; room];
        let result = report(&book, &mut buffer);
        assert_eq!(result.err(), refused.then_some(Refusal(8)));
        if refused {
            assert!(buffer.iter().all(|byte| *byte == 0xee));
        }
    }
}

#[test]
fn the_longest_report_fits_its_bound() {
    let mut book = open(Registers::default(), 0, 0, 64).unwrap();
    for slot in 0..64 {
        book.held[slot] = Some(Held {
            stream: u64::from(u32::MAX),
            substream: Some(0xfffff - slot as u64),
            answer: Answer {
                outcome: failed(0x09, u64::MAX),
                list: vec![],
            },
        });
    }
    // Slots 0 to 9 take one digit less.
    let mut buffer = [0; LONGEST];
    assert_eq!(report(&book, &mut buffer), Ok(LONGEST - 10));
    assert_eq!((SHORTEST, LONGEST), (44, 2_860));
}

// Orders.

#[test]
fn orders_of_refusals() {
    let figure = figure();
    // Lookup: 1, 2, 3. Opening: 1, 2, 4.
    let mut session = figure.clone();
    session.registers.idr5 = 7;
    session.base = 1;
    let three = Some(1 << 20);
    assert_eq!(look(&session, 0, three), Err(Refusal(1)));
    assert_eq!(open(session.registers, 1, 65_536, 0), Err(Refusal(1)));
    session.registers.idr5 = 5;
    assert_eq!(look(&session, 0, three), Err(Refusal(2)));
    assert_eq!(open(session.registers, 1, 65_536, 0), Err(Refusal(2)));
    session.base = 0;
    assert_eq!(look(&session, 0, three), Err(Refusal(3)));
    assert_eq!(open(session.registers, 0, 65_536, 0), Err(Refusal(4)));
    // Ask: 7, 6, 3. Notice: 7, 5. Report: 7, 8.
    let mut wrong = book();
    wrong.slots = 0;
    let mut right = book();
    let other = Memory {
        base: 64,
        bytes: &figure.bytes,
    };
    assert_eq!(ask(&mut wrong, other, request(0, three)), Err(Refusal(7)));
    assert_eq!(ask(&mut right, other, request(0, three)), Err(Refusal(6)));
    assert_eq!(
        ask(&mut right, figure.memory(), request(0, three)),
        Err(Refusal(3))
    );
    assert_eq!(notice(&mut wrong, u64::MAX, 1), Err(Refusal(7)));
    assert_eq!(notice(&mut right, u64::MAX, 1), Err(Refusal(5)));
    assert_eq!(report(&wrong, &mut []), Err(Refusal(7)));
    assert_eq!(report(&right, &mut []), Err(Refusal(8)));
    assert_eq!(right, book());
}

// The book besides.

#[test]
fn an_ask_says_before_newly_or_not() {
    let figure = figure();
    let mut book = open(figure.registers, 0, 65_536, 1).unwrap();
    for (stream, kept) in [
        (0, Kept::Newly),
        (0, Kept::Before),
        (1, Kept::Not),
        (1, Kept::Not),
    ] {
        let asked = ask(&mut book, figure.memory(), request(stream, None)).unwrap();
        assert_eq!(asked.0, kept);
        assert_eq!(Ok(asked.1), look(&figure, stream, None));
    }
    assert_eq!(book.held_slots().count(), 1);
}

#[test]
fn a_notice_strikes_exactly_what_shares_a_byte() {
    // Stream 256 is held with 0x8008+8 and 0x2f00+64, stream 260 with 0x8008+8.
    for (start, length, stays) in [
        (0x2f00, 1, vec![1]),
        (0x2f3f, 1, vec![1]),
        (0x2eff, 1, vec![0, 1]),
        (0x2f40, 1, vec![0, 1]),
        (0x2f00, 0, vec![0, 1]),
        (0x2f10, 0, vec![0, 1]),
        (0x2eff, 2, vec![1]),
        (0x2000, 0xf00, vec![0, 1]),
        (0x8008, 1, vec![]),
        (0x800f, 1, vec![]),
        (0x8007, 1, vec![0, 1]),
        (0x8010, 1, vec![0, 1]),
        (0, END, vec![]),
        (0x2f40, END - 0x2f40, vec![]),
    ] {
        let mut book = book();
        notice(&mut book, start, length).unwrap();
        let held: Vec<usize> = book.held_slots().map(|(slot, _)| slot).collect();
        assert_eq!(held, stays, "{start:#x} {length:#x}");
    }
    // A held piece of length 0 shares no address with any notice.
    let mut book = book();
    hold(&mut book, 2, |held| {
        held.stream = 7;
        held.answer.list = list(&[(0x2f10, 0)]);
    });
    notice(&mut book, 0, END).unwrap();
    let held: Vec<usize> = book.held_slots().map(|(slot, _)| slot).collect();
    assert_eq!(held, [2]);
}
