//! A book as words, and back.

use crate::common;
use oracle::answer::{Event, Outcome, EVENTS};
use oracle::book::{malformed, Book, Kept};
use oracle::book_words::*;
use oracle::memory::Memory;
use oracle::report::LONGEST;
use oracle::script::{parse, Session};
use oracle::scripts::{script, Sort};

/// The books that some scripts lead to, line by line.
fn books(each: impl Fn(&Book)) {
    for index in 0..12 {
        let mut session = Session::default();
        let text = script(Sort::Book, 7, index);
        for line in text.split_inclusive(|byte| *byte == b'\n') {
            let Ok(Some(command)) = parse(line) else {
                continue;
            };
            if session.run(&command).is_ok() {
                each(&session.book);
            }
        }
    }
}

/// A book with a held translation in slot 0.
fn translating() -> Words {
    let found = std::cell::Cell::new(None);
    books(|book| {
        let first = book.held[0].as_ref().map(|held| held.answer.outcome);
        if matches!(first, Some(Outcome::Translate(_))) && !malformed(book) {
            found.set(Some(encode(book)));
        }
    });
    found.take().expect("a script has one")
}

fn refused(words: &Words) -> bool {
    let mut words = *words;
    let before = words;
    let refused = notice(&mut words, 0, 0).is_err();
    assert_eq!(words, before);
    refused
}

#[test]
fn words_stand_for_the_book_that_they_were_made_from() {
    books(|book| assert_eq!(decode(&encode(book)).as_ref(), Some(book)));
}

#[test]
fn every_field_has_its_width() {
    let good = translating();
    assert!(!refused(&good));
    let from = answer(0);
    let widths = [(ASID, 16), (T0SZ, 6), (TG0, 2), (EPD0, 1)];
    for (at, width) in widths.map(|(at, width)| (from + at, width)) {
        for (value, too_wide) in [((1 << width) - 1, false), (1 << width, true)] {
            let mut words = good;
            words[at] = value;
            assert_eq!(refused(&words), too_wide, "word {at}, {value}");
        }
    }
    for at in REGISTERS..STRTAB_BASE {
        let mut words = good;
        words[at] |= 1 << 32;
        assert!(refused(&words), "register {at}");
    }
}

#[test]
fn a_key_is_a_request_or_none() {
    assert_eq!(request(0), None);
    assert_eq!(request(1), Some((0, None)));
    assert_eq!(request(2), None);
    assert_eq!(request(1 << 20), None);
    assert_eq!(request((1 << 20) + 1), Some((0, Some(0))));
    assert_eq!(request(1 << 21), Some((0, Some(0xf_ffff))));
    assert_eq!(request((1 << 21) + 1), Some((1, None)));
    assert_eq!(request(1 << 53), Some((0xffff_ffff, Some(0xf_ffff))));
    let mut words = translating();
    words[key(0)] = 1 << 53;
    assert!(!refused(&words));
    words[key(0)] += 1;
    assert!(refused(&words));
}

#[test]
fn a_list_ends_at_two_to_the_52_and_has_four_pieces() {
    let mut words = translating();
    let from = answer(0);
    words[from + COUNT] = 4;
    words[from + PIECES + 6] = (1 << 52) - 8;
    words[from + PIECES + 7] = 8;
    assert!(!refused(&words));
    words[from + PIECES + 7] = 9;
    assert!(refused(&words));
    words[from + COUNT] = 3;
    assert!(!refused(&words));
    words[from + COUNT] = 5;
    assert!(refused(&words));
}

/// The same book with an abort in slot 0: an event, and a number in the word of the address.
fn aborting(event: u64, wanted: u64) -> Words {
    let mut words = translating();
    let from = answer(0);
    words[from..from + COUNT].fill(0);
    words[from + KIND] = 4;
    words[from + EVENT] = event;
    words[from + WANTED] = wanted;
    words
}

/// What the report says of slot 0.
fn first_line(words: &Words) -> String {
    let mut room = [0; LONGEST];
    let length = report(words, &mut room).unwrap();
    let text = String::from_utf8(room[..length].to_vec()).unwrap();
    text.lines().nth(1).unwrap().to_string()
}

/// What an ask for slot 0's request answers from the slot.
fn asked(words: &Words) -> AnswerWords {
    let mut asked = *words;
    let bytes = vec![0; words[LENGTH] as usize];
    let memory = Memory {
        base: words[BASE],
        bytes: &bytes,
    };
    let (stream, substream) = request(words[key(0)]).unwrap();
    let request = common::request(stream as u32, substream);
    let (kept, said) = ask(&mut asked, memory, request).unwrap();
    assert_eq!(kept, Kept::Before);
    assert_eq!(asked, *words);
    said
}

#[test]
fn an_event_is_one_that_is_listed_whatever_the_address() {
    for event in (0..300).chain([1 << 32 | 3, u64::MAX]) {
        for wanted in [0, 1, 1 << 52, 1 << 57, u64::MAX] {
            let listed = EVENTS.contains(&event);
            assert_eq!(refused(&aborting(event, wanted)), !listed, "{event}");
        }
    }
}

#[test]
fn the_address_of_a_failed_fetch_is_kept_and_any_may_stand_there() {
    for (event, shown) in [(0x03, "abort\t03\t"), (0x09, "abort\t09\t")] {
        for wanted in [0, 0x1_0000, 1 << 52, 1 << 63, u64::MAX] {
            let words = aborting(event, wanted);
            assert_eq!(asked(&words)[..COUNT], words[answer(0)..][..COUNT]);
            let line = first_line(&words);
            assert!(line.ends_with(&format!("{shown}{wanted:016x}")), "{line}");
        }
    }
}

#[test]
fn the_word_of_the_address_is_not_looked_at_for_another_event() {
    for event in EVENTS
        .into_iter()
        .filter(|event| ![0x03, 0x09].contains(event))
    {
        let plain = aborting(event, 0);
        for wanted in [1, 1 << 52, u64::MAX] {
            let words = aborting(event, wanted);
            assert_eq!(asked(&words), asked(&plain));
            assert_eq!(asked(&words)[WANTED], 0);
            assert_eq!(first_line(&words), first_line(&plain));
            assert!(first_line(&words).ends_with("\t-"));
            assert_eq!(decode(&words), decode(&plain));
        }
    }
}

#[test]
fn two_books_that_differ_in_an_address_alone_differ() {
    let one = decode(&aborting(0x03, 0x1_0000));
    let other = decode(&aborting(0x03, 0x1_0040));
    assert!(one.is_some() && other.is_some() && one != other);
}

#[test]
fn an_event_has_its_number_back() {
    for number in EVENTS {
        let event = Event::of(number, 7).unwrap();
        assert_eq!(event.number(), number);
        let of_a_fetch = [0x03, 0x09].contains(&number);
        assert_eq!(event.wanted(), of_a_fetch.then_some(7));
    }
}
