//! What is lent and put as words: the registers as they stand, and answers.

use crate::bench::*;
use llobatelh::*;
use std::collections::HashSet;

#[test]
fn registers_are_lent_as_they_stand() {
    let registers = Registers {
        idr0: 10,
        idr1: 11,
        idr5: 12,
        cr0: 13,
        cr2: 14,
        gbpa: 15,
        strtab_base: 16,
        strtab_base_cfg: 17,
    };
    let words = calls::registers(&registers);
    for (place, word) in [
        (header::IDR0, 10),
        (header::IDR1, 11),
        (header::IDR5, 12),
        (header::CR0, 13),
        (header::CR2, 14),
        (header::GBPA, 15),
        (header::STRTAB_BASE_CFG, 17),
    ] {
        assert_eq!(words[place as usize], word);
    }
    assert!(std::ptr::eq(words, std::ptr::from_ref(&registers).cast()));
}

/// Tables with a stream of each outcome but the unserved ones, and the requests.
fn several() -> (Bench, [Request; 8]) {
    let mut bench = stage_1(1);
    bench.put(0xC008, 0xA000 | 1);
    bench.put(0xA180, CD_WORD);
    bench.put(0x3FC0, 0x01);
    bench.put(0x8010, 0x1_0000 | 1);
    bench.put(0xC010, 0x2_0000 | 1);
    let requests = [
        with(768, 70),
        without(512),
        with(768, 128),
        without(0),
        without(255),
        without(260),
        with(768, 0),
        without(1024),
    ];
    (bench, requests)
}

#[test]
fn an_answer_is_the_words_that_a_call_puts() {
    let (bench, requests) = several();
    let (registers, memory) = (&bench.registers, bench.memory());
    let mut book = bench.open(4).unwrap();
    let mut plain = *book.words();
    for request in requests {
        let mut words = [u64::MAX; ANSWER_WORDS];
        let handed = calls::registers(registers);
        let said = calls::lookup(handed, registers.strtab_base, memory, request, &mut words);
        let answer = bench.lookup(request).unwrap();
        assert_eq!((said, &words), (header::DONE, answer.words()));
        let mut words = [u64::MAX; ANSWER_WORDS];
        let said = calls::ask(&mut plain, memory, request, &mut words);
        let (kept, answer) = book.ask(memory, request).unwrap();
        assert_eq!((said, &words), (kept.number().into(), answer.words()));
        assert_eq!(&plain, book.words());
    }
    // A refused call leaves them.
    let mut words = [u64::MAX; ANSWER_WORDS];
    let said = calls::ask(&mut plain, memory, with(0, 1 << 20), &mut words);
    assert_eq!(said, header::REFUSED_SUBSTREAM);
    assert_eq!(words, [u64::MAX; ANSWER_WORDS]);
}

#[test]
fn equal_answers_are_equal_and_others_are_not() {
    let (bench, requests) = several();
    let answers = requests.map(|request| bench.lookup(request).unwrap());
    assert_eq!(answers, requests.map(|r| bench.lookup(r).unwrap()));
    for (place, one) in answers.iter().enumerate() {
        for other in &answers[..place] {
            assert_ne!(one, other);
        }
        let (outcome, list) = (one.outcome(), one.list());
        let said = format!("Answer {{ outcome: {outcome:?}, list: {list:?} }}");
        assert_eq!(format!("{one:?}"), said);
    }
    assert_eq!(HashSet::from(answers).len(), answers.len());
}

#[test]
fn answers_that_differ_in_a_failed_fetchs_address_alone_are_others() {
    let mut bench = figure();
    let mut put = |l2ptr: u64| {
        bench.put(0x8010, l2ptr | 1);
        bench.lookup(without(512)).unwrap()
    };
    let [one, other] = [put(0x1_0000), put(0x2_0000)];
    assert_eq!(one.outcome(), no_ste(0x1_0000));
    assert_eq!(other.outcome(), no_ste(0x2_0000));
    assert_eq!(one.list(), other.list());
    assert_ne!(one, other);
    assert_ne!(format!("{one:?}"), format!("{other:?}"));
    assert_eq!(HashSet::from([one, other]).len(), 2);
}

#[test]
fn a_kept_address_may_be_any_number_and_another_event_has_none() {
    let mut bench = figure();
    bench.put(0x8010, 0x1_0000 | 1);
    let mut book = bench.open(2).unwrap();
    let streams = [512, 260].map(without);
    let [_, plain] = streams.map(|request| book.ask(bench.memory(), request).unwrap().1);
    for address in [0, 1, u64::MAX] {
        let mut words = *book.words();
        for slot in [0, 1] {
            words[(header::book_answer(slot) + header::ANSWER_WANTED) as usize] = address;
        }
        let mut book = Book::from_words(words);
        let [fault, other] = streams.map(|request| book.ask(bench.memory(), request).unwrap());
        assert_eq!(
            (fault.0, fault.1.outcome()),
            (Kept::Before, no_ste(address))
        );
        assert_eq!(other, (Kept::Before, plain));
        assert_eq!(other.1.words(), plain.words());
        assert_eq!(book.words(), &words);
    }
}

#[test]
fn words_past_the_list_do_not_count() {
    let bench = figure();
    let mut book = bench.open(1).unwrap();
    let (_, answer) = book.ask(bench.memory(), without(0)).unwrap();
    let mut words = book.into_words();
    words[(header::book_answer(0) + header::answer_length(2)) as usize] = 7;
    let mut book = Book::from_words(words);
    let (kept, other) = book.ask(bench.memory(), without(0)).unwrap();
    assert_eq!(kept, Kept::Before);
    assert_ne!(answer.words(), other.words());
    assert_eq!(answer, other);
    assert_eq!(answer.list(), other.list());
    assert_eq!(HashSet::from([answer, other]).len(), 1);
}
