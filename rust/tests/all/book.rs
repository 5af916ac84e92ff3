//! The book: what is stale, what is struck, what is kept, the report.

use crate::bench::*;
use llobatelh::*;

#[test]
fn an_edit_without_its_notice_is_stale_and_with_it_is_not() {
    let mut bench = figure();
    let mut book = bench.open(4).unwrap();
    let first = book.ask(bench.memory(), without(256)).unwrap();
    assert_eq!(first.0, Kept::Newly);
    // The L1STD, read first, is edited: Span 0.
    bench.put(0x8008, 0);
    let fresh = bench.lookup(without(256)).unwrap();
    assert_eq!(fresh.outcome(), Outcome::Abort(Event::CBadStreamid));
    // No notice yet: the kept answer is not what a new lookup gives.
    let stale = book.ask(bench.memory(), without(256)).unwrap();
    assert_eq!(stale, (Kept::Before, first.1));
    assert_ne!(stale.1, fresh);
    // With it, it is.
    book.notice(0x8008, 8).unwrap();
    let told = book.ask(bench.memory(), without(256)).unwrap();
    assert_eq!(told, (Kept::Newly, fresh));
}

#[test]
fn what_is_kept_is_what_is_looked_up() {
    let mut bench = stage_1(1);
    bench.put(0xC008, 0xA000 | 1);
    bench.put(0xA180, CD_WORD);
    bench.put(0x8010, 0x1_0000 | 1);
    bench.put(0xC010, 0x2_0000 | 1);
    let mut book = bench.open(64).unwrap();
    let requests = [
        without(512),
        with(768, 128),
        without(0),
        without(256),
        without(260),
        without(768),
        with(768, 70),
        with(768, 0),
        with(768, 71),
    ];
    for request in requests {
        let fresh = bench.lookup(request).unwrap();
        assert_eq!(book.ask(bench.memory(), request), Ok((Kept::Newly, fresh)));
    }
    for request in requests {
        let fresh = bench.lookup(request).unwrap();
        assert_eq!(book.ask(bench.memory(), request), Ok((Kept::Before, fresh)));
    }
}

#[test]
fn a_full_book_keeps_no_more() {
    let bench = figure();
    let mut book = bench.open(1).unwrap();
    book.ask(bench.memory(), without(0)).unwrap();
    let before = book;
    let (kept, answer) = book.ask(bench.memory(), without(256)).unwrap();
    assert_eq!(kept, Kept::Not);
    assert_eq!(answer.outcome(), Outcome::Bypass { ste: 0x2F00 });
    assert_eq!(book, before);
    // Size 0 strikes nothing; the whole memory strikes all.
    book.notice(0, 0).unwrap();
    assert_eq!(book, before);
    book.notice(0, 0x1_0000).unwrap();
    let (kept, _) = book.ask(bench.memory(), without(256)).unwrap();
    assert_eq!(kept, Kept::Newly);
}

#[test]
fn the_report_of_document_01() {
    let mut bench = figure();
    let mut book = bench.open(2).unwrap();
    for stream in [256, 260] {
        book.ask(bench.memory(), without(stream)).unwrap();
    }
    let text = b"slot\tstream\tsubstream\toutcome\tevent\taddress\n0\t00000100\t-\tbypass\t-\t-\n1\t00000104\t-\tabort\t02\t-\n";
    let mut out = [0xA5; REPORT_MOST];
    assert_eq!(book.report(&mut out), Ok(text.len()));
    assert_eq!(&out[..text.len()], text);
    assert!(out[text.len()..].iter().all(|byte| *byte == 0xA5));
    // RECINVSID 0: it is not recorded.
    bench.registers.cr2 = 0;
    let mut book = bench.open(2).unwrap();
    book.ask(bench.memory(), without(260)).unwrap();
    let length = book.report(&mut out).unwrap();
    assert!(out[..length].ends_with(b"0\t00000104\t-\tunrecorded\t02\t-\n"));
}

#[test]
fn a_report_has_the_address_that_a_failed_fetch_wanted() {
    let mut bench = stage_1(1);
    bench.put(0x8010, 0x1_0000 | 1);
    bench.put(0xC008, 1 << 55 | 0xA000 | 1);
    let mut book = bench.open(2).unwrap();
    for request in [without(512), with(768, 70)] {
        book.ask(bench.memory(), request).unwrap();
    }
    let mut out = [0; REPORT_MOST];
    let length = book.report(&mut out).unwrap();
    let lines = b"\n0\t00000200\t-\tabort\t03\t0000000000010000\n1\t00000300\t00046\tabort\t09\t008000000000a180\n";
    assert!(out[..length].ends_with(lines));
}

#[test]
fn an_edit_that_moves_a_failed_fetch_is_stale_until_its_notice() {
    let mut bench = figure();
    bench.put(0x8010, 0x1_0000 | 1);
    let mut book = bench.open(1).unwrap();
    book.ask(bench.memory(), without(512)).unwrap();
    bench.put(0x8010, 0x2_0000 | 1);
    let (kept, stale) = book.ask(bench.memory(), without(512)).unwrap();
    assert_eq!((kept, stale.outcome()), (Kept::Before, no_ste(0x1_0000)));
    book.notice(0x8010, 8).unwrap();
    let (kept, told) = book.ask(bench.memory(), without(512)).unwrap();
    assert_eq!((kept, told.outcome()), (Kept::Newly, no_ste(0x2_0000)));
}

#[test]
fn a_book_stands_on_borrowed_words_and_can_be_copied() {
    let bench = figure();
    let mut words = [u64::MAX; BOOK_WORDS];
    let mut book = Book::from_words(&mut words);
    book.open_again(&bench.registers, 0, 65_536, 8).unwrap();
    book.ask(bench.memory(), without(0)).unwrap();
    let mut copy = Book::from_words(words);
    let (kept, _) = copy.ask(bench.memory(), without(0)).unwrap();
    assert_eq!(kept, Kept::Before);
}
