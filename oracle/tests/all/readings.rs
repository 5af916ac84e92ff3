//! RULES, "Readings that look right and aren't": each on a table where the wrong reading gives another answer.

use crate::common::*;
use oracle::answer::*;
use oracle::book::{ask, notice, open, Kept};
use oracle::descriptors::{l1std, ste};
use oracle::registers::*;

#[test]
fn l2ptr_is_not_used_as_written() {
    // As written, stream 256 would be at 0x2f20 (or at 0x2f40, by its field); stream 0 at 0x1000.
    let mut session = figure();
    put(&mut session, 0x8008, &[0x2f40 | 3]);
    put(&mut session, 0x2f40, &[0x01]);
    assert_eq!(look(&session, 256, None).unwrap().outcome, bypass(0x2f00));
    assert_eq!(look(&session, 0, None).unwrap().outcome, bypass(0x0));
}

#[test]
fn span_is_checked_against_split_plus_1_too() {
    // Span 10 is not above 11, and holds stream 256's low bits; but SPLIT is 8.
    let mut session = figure();
    put(&mut session, 0x8008, &[0]);
    put_field(&mut session, 0x8008, l1std::SPAN, 10);
    assert_eq!(look(&session, 256, None).unwrap().outcome, abort(0x02));
    put_field(&mut session, 0x8008, l1std::SPAN, 9);
    assert_eq!(look(&session, 256, None).unwrap().outcome, bypass(0x0));
}

#[test]
fn s1fmt_is_not_read_when_s1cdmax_is_0() {
    // Read, S1Fmt 1 would take the CD's first word for an L1CD with V clear: 0x08.
    // S1Fmt 3, or 1 without CD2L, would be 0x04.
    for (s1fmt, cd2l) in [(0, 1), (1, 1), (2, 1), (3, 1), (1, 0), (3, 0)] {
        let mut session = stage_1(s1fmt);
        set(&mut session, Register::Idr0, CD2L, cd2l);
        put_field(&mut session, STE, ste::S1CDMAX, 0);
        put(&mut session, TABLE, &[CD_WORD]);
        let found = Outcome::Translate(translation(TABLE));
        assert_eq!(look(&session, 768, None).unwrap().outcome, found, "{s1fmt}");
    }
}

#[test]
fn substream_0_is_not_the_request_without_a_substream() {
    let mut session = stage_1(0);
    put(&mut session, TABLE, &[CD_WORD]);
    let found = Outcome::Translate(translation(TABLE));
    assert_eq!(look(&session, 768, None).unwrap().outcome, abort(0x06));
    assert_eq!(look(&session, 768, Some(0)).unwrap().outcome, found);
    // Nor for the book.
    let mut book = open(session.registers, 0, 65_536, 2).unwrap();
    for (substream, outcome) in [(None, abort(0x06)), (Some(0), found)] {
        let asked = ask(&mut book, session.memory(), request(768, substream)).unwrap();
        assert_eq!((asked.0, asked.1.outcome), (Kept::Newly, outcome));
    }
}

#[test]
fn the_list_holds_every_descriptor_read() {
    // An edit to any of the four strikes the slot.
    let mut session = stage_1(1);
    put(&mut session, 0xc008, &[LEAF | 1]);
    put(&mut session, 0xa180, &[CD_WORD]);
    for start in [0x8018, 0x4000, 0xc008, 0xa180] {
        let mut book = open(session.registers, 0, 65_536, 1).unwrap();
        ask(&mut book, session.memory(), request(768, Some(70))).unwrap();
        notice(&mut book, start, 1).unwrap();
        assert_eq!(book.held_slots().count(), 0, "{start:#x}");
    }
}
