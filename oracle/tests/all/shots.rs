//! RULES, "Shots on the bench": P1 to P14 with their lists, the others, and the report of "The book".

use crate::common::*;
use oracle::answer::*;
use oracle::book::{ask, notice, open, Kept};
use oracle::descriptors::l1std;
use oracle::registers::*;
use oracle::report::report;

const L1STD_0: (u64, u64) = (0x8000, 8);
const L1STD_1: (u64, u64) = (0x8008, 8);
const L1STD_2: (u64, u64) = (0x8010, 8);
const L1STD_3: (u64, u64) = (0x8018, 8);

#[test]
fn p1_to_p9() {
    let figure = figure();
    let shots = [
        (0, bypass(0x0), vec![L1STD_0, (0x0, 64)]),
        (255, bypass(0x3fc0), vec![L1STD_0, (0x3fc0, 64)]),
        (256, bypass(0x2f00), vec![L1STD_1, (0x2f00, 64)]),
        (259, bypass(0x2fc0), vec![L1STD_1, (0x2fc0, 64)]),
        (260, abort(0x02), vec![L1STD_1]),
        (512, abort(0x02), vec![L1STD_2]),
        (768, bypass(0x4000), vec![L1STD_3, (0x4000, 64)]),
        (769, abort(0x02), vec![L1STD_3]),
        (1024, abort(0x02), vec![]),
    ];
    for (stream, outcome, list) in shots {
        assert_eq!(
            look(&figure, stream, None),
            answer(outcome, &list),
            "{stream}"
        );
    }
}

#[test]
fn p10_a_notice_of_one_byte_strikes_both_that_share_the_ste() {
    let figure = figure();
    let mut book = open(figure.registers, 0, 65_536, 4).unwrap();
    for (stream, l1std) in [(188, L1STD_0), (256, L1STD_1), (0, L1STD_0)] {
        let (kept, given) = ask(&mut book, figure.memory(), request(stream, None)).unwrap();
        let ste = if stream == 0 { 0x0 } else { 0x2f00 };
        assert_eq!(kept, Kept::Newly);
        assert_eq!(Ok(given), answer(bypass(ste), &[l1std, (ste, 64)]));
    }
    notice(&mut book, 0x2f00, 1).unwrap();
    let held: Vec<usize> = book.held_slots().map(|(slot, _)| slot).collect();
    assert_eq!(held, [2]);
    // The struck slots are used again, the lowest first.
    for (stream, kept) in [(256, Kept::Newly), (188, Kept::Newly), (0, Kept::Before)] {
        assert_eq!(
            ask(&mut book, figure.memory(), request(stream, None))
                .unwrap()
                .0,
            kept
        );
    }
    assert_eq!(book.held[0].as_ref().unwrap().stream, 256);
    assert_eq!(book.held[1].as_ref().unwrap().stream, 188);
}

#[test]
fn p11_and_p12_linear_cds() {
    let mut session = stage_1(0);
    put(&mut session, 0xffc0, &[CD_WORD]);
    let found = Outcome::Translate(translation(0xffc0));
    let list = [L1STD_3, (STE, 64), (0xffc0, 64)];
    assert_eq!(look(&session, 768, Some(255)), answer(found, &list));
    assert_eq!(
        look(&session, 768, Some(256)),
        answer(abort(0x08), &list[..2])
    );
}

#[test]
fn p13_two_levels_of_64_cds() {
    let mut session = stage_1(1);
    put(&mut session, 0xc008, &[LEAF | 1]);
    put(&mut session, 0xa180, &[CD_WORD]);
    let found = Outcome::Translate(translation(0xa180));
    let list = [L1STD_3, (STE, 64), (0xc008, 8), (0xa180, 64)];
    assert_eq!(look(&session, 768, Some(70)), answer(found, &list));
}

#[test]
fn p14_two_levels_of_1024_cds() {
    let mut session = stage_1(2);
    put(&mut session, 0xc000, &[LEAF | 1]);
    put(&mut session, 0xb180, &[CD_WORD]);
    let found = Outcome::Translate(translation(0xb180));
    let list = [L1STD_3, (STE, 64), (0xc000, 8), (0xb180, 64)];
    assert_eq!(look(&session, 768, Some(70)), answer(found, &list));
}

#[test]
fn others_the_last_ste_of_the_memory_and_one_past_it() {
    let mut session = figure();
    put(&mut session, 0xffc0, &[0x09]);
    put(&mut session, 0x8018, &[0xffc0 | 1]);
    let found = answer(bypass(0xffc0), &[L1STD_3, (0xffc0, 64)]);
    assert_eq!(look(&session, 768, None), found);
    put(&mut session, 0x8018, &[0x1_0000 | 1]);
    let wanted = failed(0x03, 0x1_0000);
    assert_eq!(look(&session, 768, None), answer(wanted, &[L1STD_3]));
}

#[test]
fn others_split_7_acts_as_6() {
    let mut session = figure();
    set(&mut session, Register::StrtabBaseCfg, SPLIT, 7);
    // Stream 127 is entry 63 of table 1; Span 7 holds 64 STEs, from 0x2000 on.
    put(&mut session, 0x8008, &[0x2000]);
    put_field(&mut session, 0x8008, l1std::SPAN, 7);
    let found = answer(bypass(0x2fc0), &[L1STD_1, (0x2fc0, 64)]);
    assert_eq!(look(&session, 127, None), found);
    put_field(&mut session, 0x8008, l1std::SPAN, 8);
    assert_eq!(look(&session, 127, None), answer(abort(0x02), &[L1STD_1]));
}

#[test]
fn the_report_after_asks_for_256_and_260() {
    let figure = figure();
    let mut book = open(figure.registers, 0, 65_536, 2).unwrap();
    for stream in [256, 260] {
        ask(&mut book, figure.memory(), request(stream, None)).unwrap();
    }
    let text = b"slot\tstream\tsubstream\toutcome\tevent\taddress\n\
                 0\t00000100\t-\tbypass\t-\t-\n\
                 1\t00000104\t-\tabort\t02\t-\n";
    let mut buffer = [0xee; 120];
    assert_eq!(report(&book, &mut buffer), Ok(text.len()));
    assert_eq!(&buffer[..text.len()], text);
    assert!(buffer[text.len()..].iter().all(|byte| *byte == 0xee));
}
