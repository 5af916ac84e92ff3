//! The numbers come from include/llobatelh.h, and what its `#define`s may look like.

use llobatelh::*;
use std::path::Path;

#[path = "../../build/defines.rs"]
mod defines;

/// The number that stands in the header beside this name, read apart from `build.rs`.
fn defined(header: &str, name: &str) -> u64 {
    let mut lines = header.lines().map(str::split_whitespace);
    let words = lines.find_map(|mut words| {
        let is_it = words.next() == Some("#define") && words.next()? == format!("LLOBATELH_{name}");
        is_it.then(|| words.next()).flatten()
    });
    let word = words.unwrap_or_else(|| panic!("the header has no {name}"));
    match word.strip_prefix("0x") {
        Some(digits) => u64::from_str_radix(digits, 16),
        None => word.parse(),
    }
    .unwrap_or_else(|_| panic!("{name}: {word}"))
}

/// All of them, by their numbers.
const EVENTS: [Event; 7] = [
    Event::CBadStreamid,
    Event::FSteFetch { address: 7 },
    Event::CBadSte,
    Event::FStreamDisabled,
    Event::CBadSubstreamid,
    Event::FCdFetch { address: 7 },
    Event::CBadCd,
];

#[test]
fn an_event_is_read_of_its_words() {
    for event in EVENTS {
        let number = u64::from(event.number());
        assert_eq!(Event::from_words(number, 7), Some(event));
        assert_eq!(Event::from_words(number + 0x100, 7), None);
    }
    let others = (0..=0x20).filter(|number| Event::from_words(*number, 7).is_none());
    assert_eq!(others.count(), 0x21 - EVENTS.len());
    assert!(EVENTS.windows(2).all(|pair| pair[0] < pair[1]));
}

#[test]
fn numbers_are_the_headers() {
    let header = Path::new(env!("CARGO_MANIFEST_DIR")).join("../include/llobatelh.h");
    let header = std::fs::read_to_string(header).unwrap();
    let events = EVENTS.map(|event| u64::from(event.number()));
    let cases = Unserved::ALL.map(|case| u64::from(case.number()));
    let refusals = Refusal::ALL.map(|refusal| u64::from(refusal.number()));
    let kept = Kept::ALL.map(|kept| u64::from(kept.number()));
    let names = [
        ("MEMORY_MOST", MEMORY_MOST as u64),
        ("SLOTS_MOST", SLOTS_MOST),
        ("PIECES_MOST", PIECES_MOST as u64),
        ("STE_BYTES", STE_BYTES as u64),
        ("REGISTERS", REGISTERS as u64),
        ("ANSWER_EVENT", header::ANSWER_EVENT),
        ("ANSWER_WANTED", header::ANSWER_WANTED),
        ("C_BAD_STREAMID", events[0]),
        ("F_STE_FETCH", events[1]),
        ("C_BAD_STE", events[2]),
        ("F_STREAM_DISABLED", events[3]),
        ("C_BAD_SUBSTREAMID", events[4]),
        ("F_CD_FETCH", events[5]),
        ("C_BAD_CD", events[6]),
        ("STAGE_2", cases[0]),
        ("VMSA_32", cases[1]),
        ("STREAM_WORLD", cases[2]),
        ("REFUSED_REGISTERS", refusals[0]),
        ("REFUSED_MEMORY", refusals[1]),
        ("REFUSED_SUBSTREAM", refusals[2]),
        ("REFUSED_SLOTS", refusals[3]),
        ("REFUSED_NOTICE", refusals[4]),
        ("REFUSED_EXTENT", refusals[5]),
        ("REFUSED_BOOK", refusals[6]),
        ("REFUSED_BUFFER", refusals[7]),
        ("KEPT_BEFORE", kept[0]),
        ("NEWLY_KEPT", kept[1]),
        ("NOT_KEPT", kept[2]),
    ];
    for (name, number) in names {
        assert_eq!(defined(&header, name), number, "{name}");
    }
    assert_eq!(header::NO_PART, u64::MAX);
    assert_eq!(REPORT_MOST as u64, 44 + 44 * SLOTS_MOST);
    assert_eq!(header::book_answer(SLOTS_MOST), BOOK_WORDS as u64);
    assert_eq!(
        header::answer_address(header::PIECES_MOST),
        ANSWER_WORDS as u64
    );
}

/// The lines of Rust that are made of lines of C, without what they say of themselves.
fn made(header: &str) -> Result<Vec<String>, String> {
    let rust = defines::as_rust(header)?;
    let lines = rust.lines().filter(|line| !line.starts_with("#[doc"));
    Ok(lines.map(str::to_string).collect())
}

#[test]
fn defines_become_constants_and_functions() {
    let header = "
#ifndef LLOBATELH_H
#define LLOBATELH_H
#define OTHER 1
#define LLOBATELH_A 10 /* one */ /* and more
   in the next line */
#define LLOBATELH_B 0x1fUL // two
#define LLOBATELH_C (2 * LLOBATELH_A + (LLOBATELH_B - 1))
#define LLOBATELH_D (~(uint64_t)0)
#define LLOBATELH_E(i) (LLOBATELH_A + \\
    2 * (i))
#define LLOBATELH_F LLOBATELH_E(LLOBATELH_A) << 3
uint64_t llobatelh_g(void);
";
    let rust = [
        "pub const A: u64 = 10;",
        "pub const B: u64 = 31;",
        "pub const C: u64 = (2*A+(B-1));",
        "pub const D: u64 = (!0);",
        "pub const fn e(i: u64) -> u64 { (A+2*(i)) }",
        "pub const F: u64 = e(A)<<3;",
    ];
    assert_eq!(made(header).unwrap(), rust);
}

#[test]
fn a_value_that_is_none_is_named() {
    for (value, word) in [
        ("sizeof(int)", "sizeof"),
        ("\"text\"", "\""),
        ("010", "010"),
        ("1.5", "."),
        ("2 + x", "x"),
        ("0x1_0000_0000_0000_0000", "0x1_0000_0000_0000_0000"),
    ] {
        let said = made(&format!("#define LLOBATELH_A {value}\n"));
        assert_eq!(said, Err(format!("LLOBATELH_A: `{word}` can't be read")));
    }
    assert!(made("#define LLOBATELH_A(i 1\n").is_err());
}
