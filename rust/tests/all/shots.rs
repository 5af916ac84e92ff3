//! The shots of docs/RULES.md, P1 to P14, with their lists.

use crate::bench::*;
use llobatelh::*;

const BAD_STREAM: Outcome = Outcome::Abort(Event::CBadStreamid);

fn bypass(ste: u64) -> Outcome {
    Outcome::Bypass { ste }
}

#[test]
fn p1_to_p9() {
    let figure = figure();
    type Shot<'a> = (u32, Outcome, &'a [(u64, u64)]);
    let shots: [Shot; 9] = [
        (0, bypass(0x0), &[(0x8000, 8), (0x0, 64)]),
        (255, bypass(0x3FC0), &[(0x8000, 8), (0x3FC0, 64)]),
        (256, bypass(0x2F00), &[(0x8008, 8), (0x2F00, 64)]),
        (259, bypass(0x2FC0), &[(0x8008, 8), (0x2FC0, 64)]),
        (260, BAD_STREAM, &[(0x8008, 8)]),
        (512, BAD_STREAM, &[(0x8010, 8)]),
        (768, bypass(0x4000), &[(0x8018, 8), (0x4000, 64)]),
        (769, BAD_STREAM, &[(0x8018, 8)]),
        (1024, BAD_STREAM, &[]),
    ];
    for (stream, outcome, read) in shots {
        let answer = figure.lookup(without(stream)).unwrap();
        assert_eq!(answer.outcome(), outcome, "stream {stream}");
        assert_eq!(list(&answer), read, "stream {stream}");
    }
    assert!(is_recorded(&figure.registers, Event::CBadStreamid));
}

#[test]
fn p10_a_notice_of_one_byte_strikes_both_that_share_an_ste() {
    let figure = figure();
    let mut book = figure.open(3).unwrap();
    let ask = |book: &mut Book, stream| book.ask(figure.memory(), without(stream)).unwrap();
    for stream in [188, 256, 0] {
        assert_eq!(ask(&mut book, stream).0, Kept::Newly);
    }
    assert_eq!(ask(&mut book, 188).1.outcome(), bypass(0x2F00));
    assert_eq!(ask(&mut book, 256).1.outcome(), bypass(0x2F00));
    book.notice(0x2EFF, 1).unwrap();
    book.notice(0x2F40, 1).unwrap();
    assert_eq!(ask(&mut book, 188).0, Kept::Before);
    assert_eq!(ask(&mut book, 256).0, Kept::Before);
    book.notice(0x2F00, 1).unwrap();
    assert_eq!(ask(&mut book, 0).0, Kept::Before);
    assert_eq!(ask(&mut book, 256).0, Kept::Newly);
    assert_eq!(ask(&mut book, 188).0, Kept::Newly);
}

/// What a request gets there, and its list.
fn looked_up(bench: &Bench, request: Request) -> (Outcome, Vec<(u64, u64)>) {
    let answer = bench.lookup(request).unwrap();
    (answer.outcome(), list(&answer))
}

#[test]
fn the_last_ste_of_the_memory_is_fetched_and_the_one_past_it_is_not() {
    let mut bench = figure();
    bench.put(0x8018, 0xFFC0 | 1);
    bench.put(0xFFC0, 0x09);
    let found = (bypass(0xFFC0), vec![(0x8018, 8), (0xFFC0, 64)]);
    assert_eq!(looked_up(&bench, without(768)), found);
    bench.put(0x8018, 0x1_0000 | 1);
    let faulted = (no_ste(0x1_0000), vec![(0x8018, 8)]);
    assert_eq!(looked_up(&bench, without(768)), faulted);
}

#[test]
fn each_fetch_that_fails_says_the_address_that_it_wanted() {
    /// Above the OAS of 48 bits.
    const ABOVE: u64 = 1 << 55;
    let mut bench = stage_1(1);
    bench.put(0xC008, ABOVE | 0xA000 | 1);
    let read = [(0x8018, 8), (0x4000, 64), (0xC008, 8)];
    let cd = (no_cd(ABOVE | 0xA180), read.to_vec());
    assert_eq!(looked_up(&bench, with(768, 70)), cd);
    // The L1CD ends one byte past the memory; the STE lies past it; the L1STD lies below its base.
    bench.bytes.truncate(0xC00F);
    let l1cd = (no_cd(0xC008), read[..2].to_vec());
    assert_eq!(looked_up(&bench, with(768, 70)), l1cd);
    bench.put(0x8018, 0xC040 | 1);
    let ste = (no_ste(0xC040), read[..1].to_vec());
    assert_eq!(looked_up(&bench, with(768, 70)), ste);
    bench.base = 0x8040;
    let l1std = (no_ste(0x8018), vec![]);
    assert_eq!(looked_up(&bench, with(768, 70)), l1std);
    bench.registers.strtab_base |= ABOVE;
    let l1std = (no_ste(ABOVE | 0x8018), vec![]);
    assert_eq!(looked_up(&bench, with(768, 70)), l1std);
}

/// A CD of `CD_WORD` there.
fn translation(cd: u64) -> Outcome {
    Outcome::Translate(Translation {
        ste: 0x4000,
        cd,
        asid: 0,
        t0sz: 0,
        tg0: 0,
        epd0: true,
        ips: 32,
        ttb0: 0,
    })
}

#[test]
fn p11_and_p12() {
    let mut bench = stage_1(0);
    bench.put(0xFFC0, CD_WORD);
    let p11 = bench.lookup(with(768, 255)).unwrap();
    assert_eq!(p11.outcome(), translation(0xFFC0));
    assert_eq!(list(&p11), [(0x8018, 8), (0x4000, 64), (0xFFC0, 64)]);
    let p12 = bench.lookup(with(768, 256)).unwrap();
    assert_eq!(p12.outcome(), Outcome::Abort(Event::CBadSubstreamid));
    assert_eq!(list(&p12), [(0x8018, 8), (0x4000, 64)]);
}

#[test]
fn p13_and_p14() {
    for (s1fmt, l1cd, cd) in [(1, 0xC008, 0xA180), (2, 0xC000, 0xB180)] {
        let mut bench = stage_1(s1fmt);
        bench.put(l1cd, 0xA000 | 1);
        bench.put(cd, CD_WORD);
        let answer = bench.lookup(with(768, 70)).unwrap();
        assert_eq!(answer.outcome(), translation(cd));
        let read = [(0x8018, 8), (0x4000, 64), (l1cd, 8), (cd, 64)];
        assert_eq!(list(&answer), read);
    }
}

#[test]
fn a_translation_has_its_fields() {
    let mut bench = stage_1(0);
    bench.registers.idr5 |= 7 << 4;
    // T0SZ 25, TG0 2, V, IPS 2 (40 bits), AA64, ASID 0xBEEF; TTB0
    bench.put(
        0xC000,
        25 | 2 << 6 | 1 << 31 | 2 << 32 | 1 << 41 | 0xBEEF << 48,
    );
    bench.put(0xC008, 0x12_3456_7890);
    let answer = bench.lookup(with(768, 0)).unwrap();
    let Outcome::Translate(found) = answer.outcome() else {
        panic!("{answer:?}");
    };
    let fields = (found.asid, found.t0sz, found.tg0, found.epd0);
    assert_eq!(fields, (0xBEEF, 25, 2, false));
    assert_eq!((found.ips, found.ttb0), (40, 0x12_3456_7890));
    assert_eq!((found.ste, found.cd), (0x4000, 0xC000));
}

#[test]
fn every_outcome_has_its_type() {
    let quiet = |bench: &Bench| bench.lookup(without(0)).unwrap().outcome();
    let mut bench = figure();
    bench.put(0, 1);
    assert_eq!(quiet(&bench), Outcome::QuietAbort);
    bench.registers.idr0 |= 1;
    bench.put(0, 1 | 0b110 << 1);
    assert_eq!(quiet(&bench), Outcome::Unserved(Unserved::Stage2));
    let mut bench = stage_1(0);
    bench.put(0xC000, 1 << 31);
    bench.registers.idr0 |= 1 << 2;
    let outcome = |bench: &Bench| bench.lookup(with(768, 0)).unwrap().outcome();
    assert_eq!(outcome(&bench), Outcome::Unserved(Unserved::Vmsa32));
    bench.registers.idr0 |= 1 << 9;
    bench.put(0x4008, 1 << 30);
    assert_eq!(outcome(&bench), Outcome::Unserved(Unserved::StreamWorld));
    bench.registers.cr0 = 0;
    assert_eq!(outcome(&bench), Outcome::GlobalBypass);
    bench.registers.gbpa = 1 << 20;
    assert_eq!(outcome(&bench), Outcome::QuietAbort);
}

#[test]
fn the_part_is_that_very_part() {
    let figure = figure();
    let part = ste_part(&figure.registers, figure.memory(), without(256)).unwrap();
    assert!(std::ptr::eq(part.as_slice(), &figure.bytes[0x2F00..0x2F40]));
    let none = ste_part(&figure.registers, figure.memory(), without(260));
    assert_eq!(none, None);
    let refused = ste_part(&figure.registers, figure.memory(), with(256, 1 << 20));
    assert_eq!(refused, None);
}
