//! RULES, "From StreamID to STE", "Reading the STE", "From SubstreamID to CD" and "What an answer holds":
//! each rule on both sides of its boundaries.

use crate::common::*;
use oracle::answer::*;
use oracle::descriptors::{cd, l1cd, l1std, ste, Kind};
use oracle::lookup::{part, walk};
use oracle::registers::*;
use oracle::script::Session;

fn outcome(session: &Session, stream: u32, substream: Option<u64>) -> Outcome {
    look(session, stream, substream).unwrap().outcome
}

/// The figure with a linear table at ADDR, of 2^LOG2SIZE STEs of bypass, as far as they lie in the memory.
fn linear(addr: u64, log2size: u64) -> Session {
    let mut session = figure();
    session.registers.strtab_base = addr;
    set(&mut session, Register::StrtabBaseCfg, FMT, 0);
    set(&mut session, Register::StrtabBaseCfg, LOG2SIZE, log2size);
    for address in (0..0x1_0000).step_by(64) {
        put(&mut session, address, &[0x09]);
    }
    session
}

/// Stage 1 with the one CD, at `TABLE`, and every granule.
fn one_cd() -> Session {
    let mut session = stage_1(0);
    put_field(&mut session, STE, ste::S1CDMAX, 0);
    put(&mut session, TABLE, &[CD_WORD]);
    for granule in [GRAN4K, GRAN16K, GRAN64K] {
        set(&mut session, Register::Idr5, granule, 1);
    }
    session
}

/// The same with EPD0 0 and the rest in range.
fn checked_cd() -> Session {
    let mut session = one_cd();
    put_field(&mut session, TABLE, cd::EPD0, 0);
    put_field(&mut session, TABLE, cd::T0SZ, 16);
    put_field(&mut session, TABLE, cd::IPS, 5);
    session
}

fn translates(session: &Session, substream: Option<u64>) -> bool {
    matches!(outcome(session, 768, substream), Outcome::Translate(_))
}

// From StreamID to STE.

#[test]
fn stream_1_smmuen_0_reads_nothing() {
    let mut session = figure();
    set(&mut session, Register::Cr0, SMMUEN, 0);
    // Nothing else matters, not even a StreamID out of range.
    for stream in [0, 1024, u32::MAX] {
        set(&mut session, Register::Gbpa, ABORT, 1);
        assert_eq!(
            look(&session, stream, Some(5)),
            answer(Outcome::QuietAbort, &[])
        );
        set(&mut session, Register::Gbpa, ABORT, 0);
        assert_eq!(
            look(&session, stream, Some(5)),
            answer(Outcome::GlobalBypass, &[])
        );
    }
}

#[test]
fn stream_2_the_smaller_of_log2size_and_sidsize() {
    for (log2size, sidsize, effective) in [(10, 16, 10), (16, 10, 10), (63, 8, 8), (0, 16, 0)] {
        let mut session = linear(0, log2size);
        set(&mut session, Register::Idr1, SIDSIZE, sidsize);
        let last = (1 << effective) - 1;
        assert_eq!(outcome(&session, last, None), bypass(64 * u64::from(last)));
        assert_eq!(look(&session, last + 1, None), answer(abort(0x02), &[]));
    }
    // All of 32 bits.
    let mut session = linear(0, 32);
    set(&mut session, Register::Idr1, SIDSIZE, 32);
    let wanted = 64 * 0xffff_ffff;
    assert_eq!(
        look(&session, u32::MAX, None),
        answer(failed(0x03, wanted), &[])
    );
}

#[test]
fn stream_3_linear_if_st_level_is_0_or_fmt_is_not_1() {
    for st_level in 0..4 {
        for fmt in 0..4 {
            let mut session = linear(0x8000, 6);
            set(&mut session, Register::Idr0, ST_LEVEL, st_level);
            set(&mut session, Register::StrtabBaseCfg, FMT, fmt);
            put(&mut session, 0x8000, &[0x4000 | 1]);
            let linear = st_level == 0 || fmt != 1;
            let first = look(&session, 0, None).unwrap().list[0];
            assert_eq!(
                first.length,
                if linear { 64 } else { 8 },
                "{st_level} {fmt}"
            );
        }
    }
}

#[test]
fn stream_3_addr_is_aligned_by_the_effective_log2size() {
    for (addr, log2size, sidsize, aligned) in [
        (0x8fc0, 6, 16, 0x8000),
        (0x8fc0, 5, 16, 0x8800),
        (0x8fc0, 0, 16, 0x8fc0),
        // LOG2SIZE 10 alone would give 0x0.
        (0x8fc0, 10, 6, 0x8000),
    ] {
        let mut session = linear(addr, log2size);
        set(&mut session, Register::Idr1, SIDSIZE, sidsize);
        assert_eq!(outcome(&session, 0, None), bypass(aligned));
    }
    // Bits of STRTAB_BASE outside ADDR are not read.
    let mut session = linear(0x8000, 6);
    session.registers.strtab_base |= 0xff00_0000_0000_003f;
    assert_eq!(outcome(&session, 1, None), bypass(0x8040));
}

#[test]
fn stream_4_split_and_the_alignment_of_addr() {
    // SPLIT, what it acts as, LOG2SIZE, and where ADDR 0xbfc0 comes to.
    for (split, acts_as, log2size, aligned) in [
        (6, 6, 9, 0xbfc0),
        (6, 6, 10, 0xbf80),
        (6, 6, 16, 0xa000),
        (8, 8, 11, 0xbfc0),
        (8, 8, 12, 0xbf80),
        (10, 10, 13, 0xbfc0),
        (10, 10, 14, 0xbf80),
        (10, 10, 0, 0xbfc0),
        (0, 6, 10, 0xbf80),
        (9, 6, 10, 0xbf80),
        (31, 6, 10, 0xbf80),
    ] {
        let mut session = figure();
        session.registers.strtab_base = 0xbfc0;
        set(&mut session, Register::StrtabBaseCfg, SPLIT, split);
        set(&mut session, Register::StrtabBaseCfg, LOG2SIZE, log2size);
        let list = [(aligned, 8)];
        assert_eq!(
            look(&session, 0, None),
            answer(abort(0x02), &list),
            "{split} {log2size}"
        );
        if log2size > acts_as {
            let list = [(aligned + 8, 8)];
            let first_of_second = 1 << acts_as;
            assert_eq!(
                look(&session, first_of_second, None),
                answer(abort(0x02), &list)
            );
        }
    }
}

#[test]
fn stream_5_every_span_at_every_split() {
    for split in [6u64, 8, 10] {
        for span in 0..32u64 {
            let mut session = figure();
            set(&mut session, Register::StrtabBaseCfg, SPLIT, split);
            session.registers.strtab_base = 0x8000;
            put(&mut session, 0x8000, &[span]);
            let valid = (1..=11).contains(&span) && span <= split + 1;
            let list = [(0x8000, 8)];
            if !valid {
                assert_eq!(look(&session, 0, None), answer(abort(0x02), &list));
                continue;
            }
            let stes = 1u32 << (span - 1);
            let last = 64 * u64::from(stes - 1);
            let found = look(&session, stes - 1, None).unwrap();
            assert_eq!(found.list, self::list(&[(0x8000, 8), (last, 64)]));
            if u64::from(stes) < 1 << split {
                assert_eq!(look(&session, stes, None), answer(abort(0x02), &list));
            }
        }
    }
}

#[test]
fn stream_6_l2ptr_is_aligned_by_its_span() {
    for span in 1..=9u64 {
        let mut session = figure();
        put(&mut session, 0x8000, &[0xff00_0000_0000_ffe0 | span]);
        let aligned = 0xffc0 >> (span + 5) << (span + 5);
        let found = look(&session, 0, None).unwrap();
        assert_eq!(found.list[1], list(&[(aligned, 64)])[0], "{span}");
    }
}

// The fetch rule.

#[test]
fn a_fetch_lies_wholly_in_the_memory() {
    // Linear, one STE at ADDR.
    for (length, had) in [(0x40, true), (0x3f, false), (0x41, true), (0, false)] {
        let mut session = linear(0, 0);
        session.bytes.truncate(length);
        let event = outcome(&session, 0, None);
        assert_eq!(event == failed(0x03, 0), !had, "{length}");
    }
    // Below the base, at it, at the end.
    for (addr, had) in [
        (0xfc0, false),
        (0x1000, true),
        (0x1040, true),
        (0x1080, false),
    ] {
        let mut session = linear(addr, 0);
        session.base = 0x1000;
        session.bytes.truncate(0x80);
        let expected = if had {
            bypass(addr)
        } else {
            failed(0x03, addr)
        };
        assert_eq!(outcome(&session, 0, None), expected, "{addr:#x}");
    }
}

/// Two levels of both tables in a memory of so many bytes from `base` on, where the fetch of substream 1 of stream 768 is tried for a
/// descriptor of this kind at the address. The other descriptors are in place: the L1STD at 0x18 from the base, the STE at 0x40, the
/// L1CD at 0x80, the CD at 0x1040.
fn wanting(kind: Kind, address: u64, base: u64, length: u64) -> Session {
    let at = |of: Kind, offset: u64| if of == kind { address } else { base + offset };
    let mut session = stage_1(1);
    session.base = base;
    session.bytes = vec![0; length as usize];
    session.registers.strtab_base = at(Kind::L1std, 0x18) - 0x18;
    put(&mut session, base + 0x18, &[at(Kind::Ste, 0x40) | 1]);
    let ste = 0x1b | at(Kind::L1cd, 0x80) | 8 << 59;
    put(&mut session, base + 0x40, &[ste]);
    put(
        &mut session,
        base + 0x80,
        &[(at(Kind::Cd, 0x1040) - 0x40) | 1],
    );
    session
}

/// The four fetches, each with how its address ends, the event, and how many descriptors are read before.
const FETCHES: [(Kind, u64, u64, usize); 4] = [
    (Kind::L1std, 0x18, 0x03, 0),
    (Kind::Ste, 0x40, 0x03, 1),
    (Kind::L1cd, 0x80, 0x09, 2),
    (Kind::Cd, 0x40, 0x09, 3),
];

#[test]
fn every_kind_of_fetch_has_its_event_and_says_what_it_wanted() {
    const TOP: u64 = 1 << 32;
    // The memory, and about where the descriptor is wanted.
    let ways = [
        // Below the memory, by little and by much.
        (0x1_0000, 0x2000, 0xf000),
        (0x1_0000, 0x2000, 0),
        // Past its end.
        (0x1_0000, 0x2000, 0x1_2000),
        (0x1_0000, 0x2000, TOP - 0x1000),
        // In the memory, above the OAS.
        (TOP - 0x2000, 0x4000, TOP),
        (TOP - 0x2000, 0x4000, TOP + 0x1000),
        // Where it would be in the memory without the bits above the OAS; and the highest.
        (0x1_0000, 0x2000, TOP + 0x1_0000),
        (0x1_0000, 0x2000, 1 << 52 | 0x1_0000),
        (0x1_0000, 0x2000, 0xff_ffff_ffff_f000),
    ];
    for (kind, low, number, read) in FETCHES {
        for (base, length, high) in ways {
            let wanted = high + low;
            let mut session = wanting(kind, wanted, base, length);
            set(&mut session, Register::Idr5, OAS, 0);
            let before = [(base + 0x18, 8), (base + 0x40, 64), (base + 0x80, 8)];
            let expected = answer(failed(number, wanted), &before[..read]);
            let found = look(&session, 768, Some(1));
            assert_eq!(found, expected, "{kind:?} {wanted:#x}");
        }
    }
}

#[test]
fn a_fetch_across_the_end_says_where_it_starts() {
    let base = 0x1_0000;
    for (kind, low, number, read) in FETCHES {
        let (start, length) = (base + 0x2000 + low, kind.length());
        for inside in [1, 7, length - 1, length] {
            let session = wanting(kind, start, base, start - base + inside);
            let found = look(&session, 768, Some(1)).unwrap();
            let is_it = found.outcome == failed(number, start) && found.list.len() == read;
            assert_eq!(is_it, inside < length, "{kind:?} {inside}");
            let had = found.list.contains(&list(&[(start, length)])[0]);
            assert_eq!(had, inside == length, "{kind:?} {inside}");
        }
    }
}

#[test]
fn a_fetch_without_a_level_1_says_what_it_wanted() {
    let before = [(0x8018, 8), (STE, 64)];
    let too_far = 0x1_0000;
    // The second of a linear table of STEs.
    let session = linear(too_far, 6);
    let wanted = failed(0x03, too_far + 64);
    assert_eq!(look(&session, 1, None), answer(wanted, &[]));
    // The second of a table of CDs, and the one CD.
    let mut session = stage_1(0);
    put_field(&mut session, STE, ste::S1CONTEXTPTR, too_far >> 6);
    let wanted = failed(0x09, too_far + 64);
    assert_eq!(look(&session, 768, Some(1)), answer(wanted, &before));
    put_field(&mut session, STE, ste::S1CDMAX, 0);
    let wanted = failed(0x09, too_far);
    assert_eq!(look(&session, 768, None), answer(wanted, &before));
    // Past 56 bits: the sum is not cut off.
    put_field(&mut session, STE, ste::S1CDMAX, 8);
    put_field(&mut session, STE, ste::S1CONTEXTPTR, u64::MAX);
    let wanted = failed(0x09, (1 << 56) + 64 * 254);
    assert_eq!(look(&session, 768, Some(255)), answer(wanted, &before));
}

#[test]
fn a_fetch_ends_at_or_below_the_oas_and_pointer_bits_are_kept() {
    for (code, size) in [(0, 32), (1, 36), (2, 40), (3, 42), (4, 44), (5, 48)] {
        let mut session = linear((1 << size) - 64, 0);
        set(&mut session, Register::Idr5, OAS, code);
        session.base = (1 << size) - 0x8000;
        assert_eq!(outcome(&session, 0, None), bypass((1 << size) - 64));
        // The memory goes on above the OAS.
        session.registers.strtab_base = 1 << size;
        let wanted = failed(0x03, 1 << size);
        assert_eq!(look(&session, 0, None), answer(wanted, &[]));
        // Cut off, it would be address 0.
        session.base = 0;
        assert_eq!(look(&session, 0, None), answer(wanted, &[]));
    }
    // 52 bits end where memory ends.
    let mut session = linear((1 << 52) - 64, 0);
    set(&mut session, Register::Idr5, OAS, 6);
    session.base = (1 << 52) - 0x1_0000;
    assert_eq!(outcome(&session, 0, None), bypass((1 << 52) - 64));
    session.registers.strtab_base = 0xff_ffff_ffff_ffc0;
    let wanted = failed(0x03, 0xff_ffff_ffff_ffc0);
    assert_eq!(outcome(&session, 0, None), wanted);
}

#[test]
fn the_highest_address_wraps_nowhere() {
    let mut session = linear(u64::MAX, 32);
    set(&mut session, Register::Idr1, SIDSIZE, 32);
    let tried = walk(
        &session.registers,
        session.memory(),
        request(u32::MAX, None),
    );
    let tried = tried.unwrap().trace.tries[0];
    let addr = (0xff_ffff_ffff_ffff >> 38) << 38;
    assert_eq!(
        (tried.kind, tried.address),
        (Kind::Ste, addr + (0xffff_ffff << 6))
    );
}

// Reading the STE.

#[test]
fn ste_1_to_5_every_config() {
    // The expected outcome of Config with S1P, S2P and a SubstreamID or none, V 1.
    fn expected(config: u64, s1p: u64, s2p: u64, substream: Option<u64>) -> Option<Outcome> {
        match config {
            0..=3 => Some(Outcome::QuietAbort),
            4 if substream.is_some() => Some(abort(0x08)),
            4 => Some(bypass(STE)),
            5 if s1p == 0 => Some(abort(0x04)),
            5 => None,
            6 if s2p == 0 => Some(abort(0x04)),
            7 if s1p == 0 || s2p == 0 => Some(abort(0x04)),
            _ => Some(Outcome::Unserved { number: 20 }),
        }
    }
    for case in 0..8u64 * 2 * 2 * 2 {
        let (config, s1p, s2p) = (case / 8, case / 4 % 2, case / 2 % 2);
        let substream = (case % 2 == 1).then_some(0);
        let mut session = stage_1(0);
        set(&mut session, Register::Idr0, S1P, s1p);
        set(&mut session, Register::Idr0, S2P, s2p);
        put_field(&mut session, STE, ste::CONFIG, config);
        let list = [(0x8018, 8), (STE, 64)];
        if let Some(expected) = expected(config, s1p, s2p, substream) {
            assert_eq!(
                look(&session, 768, substream),
                answer(expected, &list),
                "{case}"
            );
        }
        put_field(&mut session, STE, ste::V, 0);
        assert_eq!(look(&session, 768, substream), answer(abort(0x04), &list));
    }
}

#[test]
fn ste_6_s1cdmax_against_ssidsize() {
    for ssidsize in [0, 1, 8, 20] {
        let mut session = stage_1(0);
        set(&mut session, Register::Idr1, SSIDSIZE, ssidsize);
        put_field(&mut session, STE, ste::S1CDMAX, ssidsize);
        assert_ne!(outcome(&session, 768, None), abort(0x04));
        put_field(&mut session, STE, ste::S1CDMAX, ssidsize + 1);
        assert_eq!(outcome(&session, 768, None), abort(0x04));
    }
}

#[test]
fn ste_6_s1fmt_cd2l_and_s1dss_count_only_above_0() {
    for case in 0..4u64 * 2 * 4 {
        let (s1fmt, cd2l, s1dss) = (case / 8, case / 4 % 2, case % 4);
        for s1cdmax in [0, 1] {
            let mut session = stage_1(s1fmt);
            set(&mut session, Register::Idr0, CD2L, cd2l);
            put_field(&mut session, STE, ste::S1DSS, s1dss);
            put_field(&mut session, STE, ste::S1CDMAX, s1cdmax);
            let bad = s1cdmax > 0 && (s1fmt == 3 || (s1fmt != 0 && cd2l == 0) || s1dss == 3);
            assert_eq!(outcome(&session, 768, None) == abort(0x04), bad, "{case}");
        }
    }
}

#[test]
fn ste_7_strw_counts_with_hyp_only() {
    for hyp in 0..2 {
        for strw in 0..4 {
            let mut session = one_cd();
            set(&mut session, Register::Idr0, HYP, hyp);
            put_field(&mut session, STE, ste::STRW, strw);
            let unserved = hyp == 1 && strw != 0;
            let number = 22;
            let given = outcome(&session, 768, None);
            assert_eq!(given == Outcome::Unserved { number }, unserved);
            assert_eq!(translates(&session, None), !unserved);
            // It comes after step 6 and before step 8.
            put_field(&mut session, STE, ste::S1CDMAX, 9);
            assert_eq!(outcome(&session, 768, Some(0)), abort(0x04));
        }
    }
}

#[test]
fn ste_8_with_a_substream() {
    let mut session = one_cd();
    assert_eq!(outcome(&session, 768, Some(0)), abort(0x08));
    for s1dss in 0..3 {
        put_field(&mut session, STE, ste::S1DSS, s1dss);
        put_field(&mut session, STE, ste::S1CDMAX, 0);
        assert_eq!(outcome(&session, 768, Some(0)), abort(0x08));
        put_field(&mut session, STE, ste::S1CDMAX, 3);
        assert_eq!(outcome(&session, 768, Some(8)), abort(0x08));
        // The CDs past the first are blank.
        assert_eq!(outcome(&session, 768, Some(7)), abort(0x0a));
        let zero = outcome(&session, 768, Some(0));
        match s1dss {
            2 => assert_eq!(zero, abort(0x06)),
            _ => assert_eq!(zero, Outcome::Translate(translation(TABLE))),
        }
    }
    // 2^20 - 1 is the last of all.
    set(&mut session, Register::Idr1, SSIDSIZE, 20);
    put_field(&mut session, STE, ste::S1CDMAX, 20);
    let wanted = failed(0x09, TABLE + 64 * ((1 << 20) - 1));
    assert_eq!(outcome(&session, 768, Some((1 << 20) - 1)), wanted);
}

#[test]
fn ste_8_without_a_substream() {
    let mut session = one_cd();
    put_field(&mut session, STE, ste::S1CDMAX, 3);
    let two = [(0x8018, 8), (STE, 64)];
    assert_eq!(look(&session, 768, None), answer(abort(0x06), &two));
    put_field(&mut session, STE, ste::S1DSS, 1);
    assert_eq!(look(&session, 768, None), answer(bypass(STE), &two));
    put_field(&mut session, STE, ste::S1DSS, 2);
    assert!(translates(&session, None));
    // S1CDMax 0: S1DSS is not looked at.
    put_field(&mut session, STE, ste::S1CDMAX, 0);
    for s1dss in 0..4 {
        put_field(&mut session, STE, ste::S1DSS, s1dss);
        assert!(translates(&session, None));
    }
}

// From SubstreamID to CD.

#[test]
fn cd_tables_are_not_aligned_down() {
    // S1Fmt 0 of 256 CDs, at 0xc040.
    let mut session = stage_1(0);
    put(&mut session, STE, &[0x0b | 0xc040 | 8 << 59]);
    put(&mut session, 0xc040 + 64 * 5, &[CD_WORD]);
    let found = Outcome::Translate(translation(0xc040 + 64 * 5));
    assert_eq!(outcome(&session, 768, Some(5)), found);
    // A leaf of 1024 CDs, at 0x3000.
    let mut session = stage_1(2);
    put(&mut session, TABLE, &[0xff00_0000_0000_3fff]);
    put(&mut session, 0x3000 + 64 * 5, &[CD_WORD]);
    let found = Outcome::Translate(translation(0x3000 + 64 * 5));
    assert_eq!(outcome(&session, 768, Some(5)), found);
}

#[test]
fn cd_upper_and_low_bits() {
    for (s1fmt, substream, upper, low) in [
        (1, 63, 0, 63),
        (1, 64, 1, 0),
        (1, 255, 3, 63),
        (2, 255, 0, 255),
        (2, 1023, 0, 1023),
        (2, 1024, 1, 0),
        (2, 1025, 1, 1),
    ] {
        let mut session = stage_1(s1fmt);
        set(&mut session, Register::Idr1, SSIDSIZE, 11);
        put_field(&mut session, STE, ste::S1CDMAX, 11);
        session.bytes[..0x4000].fill(0);
        let l1cd = TABLE + 8 * upper;
        // A leaf at 0, so that 1024 CDs lie in the memory; some are tables.
        put(&mut session, l1cd, &[0x1]);
        let found = look(&session, 768, Some(substream)).unwrap();
        let list = [(0x8018, 8), (STE, 64), (l1cd, 8), (64 * low, 64)];
        assert_eq!(found.list, self::list(&list), "{s1fmt} {substream}");
    }
}

#[test]
fn cd_an_l1cd_that_is_not_valid() {
    for s1fmt in [1, 2] {
        let mut session = stage_1(s1fmt);
        put(&mut session, TABLE, &[LEAF]);
        let list = [(0x8018, 8), (STE, 64), (TABLE, 8)];
        assert_eq!(look(&session, 768, Some(1)), answer(abort(0x08), &list));
        // Also when CD 0 is used for a request without a SubstreamID.
        put_field(&mut session, STE, ste::S1DSS, 2);
        assert_eq!(look(&session, 768, None), answer(abort(0x08), &list));
        put(&mut session, LEAF, &[CD_WORD]);
        put_field(&mut session, TABLE, l1cd::V, 1);
        assert_eq!(
            outcome(&session, 768, None),
            Outcome::Translate(translation(LEAF))
        );
    }
}

#[test]
fn cd_v_aa64_and_ttf() {
    for case in 0..2u64 * 2 * 4 {
        let (v, aa64, ttf) = (case / 8, case / 4 % 2, case % 4);
        let mut session = one_cd();
        set(&mut session, Register::Idr0, TTF, ttf);
        put_field(&mut session, TABLE, cd::V, v);
        put_field(&mut session, TABLE, cd::AA64, aa64);
        let expected = match (v, aa64, ttf) {
            (0, _, _) => abort(0x0a),
            (_, 0, 1 | 3) => Outcome::Unserved { number: 21 },
            (_, 0, _) => abort(0x0a),
            (_, _, 0 | 1) => abort(0x0a),
            _ => Outcome::Translate(translation(TABLE)),
        };
        assert_eq!(outcome(&session, 768, None), expected, "{case}");
    }
}

#[test]
fn cd_granules() {
    // TG0 and the one field of IDR5 that it needs.
    for (tg0, needs) in [
        (0, Some(GRAN4K)),
        (1, Some(GRAN64K)),
        (2, Some(GRAN16K)),
        (3, None),
    ] {
        for there in [GRAN4K, GRAN16K, GRAN64K] {
            let mut session = checked_cd();
            for granule in [GRAN4K, GRAN16K, GRAN64K] {
                set(
                    &mut session,
                    Register::Idr5,
                    granule,
                    u64::from(granule == there),
                );
            }
            put_field(&mut session, TABLE, cd::TG0, tg0);
            assert_eq!(translates(&session, None), needs == Some(there));
            put_field(&mut session, TABLE, cd::EPD0, 1);
            assert!(translates(&session, None));
        }
    }
}

#[test]
fn cd_t0sz_is_16_to_39() {
    for t0sz in 0..64 {
        let mut session = checked_cd();
        put_field(&mut session, TABLE, cd::T0SZ, t0sz);
        assert_eq!(
            translates(&session, None),
            (16..=39).contains(&t0sz),
            "{t0sz}"
        );
    }
}

#[test]
fn cd_ttb0_against_every_effective_ips() {
    let sizes = [32, 36, 40, 42, 44, 48, 52];
    for oas in 0..7u64 {
        for ips in 0..8u64 {
            let oas_size = sizes[oas as usize];
            let effective = sizes
                .get(ips as usize)
                .map_or(oas_size, |size: &u64| *size.min(&oas_size));
            let mut session = checked_cd();
            set(&mut session, Register::Idr5, OAS, oas);
            put_field(&mut session, TABLE, cd::IPS, ips);
            put_field(&mut session, TABLE, cd::TTB0, (1 << (effective - 4)) - 1);
            let Outcome::Translate(translation) = outcome(&session, 768, None) else {
                panic!("{oas} {ips}");
            };
            assert_eq!(translation.ips, effective);
            assert_eq!(translation.ttb0, (1 << effective) - 16);
            put_field(&mut session, TABLE, cd::TTB0, 1 << (effective - 4));
            assert_eq!(outcome(&session, 768, None), abort(0x0a));
            // Its top four bits count as well.
            put_field(&mut session, TABLE, cd::TTB0, 1 << 51);
            assert_eq!(outcome(&session, 768, None), abort(0x0a));
        }
    }
}

// What an answer holds.

#[test]
fn a_translation_holds_the_fields_as_stored() {
    let mut session = one_cd();
    for (field, value) in [
        (cd::T0SZ, 63),
        (cd::TG0, 3),
        (cd::IPS, 7),
        (cd::ASID, 0xfedc),
        (cd::TTB0, 0xf_ffff_ffff_ffff),
    ] {
        put_field(&mut session, TABLE, field, value);
    }
    let expected = Translation {
        asid: 0xfedc,
        t0sz: 63,
        tg0: 3,
        ips: 48,
        ttb0: 0xff_ffff_ffff_fff0,
        ..translation(TABLE)
    };
    assert_eq!(outcome(&session, 768, None), Outcome::Translate(expected));
}

#[test]
fn only_0x02_can_go_unrecorded() {
    let mut registers = Registers::default();
    for recinvsid in [0, 1] {
        registers.cr2 = recinvsid << 1;
        for event in EVENTS {
            let expected = event != 0x02 || recinvsid == 1;
            assert_eq!(recorded(event, &registers), expected);
        }
    }
}

#[test]
fn the_part_is_that_very_part_of_the_memory() {
    let mut session = figure();
    let very_part = |session: &Session, stream: u32, substream: Option<u64>| {
        let request = request(stream, substream);
        let part = part(&session.registers, session.memory(), request);
        let offset = part.as_ptr() as usize - session.bytes.as_ptr() as usize;
        (part.len() == 64).then_some(offset)
    };
    assert_eq!(very_part(&session, 256, None), Some(0x2f00));
    // Also where the lookup goes on to abort.
    put_field(&mut session, 0x2f00, ste::V, 0);
    assert_eq!(very_part(&session, 256, None), Some(0x2f00));
    // Empty where none is fetched or the lookup refuses.
    let empty = |session: &Session, stream: u32, substream: Option<u64>| {
        let request = request(stream, substream);
        part(&session.registers, session.memory(), request).is_empty()
    };
    assert!(empty(&session, 260, None));
    assert!(empty(&session, 1024, None));
    assert!(empty(&session, 256, Some(1 << 20)));
    put_field(&mut session, 0x8008, l1std::L2PTR, 0x1_0000 >> 6);
    assert!(empty(&session, 256, None));
    set(&mut session, Register::Idr5, OAS, 7);
    assert!(empty(&session, 0, None));
}
