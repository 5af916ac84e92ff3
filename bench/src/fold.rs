//! What an answer says, folded into a checksum: the values that its kind has, and the pieces that are counted. Each word is multiplied by a
//! number of its place, so a word in a wrong place changes the sum. Each side reads what its answer has and nothing else.
//!
//! The folds of the archive's answers are always inlined: left to the compiler, that hangs on the size of the loops around them. The one of
//! ordinary answers is left to it, and is the quicker for it.

use crate::ordinary;
use llobatelh::{header, Answer, Event, Outcome, ANSWER_WORDS, PIECES_MOST};

const COUNT: usize = header::ANSWER_COUNT as usize;
const PIECES: usize = header::ANSWER_PIECES as usize;

const fn factor(place: usize) -> u64 {
    (place as u64 + 1).wrapping_mul(0x9e37_79b9_7f4a_7c15) | 1
}

fn sum(words: impl IntoIterator<Item = u64>, from: usize) -> u64 {
    let places = words.into_iter().zip(from..);
    places.fold(0, |sum, (word, place)| {
        sum.wrapping_add(word.wrapping_mul(factor(place)))
    })
}

/// The words that the archive puts. Pieces are read word by word, in a loop whose length is known: iterators over them took half as long
/// again as a whole lookup.
#[inline(always)]
pub fn words(words: &[u64; ANSWER_WORDS]) -> u64 {
    let values = match words {
        [header::TRANSLATE, ste, cd, asid, t0sz, tg0, epd0, ips, ttb0, ..] => sum(
            [
                header::TRANSLATE,
                *ste,
                *cd,
                *asid,
                *t0sz,
                *tg0,
                *epd0,
                *ips,
                *ttb0,
            ],
            0,
        ),
        [header::ABORT, event, wanted, ..] => sum([header::ABORT, *event, *wanted], 0),
        [kind @ (header::BYPASS | header::UNSERVED), value, ..] => sum([*kind, *value], 0),
        [kind, ..] => sum([*kind], 0),
    };
    let count = words[COUNT];
    let mut pieces = 0u64;
    for piece in 0..PIECES_MOST {
        if piece as u64 == count {
            break;
        }
        let at = PIECES + 2 * piece;
        pieces = pieces.wrapping_add(sum([words[at], words[at + 1]], at));
    }
    values
        .wrapping_add(sum([count], COUNT))
        .wrapping_add(pieces)
}

pub fn ordinary(answer: &ordinary::Answer) -> u64 {
    let values = match answer.outcome {
        ordinary::Outcome::Translate(t) => sum(
            [
                header::TRANSLATE,
                t.ste,
                t.cd,
                t.asid.into(),
                t.t0sz.into(),
                t.tg0.into(),
                t.epd0.into(),
                t.ips.into(),
                t.ttb0,
            ],
            0,
        ),
        ordinary::Outcome::Bypass(ste) => sum([header::BYPASS, ste], 0),
        ordinary::Outcome::GlobalBypass => sum([header::BYPASS_GLOBAL], 0),
        ordinary::Outcome::Abort(event) => sum([header::ABORT, event.into()], 0),
        ordinary::Outcome::Fault(event, wanted) => sum([header::ABORT, event.into(), wanted], 0),
        ordinary::Outcome::Quiet => sum([header::QUIET], 0),
        ordinary::Outcome::Unserved(number) => sum([header::UNSERVED, number.into()], 0),
    };
    let list = &answer.list;
    let pieces = list.pieces.iter().take(list.count);
    let pieces = sum(
        pieces.flat_map(|piece| [piece.address, piece.length]),
        PIECES,
    );
    values
        .wrapping_add(sum([list.count as u64], COUNT))
        .wrapping_add(pieces)
}

/// The word WANTED of an event's abort.
#[inline(always)]
fn wanted(event: Event) -> u64 {
    match event {
        Event::FSteFetch { address } | Event::FCdFetch { address } => address,
        _ => 0,
    }
}

#[inline(always)]
pub fn wrapped(answer: &Answer) -> u64 {
    let values = match answer.outcome() {
        Outcome::Translate(t) => sum(
            [
                header::TRANSLATE,
                t.ste,
                t.cd,
                t.asid.into(),
                t.t0sz.into(),
                t.tg0.into(),
                t.epd0.into(),
                t.ips,
                t.ttb0,
            ],
            0,
        ),
        Outcome::Bypass { ste } => sum([header::BYPASS, ste], 0),
        Outcome::GlobalBypass => sum([header::BYPASS_GLOBAL], 0),
        Outcome::Abort(event) => sum([header::ABORT, event.number().into(), wanted(event)], 0),
        Outcome::QuietAbort => sum([header::QUIET], 0),
        Outcome::Unserved(case) => sum([header::UNSERVED, case.number().into()], 0),
    };
    let list = answer.list();
    let pieces = sum(
        list.iter().flat_map(|piece| [piece.address, piece.length]),
        PIECES,
    );
    values
        .wrapping_add(sum([list.len() as u64], COUNT))
        .wrapping_add(pieces)
}
