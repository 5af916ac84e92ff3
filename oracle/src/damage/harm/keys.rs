//! Damage to keys.

use crate::book::MOST_SLOTS;
use crate::book_words::*;
use crate::damage::books::{held, one};
use crate::scripts::Random;

/// Holds a slot past the number, with a key of its own; 64 slots are made fewer first.
pub fn past_the_number(random: &mut Random, words: &mut Words) -> Option<()> {
    let last = held(words).last().map_or(0, |slot| *slot as u64);
    if words[SLOTS] == 64 {
        words[SLOTS] = (last + random.below(2)).clamp(1, 63);
    }
    let number = words[SLOTS].min(63);
    let any = number + random.below(64 - number);
    let slot = random.pick(&[number, 63, any]) as usize;
    words[key(slot)] = 1 + (random.below(1 << 32) << 21);
    let from = answer(0)..answer(1);
    words.copy_within(from, answer(slot));
    Some(())
}

/// Gives another slot, held or empty, below the number or past it, the key of a held one.
pub fn duplicate_key(random: &mut Random, words: &mut Words) -> Option<()> {
    let slots = held(words);
    let slot = one(random, &slots)?;
    let any = random.below(MOST_SLOTS as u64) as usize;
    let below = random.below(words[SLOTS].min(64)) as usize;
    let other = random.pick(&[any, below, below, slots[0], slots[slots.len() - 1]]);
    if words[key(other)] == 0 {
        words.copy_within(answer(slot)..answer(slot) + ANSWER_WORDS, answer(other));
    }
    words[key(other)] = words[key(slot)];
    Some(())
}

pub fn key_of_no_request(random: &mut Random, words: &mut Words) -> Option<()> {
    let slot = one(random, &held(words))?;
    let old = words[key(slot)];
    let stream = random.below(1 << 32) << 21;
    let low = random.below(1 << 20);
    words[key(slot)] = random.pick(&[
        1 << 53,
        (1 << 53) + 1,
        (1 << 53) - (1 << 20),
        1 + (1 << 53),
        old | 1 << 53,
        old | 1 << 63,
        u64::MAX,
        1 + (stream | low),
        1 + (stream | 1),
        2,
        1 << 20,
        (1 << 20) + 1,
        1 + (stream | 0xf_ffff),
    ]);
    Some(())
}

pub fn key_of_another(random: &mut Random, words: &mut Words) -> Option<()> {
    let slot = one(random, &held(words))?;
    let (stream, substream) = request(words[key(slot)])?;
    let below = |substream: Option<u64>| substream.map_or(0, |given| 1 << 20 | given);
    let (stream, substream) = random.pick(&[
        (stream ^ 1, substream),
        (stream ^ 1 << 31, substream),
        (stream, None),
        (stream, Some(0)),
        (stream, Some(0xf_ffff)),
        (0xffff_ffff, Some(0xf_ffff)),
        (0, None),
    ]);
    words[key(slot)] = (stream << 21 | below(substream)).wrapping_add(1);
    Some(())
}
