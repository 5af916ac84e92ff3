//! Damage anywhere in the words.

use crate::book::MOST_SLOTS;
use crate::book_words::*;
use crate::damage::books::{held, one};
use crate::scripts::Random;

/// A word of the book: of its head, a key, of a held answer, or any.
fn a_place(random: &mut Random, words: &Words) -> usize {
    let slots = held(words);
    let slot = one(random, &slots).unwrap_or(0);
    match random.below(10) {
        0 | 1 => random.below(11) as usize,
        2 => key(random.below(MOST_SLOTS as u64) as usize),
        3 => key(slot),
        4..=8 => answer(slot) + random.below(ANSWER_WORDS as u64) as usize,
        _ => random.below(BOOK_WORDS as u64) as usize,
    }
}

pub fn single_bit(random: &mut Random, words: &mut Words) -> Option<()> {
    words[a_place(random, words)] ^= 1 << random.below(64);
    Some(())
}

pub fn swapped(random: &mut Random, words: &mut Words) -> Option<()> {
    let (one, other) = (a_place(random, words), a_place(random, words));
    words.swap(one, other);
    Some(())
}

pub fn random_word(random: &mut Random, words: &mut Words) -> Option<()> {
    let narrow = random.pick(&[0, 0, 11, 32, 43, 58, 61]);
    words[a_place(random, words)] = random.word() >> narrow;
    Some(())
}

pub fn all_random(random: &mut Random, words: &mut Words) -> Option<()> {
    // The head stays now and then, so that the keys are looked at.
    let from = random.pick(&[0, 0, 11, 11]);
    let narrow = random.pick(&[0, 11, 50, 61]);
    words[from..].fill_with(|| random.word() >> narrow);
    Some(())
}

pub fn all_zero(words: &mut Words) -> Option<()> {
    words.fill(0);
    Some(())
}
