//! Damage to the book's head: the number of slots, the registers, the memory's extent.

use crate::book_words::*;
use crate::damage::books::held;
use crate::scripts::Random;

/// 2^52, the end of all addresses.
const END: u64 = 1 << 52;

pub fn number_of_slots(random: &mut Random, words: &mut Words) -> Option<()> {
    let old = words[SLOTS];
    let last = held(words).last().map_or(0, |slot| *slot as u64);
    let any = random.word();
    words[SLOTS] = random.pick(&[
        0,
        65,
        64,
        63,
        last,
        last + 1,
        old.wrapping_add(1),
        old | 1 << 32,
        1 << 63,
        u64::MAX,
        any,
    ]);
    Some(())
}

/// Sets bits of one: fields that refusal 1 looks at, ones that a lookup reads, and ones past the register's width.
pub fn register(random: &mut Random, words: &mut Words) -> Option<()> {
    let (at, mask, value) = random.pick(&[
        (1, 0x3f, 32),
        (1, 0x3f, 33),
        (1, 0x3f, 63),
        (1, 0x7c0, 20 << 6),
        (1, 0x7c0, 21 << 6),
        (1, 0x7c0, 31 << 6),
        (2, 7, 6),
        (2, 7, 7),
        (3, 1, 0),
        (4, 2, 0),
        (4, 2, 2),
        (5, 1 << 20, 0),
        (5, 1 << 20, 1 << 20),
    ]);
    let word = match random.below(4) {
        0 => {
            let at = random.below(7) as usize;
            words[REGISTERS + at] |= 1 << random.pick(&[31, 32, 32, 33, 63]);
            return Some(());
        }
        1 => &mut words[REGISTERS + random.below(8) as usize],
        _ => &mut words[REGISTERS + at],
    };
    *word = *word & !mask | value;
    Some(())
}

pub fn extent(random: &mut Random, words: &mut Words) -> Option<()> {
    let (base, length) = (words[BASE], words[LENGTH]);
    let bit = 1 << random.below(64);
    let choices = [
        (base.wrapping_add(1), length),
        (base.wrapping_add(32), length),
        (base ^ 64, length),
        (base ^ bit, length),
        (base, length ^ bit),
        (base, 65_536),
        (base, 65_537),
        (END - 65_536, 65_536),
        (END - 65_536 + 64, 65_536),
        (END, 0),
        (END, 1),
        (END + 64, 0),
        (u64::MAX - 63, 65_536),
        (u64::MAX - 63, 64),
        (0, u64::MAX),
    ];
    (words[BASE], words[LENGTH]) = random.pick(&choices);
    Some(())
}
