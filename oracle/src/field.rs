//! Fields of registers and descriptors, and the arithmetic on pointers.
//! Follows the rules' way of writing them: `[high:low]`, "bits taken as 0", "ADDR + 64 x StreamID".

/// The bits `[high:low]` of a word.
#[derive(Clone, Copy, Debug, PartialEq, Eq)]
pub struct Field {
    high: u32,
    low: u32,
}

/// The field `[high:low]`.
pub const fn field(high: u32, low: u32) -> Field {
    Field { high, low }
}

/// The field of one bit, `[at]`.
pub const fn bit(at: u32) -> Field {
    field(at, at)
}

impl Field {
    /// As many ones as the field is wide.
    const fn ones(self) -> u128 {
        (1 << (self.high - self.low + 1)) - 1
    }

    /// The bits of the word that belong to the field, all set.
    pub const fn mask(self) -> u128 {
        self.ones() << self.low
    }

    /// The lowest bit of the field.
    pub const fn low(self) -> u32 {
        self.low
    }

    /// The field's value. No field of the rules is wider than 52 bits.
    pub fn of(self, word: impl Into<u128>) -> u64 {
        ((word.into() >> self.low) & self.ones()) as u64
    }

    /// The address whose bits `[high:low]` are the field and whose other bits are 0.
    pub fn address(self, word: impl Into<u128>) -> u64 {
        self.of(word) << self.low
    }

    /// The word with the field set to `value` (its low bits, as many as fit).
    pub fn put(self, word: u128, value: u64) -> u128 {
        (word & !self.mask()) | ((u128::from(value) & self.ones()) << self.low)
    }
}

/// The first 16 bytes of a descriptor (all 8 of a short one) as a little-endian word.
/// Every field that the rules read lies in them.
pub fn word(bytes: &[u8]) -> u128 {
    let low_first = bytes.iter().take(16);
    low_first
        .rev()
        .fold(0, |word, byte| word << 8 | u128::from(*byte))
}

/// The address with its `count` lowest bits taken as 0.
pub(crate) fn low_bits_as_0(address: u64, count: u64) -> u64 {
    address >> count << count
}

/// The address of an entry of a table: `pointer + size x index`, exact. A pointer has 56 bits, a size is 64
/// at most and an index has 32 bits, so that the sum is below 2^57.
pub(crate) fn entry(pointer: u64, size: u64, index: u64) -> u64 {
    pointer + size * index
}
