//! The refusals of a lookup, 1 to 3, which the book stands on as well.
//! Follows RULES, "When the bench says no". Refusals 4 to 7 are in `book`, 8 is in `report`.
//! Every call makes its checks in the order that RULES gives for it, one `check_N` after the other.

use crate::registers::Registers;
use crate::request::SubstreamId;

/// A refusal carries its number and nothing else.
#[derive(Clone, Copy, Debug, PartialEq, Eq)]
pub struct Refusal(pub u8);

/// 2^52, the end of all addresses.
pub const END_OF_ADDRESSES: u128 = 1 << 52;

/// The longest memory that can be lent, in bytes.
pub const LONGEST_MEMORY: u64 = 65_536;

/// Gives the refusal if `applies`.
pub fn refuse_if(applies: bool, number: u8) -> Result<(), Refusal> {
    if applies {
        Err(Refusal(number))
    } else {
        Ok(())
    }
}

/// 1: OAS is 7, SIDSIZE above 32, or SSIDSIZE above 20. Else the OAS size in bits.
pub fn check_1(registers: &Registers) -> Result<u64, Refusal> {
    refuse_if(registers.sidsize() > 32 || registers.ssidsize() > 20, 1)?;
    registers.oas_size().ok_or(Refusal(1))
}

/// 2: base not a multiple of 64, length above 65,536, or base + length above 2^52.
pub fn check_2(base: u64, length: u64) -> Result<(), Refusal> {
    let end = u128::from(base) + u128::from(length);
    refuse_if(
        base & 63 != 0 || length > LONGEST_MEMORY || end > END_OF_ADDRESSES,
        2,
    )
}

/// 3: a SubstreamID is given and is 2^20 or more.
pub fn check_3(substream: Option<SubstreamId>) -> Result<(), Refusal> {
    refuse_if(substream.is_some_and(|given| given.0 >= 1 << 20), 3)
}
