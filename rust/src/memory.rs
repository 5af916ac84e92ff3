//! The lent memory.

use crate::header;

/// How many bytes of memory can be lent: 65,536.
pub const MEMORY_MOST: usize = header::MEMORY_MOST as usize;

/// The bytes that lie from an address on. At most [`MEMORY_MOST`] can be lent; empty is allowed. The base is a multiple of 64, and the
/// end is at or below 2^52; else a call says [`Refusal::Memory`](crate::Refusal::Memory).
#[derive(Clone, Copy, Debug, PartialEq, Eq)]
pub struct Memory<'a> {
    /// The address of the first byte.
    pub base: u64,
    /// The bytes.
    pub bytes: &'a [u8],
}
