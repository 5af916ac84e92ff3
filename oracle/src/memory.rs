//! The lent memory and the fetch rule.
//! Follows RULES, "What the monitor hands over" and the paragraph below step 6 of "From StreamID to STE".

use std::ops::Range;

/// A fetch that failed: the address that it wanted, as it was computed.
#[derive(Clone, Copy, Debug, PartialEq, Eq)]
pub struct Failed {
    pub wanted: u64,
}

/// A base address and a lent run of bytes.
#[derive(Clone, Copy, Debug)]
pub struct Memory<'a> {
    pub base: u64,
    pub bytes: &'a [u8],
}

impl<'a> Memory<'a> {
    pub fn length(self) -> u64 {
        self.bytes.len() as u64
    }

    /// A descriptor is fetched exactly if it lies wholly in the memory and ends at or below 2^(OAS size).
    /// A fetch that fails says which address it wanted, with the bits at or above the OAS.
    pub(crate) fn fetch(
        self,
        address: u64,
        length: u64,
        oas_size: u64,
    ) -> Result<&'a [u8], Failed> {
        let end = u128::from(address) + u128::from(length);
        let place = place(self.base, self.length(), address.into(), length.into());
        place
            .filter(|_| end <= 1 << oas_size)
            .and_then(|place| self.bytes.get(place))
            .ok_or(Failed { wanted: address })
    }
}

/// Where in a memory of `extent` bytes from `base` on the `length` bytes from `address` on are,
/// if all of them lie in it.
pub(crate) fn place(base: u64, extent: u64, address: u128, length: u128) -> Option<Range<usize>> {
    let base = u128::from(base);
    let end = base + u128::from(extent);
    if address < base || address + length > end {
        return None;
    }
    // Both are at most `extent` now.
    Some((address - base) as usize..(address + length - base) as usize)
}
