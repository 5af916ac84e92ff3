//! The refusals, 1 to 8.

use crate::header::{numbered, of_another_interface};
use core::fmt;

numbered! {
    /// Why a call refuses. Where several apply, each call says the first in the order that stands with it. A refused call has changed nothing.
    ///
    /// ```
    /// use llobatelh::Refusal;
    ///
    /// assert_eq!(Refusal::Book.number(), 7);
    /// assert_eq!(Refusal::from_number(7), Some(Refusal::Book));
    /// assert_eq!(Refusal::from_number(9), None);
    /// ```
    Refusal {
        /// 1: OAS is 7, SIDSIZE above 32, or SSIDSIZE above 20.
        Registers = REFUSED_REGISTERS,
        /// 2: the base is not a multiple of 64, the length is above 65,536, or base + length is above 2^52.
        Memory = REFUSED_MEMORY,
        /// 3: a SubstreamID is given and is 2^20 or more.
        Substream = REFUSED_SUBSTREAM,
        /// 4: a book is opened with 0 slots or with more than 64.
        Slots = REFUSED_SLOTS,
        /// 5: a notice has start + size above 2^52.
        Notice = REFUSED_NOTICE,
        /// 6: an ask's base or length is not the one that the book was opened with.
        Extent = REFUSED_EXTENT,
        /// 7: the book is malformed; include/llobatelh.h says when, word by word.
        Book = REFUSED_BOOK,
        /// 8: the report's buffer is shorter than its text.
        Buffer = REFUSED_BUFFER,
    }
}

impl Refusal {
    /// What a call said where it did not say that it is done: a refusal's number.
    #[inline]
    pub(crate) fn said(number: u64) -> Refusal {
        match Self::from_number(number) {
            Some(refusal) => refusal,
            None => of_another_interface(number),
        }
    }
}

impl fmt::Display for Refusal {
    fn fmt(&self, to: &mut fmt::Formatter) -> fmt::Result {
        let why = match self {
            Refusal::Registers => "OAS is 7, SIDSIZE above 32, or SSIDSIZE above 20",
            Refusal::Memory => "the memory's base, length or end is out of range",
            Refusal::Substream => "the SubstreamID is 2^20 or more",
            Refusal::Slots => "a book has 1 to 64 slots",
            Refusal::Notice => "the notice ends past 2^52",
            Refusal::Extent => "the memory is not the one that the book was opened with",
            Refusal::Book => "the book is malformed",
            Refusal::Buffer => "the buffer is shorter than the report",
        };
        write!(to, "refused {}: {why}", self.number())
    }
}

impl core::error::Error for Refusal {}
