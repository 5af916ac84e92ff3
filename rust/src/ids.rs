//! StreamIDs, SubstreamIDs and requests.

use core::fmt;

/// A StreamID: 32 bits. It can't be passed where a [`SubstreamId`] is meant.
///
/// ```
/// use llobatelh::StreamId;
///
/// assert_eq!(StreamId::new(256)?.number(), 256);
/// assert!(StreamId::new(1 << StreamId::BITS).is_err());
/// # Ok::<(), llobatelh::TooLarge>(())
/// ```
#[derive(Clone, Copy, Debug, PartialEq, Eq, PartialOrd, Ord, Hash)]
pub struct StreamId(u32);

/// A SubstreamID: 20 bits. It can't be passed where a [`StreamId`] is meant.
///
/// ```
/// use llobatelh::SubstreamId;
///
/// assert_eq!(SubstreamId::new(70)?.number(), 70);
/// assert!(SubstreamId::new(1 << SubstreamId::BITS).is_err());
/// # Ok::<(), llobatelh::TooLarge>(())
/// ```
///
/// ```compile_fail
/// # use llobatelh::{StreamId, SubstreamId};
/// let stream: StreamId = SubstreamId::new(70).unwrap();
/// ```
#[derive(Clone, Copy, Debug, PartialEq, Eq, PartialOrd, Ord, Hash)]
pub struct SubstreamId(u64);

/// A number has more bits than the id.
#[derive(Clone, Copy, Debug, PartialEq, Eq)]
pub struct TooLarge;

impl StreamId {
    /// How many bits a StreamID has.
    pub const BITS: u32 = 32;

    /// The StreamID with this number, which is below 2^32.
    #[inline]
    pub const fn new(number: u64) -> Result<StreamId, TooLarge> {
        match number >> Self::BITS {
            0 => Ok(StreamId(number as u32)),
            _ => Err(TooLarge),
        }
    }

    /// Its number.
    #[inline]
    pub const fn number(self) -> u32 {
        self.0
    }
}

impl From<u32> for StreamId {
    #[inline]
    fn from(number: u32) -> StreamId {
        StreamId(number)
    }
}

impl SubstreamId {
    /// How many bits a SubstreamID has.
    pub const BITS: u32 = 20;

    /// The SubstreamID with this number, which is below 2^20.
    #[inline]
    pub const fn new(number: u64) -> Result<SubstreamId, TooLarge> {
        match number >> Self::BITS {
            0 => Ok(SubstreamId(number)),
            _ => Err(TooLarge),
        }
    }

    /// A SubstreamID as it was handed over, of any number: the calls refuse one of 2^20 or more with
    /// [`Refusal::Substream`](crate::Refusal::Substream), in its place among the other refusals.
    #[inline]
    pub const fn as_handed(number: u64) -> SubstreamId {
        SubstreamId(number)
    }

    /// Its number.
    #[inline]
    pub const fn number(self) -> u64 {
        self.0
    }
}

impl fmt::Display for TooLarge {
    fn fmt(&self, to: &mut fmt::Formatter) -> fmt::Result {
        to.write_str("the number has more bits than the id")
    }
}

impl core::error::Error for TooLarge {}

/// A StreamID, with a SubstreamID or without one. SubstreamID 0 and no SubstreamID are different requests.
#[derive(Clone, Copy, Debug, PartialEq, Eq, Hash)]
pub struct Request {
    /// The StreamID.
    pub stream: StreamId,
    /// The SubstreamID, if one is given.
    pub substream: Option<SubstreamId>,
}

impl Request {
    /// A request without a SubstreamID.
    #[inline]
    pub const fn without(stream: StreamId) -> Request {
        Request {
            stream,
            substream: None,
        }
    }

    /// A request with a SubstreamID.
    #[inline]
    pub const fn with(stream: StreamId, substream: SubstreamId) -> Request {
        Request {
            stream,
            substream: Some(substream),
        }
    }
}
