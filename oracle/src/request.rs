//! A request: a StreamID, with a SubstreamID or without one.
//! Follows RULES, "What the monitor hands over".

/// A StreamID has 32 bits.
#[derive(Clone, Copy, Debug, PartialEq, Eq)]
pub struct StreamId(pub u32);

/// A SubstreamID has 20 bits. A number that has more can be handed over; refusal 3 answers it.
#[derive(Clone, Copy, Debug, PartialEq, Eq)]
pub struct SubstreamId(pub u64);

/// No SubstreamID and SubstreamID 0 are two requests.
#[derive(Clone, Copy, Debug, PartialEq, Eq)]
pub struct Request {
    pub stream: StreamId,
    pub substream: Option<SubstreamId>,
}

impl Request {
    /// The StreamID and the SubstreamID as plain numbers.
    pub fn numbers(self) -> (u64, Option<u64>) {
        (self.stream.0.into(), self.substream.map(|given| given.0))
    }
}
