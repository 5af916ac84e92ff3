//! What a lookup answers.
//! Follows RULES, "What an answer holds", and the customer's request E2: a failed fetch says which address it wanted.

use crate::registers::Registers;

pub const C_BAD_STREAMID: u64 = 0x02;
pub const F_STE_FETCH: u64 = 0x03;
pub const C_BAD_STE: u64 = 0x04;
pub const F_STREAM_DISABLED: u64 = 0x06;
pub const C_BAD_SUBSTREAMID: u64 = 0x08;
pub const F_CD_FETCH: u64 = 0x09;
pub const C_BAD_CD: u64 = 0x0A;

/// Every event number that the rules list.
pub const EVENTS: [u64; 7] = [
    C_BAD_STREAMID,
    F_STE_FETCH,
    C_BAD_STE,
    F_STREAM_DISABLED,
    C_BAD_SUBSTREAMID,
    F_CD_FETCH,
    C_BAD_CD,
];

/// The events of a failed fetch, which hold the address that it wanted.
pub const FETCHES: [u64; 2] = [F_STE_FETCH, F_CD_FETCH];

/// Unserved: stage 2.
pub const STAGE_2: u64 = 20;
/// Unserved: VMSAv8-32.
pub const VMSAV8_32: u64 = 21;
/// Unserved: a StreamWorld above EL1.
pub const STREAM_WORLD: u64 = 22;

/// Every unserved number that the rules list.
pub const UNSERVED: [u64; 3] = [STAGE_2, VMSAV8_32, STREAM_WORLD];

/// What "translate" holds: the fields as stored, EPD0 set or not.
#[derive(Clone, Copy, Debug, PartialEq, Eq)]
pub struct Translation {
    pub ste: u64,
    pub cd: u64,
    pub asid: u64,
    pub t0sz: u64,
    pub tg0: u64,
    pub epd0: u64,
    /// Effective IPS, in bits.
    pub ips: u64,
    /// The TTB0 address.
    pub ttb0: u64,
}

/// An abort's event, one of those that the rules list. The two of a failed fetch hold the address that it
/// wanted; no other event can hold one.
#[derive(Clone, Copy, Debug, PartialEq, Eq)]
pub enum Event {
    BadStreamId,
    /// The L1STD or the STE was wanted at this address.
    SteFetch {
        wanted: u64,
    },
    BadSte,
    StreamDisabled,
    BadSubstreamId,
    /// The L1CD or the CD was wanted at this address.
    CdFetch {
        wanted: u64,
    },
    BadCd,
}

impl Event {
    /// The event with this number; none where the rules list no such event. The address is not looked at
    /// where the event holds none.
    pub fn of(number: u64, wanted: u64) -> Option<Event> {
        match number {
            C_BAD_STREAMID => Some(Event::BadStreamId),
            F_STE_FETCH => Some(Event::SteFetch { wanted }),
            C_BAD_STE => Some(Event::BadSte),
            F_STREAM_DISABLED => Some(Event::StreamDisabled),
            C_BAD_SUBSTREAMID => Some(Event::BadSubstreamId),
            F_CD_FETCH => Some(Event::CdFetch { wanted }),
            C_BAD_CD => Some(Event::BadCd),
            _ => None,
        }
    }

    pub fn number(self) -> u64 {
        match self {
            Event::BadStreamId => C_BAD_STREAMID,
            Event::SteFetch { .. } => F_STE_FETCH,
            Event::BadSte => C_BAD_STE,
            Event::StreamDisabled => F_STREAM_DISABLED,
            Event::BadSubstreamId => C_BAD_SUBSTREAMID,
            Event::CdFetch { .. } => F_CD_FETCH,
            Event::BadCd => C_BAD_CD,
        }
    }

    /// The address that the failed fetch wanted.
    pub fn wanted(self) -> Option<u64> {
        match self {
            Event::SteFetch { wanted } | Event::CdFetch { wanted } => Some(wanted),
            _ => None,
        }
    }
}

/// The outcome of a lookup. An unserved number is a plain number, so that a book can hold one that the
/// rules do not list and refusal 7 can find it. An event is one that they list: a book's words that have
/// another stand for no book (`book_words`).
#[derive(Clone, Copy, Debug, PartialEq, Eq)]
pub enum Outcome {
    Translate(Translation),
    Bypass { ste: u64 },
    GlobalBypass,
    Abort(Event),
    QuietAbort,
    Unserved { number: u64 },
}

impl Outcome {
    /// The address that the fetch wanted which ended the lookup.
    pub fn wanted(&self) -> Option<u64> {
        match self {
            Outcome::Abort(event) => event.wanted(),
            _ => None,
        }
    }

    /// The outcome's word in reports and scripts.
    pub fn word(&self, registers: &Registers) -> &'static str {
        match self {
            Outcome::Translate(_) => "translate",
            Outcome::Bypass { .. } | Outcome::GlobalBypass => "bypass",
            Outcome::Abort(event) if recorded(event.number(), registers) => "abort",
            Outcome::Abort(_) => "unrecorded",
            Outcome::QuietAbort => "quiet",
            Outcome::Unserved { .. } => "unserved",
        }
    }
}

/// "All recorded, but 0x02 only if RECINVSID is 1."
pub fn recorded(event: u64, registers: &Registers) -> bool {
    event != C_BAD_STREAMID || registers.recinvsid() == 1
}

/// A descriptor that was fetched: its address and its length in bytes.
#[derive(Clone, Copy, Debug, PartialEq, Eq)]
pub struct Piece {
    pub address: u64,
    pub length: u64,
}

/// The outcome and the list of descriptors fetched, in order. Two are equal where all of it is, the address
/// that a failed fetch wanted among it.
#[derive(Clone, Debug, PartialEq, Eq)]
pub struct Answer {
    pub outcome: Outcome,
    pub list: Vec<Piece>,
}
