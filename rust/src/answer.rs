//! What is answered.

use crate::calls;
use crate::header::{self, byte, numbered, of_another_interface};
use core::fmt;
use core::hash::{Hash, Hasher};

/// How many words an answer has.
pub const ANSWER_WORDS: usize = header::ANSWER_WORDS as usize;

/// How many descriptors a lookup reads at most.
pub const PIECES_MOST: usize = header::PIECES_MOST as usize;

/// What a stream gets, and which descriptors that was read from: the words as a call put them. Each is read when it is asked for.
#[derive(Clone, Copy)]
pub struct Answer {
    words: [u64; ANSWER_WORDS],
}

/// What a stream gets.
#[derive(Clone, Copy, Debug, PartialEq, Eq, Hash)]
pub enum Outcome {
    /// Stage 1 translates.
    Translate(Translation),
    /// The stream bypasses.
    Bypass {
        /// The address of the STE that says so.
        ste: u64,
    },
    /// Every stream bypasses: the SMMU is off.
    GlobalBypass,
    /// The stream is aborted, with this event. [`is_recorded`](crate::is_recorded) says whether it is recorded.
    Abort(Event),
    /// The stream is aborted with no event.
    QuietAbort,
    /// A case that is not worked out.
    Unserved(Unserved),
}

/// A translation: the fields as they are stored, EPD0 set or not.
#[derive(Clone, Copy, Debug, PartialEq, Eq, Hash)]
pub struct Translation {
    /// The STE's address.
    pub ste: u64,
    /// The CD's address.
    pub cd: u64,
    /// ASID, 16 bits.
    pub asid: u16,
    /// T0SZ, 6 bits.
    pub t0sz: u8,
    /// TG0, 2 bits.
    pub tg0: u8,
    /// EPD0, 1 bit.
    pub epd0: bool,
    /// The effective IPS, in bits.
    pub ips: u64,
    /// The address of the table.
    pub ttb0: u64,
}

/// The event of an abort. Those of a fetch that failed carry the address that it wanted, as it was computed: bits at or above the OAS are
/// kept. Look first at whether the lent memory holds the whole descriptor from there on.
///
/// ```
/// use llobatelh::{lookup, Event, Memory, Outcome, Registers, Request, StreamId};
///
/// // A linear Stream table of 128 entries at 0x4_0000, of which half is lent.
/// let memory = Memory { base: 0x4_0000, bytes: &[0; 4096] };
/// let registers = Registers {
///     idr1: 16,
///     idr5: 5,
///     cr0: 1,
///     strtab_base: 0x4_0000,
///     strtab_base_cfg: 7,
///     ..Registers::default()
/// };
/// let answer = lookup(&registers, memory, Request::without(StreamId::from(64)))?;
/// assert_eq!(answer.outcome(), Outcome::Abort(Event::FSteFetch { address: 0x4_1000 }));
/// # Ok::<(), llobatelh::Refusal>(())
/// ```
#[allow(missing_docs)] // the names are the standard's
#[derive(Clone, Copy, Debug, PartialEq, Eq, PartialOrd, Ord, Hash)]
pub enum Event {
    CBadStreamid,
    FSteFetch {
        /// The address of the L1STD or the STE that was to be fetched.
        address: u64,
    },
    CBadSte,
    FStreamDisabled,
    CBadSubstreamid,
    FCdFetch {
        /// The address of the L1CD or the CD that was to be fetched.
        address: u64,
    },
    CBadCd,
}

impl Event {
    /// Its number.
    #[inline]
    pub const fn number(self) -> u8 {
        match self {
            Event::CBadStreamid => const { byte(header::C_BAD_STREAMID) },
            Event::FSteFetch { .. } => const { byte(header::F_STE_FETCH) },
            Event::CBadSte => const { byte(header::C_BAD_STE) },
            Event::FStreamDisabled => const { byte(header::F_STREAM_DISABLED) },
            Event::CBadSubstreamid => const { byte(header::C_BAD_SUBSTREAMID) },
            Event::FCdFetch { .. } => const { byte(header::F_CD_FETCH) },
            Event::CBadCd => const { byte(header::C_BAD_CD) },
        }
    }

    /// The event of an abort's words EVENT and WANTED. The second is looked at for a failed fetch alone.
    ///
    /// ```
    /// use llobatelh::{header, Event};
    ///
    /// assert_eq!(Event::from_words(header::F_CD_FETCH, 0x1_0000), Some(Event::FCdFetch { address: 0x1_0000 }));
    /// assert_eq!(Event::from_words(header::C_BAD_CD, 0x1_0000), Some(Event::CBadCd));
    /// assert_eq!(Event::from_words(0x05, 0), None);
    /// ```
    #[inline]
    pub const fn from_words(event: u64, wanted: u64) -> Option<Event> {
        match event {
            header::C_BAD_STREAMID => Some(Event::CBadStreamid),
            header::F_STE_FETCH => Some(Event::FSteFetch { address: wanted }),
            header::C_BAD_STE => Some(Event::CBadSte),
            header::F_STREAM_DISABLED => Some(Event::FStreamDisabled),
            header::C_BAD_SUBSTREAMID => Some(Event::CBadSubstreamid),
            header::F_CD_FETCH => Some(Event::FCdFetch { address: wanted }),
            header::C_BAD_CD => Some(Event::CBadCd),
            _ => None,
        }
    }
}

numbered! {
    /// A case that is not worked out.
    Unserved {
        /// 20: stage 2, Config 11x.
        Stage2 = STAGE_2,
        /// 21: VMSAv8-32, a CD with AA64 0.
        Vmsa32 = VMSA_32,
        /// 22: a StreamWorld above EL1, HYP 1 and STRW not 0.
        StreamWorld = STREAM_WORLD,
    }
}

/// A descriptor that was fetched.
#[derive(Clone, Copy, Debug, Default, PartialEq, Eq, Hash)]
#[repr(C)]
pub struct Piece {
    /// Its address.
    pub address: u64,
    /// Its length in bytes.
    pub length: u64,
}

impl Answer {
    /// The answer of the words that a call put.
    #[inline]
    pub(crate) fn said(words: [u64; ANSWER_WORDS]) -> Answer {
        Answer { words }
    }

    /// What the stream gets.
    #[inline(always)] // so that only those words are read that are looked at
    pub fn outcome(&self) -> Outcome {
        let word = |place| self.words[place as usize];
        match word(header::ANSWER_KIND) {
            header::TRANSLATE => Outcome::Translate(Translation {
                ste: word(header::ANSWER_STE),
                cd: word(header::ANSWER_CD),
                asid: expect(word(header::ANSWER_ASID), |word| word.try_into().ok()),
                t0sz: expect(word(header::ANSWER_T0SZ), |word| word.try_into().ok()),
                tg0: expect(word(header::ANSWER_TG0), |word| word.try_into().ok()),
                epd0: word(header::ANSWER_EPD0) != 0,
                ips: word(header::ANSWER_IPS),
                ttb0: word(header::ANSWER_TTB0),
            }),
            header::BYPASS => Outcome::Bypass {
                ste: word(header::ANSWER_STE),
            },
            header::BYPASS_GLOBAL => Outcome::GlobalBypass,
            header::ABORT => Outcome::Abort(expect(word(header::ANSWER_EVENT), |event| {
                Event::from_words(event, word(header::ANSWER_WANTED))
            })),
            header::QUIET => Outcome::QuietAbort,
            header::UNSERVED => {
                Outcome::Unserved(expect(word(header::ANSWER_CASE), Unserved::from_number))
            }
            kind => of_another_interface(kind),
        }
    }

    /// The descriptors that were fetched, in order. A fetch that faulted is not among them.
    #[inline(always)]
    pub fn list(&self) -> &[Piece] {
        let count = self.words[header::ANSWER_COUNT as usize];
        expect(count, |count| {
            calls::pieces(&self.words).get(..count as usize)
        })
    }

    /// The words. include/llobatelh.h says what each is.
    #[inline]
    pub fn words(&self) -> &[u64; ANSWER_WORDS] {
        &self.words
    }

    /// The words that say something, a failed fetch's address among them. Past the list a book that was put together by hand may have anything.
    fn telling(&self) -> &[u64] {
        &self.words[..header::answer_address(self.list().len() as u64) as usize]
    }
}

/// What a word stands for.
#[inline]
fn expect<T>(word: u64, read: impl FnOnce(u64) -> Option<T>) -> T {
    match read(word) {
        Some(value) => value,
        None => of_another_interface(word),
    }
}

impl PartialEq for Answer {
    fn eq(&self, other: &Answer) -> bool {
        self.telling() == other.telling()
    }
}

impl Eq for Answer {}

impl Hash for Answer {
    fn hash<H: Hasher>(&self, into: &mut H) {
        self.telling().hash(into);
    }
}

impl fmt::Debug for Answer {
    fn fmt(&self, to: &mut fmt::Formatter) -> fmt::Result {
        to.debug_struct("Answer")
            .field("outcome", &self.outcome())
            .field("list", &self.list())
            .finish()
    }
}
