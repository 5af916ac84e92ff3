//! What an Arm SMMUv3 decides about a stream, worked out from its registers and the tables in memory.
//!
//! A **lookup** gives what a stream gets (a translation, a bypass, an abort with its event) and the list of the descriptors that it
//! was read from. A **book** keeps answers: while each edit of the tables has its notice, a kept answer is exactly that of a new lookup.
//!
//! ```
//! use llobatelh::{lookup, Memory, Outcome, Registers, Request, StreamId};
//!
//! // A linear Stream table of 64 entries at 0x4_0000; the STE of stream 5 bypasses (V 1, Config 100).
//! let mut tables = [0; 4096];
//! tables[5 * 64] = 0x09;
//! let memory = Memory { base: 0x4_0000, bytes: &tables };
//! let registers = Registers {
//!     idr1: 16,
//!     idr5: 5,
//!     cr0: 1,
//!     strtab_base: 0x4_0000,
//!     strtab_base_cfg: 6,
//!     ..Registers::default()
//! };
//! let answer = lookup(&registers, memory, Request::without(StreamId::from(5)))?;
//! assert_eq!(answer.outcome(), Outcome::Bypass { ste: 0x4_0140 });
//! assert_eq!(answer.list()[0].address, 0x4_0140);
//! assert_eq!(answer.list()[0].length, 64);
//! # Ok::<(), llobatelh::Refusal>(())
//! ```
//!
//! Everything is worked out by an archive whose calls are proved for every number that can be handed in; this crate gives its words their
//! types. What it adds is not proved: the declarations of the calls ([`calls`], the one place with `unsafe`) and the reading of an answer's words.
//! The archive is found by `build.rs`: in the folder that the variable `LLOBATELH_ARCHIVE` names, or where the repository's `./archive`
//! puts the one for the target. The one for Arm is compiled by a step that the toolchain does not answer for. The numbers are those of
//! `llobatelh.h` ([`header`]), in the folder that the variable `LLOBATELH_INCLUDE` names, or in the repository's `include`.
//!
//! Nothing here asks for memory, and nothing panics with the archive that belongs to this crate.
#![no_std]

#[cfg(not(target_pointer_width = "64"))]
compile_error!("a length has 64 bits in the archive's calls");

mod answer;
mod book;
#[allow(unsafe_code)]
pub mod calls;
#[allow(unused_parens)] // C's values are written in brackets
pub mod header;
mod ids;
mod lookup;
mod memory;
mod refusal;
mod registers;

pub use answer::{Answer, Event, Outcome, Piece, Translation, Unserved, ANSWER_WORDS, PIECES_MOST};
pub use book::{Book, Kept, BOOK_WORDS, REPORT_MOST, SLOTS_MOST};
pub use ids::{Request, StreamId, SubstreamId, TooLarge};
pub use lookup::{is_recorded, lookup, ste_part, STE_BYTES};
pub use memory::{Memory, MEMORY_MOST};
pub use refusal::Refusal;
pub use registers::{Registers, REGISTERS};
