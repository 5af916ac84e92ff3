//! What this program says of a case: the number, and all that was lent as it must be afterwards.

use super::case::{Call, Case, Told, MEMORY_BYTES};
use crate::answer::recorded;
use crate::book::Kept;
use crate::book_words::{self, encode_answer};
use crate::lookup::{lookup, walk};
use crate::memory::Memory;
use crate::refusal::Refusal;
use crate::registers::Registers;
use crate::request::{Request, StreamId, SubstreamId};

/// 2^64 - 1: no STE is fetched.
const NO_PART: u64 = u64::MAX;

impl Case {
    pub fn registers(&self) -> Registers {
        // Each is a `uint32_t` of the interface.
        let [idr0, idr1, idr5, cr0, cr2, gbpa, strtab_base_cfg] =
            self.lent.registers.map(|word| word as u32);
        Registers {
            idr0,
            idr1,
            idr5,
            cr0,
            cr2,
            gbpa,
            strtab_base: self.strtab_base,
            strtab_base_cfg,
        }
    }

    pub fn request(&self) -> Request {
        Request {
            stream: StreamId(self.stream),
            substream: (self.given != 0).then_some(SubstreamId(self.substream)),
        }
    }

    /// What the call must say and leave. After a refusal everything is as it was handed in.
    pub fn told(&self, memory: &[u8; MEMORY_BYTES]) -> Told {
        let mut lent = self.lent.clone();
        let said = match self.carried_out(memory, &mut lent) {
            Ok(said) => said,
            Err(Refusal(number)) => {
                lent = self.lent.clone();
                number.into()
            }
        };
        Told { said, lent }
    }

    fn carried_out(
        &self,
        memory: &[u8; MEMORY_BYTES],
        lent: &mut super::case::Lent,
    ) -> Result<u64, Refusal> {
        let registers = self.registers();
        let request = self.request();
        let lent_memory = Memory {
            base: self.base,
            bytes: &memory[..(self.length as usize).min(MEMORY_BYTES)],
        };
        match self.call {
            Call::Lookup => {
                let answer = lookup(&registers, lent_memory, request)?;
                lent.answer = encode_answer(&answer);
                Ok(0)
            }
            Call::StePart => Ok(self.place(lent_memory)),
            Call::Open => {
                let book = &mut lent.book;
                book_words::open(book, registers, self.base, self.length, self.number)?;
                Ok(0)
            }
            Call::Ask => {
                let (kept, answer) = book_words::ask(&mut lent.book, lent_memory, request)?;
                lent.answer = answer;
                Ok(match kept {
                    Kept::Before => 100,
                    Kept::Newly => 101,
                    Kept::Not => 102,
                })
            }
            Call::Notice => {
                book_words::notice(&mut lent.book, self.number, self.size)?;
                Ok(0)
            }
            Call::Report => {
                let out = &mut lent.out[..self.out_length as usize];
                lent.length = book_words::report(&lent.book, out)? as u64;
                Ok(0)
            }
            Call::IsRecorded => Ok(recorded(self.number, &registers).into()),
        }
    }

    /// Where in the lent memory the STE starts that the request reaches.
    fn place(&self, memory: Memory) -> u64 {
        let Ok(walked) = walk(&self.registers(), memory, self.request()) else {
            return NO_PART;
        };
        // The STE is the list's piece of 64 bytes that comes first.
        let ste = walked.answer.list.iter().find(|piece| piece.length == 64);
        ste.map_or(NO_PART, |piece| piece.address - memory.base)
    }
}
