//! Registers and tables to look requests up in: the figure of docs/RULES.md, and its stage 1 stream.

use llobatelh::*;

pub struct Bench {
    pub registers: Registers,
    pub base: u64,
    pub bytes: Vec<u8>,
}

/// CD of P11 to P14: EPD0, V, AA64.
pub const CD_WORD: u64 = 0x200_8000_4000;

impl Bench {
    pub fn memory(&self) -> Memory<'_> {
        Memory {
            base: self.base,
            bytes: &self.bytes,
        }
    }

    pub fn put(&mut self, address: u64, word: u64) {
        let at = (address - self.base) as usize;
        self.bytes[at..at + 8].copy_from_slice(&word.to_le_bytes());
    }

    pub fn lookup(&self, request: Request) -> Result<Answer, Refusal> {
        lookup(&self.registers, self.memory(), request)
    }

    /// A book for this bench's registers and memory.
    pub fn open(&self, slots: u64) -> Result<Book, Refusal> {
        Book::open(&self.registers, self.base, self.bytes.len() as u64, slots)
    }
}

/// The figure of "Shots on the bench".
pub fn figure() -> Bench {
    let mut bench = Bench {
        registers: Registers {
            idr0: 1 << 27,
            idr1: 16,
            idr5: 5,
            cr0: 1,
            cr2: 2,
            gbpa: 0,
            strtab_base: 0x8000,
            strtab_base_cfg: 0x1020A,
        },
        base: 0,
        bytes: vec![0; MEMORY_MOST],
    };
    bench.put(0x8000, 0x1000 | 9);
    bench.put(0x8008, 0x2F20 | 3);
    bench.put(0x8018, 0x4000 | 1);
    for ste in [0x0, 0x3FC0, 0x2F00, 0x2FC0, 0x4000] {
        bench.put(ste, 0x09);
    }
    bench
}

/// "Stage 1": stream 768 with S1CDMax 8, S1DSS 0 and this S1Fmt.
pub fn stage_1(s1fmt: u64) -> Bench {
    let mut bench = figure();
    // S1P, TTF 2, CD2L; SSIDSIZE 8
    bench.registers.idr0 |= 1 << 1 | 2 << 2 | 1 << 19;
    bench.registers.idr1 |= 8 << 6;
    bench.put(0x4000, 1 | 0b101 << 1 | s1fmt << 4 | 0xC000 | 8 << 59);
    bench
}

pub fn without(stream: u32) -> Request {
    Request::without(stream.into())
}

pub fn with(stream: u32, substream: u64) -> Request {
    Request::with(stream.into(), SubstreamId::as_handed(substream))
}

/// An abort by an L1STD or an STE that is not fetched, and where it would have been.
pub fn no_ste(address: u64) -> Outcome {
    Outcome::Abort(Event::FSteFetch { address })
}

/// The same of an L1CD or a CD.
pub fn no_cd(address: u64) -> Outcome {
    Outcome::Abort(Event::FCdFetch { address })
}

/// The list as pairs of address and length.
pub fn list(answer: &Answer) -> Vec<(u64, u64)> {
    let pieces = answer.list().iter();
    pieces.map(|piece| (piece.address, piece.length)).collect()
}
