//! Lookup and ask in ordinary Rust: slices, structs and early returns, written to be quick and to make every refusal that the archive makes.
//! It proves nothing and promises nothing; it is what the archive is measured against.

use std::ops::ControlFlow::{self, Break, Continue};

const TOP: u64 = 1 << 52;

#[derive(Clone, Copy)]
pub struct Registers {
    pub idr0: u32,
    pub idr1: u32,
    pub idr5: u32,
    pub cr0: u32,
    pub cr2: u32,
    pub gbpa: u32,
    pub strtab_base: u64,
    pub strtab_base_cfg: u32,
}

#[derive(Clone, Copy)]
pub struct Request {
    pub stream: u32,
    pub substream: Option<u64>,
}

#[derive(Clone, Copy)]
pub struct Translation {
    pub ste: u64,
    pub cd: u64,
    pub asid: u16,
    pub t0sz: u8,
    pub tg0: u8,
    pub epd0: bool,
    pub ips: u32,
    pub ttb0: u64,
}

#[derive(Clone, Copy)]
pub enum Outcome {
    Translate(Translation),
    Bypass(u64),
    GlobalBypass,
    Abort(u8),
    /// An abort by a fetch that failed: its event, and the address that it wanted.
    Fault(u8, u64),
    Quiet,
    Unserved(u8),
}

#[derive(Clone, Copy, Default)]
pub struct Piece {
    pub address: u64,
    pub length: u64,
}

#[derive(Clone, Copy, Default)]
pub struct List {
    pub count: usize,
    pub pieces: [Piece; 4],
}

#[derive(Clone, Copy)]
pub struct Answer {
    pub outcome: Outcome,
    pub list: List,
}

fn bits(word: u64, low: u32, width: u32) -> u64 {
    word >> low & ((1 << width) - 1)
}

fn size_of(code: u64) -> Option<u32> {
    [32, 36, 40, 42, 44, 48, 52].get(code as usize).copied()
}

fn align_down(address: u64, bits: u32) -> u64 {
    address & !((1u64 << bits) - 1)
}

impl Registers {
    fn idr0(&self, low: u32, width: u32) -> u64 {
        bits(self.idr0.into(), low, width)
    }

    /// Refusal 1, or the OAS in bits.
    fn oas(&self) -> Result<u32, u8> {
        let idr1 = u64::from(self.idr1);
        if bits(idr1, 0, 6) > 32 || bits(idr1, 6, 5) > 20 {
            return Err(1);
        }
        size_of(bits(self.idr5.into(), 0, 3)).ok_or(1)
    }
}

/// Refusal 2.
fn check_extent(base: u64, length: u64) -> Result<(), u8> {
    if base % 64 != 0 || length > 65_536 || base > TOP || length > TOP - base {
        return Err(2);
    }
    Ok(())
}

/// Refusal 3.
fn check_request(request: Request) -> Result<(), u8> {
    match request.substream {
        Some(substream) if substream >= 1 << 20 => Err(3),
        _ => Ok(()),
    }
}

#[inline(never)]
pub fn lookup(
    registers: &Registers,
    base: u64,
    memory: &[u8],
    request: Request,
) -> Result<Answer, u8> {
    let oas = registers.oas()?;
    check_extent(base, memory.len() as u64)?;
    check_request(request)?;
    let mut walk = Walk {
        registers,
        base,
        memory,
        oas,
        list: List::default(),
    };
    let (Break(outcome) | Continue(outcome)) = walk.outcome(request);
    Ok(Answer {
        outcome,
        list: walk.list,
    })
}

type Step<T> = ControlFlow<Outcome, T>;

struct Walk<'a> {
    registers: &'a Registers,
    base: u64,
    memory: &'a [u8],
    oas: u32,
    list: List,
}

impl<'a> Walk<'a> {
    /// The bytes of a descriptor, which goes on the list; none where the fetch fails.
    fn fetch<const N: usize>(&mut self, address: u64) -> Option<&'a [u8; N]> {
        let length = N as u64;
        if address + length > 1 << self.oas {
            return None;
        }
        let offset = address.checked_sub(self.base)?;
        let bytes = self.memory.get(offset as usize..)?.first_chunk()?;
        self.list.pieces[self.list.count] = Piece { address, length };
        self.list.count += 1;
        Some(bytes)
    }

    fn outcome(&mut self, request: Request) -> Step<Outcome> {
        if self.registers.cr0 & 1 == 0 {
            let abort = self.registers.gbpa >> 20 & 1 == 1;
            return Break(if abort {
                Outcome::Quiet
            } else {
                Outcome::GlobalBypass
            });
        }
        let ste_address = self.ste_address(request.stream)?;
        let Some(ste) = self.fetch::<64>(ste_address) else {
            return Break(Outcome::Fault(3, ste_address));
        };
        let (ste0, ste1) = (word(ste, 0), word(ste, 8));
        let index = self.read_ste(ste_address, ste0, ste1, request.substream)?;
        let cd_address = self.cd_address(ste0, index)?;
        let Some(cd) = self.fetch::<64>(cd_address) else {
            return Break(Outcome::Fault(9, cd_address));
        };
        self.read_cd(ste_address, cd_address, word(cd, 0), word(cd, 8))
    }

    fn ste_address(&mut self, stream: u32) -> Step<u64> {
        let registers = self.registers;
        let cfg = u64::from(registers.strtab_base_cfg);
        let log2size = bits(cfg, 0, 6).min(bits(registers.idr1.into(), 0, 6)) as u32;
        let stream = u64::from(stream);
        if stream >= 1 << log2size {
            return Break(Outcome::Abort(2));
        }
        let addr = registers.strtab_base & 0x00ff_ffff_ffff_ffc0;
        if registers.idr0(27, 2) == 0 || bits(cfg, 16, 2) != 1 {
            return Continue(align_down(addr, log2size + 6) + 64 * stream);
        }
        let split = match bits(cfg, 6, 5) {
            split @ (8 | 10) => split as u32,
            _ => 6,
        };
        let aligned = align_down(addr, 6.max((log2size + 3).saturating_sub(split)));
        let address = aligned + 8 * (stream >> split);
        let Some(l1std) = self.fetch::<8>(address) else {
            return Break(Outcome::Fault(3, address));
        };
        let l1std = u64::from_le_bytes(*l1std);
        let span = bits(l1std, 0, 5) as u32;
        let low = bits(stream, 0, split);
        if span == 0 || span > split + 1 || low >= 1 << (span - 1) {
            return Break(Outcome::Abort(2));
        }
        let l2ptr = align_down(l1std & 0x00ff_ffff_ffff_ffc0, span + 5);
        Continue(l2ptr + 64 * low)
    }

    /// The index of the CD to use.
    fn read_ste(&self, address: u64, ste0: u64, ste1: u64, substream: Option<u64>) -> Step<u64> {
        let registers = self.registers;
        let config = bits(ste0, 1, 3);
        if ste0 & 1 == 0 {
            return Break(Outcome::Abort(4));
        }
        if config < 4 {
            return Break(Outcome::Quiet);
        }
        let stage_1 = config & 1 == 1;
        let stage_2 = config & 2 == 2;
        if stage_1 && registers.idr0(1, 1) == 0 || stage_2 && registers.idr0(0, 1) == 0 {
            return Break(Outcome::Abort(4));
        }
        if stage_2 {
            return Break(Outcome::Unserved(20));
        }
        if !stage_1 {
            return Break(match substream {
                Some(_) => Outcome::Abort(8),
                None => Outcome::Bypass(address),
            });
        }
        let s1fmt = bits(ste0, 4, 2);
        let s1cdmax = bits(ste0, 59, 5);
        let s1dss = bits(ste1, 0, 2);
        if s1cdmax > bits(registers.idr1.into(), 6, 5) {
            return Break(Outcome::Abort(4));
        }
        let one_level_only = registers.idr0(19, 1) == 0;
        if s1cdmax > 0 && (s1fmt == 3 || s1fmt != 0 && one_level_only || s1dss == 3) {
            return Break(Outcome::Abort(4));
        }
        if registers.idr0(9, 1) == 1 && bits(ste1, 30, 2) != 0 {
            return Break(Outcome::Unserved(22));
        }
        match substream {
            Some(substream) if s1cdmax == 0 || substream >= 1 << s1cdmax => {
                Break(Outcome::Abort(8))
            }
            Some(0) if s1dss == 2 => Break(Outcome::Abort(6)),
            Some(substream) => Continue(substream),
            None if s1cdmax > 0 && s1dss == 0 => Break(Outcome::Abort(6)),
            None if s1cdmax > 0 && s1dss == 1 => Break(Outcome::Bypass(address)),
            None => Continue(0),
        }
    }

    fn cd_address(&mut self, ste0: u64, index: u64) -> Step<u64> {
        let pointer = ste0 & 0x00ff_ffff_ffff_ffc0;
        if bits(ste0, 59, 5) == 0 {
            return Continue(pointer);
        }
        let leaf = match bits(ste0, 4, 2) {
            0 => return Continue(pointer + 64 * index),
            1 => 6,
            _ => 10,
        };
        let address = pointer + 8 * (index >> leaf);
        let Some(l1cd) = self.fetch::<8>(address) else {
            return Break(Outcome::Fault(9, address));
        };
        let l1cd = u64::from_le_bytes(*l1cd);
        if l1cd & 1 == 0 {
            return Break(Outcome::Abort(8));
        }
        Continue((l1cd & 0x00ff_ffff_ffff_f000) + 64 * bits(index, 0, leaf))
    }

    fn read_cd(&self, ste: u64, cd: u64, cd0: u64, cd1: u64) -> Step<Outcome> {
        const BAD_CD: Outcome = Outcome::Abort(10);
        let registers = self.registers;
        let ttf = registers.idr0(2, 2);
        if bits(cd0, 31, 1) == 0 {
            return Break(BAD_CD);
        }
        if bits(cd0, 41, 1) == 0 {
            return Break(if ttf & 1 == 1 {
                Outcome::Unserved(21)
            } else {
                BAD_CD
            });
        }
        if ttf & 2 == 0 {
            return Break(BAD_CD);
        }
        let found = Translation {
            ste,
            cd,
            asid: bits(cd0, 48, 16) as u16,
            t0sz: bits(cd0, 0, 6) as u8,
            tg0: bits(cd0, 6, 2) as u8,
            epd0: bits(cd0, 14, 1) == 1,
            ips: size_of(bits(cd0, 32, 3)).map_or(self.oas, |size| size.min(self.oas)),
            ttb0: cd1 & 0x00ff_ffff_ffff_fff0,
        };
        if !found.epd0 {
            let granule = match found.tg0 {
                0 => 4,
                1 => 6,
                2 => 5,
                _ => return Break(BAD_CD),
            };
            let there = registers.idr5 >> granule & 1 == 1;
            if !there || !(16..=39).contains(&found.t0sz) || found.ttb0 >> found.ips != 0 {
                return Break(BAD_CD);
            }
        }
        Continue(Outcome::Translate(found))
    }
}

fn word(bytes: &[u8; 64], at: usize) -> u64 {
    bytes[at..]
        .first_chunk()
        .map_or(0, |word| u64::from_le_bytes(*word))
}

/// A book: the requests packed into keys that stand side by side, 0 where a slot is empty, and the answers after them.
#[derive(Clone)]
pub struct Book {
    pub slots: u64,
    pub registers: Registers,
    pub base: u64,
    pub length: u64,
    pub keys: [u64; 64],
    pub answers: [Answer; 64],
}

#[derive(Clone, Copy, PartialEq, Eq)]
pub enum Kept {
    Before,
    Newly,
    Not,
}

fn key(request: Request) -> u64 {
    let below = request.substream.map_or(0, |substream| 1 << 20 | substream);
    1 + (u64::from(request.stream) << 21 | below)
}

impl Book {
    pub fn open(registers: Registers, base: u64, length: u64, slots: u64) -> Result<Book, u8> {
        registers.oas()?;
        check_extent(base, length)?;
        if !(1..=64).contains(&slots) {
            return Err(4);
        }
        let empty = Answer {
            outcome: Outcome::Quiet,
            list: List::default(),
        };
        Ok(Book {
            slots,
            registers,
            base,
            length,
            keys: [0; 64],
            answers: [empty; 64],
        })
    }

    /// Refusal 7: the whole book is looked at.
    fn check(&self) -> Result<(), u8> {
        let well = (1..=64).contains(&self.slots)
            && self.registers.oas().is_ok()
            && check_extent(self.base, self.length).is_ok();
        if !well {
            return Err(7);
        }
        let (keys, past) = self.keys.split_at(self.slots as usize);
        if past.iter().any(|key| *key != 0) {
            return Err(7);
        }
        for (slot, key) in keys.iter().enumerate() {
            if *key == 0 {
                continue;
            }
            let request = *key - 1;
            let no_request =
                request >> 53 != 0 || request >> 20 & 1 == 0 && request % (1 << 20) != 0;
            if no_request || keys[slot + 1..].contains(key) || !self.answers[slot].is_proper() {
                return Err(7);
            }
        }
        Ok(())
    }

    #[inline(never)]
    pub fn ask(
        &mut self,
        base: u64,
        memory: &[u8],
        request: Request,
    ) -> Result<(Kept, Answer), u8> {
        self.check()?;
        if base != self.base || memory.len() as u64 != self.length {
            return Err(6);
        }
        check_request(request)?;
        let key = key(request);
        let keys = &self.keys[..self.slots as usize];
        if let Some(slot) = keys.iter().position(|held| *held == key) {
            return Ok((Kept::Before, self.answers[slot]));
        }
        let answer = lookup(&self.registers, base, memory, request)?;
        let Some(slot) = keys.iter().position(|held| *held == 0) else {
            return Ok((Kept::Not, answer));
        };
        self.keys[slot] = key;
        self.answers[slot] = answer;
        Ok((Kept::Newly, answer))
    }
}

impl Answer {
    fn is_proper(&self) -> bool {
        let listed = match self.outcome {
            Outcome::Abort(event) => matches!(event, 2 | 4 | 6 | 8 | 10),
            Outcome::Fault(event, _) => matches!(event, 3 | 9),
            Outcome::Unserved(number) => matches!(number, 20..=22),
            Outcome::Translate(found) => found.t0sz < 64 && found.tg0 < 4,
            _ => true,
        };
        let ends = |piece: &Piece| {
            let end = piece.address.checked_add(piece.length);
            end.is_some_and(|end| end <= TOP)
        };
        let pieces = self.list.pieces.get(..self.list.count);
        listed && pieces.is_some_and(|pieces| pieces.iter().all(ends))
    }
}
