//! A script on its way, with the state that its lines have led to, and the setting up of registers,
//! memory and tables that mostly make sense.

use super::edges;
use super::pen::Pen;
use super::random::Random;
use crate::answer::Outcome;
use crate::descriptors::{cd, l1cd, l1std, ste, Kind};
use crate::field::Field;
use crate::lookup::{walk, Walked};
use crate::memory::place;
use crate::registers::*;
use crate::request::{Request, StreamId, SubstreamId};
use crate::script::{Command, Session};

/// A script on its way.
#[derive(Clone, Debug)]
pub struct Bench {
    pub random: Random,
    pub session: Session,
    pen: Pen,
}

// The lines.

impl Bench {
    /// An empty script, to be written plainly or oddly.
    pub fn new(random: Random, odd: bool) -> Bench {
        Bench {
            random,
            session: Session::default(),
            pen: Pen::new(odd),
        }
    }

    /// The script.
    pub fn into_text(mut self) -> Vec<u8> {
        self.pen.finish(&mut self.random)
    }

    /// Writes a line and does what it says. A line that would be wrong is left out: false.
    pub fn say(&mut self, command: Command) -> bool {
        let right = self.session.run(&command).is_ok();
        if right {
            self.pen.command(&mut self.random, &command);
        }
        right
    }

    /// Writes a line as it stands.
    pub fn raw(&mut self, line: &[u8]) {
        self.pen.raw(line);
    }

    /// Sets a register; gives the line that takes it back.
    pub fn set(&mut self, register: Register, value: u64) -> Command {
        let old = self.session.registers.get(register);
        self.say(Command::Register { register, value });
        let value = old;
        Command::Register { register, value }
    }

    /// Puts bytes into the memory, those alone that differ; gives the line that takes it back.
    pub fn put(&mut self, address: u64, bytes: &[u8]) -> Option<Command> {
        let old = self.bytes_at(address, bytes.len() as u64)?.to_vec();
        let differs = |at: &usize| old[*at] != bytes[*at];
        let first = (0..old.len()).find(differs)?;
        let last = (0..old.len()).rfind(differs)?;
        let address = address + first as u64;
        self.say(Command::Write {
            address,
            bytes: bytes[first..=last].to_vec(),
        });
        let bytes = old[first..=last].to_vec();
        Some(Command::Write { address, bytes })
    }

    /// Puts a field of a descriptor; gives the line that takes it back.
    pub fn put_field(&mut self, descriptor: u64, field: Field, value: u64) -> Option<Command> {
        let word = field.low() / 64;
        let address = descriptor + u64::from(word) * 8;
        let old: [u8; 8] = self.bytes_at(address, 8)?.try_into().ok()?;
        let old = u128::from(u64::from_le_bytes(old)) << (word * 64);
        let new = (field.put(old, value) >> (word * 64)) as u64;
        self.put(address, &new.to_le_bytes())
    }

    /// The bytes of the memory from an address on.
    pub fn bytes_at(&self, address: u64, length: u64) -> Option<&[u8]> {
        let extent = self.session.bytes.len() as u64;
        let place = place(self.session.base, extent, address.into(), length.into())?;
        self.session.bytes.get(place)
    }

    /// What a lookup finds now; nothing where it refuses.
    pub fn walk(&self, request: Request) -> Option<Walked<'_>> {
        walk(&self.session.registers, self.session.memory(), request).ok()
    }

    /// How far a lookup goes now: how many descriptors it fetches, and one more if it translates.
    pub fn depth(&self, request: Request) -> usize {
        self.walk(request).map_or(0, |walked| {
            let translates = matches!(walked.answer.outcome, Outcome::Translate(_));
            walked.answer.list.len() + usize::from(translates)
        })
    }
}

// Registers and memory.

impl Bench {
    /// Sets registers and memory up and furnishes the tables for so many requests, which it gives.
    pub fn set_up(&mut self, count: u64) -> Vec<Request> {
        let mut registers = self.choose_registers();
        let oas_size = registers.oas_size().unwrap_or(52);
        let (base, length) = self.choose_extent(oas_size);
        let within = self.random.pick(&[0, 0, length / 4, length / 2, length]);
        registers.strtab_base |= ADDR.address(base + self.random.below(within));
        for register in Register::ALL {
            let value = registers.get(register);
            if value != self.session.registers.get(register) {
                self.set(register, value);
            }
        }
        self.say(Command::Memory { base, length });
        if self.random.percent(15) {
            let address = self.random.word();
            let (count, bytes) = (0, vec![0xff]);
            self.say(Command::Fill {
                address,
                count,
                bytes,
            });
        }
        let mut requests: Vec<Request> = Vec::new();
        for _ in 0..count {
            let stream = match requests.last() {
                Some(last) if self.random.percent(35) => last.stream,
                _ => self.choose_stream(),
            };
            let substream = self.choose_substream();
            let request = Request { stream, substream };
            self.furnish(request);
            requests.push(request);
        }
        requests
    }

    /// Registers that mostly let a lookup go far. ADDR is left to the caller.
    fn choose_registers(&mut self) -> Registers {
        let random = &mut self.random;
        let mut registers = Registers::default();
        let mut put = |register: Register, field: Field, value: u64| {
            let word = field.put(registers.get(register).into(), value);
            registers.set(register, word as u64);
        };
        put(Register::Idr0, S2P, random.below(2));
        put(Register::Idr0, S1P, u64::from(!random.percent(6)));
        let ttf = random.pick(&[2, 2, 2, 2, 2, 3, 3, 3, 3, 1]);
        put(Register::Idr0, TTF, ttf);
        put(Register::Idr0, HYP, random.below(2));
        put(Register::Idr0, CD2L, random.pick(&[1, 1, 1, 1, 0]));
        let st_level = random.pick(&[1, 1, 1, 1, 0, 2, 3]);
        put(Register::Idr0, ST_LEVEL, st_level);
        let sidsize = random.pick(&[16, 16, 16, 16, 32, 32, 32, 12, 10, 10, 8, 20, 31, 6, 1]);
        put(Register::Idr1, SIDSIZE, sidsize);
        let ssidsize = random.pick(&[8, 8, 8, 20, 20, 20, 10, 12, 16, 7, 1, 0]);
        put(Register::Idr1, SSIDSIZE, ssidsize);
        let oas = random.pick(&[0, 1, 2, 3, 4, 5, 5, 6, 6]);
        put(Register::Idr5, OAS, oas);
        for granule in [GRAN4K, GRAN16K, GRAN64K] {
            put(Register::Idr5, granule, random.pick(&[1, 1, 1, 0]));
        }
        put(Register::Cr0, SMMUEN, 1);
        put(Register::Cr2, RECINVSID, random.below(2));
        put(Register::Gbpa, ABORT, random.below(2));
        let log2size = random.pick(&[6, 7, 8, 8, 9, 10, 10, 10, 11, 12, 12, 16, 16, 20, 32, 63, 0]);
        put(Register::StrtabBaseCfg, LOG2SIZE, log2size);
        let split = random.pick(&[6, 6, 8, 8, 8, 10, 10, 10, 0, 7, 9, 31]);
        put(Register::StrtabBaseCfg, SPLIT, split);
        let fmt = random.pick(&[1, 1, 1, 1, 1, 0, 0, 2, 3]);
        put(Register::StrtabBaseCfg, FMT, fmt);
        if random.percent(25) {
            for register in Register::ALL {
                let unread = !edges::read_bits_of_register(register) as u64;
                let noise = random.word() & random.word() & unread;
                registers.set(register, registers.get(register) | noise);
            }
        }
        registers
    }

    /// A base and a length that are not refused, crowding the ends of the memory and of the OAS.
    fn choose_extent(&mut self, oas_size: u64) -> (u64, u64) {
        let random = &mut self.random;
        let length: u64 = match random.below(20) {
            0 => random.pick(&[0, 8, 63, 64, 96]),
            1..=8 => random.pick(&[
                65_535, 65_528, 65_500, 65_476, 65_472, 32_772, 32_768, 4_160, 4_100,
            ]),
            _ => 65_536,
        };
        let whole = length.div_ceil(64) * 64;
        let top = 1 << oas_size;
        let base = match random.below(12) {
            0 | 1 => 0,
            2 => random.pick(&[0x40, 0x1000, 0x1_0000, 0x12_3440]),
            3 => random.below(top) / 64 * 64,
            4 | 5 => top - whole,
            6..=8 => top - whole / 128 * 64,
            9 => (1 << 48) - whole / 128 * 64,
            _ => (1 + random.below(3)) << random.pick(&[16, 20, 28, 30]),
        };
        (base.min((1 << 52) - whole), length)
    }

    /// A StreamID whose first descriptor lies in the memory, if one is found soon.
    fn choose_stream(&mut self) -> StreamId {
        let mut stream = StreamId(0);
        for _ in 0..8 {
            stream = self.a_stream();
            let substream = None;
            let walked = self.walk(Request { stream, substream });
            if walked.is_some_and(|walked| !walked.answer.list.is_empty()) {
                break;
            }
        }
        stream
    }

    /// Any StreamID in range, or the one whose first descriptor lies at an address of the memory.
    fn a_stream(&mut self) -> StreamId {
        let registers = self.session.registers;
        let streams = 1 << registers.effective_log2size().min(32);
        let split = registers.effective_split();
        let zero = Request {
            stream: StreamId(0),
            substream: None,
        };
        let tries = self.walk(zero).map(|walked| walked.trace.tries);
        let first = tries.and_then(|tries| tries.first().copied());
        let target = self.an_address() + self.random.pick(&[0, 0, 8, 56]);
        let distance = first.and_then(|first| target.checked_sub(first.address));
        let distance = distance.unwrap_or(0);
        let any = self.random.below(streams);
        let stream = if first.is_some_and(|first| first.kind == Kind::L1std) {
            let table = self.random.pick(&[any >> split, distance / 8]);
            (table << split) + self.some_low_bits(split)
        } else {
            self.random.pick(&[any, distance / 64])
        };
        StreamId(stream.min(streams - 1) as u32)
    }

    fn some_low_bits(&mut self, split: u64) -> u64 {
        let all = 1 << split;
        let few = self.random.below(8);
        let any = self.random.below(all);
        self.random.pick(&[0, 0, 1, few, few, any, all - 1])
    }

    fn choose_substream(&mut self) -> Option<SubstreamId> {
        if self.random.percent(45) {
            return None;
        }
        let all = 1 << self.session.registers.ssidsize();
        let any = self.random.below(all);
        let choices = [0, 1, 3, 63, 64, 70, 255, 1023, 1024, all - 1, any, any];
        Some(SubstreamId(self.random.pick(&choices).min(all - 1)))
    }

    /// An address in the memory, a multiple of 64, mostly one below the end of the OAS.
    fn an_address(&mut self) -> u64 {
        let base = self.session.base;
        let length = self.session.bytes.len() as u64;
        let top = 1 << self.session.registers.oas_size().unwrap_or(52);
        let below_top = u64::saturating_sub(top, base).clamp(1, length.max(1));
        let reach = if self.random.percent(95) {
            below_top
        } else {
            length
        };
        base + self.random.below(reach) / 64 * 64
    }
}

// Tables.

impl Bench {
    /// Writes the descriptors that the request's lookup meets, as long as they are blank.
    pub fn furnish(&mut self, request: Request) {
        for _ in 0..4 {
            let tries = self.walk(request).map(|walked| walked.trace.tries);
            let Some(last) = tries.as_ref().and_then(|tries| tries.last()) else {
                return;
            };
            let (kind, address) = (last.kind, last.address);
            let met = self.bytes_at(address, kind.length());
            if !met.is_some_and(|bytes| bytes.iter().all(|byte| *byte == 0)) {
                return;
            }
            let bytes = self.fitting(kind, address, request);
            self.write_one_or_some(kind, address, bytes);
        }
    }

    /// A descriptor with which the lookup goes on from this blank one, if one is found soon.
    fn fitting(&mut self, kind: Kind, address: u64, request: Request) -> Vec<u8> {
        let blank = vec![0; kind.length() as usize];
        let depth = self.depth(request);
        let mut bytes = Vec::new();
        for _ in 0..8 {
            bytes = self.candidate(kind, request);
            self.overlay(address, &bytes);
            let goes_on = self.walk(request).is_some_and(|walked| {
                let aborts = matches!(walked.answer.outcome, Outcome::Abort(_));
                !aborts || walked.answer.list.len() > depth
            });
            self.overlay(address, &blank);
            if goes_on {
                break;
            }
        }
        bytes
    }

    /// Puts bytes into the memory for a trial, without a line.
    fn overlay(&mut self, address: u64, bytes: &[u8]) {
        let extent = self.session.bytes.len() as u64;
        let length = bytes.len() as u128;
        let place = place(self.session.base, extent, address.into(), length);
        if let Some(target) = place.and_then(|place| self.session.bytes.get_mut(place)) {
            target.copy_from_slice(bytes);
        }
    }

    /// Writes a descriptor, now and then with some like it after it.
    fn write_one_or_some(&mut self, kind: Kind, address: u64, bytes: Vec<u8>) {
        let long = matches!(kind, Kind::Ste | Kind::Cd);
        if long && self.random.percent(20) {
            let count = 2 + self.random.below(5);
            let mut bytes = bytes.clone();
            bytes.resize(kind.length() as usize, 0);
            let fill = Command::Fill {
                address,
                count,
                bytes,
            };
            if self.say(fill) {
                return;
            }
        }
        self.say(Command::Write { address, bytes });
    }

    fn candidate(&mut self, kind: Kind, request: Request) -> Vec<u8> {
        let mut word = match kind {
            Kind::L1std => self.an_l1std(request),
            Kind::Ste => self.an_ste(request),
            Kind::L1cd => self.an_l1cd(request),
            Kind::Cd => self.a_cd(),
        };
        if self.random.percent(15) {
            let noise = u128::from(self.random.word()) << 64 | u128::from(self.random.word());
            word |= noise & !edges::read_bits_of_descriptor(kind);
        }
        let mut bytes = word.to_le_bytes().to_vec();
        match kind {
            Kind::L1std | Kind::L1cd => bytes.truncate(8),
            Kind::Ste | Kind::Cd if self.random.percent(12) => {
                bytes.resize_with(64, || self.random.word() as u8);
            }
            Kind::Ste | Kind::Cd => {}
        }
        bytes
    }

    fn an_l1std(&mut self, request: Request) -> u128 {
        let split = self.session.registers.effective_split();
        let low_bits = u64::from(request.stream.0) % (1 << split);
        let least = bits_needed(low_bits) + 1;
        let any = least + self.random.below(split + 2 - least);
        let span = self.random.pick(&[least, least, any, split + 1]);
        let l2ptr = self.an_address();
        compose(&[(l1std::SPAN, span), (l1std::L2PTR, l2ptr >> 6)])
    }

    fn an_ste(&mut self, request: Request) -> u128 {
        let registers = self.session.registers;
        let given = request.substream.map(|given| given.0);
        let index = given.unwrap_or(0);
        let ssidsize = registers.ssidsize();
        let least = bits_needed(index).max(1);
        let choices = match given {
            Some(_) => [least, least, least + 1, ssidsize, ssidsize],
            None => [0, 0, least, ssidsize, ssidsize],
        };
        let s1cdmax = self.random.pick(&choices).min(ssidsize);
        let config = match self.random.below(20) {
            0 => 4,
            1 => self.random.below(8),
            2 => self.random.pick(&[5, 5, 6, 7]),
            _ => 5,
        };
        let s1fmt = self.random.pick(&[0, 0, 1, 1, 2, 2, 3]);
        let s1dss = match given {
            Some(0) => self.random.pick(&[0, 1, 1, 2]),
            Some(_) => self.random.below(3),
            None => self.random.pick(&[0, 1, 2, 2, 2, 2]),
        };
        let strw = match registers.hyp() {
            0 => self.random.below(4),
            _ => self.random.pick(&[0, 0, 0, 0, 0, 0, 0, 0, 0, 2]),
        };
        let distance = match s1fmt {
            _ if s1cdmax == 0 => 0,
            1 => (index >> 6) * 8,
            2 => (index >> 10) * 8,
            _ => index * 64,
        };
        let pointer = self.an_address().wrapping_sub(distance);
        compose(&[
            (ste::V, 1),
            (ste::CONFIG, config),
            (ste::S1FMT, s1fmt),
            (ste::S1CONTEXTPTR, pointer >> 6),
            (ste::S1CDMAX, s1cdmax),
            (ste::S1DSS, s1dss),
            (ste::STRW, strw),
        ])
    }

    fn an_l1cd(&mut self, request: Request) -> u128 {
        let index = request.substream.map_or(0, |given| given.0);
        let low_bits = index % self.random.pick(&[64, 1024]);
        let pointer = self.an_address().wrapping_sub(low_bits * 64);
        compose(&[(l1cd::V, 1), (l1cd::L2PTR, pointer >> 12)])
    }

    fn a_cd(&mut self) -> u128 {
        let registers = self.session.registers;
        let oas_size = registers.oas_size().unwrap_or(52);
        let random = &mut self.random;
        let ips = random.below(8);
        let limit = 1u64 << effective_ips(ips, oas_size);
        let any = random.below(limit);
        let ttb0 = random.pick(&[limit - 16, 0, any, any]);
        let granules = [registers.gran4k(), registers.gran64k(), registers.gran16k()];
        let any = random.below(3);
        let tg0 = (0..3).map(|by| (any + by) % 3);
        let tg0 = tg0.into_iter().find(|tg0| granules[*tg0 as usize] == 1);
        compose(&[
            (cd::T0SZ, random.pick(&[16, 17, 25, 32, 38, 39])),
            (cd::TG0, tg0.unwrap_or(0)),
            (cd::EPD0, random.pick(&[0, 0, 0, 0, 0, 1])),
            (cd::V, 1),
            (cd::IPS, ips),
            (cd::AA64, random.pick(&[1, 1, 1, 1, 1, 1, 1, 0])),
            (cd::ASID, random.below(1 << 16)),
            (cd::TTB0, ttb0 >> cd::TTB0_LOWEST_ADDRESS_BIT),
        ])
    }
}

/// A word made of fields.
fn compose(fields: &[(Field, u64)]) -> u128 {
    let fields = fields.iter();
    fields.fold(0, |word, (field, value)| field.put(word, *value))
}

/// How many bits a number takes.
fn bits_needed(number: u64) -> u64 {
    u64::from(u64::BITS - number.leading_zeros())
}
