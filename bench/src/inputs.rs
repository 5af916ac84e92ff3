//! What is looked up and asked, the same for every side.

use crate::ordinary::{Registers, Request};
use llobatelh::MEMORY_MOST;
use oracle::scripts::{Bench, Random};

/// Registers, a memory, and requests.
pub struct Input {
    pub registers: Registers,
    pub base: u64,
    pub memory: Vec<u8>,
    pub requests: Vec<Request>,
}

const SEED: u64 = 20260301;
const BASE: u64 = 0x8000_0000;

/// A two-level Stream table (SPLIT 8) and two-level CD tables in a memory of 65,536 bytes at 0x80000000. Streams 0 to 63 translate for
/// SubstreamIDs 0 to 255; streams 256 to 319 bypass.
fn tables() -> Input {
    let mut memory = vec![0; MEMORY_MOST];
    let mut put = |at: u64, word: u64| {
        memory[at as usize..at as usize + 8].copy_from_slice(&word.to_le_bytes());
    };
    put(0x8000, BASE | 7);
    put(0x8008, (BASE + 0x1000) | 7);
    for i in 0..64 {
        // Config 101, S1Fmt 1, S1ContextPtr, S1CDMax 8; and Config 100
        put(64 * i, 1 | 0b101 << 1 | 1 << 4 | (BASE + 0xC000) | 8 << 59);
        put(0x1000 + 64 * i, 0x09);
    }
    for leaf in 0..4 {
        put(0xC000 + 8 * leaf, (BASE + 0x4000 + 0x1000 * leaf) | 1);
    }
    for i in 0..256 {
        // T0SZ 25, TG0 0, V, IPS 5, AA64, ASID; TTB0
        put(0x4000 + 64 * i, 25 | 1 << 31 | 5 << 32 | 1 << 41 | i << 48);
        put(0x4008 + 64 * i, 0x12_3450_0000 + 0x1000 * i);
    }
    Input {
        registers: Registers {
            idr0: 1 << 27 | 1 << 19 | 2 << 2 | 1 << 1,
            idr1: 16 | 8 << 6,
            idr5: 5 | 7 << 4,
            cr0: 1,
            cr2: 2,
            gbpa: 0,
            strtab_base: BASE + 0x8000,
            strtab_base_cfg: 0x1020A,
        },
        base: BASE,
        memory,
        requests: Vec::new(),
    }
}

/// So many requests that translate: four descriptors each.
pub fn translating(count: u64) -> Input {
    let mut random = Random::new(SEED, 1);
    let mut request = |_| Request {
        stream: random.below(64) as u32,
        substream: Some(random.below(256)),
    };
    Input {
        requests: (0..count).map(&mut request).collect(),
        ..tables()
    }
}

/// So many requests that bypass: two descriptors each.
pub fn bypassing(count: u64) -> Input {
    let mut random = Random::new(SEED, 2);
    let mut request = |_| Request {
        stream: 256 + random.below(64) as u32,
        substream: None,
    };
    Input {
        requests: (0..count).map(&mut request).collect(),
        ..tables()
    }
}

/// `count` different requests that translate, from the `first` on, and the same in other orders.
pub fn distinct(first: u64, count: u64, passes: u64) -> Input {
    let mut random = Random::new(SEED, 3);
    let mut requests = Vec::new();
    for _ in 0..passes {
        let mut numbers: Vec<u64> = (first..first + count).collect();
        for i in (1..numbers.len()).rev() {
            numbers.swap(i, random.below(i as u64 + 1) as usize);
        }
        requests.extend(numbers.into_iter().map(|number| Request {
            stream: (number % 64) as u32,
            substream: Some(number % 256),
        }));
    }
    Input {
        requests,
        ..tables()
    }
}

/// Registers, tables and requests of every kind, as the second program's scripts have them; each with a memory of its own.
pub fn mixed(count: u64) -> Vec<Input> {
    let one = |index| {
        let mut bench = Bench::new(Random::new(SEED, index), false);
        let mut requests = bench.set_up(12);
        let furnished = requests.clone();
        for request in furnished {
            // Neighbours, which mostly end early.
            let mut other = request;
            other.stream.0 = other.stream.0.wrapping_add(1);
            requests.push(other);
        }
        let session = &bench.session;
        let r = session.registers;
        Input {
            registers: Registers {
                idr0: r.idr0,
                idr1: r.idr1,
                idr5: r.idr5,
                cr0: r.cr0,
                cr2: r.cr2,
                gbpa: r.gbpa,
                strtab_base: r.strtab_base,
                strtab_base_cfg: r.strtab_base_cfg,
            },
            base: session.base,
            memory: session.bytes.clone(),
            requests: requests
                .into_iter()
                .map(|request| Request {
                    stream: request.stream.0,
                    substream: request.substream.map(|given| given.0),
                })
                .collect(),
        }
    };
    (0..count).map(one).collect()
}
