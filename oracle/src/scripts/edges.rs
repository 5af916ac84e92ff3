//! The values of each field that stand at a boundary of a rule.

use crate::descriptors::{cd, l1cd, l1std, ste, Kind};
use crate::field::Field;
use crate::registers::*;

const BIT: &[u64] = &[0, 1];
const TWO_BITS: &[u64] = &[0, 1, 2, 3];
const THREE_BITS: &[u64] = &[0, 1, 2, 3, 4, 5, 6, 7];

/// The fields of the registers. ADDR is changed as a pointer.
pub const OF_REGISTERS: &[(Register, Field, &[u64])] = &[
    (Register::Idr0, S2P, BIT),
    (Register::Idr0, S1P, BIT),
    (Register::Idr0, TTF, TWO_BITS),
    (Register::Idr0, HYP, BIT),
    (Register::Idr0, CD2L, BIT),
    (Register::Idr0, ST_LEVEL, TWO_BITS),
    (
        Register::Idr1,
        SIDSIZE,
        &[0, 1, 5, 6, 7, 8, 9, 10, 11, 16, 31, 32, 33, 63],
    ),
    (
        Register::Idr1,
        SSIDSIZE,
        &[0, 1, 5, 6, 7, 8, 9, 10, 11, 19, 20, 21, 31],
    ),
    (Register::Idr5, OAS, THREE_BITS),
    (Register::Idr5, GRAN4K, BIT),
    (Register::Idr5, GRAN16K, BIT),
    (Register::Idr5, GRAN64K, BIT),
    (Register::Cr0, SMMUEN, BIT),
    (Register::Cr2, RECINVSID, BIT),
    (Register::Gbpa, ABORT, BIT),
    (
        Register::StrtabBaseCfg,
        LOG2SIZE,
        &[0, 1, 5, 6, 7, 8, 9, 10, 11, 12, 16, 31, 32, 33, 63],
    ),
    (
        Register::StrtabBaseCfg,
        SPLIT,
        &[0, 5, 6, 7, 8, 9, 10, 11, 31],
    ),
    (Register::StrtabBaseCfg, FMT, TWO_BITS),
];

/// The fields of a descriptor. Pointers are changed apart.
pub fn of_descriptor(kind: Kind) -> &'static [(Field, &'static [u64])] {
    match kind {
        Kind::L1std => &[(
            l1std::SPAN,
            &[0, 1, 2, 5, 6, 7, 8, 9, 10, 11, 12, 13, 16, 31],
        )],
        Kind::Ste => &[
            (ste::V, BIT),
            (ste::CONFIG, THREE_BITS),
            (ste::S1FMT, TWO_BITS),
            (
                ste::S1CDMAX,
                &[0, 1, 2, 5, 6, 7, 8, 9, 10, 11, 12, 16, 19, 20, 21, 31],
            ),
            (ste::S1DSS, TWO_BITS),
            (ste::STRW, TWO_BITS),
        ],
        Kind::L1cd => &[(l1cd::V, BIT)],
        Kind::Cd => &[
            (cd::T0SZ, &[0, 15, 16, 17, 38, 39, 40, 63]),
            (cd::TG0, TWO_BITS),
            (cd::EPD0, BIT),
            (cd::V, BIT),
            (cd::IPS, THREE_BITS),
            (cd::AA64, BIT),
            (cd::ASID, &[0, 1, 0xff, 0x100, 0x7fff, 0xffff]),
        ],
    }
}

/// The pointer in a descriptor.
pub fn pointer_of(kind: Kind) -> Field {
    match kind {
        Kind::L1std => l1std::L2PTR,
        Kind::Ste => ste::S1CONTEXTPTR,
        Kind::L1cd => l1cd::L2PTR,
        Kind::Cd => cd::TTB0,
    }
}

/// The bits of a descriptor's first 16 bytes that belong to a field of the rules.
pub fn read_bits_of_descriptor(kind: Kind) -> u128 {
    let fields = of_descriptor(kind).iter().map(|(field, _)| field.mask());
    fields.fold(pointer_of(kind).mask(), |all, mask| all | mask)
}

/// The bits of a register that belong to a field of the rules.
pub fn read_bits_of_register(register: Register) -> u128 {
    let of_it = OF_REGISTERS.iter().filter(|(of, _, _)| *of == register);
    let start = match register {
        Register::StrtabBase => ADDR.mask(),
        _ => 0,
    };
    of_it.fold(start, |all, (_, field, _)| all | field.mask())
}
