//! The four kinds of descriptor and their fields.
//! Follows the rules' field lists: L1STD in "From StreamID to STE" 5 and 6, STE in "Reading the STE",
//! L1CD and CD in "From SubstreamID to CD". A descriptor is taken as its first 16 bytes, little-endian.

use crate::field::{bit, field, Field};

/// What kind of descriptor a fetch is for.
#[derive(Clone, Copy, Debug, PartialEq, Eq)]
pub enum Kind {
    L1std,
    Ste,
    L1cd,
    Cd,
}

impl Kind {
    /// 8 bytes for L1STD and L1CD, 64 for STE and CD.
    pub fn length(self) -> u64 {
        match self {
            Kind::L1std | Kind::L1cd => 8,
            Kind::Ste | Kind::Cd => 64,
        }
    }
}

pub mod l1std {
    use super::*;
    pub const SPAN: Field = field(4, 0);
    pub const L2PTR: Field = field(55, 6);
}

pub mod ste {
    use super::*;
    pub const V: Field = bit(0);
    pub const CONFIG: Field = field(3, 1);
    pub const S1FMT: Field = field(5, 4);
    pub const S1CONTEXTPTR: Field = field(55, 6);
    pub const S1CDMAX: Field = field(63, 59);
    pub const S1DSS: Field = field(65, 64);
    pub const STRW: Field = field(95, 94);
}

pub mod l1cd {
    use super::*;
    pub const V: Field = bit(0);
    pub const L2PTR: Field = field(55, 12);
}

pub mod cd {
    use super::*;
    pub const T0SZ: Field = field(5, 0);
    pub const TG0: Field = field(7, 6);
    pub const EPD0: Field = bit(14);
    pub const V: Field = bit(31);
    pub const IPS: Field = field(34, 32);
    pub const AA64: Field = bit(41);
    pub const ASID: Field = field(63, 48);
    pub const TTB0: Field = field(119, 68);
    /// "TTB0 [119:68] as address bits [55:4]."
    pub const TTB0_LOWEST_ADDRESS_BIT: u32 = 4;
}

/// The fields of an L1STD.
#[derive(Clone, Copy, Debug)]
pub struct L1std {
    pub span: u64,
    pub l2ptr: u64,
}

impl L1std {
    pub fn read(word: u128) -> L1std {
        L1std {
            span: l1std::SPAN.of(word),
            l2ptr: l1std::L2PTR.address(word),
        }
    }
}

/// The fields of an STE.
#[derive(Clone, Copy, Debug)]
pub struct Ste {
    pub v: u64,
    pub config: u64,
    pub s1fmt: u64,
    pub s1contextptr: u64,
    pub s1cdmax: u64,
    pub s1dss: u64,
    pub strw: u64,
}

impl Ste {
    pub fn read(word: u128) -> Ste {
        Ste {
            v: ste::V.of(word),
            config: ste::CONFIG.of(word),
            s1fmt: ste::S1FMT.of(word),
            s1contextptr: ste::S1CONTEXTPTR.address(word),
            s1cdmax: ste::S1CDMAX.of(word),
            s1dss: ste::S1DSS.of(word),
            strw: ste::STRW.of(word),
        }
    }

    /// "S1Fmt 1 and 2 put the low 6 and 10 bits in the leaf." S1Fmt 0 has no leaf.
    pub fn leaf_bits(&self) -> Option<u64> {
        match self.s1fmt {
            1 => Some(6),
            2 => Some(10),
            _ => None,
        }
    }
}

/// The fields of an L1CD.
#[derive(Clone, Copy, Debug)]
pub struct L1cd {
    pub v: u64,
    pub l2ptr: u64,
}

impl L1cd {
    pub fn read(word: u128) -> L1cd {
        L1cd {
            v: l1cd::V.of(word),
            l2ptr: l1cd::L2PTR.address(word),
        }
    }
}

/// The fields of a CD.
#[derive(Clone, Copy, Debug)]
pub struct Cd {
    pub t0sz: u64,
    pub tg0: u64,
    pub epd0: u64,
    pub v: u64,
    pub ips: u64,
    pub aa64: u64,
    pub asid: u64,
    pub ttb0: u64,
}

impl Cd {
    pub fn read(word: u128) -> Cd {
        Cd {
            t0sz: cd::T0SZ.of(word),
            tg0: cd::TG0.of(word),
            epd0: cd::EPD0.of(word),
            v: cd::V.of(word),
            ips: cd::IPS.of(word),
            aa64: cd::AA64.of(word),
            asid: cd::ASID.of(word),
            ttb0: cd::TTB0.of(word) << cd::TTB0_LOWEST_ADDRESS_BIT,
        }
    }
}
