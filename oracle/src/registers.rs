//! The registers that the monitor hands over and the fields that are read.
//! Follows RULES, "What the monitor hands over", and the fields of STRTAB_BASE_CFG in "From StreamID to STE".

use crate::field::{bit, field, Field};

/// The eight registers, as they were read.
#[derive(Clone, Copy, Debug, Default, PartialEq, Eq)]
pub struct Registers {
    pub idr0: u32,
    pub idr1: u32,
    pub idr5: u32,
    pub cr0: u32,
    pub cr2: u32,
    pub gbpa: u32,
    pub strtab_base: u64,
    pub strtab_base_cfg: u32,
}

// IDR0.
pub const S2P: Field = bit(0);
pub const S1P: Field = bit(1);
pub const TTF: Field = field(3, 2);
pub const HYP: Field = bit(9);
pub const CD2L: Field = bit(19);
pub const ST_LEVEL: Field = field(28, 27);
// IDR1.
pub const SIDSIZE: Field = field(5, 0);
pub const SSIDSIZE: Field = field(10, 6);
// IDR5.
pub const OAS: Field = field(2, 0);
pub const GRAN4K: Field = bit(4);
pub const GRAN16K: Field = bit(5);
pub const GRAN64K: Field = bit(6);
// CR0, CR2, GBPA.
pub const SMMUEN: Field = bit(0);
pub const RECINVSID: Field = bit(1);
pub const ABORT: Field = bit(20);
// STRTAB_BASE.
pub const ADDR: Field = field(55, 6);
// STRTAB_BASE_CFG.
pub const LOG2SIZE: Field = field(5, 0);
pub const SPLIT: Field = field(10, 6);
pub const FMT: Field = field(17, 16);

impl Registers {
    pub fn s2p(&self) -> u64 {
        S2P.of(self.idr0)
    }
    pub fn s1p(&self) -> u64 {
        S1P.of(self.idr0)
    }
    pub fn ttf(&self) -> u64 {
        TTF.of(self.idr0)
    }
    pub fn hyp(&self) -> u64 {
        HYP.of(self.idr0)
    }
    pub fn cd2l(&self) -> u64 {
        CD2L.of(self.idr0)
    }
    pub fn st_level(&self) -> u64 {
        ST_LEVEL.of(self.idr0)
    }
    pub fn sidsize(&self) -> u64 {
        SIDSIZE.of(self.idr1)
    }
    pub fn ssidsize(&self) -> u64 {
        SSIDSIZE.of(self.idr1)
    }
    pub fn oas(&self) -> u64 {
        OAS.of(self.idr5)
    }
    pub fn gran4k(&self) -> u64 {
        GRAN4K.of(self.idr5)
    }
    pub fn gran16k(&self) -> u64 {
        GRAN16K.of(self.idr5)
    }
    pub fn gran64k(&self) -> u64 {
        GRAN64K.of(self.idr5)
    }
    pub fn smmuen(&self) -> u64 {
        SMMUEN.of(self.cr0)
    }
    pub fn recinvsid(&self) -> u64 {
        RECINVSID.of(self.cr2)
    }
    pub fn abort(&self) -> u64 {
        ABORT.of(self.gbpa)
    }
    /// ADDR as an address: bits [55:6] in their places.
    pub fn addr(&self) -> u64 {
        ADDR.address(self.strtab_base)
    }
    pub fn log2size(&self) -> u64 {
        LOG2SIZE.of(self.strtab_base_cfg)
    }
    pub fn split(&self) -> u64 {
        SPLIT.of(self.strtab_base_cfg)
    }
    pub fn fmt(&self) -> u64 {
        FMT.of(self.strtab_base_cfg)
    }

    /// The OAS size in bits; none for OAS 7.
    pub fn oas_size(&self) -> Option<u64> {
        size_in_bits(self.oas())
    }

    /// "Effective LOG2SIZE is the smaller of LOG2SIZE and SIDSIZE."
    pub fn effective_log2size(&self) -> u64 {
        self.log2size().min(self.sidsize())
    }

    /// "SPLIT is 6, 8 or 10; any other value is 6."
    pub fn effective_split(&self) -> u64 {
        match self.split() {
            10 => 10,
            8 => 8,
            _ => 6,
        }
    }
}

/// "OAS 0 to 6 means 32, 36, 40, 42, 44, 48, 52 bits." 7 means no size.
pub fn size_in_bits(code: u64) -> Option<u64> {
    match code {
        0 => Some(32),
        1 => Some(36),
        2 => Some(40),
        3 => Some(42),
        4 => Some(44),
        5 => Some(48),
        6 => Some(52),
        _ => None,
    }
}

/// "Effective IPS is the smaller of the IPS size (coded as OAS) and the OAS size;
/// IPS 7 counts as the OAS." In bits.
pub fn effective_ips(ips: u64, oas_size: u64) -> u64 {
    size_in_bits(ips).map_or(oas_size, |size| size.min(oas_size))
}

/// One of the eight registers, by its name.
#[derive(Clone, Copy, Debug, PartialEq, Eq)]
pub enum Register {
    Idr0,
    Idr1,
    Idr5,
    Cr0,
    Cr2,
    Gbpa,
    StrtabBase,
    StrtabBaseCfg,
}

impl Register {
    pub const ALL: [Register; 8] = [
        Register::Idr0,
        Register::Idr1,
        Register::Idr5,
        Register::Cr0,
        Register::Cr2,
        Register::Gbpa,
        Register::StrtabBase,
        Register::StrtabBaseCfg,
    ];

    /// The name in a script.
    pub fn name(self) -> &'static str {
        match self {
            Register::Idr0 => "idr0",
            Register::Idr1 => "idr1",
            Register::Idr5 => "idr5",
            Register::Cr0 => "cr0",
            Register::Cr2 => "cr2",
            Register::Gbpa => "gbpa",
            Register::StrtabBase => "strtab_base",
            Register::StrtabBaseCfg => "strtab_base_cfg",
        }
    }

    /// STRTAB_BASE has 64 bits, every other register 32.
    pub fn bits(self) -> u32 {
        match self {
            Register::StrtabBase => 64,
            _ => 32,
        }
    }
}

impl Registers {
    pub fn get(&self, register: Register) -> u64 {
        match register {
            Register::Idr0 => self.idr0.into(),
            Register::Idr1 => self.idr1.into(),
            Register::Idr5 => self.idr5.into(),
            Register::Cr0 => self.cr0.into(),
            Register::Cr2 => self.cr2.into(),
            Register::Gbpa => self.gbpa.into(),
            Register::StrtabBase => self.strtab_base,
            Register::StrtabBaseCfg => self.strtab_base_cfg.into(),
        }
    }

    /// Sets a register to the low bits of `value`, as many as it has.
    pub fn set(&mut self, register: Register, value: u64) {
        match register {
            Register::Idr0 => self.idr0 = value as u32,
            Register::Idr1 => self.idr1 = value as u32,
            Register::Idr5 => self.idr5 = value as u32,
            Register::Cr0 => self.cr0 = value as u32,
            Register::Cr2 => self.cr2 = value as u32,
            Register::Gbpa => self.gbpa = value as u32,
            Register::StrtabBase => self.strtab_base = value,
            Register::StrtabBaseCfg => self.strtab_base_cfg = value as u32,
        }
    }
}
