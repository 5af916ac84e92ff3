//! The registers.

use crate::header;
use core::mem::offset_of;

/// The SMMU's registers, as they were read. Reserved bits are not looked at.
///
/// Those of 32 bits stand first and in the header's order, as the calls want them: they are lent as they stand, and nothing is copied.
#[derive(Clone, Copy, Debug, Default, PartialEq, Eq, Hash)]
#[repr(C)]
pub struct Registers {
    /// SMMU_IDR0.
    pub idr0: u32,
    /// SMMU_IDR1.
    pub idr1: u32,
    /// SMMU_IDR5.
    pub idr5: u32,
    /// SMMU_CR0.
    pub cr0: u32,
    /// SMMU_CR2.
    pub cr2: u32,
    /// SMMU_GBPA.
    pub gbpa: u32,
    /// SMMU_STRTAB_BASE_CFG.
    pub strtab_base_cfg: u32,
    /// SMMU_STRTAB_BASE, which has 64 bits.
    pub strtab_base: u64,
}

/// How many registers of 32 bits there are.
pub const REGISTERS: usize = header::REGISTERS as usize;

// `calls::registers` stands on these.
const _: () = {
    assert!(offset_of!(Registers, idr0) == 4 * header::IDR0 as usize);
    assert!(offset_of!(Registers, idr1) == 4 * header::IDR1 as usize);
    assert!(offset_of!(Registers, idr5) == 4 * header::IDR5 as usize);
    assert!(offset_of!(Registers, cr0) == 4 * header::CR0 as usize);
    assert!(offset_of!(Registers, cr2) == 4 * header::CR2 as usize);
    assert!(offset_of!(Registers, gbpa) == 4 * header::GBPA as usize);
    assert!(offset_of!(Registers, strtab_base_cfg) == 4 * header::STRTAB_BASE_CFG as usize);
    assert!(offset_of!(Registers, strtab_base) >= 4 * REGISTERS);
};
