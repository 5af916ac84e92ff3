//! The lookup.

use crate::answer::{Answer, Event};
use crate::calls;
use crate::header;
use crate::ids::Request;
use crate::memory::Memory;
use crate::refusal::Refusal;
use crate::registers::Registers;

/// How many bytes an STE has.
pub const STE_BYTES: usize = header::STE_BYTES as usize;

/// A new lookup of a request. Refuses with [`Refusal::Registers`], [`Refusal::Memory`] or [`Refusal::Substream`], in this order.
///
/// ```
/// use llobatelh::{lookup, Memory, Outcome, Registers, Request, StreamId};
///
/// // The SMMU is off, and GBPA.ABORT is 0: every stream bypasses, and nothing is read.
/// let memory = Memory { base: 0, bytes: &[] };
/// let answer = lookup(&Registers::default(), memory, Request::without(StreamId::from(0)))?;
/// assert_eq!(answer.outcome(), Outcome::GlobalBypass);
/// assert!(answer.list().is_empty());
/// # Ok::<(), llobatelh::Refusal>(())
/// ```
#[inline]
pub fn lookup(registers: &Registers, memory: Memory, request: Request) -> Result<Answer, Refusal> {
    calls::new_lookup(registers, memory, request)
}

/// The STE that a request reaches, as that very part of the lent memory, whatever it holds; none where no STE is fetched, or where the
/// lookup refuses.
///
/// ```
/// use llobatelh::{ste_part, Memory, Registers, Request, StreamId};
///
/// let registers = Registers { idr1: 16, idr5: 5, cr0: 1, ..Registers::default() };
/// let bytes = [7; 64];
/// let memory = Memory { base: 0, bytes: &bytes };
/// let part = ste_part(&registers, memory, Request::without(StreamId::from(0)));
/// assert!(core::ptr::eq(part.unwrap(), &bytes));
/// assert_eq!(ste_part(&registers, memory, Request::without(StreamId::from(1))), None);
/// ```
#[inline]
pub fn ste_part<'a>(
    registers: &Registers,
    memory: Memory<'a>,
    request: Request,
) -> Option<&'a [u8; STE_BYTES]> {
    let words = calls::registers(registers);
    match calls::ste_part(words, registers.strtab_base, memory, request) {
        header::NO_PART => None,
        place => memory.bytes.get(place as usize..)?.first_chunk(),
    }
}

/// Whether these registers have an abort's event recorded: all are, but C_BAD_STREAMID only if CR2.RECINVSID is 1.
///
/// ```
/// use llobatelh::{is_recorded, Event, Registers};
///
/// let mut registers = Registers::default();
/// assert!(is_recorded(&registers, Event::CBadSte));
/// assert!(!is_recorded(&registers, Event::CBadStreamid));
/// registers.cr2 = 2;
/// assert!(is_recorded(&registers, Event::CBadStreamid));
/// ```
#[inline]
pub fn is_recorded(registers: &Registers, event: Event) -> bool {
    let words = calls::registers(registers);
    calls::is_recorded(words, registers.strtab_base, event.number().into()) == 1
}
