//! What the tests share: 004's figure as RULES, "Shots on the bench", sets it up, and short ways to say things.

use oracle::answer::{Answer, Event, Outcome, Piece, Translation};
use oracle::descriptors::ste;
use oracle::field::Field;
use oracle::lookup::lookup;
use oracle::refusal::Refusal;
use oracle::registers::*;
use oracle::request::{Request, StreamId, SubstreamId};
use oracle::script::Session;

pub fn request(stream: u32, substream: Option<u64>) -> Request {
    Request {
        stream: StreamId(stream),
        substream: substream.map(SubstreamId),
    }
}

/// Sets a field of a register.
pub fn set(session: &mut Session, register: Register, field: Field, value: u64) {
    let word = field.put(session.registers.get(register).into(), value);
    session.registers.set(register, word as u64);
}

/// Writes words of 8 bytes from an address on.
pub fn put(session: &mut Session, address: u64, words: &[u64]) {
    for (place, word) in words.iter().enumerate() {
        let start = (address - session.base) as usize + 8 * place;
        session.bytes[start..start + 8].copy_from_slice(&word.to_le_bytes());
    }
}

/// Sets a field of the descriptor at an address.
pub fn put_field(session: &mut Session, address: u64, field: Field, value: u64) {
    let start = (address - session.base) as usize;
    let word = oracle::field::word(&session.bytes[start..start + 16]);
    let word = field.put(word, value);
    session.bytes[start..start + 16].copy_from_slice(&word.to_le_bytes());
}

pub fn look(session: &Session, stream: u32, substream: Option<u64>) -> Result<Answer, Refusal> {
    let request = request(stream, substream);
    lookup(&session.registers, session.memory(), request)
}

pub fn list(pieces: &[(u64, u64)]) -> Vec<Piece> {
    let pieces = pieces.iter();
    pieces
        .map(|(address, length)| Piece {
            address: *address,
            length: *length,
        })
        .collect()
}

pub fn answer(outcome: Outcome, pieces: &[(u64, u64)]) -> Result<Answer, Refusal> {
    let list = list(pieces);
    Ok(Answer { outcome, list })
}

/// An abort with an event that has no address.
pub fn abort(number: u64) -> Outcome {
    let event = Event::of(number, 0).unwrap();
    assert_eq!(event.wanted(), None);
    Outcome::Abort(event)
}

/// An abort by a fetch that failed, with the address that it wanted.
pub fn failed(number: u64, wanted: u64) -> Outcome {
    let event = Event::of(number, wanted).unwrap();
    assert_eq!(event.wanted(), Some(wanted));
    Outcome::Abort(event)
}

pub fn bypass(ste: u64) -> Outcome {
    Outcome::Bypass { ste }
}

/// 004's figure: the two-level table with its four L1STDs, and an STE of bypass in every place.
pub fn figure() -> Session {
    let mut session = Session {
        bytes: vec![0; 65_536],
        ..Session::default()
    };
    set(&mut session, Register::Cr0, SMMUEN, 1);
    set(&mut session, Register::Cr2, RECINVSID, 1);
    set(&mut session, Register::Idr0, ST_LEVEL, 1);
    set(&mut session, Register::Idr1, SIDSIZE, 16);
    set(&mut session, Register::Idr5, OAS, 5);
    session.registers.strtab_base = 0x8000;
    session.registers.strtab_base_cfg = 0x1020a;
    for address in (0..0x4040).step_by(64) {
        put(&mut session, address, &[0x09]);
    }
    let l1stds = [0x1000 | 9, 0x2f20 | 3, 0, 0x4000 | 1];
    put(&mut session, 0x8000, &l1stds);
    session
}

/// The STE of stream 768 in the figure.
pub const STE: u64 = 0x4000;
/// Its S1ContextPtr in `stage_1`.
pub const TABLE: u64 = 0xc000;
/// The L2Ptr of the L1CDs in `stage_1`.
pub const LEAF: u64 = 0xa000;
/// EPD0, V and AA64.
pub const CD_WORD: u64 = 0x200_8000_4000;

/// The figure with stage 1 at stream 768, as P11 to P14 have it.
pub fn stage_1(s1fmt: u64) -> Session {
    let mut session = figure();
    set(&mut session, Register::Idr0, S1P, 1);
    set(&mut session, Register::Idr0, CD2L, 1);
    set(&mut session, Register::Idr0, TTF, 2);
    set(&mut session, Register::Idr1, SSIDSIZE, 8);
    put(&mut session, STE, &[0x0b | TABLE]);
    put_field(&mut session, STE, ste::S1FMT, s1fmt);
    put_field(&mut session, STE, ste::S1CDMAX, 8);
    session
}

/// The translation that a CD of `CD_WORD` gives.
pub fn translation(cd: u64) -> Translation {
    Translation {
        ste: STE,
        cd,
        asid: 0,
        t0sz: 0,
        tg0: 0,
        epd0: 1,
        ips: 32,
        ttb0: 0,
    }
}
