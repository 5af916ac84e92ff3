//! A script with histories of books: asks, edits with their notice and without it, notices at the ends of
//! pieces, full books, struck and reused slots, books opened again, reports.

use super::bench::Bench;
use super::changes::{aim_outside, change, edit, misdirect, take_back};
use crate::answer::Piece;
use crate::registers::{Register, RECINVSID};
use crate::request::{Request, StreamId, SubstreamId};
use crate::script::Command;

const HISTORIES: usize = 2;
const STEPS: usize = 55;
const END: u64 = 1 << 52;

/// Writes the script.
pub fn write(bench: &mut Bench) {
    if bench.random.percent(40) {
        before_opening(bench);
    }
    for _ in 0..HISTORIES {
        history(bench);
    }
}

/// What can be said to a book whose words are all 0.
fn before_opening(bench: &mut Bench) {
    let stream = StreamId(bench.random.below(300) as u32);
    let substream = bench.random.pick(&[None, Some(SubstreamId(1 << 20))]);
    bench.say(Command::Ask(Request { stream, substream }));
    let length = bench.random.pick(&[0, 1, END + 1]);
    bench.say(Command::Notice { start: 0, length });
    bench.say(Command::Report);
}

/// One setting of registers and memory, a book opened on it, and what becomes of it.
fn history(bench: &mut Bench) {
    let slots = bench.random.pick(&[1, 2, 3, 4, 5, 8, 16, 33, 63, 64, 64]);
    let count = 6 + bench.random.below(7);
    let furnished = bench.set_up(count);
    let pool = pool(bench, &furnished, slots);
    if bench.random.percent(25) {
        refused_open(bench, &pool);
    }
    bench.say(Command::Open { slots });
    if bench.random.percent(60) {
        for request in &pool {
            bench.say(Command::Ask(*request));
        }
        bench.say(Command::Report);
    }
    for _ in 0..STEPS {
        step(bench, &pool, slots);
    }
    bench.say(Command::Report);
}

/// A few more requests than slots: the furnished ones, and their neighbours.
fn pool(bench: &mut Bench, furnished: &[Request], slots: u64) -> Vec<Request> {
    let mut pool = furnished.to_vec();
    for by in 1.. {
        if pool.len() as u64 > slots + 3 {
            break;
        }
        let mut request = bench.random.pick(furnished);
        match bench.random.below(4) {
            0 => request.substream = Some(SubstreamId(by)),
            1 => request.substream = bench.random.pick(&[None, Some(SubstreamId(0))]),
            _ => request.stream = StreamId(request.stream.0.wrapping_add(by as u32)),
        }
        if !pool.contains(&request) {
            pool.push(request);
        }
    }
    pool
}

fn step(bench: &mut Bench, pool: &[Request], slots: u64) {
    let request = bench.random.pick(pool);
    match bench.random.below(100) {
        0..=31 => {
            bench.say(Command::Ask(request));
        }
        32..=35 => misdirect_and_ask(bench, request),
        36..=40 => ask_at_an_edge(bench, request),
        41 => {
            let substream = bench.random.pick(&[(1 << 20) - 1, 1 << 20, u64::MAX]);
            let substream = Some(SubstreamId(substream));
            bench.say(Command::Ask(Request {
                substream,
                ..request
            }));
        }
        42..=53 => edit_and_ask(bench, request, true),
        54..=61 => edit_and_ask(bench, request, false),
        62..=79 => notice_near_a_piece(bench),
        80..=82 => notice_at_an_edge(bench),
        83..=87 => {
            bench.say(Command::Report);
        }
        88 => open_again(bench, slots),
        89 => refused_open(bench, pool),
        90..=92 => other_registers(bench, request),
        93..=94 => other_memory(bench, pool, slots),
        95..=97 => {
            bench.say(Command::Lookup(request));
        }
        _ => {
            bench.say(Command::Part(request));
        }
    }
}

/// Asks for a request that a change at an edge leads to, or with a fetch that is aimed at a place where it fails.
fn ask_at_an_edge(bench: &mut Bench, request: Request) {
    let mut changed = request;
    let back = match bench.random.percent(60) {
        true => change(bench, &mut changed),
        false => {
            let place = bench.random.below(4) as usize;
            aim_outside(bench, &mut changed, place)
        }
    };
    bench.say(Command::Ask(changed));
    take_back(bench, back);
}

/// Makes an edit, gives its notice or not, and asks for the request.
fn edit_and_ask(bench: &mut Bench, request: Request, with_notice: bool) {
    let Some(back) = edit(bench, request) else {
        return;
    };
    if with_notice {
        notice_of(bench, &back);
    }
    bench.say(Command::Ask(request));
    if bench.random.percent(60) {
        bench.say(back.clone());
        if with_notice {
            notice_of(bench, &back);
        }
    }
}

/// Points out of the memory for a descriptor of the request, and then elsewhere out of it, and asks each time: two answers that
/// can differ in the address alone. The notice is given, or left out after the second edit.
fn misdirect_and_ask(bench: &mut Bench, request: Request) {
    let deepest = bench.depth(request).max(1) as u64;
    let place = 1 + bench.random.below(deepest.min(3)) as usize;
    let mut back = Vec::new();
    for with_notice in [true, bench.random.percent(70)] {
        let Some(edit) = misdirect(bench, request, place) else {
            continue;
        };
        if with_notice {
            notice_of(bench, &edit);
        }
        bench.say(Command::Ask(request));
        back.push(edit);
    }
    if bench.random.percent(30) {
        bench.say(Command::Report);
    }
    for edit in back.into_iter().rev() {
        bench.say(edit.clone());
        notice_of(bench, &edit);
    }
}

/// The notice of an edit.
fn notice_of(bench: &mut Bench, edit: &Command) {
    if let Command::Write { address, bytes } = edit {
        let (start, length) = (*address, bytes.len() as u64);
        bench.say(Command::Notice { start, length });
    }
}

/// A notice of one byte, or of a run, at an end of a piece that the book holds, in it or just outside.
fn notice_near_a_piece(bench: &mut Bench) {
    let held = bench.session.book.held_slots();
    let lists: Vec<Vec<Piece>> = held.map(|(_, held)| held.answer.list.clone()).collect();
    let list = lists.get(bench.random.below(lists.len() as u64) as usize);
    let Some((last, rest)) = list.and_then(|list| list.split_last()) else {
        bench.say(Command::Report);
        return;
    };
    let first = rest.first().unwrap_or(last);
    let middle = rest.last().unwrap_or(last);
    let piece = *bench.random.pick(&[first, middle, last, last]);
    let start = piece.address;
    let end = start + piece.length;
    let before = start.saturating_sub(16);
    let (start, length) = bench.random.pick(&[
        (start, 1),
        (end - 1, 1),
        (end, 1),
        (start.saturating_sub(1), 1),
        (start, piece.length),
        (start, 0),
        (start + 3, 0),
        (before, start - before),
        (before, start - before + 1),
        (end, 16),
        (end - 1, 16),
    ]);
    bench.say(Command::Notice { start, length });
    if bench.random.percent(25) {
        bench.say(Command::Report);
    }
}

/// A notice at either side of refusal 5.
fn notice_at_an_edge(bench: &mut Bench) {
    let (start, length) = bench.random.pick(&[
        (0, END),
        (0, END + 1),
        (END, 0),
        (END, 1),
        (END + 1, 0),
        (END - 1, 1),
        (END - 1, 2),
        (1, END),
        (u64::MAX, u64::MAX),
        (u64::MAX, 1),
        (1, u64::MAX),
        (0, u64::MAX),
        (u64::MAX, 0),
    ]);
    bench.say(Command::Notice { start, length });
}

/// Opens the book again, with the registers and the memory of the moment.
fn open_again(bench: &mut Bench, slots: u64) {
    let slots = bench.random.pick(&[1, 64, slots, slots]);
    bench.say(Command::Open { slots });
    bench.say(Command::Report);
}

/// Openings with refusal 4, 1 or 2, and with several at once; the book stays.
fn refused_open(bench: &mut Bench, pool: &[Request]) {
    let slots = bench.random.pick(&[0, 65, u64::MAX]);
    match bench.random.below(3) {
        0 => {
            bench.say(Command::Open { slots });
        }
        1 => {
            let old = bench.session.registers.idr5;
            let back = bench.set(Register::Idr5, u64::from(old | 7));
            let slots = bench.random.pick(&[1, slots]);
            bench.say(Command::Open { slots });
            bench.say(back);
        }
        _ => {
            let home = home_memory(bench);
            bench.say(Command::Memory {
                base: 0x20,
                length: 64,
            });
            let slots = bench.random.pick(&[1, slots]);
            bench.say(Command::Open { slots });
            bench.say(home);
            new_tables(bench, pool);
        }
    }
}

/// Registers that are not the book's: the book answers by its own.
fn other_registers(bench: &mut Bench, request: Request) {
    let mut changed = request;
    let mut back = change(bench, &mut changed);
    let old = bench.session.registers.cr2;
    let recorded = RECINVSID.put(old.into(), bench.random.below(2)) as u64;
    back.push(bench.set(Register::Cr2, recorded));
    let stream = bench.random.pick(&[request.stream, StreamId(u32::MAX)]);
    let request = Request { stream, ..request };
    bench.say(Command::Ask(request));
    bench.say(Command::Lookup(request));
    bench.say(Command::Report);
    take_back(bench, back);
}

/// A memory that is not the book's, for an ask; then the old extent again, or another book.
fn other_memory(bench: &mut Bench, pool: &[Request], slots: u64) {
    let home = home_memory(bench);
    let request = bench.random.pick(pool);
    let (base, length) = (bench.session.base, bench.session.bytes.len() as u64);
    let (base, length) = bench.random.pick(&[
        (base + 64, length),
        (base ^ 64, length / 2),
        (base, length / 2),
        (base, length.saturating_sub(1)),
    ]);
    bench.say(Command::Memory { base, length });
    let out_of_range = Some(SubstreamId(1 << 20));
    let substream = bench.random.pick(&[request.substream, out_of_range]);
    bench.say(Command::Ask(Request {
        substream,
        ..request
    }));
    if bench.random.percent(50) {
        bench.say(Command::Open { slots });
    } else {
        bench.say(home);
    }
    new_tables(bench, pool);
    bench.say(Command::Ask(request));
    bench.say(Command::Report);
}

/// Tables for some requests again, after the memory was given anew.
fn new_tables(bench: &mut Bench, pool: &[Request]) {
    for request in pool.iter().take(4) {
        bench.furnish(*request);
    }
}

/// The line that gives the memory of the moment again.
fn home_memory(bench: &Bench) -> Command {
    Command::Memory {
        base: bench.session.base,
        length: bench.session.bytes.len() as u64,
    }
}
