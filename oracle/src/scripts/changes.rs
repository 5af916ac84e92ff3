//! One change at an edge of a rule, of the request or of something that its lookup meets.

use super::bench::Bench;
use super::edges;
use crate::answer::Outcome;
use crate::descriptors::{cd, ste, Kind, L1std, Ste};
use crate::lookup::{Trace, Try};
use crate::registers::{size_in_bits, Register, ADDR};
use crate::request::{Request, StreamId, SubstreamId};
use crate::script::Command;

/// Makes one change; gives the lines that take it back. A change of the request needs none.
pub fn change(bench: &mut Bench, request: &mut Request) -> Vec<Command> {
    match bench.random.below(100) {
        0..=35 => edit(bench, *request).into_iter().collect(),
        36..=53 => vec![change_register(bench)],
        54..=75 => aim(bench, request),
        76..=95 => {
            change_request(bench, request);
            Vec::new()
        }
        _ => vec![change_unread_bits_of_register(bench)],
    }
}

/// Makes one edit of a descriptor that the lookup meets; gives the line that takes it back.
pub fn edit(bench: &mut Bench, request: Request) -> Option<Command> {
    let trace = trace(bench, request);
    match bench.random.below(100) {
        0..=59 => change_field(bench, &trace),
        60..=79 => change_ttb0(bench, request, &trace),
        80..=91 => {
            let place = a_place(bench, &trace.tries)?.max(1);
            let edge = an_edge(bench, trace.tries.get(place)?.kind);
            aim_pointer(bench, &trace, place, edge)
        }
        _ => change_unread_bits(bench, &trace),
    }
}

/// The way that a lookup takes now.
fn trace(bench: &Bench, request: Request) -> Trace {
    let walked = bench.walk(request);
    walked.map_or(Trace::default(), |walked| walked.trace)
}

/// Says the lines that take changes back, the last change first.
pub fn take_back(bench: &mut Bench, back: Vec<Command>) {
    for command in back.into_iter().rev() {
        bench.say(command);
    }
}

/// Sets a field of a descriptor that was fetched to an edge.
fn change_field(bench: &mut Bench, trace: &Trace) -> Option<Command> {
    let met = a_fetched(bench, trace)?;
    let (field, values) = bench.random.pick(edges::of_descriptor(met.kind));
    let value = bench.random.pick(values);
    bench.put_field(met.address, field, value)
}

/// Sets TTB0 at the end of the effective IPS, or the bits above it.
fn change_ttb0(bench: &mut Bench, request: Request, trace: &Trace) -> Option<Command> {
    let met = trace.tries.iter().find(|met| met.kind == Kind::Cd)?;
    let ips = match bench.walk(request)?.answer.outcome {
        Outcome::Translate(translation) => translation.ips,
        _ => size_in_bits(bench.random.below(7))?,
    };
    let limit = 1u64 << (ips - u64::from(cd::TTB0_LOWEST_ADDRESS_BIT));
    let value = bench
        .random
        .pick(&[limit - 1, limit, limit * 2, limit - 2, 0, u64::MAX]);
    bench.put_field(met.address, cd::TTB0, value)
}

/// Sets a field of a register to an edge.
fn change_register(bench: &mut Bench) -> Command {
    let (register, field, values) = bench.random.pick(edges::OF_REGISTERS);
    let value = bench.random.pick(values);
    let word = field.put(bench.session.registers.get(register).into(), value);
    bench.set(register, word as u64)
}

/// Sets bits of a register that no rule reads.
fn change_unread_bits_of_register(bench: &mut Bench) -> Command {
    let register = bench.random.pick(&Register::ALL);
    let unread = !edges::read_bits_of_register(register) as u64;
    let limit = u64::MAX >> (u64::BITS - register.bits());
    let noise = bench.random.word() & unread & limit;
    let value = bench.session.registers.get(register) ^ noise;
    bench.set(register, value)
}

/// Sets bits of a descriptor that no rule reads.
fn change_unread_bits(bench: &mut Bench, trace: &Trace) -> Option<Command> {
    let met = a_fetched(bench, trace)?;
    let noise = u128::from(bench.random.word()) << 64 | u128::from(bench.random.word());
    let unread = noise & !edges::read_bits_of_descriptor(met.kind);
    let new = (met.word? ^ unread).to_le_bytes();
    let length = met.kind.length().min(16) as usize;
    bench.put(met.address, &new[..length])
}

/// Moves the pointer to a descriptor, the request, or first the one and then the other, so that the
/// descriptor comes to lie at an edge, or nearly so.
fn aim(bench: &mut Bench, request: &mut Request) -> Vec<Command> {
    let met = trace(bench, *request);
    let Some(place) = a_place(bench, &met.tries) else {
        return Vec::new();
    };
    let edge = an_edge(bench, met.tries[place].kind);
    aim_at(bench, request, &met, place, edge)
}

/// The same for the descriptor at this place of the tries, if there is one, so that its fetch fails.
pub fn aim_outside(bench: &mut Bench, request: &mut Request, place: usize) -> Vec<Command> {
    let met = trace(bench, *request);
    let Some(aimed) = met.tries.get(place) else {
        return Vec::new();
    };
    let outside = an_outside(bench, aimed.kind);
    aim_at(bench, request, &met, place, outside)
}

fn aim_at(
    bench: &mut Bench,
    request: &mut Request,
    met: &Trace,
    place: usize,
    edge: i128,
) -> Vec<Command> {
    let mut back = Vec::new();
    let kind = met.tries[place].kind;
    let ste = met.tries.iter().find(|met| met.kind == Kind::Ste);
    if let (Some(ste), Kind::L1cd | Kind::Cd) = (ste, kind) {
        let most = bench.session.registers.ssidsize();
        if bench.random.percent(60) {
            back.extend(bench.put_field(ste.address, ste::S1CDMAX, most));
        }
    }
    if bench.random.percent(75) {
        back.extend(aim_pointer(bench, met, place, edge));
    }
    if bench.random.percent(70) {
        let met = trace(bench, *request);
        aim_request(bench, request, &met, place, edge);
    }
    back
}

/// Moves the pointer to the descriptor at this place of the tries by its distance to the edge.
fn aim_pointer(bench: &mut Bench, trace: &Trace, place: usize, edge: i128) -> Option<Command> {
    let distance = edge - i128::from(trace.tries.get(place)?.address);
    let moved = |pointer: u64| (i128::from(pointer) + distance) as u64;
    let Some(before) = place.checked_sub(1) else {
        let old = bench.session.registers.strtab_base;
        let new = moved(ADDR.address(old)) >> ADDR.low();
        let new = ADDR.put(old.into(), new) as u64;
        return Some(bench.set(Register::StrtabBase, new));
    };
    let holder = trace.tries[before];
    let field = edges::pointer_of(holder.kind);
    let value = moved(field.address(holder.word?)) >> field.low();
    bench.put_field(holder.address, field, value)
}

/// Moves the StreamID or SubstreamID by that distance.
fn aim_request(bench: &Bench, request: &mut Request, trace: &Trace, place: usize, edge: i128) {
    let Some(aimed) = trace.tries.get(place) else {
        return;
    };
    let steps = (edge - i128::from(aimed.address)) / i128::from(aimed.kind.length());
    let split = bench.session.registers.effective_split();
    let ste = trace.fetched(Kind::Ste).map(Ste::read);
    let leaf_bits = ste.and_then(|ste| ste.leaf_bits()).unwrap_or(0);
    let moved = |id: u64, by: i128| (i128::from(id) + by).max(0) as u64;
    let stream = u64::from(request.stream.0);
    let substream = request.substream.map_or(0, |given| given.0);
    match aimed.kind {
        Kind::L1std => request.stream = StreamId(moved(stream, steps << split) as u32),
        Kind::Ste => request.stream = StreamId(moved(stream, steps) as u32),
        Kind::L1cd => request.substream = Some(SubstreamId(moved(substream, steps << leaf_bits))),
        Kind::Cd => request.substream = Some(SubstreamId(moved(substream, steps))),
    }
}

/// Where a descriptor would be at an end of the memory or of the OAS, just inside or just outside.
fn an_edge(bench: &mut Bench, kind: Kind) -> i128 {
    let length = i128::from(kind.length());
    let start = i128::from(bench.session.base);
    let end = start + bench.session.bytes.len() as i128;
    let top = 1 << bench.session.registers.oas_size().unwrap_or(52);
    let high_bit = 1 << bench.random.pick(&[52, 53, 54, 55]);
    bench.random.pick(&[
        start,
        start - length,
        start - length,
        end - length,
        end - length,
        end,
        end,
        end / length * length,
        top - length,
        top - length,
        top,
        top,
        end - length + top,
        end - length + high_bit,
        1 << 56,
    ])
}

/// Edits the pointer to the descriptor at this place of the tries, so that its fetch fails if the pointer can be so;
/// gives the line that takes it back.
pub fn misdirect(bench: &mut Bench, request: Request, place: usize) -> Option<Command> {
    let trace = trace(bench, request);
    let kind = trace.tries.get(place)?.kind;
    let outside = an_outside(bench, kind);
    aim_pointer(bench, &trace, place, outside)
}

/// Where the fetch of a descriptor fails: below the memory, past its end, across it, above the OAS.
fn an_outside(bench: &mut Bench, kind: Kind) -> i128 {
    let length = i128::from(kind.length());
    let start = i128::from(bench.session.base);
    let end = start + bench.session.bytes.len() as i128;
    let top = 1 << bench.session.registers.oas_size().unwrap_or(52);
    let far = i128::from(bench.random.below(1 << 36));
    bench.random.pick(&[
        start - length,
        start / 2,
        end,
        end + far,
        end / length * length,
        top,
        top + far,
        start + top,
        (1 << 56) - length,
        1 << 56,
    ])
}

/// Sets the StreamID or the SubstreamID to an edge.
fn change_request(bench: &mut Bench, request: &mut Request) {
    let trace = trace(bench, *request);
    if bench.random.percent(45) {
        request.stream = change_stream(bench, request.stream, &trace);
    } else {
        request.substream = change_substream(bench, &trace);
    }
}

fn change_stream(bench: &mut Bench, stream: StreamId, trace: &Trace) -> StreamId {
    let registers = bench.session.registers;
    let all = 1 << registers.effective_log2size().min(32);
    let split = registers.effective_split();
    let stream = u64::from(stream.0);
    let table = stream >> split << split;
    let stes = match trace.fetched(Kind::L1std).map(L1std::read) {
        Some(l1std) if (1..=11).contains(&l1std.span) => 1 << (l1std.span - 1),
        _ => 1,
    };
    let any = bench.random.below(all);
    let choices = [
        0,
        all - 1,
        all,
        all,
        all + 1,
        stream + 1,
        stream ^ 1,
        table + stes - 1,
        table + stes - 1,
        table + stes,
        table + stes,
        any,
        u64::from(u32::MAX),
    ];
    StreamId(bench.random.pick(&choices).min(u32::MAX.into()) as u32)
}

fn change_substream(bench: &mut Bench, trace: &Trace) -> Option<SubstreamId> {
    let ste = trace.fetched(Kind::Ste).map(Ste::read);
    let all = 1u64 << ste.map_or(0, |ste| ste.s1cdmax);
    let any = bench.random.below(all);
    let choices = [
        None,
        None,
        Some(0),
        Some(0),
        Some(1),
        Some(any),
        Some(all - 1),
        Some(all - 1),
        Some(all),
        Some(all),
        Some(63),
        Some(64),
        Some(1023),
        Some(1024),
        Some((1 << 20) - 1),
        Some(1 << 20),
        Some(u64::MAX),
    ];
    bench.random.pick(&choices).map(SubstreamId)
}

/// One of the descriptors that were fetched, often the last.
fn a_fetched(bench: &mut Bench, trace: &Trace) -> Option<Try> {
    let mut fetched = trace.tries.clone();
    fetched.retain(|met| met.word.is_some());
    let place = a_place(bench, &fetched)?;
    Some(fetched[place])
}

/// A place in the list of tries, often the last.
fn a_place(bench: &mut Bench, tries: &[Try]) -> Option<usize> {
    let last = tries.len().checked_sub(1)?;
    let any = bench.random.below(tries.len() as u64) as usize;
    Some(bench.random.pick(&[any, any, last]))
}
