//! A script of lookups: tables that make sense, then one change at an edge after the other, each looked up
//! and mostly taken back.

use super::bench::Bench;
use super::changes::{aim_outside, change, take_back};
use crate::registers::Register;
use crate::request::{Request, StreamId, SubstreamId};
use crate::script::Command;

const STAGES: usize = 4;
const CHANGES: usize = 42;

/// Writes the script.
pub fn write(bench: &mut Bench) {
    if bench.random.percent(30) {
        look(
            bench,
            Request {
                stream: StreamId(0),
                substream: None,
            },
        );
    }
    for _ in 0..STAGES {
        stage(bench);
    }
    if bench.random.percent(50) {
        refused_extents(bench);
    }
}

/// One setting of registers and memory, and the changes on it.
fn stage(bench: &mut Bench) {
    let count = 4 + bench.random.below(4);
    let requests = bench.set_up(count);
    for request in &requests {
        bench.say(Command::Lookup(*request));
    }
    for _ in 0..CHANGES {
        let home = a_deep_one(bench, &requests);
        let depth = bench.depth(home);
        let mut request = home;
        let mut back = change(bench, &mut request);
        if bench.random.percent(25) {
            back.extend(change(bench, &mut request));
        }
        look(bench, request);
        if bench.random.percent(20) {
            look(bench, home);
        }
        let stays = bench.random.percent(10) && bench.depth(home) >= depth;
        if !stays {
            take_back(bench, back);
        }
    }
    failed_fetches(bench, &requests);
}

/// Each fetch of a lookup that goes deep, aimed at a place where it fails.
fn failed_fetches(bench: &mut Bench, requests: &[Request]) {
    let home = a_deep_one(bench, requests);
    for place in 0..4 {
        let mut request = home;
        let back = aim_outside(bench, &mut request, place);
        bench.say(Command::Lookup(request));
        take_back(bench, back);
    }
}

/// The one of a few requests whose lookup goes deepest.
fn a_deep_one(bench: &mut Bench, requests: &[Request]) -> Request {
    let some = [(); 3].map(|()| bench.random.pick(requests));
    let deepest = some.into_iter().max_by_key(|request| bench.depth(*request));
    deepest.unwrap_or(some[0])
}

/// Looks a request up, now and then for its STE.
fn look(bench: &mut Bench, request: Request) {
    let command = match bench.random.percent(15) {
        true => Command::Part(request),
        false => Command::Lookup(request),
    };
    bench.say(command);
}

/// Lookups in memories at both sides of refusal 2, with refusals 1 and 3 besides.
fn refused_extents(bench: &mut Bench) {
    const END: u64 = 1 << 52;
    let extents = [
        (0x20, 4096),
        (0x3f, 64),
        (1, 0),
        (END - 64, 65),
        (END - 64, 64),
        (END - 65_536, 65_536),
        (END - 65_472, 65_473),
        (END, 0),
        (END, 1),
        (END + 64, 0),
        (u64::MAX - 63, 65_536),
        (u64::MAX, 65_536),
    ];
    for _ in 0..4 {
        let (base, length) = bench.random.pick(&extents);
        bench.say(Command::Memory { base, length });
        for substream in [None, Some(SubstreamId(1 << 20))] {
            let stream = StreamId(bench.random.below(4) as u32);
            look(bench, Request { stream, substream });
        }
        if bench.random.percent(50) {
            let old = bench.session.registers.idr5;
            let back = bench.set(Register::Idr5, u64::from(old | 7));
            let stream = StreamId(0);
            let substream = bench.random.pick(&[None, Some(SubstreamId(1 << 20))]);
            look(bench, Request { stream, substream });
            bench.say(back);
        }
    }
}
