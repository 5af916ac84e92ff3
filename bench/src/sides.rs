//! The three sides: the archive by its C calls, the archive through rust/, and ordinary Rust. A pass does all lookups or asks of a set
//! and gives the sum of all that was said and of every word of every answer.

use crate::fold;
use crate::inputs::Input;
use crate::ordinary::{self, Kept, Request};
use llobatelh::{calls, header, ANSWER_WORDS, BOOK_WORDS};

#[derive(Clone, Copy, Debug, PartialEq, Eq)]
pub enum Side {
    Archive,
    Wrapper,
    Ordinary,
}

/// What was said, in the sum.
pub fn said(number: u64) -> u64 {
    number.wrapping_mul(0xd134_2543_de82_ef95)
}

pub fn wrapped_registers(r: &ordinary::Registers) -> llobatelh::Registers {
    llobatelh::Registers {
        idr0: r.idr0,
        idr1: r.idr1,
        idr5: r.idr5,
        cr0: r.cr0,
        cr2: r.cr2,
        gbpa: r.gbpa,
        strtab_base: r.strtab_base,
        strtab_base_cfg: r.strtab_base_cfg,
    }
}

fn wrapped_request(request: Request) -> llobatelh::Request {
    llobatelh::Request {
        stream: request.stream.into(),
        substream: request.substream.map(llobatelh::SubstreamId::as_handed),
    }
}

fn lent(input: &Input) -> llobatelh::Memory<'_> {
    llobatelh::Memory {
        base: input.base,
        bytes: &input.memory,
    }
}

/// The sum goes on over an input's requests, by what `one` makes of each.
fn over_requests(sum: u64, input: &Input, mut one: impl FnMut(Request) -> u64) -> u64 {
    let requests = input.requests.iter();
    requests.fold(sum, |sum, request| {
        sum.rotate_left(1).wrapping_add(one(*request))
    })
}

/// All lookups of a set on one side. Each side is a function of its own, so that none is compiled with an eye on another's loop.
pub fn lookups(side: Side, inputs: &[Input]) -> u64 {
    match side {
        Side::Archive => archive_lookups(inputs),
        Side::Wrapper => wrapper_lookups(inputs),
        Side::Ordinary => ordinary_lookups(inputs),
    }
}

/// One array is lent to every call, as a caller in C would.
#[inline(never)]
fn archive_lookups(inputs: &[Input]) -> u64 {
    let mut words = [0; ANSWER_WORDS];
    inputs.iter().fold(0, |sum, input| {
        let (registers, memory) = (wrapped_registers(&input.registers), lent(input));
        let (narrow, strtab_base) = (calls::registers(&registers), registers.strtab_base);
        over_requests(sum, input, |request| {
            let request = wrapped_request(request);
            match calls::lookup(narrow, strtab_base, memory, request, &mut words) {
                header::DONE => fold::words(&words),
                number => said(number),
            }
        })
    })
}

#[inline(never)]
fn wrapper_lookups(inputs: &[Input]) -> u64 {
    inputs.iter().fold(0, |sum, input| {
        let (registers, memory) = (wrapped_registers(&input.registers), lent(input));
        over_requests(sum, input, |request| {
            match llobatelh::lookup(&registers, memory, wrapped_request(request)) {
                Ok(answer) => fold::wrapped(&answer),
                Err(refusal) => said(refusal.number().into()),
            }
        })
    })
}

#[inline(never)]
fn ordinary_lookups(inputs: &[Input]) -> u64 {
    inputs.iter().fold(0, |sum, input| {
        over_requests(sum, input, |request| {
            match ordinary::lookup(&input.registers, input.base, &input.memory, request) {
                Ok(answer) => fold::ordinary(&answer),
                Err(number) => said(number.into()),
            }
        })
    })
}

/// What the second program says of the same lookups, once every word that the archive puts was found to be its word.
pub fn second_program(inputs: &[Input]) -> u64 {
    inputs.iter().fold(0, |sum, input| {
        let (narrow, memory) = (wrapped_registers(&input.registers), lent(input));
        let r = &input.registers;
        let registers = oracle::registers::Registers {
            idr0: r.idr0,
            idr1: r.idr1,
            idr5: r.idr5,
            cr0: r.cr0,
            cr2: r.cr2,
            gbpa: r.gbpa,
            strtab_base: r.strtab_base,
            strtab_base_cfg: r.strtab_base_cfg,
        };
        let bytes = oracle::memory::Memory {
            base: input.base,
            bytes: &input.memory,
        };
        over_requests(sum, input, |request| {
            let asked = oracle::request::Request {
                stream: oracle::request::StreamId(request.stream),
                substream: request.substream.map(oracle::request::SubstreamId),
            };
            let (number, expected) = match oracle::lookup::lookup(&registers, bytes, asked) {
                Ok(answer) => (header::DONE, oracle::book_words::encode_answer(&answer)),
                Err(refusal) => (refusal.0.into(), UNTOUCHED),
            };
            let (request, mut words) = (wrapped_request(request), UNTOUCHED);
            let archive = calls::registers(&narrow);
            let says = calls::lookup(archive, narrow.strtab_base, memory, request, &mut words);
            assert_eq!((says, words), (number, expected), "every word of an answer");
            match number {
                header::DONE => fold::words(&words),
                _ => said(number),
            }
        })
    })
}

/// What an array holds before a call that has to write all of it, or none.
const UNTOUCHED: [u64; ANSWER_WORDS] = [u64::MAX; ANSWER_WORDS];

/// A book on each side, for the same registers and memory.
#[derive(Clone)]
pub struct Books {
    pub words: [u64; BOOK_WORDS],
    pub wrapped: llobatelh::Book,
    pub ordinary: ordinary::Book,
}

impl Books {
    pub fn open(input: &Input, slots: u64) -> Books {
        let (base, length) = (input.base, input.memory.len() as u64);
        let registers = wrapped_registers(&input.registers);
        let wrapped = llobatelh::Book::open(&registers, base, length, slots).expect("it opens");
        Books {
            words: wrapped.into_words(),
            wrapped,
            ordinary: ordinary::Book::open(input.registers, base, length, slots).expect("it opens"),
        }
    }

    /// Asks for every request of the input, on one side.
    pub fn asks(&mut self, side: Side, input: &Input) -> u64 {
        match side {
            Side::Archive => self.archive_asks(input),
            Side::Wrapper => self.wrapper_asks(input),
            Side::Ordinary => self.ordinary_asks(input),
        }
    }

    #[inline(never)]
    fn archive_asks(&mut self, input: &Input) -> u64 {
        let (memory, mut words) = (lent(input), [0; ANSWER_WORDS]);
        over_requests(0, input, |request| {
            let kept = calls::ask(
                &mut self.words,
                memory,
                wrapped_request(request),
                &mut words,
            );
            fold::words(&words).wrapping_add(said(kept))
        })
    }

    #[inline(never)]
    fn wrapper_asks(&mut self, input: &Input) -> u64 {
        let memory = lent(input);
        over_requests(0, input, |request| {
            match self.wrapped.ask(memory, wrapped_request(request)) {
                Ok((kept, answer)) => {
                    fold::wrapped(&answer).wrapping_add(said(kept.number().into()))
                }
                Err(refusal) => said(refusal.number().into()),
            }
        })
    }

    #[inline(never)]
    fn ordinary_asks(&mut self, input: &Input) -> u64 {
        over_requests(0, input, |request| {
            match self.ordinary.ask(input.base, &input.memory, request) {
                Ok((kept, answer)) => fold::ordinary(&answer).wrapping_add(said(match kept {
                    Kept::Before => header::KEPT_BEFORE,
                    Kept::Newly => header::NEWLY_KEPT,
                    Kept::Not => header::NOT_KEPT,
                })),
                Err(number) => said(number.into()),
            }
        })
    }

    /// The same from a book that is opened before each pass of 64: the opened one is copied.
    pub fn asks_of_new_books(&self, scratch: &mut Books, side: Side, input: &Input) -> u64 {
        match side {
            Side::Archive => scratch.words = self.words,
            Side::Wrapper => scratch.wrapped = self.wrapped,
            Side::Ordinary => scratch.ordinary.clone_from(&self.ordinary),
        }
        scratch.asks(side, input)
    }
}
