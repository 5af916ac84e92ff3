//! Two builds of the archive in one run: bench/beside. Each is a shared library of its own, called by a pointer and in the same loop, so that
//! the two differ in nothing but what they hold.

use crate::fold;
use crate::inputs::Input;
use crate::ordinary::Request;
use crate::sides::{said, wrapped_registers};
use llobatelh::{calls, header, ANSWER_WORDS};
use std::collections::BTreeSet;
use std::ffi::{c_char, c_int, c_void, CString};

/// As include/llobatelh.h has it.
type Lookup = unsafe extern "C" fn(
    registers: *const u32,
    strtab_base: u64,
    base: u64,
    memory: *const u8,
    memory_length: usize,
    stream: u32,
    given: u8,
    substream: u64,
    answer: *mut u64,
) -> u64;

extern "C" {
    fn dlopen(file: *const c_char, flags: c_int) -> *mut c_void;
    fn dlsym(library: *mut c_void, name: *const c_char) -> *mut c_void;
}

const RTLD_NOW: c_int = 2;

/// More words than an answer of either build has.
const ROOM: usize = 64;

pub struct Build(Lookup);

impl Build {
    pub fn load(file: &str) -> Result<Build, String> {
        let name = CString::new(file).map_err(|why| format!("{file}: {why}"))?;
        // SAFETY: both are handed texts that end with a zero, and the library stays loaded.
        let found = unsafe {
            let library = dlopen(name.as_ptr(), RTLD_NOW);
            if library.is_null() {
                return Err(format!("{file}: it cannot be loaded"));
            }
            dlsym(library, c"llobatelh_lookup".as_ptr())
        };
        if found.is_null() {
            return Err(format!("{file}: it has no llobatelh_lookup"));
        }
        // SAFETY: the header gives the call this type.
        Ok(Build(unsafe {
            std::mem::transmute::<*mut c_void, Lookup>(found)
        }))
    }

    /// All lookups of a set, and what was said of them as the archive's side sums it.
    #[inline(never)]
    pub fn lookups(&self, inputs: &[Input]) -> u64 {
        let mut words = [0; ROOM];
        inputs.iter().fold(0, |sum, input| {
            let registers = wrapped_registers(&input.registers);
            input.requests.iter().fold(sum, |sum, request| {
                let read = match self.one(&registers, input, *request, &mut words) {
                    header::DONE => words.first_chunk::<ANSWER_WORDS>().map_or(0, fold::words),
                    number => said(number),
                };
                sum.rotate_left(1).wrapping_add(read)
            })
        })
    }

    /// What is said of each lookup of an input, and every word that was lent.
    fn answers(&self, input: &Input) -> Vec<(u64, [u64; ROOM])> {
        let registers = wrapped_registers(&input.registers);
        let answer = |request: &Request| {
            let mut words = [0; ROOM];
            let number = self.one(&registers, input, *request, &mut words);
            (number, words)
        };
        input.requests.iter().map(answer).collect()
    }

    #[inline(always)]
    fn one(
        &self,
        registers: &llobatelh::Registers,
        input: &Input,
        request: Request,
        words: &mut [u64; ROOM],
    ) -> u64 {
        let (given, substream) = match request.substream {
            Some(number) => (header::WITH as u8, number),
            None => (header::WITHOUT as u8, 0),
        };
        // SAFETY: what is pointed at has as many elements as the call looks at, and the words have room for an answer.
        unsafe {
            self.0(
                calls::registers(registers).as_ptr(),
                registers.strtab_base,
                input.base,
                input.memory.as_ptr(),
                input.memory.len(),
                request.stream,
                given,
                substream,
                words.as_mut_ptr(),
            )
        }
    }
}

/// Whether two builds answer the same. Where they don't: how many answers are others, and in which of their words.
pub fn compared(before: &Build, now: &Build, inputs: &[Input]) -> String {
    let (mut all, mut others, mut places) = (0, 0, BTreeSet::new());
    for input in inputs {
        for (before, now) in before.answers(input).iter().zip(&now.answers(input)) {
            all += 1;
            others += usize::from(before != now);
            places.extend((0..ROOM).filter(|place| before.1[*place] != now.1[*place]));
        }
    }
    match others {
        0 => "the same".to_string(),
        _ => format!("{others} others of {all}, in words {places:?}"),
    }
}
