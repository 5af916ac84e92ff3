//! The calls of the archive on plain words, as include/llobatelh.h has them, for words that are shared with C. What a call says is one of
//! [`header`]'s numbers. The rest of this crate stands on them.
//!
//! ```
//! use llobatelh::{calls, header, Memory, Request, StreamId, ANSWER_WORDS, REGISTERS};
//!
//! let (memory, request) = (Memory { base: 0, bytes: &[] }, Request::without(StreamId::from(0)));
//! let mut answer = [0; ANSWER_WORDS];
//! let said = calls::lookup(&[0; REGISTERS], 0, memory, request, &mut answer);
//! assert_eq!((said, answer[0]), (header::DONE, header::BYPASS_GLOBAL));
//! ```

// The one place with `unsafe`: each function below hands over references and slices, so every pointer points at as many elements as the
// call looks at, and what it writes is lent to nothing else. The words of a refused call stay as they were.

use crate::answer::{Answer, Piece, ANSWER_WORDS, PIECES_MOST};
use crate::book::{Kept, BOOK_WORDS};
use crate::header;
use crate::ids::Request;
use crate::memory::Memory;
use crate::refusal::Refusal;
use crate::registers::{Registers, REGISTERS};
use core::mem::{offset_of, size_of, MaybeUninit};

extern "C" {
    fn llobatelh_lookup(
        registers: *const u32,
        strtab_base: u64,
        base: u64,
        memory: *const u8,
        memory_length: usize,
        stream: u32,
        given: u8,
        substream: u64,
        answer: *mut u64,
    ) -> u64;
    fn llobatelh_ste_part(
        registers: *const u32,
        strtab_base: u64,
        base: u64,
        memory: *const u8,
        memory_length: usize,
        stream: u32,
        given: u8,
        substream: u64,
    ) -> u64;
    fn llobatelh_open(
        book: *mut u64,
        registers: *const u32,
        strtab_base: u64,
        base: u64,
        length: u64,
        slots: u64,
    ) -> u64;
    fn llobatelh_ask(
        book: *mut u64,
        base: u64,
        memory: *const u8,
        memory_length: usize,
        stream: u32,
        given: u8,
        substream: u64,
        answer: *mut u64,
    ) -> u64;
    fn llobatelh_notice(book: *mut u64, start: u64, size: u64) -> u64;
    fn llobatelh_report(book: *const u64, out: *mut u8, out_length: usize, length: *mut u64)
        -> u64;
    fn llobatelh_is_recorded(registers: *const u32, strtab_base: u64, event: u64) -> u64;
}

/// `given` and `substream` of a request.
#[inline]
fn substream(request: Request) -> (u8, u64) {
    const WITH: u8 = header::byte(header::WITH);
    const WITHOUT: u8 = header::byte(header::WITHOUT);
    match request.substream {
        Some(substream) => (WITH, substream.number()),
        None => (WITHOUT, 0),
    }
}

/// A new lookup. Says 0, and puts the answer's words; or refuses with 1, 2 or 3.
#[inline]
pub fn lookup(
    registers: &[u32; REGISTERS],
    strtab_base: u64,
    memory: Memory,
    request: Request,
    answer: &mut [u64; ANSWER_WORDS],
) -> u64 {
    let (given, substream) = substream(request);
    // SAFETY: the registers and as many bytes as `len` says are read, the answer's words are written.
    unsafe {
        llobatelh_lookup(
            registers.as_ptr(),
            strtab_base,
            memory.base,
            memory.bytes.as_ptr(),
            memory.bytes.len(),
            request.stream.number(),
            given,
            substream,
            answer.as_mut_ptr(),
        )
    }
}

/// Where in the memory the STE of a request starts; [`header::NO_PART`] where none is fetched, or where the lookup refuses.
#[inline]
pub fn ste_part(
    registers: &[u32; REGISTERS],
    strtab_base: u64,
    memory: Memory,
    request: Request,
) -> u64 {
    let (given, substream) = substream(request);
    // SAFETY: the registers and as many bytes as `len` says are read.
    unsafe {
        llobatelh_ste_part(
            registers.as_ptr(),
            strtab_base,
            memory.base,
            memory.bytes.as_ptr(),
            memory.bytes.len(),
            request.stream.number(),
            given,
            substream,
        )
    }
}

/// Opens a book. Says 0, and writes every word of it; or refuses with 1, 2 or 4.
#[inline]
pub fn open(
    book: &mut [u64; BOOK_WORDS],
    registers: &[u32; REGISTERS],
    strtab_base: u64,
    base: u64,
    length: u64,
    slots: u64,
) -> u64 {
    let (book, registers) = (book.as_mut_ptr(), registers.as_ptr());
    // SAFETY: the registers are read, the book's words are written.
    unsafe { llobatelh_open(book, registers, strtab_base, base, length, slots) }
}

/// Asks a book. Says 100, 101 or 102, and puts the answer's words; or refuses with 7, 6 or 3.
#[inline]
pub fn ask(
    book: &mut [u64; BOOK_WORDS],
    memory: Memory,
    request: Request,
    answer: &mut [u64; ANSWER_WORDS],
) -> u64 {
    let (given, substream) = substream(request);
    // SAFETY: as many bytes as `len` says are read, the book's words are read and written, the answer's are written.
    unsafe {
        llobatelh_ask(
            book.as_mut_ptr(),
            memory.base,
            memory.bytes.as_ptr(),
            memory.bytes.len(),
            request.stream.number(),
            given,
            substream,
            answer.as_mut_ptr(),
        )
    }
}

/// Tells a book of an edit. Says 0; or refuses with 7 or 5.
#[inline]
pub fn notice(book: &mut [u64; BOOK_WORDS], start: u64, size: u64) -> u64 {
    // SAFETY: the book's words are read and written.
    unsafe { llobatelh_notice(book.as_mut_ptr(), start, size) }
}

/// Writes a book as text. Says 0, and puts its length; or refuses with 7 or 8.
#[inline]
pub fn report(book: &[u64; BOOK_WORDS], out: &mut [u8], length: &mut [u64; 1]) -> u64 {
    // SAFETY: the book's words are read, at most as many bytes as `len` says and 1 word are written.
    unsafe {
        llobatelh_report(
            book.as_ptr(),
            out.as_mut_ptr(),
            out.len(),
            length.as_mut_ptr(),
        )
    }
}

/// Whether an abort's event is recorded: 1 or 0.
#[inline]
pub fn is_recorded(registers: &[u32; REGISTERS], strtab_base: u64, event: u64) -> u64 {
    // SAFETY: the registers are read.
    unsafe { llobatelh_is_recorded(registers.as_ptr(), strtab_base, event) }
}

/// A lookup that puts a new answer.
#[inline]
pub(crate) fn new_lookup(
    registers: &Registers,
    memory: Memory,
    request: Request,
) -> Result<Answer, Refusal> {
    // Not inlined: what it gives back is then written by the archive where the caller wants it. Inlined it would be copied, since no
    // compiler can know that the archive keeps no pointer to it.
    #[inline(never)]
    fn put(
        registers: &Registers,
        base: u64,
        bytes: &[u8],
        stream: u32,
        given: u8,
        substream: u64,
        said: &mut u64,
    ) -> MaybeUninit<[u64; ANSWER_WORDS]> {
        let mut answer = MaybeUninit::<[u64; ANSWER_WORDS]>::uninit();
        // SAFETY: as in `lookup`. The words are written, and not read.
        *said = unsafe {
            llobatelh_lookup(
                self::registers(registers).as_ptr(),
                registers.strtab_base,
                base,
                bytes.as_ptr(),
                bytes.len(),
                stream,
                given,
                substream,
                answer.as_mut_ptr().cast(),
            )
        };
        answer
    }
    let mut said = 0;
    let (base, bytes, stream) = (memory.base, memory.bytes, request.stream.number());
    let (given, substream) = substream(request);
    let answer = put(registers, base, bytes, stream, given, substream, &mut said);
    match said {
        // SAFETY: it is done, so every word of the answer was written.
        header::DONE => Ok(Answer::said(unsafe { answer.assume_init() })),
        number => Err(Refusal::said(number)),
    }
}

/// An ask that puts a new answer.
#[inline]
pub(crate) fn new_ask(
    book: &mut [u64; BOOK_WORDS],
    memory: Memory,
    request: Request,
) -> Result<(Kept, Answer), Refusal> {
    // As in `new_lookup`.
    #[inline(never)]
    fn put(
        book: &mut [u64; BOOK_WORDS],
        base: u64,
        bytes: &[u8],
        stream: u32,
        given: u8,
        substream: u64,
        said: &mut u64,
    ) -> MaybeUninit<[u64; ANSWER_WORDS]> {
        let mut answer = MaybeUninit::<[u64; ANSWER_WORDS]>::uninit();
        // SAFETY: as in `ask`. The answer's words are written, and not read.
        *said = unsafe {
            llobatelh_ask(
                book.as_mut_ptr(),
                base,
                bytes.as_ptr(),
                bytes.len(),
                stream,
                given,
                substream,
                answer.as_mut_ptr().cast(),
            )
        };
        answer
    }
    let mut said = 0;
    let (base, bytes, stream) = (memory.base, memory.bytes, request.stream.number());
    let (given, substream) = substream(request);
    let answer = put(book, base, bytes, stream, given, substream, &mut said);
    match Kept::from_number(said) {
        // SAFETY: it is no refusal, so every word of the answer was written.
        Some(kept) => Ok((kept, Answer::said(unsafe { answer.assume_init() }))),
        None => Err(Refusal::said(said)),
    }
}

/// The registers of 32 bits, as they stand.
#[inline]
pub fn registers(registers: &Registers) -> &[u32; REGISTERS] {
    // SAFETY: `Registers` starts with them, in their order: `registers.rs` asserts each one's place.
    unsafe { &*core::ptr::from_ref(registers).cast() }
}

/// An answer's pieces, as they stand, used or not.
#[inline]
pub(crate) fn pieces(answer: &[u64; ANSWER_WORDS]) -> &[Piece; PIECES_MOST] {
    const PIECES: usize = header::ANSWER_PIECES as usize;
    const {
        assert!(8 * (ANSWER_WORDS - PIECES) == size_of::<[Piece; PIECES_MOST]>());
        assert!(8 * header::answer_address(1) as usize == 8 * PIECES + size_of::<Piece>());
        assert!(8 * header::answer_address(0) as usize == 8 * PIECES + offset_of!(Piece, address));
        assert!(8 * header::answer_length(0) as usize == 8 * PIECES + offset_of!(Piece, length));
    }
    // SAFETY: the words from there on are as long as the pieces, which are words.
    unsafe { &*answer[PIECES..].as_ptr().cast() }
}
