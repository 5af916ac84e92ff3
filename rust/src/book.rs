//! The book.

use crate::answer::Answer;
use crate::calls;
use crate::header::{self, numbered};
use crate::ids::Request;
use crate::memory::Memory;
use crate::refusal::Refusal;
use crate::registers::Registers;
use core::borrow::{Borrow, BorrowMut};

/// How many words a book has.
pub const BOOK_WORDS: usize = header::BOOK_WORDS as usize;

/// How many slots a book has at most.
pub const SLOTS_MOST: u64 = header::SLOTS_MOST;

/// A report has at most so many bytes: a buffer of so many is never refused with [`Refusal::Buffer`].
pub const REPORT_MOST: usize = header::REPORT_MOST as usize;

/// Kept answers. While each edit of the tables has had its notice, what an ask gives is exactly the answer of a new lookup.
///
/// A book owns its words, or borrows them: `Book<&mut [u64; BOOK_WORDS]>` can stand on words that are static, or shared with C.
///
/// ```
/// use llobatelh::{Book, Kept, Memory, Outcome, Registers, Request, StreamId, REPORT_MOST};
///
/// let mut tables = [0; 4096];
/// tables[5 * 64] = 0x09;
/// let registers = Registers { idr1: 16, idr5: 5, cr0: 1, strtab_base_cfg: 6, ..Registers::default() };
/// let request = Request::without(StreamId::from(5));
///
/// let mut book = Book::open(&registers, 0, 4096, 8)?;
/// let (kept, answer) = book.ask(Memory { base: 0, bytes: &tables }, request)?;
/// assert_eq!((kept, answer.outcome()), (Kept::Newly, Outcome::Bypass { ste: 5 * 64 }));
///
/// // The table is edited, and the book is told.
/// tables[5 * 64] = 0x01;
/// book.notice(5 * 64, 1)?;
/// let (kept, answer) = book.ask(Memory { base: 0, bytes: &tables }, request)?;
/// assert_eq!((kept, answer.outcome()), (Kept::Newly, Outcome::QuietAbort));
///
/// let mut out = [0; REPORT_MOST];
/// let length = book.report(&mut out)?;
/// assert_eq!(&out[..length], b"slot\tstream\tsubstream\toutcome\tevent\taddress\n0\t00000005\t-\tquiet\t-\t-\n");
/// # Ok::<(), llobatelh::Refusal>(())
/// ```
#[derive(Clone, Copy, Debug, PartialEq, Eq)]
pub struct Book<W = [u64; BOOK_WORDS]> {
    words: W,
}

numbered! {
    /// What an ask says of the answer that it gives.
    Kept {
        /// It was kept, and comes from its slot.
        Before = KEPT_BEFORE,
        /// A new lookup; it is kept now, in the empty slot with the lowest number.
        Newly = NEWLY_KEPT,
        /// A new lookup; no slot was empty.
        Not = NOT_KEPT,
    }
}

impl Book {
    /// Opens a book of so many slots, all empty, for these registers and for a memory of that base and length.
    /// Refuses with [`Refusal::Registers`], [`Refusal::Memory`] or [`Refusal::Slots`], in this order.
    #[inline]
    pub fn open(
        registers: &Registers,
        base: u64,
        length: u64,
        slots: u64,
    ) -> Result<Book, Refusal> {
        let mut book = Book::from_words([0; BOOK_WORDS]);
        book.open_again(registers, base, length, slots)?;
        Ok(book)
    }
}

impl<W> Book<W> {
    /// The book that these words are. Words that are none, such as all 0, are refused by each call but
    /// [`open_again`](Book::open_again) with [`Refusal::Book`].
    ///
    /// ```
    /// use llobatelh::{Book, Refusal, Registers, BOOK_WORDS};
    ///
    /// let mut words = [0; BOOK_WORDS];
    /// let mut book = Book::from_words(&mut words);
    /// assert_eq!(book.notice(0, 1), Err(Refusal::Book));
    /// book.open_again(&Registers::default(), 0, 0, 1)?;
    /// assert_eq!(book.notice(0, 1), Ok(()));
    /// # Ok::<(), Refusal>(())
    /// ```
    #[inline]
    pub const fn from_words(words: W) -> Book<W> {
        Book { words }
    }

    /// Its words.
    #[inline]
    pub fn into_words(self) -> W {
        self.words
    }
}

impl<W: Borrow<[u64; BOOK_WORDS]>> Book<W> {
    /// Its words. include/llobatelh.h says what each is.
    #[inline]
    pub fn words(&self) -> &[u64; BOOK_WORDS] {
        self.words.borrow()
    }

    /// Writes the book as text: a header, then a line for each held slot in rising order. Gives its length; later bytes stay as they were.
    /// Refuses with [`Refusal::Book`] or [`Refusal::Buffer`], in this order.
    #[inline]
    pub fn report(&self, out: &mut [u8]) -> Result<usize, Refusal> {
        let mut length = [0];
        match calls::report(self.words(), out, &mut length) {
            header::DONE => Ok(length[0] as usize),
            number => Err(Refusal::said(number)),
        }
    }
}

impl<W: BorrowMut<[u64; BOOK_WORDS]>> Book<W> {
    /// Opens it anew, as [`open`](Book::open) does, whatever the words hold. Where that is refused, the words stay as they are.
    #[inline]
    pub fn open_again(
        &mut self,
        registers: &Registers,
        base: u64,
        length: u64,
        slots: u64,
    ) -> Result<(), Refusal> {
        let (book, words) = (self.words.borrow_mut(), calls::registers(registers));
        match calls::open(book, words, registers.strtab_base, base, length, slots) {
            header::DONE => Ok(()),
            number => Err(Refusal::said(number)),
        }
    }

    /// Asks the book, with the memory as it is now; the registers are the book's.
    /// Refuses with [`Refusal::Book`], [`Refusal::Extent`] or [`Refusal::Substream`], in this order.
    #[inline]
    pub fn ask(&mut self, memory: Memory, request: Request) -> Result<(Kept, Answer), Refusal> {
        calls::new_ask(self.words.borrow_mut(), memory, request)
    }

    /// Tells the book that `size` bytes from the address `start` on were edited. Every kept answer that was read from one of them is
    /// struck, and its slot is empty; no other is. Size 0 strikes nothing.
    /// Refuses with [`Refusal::Book`] or [`Refusal::Notice`], in this order.
    #[inline]
    pub fn notice(&mut self, start: u64, size: u64) -> Result<(), Refusal> {
        match calls::notice(self.words.borrow_mut(), start, size) {
            header::DONE => Ok(()),
            number => Err(Refusal::said(number)),
        }
    }
}
