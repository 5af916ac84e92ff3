//! The script language: reading a line, doing what it says, and the run over a whole script.
//! Follows docs/SCRIPT.md; the sections are named below.

use std::io::{self, BufRead, Read, Write};

use crate::answer::{Answer, Event, Outcome};
use crate::book::{ask, notice, open, Book, Kept};
use crate::lookup::{lookup, part};
use crate::memory::{place, Memory};
use crate::refusal::{Refusal, LONGEST_MEMORY};
use crate::registers::{Register, Registers};
use crate::report::{self, report};
use crate::request::{Request, StreamId, SubstreamId};

/// The longest line, in bytes before its line feed.
pub const LONGEST_LINE: usize = 4096;

/// What a line says.
#[derive(Clone, Debug, PartialEq, Eq)]
pub enum Command {
    Register {
        register: Register,
        value: u64,
    },
    Memory {
        base: u64,
        length: u64,
    },
    Write {
        address: u64,
        bytes: Vec<u8>,
    },
    Fill {
        address: u64,
        count: u64,
        bytes: Vec<u8>,
    },
    Lookup(Request),
    Part(Request),
    Open {
        slots: u64,
    },
    Ask(Request),
    Notice {
        start: u64,
        length: u64,
    },
    Report,
}

/// "What is wrong with a line", in the order of precedence.
#[derive(Clone, Copy, Debug, PartialEq, Eq)]
pub enum Reason {
    LineTooLong,
    NoSuchCommand,
    TooFewWords,
    TooManyWords,
    NoSuchRegister,
    NotANumber,
    NumberTooLarge,
    NotPairs,
    OutsideTheMemory,
}

impl Reason {
    pub const ALL: [Reason; 9] = [
        Reason::LineTooLong,
        Reason::NoSuchCommand,
        Reason::TooFewWords,
        Reason::TooManyWords,
        Reason::NoSuchRegister,
        Reason::NotANumber,
        Reason::NumberTooLarge,
        Reason::NotPairs,
        Reason::OutsideTheMemory,
    ];

    /// The reason, word for word.
    pub fn words(self) -> &'static str {
        match self {
            Reason::LineTooLong => "the line is too long",
            Reason::NoSuchCommand => "no such command",
            Reason::TooFewWords => "too few words",
            Reason::TooManyWords => "too many words",
            Reason::NoSuchRegister => "no such register",
            Reason::NotANumber => "not a number",
            Reason::NumberTooLarge => "the number is too large",
            Reason::NotPairs => "not pairs of hexadecimal digits",
            Reason::OutsideTheMemory => "outside the memory",
        }
    }
}

// Reading a line: "Lines".

type Word<'a> = &'a [u8];

/// What a line says, with its line feed or without; nothing for a blank line and a comment.
pub fn parse(line: &[u8]) -> Result<Option<Command>, Reason> {
    let line = line.strip_suffix(b"\n").unwrap_or(line);
    if line.len() > LONGEST_LINE {
        return Err(Reason::LineTooLong);
    }
    let line = line.strip_suffix(b"\r").unwrap_or(line);
    let parts = line.split(|byte| *byte == b' ' || *byte == b'\t');
    let words: Vec<Word> = parts.filter(|part| !part.is_empty()).collect();
    match words.split_first() {
        None | Some(([b'#', ..], _)) => Ok(None),
        Some((name, rest)) => command(name, rest).map(Some),
    }
}

/// What the words of a line say. In every line the reasons are looked for in their order:
/// the number of words, then the register, then the numbers, then the hexadecimal digits.
fn command(name: Word, rest: &[Word]) -> Result<Command, Reason> {
    match name {
        b"register" => {
            let [name, value] = exactly(rest)?;
            let register = register(name)?;
            let [value] = numbers([(value, 1 << register.bits())])?;
            Ok(Command::Register { register, value })
        }
        b"memory" => {
            let [base, length] = exactly(rest)?;
            let first_too_large = u128::from(LONGEST_MEMORY) + 1;
            let [base, length] = numbers([(base, TWO_64), (length, first_too_large)])?;
            Ok(Command::Memory { base, length })
        }
        b"write" => {
            let [address, hex] = exactly(rest)?;
            let [address] = numbers([(address, TWO_64)])?;
            let bytes = pairs(hex)?;
            Ok(Command::Write { address, bytes })
        }
        b"fill" => {
            let [address, count, hex] = exactly(rest)?;
            let [address, count] = numbers([(address, TWO_64), (count, TWO_64)])?;
            let bytes = pairs(hex)?;
            Ok(Command::Fill {
                address,
                count,
                bytes,
            })
        }
        b"lookup" => Ok(Command::Lookup(request(rest)?)),
        b"part" => Ok(Command::Part(request(rest)?)),
        b"open" => {
            let [slots] = exactly(rest)?;
            let [slots] = numbers([(slots, TWO_64)])?;
            Ok(Command::Open { slots })
        }
        b"ask" => Ok(Command::Ask(request(rest)?)),
        b"notice" => {
            let [start, length] = exactly(rest)?;
            let [start, length] = numbers([(start, TWO_64), (length, TWO_64)])?;
            Ok(Command::Notice { start, length })
        }
        b"report" => {
            let [] = exactly(rest)?;
            Ok(Command::Report)
        }
        _ => Err(Reason::NoSuchCommand),
    }
}

const TWO_32: u128 = 1 << 32;
const TWO_64: u128 = 1 << 64;

/// The words after the first, which must be `N`.
fn exactly<'a, const N: usize>(rest: &[Word<'a>]) -> Result<[Word<'a>; N], Reason> {
    rest.try_into().map_err(|_| {
        if rest.len() < N {
            Reason::TooFewWords
        } else {
            Reason::TooManyWords
        }
    })
}

/// `STREAM [SUBSTREAM]`. A SubstreamID of 2^20 or more is no wrong line.
fn request(rest: &[Word]) -> Result<Request, Reason> {
    let (stream, substream) = match rest {
        [] => return Err(Reason::TooFewWords),
        [stream] => {
            let [stream] = numbers([(stream, TWO_32)])?;
            (stream, None)
        }
        [stream, substream] => {
            let [stream, substream] = numbers([(stream, TWO_32), (substream, TWO_64)])?;
            (stream, Some(SubstreamId(substream)))
        }
        _ => return Err(Reason::TooManyWords),
    };
    // It is below 2^32.
    let stream = StreamId(stream as u32);
    Ok(Request { stream, substream })
}

fn register(name: Word) -> Result<Register, Reason> {
    let mut all = Register::ALL.into_iter();
    all.find(|register| register.name().as_bytes() == name)
        .ok_or(Reason::NoSuchRegister)
}

/// All numbers of a line, each with the first number that is too large for it:
/// one that is no number comes before one that is too large, wherever they stand.
fn numbers<const N: usize>(words: [(Word, u128); N]) -> Result<[u64; N], Reason> {
    let mut values = [0; N];
    let mut any_too_large = false;
    for (value, (word, first_too_large)) in values.iter_mut().zip(words) {
        let exact = number(word).ok_or(Reason::NotANumber)?;
        any_too_large |= exact >= first_too_large;
        // Cut off only where the line is wrong.
        *value = exact as u64;
    }
    if any_too_large {
        return Err(Reason::NumberTooLarge);
    }
    Ok(values)
}

/// Decimal digits, or `0x` and hexadecimal digits of either case. A number past 2^128 stays at the
/// largest, which is too large everywhere.
fn number(word: Word) -> Option<u128> {
    let (digits, radix) = match word.strip_prefix(b"0x") {
        Some(digits) => (digits, 16),
        None => (word, 10),
    };
    if digits.is_empty() {
        return None;
    }
    digits.iter().try_fold(0u128, |number, byte| {
        let digit = char::from(*byte).to_digit(radix)?;
        let shifted = number.saturating_mul(radix.into());
        Some(shifted.saturating_add(digit.into()))
    })
}

/// HEX: pairs of hexadecimal digits, one pair at least (a word is never empty).
fn pairs(hex: Word) -> Result<Vec<u8>, Reason> {
    let digit = |byte: u8| char::from(byte).to_digit(16);
    let pair = |pair: &[u8]| match pair {
        [high, low] => Some((digit(*high)? * 16 + digit(*low)?) as u8),
        _ => None,
    };
    let bytes: Option<Vec<u8>> = hex.chunks(2).map(pair).collect();
    bytes.ok_or(Reason::NotPairs)
}

// Doing what a line says: the table of "Lines".

/// What a script acts on: the registers, the memory and the book.
#[derive(Clone, Debug)]
pub struct Session {
    pub registers: Registers,
    pub base: u64,
    pub bytes: Vec<u8>,
    pub book: Book,
}

impl Default for Session {
    /// All registers 0, base 0, length 0, and the book's words all 0.
    fn default() -> Session {
        Session {
            registers: Registers::default(),
            base: 0,
            bytes: Vec::new(),
            book: Book::blank(),
        }
    }
}

impl Session {
    pub fn memory(&self) -> Memory<'_> {
        Memory {
            base: self.base,
            bytes: &self.bytes,
        }
    }

    /// Does what a command says and gives what it writes, or says that it is outside the memory.
    pub fn run(&mut self, command: &Command) -> Result<String, Reason> {
        let text = match command {
            Command::Register { register, value } => {
                self.registers.set(*register, *value);
                String::new()
            }
            Command::Memory { base, length } => {
                self.base = *base;
                self.bytes = vec![0; *length as usize];
                String::new()
            }
            Command::Write { address, bytes } => self.edit(*address, 1, bytes)?,
            Command::Fill {
                address,
                count,
                bytes,
            } => self.edit(*address, *count, bytes)?,
            Command::Lookup(request) => self.lookup(*request),
            Command::Part(request) => self.part(*request),
            Command::Open { slots } => self.open(*slots),
            Command::Ask(request) => self.ask(*request),
            Command::Notice { start, length } => self.notice(*start, *length),
            Command::Report => self.report(),
        };
        Ok(text)
    }

    /// Puts the bytes `count` times from the address on; an edit writes nothing.
    fn edit(&mut self, address: u64, count: u64, bytes: &[u8]) -> Result<String, Reason> {
        if count == 0 {
            return Ok(String::new());
        }
        let length = u128::from(count) * bytes.len() as u128;
        let place = place(self.base, self.bytes.len() as u64, address.into(), length);
        let target = place.and_then(|place| self.bytes.get_mut(place));
        for run in target
            .ok_or(Reason::OutsideTheMemory)?
            .chunks_mut(bytes.len())
        {
            run.copy_from_slice(bytes);
        }
        Ok(String::new())
    }

    fn lookup(&self, request: Request) -> String {
        match lookup(&self.registers, self.memory(), request) {
            Ok(answer) => answer_words(&answer, &self.registers) + "\n",
            Err(refusal) => refused(refusal),
        }
    }

    fn part(&self, request: Request) -> String {
        match part(&self.registers, self.memory(), request) {
            [] => "part empty\n".to_string(),
            bytes => {
                let digits = bytes.iter().map(|byte| format!("{byte:02x}"));
                format!("part {}\n", digits.collect::<String>())
            }
        }
    }

    /// A refused `open` keeps the book, an accepted one replaces it.
    fn open(&mut self, slots: u64) -> String {
        match open(self.registers, self.base, self.bytes.len() as u64, slots) {
            Ok(book) => {
                self.book = book;
                "opened\n".to_string()
            }
            Err(refusal) => refused(refusal),
        }
    }

    /// Asks with today's memory; the registers are the book's.
    fn ask(&mut self, request: Request) -> String {
        let memory = Memory {
            base: self.base,
            bytes: &self.bytes,
        };
        match ask(&mut self.book, memory, request) {
            Ok((kept, answer)) => {
                let kept = match kept {
                    Kept::Before => "kept-before",
                    Kept::Newly => "newly-kept",
                    Kept::Not => "not-kept",
                };
                let answer = answer_words(&answer, &self.book.registers);
                format!("{kept} {answer}\n")
            }
            Err(refusal) => refused(refusal),
        }
    }

    fn notice(&mut self, start: u64, length: u64) -> String {
        match notice(&mut self.book, start, length) {
            Ok(()) => "noticed\n".to_string(),
            Err(refusal) => refused(refusal),
        }
    }

    fn report(&self) -> String {
        let mut buffer = [0; report::LONGEST];
        match report(&self.book, &mut buffer) {
            Ok(length) => String::from_utf8_lossy(&buffer[..length]).into_owned(),
            Err(refusal) => refused(refusal),
        }
    }
}

fn refused(refusal: Refusal) -> String {
    format!("refused {}\n", refusal.0)
}

/// An answer as words parted by one space.
fn answer_words(answer: &Answer, registers: &Registers) -> String {
    let word = answer.outcome.word(registers);
    let rest = match answer.outcome {
        Outcome::Translate(held) => format!(
            " ste {:#x} cd {:#x} asid {} t0sz {} tg0 {} epd0 {} ips {} ttb0 {:#x}",
            held.ste, held.cd, held.asid, held.t0sz, held.tg0, held.epd0, held.ips, held.ttb0
        ),
        Outcome::Bypass { ste } => format!(" ste {ste:#x}"),
        Outcome::GlobalBypass => " global".to_string(),
        Outcome::Abort(event) => format!(" {:02X}{}", event.number(), wanted_words(event)),
        Outcome::QuietAbort => String::new(),
        Outcome::Unserved { number } => format!(" {number}"),
    };
    let list: String = match answer.list.as_slice() {
        [] => " -".to_string(),
        list => {
            let pieces = list.iter();
            pieces
                .map(|piece| format!(" {:#x}+{}", piece.address, piece.length))
                .collect()
        }
    };
    format!("{word}{rest} read{list}")
}

/// The address that a failed fetch wanted.
fn wanted_words(event: Event) -> String {
    let wanted = event.wanted();
    wanted.map_or(String::new(), |wanted| format!(" address {wanted:#x}"))
}

// The run: "What is wrong with a line".

/// Runs a script of any bytes and any length. The first line that is wrong ends it.
pub fn run(mut script: impl BufRead, mut output: impl Write) -> io::Result<()> {
    let mut session = Session::default();
    let mut line = Vec::new();
    for number in 1u64.. {
        line.clear();
        // One byte past the longest line is enough to see its line feed, or that it is too long.
        let mut bounded = script.by_ref().take(LONGEST_LINE as u64 + 1);
        bounded.read_until(b'\n', &mut line)?;
        if line.is_empty() {
            break;
        }
        let done = match parse(&line) {
            Ok(Some(command)) => session.run(&command),
            Ok(None) => continue,
            Err(reason) => Err(reason),
        };
        match done {
            Ok(text) => output.write_all(text.as_bytes())?,
            Err(reason) => {
                writeln!(output, "line {number}: {}", reason.words())?;
                break;
            }
        }
    }
    output.flush()
}
