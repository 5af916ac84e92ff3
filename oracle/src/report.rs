//! The report of a book.
//! Follows the second half of RULES, "The book", with the column that request E2 adds, and refusal 8 of "When the bench says no".

use crate::answer::Outcome;
use crate::book::{check_7, Book, Held};
use crate::refusal::{refuse_if, Refusal};
use crate::registers::Registers;

const HEADER: &str = "slot\tstream\tsubstream\toutcome\tevent\taddress\n";

/// The length of the shortest report: the header alone.
pub const SHORTEST: usize = HEADER.len();

/// The length of the longest report, 2,860: the header and 64 lines of at most 44 bytes.
pub const LONGEST: usize = HEADER.len() + 64 * 44;

/// Writes the report into the buffer and gives its length; later bytes stay as they were.
/// Order of the refusals: 7, 8.
pub fn report(book: &Book, buffer: &mut [u8]) -> Result<usize, Refusal> {
    check_7(book)?;
    let text = text(book);
    // 8: the report's buffer is shorter than its text.
    refuse_if(buffer.len() < text.len(), 8)?;
    buffer[..text.len()].copy_from_slice(text.as_bytes());
    Ok(text.len())
}

/// A header, then held slots in rising order.
fn text(book: &Book) -> String {
    let lines = book.held_slots();
    let lines = lines.map(|(slot, held)| line(slot, held, &book.registers));
    HEADER.to_string() + &lines.collect::<String>()
}

fn line(slot: usize, held: &Held, registers: &Registers) -> String {
    let stream = held.stream;
    let substream = match held.substream {
        Some(substream) => format!("{substream:05x}"),
        None => "-".to_string(),
    };
    let outcome = held.answer.outcome.word(registers);
    let event = match held.answer.outcome {
        Outcome::Abort(event) => format!("{:02X}", event.number()),
        Outcome::Unserved { number } => number.to_string(),
        _ => "-".to_string(),
    };
    let address = match held.answer.outcome.wanted() {
        Some(wanted) => format!("{wanted:016x}"),
        None => "-".to_string(),
    };
    format!("{slot}\t{stream:08x}\t{substream}\t{outcome}\t{event}\t{address}\n")
}
