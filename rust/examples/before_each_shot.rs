//! What a monitor does before each shot: it asks the book which memory the capture card's stream may reach, and fires only where the answer
//! is the one it was set up for. An edit of the tables is told to the book at once.
//!
//!     cargo run --example before_each_shot

use llobatelh::{
    Book, Event, Kept, Memory, Outcome, Refusal, Registers, Request, StreamId, REPORT_MOST,
};

const BASE: u64 = 0x4_0000;
const CARD: StreamId = id(5);
const OTHER_CARD: StreamId = id(100);

const fn id(number: u64) -> StreamId {
    match StreamId::new(number) {
        Ok(id) => id,
        Err(_) => panic!("a StreamID has 32 bits"),
    }
}

/// Whether to fire, in words. Where a descriptor could not be fetched, what was lent is looked at first.
fn verdict(outcome: Outcome) -> String {
    match outcome {
        Outcome::Bypass { .. } => "fire".to_string(),
        Outcome::Abort(Event::FSteFetch { address } | Event::FCdFetch { address }) => {
            format!("HOLD, and see whether {address:#x} is lent")
        }
        _ => "HOLD".to_string(),
    }
}

fn main() -> Result<(), Refusal> {
    // A linear Stream table of 128 entries, of which 64 are lent; the card's STE bypasses.
    let mut tables = [0; 4096];
    tables[5 * 64] = 0x09;
    let registers = Registers {
        idr1: 16,
        idr5: 5,
        cr0: 1,
        strtab_base: BASE,
        strtab_base_cfg: 7,
        ..Registers::default()
    };
    let mut book = Book::open(&registers, BASE, 4096, 8)?;
    for shot in 1..=5 {
        if shot == 4 {
            // Someone edits the STE: V 0.
            tables[5 * 64] = 0;
            book.notice(BASE + 5 * 64, 1)?;
        }
        let memory = Memory {
            base: BASE,
            bytes: &tables,
        };
        // The last shot is another card's, and its STE is not lent.
        let card = if shot == 5 { OTHER_CARD } else { CARD };
        let (kept, answer) = book.ask(memory, Request::without(card))?;
        let how = match kept {
            Kept::Before => "kept before",
            Kept::Newly | Kept::Not => "looked up",
        };
        println!(
            "shot {shot}: {how}, {:?}: {}",
            answer.outcome(),
            verdict(answer.outcome())
        );
    }
    let mut out = [0; REPORT_MOST];
    let length = book.report(&mut out)?;
    print!("{}", String::from_utf8_lossy(&out[..length]));
    Ok(())
}
