//! Scripts to compare the two programs on, and the count of what they reach.
//! They follow no section of the rules: they are built so that every rule and every sentence of
//! docs/SCRIPT.md is reached many times, on tables that mostly make sense.
//!
//! A script is settled by its sort, its seed and its index, on every machine alike.

mod bench;
mod changes;
pub mod count;
mod edges;
mod histories;
mod lookups;
mod pen;
mod random;
mod wrong;

pub use bench::Bench;
pub use changes::{change, edit, take_back};
pub use random::Random;

use crate::script::Reason;

/// Which scripts are written.
#[derive(Clone, Copy, Debug, PartialEq, Eq)]
pub enum Sort {
    /// Only `register`, `memory`, `write`, `fill`, `lookup`, `part` and comments.
    LookupsOnly,
    /// Histories of books.
    Book,
    /// Both, in turn.
    Mixed,
}

impl Sort {
    /// Whether the script with this index has lines for a book.
    fn has_book(self, index: u64) -> bool {
        match self {
            Sort::LookupsOnly => false,
            Sort::Book => true,
            Sort::Mixed => index % 2 == 1,
        }
    }
}

/// The reason whose turn it is.
fn reason(turn: u64) -> Reason {
    Reason::ALL[(turn % Reason::ALL.len() as u64) as usize]
}

/// The script with this index.
pub fn script(sort: Sort, seed: u64, index: u64) -> Vec<u8> {
    let book = sort.has_book(index);
    // Of six scripts of a kind, two are written oddly, and one of these ends in a wrong line.
    let turn = index / 2 % 6;
    let odd = turn >= 4;
    let mut bench = Bench::new(Random::new(seed, index), odd);
    if book {
        histories::write(&mut bench);
    } else {
        lookups::write(&mut bench);
    }
    if odd && bench.random.percent(30) {
        let line = wrong::longest(&mut bench.random);
        bench.raw(&line);
    }
    if turn == 5 {
        let turn = (index / 12 * 2 + index % 2).wrapping_add(seed);
        wrong::write(&mut bench, reason(turn), book);
    }
    bench.into_text()
}

/// The short script with this index: a few lines, and then a wrong one, each reason in its turn.
pub fn wrong_script(sort: Sort, seed: u64, index: u64) -> Vec<u8> {
    let odd = index % 4 == 3;
    let mut bench = Bench::new(Random::new(!seed, index), odd);
    wrong::write_short(&mut bench, reason(index), sort.has_book(index));
    bench.into_text()
}
