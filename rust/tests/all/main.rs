//! The wrapper's tests, over the archive that is native to the machine.

mod bench;
mod book;
mod header;
mod refusals;
mod shots;
mod words;
