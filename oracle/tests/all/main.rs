//! The tests of the oracle, by the section of docs/RULES.md or of docs/SCRIPT.md that they hold it to.

mod common;
mod coverage;
mod damage;
mod laws;
mod lines;
mod readings;
mod refusals;
mod rules;
mod shots;
mod words;
