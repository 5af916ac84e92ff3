//! The independent second program: all of the rules, written from the text of the customer's document 01, which
//! docs/RULES.md restates, and of request E2 of his document 02 (the address that a failed fetch wanted).
//! A comment that says RULES names a section by the heading that both have.
//!
//! `field` to `report` are the rules, in their order; `script` is the script language of
//! docs/SCRIPT.md; `scripts` makes scripts to compare the two programs on, and counts what they reach.
//! `book_words` is a book as the words of include/llobatelh.h; `damage` makes damaged ones and compares what the calls say of them.

pub mod answer;
pub mod book;
pub mod book_words;
pub mod damage;
pub mod descriptors;
pub mod field;
pub mod lookup;
pub mod memory;
pub mod refusal;
pub mod registers;
pub mod report;
pub mod request;
pub mod script;
pub mod scripts;
