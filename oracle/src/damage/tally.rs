//! What the cases reached: how many of each kind of damage, of each refusal, of each answer.

use super::books::held;
use super::case::{Call, Case, Told};
use super::harm::Harm;
use crate::answer::FETCHES;
use crate::book_words::{answer, key, request, COUNT, EVENT, KIND, WANTED};
use std::collections::BTreeMap;

/// Counts by name. The names that must be reached are there from the start.
pub struct Tally {
    pub cases: u64,
    /// The cases of a kind of damage: all, refused with 7, refused otherwise, answered.
    harms: BTreeMap<Harm, [u64; 4]>,
    /// Refused with each number; at 0, answered.
    refused: [u64; 9],
    reached: BTreeMap<String, u64>,
}

/// Everything that can be said by each call, and each kind of answer that is given by a lookup, by an ask that looked up, and from a slot.
const CALLS: &[(&str, &str)] = &[
    ("lookup", "done refused-1 refused-2 refused-3"),
    ("ste_part", "a-place no-part"),
    ("open", "done refused-1 refused-2 refused-4"),
    (
        "ask",
        "kept-before newly-kept not-kept refused-7 refused-6 refused-3",
    ),
    ("notice", "struck struck-none refused-7 refused-5"),
    ("report", "done done-to-the-last-byte refused-7 refused-8"),
    ("is_recorded", "0 1"),
];
const ANSWERS: &str =
    "translate bypass global-bypass abort-2 abort-3 abort-4 abort-6 abort-8 abort-9 abort-10 \
    quiet unserved-20 unserved-21 unserved-22 pieces-0 pieces-1 pieces-2 pieces-3 pieces-4";

/// What stands in the word of the address which a failed fetch wanted: in a lookup's answer, in the slot that an ask answers from, and in
/// the slots of a report. No lookup wants one of 2^57 or more. The last is a number there of an abort with another event.
const ADDRESSES: &[(&str, &str)] = &[
    ("looked up", "address-below-2^52 address-from-2^52-on"),
    (
        "kept",
        "address-below-2^52 address-from-2^52-on address-from-2^57-on address-of-no-fetch",
    ),
    (
        "report",
        "address-below-2^52 address-from-2^52-on address-from-2^57-on address-of-no-fetch",
    ),
];

impl Default for Tally {
    fn default() -> Tally {
        let said = CALLS.iter().chain(ADDRESSES).flat_map(|(call, said)| {
            let said = said.split_whitespace();
            said.map(move |said| format!("{call} {said}"))
        });
        let answered = ["looked up", "kept"].into_iter().flat_map(|from| {
            let kinds = ANSWERS.split_whitespace();
            kinds.map(move |kind| format!("{from} {kind}"))
        });
        Tally {
            cases: 0,
            harms: Harm::ALL.map(|harm| (harm, [0; 4])).into(),
            refused: [0; 9],
            reached: said.chain(answered).map(|name| (name, 0)).collect(),
        }
    }
}

impl Tally {
    fn reach(&mut self, name: String) {
        *self.reached.entry(name).or_default() += 1;
    }

    pub fn case(&mut self, case: &Case, told: &Told) {
        self.cases += 1;
        let answers_only = [Call::StePart, Call::IsRecorded].contains(&case.call);
        let refusal = match told.said {
            said @ 1..=8 if !answers_only => said as usize,
            _ => 0,
        };
        self.refused[refusal] += 1;
        let place = match refusal {
            7 => 1,
            0 => 3,
            _ => 2,
        };
        let row = self.harms.entry(case.harm).or_default();
        row[0] += 1;
        row[place] += 1;
        self.reach(said(case, told));
        match (case.call, told.said) {
            (Call::Lookup, 0) | (Call::Ask, 101 | 102) => {
                self.answer("looked up", told);
                self.address("looked up", &told.lent.answer);
            }
            (Call::Ask, 100) => {
                self.answer("kept", told);
                let asked = Some(case.request().numbers());
                self.slots("kept", case, |key| request(key) == asked);
            }
            (Call::Report, 0) => self.slots("report", case, |_| true),
            _ => {}
        }
    }

    /// The words of the address in the slots with such a key.
    fn slots(&mut self, from: &str, case: &Case, is_meant: impl Fn(u64) -> bool) {
        let book = &case.lent.book;
        for slot in held(book) {
            if is_meant(book[key(slot)]) {
                self.address(from, &book[answer(slot)..]);
            }
        }
    }

    /// The word of the address in an answer's words.
    fn address(&mut self, from: &str, words: &[u64]) {
        const TWO_52: u64 = 1 << 52;
        const TWO_57: u64 = 1 << 57;
        let of_a_fetch = FETCHES.contains(&words[EVENT]);
        let name = match words[WANTED] {
            _ if words[KIND] != 4 => return,
            0 if !of_a_fetch => return,
            _ if !of_a_fetch => "of-no-fetch",
            0..TWO_52 => "below-2^52",
            TWO_52..TWO_57 => "from-2^52-on",
            _ => "from-2^57-on",
        };
        self.reach(format!("{from} address-{name}"));
    }

    fn answer(&mut self, from: &str, told: &Told) {
        let words = &told.lent.answer;
        let kind = match words[KIND] {
            1 => "translate".to_string(),
            2 => "bypass".to_string(),
            3 => "global-bypass".to_string(),
            4 => format!("abort-{}", words[EVENT]),
            5 => "quiet".to_string(),
            _ => format!("unserved-{}", words[EVENT]),
        };
        self.reach(format!("{from} {kind}"));
        self.reach(format!("{from} pieces-{}", words[COUNT]));
    }

    /// What was never reached.
    pub fn missing(&self) -> Vec<String> {
        let reached = self.reached.iter().filter(|(_, count)| **count == 0);
        let harms = self.harms.iter().filter(|(_, row)| row[0] == 0);
        let refusals = (1..=8).filter(|number| self.refused[*number] == 0);
        reached
            .map(|(name, _)| name.clone())
            .chain(refusals.map(|number| format!("refusal {number}")))
            .chain(harms.map(|(harm, _)| harm.name().to_string()))
            .collect()
    }

    pub fn lines(&self) -> String {
        let mut text = String::from("damage: cases, refused with 7, refused otherwise, answered\n");
        for (harm, [all, seven, other, answered]) in &self.harms {
            let name = harm.name();
            text += &format!("  {name:26} {all:6} {seven:6} {other:6} {answered:6}\n");
        }
        text += "what was said, and what was answered\n";
        for (name, count) in &self.reached {
            text += &format!("  {name:32} {count:6}\n");
        }
        for (number, count) in self.refused.iter().enumerate().skip(1) {
            text += &format!("refused with {number}: {count}\n");
        }
        text + &format!("answered: {}\n", self.refused[0])
    }
}

/// What a call said, by its name.
fn said(case: &Case, told: &Told) -> String {
    let text = match (case.call, told.said) {
        (Call::StePart, u64::MAX) => "ste_part no-part",
        (Call::StePart, _) => "ste_part a-place",
        (Call::IsRecorded, said) => return format!("is_recorded {said}"),
        (Call::Notice, 0) if told.lent.book != case.lent.book => "notice struck",
        (Call::Notice, 0) => "notice struck-none",
        (Call::Report, 0) if told.lent.length == case.out_length => "report done-to-the-last-byte",
        (Call::Ask, 100) => "ask kept-before",
        (Call::Ask, 101) => "ask newly-kept",
        (Call::Ask, 102) => "ask not-kept",
        (call, said) => {
            let call = format!("{call:?}").to_lowercase();
            return match said {
                0 => format!("{call} done"),
                _ => format!("{call} refused-{said}"),
            };
        }
    };
    text.to_string()
}
