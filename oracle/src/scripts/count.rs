//! Counts what scripts reach: every outcome, event, refusal and rule, both sides of every boundary,
//! what becomes of a book, and every reason of docs/SCRIPT.md. One that is never reached counts 0.

use std::collections::{BTreeMap, BTreeSet};

use crate::answer::{recorded, Answer, Outcome};
use crate::book::{Book, Held};
use crate::descriptors::{Cd, Kind, L1cd, L1std, Ste};
use crate::field::entry;
use crate::lookup::{lookup, walk, Try, Walked};
use crate::memory::Memory;
use crate::refusal::END_OF_ADDRESSES;
use crate::registers::{effective_ips, size_in_bits, Registers};
use crate::request::{Request, StreamId, SubstreamId};
use crate::script::{parse, Command, Reason, Session, LONGEST_LINE};

/// How often each thing was reached.
#[derive(Clone, Debug, Default)]
pub struct Counts(BTreeMap<String, u64>);

impl Counts {
    /// How often the thing of this name was reached.
    pub fn of(&self, name: &str) -> u64 {
        self.0.get(name).copied().unwrap_or(0)
    }

    /// Every name that was reached.
    pub fn reached(&self) -> impl Iterator<Item = &str> {
        self.0.keys().map(String::as_str)
    }

    /// A line `NAME COUNT` for each name of the list, in its order.
    pub fn lines(&self) -> String {
        let names = names().into_iter();
        names
            .map(|name| format!("{name} {}\n", self.of(&name)))
            .collect()
    }

    fn reach(&mut self, name: impl Into<String>) {
        *self.0.entry(name.into()).or_default() += 1;
    }

    fn reach_if(&mut self, applies: bool, name: impl Into<String>) {
        if applies {
            self.reach(name);
        }
    }
}

/// What became of the book that is open: which slots were used, and what the notices of edits struck.
#[derive(Default)]
struct Past {
    used: BTreeSet<usize>,
    struck: BTreeMap<(u64, Option<u64>), Answer>,
}

// Lines.

impl Counts {
    /// Counts what a script reaches.
    pub fn script(&mut self, script: &[u8]) {
        self.reach("total.scripts");
        let mut session = Session::default();
        let mut past = Past::default();
        for line in script.split_inclusive(|byte| *byte == b'\n') {
            self.reach("total.lines");
            self.form(line);
            let command = match parse(line) {
                Ok(Some(command)) => command,
                Ok(None) => {
                    self.reach("line.does-nothing");
                    continue;
                }
                Err(reason) => return self.wrong(reason),
            };
            self.before(&session, &command);
            let book = session.book.clone();
            match session.run(&command) {
                Ok(text) => self.after(&session, &book, &command, &text, &mut past),
                Err(reason) => return self.wrong(reason),
            }
        }
    }

    fn wrong(&mut self, reason: Reason) {
        self.reach(format!("wrong.{}", reason.words().replace(' ', "-")));
    }

    fn form(&mut self, line: &[u8]) {
        let without = line.strip_suffix(b"\n").unwrap_or(line);
        self.reach_if(without.len() == line.len(), "line.without-LF");
        self.reach_if(without.ends_with(b"\r"), "line.with-CR");
        self.reach_if(without.contains(&b'\t'), "line.with-tab");
        self.reach_if(without.len() == LONGEST_LINE, "line.of-4096-bytes");
    }

    /// What a command will reach.
    fn before(&mut self, session: &Session, command: &Command) {
        match command {
            Command::Lookup(request) | Command::Part(request) => {
                self.lookup(&session.registers, session.memory(), *request);
            }
            Command::Notice { start, length } => self.notice(&session.book, *start, *length),
            Command::Fill { count: 0, .. } => self.reach("fill.COUNT-0"),
            _ => {}
        }
    }

    /// What a command has reached: its total, the first words that it wrote, and the book's change.
    fn after(
        &mut self,
        session: &Session,
        book: &Book,
        command: &Command,
        text: &str,
        past: &mut Past,
    ) {
        let words: Vec<&str> = text.split_whitespace().take(2).collect();
        let wrote = match words.as_slice() {
            ["refused", number] => format!("refused-{number}"),
            ["part", "empty"] => "empty".to_string(),
            ["part", _] => "STE".to_string(),
            ["slot", _] => "written".to_string(),
            [first, ..] => first.to_string(),
            [] => String::new(),
        };
        match command {
            Command::Register { .. } => self.reach("total.registers"),
            Command::Memory { .. } => self.reach("total.memories"),
            Command::Write { .. } | Command::Fill { .. } => self.reach("total.edits"),
            Command::Lookup(_) => {
                self.reach("total.lookups");
                self.reach_if(wrote.starts_with("refused"), format!("lookup.{wrote}"));
            }
            Command::Part(_) => {
                self.reach("total.parts");
                self.reach(format!("part.{wrote}"));
            }
            Command::Open { .. } => {
                self.reach("total.opens");
                self.reach(format!("open.{wrote}"));
                self.opened(book, &session.book, &wrote, past);
            }
            Command::Ask(request) => {
                self.reach("total.asks");
                self.reach(format!("ask.{wrote}"));
                self.asked(session, book, *request, &wrote, past);
            }
            Command::Notice { length, .. } => {
                self.reach("total.notices");
                self.reach(format!("notice.{wrote}"));
                self.struck(session, book, *length, past);
            }
            Command::Report => {
                self.reach("total.reports");
                self.reach(format!("report.{wrote}"));
                self.reported(text);
            }
        }
    }
}

// Lookups.

impl Counts {
    fn lookup(&mut self, registers: &Registers, memory: Memory, request: Request) {
        match walk(registers, memory, request) {
            Ok(walked) => {
                self.outcome(registers, &walked.answer.outcome);
                for rule in &walked.trace.rules {
                    self.reach(*rule);
                }
                self.extent(registers, memory);
                self.stream_edges(registers, request, &walked);
                self.ste_edges(registers, request, &walked);
                self.l1cd_edges(request, &walked);
                self.cd_edges(registers, &walked);
                for tried in &walked.trace.tries {
                    self.fetch_edges(registers, memory, tried);
                }
            }
            Err(_) => self.refusal_clauses(registers, memory, request),
        }
    }

    fn refusal_clauses(&mut self, registers: &Registers, memory: Memory, request: Request) {
        let end = u128::from(memory.base) + u128::from(memory.length());
        self.reach_if(registers.oas() == 7, "refusal-1.OAS-7");
        self.reach_if(registers.sidsize() > 32, "refusal-1.SIDSIZE-above-32");
        self.reach_if(registers.ssidsize() > 20, "refusal-1.SSIDSIZE-above-20");
        self.reach_if(memory.base & 63 != 0, "refusal-2.base-not-a-multiple");
        self.reach_if(end > END_OF_ADDRESSES, "refusal-2.end-above-2^52");
        let first = request.substream.is_some_and(|given| given.0 == 1 << 20);
        self.reach_if(first, "refusal-3.SubstreamID-2^20");
    }

    fn outcome(&mut self, registers: &Registers, outcome: &Outcome) {
        let name = match outcome {
            Outcome::GlobalBypass => "global-bypass",
            _ => outcome.word(registers),
        };
        self.reach(format!("outcome.{name}"));
        match outcome {
            Outcome::Abort(event) if !recorded(event.number(), registers) => {
                self.reach("event.02-unrecorded");
            }
            Outcome::Abort(event) => self.reach(format!("event.{:02X}", event.number())),
            Outcome::Unserved { number } => self.reach(format!("unserved.{number}")),
            _ => {}
        }
    }

    fn extent(&mut self, registers: &Registers, memory: Memory) {
        let start = u128::from(memory.base);
        let end = start + u128::from(memory.length());
        let top = 1 << registers.oas_size().unwrap_or(52);
        self.reach(format!("OAS.{}", registers.oas()));
        self.reach_if(start == 0, "memory.base-0");
        self.reach_if(start > 0, "memory.base-not-0");
        self.reach_if(start == end, "memory.empty");
        self.reach_if(start < 1 << 48 && end >= 1 << 48, "memory.at-2^48");
        self.reach_if(end == END_OF_ADDRESSES, "memory.ends-at-2^52");
        self.reach_if(start < top && top < end, "memory.crosses-OAS");
        self.reach_if(start >= top, "memory.above-OAS");
    }

    fn stream_edges(&mut self, registers: &Registers, request: Request, walked: &Walked) {
        if registers.smmuen() == 0 {
            return;
        }
        let stream = u64::from(request.stream.0);
        let (log2size, sidsize) = (registers.log2size(), registers.sidsize());
        self.reach_if(log2size < sidsize, "stream-2.LOG2SIZE-is-smaller");
        self.reach_if(log2size > sidsize, "stream-2.SIDSIZE-is-smaller");
        let log2size = registers.effective_log2size();
        self.reach_if(stream + 1 == 1 << log2size, "edge.StreamID-last");
        self.reach_if(stream == 1 << log2size, "edge.StreamID-first-out");
        let Some(first) = walked.trace.tries.first() else {
            return;
        };
        let addr = registers.addr();
        if first.kind == Kind::Ste {
            self.reach(format!("linear.ST_LEVEL-{}", registers.st_level()));
            self.reach(format!("linear.FMT-{}", registers.fmt()));
            let moved = entry(addr, 64, stream) != first.address;
            self.reach_if(moved, "moved.ADDR-linear");
            return;
        }
        let split = registers.effective_split();
        self.reach(format!("two-level.ST_LEVEL-{}", registers.st_level()));
        let coded = registers.split() == split;
        self.reach_if(coded, format!("stream-4.SPLIT-{split}"));
        self.reach_if(!coded, "stream-4.SPLIT-other");
        self.reach_if(log2size < split, "stream-4.LOG2SIZE-below-SPLIT");
        self.reach_if(log2size + 2 <= split + 5, "stream-4.N-5");
        self.reach_if(log2size + 2 > split + 5, "stream-4.N-above-5");
        let moved = entry(addr, 8, stream >> split) != first.address;
        self.reach_if(moved, "moved.ADDR-two-level");
        if let Some(l1std) = walked.trace.fetched(Kind::L1std).map(L1std::read) {
            self.l1std_edges(split, stream % (1 << split), l1std, walked);
        }
    }

    fn l1std_edges(&mut self, split: u64, low_bits: u64, l1std: L1std, walked: &Walked) {
        let span = l1std.span;
        self.reach_if(span == 11, "edge.Span-11");
        self.reach_if(span == 12, "edge.Span-12");
        self.reach_if(
            span == split + 1,
            format!("edge.Span-{}-SPLIT-{split}", span),
        );
        self.reach_if(
            span == split + 2,
            format!("edge.Span-{}-SPLIT-{split}", span),
        );
        if (1..=split + 1).contains(&span) {
            let stes = 1 << (span - 1);
            self.reach_if(low_bits + 1 == stes, "edge.low-bits-last");
            self.reach_if(low_bits == stes, "edge.low-bits-first-out");
        }
        if let Some(second) = walked.trace.tries.get(1) {
            let moved = entry(l1std.l2ptr, 64, low_bits) != second.address;
            self.reach_if(moved, "moved.L2Ptr");
            self.reach_if(!moved, "moved.not-L2Ptr");
        }
    }

    fn ste_edges(&mut self, registers: &Registers, request: Request, walked: &Walked) {
        let Some(ste) = walked.trace.fetched(Kind::Ste).map(Ste::read) else {
            return;
        };
        let at = |rule: &str| walked.trace.rules.contains(&rule);
        let given = request.substream.map(|given| given.0);
        self.reach_if(ste.v == 1, format!("Config.{}", ste.config));
        let quiet = at("ste-2.quiet-abort");
        self.reach_if(quiet && given.is_some(), "ste-2.with-SubstreamID");
        if !(ste.v == 1 && ste.config == 5 && registers.s1p() == 1) {
            return;
        }
        let (s1cdmax, ssidsize) = (ste.s1cdmax, registers.ssidsize());
        self.reach_if(s1cdmax == ssidsize, "edge.S1CDMax-SSIDSIZE");
        self.reach_if(s1cdmax == ssidsize + 1, "edge.S1CDMax-SSIDSIZE+1");
        let past_7 = walked
            .trace
            .rules
            .iter()
            .any(|rule| rule.starts_with("ste-8."));
        if past_7 {
            let hyp = registers.hyp();
            self.reach_if(hyp == 0 && ste.strw != 0, "ste-7.HYP-0-STRW-not-0");
            self.reach_if(hyp == 1, "ste-7.HYP-1-STRW-0");
            let ignored = s1cdmax == 0;
            self.reach_if(ignored && ste.s1fmt != 0, "ste-6.S1Fmt-ignored");
            self.reach_if(ignored && ste.s1dss == 3, "ste-6.S1DSS-3-ignored");
            let last = given.is_some_and(|given| given + 1 == 1 << s1cdmax);
            self.reach_if(last, "edge.SubstreamID-last");
            let out = given.is_some_and(|given| given == 1 << s1cdmax);
            self.reach_if(out, "edge.SubstreamID-first-out");
            let zero = given == Some(0) && at("ste-8.with-SubstreamID");
            self.reach_if(zero, "ste-8.SubstreamID-0-goes-on");
        }
        if at("cd.S1Fmt-0") {
            let unaligned = ste.s1contextptr % (64 << s1cdmax) != 0;
            self.reach_if(unaligned, "unaligned.S1ContextPtr");
        }
    }

    fn l1cd_edges(&mut self, request: Request, walked: &Walked) {
        let ste = walked.trace.fetched(Kind::Ste).map(Ste::read);
        let l1cd = walked.trace.fetched(Kind::L1cd).map(L1cd::read);
        let (Some(ste), Some(l1cd)) = (ste, l1cd) else {
            return;
        };
        let given = request.substream.map(|given| given.0);
        let leaf_bits = ste.leaf_bits().unwrap_or(0);
        let upper_bits = given.unwrap_or(0) >> leaf_bits;
        self.reach(format!("cd.S1Fmt-{}", ste.s1fmt));
        self.reach_if(upper_bits > 0, format!("cd.upper-bits-of-{leaf_bits}"));
        let unaligned = l1cd.v == 1 && l1cd.l2ptr % (64 << leaf_bits) != 0;
        self.reach_if(unaligned, "unaligned.L2Ptr-of-L1CD");
        let without = l1cd.v == 0 && given.is_none();
        self.reach_if(without, "cd.L1CD-V-0-without-SubstreamID");
    }

    fn cd_edges(&mut self, registers: &Registers, walked: &Walked) {
        let at = |rule: &str| walked.trace.rules.contains(&rule);
        let Some(cd) = walked.trace.fetched(Kind::Cd).map(Cd::read) else {
            return;
        };
        if at("cd.granule-not-in-IDR5") {
            self.reach(format!("cd.granule-of-TG0-{}-not-there", cd.tg0));
        }
        self.reach_if(at("cd.T0SZ-below-16") && cd.t0sz == 15, "edge.T0SZ-15");
        self.reach_if(at("cd.T0SZ-above-39") && cd.t0sz == 40, "edge.T0SZ-40");
        let oas_size = registers.oas_size().unwrap_or(52);
        let size = size_in_bits(cd.ips);
        let limit = 1 << effective_ips(cd.ips, oas_size);
        let first_out = at("cd.TTB0-reaches") && cd.ttb0 == limit;
        self.reach_if(first_out, "edge.TTB0-first-out");
        if at("cd.EPD0-1-accepted") {
            let shown = cd.tg0 == 3 || !(16..=39).contains(&cd.t0sz) || cd.ttb0 >= limit;
            self.reach_if(shown, "cd.EPD0-1-hides-a-fault");
        }
        if at("cd.accepted") {
            self.reach(format!("cd.accepted-TG0-{}", cd.tg0));
            self.reach(format!("cd.accepted-IPS-{}", cd.ips));
            self.reach_if(size.is_some_and(|size| size < oas_size), "cd.IPS-below-OAS");
            self.reach_if(size.is_some_and(|size| size > oas_size), "cd.IPS-above-OAS");
            self.reach_if(cd.t0sz == 16, "edge.T0SZ-16");
            self.reach_if(cd.t0sz == 39, "edge.T0SZ-39");
            self.reach_if(cd.ttb0 + 16 == limit, "edge.TTB0-last");
        }
    }

    fn fetch_edges(&mut self, registers: &Registers, memory: Memory, tried: &Try) {
        let of_it = KINDS.iter().find(|(kind, _)| *kind == tried.kind);
        let kind = of_it.map_or("", |(_, name)| name);
        let stand = Stand::of(registers, memory, tried);
        let in_memory = stand.in_memory();
        let Stand {
            start,
            end,
            memory_start,
            memory_end,
            top,
        } = stand;
        let edges = match tried.word {
            Some(_) => [
                (true, "had"),
                (start == memory_start, "had-at-memory-start"),
                (end == memory_end, "had-at-memory-end"),
                (end == top, "had-at-OAS-end"),
            ],
            None => [
                (end == memory_start, "fails-before-memory"),
                (start == memory_end, "fails-after-memory"),
                (
                    start < memory_end && end > memory_end,
                    "fails-across-memory-end",
                ),
                (start == top && in_memory, "fails-after-OAS-in-memory"),
            ],
        };
        for (applies, edge) in edges {
            self.reach_if(applies, format!("fetch.{kind}.{edge}"));
        }
        let cut = start >= top && (memory_start..memory_end).contains(&(start % top));
        self.reach_if(cut, "fetch.would-be-had-if-cut-off");
        if tried.word.is_none() {
            for (way, applies) in WAYS {
                self.reach_if(applies(&stand), wanted(kind, way));
            }
            self.reach_if(start >= 1 << 52, "fetch.wanted-at-2^52-or-above");
            self.reach_if(start >= 1 << 56, "fetch.wanted-at-2^56-or-above");
        }
    }
}

// The book.

impl Counts {
    fn opened(&mut self, before: &Book, after: &Book, wrote: &str, past: &mut Past) {
        let held_before = before.held_slots().count() > 0;
        if wrote == "opened" {
            *past = Past::default();
            self.reach_if(held_before, "book.replaced-by-opening");
            self.reach_if(after.slots == 1, "book.of-1-slot");
            self.reach_if(after.slots == 64, "book.of-64-slots");
        } else {
            self.reach_if(held_before, "book.stays-when-opening-is-refused");
        }
    }

    fn asked(
        &mut self,
        session: &Session,
        before: &Book,
        request: Request,
        wrote: &str,
        past: &mut Past,
    ) {
        let book = &session.book;
        let memory = session.memory();
        if ["newly-kept", "not-kept"].contains(&wrote) {
            self.lookup(&book.registers, memory, request);
        }
        match wrote {
            "kept-before" => {
                let fresh = lookup(&book.registers, memory, request).ok();
                let held = book.held_for(request).map(|held| &held.answer);
                self.reach_if(fresh.as_ref() != held, "ask.kept-before-and-stale");
                if let Some((fresh, held)) = fresh.as_ref().zip(held) {
                    self.kept_address(held);
                    let alone = differ_in_the_address_alone(held, fresh);
                    self.reach_if(alone, "ask.stale-in-the-address-alone");
                }
                let other = book.registers != session.registers;
                self.reach_if(other, "ask.with-other-registers-than-the-books");
            }
            "newly-kept" => {
                let new = |slot: &usize| before.held[*slot].is_none() && book.held[*slot].is_some();
                if let Some(slot) = (0..64).find(new) {
                    let again = !past.used.insert(slot);
                    self.reach_if(again, "ask.newly-kept-in-a-struck-slot");
                    self.reach_if(slot == 63, "ask.newly-kept-in-slot-63");
                }
                let new = book.held_for(request).map(|held| &held.answer);
                let old = past.struck.remove(&request.numbers());
                let both = old.as_ref().zip(new);
                let alone = both.is_some_and(|(old, new)| differ_in_the_address_alone(old, new));
                self.reach_if(alone, "ask.newly-kept-and-new-in-the-address-alone");
            }
            "refused-6" => {
                self.reach_if(memory.base != book.base, "refusal-6.base");
                self.reach_if(memory.length() != book.length, "refusal-6.length");
                let both = request.substream.is_some_and(|given| given.0 >= 1 << 20);
                self.reach_if(both, "refusal-6.before-3");
            }
            _ => {}
        }
    }

    /// An answer that comes from its slot with the address that a failed fetch wanted.
    fn kept_address(&mut self, held: &Answer) {
        if let Outcome::Abort(event) = held.outcome {
            let name = format!("ask.kept-before-with-address-{:02X}", event.number());
            self.reach_if(event.wanted().is_some(), name);
        }
    }

    /// Where a notice stands to the pieces that the book holds.
    fn notice(&mut self, book: &Book, start: u64, length: u64) {
        let start = u128::from(start);
        let end = start + u128::from(length);
        self.reach_if(end > 1 << 64, "notice.sum-past-2^64");
        self.reach_if(end == END_OF_ADDRESSES, "notice.ends-at-2^52");
        self.reach_if(end == END_OF_ADDRESSES + 1, "notice.ends-at-2^52+1");
        for (_, held) in book.held_slots() {
            let mut met = Vec::new();
            for (place, piece) in held.answer.list.iter().enumerate() {
                let (first, size) = (u128::from(piece.address), piece.length);
                let after = first + u128::from(size);
                self.reach_if(length == 0 && start == first, "notice.length-0-at-a-piece");
                if length == 1 {
                    self.reach_if(start == first, format!("notice.first-byte-of-{size}"));
                    self.reach_if(end == after, format!("notice.last-byte-of-{size}"));
                    self.reach_if(end == first, format!("notice.byte-before-{size}"));
                    self.reach_if(start == after, format!("notice.byte-after-{size}"));
                }
                if length > 0 && first < end && start < after {
                    met.push(place + 1);
                }
            }
            if let [only] = met.as_slice() {
                self.reach(format!("notice.meets-only-piece-{only}"));
            }
        }
    }

    fn struck(&mut self, session: &Session, before: &Book, length: u64, past: &mut Past) {
        let after = &session.book;
        for (slot, held) in before.held_slots() {
            let fresh = || lookup(&after.registers, session.memory(), request_of(held)).ok();
            // Struck, and by now a lookup gives another answer: it is the notice of an edit.
            if after.held[slot].is_none() && fresh().is_some_and(|fresh| fresh != held.answer) {
                past.struck.insert(held.request(), held.answer.clone());
            }
        }
        let gone = before.held_slots().count() - after.held_slots().count();
        let stayed = after.held_slots().count();
        self.reach_if(length == 0, "notice.length-0");
        self.reach_if(gone == 0, "notice.strikes-none");
        self.reach_if(gone == 1, "notice.strikes-one");
        self.reach_if(gone > 1, "notice.strikes-more");
        self.reach_if(gone > 0 && stayed > 0, "notice.strikes-some-but-not-all");
    }

    fn reported(&mut self, text: &str) {
        let rows: Vec<Vec<&str>> = text
            .lines()
            .skip(1)
            .map(|line| line.split('\t').collect())
            .collect();
        self.reach_if(rows.is_empty(), "report.rows-0");
        self.reach_if(rows.len() == 64, "report.rows-64");
        let slot = |row: &Vec<&str>| row[0].parse::<usize>().ok();
        let gap = rows
            .iter()
            .enumerate()
            .any(|(place, row)| slot(row) != Some(place));
        self.reach_if(gap, "report.with-an-empty-slot-between");
        for row in rows {
            if let [_, _, substream, outcome, event, address] = row.as_slice() {
                self.reach(format!("report.{outcome}"));
                self.reach_if(*substream != "-", "report.with-SubstreamID");
                self.reach_if(*address != "-", format!("report.with-address-{event}"));
            }
        }
    }
}

/// The request of a held slot of a book that is not malformed.
fn request_of(held: &Held) -> Request {
    Request {
        stream: StreamId(held.stream as u32),
        substream: held.substream.map(SubstreamId),
    }
}

/// Whether two answers have the same event and the same list, and yet differ: in the address that a failed
/// fetch wanted.
fn differ_in_the_address_alone(one: &Answer, other: &Answer) -> bool {
    let event = |answer: &Answer| match answer.outcome {
        Outcome::Abort(event) => Some(event.number()),
        _ => None,
    };
    one != other && one.list == other.list && event(one).is_some() && event(one) == event(other)
}

/// Where a descriptor that a fetch wanted stands to the memory and to the end of the OAS.
struct Stand {
    start: u128,
    end: u128,
    memory_start: u128,
    memory_end: u128,
    top: u128,
}

impl Stand {
    fn of(registers: &Registers, memory: Memory, tried: &Try) -> Stand {
        let start = u128::from(tried.address);
        let memory_start = u128::from(memory.base);
        Stand {
            start,
            end: start + u128::from(tried.kind.length()),
            memory_start,
            memory_end: memory_start + u128::from(memory.length()),
            top: 1 << registers.oas_size().unwrap_or(52),
        }
    }

    fn in_memory(&self) -> bool {
        self.memory_start <= self.start && self.end <= self.memory_end
    }

    /// The same without the bits at or above the OAS.
    fn cut_off(&self) -> Stand {
        let start = self.start % self.top;
        let end = start + (self.end - self.start);
        Stand {
            start,
            end,
            ..*self
        }
    }
}

/// The kinds of descriptor, by their names.
const KINDS: [(Kind, &str); 4] = [
    (Kind::L1std, "L1STD"),
    (Kind::Ste, "STE"),
    (Kind::L1cd, "L1CD"),
    (Kind::Cd, "CD"),
];

/// A way in which a fetch fails: its name, and whether it is the one thing that is wrong.
type Way = (&'static str, fn(&Stand) -> bool);

/// The ways in which a fetch fails. A descriptor starts at a multiple of its length, and the memory's start and the end of the OAS
/// are multiples of 64: no descriptor lies across either of these.
const WAYS: [Way; 4] = [
    ("below-memory", |at| {
        at.end <= at.top && at.start < at.memory_start
    }),
    ("past-memory", |at| {
        at.end <= at.top && at.start >= at.memory_end
    }),
    ("across-memory-end", |at| {
        let starts_inside = (at.memory_start..at.memory_end).contains(&at.start);
        at.end <= at.top && starts_inside && at.end > at.memory_end
    }),
    // It lies in the memory, or would without the bits that are kept.
    ("above-OAS", |at| {
        at.end > at.top && (at.in_memory() || at.cut_off().in_memory())
    }),
];

/// The name of a kind's fetch that fails in some way.
fn wanted(kind: &str, way: &str) -> String {
    format!("fetch.{kind}.wanted-{way}")
}

/// All names, in the order in which they are printed: those of the list, and each kind of fetch in each way in which it fails.
pub fn names() -> Vec<String> {
    let listed = NAMES.iter().flat_map(|names| names.split_whitespace());
    let kinds = KINDS.iter();
    let failing = kinds.flat_map(|(_, kind)| WAYS.iter().map(|(way, _)| wanted(kind, way)));
    listed.map(str::to_string).chain(failing).collect()
}

/// The names that stand alone.
const NAMES: &[&str] = &[
    "total.scripts total.lines total.registers total.memories total.edits total.lookups total.parts",
    "total.opens total.asks total.notices total.reports",
    "outcome.translate outcome.bypass outcome.global-bypass outcome.abort outcome.unrecorded",
    "outcome.quiet outcome.unserved",
    "event.02 event.02-unrecorded event.03 event.04 event.06 event.08 event.09 event.0A",
    "unserved.20 unserved.21 unserved.22",
    "lookup.refused-1 lookup.refused-2 lookup.refused-3 part.empty part.STE",
    "open.opened open.refused-1 open.refused-2 open.refused-4",
    "ask.kept-before ask.newly-kept ask.not-kept ask.refused-7 ask.refused-6 ask.refused-3",
    "notice.noticed notice.refused-7 notice.refused-5 report.written report.refused-7",
    "refusal-1.OAS-7 refusal-1.SIDSIZE-above-32 refusal-1.SSIDSIZE-above-20",
    "refusal-2.base-not-a-multiple refusal-2.end-above-2^52 refusal-3.SubstreamID-2^20",
    "refusal-6.base refusal-6.length refusal-6.before-3",
    "OAS.0 OAS.1 OAS.2 OAS.3 OAS.4 OAS.5 OAS.6",
    "memory.base-0 memory.base-not-0 memory.empty memory.at-2^48 memory.ends-at-2^52",
    "memory.crosses-OAS memory.above-OAS",
    "stream-1.quiet-abort stream-1.global-bypass",
    "stream-2.LOG2SIZE-is-smaller stream-2.SIDSIZE-is-smaller stream-2.out-of-range",
    "edge.StreamID-last edge.StreamID-first-out",
    "stream-3.ST_LEVEL-0 stream-3.FMT-not-1",
    "linear.ST_LEVEL-0 linear.ST_LEVEL-1 linear.ST_LEVEL-2 linear.ST_LEVEL-3",
    "linear.FMT-0 linear.FMT-1 linear.FMT-2 linear.FMT-3 moved.ADDR-linear",
    "two-level.ST_LEVEL-1 two-level.ST_LEVEL-2 two-level.ST_LEVEL-3",
    "stream-4.SPLIT-6 stream-4.SPLIT-8 stream-4.SPLIT-10 stream-4.SPLIT-other",
    "stream-4.LOG2SIZE-below-SPLIT stream-4.N-5 stream-4.N-above-5 moved.ADDR-two-level",
    "stream-4.L1STD-fetch-fails",
    "stream-5.Span-0 stream-5.Span-12-to-31 stream-5.Span-above-SPLIT+1 stream-5.low-bits-reach",
    "edge.Span-11 edge.Span-12 edge.Span-7-SPLIT-6 edge.Span-8-SPLIT-6 edge.Span-9-SPLIT-8",
    "edge.Span-10-SPLIT-8 edge.Span-11-SPLIT-10 edge.Span-12-SPLIT-10",
    "edge.low-bits-last edge.low-bits-first-out",
    "stream-6.L2Ptr moved.L2Ptr moved.not-L2Ptr stream.STE-fetch-fails",
    "Config.0 Config.1 Config.2 Config.3 Config.4 Config.5 Config.6 Config.7",
    "ste-1.V-0 ste-2.quiet-abort ste-2.with-SubstreamID ste-3.S1P-0 ste-3.S2P-0 ste-4.unserved-20",
    "ste-5.with-SubstreamID ste-5.bypass",
    "ste-6.S1CDMax-above-SSIDSIZE edge.S1CDMax-SSIDSIZE edge.S1CDMax-SSIDSIZE+1",
    "ste-6.S1Fmt-3 ste-6.S1Fmt-not-0-CD2L-0 ste-6.S1DSS-3 ste-6.S1Fmt-ignored",
    "ste-6.S1DSS-3-ignored ste-7.unserved-22 ste-7.HYP-0-STRW-not-0 ste-7.HYP-1-STRW-0",
    "ste-8.S1CDMax-0-with-SubstreamID ste-8.SubstreamID-out-of-range",
    "edge.SubstreamID-last edge.SubstreamID-first-out",
    "ste-8.SubstreamID-0-S1DSS-2 ste-8.SubstreamID-0-goes-on ste-8.with-SubstreamID",
    "ste-8.S1CDMax-0-without ste-8.S1DSS-0 ste-8.S1DSS-1 ste-8.S1DSS-2",
    "cd.the-one-CD cd.S1Fmt-0 cd.S1Fmt-1 cd.S1Fmt-2 cd.upper-bits-of-6 cd.upper-bits-of-10",
    "unaligned.S1ContextPtr unaligned.L2Ptr-of-L1CD",
    "cd.L1CD-fetch-fails cd.L1CD-V-0 cd.L1CD-V-0-without-SubstreamID cd.CD-fetch-fails",
    "cd.V-0 cd.AA64-0-unserved-21 cd.AA64-0-TTF-low-bit-clear cd.AA64-1-TTF-high-bit-clear",
    "cd.EPD0-1-accepted cd.EPD0-1-hides-a-fault cd.TG0-3 cd.granule-not-in-IDR5",
    "cd.granule-of-TG0-0-not-there cd.granule-of-TG0-1-not-there cd.granule-of-TG0-2-not-there",
    "cd.T0SZ-below-16 cd.T0SZ-above-39 edge.T0SZ-15 edge.T0SZ-16 edge.T0SZ-39 edge.T0SZ-40",
    "cd.TTB0-reaches edge.TTB0-last edge.TTB0-first-out cd.accepted",
    "cd.accepted-TG0-0 cd.accepted-TG0-1 cd.accepted-TG0-2 cd.IPS-below-OAS cd.IPS-above-OAS",
    "cd.accepted-IPS-0 cd.accepted-IPS-1 cd.accepted-IPS-2 cd.accepted-IPS-3 cd.accepted-IPS-4",
    "cd.accepted-IPS-5 cd.accepted-IPS-6 cd.accepted-IPS-7",
    "fetch.L1STD.had fetch.L1STD.had-at-memory-start fetch.L1STD.had-at-memory-end",
    "fetch.L1STD.had-at-OAS-end fetch.L1STD.fails-before-memory fetch.L1STD.fails-after-memory",
    "fetch.L1STD.fails-across-memory-end fetch.L1STD.fails-after-OAS-in-memory",
    "fetch.STE.had fetch.STE.had-at-memory-start fetch.STE.had-at-memory-end",
    "fetch.STE.had-at-OAS-end fetch.STE.fails-before-memory fetch.STE.fails-after-memory",
    "fetch.STE.fails-across-memory-end fetch.STE.fails-after-OAS-in-memory",
    "fetch.L1CD.had fetch.L1CD.had-at-memory-start fetch.L1CD.had-at-memory-end",
    "fetch.L1CD.had-at-OAS-end fetch.L1CD.fails-before-memory fetch.L1CD.fails-after-memory",
    "fetch.L1CD.fails-across-memory-end fetch.L1CD.fails-after-OAS-in-memory",
    "fetch.CD.had fetch.CD.had-at-memory-start fetch.CD.had-at-memory-end",
    "fetch.CD.had-at-OAS-end fetch.CD.fails-before-memory fetch.CD.fails-after-memory",
    "fetch.CD.fails-across-memory-end fetch.CD.fails-after-OAS-in-memory",
    "fetch.would-be-had-if-cut-off fetch.wanted-at-2^52-or-above fetch.wanted-at-2^56-or-above",
    "book.of-1-slot book.of-64-slots book.replaced-by-opening book.stays-when-opening-is-refused",
    "ask.kept-before-and-stale ask.with-other-registers-than-the-books",
    "ask.newly-kept-in-a-struck-slot ask.newly-kept-in-slot-63",
    "ask.kept-before-with-address-03 ask.kept-before-with-address-09 ask.stale-in-the-address-alone",
    "ask.newly-kept-and-new-in-the-address-alone",
    "notice.sum-past-2^64 notice.ends-at-2^52 notice.ends-at-2^52+1 notice.length-0",
    "notice.length-0-at-a-piece notice.first-byte-of-8 notice.first-byte-of-64",
    "notice.last-byte-of-8 notice.last-byte-of-64 notice.byte-before-8 notice.byte-before-64",
    "notice.byte-after-8 notice.byte-after-64",
    "notice.meets-only-piece-1 notice.meets-only-piece-2 notice.meets-only-piece-3",
    "notice.meets-only-piece-4 notice.strikes-none notice.strikes-one notice.strikes-more",
    "notice.strikes-some-but-not-all",
    "report.rows-0 report.rows-64 report.with-an-empty-slot-between report.with-SubstreamID",
    "report.translate report.bypass report.abort report.unrecorded report.quiet report.unserved",
    "report.with-address-03 report.with-address-09",
    "fill.COUNT-0 line.does-nothing line.without-LF line.with-CR line.with-tab line.of-4096-bytes",
    "wrong.the-line-is-too-long wrong.no-such-command wrong.too-few-words wrong.too-many-words",
    "wrong.no-such-register wrong.not-a-number wrong.the-number-is-too-large",
    "wrong.not-pairs-of-hexadecimal-digits wrong.outside-the-memory",
];
