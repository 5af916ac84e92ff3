//! The rules' promises, on tables and histories made from random numbers: the list decides the answer, the book is
//! never stale where every edit has its notice, and every input ends with an answer or a refusal.

use crate::common::*;
use oracle::answer::{Answer, Outcome, Piece};
use oracle::book::{ask, malformed, notice, open, Book, Held};
use oracle::lookup::{lookup, part, walk};
use oracle::memory::Memory;
use oracle::refusal::{check_1, check_2, check_3};
use oracle::registers::{Register, Registers};
use oracle::report::{report, LONGEST};
use oracle::script::{run, Command};
use oracle::scripts::{change, edit, script, take_back, Bench, Random, Sort};

/// Other bytes than these, all of them, but for those in the list.
fn other_memory(random: &mut Random, memory: Memory, list: &[Piece]) -> Vec<u8> {
    let inverted = random.percent(50);
    let mut other: Vec<u8> = memory
        .bytes
        .iter()
        .map(|byte| if inverted { !byte } else { random.word() as u8 })
        .collect();
    for piece in list {
        let start = (piece.address - memory.base) as usize;
        let place = start..start + piece.length as usize;
        other[place.clone()].copy_from_slice(&memory.bytes[place]);
    }
    other
}

#[test]
fn the_list_decides_the_answer_and_the_list() {
    let mut translations = 0;
    for index in 0..60 {
        let mut bench = Bench::new(Random::new(11, index), false);
        let requests = bench.set_up(6);
        for turn in 0..40 {
            let mut request = requests[turn % requests.len()];
            let back = change(&mut bench, &mut request);
            let session = &bench.session;
            if let Ok(walked) = walk(&session.registers, session.memory(), request) {
                let list = &walked.answer.list;
                assert!(list.len() <= 4);
                assert!(list.iter().all(|piece| [8, 64].contains(&piece.length)));
                let bytes = other_memory(&mut bench.random.clone(), session.memory(), list);
                let base = session.base;
                let again = lookup(
                    &session.registers,
                    Memory {
                        base,
                        bytes: &bytes,
                    },
                    request,
                );
                assert_eq!(Ok(&walked.answer), again.as_ref());
                let translates = matches!(walked.answer.outcome, Outcome::Translate(_));
                translations += u32::from(translates);
            }
            take_back(&mut bench, back);
        }
    }
    assert!(translations > 300, "{translations}");
}

#[test]
fn the_part_is_the_ste_of_the_list() {
    for index in 0..40 {
        let mut bench = Bench::new(Random::new(12, index), false);
        for request in bench.set_up(10) {
            let memory = bench.session.memory();
            let found = lookup(&bench.session.registers, memory, request);
            let part = part(&bench.session.registers, memory, request);
            let ste = found.ok().and_then(|found| {
                let mut list = found.list.into_iter();
                list.find(|piece| piece.length == 64)
            });
            match ste {
                None => assert!(part.is_empty()),
                Some(ste) => {
                    let offset = (ste.address - memory.base) as usize;
                    assert_eq!(part.as_ptr(), memory.bytes[offset..].as_ptr());
                    assert_eq!(part.len(), 64);
                }
            }
        }
    }
}

#[test]
fn a_book_is_never_stale_where_every_edit_has_its_notice() {
    let mut struck = 0;
    for index in 0..60 {
        let mut bench = Bench::new(Random::new(13, index), false);
        let requests = bench.set_up(8);
        let registers = bench.session.registers;
        let length = bench.session.bytes.len() as u64;
        let slots = 1 + bench.random.below(10);
        let mut book = open(registers, bench.session.base, length, slots).unwrap();
        for _ in 0..60 {
            let request = bench.random.pick(&requests);
            let before = bench.session.bytes.clone();
            if bench.random.percent(50) {
                edit(&mut bench, request);
            } else {
                let address = bench.session.base + bench.random.below(length);
                let bytes = vec![bench.random.word() as u8];
                bench.say(Command::Write { address, bytes });
            }
            struck += give_notice(&mut book, &before, &bench);
            for request in [request, bench.random.pick(&requests)] {
                let memory = bench.session.memory();
                let (_, answer) = ask(&mut book, memory, request).unwrap();
                assert_eq!(Ok(answer), lookup(&registers, memory, request));
            }
            assert_fresh(&book, bench.session.memory());
        }
    }
    assert!(struck > 300, "{struck}");
}

/// Gives notice of the bytes that changed, and checks that exactly the slots that list one are struck.
fn give_notice(book: &mut Book, before: &[u8], bench: &Bench) -> usize {
    let after = &bench.session.bytes;
    let changed: Vec<u64> = (0..after.len())
        .filter(|at| before[*at] != after[*at])
        .map(|at| bench.session.base + at as u64)
        .collect();
    let (Some(first), Some(last)) = (changed.first(), changed.last()) else {
        return 0;
    };
    let noticed = *first..=*last;
    let stays: Vec<usize> = book
        .held_slots()
        .filter(|(_, held)| {
            let bytes = held.answer.list.iter();
            let mut bytes = bytes.flat_map(|piece| piece.address..piece.address + piece.length);
            !bytes.any(|byte| noticed.contains(&byte))
        })
        .map(|(slot, _)| slot)
        .collect();
    let count = book.held_slots().count();
    notice(book, *first, last - first + 1).unwrap();
    let held: Vec<usize> = book.held_slots().map(|(slot, _)| slot).collect();
    assert_eq!(held, stays);
    count - held.len()
}

fn assert_fresh(book: &Book, memory: Memory) {
    assert!(!malformed(book));
    for (_, held) in book.held_slots() {
        let request = request(held.stream as u32, held.substream);
        let fresh = lookup(&book.registers, memory, request);
        assert_eq!(Ok(&held.answer), fresh.as_ref());
    }
}

// Every input ends with an answer or a refusal.

fn any_registers(random: &mut Random) -> Registers {
    let mut registers = Registers::default();
    for register in Register::ALL {
        registers.set(register, random.word() & random.word());
    }
    // Refusal 1 would hide the rest.
    registers.idr1 &= !0x420;
    registers
}

#[test]
fn a_lookup_refuses_exactly_by_the_table() {
    let mut random = Random::new(14, 0);
    for _ in 0..30_000 {
        let registers = any_registers(&mut random);
        let base = random.pick(&[0, 64, 1, 1 << 51, (1 << 52) - 64, 1 << 52, u64::MAX]);
        let length = random.pick(&[0, 8, 64, 4096]);
        let mut bytes: Vec<u8> = vec![0; length];
        bytes.fill_with(|| random.word() as u8);
        let shift = random.below(64);
        let substream = random.pick(&[None, Some(random.clone().word() >> shift)]);
        let stream = (random.word() >> random.below(64)) as u32;
        let request = request(stream, substream);
        let bytes = bytes.as_slice();
        let found = lookup(&registers, Memory { base, bytes }, request);
        let first = check_1(&registers).err();
        let second = check_2(base, length as u64).err();
        let third = check_3(request.substream).err();
        assert_eq!(found.err(), first.or(second).or(third));
    }
}

fn any_book(random: &mut Random) -> Book {
    let mut book = Book::blank();
    book.registers = any_registers(random);
    book.base = random.pick(&[0, 64, 63, 1 << 52, u64::MAX]);
    book.length = random.pick(&[0, 64, 65_536, 65_537, u64::MAX]);
    book.slots = random.pick(&[0, 1, 3, 64, 65, u64::MAX]);
    for _ in 0..random.below(4) {
        let slot = random.pick(&[0, 1, 2, 3, 62, 63]);
        let piece = Piece {
            address: random.pick(&[0, 1, (1 << 52) - 1, 1 << 52, u64::MAX]),
            length: random.pick(&[0, 1, 8, u64::MAX]),
        };
        let count = random.below(6) as usize;
        let number = random.pick(&[2, 10, 20, 22, 23, u64::MAX]);
        let wanted = random.pick(&[0, 1 << 52, u64::MAX]);
        let outcome = random.pick(&[
            Outcome::QuietAbort,
            Outcome::GlobalBypass,
            abort(0x0a),
            failed(0x09, wanted),
            Outcome::Unserved { number },
        ]);
        book.held[slot] = Some(Held {
            stream: random.pick(&[0, 1, (1 << 32) - 1, 1 << 32, u64::MAX]),
            substream: random.pick(&[None, Some(0), Some(1 << 20), Some(u64::MAX)]),
            answer: Answer {
                outcome,
                list: vec![piece; count],
            },
        });
    }
    book
}

#[test]
fn any_book_ends_with_an_answer_or_a_refusal() {
    let mut random = Random::new(15, 0);
    let mut accepted = 0;
    for _ in 0..30_000 {
        let book = any_book(&mut random);
        accepted += u32::from(!malformed(&book));
        let bytes = [0; 64];
        let memory = Memory {
            base: book.base,
            bytes: &bytes[..random.pick(&[0, 64])],
        };
        let (start, length) = (
            random.word() >> random.below(64),
            random.word() >> random.below(64),
        );
        for buffer in [&mut [0xee; LONGEST][..], &mut [0xee; 40][..]] {
            match report(&book, buffer) {
                Ok(written) => assert!(buffer[written..].iter().all(|byte| *byte == 0xee)),
                Err(_) => assert!(buffer.iter().all(|byte| *byte == 0xee)),
            }
        }
        let mut changed = book.clone();
        if notice(&mut changed, start, length).is_err() {
            assert_eq!(changed, book);
        }
        let mut changed = book.clone();
        if ask(&mut changed, memory, request(0, None)).is_err() {
            assert_eq!(changed, book);
        }
    }
    assert!(accepted > 500, "{accepted}");
}

#[test]
fn any_bytes_are_a_script() {
    let mut random = Random::new(16, 0);
    for index in 0..400 {
        let mut text = script(Sort::Mixed, 16, index % 20);
        for _ in 0..random.below(4) {
            let place = random.below(text.len() as u64) as usize;
            match random.below(4) {
                0 => text[place] = random.word() as u8,
                1 => text.insert(place, random.word() as u8),
                2 => drop(text.remove(place)),
                _ => text.truncate(place.max(1)),
            }
        }
        assert_only_lines_of_the_language(&text);
    }
    for _ in 0..2_000 {
        let length = random.below(200) as usize;
        let mut text = vec![0; length];
        text.fill_with(|| random.pick(b"ask open lookup 0 1 x # \t\r\n\n\xff\x00"));
        assert_only_lines_of_the_language(&text);
    }
}

fn assert_only_lines_of_the_language(text: &[u8]) {
    let mut output = Vec::new();
    run(text, &mut output).unwrap();
    let output = String::from_utf8(output).unwrap();
    let count = output.lines().count();
    for (place, line) in output.lines().enumerate() {
        let first = line.split([' ', '\t']).next().unwrap();
        let known = [
            "translate",
            "bypass",
            "abort",
            "unrecorded",
            "quiet",
            "unserved",
            "refused",
            "part",
            "opened",
            "kept-before",
            "newly-kept",
            "not-kept",
            "noticed",
            "slot",
        ];
        let row = line.contains('\t') && first.parse::<u8>().is_ok();
        let wrong = first == "line" && place + 1 == count;
        assert!(known.contains(&first) || row || wrong, "{line}");
    }
}
