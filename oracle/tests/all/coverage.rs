//! That the scripts reach everything, stay within their sort, and are the same on every machine.

use std::collections::BTreeSet;
use std::fs;
use std::process::{Command, Output};

use oracle::script::{parse, run, Command as Line, Reason};
use oracle::scripts::count::{names, Counts};
use oracle::scripts::{script, wrong_script, Sort};

const SEED: u64 = 1;

fn counts(sort: Sort, scripts: u64) -> Counts {
    let mut counts = Counts::default();
    for index in 0..scripts {
        counts.script(&script(sort, SEED, index));
    }
    counts
}

#[test]
fn sixty_scripts_reach_everything_once_and_300_five_times() {
    for (scripts, floor) in [(60, 1), (300, 5)] {
        let counts = counts(Sort::Mixed, scripts);
        let mut rare = names();
        rare.retain(|name| counts.of(name) < floor);
        assert_eq!(rare, Vec::<String>::new(), "of {scripts} scripts");
    }
}

#[test]
fn every_name_is_in_the_list_once() {
    let listed: BTreeSet<String> = names().into_iter().collect();
    assert_eq!(listed.len(), names().len());
    let counts = counts(Sort::Mixed, 300);
    let unlisted: Vec<&str> = counts
        .reached()
        .filter(|name| !listed.contains(*name))
        .collect();
    assert_eq!(unlisted, Vec::<&str>::new());
}

#[test]
fn there_are_enough_lookups_and_histories() {
    let lookups = counts(Sort::LookupsOnly, 200);
    assert!(lookups.of("total.lookups") >= 20_000);
    let books = counts(Sort::Book, 200);
    let acts = ["total.asks", "total.notices", "total.edits"].map(|name| books.of(name));
    assert!(acts.iter().sum::<u64>() >= 20_000);
    assert!(acts.iter().all(|count| *count >= 4_000), "{acts:?}");
}

#[test]
fn lookups_only_means_only_lookups() {
    for index in 0..60 {
        let text = script(Sort::LookupsOnly, SEED, index);
        for line in text.split(|byte| *byte == b'\n') {
            let words = line.split(|byte| b" \t\r".contains(byte));
            let first = words
                .into_iter()
                .find(|word| !word.is_empty())
                .unwrap_or(b"");
            assert!(![&b"open"[..], b"ask", b"notice", b"report"].contains(&first));
            let of_a_book = matches!(
                parse(line),
                Ok(Some(
                    Line::Open { .. } | Line::Ask(_) | Line::Notice { .. } | Line::Report
                ))
            );
            assert!(!of_a_book);
        }
    }
}

#[test]
fn one_script_of_six_ends_in_a_wrong_line() {
    for sort in [Sort::Mixed, Sort::LookupsOnly, Sort::Book] {
        for index in 0..120 {
            let mut output = Vec::new();
            run(script(sort, 3, index).as_slice(), &mut output).unwrap();
            let output = String::from_utf8(output).unwrap();
            let wrong = output
                .lines()
                .filter(|line| line.starts_with("line "))
                .count();
            assert_eq!(wrong, usize::from(index / 2 % 6 == 5), "{sort:?} {index}");
        }
    }
}

#[test]
fn every_wrong_script_is_wrong_for_its_reason() {
    for sort in [Sort::Mixed, Sort::LookupsOnly, Sort::Book] {
        for index in 0..450 {
            let text = wrong_script(sort, SEED, index);
            let mut output = Vec::new();
            run(text.as_slice(), &mut output).unwrap();
            let output = String::from_utf8(output).unwrap();
            let reason = Reason::ALL[index as usize % 9].words();
            let last = output.lines().last().unwrap();
            assert!(
                last.starts_with("line ") && last.ends_with(reason),
                "{last}"
            );
        }
    }
}

#[test]
fn the_same_seed_gives_the_same_bytes_on_every_machine() {
    let mut hash = 0xcbf2_9ce4_8422_2325_u64;
    for sort in [Sort::Mixed, Sort::LookupsOnly, Sort::Book] {
        for index in 0..24 {
            let texts = [script(sort, SEED, index), wrong_script(sort, SEED, index)];
            for byte in texts.concat() {
                hash = (hash ^ u64::from(byte)).wrapping_mul(0x100_0000_01b3);
            }
        }
    }
    assert_eq!(hash, 2_249_623_816_651_412_516);
    assert_ne!(script(Sort::Mixed, 1, 0), script(Sort::Mixed, 2, 0));
    assert_ne!(script(Sort::Mixed, 1, 0), script(Sort::Mixed, 1, 2));
}

fn scripts(words: &[&str]) -> Output {
    let mut command = Command::new(env!("CARGO_BIN_EXE_scripts"));
    command.args(words).output().unwrap()
}

#[test]
fn the_program_itself_writes_scripts() {
    let folder = std::env::temp_dir().join(format!("oracle-scripts-{}", std::process::id()));
    let name = folder.to_str().unwrap();
    for (options, sort) in [
        (&[][..], Sort::Mixed),
        (&["--lookups-only"], Sort::LookupsOnly),
        (&["--book"], Sort::Book),
    ] {
        assert!(scripts(&[options, &["5", "3", name]].concat())
            .status
            .success());
        for index in 0..3 {
            let text = fs::read(folder.join(format!("{index:04}.script"))).unwrap();
            assert_eq!(text, script(sort, 5, index));
        }
    }
    assert!(scripts(&["--wrong", "--book", "5", "1", name])
        .status
        .success());
    let text = fs::read(folder.join("0000.script")).unwrap();
    assert_eq!(text, wrong_script(Sort::Book, 5, 0));
    fs::remove_dir_all(folder).unwrap();
}

#[test]
fn the_program_itself_counts() {
    let done = scripts(&["--count", "1", "4"]);
    assert!(done.status.success());
    let printed = String::from_utf8(done.stdout).unwrap();
    assert_eq!(printed, counts(Sort::Mixed, 4).lines());
    let first: Vec<&str> = printed
        .lines()
        .filter_map(|line| line.split(' ').next())
        .collect();
    assert_eq!(first, names());
}

#[test]
fn the_program_itself_says_how_it_is_used() {
    for words in [
        &[][..],
        &["1", "2"],
        &["1", "x", "dir"],
        &["--count", "1", "2", "dir"],
        &["--book", "--lookups-only", "1", "2", "dir"],
        &["--other", "1", "2", "dir"],
        &["1", "2", "--book"],
    ] {
        let done = scripts(words);
        assert_eq!(done.status.code(), Some(2), "{words:?}");
        assert!(done.stderr.starts_with(b"usage: scripts"));
    }
}
