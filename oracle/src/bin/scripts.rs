//! Writes scripts to compare the two programs on, or counts what they reach.
//!
//!     scripts [--lookups-only | --book] [--wrong] SEED COUNT DIR
//!     scripts --count [--lookups-only | --book] [--wrong] SEED COUNT

use std::ffi::OsString;
use std::fs;
use std::io::{self, Write};
use std::path::Path;
use std::process::ExitCode;

use oracle::scripts::count::Counts;
use oracle::scripts::{script, wrong_script, Sort};

const USAGE: &str = "usage: scripts [--lookups-only | --book] [--wrong] SEED COUNT DIR
       scripts --count [--lookups-only | --book] [--wrong] SEED COUNT";

fn main() -> ExitCode {
    let words: Vec<OsString> = std::env::args_os().skip(1).collect();
    let Some(order) = Order::read(&words) else {
        eprintln!("{USAGE}");
        return ExitCode::from(2);
    };
    match order.carry_out() {
        Ok(()) => ExitCode::SUCCESS,
        Err(error) => {
            eprintln!("scripts: {error}");
            ExitCode::FAILURE
        }
    }
}

/// What the words of the command line ask for. Without a folder, the scripts are counted.
struct Order<'a> {
    sort: Sort,
    wrong: bool,
    seed: u64,
    count: u64,
    folder: Option<&'a Path>,
}

impl<'a> Order<'a> {
    fn read(words: &'a [OsString]) -> Option<Order<'a>> {
        let is_option = |word: &&OsString| word.to_str().is_some_and(|word| word.starts_with("--"));
        let options = words.iter().take_while(is_option).count();
        let (options, places) = words.split_at(options);
        let mut sort = None;
        let mut counts = false;
        let mut wrong = false;
        for option in options {
            match option.to_str()? {
                "--lookups-only" if sort.is_none() => sort = Some(Sort::LookupsOnly),
                "--book" if sort.is_none() => sort = Some(Sort::Book),
                "--count" if !counts => counts = true,
                "--wrong" if !wrong => wrong = true,
                _ => return None,
            }
        }
        let (seed, count, folder) = match places {
            [seed, count] if counts => (seed, count, None),
            // An option after the numbers is not taken for a folder.
            [seed, count, folder] if !counts && !is_option(&folder) => {
                (seed, count, Some(Path::new(folder)))
            }
            _ => return None,
        };
        Some(Order {
            sort: sort.unwrap_or(Sort::Mixed),
            wrong,
            seed: seed.to_str()?.parse().ok()?,
            count: count.to_str()?.parse().ok()?,
            folder,
        })
    }

    fn carry_out(&self) -> io::Result<()> {
        match self.folder {
            Some(folder) => self.write(folder),
            None => self.print_counts(),
        }
    }

    fn script(&self, index: u64) -> Vec<u8> {
        match self.wrong {
            true => wrong_script(self.sort, self.seed, index),
            false => script(self.sort, self.seed, index),
        }
    }

    fn write(&self, folder: &Path) -> io::Result<()> {
        fs::create_dir_all(folder)?;
        for index in 0..self.count {
            fs::write(
                folder.join(format!("{index:04}.script")),
                self.script(index),
            )?;
        }
        Ok(())
    }

    fn print_counts(&self) -> io::Result<()> {
        let mut counts = Counts::default();
        for index in 0..self.count {
            counts.script(&self.script(index));
        }
        io::stdout().write_all(counts.lines().as_bytes())
    }
}
