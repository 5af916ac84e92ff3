//! A first measure of speed: the archive's lookup and ask against ordinary Rust that makes the same checks. See docs/PERFORMANCE.md.
//!
//!     bench [ROUNDS]
//!     bench beside BEFORE NOW [ROUNDS]     two builds of the archive as shared libraries: bench/beside

mod beside;
mod fold;
mod inputs;
mod ordinary;
mod sides;

use beside::Build;
use llobatelh::SLOTS_MOST;
use sides::{lookups, second_program, Books, Side};
use std::process::ExitCode;
use std::time::{Duration, Instant};

/// A round measures a side for about so long.
const ROUND: Duration = Duration::from_millis(20);

/// So many rounds where none are asked for.
const ROUNDS: usize = 31;

fn main() -> ExitCode {
    let words: Vec<String> = std::env::args().skip(1).collect();
    let words: Vec<&str> = words.iter().map(String::as_str).collect();
    match run(&words) {
        Ok(()) => ExitCode::SUCCESS,
        Err(why) => {
            eprintln!("bench: {why}");
            ExitCode::from(2)
        }
    }
}

fn run(words: &[&str]) -> Result<(), String> {
    match *words {
        [] => against_ordinary(ROUNDS),
        ["beside", before, now] => two_builds(before, now, ROUNDS)?,
        ["beside", before, now, rounds] => two_builds(before, now, number(rounds)?)?,
        [rounds] => against_ordinary(number(rounds)?),
        _ => return Err("bench [ROUNDS], or bench beside BEFORE NOW [ROUNDS]".into()),
    }
    Ok(())
}

fn number(word: &str) -> Result<usize, String> {
    match word.parse() {
        Ok(rounds) if rounds > 0 => Ok(rounds),
        _ => Err(format!("{word}: not a number of rounds")),
    }
}

/// What the numbers below it are.
fn say(rounds: usize) {
    println!("{rounds} rounds of about {ROUND:?} a side; ns a call: the median of the rounds; ratio: the median, [least, most]");
}

/// The sets of lookups that are measured.
fn sets() -> [(&'static str, Vec<inputs::Input>); 3] {
    [
        (
            "lookup, translate (4 descriptors)",
            vec![inputs::translating(1024)],
        ),
        (
            "lookup, bypass (2 descriptors)",
            vec![inputs::bypassing(1024)],
        ),
        ("lookup, of every kind", inputs::mixed(96)),
    ]
}

fn calls_of(inputs: &[inputs::Input]) -> usize {
    inputs.iter().map(|input| input.requests.len()).sum()
}

/// What a lookup takes by two builds of the archive.
fn two_builds(before: &str, now: &str, rounds: usize) -> Result<(), String> {
    let builds = [Build::load(before)?, Build::load(now)?];
    say(rounds);
    println!(
        "{:34} {:>8} {:>8}  {:22} answers",
        "", "before", "now", "now / before"
    );
    for (name, inputs) in sets() {
        let expected = [0, 1].map(|place: usize| builds[place].lookups(&inputs));
        let answers = beside::compared(&builds[0], &builds[1], &inputs);
        let times = measured(name, rounds, calls_of(&inputs), expected, |place| {
            builds[place].lookups(&inputs)
        });
        let [before, now] = medians(&times);
        println!(
            "{name:34} {before:8.1} {now:8.1}  {:22} {answers}",
            ratio(times.iter().map(|time| time[1] / time[0]))
        );
    }
    Ok(())
}

fn against_ordinary(rounds: usize) {
    say(rounds);
    println!(
        "{:34} {:>8} {:>8} {:>8}  {:22} {:22}",
        "", "archive", "rust/", "ordinary", "archive / ordinary", "rust/ / ordinary"
    );

    for (name, inputs) in sets() {
        let expected = second_program(&inputs);
        measure(name, rounds, calls_of(&inputs), expected, |side| {
            lookups(side, &inputs)
        });
    }

    let hits = inputs::distinct(0, 64, 16);
    kept("ask, kept before, 64 held", rounds, &hits, &hits);
    let few = inputs::distinct(0, 8, 64);
    kept("ask, kept before, 8 held", rounds, &few, &few);
    let others = inputs::distinct(1000, 64, 16);
    kept("ask, not kept, 64 held", rounds, &hits, &others);

    let new = inputs::distinct(0, 64, 1);
    let opened = Books::open(&new, SLOTS_MOST);
    let mut scratch = opened.clone();
    let expected = opened.asks_of_new_books(&mut scratch, Side::Ordinary, &new);
    measure(
        "ask, newly kept, 0 to 63 held",
        rounds,
        new.requests.len(),
        expected,
        |side| opened.asks_of_new_books(&mut scratch, side, &new),
    );
}

/// Asks of a book that holds what `fill` asked for.
fn kept(name: &str, rounds: usize, fill: &inputs::Input, asked: &inputs::Input) {
    let mut books = Books::open(fill, SLOTS_MOST);
    for side in [Side::Archive, Side::Wrapper, Side::Ordinary] {
        books.asks(side, fill);
    }
    let expected = books.asks(Side::Ordinary, asked);
    measure(name, rounds, asked.requests.len(), expected, |side| {
        books.asks(side, asked)
    });
}

/// Measures the three sides, and prints a line.
fn measure(
    name: &str,
    rounds: usize,
    calls: usize,
    expected: u64,
    mut pass: impl FnMut(Side) -> u64,
) {
    const SIDES: [Side; 3] = [Side::Archive, Side::Wrapper, Side::Ordinary];
    let times = measured(name, rounds, calls, [expected; 3], |place| {
        pass(SIDES[place])
    });
    let [archive, wrapper, ordinary] = medians(&times);
    println!(
        "{name:34} {archive:8.1} {wrapper:8.1} {ordinary:8.1}  {:22} {:22}",
        ratio(times.iter().map(|time| time[0] / time[2])),
        ratio(times.iter().map(|time| time[1] / time[2]))
    );
}

/// What a call takes on each side, in nanoseconds, round after round: the sides take turns. Every pass must give the sum that is expected
/// of its side.
fn measured<const SIDES: usize>(
    name: &str,
    rounds: usize,
    calls: usize,
    expected: [u64; SIDES],
    mut pass: impl FnMut(usize) -> u64,
) -> Vec<[f64; SIDES]> {
    let mut passes = [0u32; SIDES];
    for (place, passes) in passes.iter_mut().enumerate() {
        let start = Instant::now();
        while start.elapsed() < ROUND {
            assert_eq!(pass(place), expected[place], "{name}: side {place}");
            *passes += 1;
        }
    }
    let mut times = Vec::new();
    for round in 0..rounds {
        let mut time = [0.0; SIDES];
        for turn in 0..SIDES {
            // Each side is first, and so on to last, in turn.
            let place = (turn + round) % SIDES;
            let start = Instant::now();
            for _ in 0..passes[place] {
                assert_eq!(pass(place), expected[place], "{name}: side {place}");
            }
            let all = f64::from(passes[place]) * calls as f64;
            time[place] = start.elapsed().as_nanos() as f64 / all;
        }
        times.push(time);
    }
    times
}

/// Each side's.
fn medians<const SIDES: usize>(times: &[[f64; SIDES]]) -> [f64; SIDES] {
    std::array::from_fn(|place| spread(times.iter().map(|time| time[place])).1)
}

fn ratio(ratios: impl Iterator<Item = f64>) -> String {
    let (least, median, most) = spread(ratios);
    format!("{median:.2} [{least:.2}, {most:.2}]")
}

/// The least, the median and the most.
fn spread(numbers: impl Iterator<Item = f64>) -> (f64, f64, f64) {
    let mut numbers: Vec<f64> = numbers.collect();
    numbers.sort_by(f64::total_cmp);
    let (first, last) = (numbers[0], numbers[numbers.len() - 1]);
    (first, numbers[numbers.len() / 2], last)
}
