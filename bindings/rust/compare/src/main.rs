//! Compares this library with `proc-macro2` and `syn` in one process, and compares its values of
//! floats with those of Rust's own parser.
//!
//!     compare [--seed N] [--turn-spacing] TEXTS RUNS
//!     compare --rows FOLDER..
//!     compare [--seed N] --metas COUNT
//!
//! The program compares one float for each ten texts. `--rows` compares the answers that crates
//! store for their rows. `--metas` prints random rows, each with the answer of `syn`.
mod cursors;
mod floats;
mod random;
mod rows;
mod runs;
mod spans;
mod tally;
mod texts;

use std::env;
use std::process::ExitCode;
use std::time::Instant;

use random::Random;
use spans::Spans;
use tally::Tally;

fn main() -> ExitCode {
    let mut numbers = Vec::new();
    let (mut seed, mut turned, mut of_metas) = (1, false, false);
    let mut words = env::args().skip(1);
    while let Some(word) = words.next() {
        match word.as_str() {
            "--seed" => seed = words.next().and_then(|it| it.parse().ok()).unwrap_or(1),
            "--turn-spacing" => turned = true,
            "--metas" => of_metas = true,
            "--rows" => return compare_rows(words),
            _ => numbers.extend(word.parse::<usize>()),
        }
    }
    if of_metas && numbers.len() == 1 {
        rows::write_metas(&mut Random::new(seed), numbers[0], &Spans::new(4096));
        return ExitCode::SUCCESS;
    }
    if numbers.len() != 2 {
        eprintln!("usage: compare [--seed N] [--turn-spacing] TEXTS RUNS");
        return ExitCode::from(2);
    }
    let spans = Spans::new(4096);
    let mut random = Random::new(seed);
    let mut tally = Tally::default();
    let begun = Instant::now();
    runs::run(&mut random, numbers[1], &spans, &mut tally);
    texts::run(&mut random, numbers[0], turned, &mut tally);
    floats::run(&mut random, numbers[0] / 10, &mut tally);
    println!(
        "{} texts and {} runs of seed {seed} in {:.0?}",
        numbers[0],
        numbers[1],
        begun.elapsed()
    );
    if tally.print() {
        ExitCode::SUCCESS
    } else {
        ExitCode::FAILURE
    }
}

fn compare_rows(folders: impl Iterator<Item = String>) -> ExitCode {
    let (spans, mut tally) = (Spans::new(4096), Tally::default());
    for folder in folders {
        if let Err(error) = rows::run(&folder, &spans, &mut tally) {
            eprintln!("{folder}: {error}");
            return ExitCode::from(2);
        }
    }
    if tally.print() {
        ExitCode::SUCCESS
    } else {
        ExitCode::FAILURE
    }
}
