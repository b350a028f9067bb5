//! Feeds the port and the oracle the same calls, and compares everything they answer.
//!
//!     differ [--answers N] [--seed SEED]            documented differences, every short pair of lists, then random sequences
//!     differ SEED STEPS [SEQUENCES [FIRST]]         these sequences only
//!     differ --list FILE [--rows N] [--most BYTES] [--scripts N]
//!                                                   histories and scripts on a clock with the oracle's answers
//!
//! Status 1 on a difference, which is made smaller and shown; 2 on arguments that cannot be read.
#![forbid(unsafe_code)]

mod cases;
mod input;
mod lent;
mod list;
mod port;
mod replay;
mod rows;
mod tally;
mod world;

use std::process::exit;
use std::time::Instant;

use cases::Case;
use differ::{bytes, draw};
use world::Diff;

/// Takes one to two minutes on one core
const ANSWERS: u64 = 300_000_000;
/// From so many answers on every list of windows is set after refused zones too
const WHOLE: u64 = 100_000_000;
const STEPS: u64 = 24;
const SEED: u64 = 1;
const ROWS: u64 = 300;
/// How many bytes a history of a row has at most
const MOST: u64 = 1000;
const SCRIPTS: u64 = 100;

fn usage() -> ! {
    eprintln!(
        "differ [--answers N] [--seed SEED] | SEED STEPS [SEQUENCES [FIRST]] | \
         --list FILE [--rows N] [--most BYTES] [--scripts N] [--seed SEED]"
    );
    exit(2)
}

fn number(word: Option<String>) -> u64 {
    word.and_then(|w| w.replace('_', "").parse().ok()).unwrap_or_else(|| usage())
}

fn differs(case: Case, diff: Diff, again: &str) -> ! {
    println!("difference: {}", diff.0);
    if cases::run(&case).is_err() {
        let (case, diff) = cases::smaller(case, diff);
        println!("made smaller: {}", diff.0);
        print!("{}", cases::show(&case));
    } else {
        println!("not met again in a sequence of its own:");
        print!("{}", cases::show(&case));
    }
    println!("run again: {again}");
    exit(1)
}

/// What the words of the command ask for
struct Asked {
    answers: u64,
    seed: u64,
    rows: u64,
    most: u64,
    scripts: u64,
    file: Option<String>,
    plain: Vec<u64>,
}

fn asked() -> Asked {
    let mut asked = Asked { answers: ANSWERS, seed: SEED, rows: ROWS, most: MOST, scripts: SCRIPTS, file: None, plain: Vec::new() };
    let mut words = std::env::args().skip(1);
    while let Some(word) = words.next() {
        match word.as_str() {
            "--answers" => asked.answers = number(words.next()),
            "--seed" => asked.seed = number(words.next()),
            "--rows" => asked.rows = number(words.next()),
            "--most" => asked.most = number(words.next()),
            "--scripts" => asked.scripts = number(words.next()),
            "--list" => asked.file = Some(words.next().unwrap_or_else(|| usage())),
            _ => asked.plain.push(number(Some(word))),
        }
    }
    asked
}

fn ended(why: String) -> ! {
    println!("difference: {why}");
    exit(1)
}

/// The documented differences, then every short pair of lists: how many answers were compared
fn first_of_all(answers: u64, seed: u64, begun: Instant) -> u64 {
    println!("differ: seed {seed}, {answers} answers");
    let documented = rows::check().unwrap_or_else(|why| ended(why));
    println!("documented differences: {documented} answers");
    match cases::every_pair(answers >= WHOLE) {
        Ok(pairs) => {
            println!("every pair: {} answers in {} s", documented + pairs, begun.elapsed().as_secs());
            documented + pairs
        }
        Err((case, diff)) => differs(case, diff, &format!("differ --answers {answers}")),
    }
}

fn main() {
    std::panic::set_hook(Box::new(|_| {}));
    if timesync::entry::image_size() != port::IMAGE as u64 {
        println!("the image has another size");
        exit(1);
    }
    let Asked { mut answers, mut seed, rows, most, scripts, file, plain } = asked();
    if let Some(file) = file {
        let asked = list::Asked { seed, rows, most: most as usize, scripts };
        let rows = list::write(&file, &asked).unwrap_or_else(|why| ended(why));
        println!("{rows} rows in {file} (seed {seed})");
        return;
    }
    let (begun, mut compared) = (Instant::now(), 0);
    let steps = plain.get(1).copied().unwrap_or(STEPS);
    let (first, mut wanted) = (plain.get(3).copied().unwrap_or(0), u64::MAX);
    match plain[..] {
        [] => compared = first_of_all(answers, seed, begun),
        [own, _, ..] => {
            (seed, answers) = (own, u64::MAX);
            wanted = plain.get(2).copied().unwrap_or(1);
        }
        _ => usage(),
    }
    let mut sequences = 0;
    while compared < answers && sequences < wanted {
        match cases::sequence(seed, first + sequences, steps) {
            Ok(n) => compared += n,
            Err((case, diff)) => differs(case, diff, &format!("differ {seed} {steps} 1 {}", first + sequences)),
        }
        sequences += 1;
    }
    println!("{sequences} sequences of {steps} steps, {} s", begun.elapsed().as_secs());
    tally::show();
    println!("differ: {compared} answers compared, 0 differences (seed {seed})");
}
