//! The unchanged handler of rs-matter over the port's list store, compared with the same handler over rs-matter's own.
//!
//!     host [--answers N] [--seed SEED]
//!
//! Status 1 on a difference, which is made smaller and shown; 2 on arguments that cannot be read.
#![forbid(unsafe_code)]

// the unchanged files over the shim stand for the crate that they are of
extern crate oracle as rs_matter;

mod adapter;
mod cases;
mod checks;
mod counts;
mod flash;
mod input;
mod list;
mod orders;
mod pair;

use std::process::exit;

use cases::Failed;
use counts::Counts;

/// Takes about ten seconds
const ANSWERS: u64 = 25_000_000;
const SEED: u64 = 1;

fn usage() -> ! {
    eprintln!("host [--answers N] [--seed SEED]");
    exit(2)
}

/// The answers to compare and the seed, as the words of the command say
fn asked() -> (u64, u64) {
    let (mut answers, mut seed) = (ANSWERS, SEED);
    let mut words = std::env::args().skip(1);
    while let Some(word) = words.next() {
        let number = words.next().and_then(|number| number.parse().ok()).unwrap_or_else(|| usage());
        match word.as_str() {
            "--answers" => answers = number,
            "--seed" => seed = number,
            _ => usage(),
        }
    }
    (answers, seed)
}

fn differs(failed: Failed) -> ! {
    println!("difference: {}", failed.1);
    let (case, why) = cases::smaller(failed);
    println!("made smaller: {why}\n{:?}", case.limits);
    case.items.iter().for_each(|(step, _)| println!("  {step:?}"));
    exit(1)
}

/// What does not depend on the seed
fn fixed(counts: &mut Counts) -> Result<(), Failed> {
    cases::every_limits().try_for_each(|limits| cases::full(limits).run(counts))?;
    println!("the longest lists at every pair of limits: {} answers", counts.answers);
    orders::every_order().try_for_each(|case| case.run(counts))?;
    println!("every order of mistakes: {} answers", counts.answers);
    Ok(())
}

fn main() {
    let (answers, seed) = asked();
    let mut counts = Counts::default();
    if let Err(why) = checks::run(&mut counts) {
        println!("difference: {why}");
        exit(1);
    }
    fixed(&mut counts).unwrap_or_else(|failed| differs(failed));
    for number in 0.. {
        if counts.answers >= answers {
            println!("{number} random sequences");
            break;
        }
        cases::sequence(seed, number, &mut counts).unwrap_or_else(|failed| differs(failed));
    }
    counts.show();
    println!("host: {} answers compared, 0 differences (seed {seed})", counts.answers);
}
