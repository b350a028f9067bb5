//! Histories and scripts on a clock with the oracle's answers, as plain text.
//!
//! A line of the first file is a row of the table of the program `vectors`, as it answers it; its input is what
//! stands before `: `. A history is `h ZONES WINDOWS START HISTORY: N steps: MOMENT..`, and a script on a clock
//! `c SCRIPT: ANSWER; ANSWER..`. The second file has a line for each history:
//! `ZONES WINDOWS START HISTORY GENERATION RECORD`.
mod clock;

use std::fmt::Write;
use std::io;

use crate::bytes;
use crate::input::{self, Rng, TOP};
use crate::world::{Item, Kind, World};

/// What is to be written: how many histories, how many bytes each may have, and how many scripts on a clock
pub struct Asked {
    pub seed: u64,
    pub rows: u64,
    pub most: usize,
    pub scripts: u64,
}

/// Writes the rows, the histories first: how many there are
pub fn write(path: &str, asked: &Asked) -> Result<u64, String> {
    let (mut table, mut records) = (String::new(), String::new());
    histories(asked, &mut table, &mut records)?;
    for number in 0..asked.scripts {
        let (script, answer) = clock::script(&mut Rng::new(asked.seed, number))?;
        writeln!(table, "c {}: {answer}", bytes::hex(&script)).unwrap();
    }
    let put = |path: &str, text: &str| std::fs::write(path, text).map_err(|e: io::Error| format!("{path}: {e}"));
    put(path, &table)?;
    put(&format!("{path}.records"), &records)?;
    Ok(asked.rows + asked.scripts)
}

fn histories(asked: &Asked, table: &mut String, records: &mut String) -> Result<(), String> {
    let mut written = 0;
    for number in 0.. {
        if written == asked.rows {
            break;
        }
        let mut rng = Rng::new(asked.seed, number);
        let (z, w) = match number % 4 {
            0 => (number / 4 % 8 + 1, number / 32 % 16 + 1),
            _ => (rng.below(3) + 1, rng.below(3) + 1),
        };
        let mut world = World::new(Kind::Lists(z as usize, w as usize), 0, 0, 0);
        for _ in 0..rng.below(7) {
            let step = input::list_step(&mut rng, &world);
            let item = Item { step, probes: Vec::new(), short: false };
            world.step(&item).map_err(|diff| diff.0)?;
        }
        let start = rng.pick(&[0, 0, 0, 0, 1, 1, 3, 9, TOP - 1, TOP]);
        let history = world.history().unwrap_or_default().to_vec();
        if history.is_empty() || history.len() > asked.most {
            continue;
        }
        let (record, generation, moments) = world.oracle_lists(start).map_err(|diff| diff.0)?;
        if moments.len() == 1 && !rng.one_in(8) {
            // a walk that is over at once says little
            continue;
        }
        let given = format!("{z} {w} {start} {}", bytes::hex(&history));
        let moments_text: Vec<String> = moments.iter().map(u64::to_string).collect();
        writeln!(table, "h {given}: {} steps: {}", moments.len() - 1, moments_text.join(" ")).unwrap();
        writeln!(records, "{given} {generation} {}", bytes::hex(&record)).unwrap();
        written += 1;
    }
    Ok(())
}
