//! What each call of the port costs, beside the Rust it was ported from. `run.sh` runs all of it and prints the table.
//!
//! - `bench check`: both sides say the same, where they say a number
//! - `bench time`: nanoseconds
//! - `bench count`: runs each operation in `bench_measured`, and prints what ran, in order; for callgrind
//! - `bench one LIMITS SIDE N NAME`: one operation, N times; for callgrind's annotations
//! - `bench table TIMES COUNTS`: the table, in Markdown

mod ops;
mod port;
mod shim;

use std::collections::HashMap;
use std::hint::black_box;
use std::time::Instant;

use ops::{Op, Work};

/// Calls per measurement under callgrind; a multiple of how often the log is emptied
const COUNTED: u64 = 1024;

#[no_mangle]
#[inline(never)]
pub fn bench_measured(work: &mut dyn FnMut() -> u64, n: u64) {
    for _ in 0..n {
        black_box(work());
    }
}

#[inline(never)]
fn warm(work: &mut dyn FnMut() -> u64, n: u64) {
    for _ in 0..n {
        black_box(work());
    }
}

struct At {
    limits: &'static str,
    rest: fn(),
    ops: Vec<Op>,
}

fn all() -> Vec<At> {
    vec![
        At {
            limits: "2/2",
            rest: ops::rest::<2>,
            ops: ops::ops::<2, 2>(),
        },
        At {
            limits: "8/16",
            rest: ops::rest::<16>,
            ops: ops::ops::<8, 16>(),
        },
    ]
}

/// Every piece of work, and its name: limits, operation, side, part
fn works(at: &mut At) -> Vec<(String, &mut Work)> {
    let mut out = Vec::new();
    for op in &mut at.ops {
        for (side, name) in [(&mut op.port, "port"), (&mut op.rust, "rust")] {
            out.push((format!("{}\t{}\t{name}\twork", at.limits, op.name), &mut side.work));
            out.push((format!("{}\t{}\t{name}\tbase", at.limits, op.name), &mut side.base));
        }
    }
    out
}

fn check() {
    for at in &mut all() {
        for op in &mut at.ops {
            (at.rest)();
            for _ in 0..2 {
                let (port, rust) = ((op.port.work)(), (op.rust.work)());
                if op.same {
                    assert_eq!(port, rust, "{} at {}", op.name, at.limits);
                }
                println!("{}\t{}\tport {port:x}\trust {rust:x}", at.limits, op.name);
            }
        }
    }
}

const BATCHES: usize = 21;

fn median(times: &mut [f64]) -> f64 {
    times.sort_by(f64::total_cmp);
    times[times.len() / 2]
}

/// How many calls take about 100 microseconds
fn calls(work: &mut Work) -> u64 {
    warm(work, 256);
    let started = Instant::now();
    warm(work, 256);
    (256.0 * 100_000.0 / started.elapsed().as_nanos().max(1) as f64).clamp(64.0, 100_000.0) as u64
}

/// The batches of both sides of an operation take turns, so that what else the machine does falls on both
fn time() {
    for mut at in all() {
        let rest = at.rest;
        for group in works(&mut at).chunks_mut(4) {
            rest();
            let calls: Vec<u64> = group.iter_mut().map(|(_, work)| calls(work)).collect();
            let mut times = vec![Vec::new(); group.len()];
            for _ in 0..BATCHES {
                for (i, (_, work)) in group.iter_mut().enumerate() {
                    rest();
                    let started = Instant::now();
                    bench_measured(work, calls[i]);
                    times[i].push(started.elapsed().as_nanos() as f64 / calls[i] as f64);
                }
            }
            for ((name, _), times) in group.iter().zip(&mut times) {
                println!("{name}\t{:.3}", median(times));
            }
        }
    }
}

fn count() {
    for mut at in all() {
        let rest = at.rest;
        for (name, work) in works(&mut at) {
            rest();
            warm(work, 256);
            bench_measured(work, COUNTED);
            println!("{name}");
        }
    }
}

fn one(limits: &str, side: &str, n: u64, name: &str) {
    let wanted = format!("{limits}\t{name}\t{side}\twork");
    for mut at in all() {
        let rest = at.rest;
        for (name, work) in works(&mut at) {
            if name == wanted {
                rest();
                bench_measured(work, n);
                return;
            }
        }
    }
    panic!("there is no {wanted}");
}

/// Cost of one call, what the loop does besides it taken off
fn costs(path: &str, calls: f64) -> HashMap<String, f64> {
    let mut out = HashMap::new();
    for line in std::fs::read_to_string(path).unwrap().lines() {
        let fields: Vec<&str> = line.split('\t').collect();
        let [limits, name, side, part, cost] = fields[..] else {
            panic!("{line}")
        };
        let cost: f64 = cost.parse().unwrap();
        let sign = if part == "base" { -1.0 } else { 1.0 };
        *out.entry(format!("{limits}\t{name}\t{side}")).or_insert(0.0) += sign * cost / calls;
    }
    out
}

fn table(times: &str, counts: &str) {
    let (times, counts) = (costs(times, 1.0), costs(counts, COUNTED as f64));
    for at in all() {
        println!("### Limits {}\n", at.limits);
        println!("| operation | port ns | Rust ns | ratio | port instructions | Rust instructions | ratio | |");
        println!("|---|--:|--:|--:|--:|--:|--:|---|");
        for op in &at.ops {
            let of = |costs: &HashMap<String, f64>| {
                let side = |side| costs[&format!("{}\t{}\t{side}", at.limits, op.name)];
                let (port, rust): (f64, f64) = (side("port"), side("rust"));
                (port, rust, port / rust)
            };
            let ((pt, rt, qt), (pi, ri, qi)) = (of(&times), of(&counts));
            // By the ratio as it is printed
            let above = (qi * 10.0).round() / 10.0 > op.aim;
            let mark = if above { format!("above {:.1}", op.aim) } else { String::new() };
            // Below a nanosecond there is only noise
            let qt = if rt < 1.0 { "-".to_string() } else { format!("{qt:.1}") };
            println!("| {} | {pt:.1} | {rt:.1} | {qt} | {pi:.0} | {ri:.0} | {qi:.1} | {mark} |", op.name);
        }
        println!();
    }
}

fn main() {
    let args: Vec<String> = std::env::args().skip(1).collect();
    let args: Vec<&str> = args.iter().map(String::as_str).collect();
    match args[..] {
        ["check"] => check(),
        ["time"] => time(),
        ["count"] => count(),
        ["one", limits, side, n, name] => one(limits, side, n.parse().expect("a number"), name),
        ["table", times, counts] => table(times, counts),
        _ => {
            eprintln!("bench check | time | count | one LIMITS SIDE N NAME | table TIMES COUNTS");
            std::process::exit(2)
        }
    }
}
