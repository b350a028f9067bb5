//! Random steps, most of them near a boundary of what the lists, the clock and the loops hold.
use oracle::driver::{Outcome, Part, WindowArg, ZoneArg};

use crate::port::{place, Source};
use crate::world::{Item, Kind, Step, World};
use crate::{bytes, draw};

pub use crate::draw::{Rng, DAY, HOUR, NOW, SECOND, TOP};

pub fn moment(rng: &mut Rng, world: &World) -> u64 {
    draw::moment(rng, || world.boundaries())
}

fn zones(rng: &mut Rng, world: &World, limit: usize) -> Vec<ZoneArg> {
    draw::zones(rng, limit, |rng| moment(rng, world))
}

fn windows(rng: &mut Rng, world: &World, limit: usize) -> Vec<WindowArg> {
    draw::windows(rng, limit, |rng| moment(rng, world))
}

/// Bytes with one place damaged
pub fn damaged(rng: &mut Rng, mut bytes: Vec<u8>) -> Vec<u8> {
    let at = rng.below(bytes.len().max(1) as u64) as usize;
    match rng.below(7) {
        0 => bytes.truncate(at),
        1 => drop(bytes.pop()),
        2 => bytes.push(rng.pick(&[0, 1, 255])),
        3 if !bytes.is_empty() => bytes[0] = bytes[0].wrapping_add(rng.pick(&[1, 255])),
        4 if !bytes.is_empty() => bytes[at] = rng.pick(&[0, 1, 2, 0x80, 0xC0, 0xFF]),
        5 if !bytes.is_empty() => drop(bytes.remove(at)),
        _ if !bytes.is_empty() => bytes[at] ^= 1 << rng.below(8),
        _ => {}
    }
    bytes
}

fn maybe_damaged(rng: &mut Rng, bytes: Vec<u8>) -> Vec<u8> {
    if rng.one_in(6) {
        damaged(rng, bytes)
    } else {
        bytes
    }
}

pub fn list_step(rng: &mut Rng, world: &World) -> Step {
    let (z, w) = world.kind.limits().unwrap_or((2, 2));
    match rng.below(16) {
        0..=4 => {
            let list = bytes::zones(&zones(rng, world, z));
            Step::Zones(maybe_damaged(rng, list))
        }
        5..=11 => {
            let list = bytes::windows(&windows(rng, world, w));
            Step::Windows(maybe_damaged(rng, list))
        }
        12..=13 => {
            let record = bytes::record(&zones(rng, world, z), &windows(rng, world, w));
            Step::Load(Some(maybe_damaged(rng, record)))
        }
        14 => Step::Load(None),
        _ => Step::Reset,
    }
}

fn tick(rng: &mut Rng, world: &World) -> u64 {
    let now = world.tick;
    match rng.below(12) {
        0..=3 => {
            // where the clock reads a boundary, or one beside it
            let (utc, anchor) = (world.port.word(place::UTC, 8), world.port.word(place::ANCHOR, 8));
            let bounds = world.boundaries();
            let bound = rng.pick(&bounds);
            let at = anchor.saturating_add(bound.saturating_sub(utc));
            rng.near(at)
        }
        4..=6 => {
            let due = rng.pick(&world.dues()).unwrap_or(now);
            rng.near(due)
        }
        7 => now.saturating_add(rng.pick(&[1, 60 * SECOND, HOUR - 1, HOUR, HOUR + 1, 2 * HOUR])),
        8 => {
            // an hour after a mark of the client, or one beside it; sometimes before it
            let mark = world.port.word(rng.pick(&[place::MISSING_AT, place::FAILURE_AT]), 8);
            let at = mark.saturating_add(HOUR);
            if rng.one_in(6) {
                mark.saturating_sub(1)
            } else {
                rng.near(at)
            }
        }
        9 => now.saturating_add(rng.below(4)),
        10 => now.saturating_add(100_000),
        _ => match rng.below(12) {
            0 => rng.pick(&[TOP, TOP - 1]),
            1 => rng.pick(&[0, 1]),
            _ => now.saturating_add(rng.below(DAY)),
        },
    }
}

fn outcome(rng: &mut Rng, world: &World) -> Outcome {
    match rng.below(10) {
        0 => Outcome::NoSession,
        1 => Outcome::NoAnswer,
        _ => {
            let parts = (0..rng.pick(&[1, 1, 1, 1, 2, 3, 0]))
                .map(|_| Part {
                    utc: match rng.below(8) {
                        0 => None,
                        1 => Some(Err(())),
                        2 => Some(Ok(None)),
                        3 => Some(Ok(Some(rng_day(rng, world)))),
                        _ => Some(Ok(Some(moment(rng, world)))),
                    },
                    granularity: match rng.below(8) {
                        0 => None,
                        1 => Some(Err(())),
                        2 => Some(Ok(rng.pick(&[0, 5, 255]))),
                        _ => Some(Ok(rng.below(5) as u8)),
                    },
                })
                .collect();
            Outcome::Answer(parts, rng.one_in(10))
        }
    }
}

/// About a day from the persisted moment, or the UTC number that the clock holds
fn rng_day(rng: &mut Rng, world: &World) -> u64 {
    let (persisted, utc) = (world.port.word(place::PERSISTED, 8), world.port.word(place::UTC, 8));
    let n = rng.pick(&[persisted.saturating_add(DAY), persisted.saturating_sub(DAY), persisted, utc]);
    rng.near(n)
}

fn stored_source(rng: &mut Rng) -> Option<Source> {
    match rng.below(3) {
        0 => None,
        _ => Some((rng.pick(&[0, 1, 2, 255]), rng.pick(&[0, 1, 7, TOP]), rng.pick(&[0, 1, u16::MAX]))),
    }
}

fn source_step(rng: &mut Rng) -> Step {
    let named = (!rng.one_in(3)).then(|| (rng.pick(&[0, 1, 7, TOP]), rng.pick(&[0, 1, u16::MAX])));
    Step::Source(rng.pick(&[0, 1, 1, 2, 255]), named)
}

/// The client goes on; one in four times its exchange stays open
fn client_step(rng: &mut Rng, world: &World) -> Step {
    if rng.one_in(4) {
        Step::Open
    } else {
        Step::Client(outcome(rng, world))
    }
}

/// Where an exchange is open or a loop is due, sometimes what goes on from there
fn loop_step(rng: &mut Rng, world: &World) -> Option<Step> {
    let [timer, client] = world.dues();
    match (timer, client) {
        _ if world.exchange_open() && rng.one_in(4) => Some(source_step(rng)),
        (_, Some(due)) if due <= world.tick && rng.one_in(2) => Some(client_step(rng, world)),
        (Some(due), _) if due <= world.tick && rng.one_in(2) => Some(Step::Look),
        (_, Some(due)) if due > world.tick && rng.one_in(6) => Some(Step::Tick(due)),
        (Some(due), _) if due > world.tick && rng.one_in(10) => Some(Step::Tick(due)),
        _ => None,
    }
}

fn utc_step(rng: &mut Rng, world: &World) -> Step {
    let utc = if rng.one_in(4) { rng_day(rng, world) } else { moment(rng, world) };
    let g = if rng.one_in(12) { rng.pick(&[5, 6, 255]) } else { rng.below(5) as u8 };
    let source = rng.pick(&[None, None, None, None, Some(0), Some(2), Some(16), Some(17), Some(255)]);
    Step::Utc(utc, g, source)
}

fn set_step(rng: &mut Rng, world: &World) -> Step {
    let g = if rng.one_in(12) { 5 } else { rng.below(5) as u8 };
    let s = if rng.one_in(12) { 17 } else { rng.below(17) as u8 };
    let utc = if rng.one_in(2) { rng_day(rng, world) } else { moment(rng, world) };
    Step::Set(rng.one_in(2), utc, g, s)
}

fn load_clock_step(rng: &mut Rng, world: &World) -> Step {
    let build = rng.pick(&[0, 10, NOW, TOP]);
    let stored = match rng.below(3) {
        0 => None,
        1 => Some(rng.near(build)),
        _ => Some(moment(rng, world)),
    };
    Step::LoadClock(build, stored, stored_source(rng))
}

pub fn step(rng: &mut Rng, world: &World) -> Step {
    if let Some(step) = loop_step(rng, world) {
        return step;
    }
    let lists_only = matches!(world.kind, Kind::Lists(..));
    match rng.below(if lists_only { 20 } else { 40 }) {
        0..=9 => list_step(rng, world),
        10..=14 => Step::Tick(tick(rng, world)),
        15..=17 => utc_step(rng, world),
        18 => Step::Generation(rng.pick(&[0, 1, u32::MAX, u32::MAX - 1])),
        19 => set_step(rng, world),
        20..=25 => Step::Look,
        26..=33 => client_step(rng, world),
        34..=36 => source_step(rng),
        37 => {
            let g = rng.below(6) as u8;
            Step::Set(true, rng_day(rng, world), g, rng.below(18) as u8)
        }
        38 => load_clock_step(rng, world),
        _ if rng.one_in(2) => Step::ResetClock(rng.pick(&[0, 10, NOW, TOP])),
        _ => Step::Look,
    }
}

/// A step; of those that set a clock again to what it holds, which end the sequence, most are drawn anew
fn thinned(rng: &mut Rng, world: &World) -> Step {
    let step = step(rng, world);
    if world.sets_again(&step) && !rng.one_in(3) {
        return self::step(rng, world);
    }
    step
}

pub fn item(rng: &mut Rng, world: &World) -> Item {
    let step = thinned(rng, world);
    let mut probes: Vec<u64> = (0..3).map(|_| moment(rng, world)).collect();
    // the boundaries that the step brings
    match &step {
        Step::Zones(b) => {
            if let Some(z) = bytes::read_zones(b).filter(|l| !l.is_empty()) {
                let n = rng.pick(&z).valid_at;
                probes.insert(0, rng.near(n));
            }
        }
        Step::Windows(b) => {
            if let Some(w) = bytes::read_windows(b).filter(|l| !l.is_empty()) {
                let w = rng.pick(&w);
                let n = w.valid_until.filter(|_| rng.one_in(2)).unwrap_or(w.valid_starting);
                probes.insert(0, rng.near(n));
            }
        }
        _ => {}
    }
    Item { step, probes, short: rng.one_in(6) }
}
