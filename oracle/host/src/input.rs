//! Random steps: lists as `differ` draws them, with more mistakes at once, entries past the limit and entries that
//! cannot be decoded.
use differ::bytes;
use differ::draw::{self, Rng};
use oracle::dm::LifecycleOp;
use oracle::driver::{RequestPart, WindowArg, ZoneArg};
use timesync::RECORD_MAX;

use crate::list::{self, List, FIELDS};
use crate::pair::{Pair, Step};

/// The lengths of a name at and past its limit, and past what a byte counts
const NAMES: [usize; 5] = [64, 65, 255, 256, 300];
/// How far a list is lengthened past its limit; the last is more than a section can count
const PAST: [usize; 6] = [1, 1, 1, 2, 9, 300];
/// A granularity that SetUTCTime cannot have
const NO_GRANULARITY: u8 = 5;

/// One good entry after the other, until there are so many
fn lengthen<T>(list: &mut Vec<T>, count: usize, next: impl Fn(Option<&T>) -> T) {
    while list.len() < count {
        list.push(next(list.last()));
    }
}

fn next_zone(last: Option<&ZoneArg>) -> ZoneArg {
    ZoneArg { offset: 0, valid_at: last.map_or(0, |zone| zone.valid_at.saturating_add(1)), name: None }
}

fn next_window(last: Option<&WindowArg>) -> WindowArg {
    let start = last.and_then(|window| window.valid_until).unwrap_or(0);
    WindowArg { offset: 0, valid_starting: start, valid_until: Some(start.saturating_add(1)) }
}

fn name(rng: &mut Rng) -> String {
    let bytes = rng.pick(&NAMES);
    if rng.one_in(2) {
        "n".repeat(bytes)
    } else {
        "é".repeat(bytes.div_ceil(2))
    }
}

fn zones(rng: &mut Rng, pair: &Pair) -> Vec<ZoneArg> {
    let limit = pair.limits.time_zone_max;
    let mut list = draw::zones(rng, limit, |rng| pair.moment(rng));
    if rng.one_in(4) {
        lengthen(&mut list, limit + rng.pick(&PAST), next_zone);
    }
    if !list.is_empty() && rng.one_in(4) {
        let at = rng.below(list.len() as u64) as usize;
        list[at].name = Some(name(rng));
    }
    list
}

fn windows(rng: &mut Rng, pair: &Pair) -> Vec<WindowArg> {
    let limit = pair.limits.dst_offset_max;
    let mut list = draw::windows(rng, limit, |rng| pair.moment(rng));
    if rng.one_in(4) {
        lengthen(&mut list, limit + rng.pick(&PAST), next_window);
    }
    list
}

fn set(rng: &mut Rng, list: List) -> Step {
    let entry = rng.below(list.len() as u64 + 2) as usize;
    let unreadable = match rng.below(24) {
        0 => Some(RequestPart::List),
        1 => Some(RequestPart::Entry(entry)),
        2 => Some(RequestPart::Field(entry, rng.below(FIELDS.into()) as u8)),
        _ => None,
    };
    Step::Set(list, unreadable)
}

/// A record that is too short, too long, empty, or has more entries than a limit
fn bad_record(rng: &mut Rng, pair: &Pair) -> Vec<u8> {
    let mut record = pair.record();
    match rng.below(5) {
        0 => drop(record.pop()),
        1 if record.len() < RECORD_MAX => record.push(0),
        2 => record.clear(),
        3 => record = bytes::record(&list::zones(pair.limits.time_zone_max + 1, 0), &[]),
        _ => record = bytes::record(&[], &list::windows(pair.limits.dst_offset_max + 1)),
    }
    record
}

fn life(rng: &mut Rng, pair: &Pair) -> Step {
    let fab_idx = 1;
    match rng.below(8) {
        0..=2 => Step::Restart(None),
        3 => Step::Restart(Some(bad_record(rng, pair))),
        4..=5 => Step::Lifecycle(LifecycleOp::Startup),
        6 => Step::Lifecycle(LifecycleOp::FactoryReset),
        _ => Step::Lifecycle(rng.pick(&[
            LifecycleOp::FabricRemoval { fab_idx },
            LifecycleOp::FailSafeCommit,
            LifecycleOp::FailSafeExpiry,
        ])),
    }
}

fn utc(rng: &mut Rng, pair: &Pair) -> Step {
    Step::Utc(pair.moment(rng), rng.below(u64::from(NO_GRANULARITY) + 1) as u8)
}

pub fn step(rng: &mut Rng, pair: &Pair) -> Step {
    // without a clock LocalTime says nothing of the lists
    if !pair.is_clock_set() && rng.one_in(2) {
        return utc(rng, pair);
    }
    match rng.below(20) {
        0..=3 => {
            let list = zones(rng, pair);
            set(rng, List::Zones(list))
        }
        4..=11 => {
            let list = windows(rng, pair);
            set(rng, List::Windows(list))
        }
        12..=14 => utc(rng, pair),
        15..=16 => Step::Tick(pair.tick_near_boundary(rng)),
        _ => life(rng, pair),
    }
}
