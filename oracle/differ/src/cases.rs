//! Whole sequences: made from a seed, run, made smaller, shown; and every short pair of lists.
use std::panic::{catch_unwind, AssertUnwindSafe};

use oracle::driver::{WindowArg, ZoneArg};

use crate::bytes;
use crate::input::{self, Rng, HOUR, SECOND, TOP};
use crate::world::{accepted, Diff, Item, Kind, Step, World};

#[derive(Debug, Clone)]
pub struct Case {
    pub kind: Kind,
    pub build: u64,
    pub period: u64,
    pub tick: u64,
    pub items: Vec<Item>,
    /// Where the walk of the replayed history starts
    pub start: u64,
}

impl Case {
    fn world(&self) -> World {
        World::new(self.kind, self.build, self.period, self.tick)
    }
}

fn caught<R>(f: impl FnOnce() -> Result<R, Diff>) -> Result<R, Diff> {
    catch_unwind(AssertUnwindSafe(f)).unwrap_or_else(|panic| {
        let text = panic.downcast_ref::<String>().cloned();
        let text = text.or(panic.downcast_ref::<&str>().map(|s| s.to_string())).unwrap_or_default();
        Err(Diff(format!("the oracle panics: {text}")))
    })
}

/// A sequence from its seed and number: how many answers were compared, or where it failed
pub fn sequence(seed: u64, number: u64, steps: u64) -> Result<u64, (Case, Diff)> {
    let mut rng = Rng::new(seed, number);
    let kind = match number % 4 {
        0 | 1 => {
            let pair = (number / 4 * 2 + number % 4) % 128;
            Kind::Lists((pair % 8 + 1) as usize, (pair / 8 + 1) as usize)
        }
        3 if number % 32 == 3 => Kind::Bare,
        _ => Kind::Device,
    };
    let mut case = Case {
        kind,
        build: rng.pick(&[0, 10, 800_000_000 * SECOND, TOP]),
        period: rng.pick(&[0, 1, 59 * SECOND, 60 * SECOND, 61 * SECOND, 300 * SECOND, HOUR, TOP / 2]),
        tick: rng.pick(&[0, 0, 0, 1, SECOND]),
        items: Vec::new(),
        start: rng.pick(&[0, 0, 1, 3, TOP]),
    };
    let mut world = case.world();
    while !world.again && (case.items.len() as u64) < steps {
        let item = input::item(&mut rng, &world);
        case.items.push(item.clone());
        caught(|| world.step(&item)).map_err(|diff| (case.clone(), diff))?;
    }
    caught(|| world.finish(case.start)).map_err(|diff| (case, diff))?;
    Ok(world.answers)
}

/// Runs a sequence once more
pub fn run(case: &Case) -> Result<u64, Diff> {
    caught(|| {
        let mut world = case.world();
        for item in &case.items {
            world.step(item)?;
            if world.again {
                break;
            }
        }
        world.finish(case.start)?;
        Ok(world.answers)
    })
}

// ---- Smaller

fn fewer_entries(step: &Step) -> Vec<Step> {
    let mut out = Vec::new();
    match step {
        Step::Zones(b) => {
            if let Some(list) = bytes::read_zones(b) {
                out.extend(fewer_zones(&list).map(|l| Step::Zones(bytes::zones(&l))));
            }
        }
        Step::Windows(b) => {
            if let Some(list) = bytes::read_windows(b) {
                out.extend(fewer_windows(&list).map(|l| Step::Windows(bytes::windows(&l))));
            }
        }
        Step::Load(Some(b)) => {
            if let Some((zones, windows)) = bytes::read_record(b) {
                out.extend(fewer_zones(&zones).map(|l| Step::Load(Some(bytes::record(&l, &windows)))));
                out.extend(fewer_windows(&windows).map(|l| Step::Load(Some(bytes::record(&zones, &l)))));
            }
        }
        _ => {}
    }
    out
}

/// One entry less, or one name less
fn fewer_zones(list: &[ZoneArg]) -> impl Iterator<Item = Vec<ZoneArg>> + '_ {
    let fewer = (0..list.len()).map(|i| [&list[..i], &list[i + 1..]].concat());
    let nameless = (0..list.len()).filter(|i| list[*i].name.is_some()).map(|i| {
        let mut list = list.to_vec();
        list[i].name = None;
        list
    });
    fewer.chain(nameless)
}

fn fewer_windows(list: &[WindowArg]) -> impl Iterator<Item = Vec<WindowArg>> + '_ {
    (0..list.len()).map(|i| [&list[..i], &list[i + 1..]].concat())
}

/// The same difference or another one with less: calls are dropped, then entries, then moments looked up
pub fn smaller(mut case: Case, mut diff: Diff) -> (Case, Diff) {
    let mut tries = 0;
    let mut attempt = |case: &mut Case, diff: &mut Diff, next: Case| {
        tries += 1;
        match run(&next) {
            Err(other) if tries < 5000 => {
                (*case, *diff) = (next, other);
                true
            }
            _ => false,
        }
    };
    let mut size = case.items.len() / 2;
    while size > 0 {
        let mut at = 0;
        while at < case.items.len() {
            let mut next = case.clone();
            next.items.drain(at..(at + size).min(case.items.len()));
            if !attempt(&mut case, &mut diff, next) {
                at += size;
            }
        }
        size /= 2;
    }
    let mut again = true;
    while again {
        again = false;
        for at in (0..case.items.len()).rev() {
            if at >= case.items.len() {
                continue;
            }
            let mut next = case.clone();
            next.items.remove(at);
            again |= attempt(&mut case, &mut diff, next);
        }
        for at in 0..case.items.len() {
            for step in fewer_entries(&case.items[at].step) {
                let mut next = case.clone();
                next.items[at].step = step;
                if attempt(&mut case, &mut diff, next) {
                    again = true;
                    break;
                }
            }
            if case.items[at].short {
                let mut next = case.clone();
                next.items[at].short = false;
                again |= attempt(&mut case, &mut diff, next);
            }
            for probe in (0..case.items[at].probes.len()).rev() {
                let mut next = case.clone();
                next.items[at].probes.remove(probe);
                again |= attempt(&mut case, &mut diff, next);
            }
        }
    }
    (case, diff)
}

// ---- Shown

fn show_zones(list: &[ZoneArg]) -> String {
    let list: Vec<String> = list.iter().map(|z| format!("Z({}, {}, {:?})", z.offset, z.valid_at, z.name)).collect();
    format!("[{}]", list.join(", "))
}

fn show_windows(list: &[WindowArg]) -> String {
    let end = |w: &WindowArg| w.valid_until.map_or("·".into(), |u| u.to_string());
    let list: Vec<String> = list.iter().map(|w| format!("W({}, {}, {})", w.offset, w.valid_starting, end(w))).collect();
    format!("[{}]", list.join(", "))
}

pub fn show(case: &Case) -> String {
    let mut out = format!("{:?}, build {}, period {}, tick {}\n", case.kind, case.build, case.period, case.tick);
    for item in &case.items {
        let step = match &item.step {
            Step::Zones(b) => match bytes::read_zones(b) {
                Some(list) => format!("SetTimeZone {}", show_zones(&list)),
                None => format!("SetTimeZone, bytes {}", bytes::hex(b)),
            },
            Step::Windows(b) => match bytes::read_windows(b) {
                Some(list) => format!("SetDSTOffset {}", show_windows(&list)),
                None => format!("SetDSTOffset, bytes {}", bytes::hex(b)),
            },
            Step::Load(Some(b)) => match bytes::read_record(b) {
                Some((zones, windows)) => format!("load {} {}", show_zones(&zones), show_windows(&windows)),
                None => format!("load, bytes {}", bytes::hex(b)),
            },
            step => format!("{step:?}"),
        };
        out += &format!("  {step}");
        if !item.probes.is_empty() {
            out += &format!("   looked up at {:?}", item.probes);
        }
        if item.short {
            out += "   with short slices";
        }
        out.push('\n');
    }
    out
}

// ---- Every short list

/// Every list of at most two of these
fn at_most_two<T: Clone>(entries: &[T]) -> Vec<Vec<T>> {
    let mut out = vec![Vec::new()];
    out.extend(entries.iter().map(|e| vec![e.clone()]));
    for a in entries {
        out.extend(entries.iter().map(|b| vec![a.clone(), b.clone()]));
    }
    out
}

/// Every list of at most two zones over three starts, two offsets and three names
pub fn all_zones() -> Vec<Vec<ZoneArg>> {
    let mut entries = Vec::new();
    for valid_at in [0, 1, 3] {
        for offset in [0, 3600] {
            for name in [None, Some(String::new()), Some("A".to_string())] {
                entries.push(ZoneArg { offset, valid_at, name });
            }
        }
    }
    at_most_two(&entries)
}

/// Every list of at most two windows over the moments 0 to 4, open or closed, and two offsets
pub fn all_windows() -> Vec<Vec<WindowArg>> {
    let mut entries = Vec::new();
    for valid_starting in 0..5 {
        for valid_until in [None, Some(0), Some(1), Some(2), Some(3), Some(4)] {
            for offset in [3600, -1] {
                entries.push(WindowArg { offset, valid_starting, valid_until });
            }
        }
    }
    at_most_two(&entries)
}

/// All pairs, looked up at the moments 0 to 5; with `whole` every list of windows is set after refused zones too
pub fn every_pair(whole: bool) -> Result<u64, (Case, Diff)> {
    let (zone_lists, window_lists) = (all_zones(), all_windows());
    let windows: Vec<(Vec<u8>, bool)> = window_lists.iter().map(|w| (bytes::windows(w), accepted((2, 2), &[], w))).collect();
    let plain = |step| Item { step, probes: Vec::new(), short: false };
    let at_all = |step| Item { step, probes: (0..6).collect(), short: false };
    let mut answers = 0;
    for zones in &zone_lists {
        let first = [plain(Step::Utc(0, 3, None)), at_all(Step::Zones(bytes::zones(zones)))];
        let mut case = Case { kind: Kind::Device, build: 0, period: 60 * SECOND, tick: 0, items: first.to_vec(), start: 0 };
        let mut world = case.world();
        for item in &first {
            caught(|| world.step(item)).map_err(|diff| (case.clone(), diff))?;
        }
        if !whole && !accepted((2, 2), zones, &[]) {
            answers += world.answers;
            continue;
        }
        for (bytes, good) in &windows {
            let item = if *good { at_all(Step::Windows(bytes.clone())) } else { plain(Step::Windows(bytes.clone())) };
            let watched = |world: &mut World| {
                world.step(&item)?;
                if *good {
                    world.watch(0..=5)
                } else {
                    Ok(())
                }
            };
            if let Err(diff) = caught(|| watched(&mut world)) {
                case.items.push(item);
                for tick in 0..6 {
                    case.items.extend([plain(Step::Tick(tick)), plain(Step::Look)]);
                }
                return Err((case, diff));
            }
        }
        answers += world.answers;
    }
    // counts at the limit and one past it
    for limits in [(1, 1), (1, 2), (2, 1)] {
        let mut case = Case { kind: Kind::Lists(limits.0, limits.1), build: 0, period: 0, tick: 0, items: Vec::new(), start: 0 };
        let mut world = case.world();
        let lists = zone_lists.iter().map(|z| Step::Zones(bytes::zones(z)));
        for step in lists.chain(windows.iter().map(|(w, _)| Step::Windows(w.clone()))) {
            let item = at_all(step);
            if let Err(diff) = caught(|| world.step(&item)) {
                case.items.push(item);
                return Err((case, diff));
            }
        }
        answers += world.answers;
    }
    Ok(answers)
}
