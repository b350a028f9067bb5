//! Whole sequences, at the limits and random ones: run, and made smaller.
use std::panic::{catch_unwind, set_hook, AssertUnwindSafe};

use differ::draw::Rng;
use oracle::dm::LifecycleOp;
use timesync::{Limits, TIME_ZONE_NAME_MAX};

use crate::counts::Counts;
use crate::input;
use crate::list::{self, List};
use crate::pair::{Done, Pair, Step};

/// How many steps a random sequence has
const STEPS: usize = 24;

/// Limits, and steps with the number that decides when LocalTime is read
#[derive(Debug, Clone)]
pub struct Case {
    pub limits: Limits,
    pub items: Vec<(Step, u64)>,
}

/// A case that failed, and how
pub type Failed = (Case, String);

impl Case {
    pub fn new(limits: Limits, steps: Vec<Step>) -> Self {
        Self { limits, items: steps.into_iter().zip(0..).collect() }
    }

    pub fn run(&self, counts: &mut Counts) -> Result<(), Failed> {
        let run = || {
            let mut pair = Pair::new(self.limits, counts)?;
            self.items.iter().try_for_each(|(step, probe)| pair.step(step, *probe))
        };
        caught(run).map_err(|why| (self.clone(), why))
    }
}

fn caught(run: impl FnOnce() -> Done) -> Done {
    catch_unwind(AssertUnwindSafe(run)).unwrap_or(Err("a panic".into()))
}

/// The same failure or another one with fewer steps
pub fn smaller((mut case, mut why): Failed) -> Failed {
    set_hook(Box::new(|_| {}));
    for at in (0..case.items.len()).rev() {
        let mut fewer = case.clone();
        fewer.items.remove(at);
        if let Err(failed) = fewer.run(&mut Counts::default()) {
            (case, why) = failed;
        }
    }
    (case, why)
}

/// All 128 pairs of limits
pub fn every_limits() -> impl Iterator<Item = Limits> {
    let Limits { time_zone_max: zones, dst_offset_max: windows } = Limits::LARGEST;
    (1..=zones).flat_map(move |time_zone_max| {
        (1..=windows).map(move |dst_offset_max| Limits { time_zone_max, dst_offset_max })
    })
}

/// Lists that are as long as they can be, in entries and in bytes, and one entry longer
pub fn full(limits: Limits) -> Case {
    let zones = |past| Step::Set(List::Zones(list::zones(limits.time_zone_max + past, TIME_ZONE_NAME_MAX)), None);
    let windows = |past| Step::Set(List::Windows(list::windows(limits.dst_offset_max + past)), None);
    let steps = vec![
        Step::Utc(0, 4),
        zones(0),
        windows(0),
        Step::Restart(None),
        Step::Utc(0, 4),
        zones(1),
        windows(1),
        Step::Lifecycle(LifecycleOp::Startup),
        Step::Lifecycle(LifecycleOp::FactoryReset),
        Step::Restart(None),
    ];
    Case::new(limits, steps)
}

/// A random sequence, by the seed and its number
pub fn sequence(seed: u64, number: u64, counts: &mut Counts) -> Result<(), Failed> {
    let (mut rng, every) = (Rng::new(seed, number), every_limits().collect::<Vec<_>>());
    let limits = every[number as usize % every.len()];
    let mut case = Case::new(limits, Vec::new());
    let items = &mut case.items;
    let run = || {
        let mut pair = Pair::new(limits, counts)?;
        (0..STEPS).try_for_each(|_| {
            let (step, probe) = (input::step(&mut rng, &pair), rng.next());
            items.push((step.clone(), probe));
            pair.step(&step, probe)
        })
    };
    caught(run).map_err(|why| (case, why))
}
