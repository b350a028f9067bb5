//! Random numbers, moments and lists, most of them near a boundary.
use oracle::driver::{WindowArg, ZoneArg};

pub const TOP: u64 = u64::MAX;
pub const SECOND: u64 = 1_000_000;
pub const HOUR: u64 = 3600 * SECOND;
pub const DAY: u64 = 24 * HOUR;
pub const NOW: u64 = 800_000_000 * SECOND;

/// splitmix64
#[derive(Clone)]
pub struct Rng(u64);

impl Rng {
    pub fn new(seed: u64, sequence: u64) -> Self {
        let mut rng = Self(seed.wrapping_mul(0x9E37_79B9_7F4A_7C15) ^ sequence.wrapping_mul(0xD1B5_4A32_D192_ED03));
        rng.next();
        rng
    }
    pub fn next(&mut self) -> u64 {
        self.0 = self.0.wrapping_add(0x9E37_79B9_7F4A_7C15);
        let mut z = self.0;
        z = (z ^ z >> 30).wrapping_mul(0xBF58_476D_1CE4_E5B9);
        z = (z ^ z >> 27).wrapping_mul(0x94D0_49BB_1331_11EB);
        z ^ z >> 31
    }
    pub fn below(&mut self, n: u64) -> u64 {
        self.next() % n
    }
    pub fn pick<T: Clone>(&mut self, of: &[T]) -> T {
        of[self.below(of.len() as u64) as usize].clone()
    }
    pub fn one_in(&mut self, n: u64) -> bool {
        self.below(n) == 0
    }
    /// A number, or one beside it
    pub fn near(&mut self, n: u64) -> u64 {
        match self.below(4) {
            0 => n.saturating_sub(1),
            1 => n.saturating_add(1),
            _ => n,
        }
    }
}

/// A moment: small, at one of these boundaries or beside it, at an edge of the range, or current
pub fn moment(rng: &mut Rng, boundaries: impl FnOnce() -> Vec<u64>) -> u64 {
    match rng.below(10) {
        0..=3 => rng.below(7),
        4..=6 => {
            let bound = rng.pick(&boundaries());
            rng.near(bound)
        }
        7 => {
            let n = rng.pick(&[0, 1, 2, TOP, TOP - 1, TOP - 100_000, TOP / 2, DAY, NOW, HOUR]);
            rng.near(n)
        }
        _ => NOW + rng.below(5),
    }
}

fn zone_offset(rng: &mut Rng) -> i32 {
    rng.pick(&[-43_200, -43_199, -3600, -1, 0, 0, 1, 3600, 7200, 50_399, 50_400])
}

fn name(rng: &mut Rng) -> Option<String> {
    match rng.below(10) {
        0..=4 => None,
        5 => Some(String::new()),
        6 => Some("CET".into()),
        7 => Some("Zürich €".into()),
        8 => Some("n".repeat(63)),
        _ => Some(rng.pick(&["é".repeat(32), "n".repeat(64), "𝄞".repeat(16)])),
    }
}

/// A list that mostly is accepted; one in three has one fault
pub fn zones(rng: &mut Rng, limit: usize, moment: impl Fn(&mut Rng) -> u64) -> Vec<ZoneArg> {
    let count = match rng.below(6) {
        0 => limit,
        1 => rng.below(limit as u64 + 2) as usize,
        2 => limit.min(2),
        _ => rng.below(limit as u64 + 1) as usize,
    };
    let mut start = 0u64;
    let mut list = Vec::new();
    for i in 0..count {
        list.push(ZoneArg { offset: zone_offset(rng), valid_at: start, name: name(rng) });
        start = match i {
            0 => moment(rng).max(1),
            _ => start.saturating_add(rng.pick(&[1, 1, 2, 5, 100_000, HOUR])),
        };
    }
    if !list.is_empty() && rng.one_in(3) {
        let at = rng.below(list.len() as u64) as usize;
        let before = if at == 0 { 0 } else { list[at - 1].valid_at };
        match rng.below(6) {
            0 => list[at].valid_at = before,
            1 => list[at].valid_at = before.saturating_sub(1),
            2 => list[at].valid_at = rng.pick(&[0, 1]),
            3 => list[at].offset = rng.pick(&[-43_201, 50_401, i32::MIN, i32::MAX]),
            4 => list[at].name = Some("n".repeat(rng.pick(&[65, 65, 66, 255]))),
            _ => list.push(ZoneArg { offset: 0, valid_at: start, name: None }),
        }
    }
    list
}

/// The same of windows
pub fn windows(rng: &mut Rng, limit: usize, moment: impl Fn(&mut Rng) -> u64) -> Vec<WindowArg> {
    let count = match rng.below(6) {
        0 => limit,
        1 => rng.below(limit as u64 + 2) as usize,
        2 => limit.min(2),
        _ => rng.below(limit as u64 + 1) as usize,
    };
    let mut start = moment(rng);
    let mut list = Vec::new();
    for _ in 0..count {
        let until = match rng.below(8) {
            0 => moment(rng).max(start.saturating_add(1)),
            _ => start.saturating_add(rng.pick(&[1, 1, 2, 3, 100_000, HOUR])),
        };
        let offset = rng.pick(&[0, 3600, 3600, 7200, -3600, i32::MIN, i32::MAX]);
        list.push(WindowArg { offset, valid_starting: start, valid_until: Some(until) });
        start = until.saturating_add(rng.pick(&[0, 0, 1, 5, HOUR]));
    }
    if let Some(last) = list.last_mut() {
        if rng.one_in(3) {
            last.valid_until = None;
        }
    }
    if !list.is_empty() && rng.one_in(3) {
        let at = rng.below(list.len() as u64) as usize;
        let before = at.checked_sub(1).map(|i| list[i].clone());
        match rng.below(6) {
            0 => list[at].valid_until = Some(list[at].valid_starting),
            1 => list[at].valid_until = Some(list[at].valid_starting.saturating_sub(1)),
            2 => list[at].valid_until = None,
            3 => list[at].valid_starting = before.map_or(0, |b| b.valid_starting),
            4 => list[at].valid_starting = before.and_then(|b| b.valid_until).unwrap_or(1).saturating_sub(1),
            _ => list.push(WindowArg { offset: 0, valid_starting: start, valid_until: None }),
        }
    }
    list
}
