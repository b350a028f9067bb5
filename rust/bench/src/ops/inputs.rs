//! What both sides are given: lists, moments, and the lists as bytes for the port.

use oracle::driver::{WindowArg, ZoneArg};

pub const DAY: u64 = 86_400_000_000;
pub const FIRST: u64 = 800_000_000_000_000;
/// What the clock is set to at tick 0: in the first zone, before every window
pub const SET: u64 = FIRST + DAY;
pub const BUILD: u64 = 700_000_000_000_000;
pub const PERIOD: u64 = 3_600_000_000;
pub const NODE: u64 = 0x1122_3344_5566_7788;

pub fn zones(n: usize) -> Vec<ZoneArg> {
    let zone = |i: usize| ZoneArg {
        offset: 3600 * (i as i32 + 1),
        valid_at: if i == 0 { 0 } else { FIRST + 10 * DAY * i as u64 },
        name: Some(format!("Zone/Named-{}", (b'A' + i as u8) as char)),
    };
    (0..n).map(zone).collect()
}

pub fn windows(n: usize) -> Vec<WindowArg> {
    let window = |i: usize| {
        let start = FIRST + 5 * DAY + 30 * DAY * i as u64;
        WindowArg {
            offset: 3600,
            valid_starting: start,
            valid_until: Some(start + 20 * DAY),
        }
    };
    (0..n).map(window).collect()
}

/// In the last window and the last zone
pub fn moment(windows: &[WindowArg]) -> u64 {
    windows[windows.len() - 1].valid_starting + 8 * DAY
}

pub fn section_of_zones(zones: &[ZoneArg]) -> Vec<u8> {
    let mut out = vec![zones.len() as u8];
    for z in zones {
        out.extend(z.offset.to_le_bytes());
        out.extend(z.valid_at.to_le_bytes());
        match &z.name {
            None => out.push(0),
            Some(name) => {
                out.extend([1, name.len() as u8]);
                out.extend(name.as_bytes());
            }
        }
    }
    out
}

pub fn section_of_windows(windows: &[WindowArg]) -> Vec<u8> {
    let mut out = vec![windows.len() as u8];
    for w in windows {
        out.extend(w.offset.to_le_bytes());
        out.extend(w.valid_starting.to_le_bytes());
        match w.valid_until {
            None => out.push(0),
            Some(until) => {
                out.push(1);
                out.extend(until.to_le_bytes());
            }
        }
    }
    out
}
