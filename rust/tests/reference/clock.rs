//! The clock by value: its reading, and what a setting changes and asks for.

use super::image::Clock;

/// The reading of a set clock, or of one that is not.
pub fn reading(c: &Clock, tick: u64) -> Result<u64, u64> {
    c.anchor.map_or(Err(c.utc), |at| Ok(c.utc.saturating_add(tick.saturating_sub(at))))
}

pub fn fresh(build: u64) -> Clock {
    Clock {
        utc: build,
        persisted: build,
        granularity: 0,
        source: 0,
        anchor: None,
        trusted: None,
    }
}

pub fn changes(c: &Clock, utc: u64, g: u8, s: u8) -> bool {
    c.utc != utc || c.granularity != lowered(g) || c.source != s
}

fn lowered(g: u8) -> u8 {
    g.saturating_sub(1).max(1)
}

/// Sets the clock, and answers the codes of the effects.
pub fn set_clock(c: &mut Clock, utc: u64, g: u8, s: u8, tick: u64) -> Vec<u8> {
    c.utc = utc;
    c.granularity = lowered(g);
    c.source = s;
    c.anchor = Some(tick);
    vec![0x10, 0x11, 0x12]
}

pub fn set_clock_persist(c: &mut Clock, utc: u64, g: u8, s: u8, tick: u64) -> Vec<u8> {
    let mut codes = set_clock(c, utc, g, s, tick);
    if c.persisted.abs_diff(utc) >= 86_400_000_000 {
        c.persisted = utc;
        codes.push(0x42);
    }
    codes
}

/// The number and the codes in one number.
pub fn returned(number: u8, codes: &[u8]) -> u64 {
    codes.iter().rev().fold(0, |r, c| r << 8 | u64::from(*c)) << 8 | u64::from(number)
}
