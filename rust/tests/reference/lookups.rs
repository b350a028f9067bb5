//! What is looked up in lists at a moment, and the walk.

use super::lists::{Lists, Window, Zone};

pub fn active_zone(l: &Lists, now: u64) -> (i32, Option<Vec<u8>>) {
    l.zones
        .iter()
        .rfind(|z| z.start <= now)
        .map_or((0, None), |z| (z.offset, z.name.clone()))
}

fn ends_after(w: &Window, now: u64) -> bool {
    w.until.map_or(true, |e| now < e)
}

pub fn is_active(w: &Window, now: u64) -> bool {
    w.start <= now && ends_after(w, now)
}

pub fn active_offset(l: &Lists, now: u64) -> Option<i32> {
    l.windows.iter().find(|w| is_active(w, now)).map(|w| w.offset)
}

pub fn usable(l: &Lists, now: u64) -> bool {
    l.windows.iter().any(|w| ends_after(w, now))
}

pub fn next(l: &Lists, now: u64) -> Option<u64> {
    let starts = l.zones.iter().map(|z| z.start).chain(l.windows.iter().map(|w| w.start));
    starts.chain(l.windows.iter().filter_map(|w| w.until)).filter(|m| *m > now).min()
}

pub fn walked(l: &Lists, start: u64) -> Vec<u64> {
    let mut moments = vec![start];
    while let Some(m) = next(l, moments[moments.len() - 1]) {
        moments.push(m);
    }
    moments
}

pub fn moments_bytes(moments: &[u64]) -> Vec<u8> {
    moments.iter().flat_map(|m| m.to_le_bytes()).collect()
}

pub fn listed(l: &Lists) -> Vec<Zone> {
    if l.zones.is_empty() {
        vec![Zone {
            offset: 0,
            start: 0,
            name: None,
        }]
    } else {
        l.zones.clone()
    }
}
