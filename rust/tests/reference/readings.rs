//! The entry points that read the clock and the lists.

use super::clock::reading;
use super::image::{clock_in, is_image, put, store_in, Store};
use super::lists::record_bytes;
use super::lookups::{active_offset, active_zone, is_active, listed, moments_bytes, next, usable, walked};

pub fn utc_time(image: &[u8], tick: u64, reliable: &mut u64, utc_us: &mut u64) -> u64 {
    if !is_image(image) {
        return 8;
    }
    (*reliable, *utc_us) = match reading(&clock_in(image), tick) {
        Ok(us) => (1, us),
        Err(us) => (0, us),
    };
    0
}

pub fn utc_time_granularity(image: &[u8], value: &mut u64) -> u64 {
    if !is_image(image) {
        return 8;
    }
    let c = clock_in(image);
    *value = c.anchor.map_or(0, |_| u64::from(c.granularity));
    0
}

pub fn utc_time_source(image: &[u8], value: &mut u64) -> u64 {
    if !is_image(image) {
        return 8;
    }
    let c = clock_in(image);
    *value = c.anchor.map_or(0, |_| u64::from(c.source));
    0
}

pub fn trusted_time_source(image: &[u8], there: &mut u64, fab_idx: &mut u64, node_id: &mut u64, endpoint: &mut u64) -> u64 {
    if !is_image(image) {
        return 8;
    }
    (*there, *fab_idx, *node_id, *endpoint) = match clock_in(image).trusted {
        Some(t) => (1, u64::from(t.fabric), t.node, u64::from(t.endpoint)),
        None => (0, 0, 0, 0),
    };
    0
}

pub fn local_time(image: &[u8], tick: u64, there: &mut u64, local_us: &mut u64) -> u64 {
    if !is_image(image) {
        return 8;
    }
    let Ok(utc) = reading(&clock_in(image), tick) else {
        (*there, *local_us) = (0, 0);
        return 0;
    };
    let Some(store) = store_in(image) else { return 6 };
    let l = store.lists;
    if !usable(&l, utc) {
        (*there, *local_us) = (0, 0);
        return 0;
    }
    let dst = l.windows.iter().rfind(|w| is_active(w, utc)).map_or(0, |w| i128::from(w.offset));
    let shown = i128::from(utc) + (i128::from(active_zone(&l, utc).0) + dst) * 1_000_000;
    (*there, *local_us) = (1, shown.clamp(0, i128::from(u64::MAX)) as u64);
    0
}

// a number of the list store
fn store_number(image: &[u8], value: &mut u64, read: impl FnOnce(&Store) -> u64) -> u64 {
    if !is_image(image) {
        return 8;
    }
    let Some(store) = store_in(image) else { return 6 };
    *value = read(&store);
    0
}

pub fn time_zone_count(image: &[u8], value: &mut u64) -> u64 {
    store_number(image, value, |s| listed(&s.lists).len() as u64)
}

pub fn dst_offset_count(image: &[u8], value: &mut u64) -> u64 {
    store_number(image, value, |s| s.lists.windows.len() as u64)
}

pub fn time_zone_list_max_size(image: &[u8], value: &mut u64) -> u64 {
    store_number(image, value, |s| s.zone_limit as u64)
}

pub fn dst_offset_list_max_size(image: &[u8], value: &mut u64) -> u64 {
    store_number(image, value, |s| s.window_limit as u64)
}

pub fn time_zone_database(image: &[u8], value: &mut u64) -> u64 {
    store_number(image, value, |_| 2)
}

pub fn generation(image: &[u8], value: &mut u64) -> u64 {
    store_number(image, value, |s| u64::from(s.generation))
}

pub fn dst_usable(image: &[u8], utc: u64, value: &mut u64) -> u64 {
    store_number(image, value, |s| u64::from(usable(&s.lists, utc)))
}

pub fn dst_table_empty(image: &[u8], value: &mut u64) -> u64 {
    store_number(image, value, |s| u64::from(s.lists.windows.is_empty()))
}

pub fn time_zone(
    image: &[u8],
    index: usize,
    name: &mut [u8],
    offset: &mut i32,
    valid_at: &mut u64,
    named: &mut u64,
    name_len: &mut u64,
) -> u64 {
    if !is_image(image) {
        return 8;
    }
    let Some(store) = store_in(image) else { return 6 };
    let zones = listed(&store.lists);
    let Some(z) = zones.get(index) else { return 2 };
    let text = z.name.clone().unwrap_or_default();
    if text.len() > name.len() {
        return 9;
    }
    put(name, 0, &text);
    (*offset, *valid_at, *named, *name_len) = (z.offset, z.start, u64::from(z.name.is_some()), text.len() as u64);
    0
}

pub fn dst_offset(image: &[u8], index: usize, offset: &mut i32, valid_starting: &mut u64, closed: &mut u64, valid_until: &mut u64) -> u64 {
    if !is_image(image) {
        return 8;
    }
    let Some(store) = store_in(image) else { return 6 };
    let Some(w) = store.lists.windows.get(index) else { return 2 };
    (*offset, *valid_starting, *closed, *valid_until) = (w.offset, w.start, u64::from(w.until.is_some()), w.until.unwrap_or(0));
    0
}

pub fn active_time_zone(image: &[u8], utc: u64, name: &mut [u8], offset: &mut i32, named: &mut u64, name_len: &mut u64) -> u64 {
    if !is_image(image) {
        return 8;
    }
    let Some(store) = store_in(image) else { return 6 };
    let (o, n) = active_zone(&store.lists, utc);
    let text = n.clone().unwrap_or_default();
    if text.len() > name.len() {
        return 9;
    }
    put(name, 0, &text);
    (*offset, *named, *name_len) = (o, u64::from(n.is_some()), text.len() as u64);
    0
}

pub fn active_dst_offset(image: &[u8], utc: u64, there: &mut u64, offset: &mut i32) -> u64 {
    if !is_image(image) {
        return 8;
    }
    let Some(store) = store_in(image) else { return 6 };
    let o = active_offset(&store.lists, utc);
    (*there, *offset) = (u64::from(o.is_some()), o.unwrap_or(0));
    0
}

pub fn next_transition(image: &[u8], utc: u64, there: &mut u64, moment: &mut u64) -> u64 {
    if !is_image(image) {
        return 8;
    }
    let Some(store) = store_in(image) else { return 6 };
    let m = next(&store.lists, utc);
    (*there, *moment) = (u64::from(m.is_some()), m.unwrap_or(0));
    0
}

pub fn walk(image: &[u8], start: u64, moments: &mut [u8], steps: &mut u64) -> u64 {
    if !is_image(image) {
        return 8;
    }
    let Some(store) = store_in(image) else { return 6 };
    let w = walked(&store.lists, start);
    let bytes = moments_bytes(&w);
    if bytes.len() > moments.len() {
        return 9;
    }
    put(moments, 0, &bytes);
    *steps = w.len() as u64 - 1;
    0
}

pub fn record(image: &[u8], out: &mut [u8], used: &mut u64) -> u64 {
    if !is_image(image) {
        return 8;
    }
    let Some(store) = store_in(image) else { return 6 };
    let bytes = record_bytes(&store.lists);
    if bytes.len() > out.len() {
        return 9;
    }
    put(out, 0, &bytes);
    *used = bytes.len() as u64;
    0
}
