//! The entry points that make an image or change its clock or its lists.

use super::clock::{changes, fresh, returned, set_clock, set_clock_persist};
use super::image::{
    clock_in, has_store, is_image, put, put_clock, put_generation, put_new, put_windows, put_zones, store_in, Client, Source, IMAGE_SIZE,
};
use super::lists::{read_record, read_windows, read_zones, record_bytes, test_windows, test_zones, Lists};

pub fn new(image: &mut [u8], list_store: u8, zone_limit: usize, window_limit: usize, build: u64, period: u64) -> u64 {
    let limits = (list_store != 0).then_some((zone_limit, window_limit));
    let allowed = limits.map_or(true, |(z, w)| (1..=8).contains(&z) && (1..=16).contains(&w));
    if !allowed || image.len() < IMAGE_SIZE {
        return 8;
    }
    let client = Client {
        period,
        retry: period.min(60_000_000),
        missing_at: None,
        failure_at: None,
    };
    put_new(image, limits, &fresh(build), &client);
    0
}

pub fn set_utc_time(image: &mut [u8], utc_us: u64, granularity: u8, has_source: u8, source: u8, tick: u64) -> u64 {
    if !is_image(image) {
        return 8;
    }
    if granularity > 4 || (has_source != 0 && source > 16) {
        return 1;
    }
    let mut c = clock_in(image);
    let mut codes = set_clock(&mut c, utc_us, granularity, 2, tick);
    if has_store(image) {
        codes.push(0x30);
    }
    put_clock(image, &c);
    returned(0, &codes)
}

pub fn set_trusted_time_source(image: &mut [u8], fab_idx: u8, named: u8, node_id: u64, endpoint: u16) -> u64 {
    if fab_idx == 0 {
        return 4;
    }
    if !is_image(image) {
        return 8;
    }
    let mut c = clock_in(image);
    let source = (named != 0).then_some(Source {
        fabric: fab_idx,
        node: node_id,
        endpoint,
    });
    let codes: &[u8] = match (c.trusted == source, source) {
        (true, _) => &[0x31],
        (false, Some(_)) => &[0x13, 0x44, 0x31],
        (false, None) => &[0x13, 0x24, 0x45, 0x31],
    };
    c.trusted = source;
    put_clock(image, &c);
    returned(0, codes)
}

pub fn set_time_zone(image: &mut [u8], request: &[u8], out: &mut [u8], used: &mut u64) -> u64 {
    if !is_image(image) {
        return 8;
    }
    let Some(store) = store_in(image) else { return 5 };
    let Some(zones) = read_zones(request) else { return 1 };
    let verdict = test_zones(store.zone_limit, &zones);
    if verdict != 0 {
        return u64::from(verdict);
    }
    let lists = Lists { zones, windows: vec![] };
    let record = record_bytes(&lists);
    if record.len() > out.len() {
        return 9;
    }
    put_zones(image, &lists.zones);
    put_windows(image, &lists.windows);
    put_generation(image, store.generation.wrapping_add(1));
    put(out, 0, &record);
    *used = record.len() as u64;
    returned(0, &[0x30, 0x40, 0x15, 0x16])
}

pub fn set_dst_offset(image: &mut [u8], request: &[u8], out: &mut [u8], used: &mut u64) -> u64 {
    if !is_image(image) {
        return 8;
    }
    let Some(mut store) = store_in(image) else { return 5 };
    let Some(windows) = read_windows(request) else { return 1 };
    let verdict = test_windows(store.window_limit, &windows);
    if verdict != 0 {
        put_windows(image, &[]);
        put_generation(image, store.generation.wrapping_add(1));
        return returned(verdict, &[0x30]);
    }
    store.lists.windows = windows;
    let record = record_bytes(&store.lists);
    if record.len() > out.len() {
        return 9;
    }
    put_windows(image, &store.lists.windows);
    put_generation(image, store.generation.wrapping_add(1));
    put(out, 0, &record);
    *used = record.len() as u64;
    returned(0, &[0x30, 0x40, 0x16])
}

pub fn load_lists(image: &mut [u8], there: u8, stored: &[u8]) -> u64 {
    if !is_image(image) {
        return 8;
    }
    let Some(store) = store_in(image) else { return 0 };
    if there == 0 {
        return 0;
    }
    let Some(lists) = read_record(stored) else { return 7 };
    if test_zones(store.zone_limit, &lists.zones) != 0 || test_windows(store.window_limit, &lists.windows) != 0 {
        return 7;
    }
    put_zones(image, &lists.zones);
    put_windows(image, &lists.windows);
    0
}

pub fn reset_lists(image: &mut [u8]) -> u64 {
    if !is_image(image) {
        return 8;
    }
    let Some(store) = store_in(image) else { return 0 };
    put_zones(image, &[]);
    put_windows(image, &[]);
    put_generation(image, store.generation.wrapping_add(1));
    returned(0, &[0x41, 0x30])
}

pub fn load_clock(
    image: &mut [u8],
    build: u64,
    has_moment: u8,
    moment: u64,
    has_source: u8,
    fab_idx: u8,
    node_id: u64,
    endpoint: u16,
) -> u64 {
    if !is_image(image) {
        return 8;
    }
    if has_source != 0 && fab_idx == 0 {
        return 7;
    }
    let mut c = fresh(build);
    if has_moment != 0 {
        c.utc = moment.max(build);
        c.persisted = moment;
    }
    c.trusted = (has_source != 0).then_some(Source {
        fabric: fab_idx,
        node: node_id,
        endpoint,
    });
    put_clock(image, &c);
    0
}

pub fn reset_clock(image: &mut [u8], build: u64) -> u64 {
    if !is_image(image) {
        return 8;
    }
    put_clock(image, &fresh(build));
    returned(0, &[0x43, 0x45])
}

pub fn rtc_set_utc_time(image: &mut [u8], utc_us: u64, granularity: u8, source: u8, tick: u64, changed: &mut u64) -> u64 {
    if !is_image(image) {
        return 8;
    }
    if granularity > 4 || source > 16 {
        return 1;
    }
    let mut c = clock_in(image);
    *changed = u64::from(changes(&c, utc_us, granularity, source));
    let codes = set_clock(&mut c, utc_us, granularity, source, tick);
    put_clock(image, &c);
    returned(0, &codes)
}

pub fn rtc_set_utc_time_persist(image: &mut [u8], utc_us: u64, granularity: u8, source: u8, tick: u64, changed: &mut u64) -> u64 {
    if !is_image(image) {
        return 8;
    }
    if granularity > 4 || source > 16 {
        return 1;
    }
    let mut c = clock_in(image);
    *changed = u64::from(changes(&c, utc_us, granularity, source));
    let codes = set_clock_persist(&mut c, utc_us, granularity, source, tick);
    put_clock(image, &c);
    returned(0, &codes)
}
