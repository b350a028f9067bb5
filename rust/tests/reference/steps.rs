//! The timer's look, the client's steps, and a whole history.

use super::clock::{reading, returned, set_clock_persist};
use super::commands::{load_lists, new, reset_lists, set_dst_offset, set_time_zone};
use super::image::{
    client_in, clock_in, is_image, put, put_client, put_clock, put_timer, store_in, timer_in, Client, Seen, Store, IMAGE_SIZE,
};
use super::lists::{record_bytes, Lists, Reader};
use super::lookups::{active_offset, active_zone, moments_bytes, next, usable, walked};

// ---- the timer

/// What a look tells: the codes of its events with what they carry, what it saw, and its sleep.
struct Told {
    codes: Vec<u8>,
    zone: (i32, Option<Vec<u8>>),
    active: bool,
    seen: Option<Seen>,
    sleep: (u64, u64),
}

fn quiet(seen: Option<Seen>, sleep: u64) -> Told {
    Told {
        codes: vec![],
        zone: (0, None),
        active: false,
        seen,
        sleep: (sleep, 0),
    }
}

fn looked(old: Option<Seen>, l: &Lists, utc: u64) -> Told {
    let zone = active_zone(l, utc);
    let seen = Seen {
        offset: zone.0,
        active: active_offset(l, utc).is_some(),
        usable: usable(l, utc),
    };
    let mut told = quiet(Some(seen.clone()), 1);
    if let Some(m) = next(l, utc) {
        told.sleep = (2, (m - utc).saturating_add(100_000));
    }
    if old.as_ref().is_some_and(|o| o.offset != seen.offset) {
        told.codes.push(0x22);
        told.zone = zone;
    }
    if old.as_ref().map_or(seen.active, |o| o.active != seen.active) {
        told.codes.push(0x21);
        told.active = seen.active;
    }
    if old.is_some_and(|o| o.usable && !seen.usable) {
        told.codes.push(0x20);
    }
    told
}

pub fn look(
    image: &mut [u8],
    tick: u64,
    name: &mut [u8],
    offset: &mut i32,
    named: &mut u64,
    name_len: &mut u64,
    dst_active: &mut u64,
    sleep: &mut u64,
    sleep_us: &mut u64,
) -> u64 {
    if !is_image(image) {
        return 8;
    }
    let old = timer_in(image);
    let told = match (store_in(image), reading(&clock_in(image), tick)) {
        (None, _) => quiet(old, 0),
        (Some(_), Err(_)) => quiet(old, 1),
        (Some(store), Ok(utc)) => looked(old, &store.lists, utc),
    };
    let text = told.zone.1.clone().unwrap_or_default();
    if text.len() > name.len() {
        return 9;
    }
    put(name, 0, &text);
    (*offset, *named, *name_len) = (told.zone.0, u64::from(told.zone.1.is_some()), text.len() as u64);
    *dst_active = u64::from(told.active);
    (*sleep, *sleep_us) = told.sleep;
    put_timer(image, &told.seen);
    returned(0, &told.codes)
}

// ---- the client

// what is asked for of an event, at most once in an hour of ticks
fn hourly(mark: &mut Option<u64>, tick: u64, code: u8) -> Vec<u8> {
    let due = mark.map_or(true, |m| u128::from(m) + 3_600_000_000 <= u128::from(tick));
    if due {
        *mark = Some(tick);
    }
    due.then_some(code).into_iter().collect()
}

// the wait after an attempt without a time; the next one is twice as long, and at most the period
fn back_off(c: &mut Client) -> u64 {
    let wait = c.retry;
    c.retry = (u128::from(wait) * 2).min(u128::from(c.period)) as u64;
    wait
}

pub fn attempt(
    image: &mut [u8],
    answered: u8,
    has_utc: u8,
    utc_us: u64,
    has_granularity: u8,
    granularity: u8,
    tick: u64,
    wait: &mut u64,
    wait_us: &mut u64,
) -> u64 {
    if !is_image(image) {
        return 8;
    }
    let (mut c, mut k) = (client_in(image), clock_in(image));
    let told = if has_granularity == 0 || granularity > 4 {
        2
    } else {
        granularity.min(3)
    };
    let mut codes = vec![];
    if k.trusted.is_some() && answered != 0 && has_utc != 0 && told != 0 {
        codes = set_clock_persist(&mut k, utc_us, told, 3, tick);
        c.retry = c.period.min(60_000_000);
        (*wait, *wait_us) = (1, c.period);
    } else {
        (*wait, *wait_us) = if k.trusted.is_some() { (1, back_off(&mut c)) } else { (2, 0) };
        if k.trusted.is_none() || answered == 0 {
            codes.extend(hourly(&mut c.missing_at, tick, 0x24));
        }
        codes.extend(hourly(&mut c.failure_at, tick, 0x23));
    }
    put_clock(image, &k);
    put_client(image, &c);
    returned(0, &codes)
}

pub fn source_changed(image: &mut [u8], wait: &mut u64, wait_us: &mut u64) -> u64 {
    if !is_image(image) {
        return 8;
    }
    let mut c = client_in(image);
    c.retry = c.period.min(60_000_000);
    put_client(image, &c);
    (*wait, *wait_us) = (if clock_in(image).trusted.is_some() { 0 } else { 2 }, 0);
    0
}

// ---- a history

/// What a history leaves: the list store, or the number of a refusal.
fn replayed(zone_limit: usize, window_limit: usize, history: &[u8]) -> Result<Store, u64> {
    let mut image = vec![0; IMAGE_SIZE];
    if new(&mut image, 1, zone_limit, window_limit, 0, 0) != 0 {
        return Err(8);
    }
    let (mut space, mut len) = (vec![0; 962], 0);
    for (kind, argument) in read_calls(history).ok_or(1u64)? {
        match kind {
            0 => set_time_zone(&mut image, argument, &mut space, &mut len),
            1 => set_dst_offset(&mut image, argument, &mut space, &mut len),
            2 => load_lists(&mut image, 1, argument),
            3 => load_lists(&mut image, 0, &[]),
            _ => reset_lists(&mut image),
        };
    }
    store_in(&image).ok_or(8)
}

// the calls of a history, by kind and argument
fn read_calls(history: &[u8]) -> Option<Vec<(u8, &[u8])>> {
    let mut r = Reader { rest: history };
    let mut calls = vec![];
    while r.end().is_none() {
        let kind = r.byte()?;
        let argument: &[u8] = match kind {
            0..=2 => {
                let n = r.number(4)? as usize;
                r.take(n)?
            }
            3 | 4 => &[],
            _ => return None,
        };
        calls.push((kind, argument));
    }
    Some(calls)
}

pub fn replay(
    zone_limit: usize,
    window_limit: usize,
    history: &[u8],
    start: u64,
    at: u64,
    moments: &mut [u8],
    steps: &mut u64,
    name: &mut [u8],
    zone: &mut i32,
    named: &mut u64,
    name_used: &mut u64,
    active: &mut u64,
    window: &mut i32,
    usable_then: &mut u64,
    has_next: &mut u64,
    next_then: &mut u64,
    out: &mut [u8],
    used: &mut u64,
    generation: &mut u64,
) -> u64 {
    let store = match replayed(zone_limit, window_limit, history) {
        Ok(store) => store,
        Err(number) => return number,
    };
    let l = store.lists;
    let (walk, record) = (moments_bytes(&walked(&l, start)), record_bytes(&l));
    let (zone_offset, zone_name) = active_zone(&l, at);
    let text = zone_name.clone().unwrap_or_default();
    if walk.len() > moments.len() || text.len() > name.len() || record.len() > out.len() {
        return 9;
    }
    put(moments, 0, &walk);
    put(name, 0, &text);
    put(out, 0, &record);
    let (offset, moment) = (active_offset(&l, at), next(&l, at));
    (*steps, *used, *generation) = (walk.len() as u64 / 8 - 1, record.len() as u64, u64::from(store.generation));
    (*zone, *named, *name_used) = (zone_offset, u64::from(zone_name.is_some()), text.len() as u64);
    (*active, *window, *usable_then) = (u64::from(offset.is_some()), offset.unwrap_or(0), u64::from(usable(&l, at)));
    (*has_next, *next_then) = (u64::from(moment.is_some()), moment.unwrap_or(0));
    0
}
