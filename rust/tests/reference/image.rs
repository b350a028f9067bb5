//! An image: which bytes are one, what its parts stand for, and a part written.

use super::lists::{window_bytes, zone_bytes, Lists, Window, Zone};

pub const IMAGE_SIZE: usize = 1136;
const MAGIC: [u8; 4] = *b"TMS1";

/// Where the parts stand.
pub const STORE: usize = 4;
pub const CLOCK: usize = 8;
pub const CLIENT: usize = 48;
pub const TIMER: usize = 88;
pub const TABLE: usize = 96;

/// Inside the table.
pub const ZONE_LIMIT: usize = TABLE;
pub const WINDOW_LIMIT: usize = TABLE + 1;
pub const ZONE_COUNT: usize = TABLE + 2;
pub const WINDOW_COUNT: usize = TABLE + 3;
pub const GENERATION: usize = TABLE + 4;
pub const ZONES: usize = TABLE + 16;
pub const WINDOWS: usize = TABLE + 656;

pub fn word(s: &[u8], at: usize, n: usize) -> u64 {
    let mut v = 0u64;
    for i in (0..n).rev() {
        v = v << 8 | u64::from(s[at + i]);
    }
    v
}

pub fn put(s: &mut [u8], at: usize, bytes: &[u8]) {
    s[at..at + bytes.len()].copy_from_slice(bytes);
}

/// Whether the slice is an image: long enough, and with the magic in front. No other byte is tested.
pub fn is_image(s: &[u8]) -> bool {
    s.len() >= IMAGE_SIZE && s[..4] == MAGIC
}

// ---- what the parts stand for, whatever their bytes are

#[derive(Debug, Clone, PartialEq, Eq)]
pub struct Store {
    pub zone_limit: usize,
    pub window_limit: usize,
    pub lists: Lists,
    pub generation: u32,
}

#[derive(Debug, Clone, Copy, PartialEq, Eq)]
pub struct Source {
    pub fabric: u8,
    pub node: u64,
    pub endpoint: u16,
}

#[derive(Debug, Clone, PartialEq, Eq)]
pub struct Clock {
    pub utc: u64,
    pub persisted: u64,
    pub granularity: u8,
    pub source: u8,
    pub anchor: Option<u64>,
    pub trusted: Option<Source>,
}

#[derive(Debug, Clone, PartialEq, Eq)]
pub struct Seen {
    pub offset: i32,
    pub active: bool,
    pub usable: bool,
}

#[derive(Debug, Clone, PartialEq, Eq)]
pub struct Client {
    pub period: u64,
    pub retry: u64,
    pub missing_at: Option<u64>,
    pub failure_at: Option<u64>,
}

fn marked(s: &[u8], at: usize) -> bool {
    s[at] != 0
}

fn held(s: &[u8], at: usize, most: usize) -> usize {
    usize::from(s[at]).min(most)
}

fn offset_at(s: &[u8], at: usize) -> i32 {
    word(s, at, 4) as u32 as i32
}

fn zone_at(s: &[u8], at: usize) -> Zone {
    let name = marked(s, at + 12).then(|| s[at + 14..][..held(s, at + 13, 64)].to_vec());
    Zone {
        offset: offset_at(s, at),
        start: word(s, at + 4, 8),
        name,
    }
}

fn window_at(s: &[u8], at: usize) -> Window {
    Window {
        offset: offset_at(s, at),
        start: word(s, at + 4, 8),
        until: marked(s, at + 12).then(|| word(s, at + 13, 8)),
    }
}

pub fn has_store(s: &[u8]) -> bool {
    marked(s, STORE)
}

pub fn store_in(s: &[u8]) -> Option<Store> {
    has_store(s).then(|| Store {
        zone_limit: held(s, ZONE_LIMIT, 8),
        window_limit: held(s, WINDOW_LIMIT, 16),
        lists: Lists {
            zones: (0..held(s, ZONE_COUNT, 8)).map(|i| zone_at(s, ZONES + 80 * i)).collect(),
            windows: (0..held(s, WINDOW_COUNT, 16)).map(|i| window_at(s, WINDOWS + 24 * i)).collect(),
        },
        generation: word(s, GENERATION, 4) as u32,
    })
}

pub fn clock_in(s: &[u8]) -> Clock {
    // a code that names nothing stands for NoTime and for None, which are 0
    let code = |at: usize, most: u8| if s[at] > most { 0 } else { s[at] };
    Clock {
        utc: word(s, CLOCK + 8, 8),
        persisted: word(s, CLOCK + 16, 8),
        granularity: code(CLOCK, 4),
        source: code(CLOCK + 1, 16),
        anchor: marked(s, CLOCK + 2).then(|| word(s, CLOCK + 24, 8)),
        trusted: marked(s, CLOCK + 3).then(|| Source {
            fabric: s[CLOCK + 4],
            node: word(s, CLOCK + 32, 8),
            endpoint: word(s, CLOCK + 6, 2) as u16,
        }),
    }
}

pub fn client_in(s: &[u8]) -> Client {
    Client {
        period: word(s, CLIENT, 8),
        retry: word(s, CLIENT + 8, 8),
        missing_at: marked(s, CLIENT + 32).then(|| word(s, CLIENT + 16, 8)),
        failure_at: marked(s, CLIENT + 33).then(|| word(s, CLIENT + 24, 8)),
    }
}

pub fn timer_in(s: &[u8]) -> Option<Seen> {
    marked(s, TIMER).then(|| Seen {
        offset: offset_at(s, TIMER + 4),
        active: marked(s, TIMER + 1),
        usable: marked(s, TIMER + 2),
    })
}

// ---- a part written whole, what is not used as 0

pub fn put_clock(s: &mut [u8], c: &Clock) {
    let t = c.trusted.unwrap_or(Source {
        fabric: 0,
        node: 0,
        endpoint: 0,
    });
    s[CLOCK..CLOCK + 40].fill(0);
    s[CLOCK] = c.granularity;
    s[CLOCK + 1] = c.source;
    s[CLOCK + 2] = u8::from(c.anchor.is_some());
    s[CLOCK + 3] = u8::from(c.trusted.is_some());
    s[CLOCK + 4] = t.fabric;
    put(s, CLOCK + 6, &t.endpoint.to_le_bytes());
    put(s, CLOCK + 8, &c.utc.to_le_bytes());
    put(s, CLOCK + 16, &c.persisted.to_le_bytes());
    put(s, CLOCK + 24, &c.anchor.unwrap_or(0).to_le_bytes());
    put(s, CLOCK + 32, &t.node.to_le_bytes());
}

pub fn put_client(s: &mut [u8], c: &Client) {
    s[CLIENT..CLIENT + 40].fill(0);
    put(s, CLIENT, &c.period.to_le_bytes());
    put(s, CLIENT + 8, &c.retry.to_le_bytes());
    put(s, CLIENT + 16, &c.missing_at.unwrap_or(0).to_le_bytes());
    put(s, CLIENT + 24, &c.failure_at.unwrap_or(0).to_le_bytes());
    s[CLIENT + 32] = u8::from(c.missing_at.is_some());
    s[CLIENT + 33] = u8::from(c.failure_at.is_some());
}

pub fn put_timer(s: &mut [u8], t: &Option<Seen>) {
    s[TIMER..TIMER + 8].fill(0);
    if let Some(seen) = t {
        s[TIMER] = 1;
        s[TIMER + 1] = u8::from(seen.active);
        s[TIMER + 2] = u8::from(seen.usable);
        put(s, TIMER + 4, &seen.offset.to_le_bytes());
    }
}

// ---- of the table: a count and the entries, or the generation; all else stays

pub fn put_zones(s: &mut [u8], zones: &[Zone]) {
    s[ZONE_COUNT] = zones.len() as u8;
    for (i, z) in zones.iter().enumerate() {
        put(s, ZONES + 80 * i, &zone_bytes(z));
    }
}

pub fn put_windows(s: &mut [u8], windows: &[Window]) {
    s[WINDOW_COUNT] = windows.len() as u8;
    for (i, w) in windows.iter().enumerate() {
        put(s, WINDOWS + 24 * i, &window_bytes(w));
    }
}

pub fn put_generation(s: &mut [u8], g: u32) {
    put(s, GENERATION, &g.to_le_bytes());
}

/// A new image: all of it written, with no limits where there is no list store.
pub fn put_new(s: &mut [u8], limits: Option<(usize, usize)>, clock: &Clock, client: &Client) {
    s[..IMAGE_SIZE].fill(0);
    put(s, 0, &MAGIC);
    if let Some((zones, windows)) = limits {
        s[STORE] = 1;
        s[ZONE_LIMIT] = zones as u8;
        s[WINDOW_LIMIT] = windows as u8;
    }
    put_clock(s, clock);
    put_client(s, client);
}
