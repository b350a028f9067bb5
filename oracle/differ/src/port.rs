//! The port as the driver sees it: an image between guard bytes, and a call for each function.
//!
//! Every output is lent with a pattern in it. On a refusal the pattern must still be there, and past what
//! is copied it must still be there too; where it is not, `spoiled` says which call did it.
use timesync::entry;

use crate::lent::{moments, Lent, FILL, GUARD, NUMBER, SIGNED};

pub const IMAGE: usize = timesync::IMAGE_SIZE;
pub const RECORD_MAX: usize = timesync::RECORD_MAX;
pub const MOMENTS_MAX: usize = 8 * timesync::MOMENTS_MAX;

/// Where the numbers of an image stand that are looked at here, as the C header gives it
pub mod place {
    pub const CLOCK: std::ops::Range<usize> = 8..48;
    pub const GRANULARITY: usize = 8;
    pub const SOURCE: usize = 9;
    pub const SET: usize = 10;
    pub const TRUSTED: usize = 11;
    pub const FABRIC: usize = 12;
    pub const ENDPOINT: usize = 14;
    pub const UTC: usize = 16;
    pub const PERSISTED: usize = 24;
    pub const ANCHOR: usize = 32;
    pub const NODE: usize = 40;
    pub const MISSING_AT: usize = 64;
    pub const FAILURE_AT: usize = 72;
    pub const MISSING: usize = 80;
    pub const FAILURE: usize = 81;
    pub const GENERATION: usize = 100;
    /// The trusted time source: where its numbers stand, and how many bytes each has
    pub const SOURCE_NUMBERS: [(usize, usize); 4] = [(TRUSTED, 1), (FABRIC, 1), (ENDPOINT, 2), (NODE, 8)];
}

/// Codes of effects, as the C header gives them
pub mod code {
    /// And the number of an attribute
    pub const REPORT: u8 = 0x10;
    pub const REPORT_LAST: u8 = 0x1f;
    /// What a setting of the clock reports first: UTCTime, Granularity, TimeSource
    pub const UTC_REPORTS: [u8; 3] = [REPORT, REPORT + 1, REPORT + 2];
    /// And the number of an event
    pub const EMIT: u8 = 0x20;
    pub const EMIT_LAST: u8 = 0x2f;
    pub const DST_STATUS: u8 = 0x21;
    pub const TIME_ZONE_STATUS: u8 = 0x22;
    pub const TIME_FAILURE: u8 = 0x23;
    pub const MISSING_SOURCE: u8 = 0x24;
    pub const WAKE_TIMER: u8 = 0x30;
    pub const WAKE_CLIENT: u8 = 0x31;
    pub const STORE_RECORD: u8 = 0x40;
    pub const REMOVE_RECORD: u8 = 0x41;
    pub const STORE_MOMENT: u8 = 0x42;
    pub const REMOVE_MOMENT: u8 = 0x43;
    pub const STORE_SOURCE: u8 = 0x44;
    pub const REMOVE_SOURCE: u8 = 0x45;
}

/// Kinds of sleeps and waits, as the C header gives them
pub mod kind {
    pub const SLEEP_NEVER: u64 = 0;
    pub const SLEEP_UNTIL_WOKEN: u64 = 1;
    pub const SLEEP_AT_MOST: u64 = 2;
    pub const WAIT_ATTEMPT_NOW: u64 = 0;
    pub const WAIT_FOR: u64 = 1;
    pub const WAIT_FOR_SOURCE: u64 = 2;
}

/// The time sources of SetUTCTime and of a reading that the client applies
pub const ADMIN: u8 = 2;
pub const NODE_TIME_CLUSTER: u8 = 3;

/// A trusted time source: fabric, node, endpoint
pub type Source = (u8, u64, u16);

/// The number of a refusal, or a value
pub type Answer<T> = Result<T, u64>;

/// What a call that changes an image returned: its number and the codes of its effects
#[derive(Debug, Clone, PartialEq, Eq)]
pub struct Returned {
    pub answer: u64,
    pub effects: Vec<u8>,
}

impl Returned {
    fn new(value: u64) -> Self {
        let bytes = value.to_le_bytes();
        let effects = bytes[1..].iter().copied().take_while(|code| *code != 0).collect();
        Self { answer: bytes[0].into(), effects }
    }
}

#[derive(Clone)]
pub struct Port {
    bytes: Vec<u8>,
    /// The length of the slice that is lent: an image's, or a little more
    lent: usize,
    /// The first call that wrote what it must not write
    pub spoiled: std::cell::Cell<Option<&'static str>>,
}

#[derive(Debug, Clone, PartialEq, Eq)]
pub struct LookTold {
    pub offset: i32,
    pub name: Option<Vec<u8>>,
    pub dst_active: bool,
    pub sleep: (u64, u64),
}

impl Port {
    /// A new image with a list store of these limits, or without one
    pub fn new(limits: Option<(usize, usize)>, build: u64, period: u64) -> Self {
        let (zones, windows) = limits.unwrap_or((0, 0));
        let lent = IMAGE + (zones + windows) % 3 * 4;
        let mut port = Self { bytes: vec![FILL; IMAGE + 2 * GUARD], lent, spoiled: Default::default() };
        let r = entry::new(port.slice_mut(), limits.is_some().into(), zones, windows, build, period);
        assert_eq!(r, 0, "an image at {limits:?} is refused");
        port
    }
    fn slice_mut(&mut self) -> &mut [u8] {
        &mut self.bytes[GUARD..GUARD + self.lent]
    }
    fn slice(&self) -> &[u8] {
        &self.bytes[GUARD..GUARD + self.lent]
    }
    /// From now on so many bytes are lent
    pub fn lend(&mut self, bytes: usize) {
        self.lent = bytes;
    }
    pub fn image(&self) -> &[u8] {
        &self.bytes[GUARD..GUARD + IMAGE]
    }
    pub fn poke(&mut self, at: usize, bytes: &[u8]) {
        self.bytes[GUARD + at..GUARD + at + bytes.len()].copy_from_slice(bytes);
    }
    /// The trusted time source is from now on that of another image
    pub fn copy_source(&mut self, from: &Port) {
        for (at, n) in place::SOURCE_NUMBERS {
            self.poke(at, &from.image()[at..at + n]);
        }
    }
    pub fn word(&self, at: usize, n: usize) -> u64 {
        self.image()[at..at + n].iter().rev().fold(0, |v, b| v << 8 | u64::from(*b))
    }
    /// Whether the bytes around the image are as they were
    pub fn guarded(&self) -> bool {
        self.bytes[..GUARD].iter().chain(&self.bytes[GUARD + IMAGE..]).all(|b| *b == FILL)
    }
    fn note(&self, call: &'static str, good: bool) {
        if !good && self.spoiled.get().is_none() {
            self.spoiled.set(Some(call));
        }
    }

    // Calls with effects

    pub fn set_utc_time(&mut self, utc: u64, granularity: u8, source: Option<u8>, tick: u64) -> Returned {
        Returned::new(entry::set_utc_time(self.slice_mut(), utc, granularity, source.is_some().into(), source.unwrap_or(0xEE), tick))
    }
    pub fn set_source(&mut self, fab: u8, named: Option<(u64, u16)>) -> Returned {
        let (node, endpoint) = named.unwrap_or((NUMBER, 0xA5A5));
        Returned::new(entry::set_trusted_time_source(self.slice_mut(), fab, named.is_some().into(), node, endpoint))
    }
    /// SetTimeZone or SetDSTOffset; the record to store where it is to be stored
    pub fn set_list(&mut self, zones: bool, request: &[u8], room: usize) -> (Returned, Option<Vec<u8>>) {
        let mut out = Lent::new(room);
        let mut used = NUMBER;
        let call = if zones { entry::set_time_zone } else { entry::set_dst_offset };
        let r = Returned::new(call(self.slice_mut(), request, out.slice(), &mut used));
        if r.answer != 0 {
            self.note("SetTimeZone or SetDSTOffset, refused", used == NUMBER && out.clean(0));
            return (r, None);
        }
        self.note("SetTimeZone or SetDSTOffset", used <= room as u64 && out.clean(used as usize));
        (r, Some(out.front(used as usize)))
    }
    pub fn load_lists(&mut self, stored: Option<&[u8]>) -> Returned {
        let bytes = stored.unwrap_or(&[FILL; 3]);
        Returned::new(entry::load_lists(self.slice_mut(), stored.is_some().into(), bytes))
    }
    pub fn reset_lists(&mut self) -> Returned {
        Returned::new(entry::reset_lists(self.slice_mut()))
    }
    pub fn load_clock(&mut self, build: u64, moment: Option<u64>, source: Option<Source>) -> Returned {
        let (fab, node, endpoint) = source.unwrap_or((0, NUMBER, 0xA5A5));
        Returned::new(entry::load_clock(
            self.slice_mut(),
            build,
            moment.is_some().into(),
            moment.unwrap_or(NUMBER),
            source.is_some().into(),
            fab,
            node,
            endpoint,
        ))
    }
    pub fn reset_clock(&mut self, build: u64) -> Returned {
        Returned::new(entry::reset_clock(self.slice_mut(), build))
    }
    /// What was returned, and whether something changed
    pub fn rtc_set(&mut self, persist: bool, utc: u64, granularity: u8, source: u8, tick: u64) -> (Returned, Option<u64>) {
        let mut changed = NUMBER;
        let call = if persist { entry::rtc_set_utc_time_persist } else { entry::rtc_set_utc_time };
        let r = Returned::new(call(self.slice_mut(), utc, granularity, source, tick, &mut changed));
        if r.answer != 0 {
            self.note("a setting of the clock, refused", changed == NUMBER);
            return (r, None);
        }
        (r, Some(changed))
    }
    pub fn look(&mut self, tick: u64, room: usize) -> (Returned, Option<LookTold>) {
        let mut name = Lent::new(room);
        let mut offset = SIGNED;
        let mut out = [NUMBER; 5];
        let [named, name_len, active, sleep, sleep_us] = &mut out;
        let r = Returned::new(entry::look(self.slice_mut(), tick, name.slice(), &mut offset, named, name_len, active, sleep, sleep_us));
        if r.answer != 0 {
            self.note("a look, refused", out == [NUMBER; 5] && offset == SIGNED && name.clean(0));
            return (r, None);
        }
        let [named, name_len, active, sleep, sleep_us] = out;
        self.note("a look", named <= 1 && active <= 1 && name_len <= room as u64 && name.clean(name_len as usize));
        let name = (named == 1).then(|| name.front(name_len as usize));
        (r, Some(LookTold { offset, name, dst_active: active == 1, sleep: (sleep, sleep_us) }))
    }
    /// What was returned, and the wait by its kind and time
    pub fn attempt(&mut self, answered: bool, utc: Option<u64>, granularity: Option<u8>, tick: u64) -> (Returned, (u64, u64)) {
        let (mut wait, mut wait_us) = (NUMBER, NUMBER);
        let r = Returned::new(entry::attempt(
            self.slice_mut(),
            answered.into(),
            utc.is_some().into(),
            utc.unwrap_or(NUMBER),
            granularity.is_some().into(),
            granularity.unwrap_or(3),
            tick,
            &mut wait,
            &mut wait_us,
        ));
        (r, (wait, wait_us))
    }
    pub fn source_changed(&mut self) -> (Returned, (u64, u64)) {
        let (mut wait, mut wait_us) = (NUMBER, NUMBER);
        let r = Returned::new(entry::source_changed(self.slice_mut(), &mut wait, &mut wait_us));
        (r, (wait, wait_us))
    }

    // Readings

    fn numbers<const N: usize>(&self, call: &'static str, f: impl FnOnce(&[u8], &mut [u64; N]) -> u64) -> Answer<[u64; N]> {
        let mut out = [NUMBER; N];
        match f(self.slice(), &mut out) {
            0 => Ok(out),
            r => {
                self.note(call, out == [NUMBER; N]);
                Err(r)
            }
        }
    }
    fn number(&self, call: &'static str, f: fn(&[u8], &mut u64) -> u64) -> Answer<u64> {
        self.numbers(call, |image, [value]: &mut [u64; 1]| f(image, value)).map(|[value]| value)
    }
    pub fn utc_time(&self, tick: u64) -> Answer<(u64, bool)> {
        let [reliable, utc] = self.numbers("utc_time", |s, [a, b]| entry::utc_time(s, tick, a, b))?;
        self.note("utc_time", reliable <= 1);
        Ok((utc, reliable == 1))
    }
    pub fn granularity(&self) -> Answer<u64> {
        self.number("granularity", entry::utc_time_granularity)
    }
    pub fn source(&self) -> Answer<u64> {
        self.number("source", entry::utc_time_source)
    }
    pub fn trusted(&self) -> Answer<Option<Source>> {
        let [there, fab, node, endpoint] =
            self.numbers("trusted_time_source", |s, [a, b, c, d]| entry::trusted_time_source(s, a, b, c, d))?;
        self.note("trusted_time_source", there == 1 || [there, fab, node, endpoint] == [0; 4]);
        Ok((there == 1).then_some((fab as u8, node, endpoint as u16)))
    }
    fn maybe(&self, call: &'static str, [there, value]: [u64; 2]) -> Option<u64> {
        self.note(call, there == 1 || [there, value] == [0; 2]);
        (there == 1).then_some(value)
    }
    pub fn local_time(&self, tick: u64) -> Answer<Option<u64>> {
        let r = self.numbers("local_time", |s, [a, b]| entry::local_time(s, tick, a, b))?;
        Ok(self.maybe("local_time", r))
    }
    pub fn zone_count(&self) -> Answer<u64> {
        self.number("time_zone_count", entry::time_zone_count)
    }
    pub fn window_count(&self) -> Answer<u64> {
        self.number("dst_offset_count", entry::dst_offset_count)
    }
    pub fn zone_limit(&self) -> Answer<u64> {
        self.number("time_zone_list_max_size", entry::time_zone_list_max_size)
    }
    pub fn window_limit(&self) -> Answer<u64> {
        self.number("dst_offset_list_max_size", entry::dst_offset_list_max_size)
    }
    pub fn database(&self) -> Answer<u64> {
        self.number("time_zone_database", entry::time_zone_database)
    }
    pub fn generation(&self) -> Answer<u64> {
        self.number("generation", entry::generation)
    }
    pub fn table_empty(&self) -> Answer<u64> {
        self.number("dst_table_empty", entry::dst_table_empty)
    }
    pub fn usable(&self, utc: u64) -> Answer<u64> {
        self.numbers("dst_usable", |s, [a]: &mut [u64; 1]| entry::dst_usable(s, utc, a)).map(|[v]| v)
    }
    pub fn zone(&self, index: usize, room: usize) -> Answer<(i32, u64, Option<Vec<u8>>)> {
        let mut name = Lent::new(room);
        let mut offset = SIGNED;
        let r = self.numbers("time_zone", |s, [a, b, c]| entry::time_zone(s, index, name.slice(), &mut offset, a, b, c));
        match r {
            Err(e) => {
                self.note("time_zone, refused", offset == SIGNED && name.clean(0));
                Err(e)
            }
            Ok([start, named, len]) => {
                self.note("time_zone", named <= 1 && len <= room as u64 && name.clean(len as usize));
                Ok((offset, start, (named == 1).then(|| name.front(len as usize))))
            }
        }
    }
    pub fn window(&self, index: usize) -> Answer<(i32, u64, Option<u64>)> {
        let mut offset = SIGNED;
        let r = self.numbers("dst_offset", |s, [a, b, c]| entry::dst_offset(s, index, &mut offset, a, b, c));
        match r {
            Err(e) => {
                self.note("dst_offset, refused", offset == SIGNED);
                Err(e)
            }
            Ok([start, closed, until]) => Ok((offset, start, self.maybe("dst_offset", [closed, until]))),
        }
    }
    pub fn active_zone(&self, utc: u64, room: usize) -> Answer<(i32, Option<Vec<u8>>)> {
        let mut name = Lent::new(room);
        let mut offset = SIGNED;
        let r = self.numbers("active_time_zone", |s, [a, b]| entry::active_time_zone(s, utc, name.slice(), &mut offset, a, b));
        match r {
            Err(e) => {
                self.note("active_time_zone, refused", offset == SIGNED && name.clean(0));
                Err(e)
            }
            Ok([named, len]) => {
                self.note("active_time_zone", named <= 1 && len <= room as u64 && name.clean(len as usize));
                Ok((offset, (named == 1).then(|| name.front(len as usize))))
            }
        }
    }
    pub fn active_window(&self, utc: u64) -> Answer<Option<i32>> {
        let mut offset = SIGNED;
        let r = self.numbers("active_dst_offset", |s, [a]: &mut [u64; 1]| entry::active_dst_offset(s, utc, a, &mut offset));
        match r {
            Err(e) => {
                self.note("active_dst_offset, refused", offset == SIGNED);
                Err(e)
            }
            Ok([there]) => {
                self.note("active_dst_offset", there == 1 || (there, offset) == (0, 0));
                Ok((there == 1).then_some(offset))
            }
        }
    }
    pub fn next_transition(&self, utc: u64) -> Answer<Option<u64>> {
        let r = self.numbers("next_transition", |s, [a, b]| entry::next_transition(s, utc, a, b))?;
        Ok(self.maybe("next_transition", r))
    }
    /// The moments walked, the start first
    pub fn walk(&self, start: u64, room: usize) -> Answer<Vec<u64>> {
        let mut out = Lent::new(room);
        let r = self.numbers("walk", |s, [a]: &mut [u64; 1]| entry::walk(s, start, out.slice(), a));
        match r {
            Err(e) => {
                self.note("walk, refused", out.clean(0));
                Err(e)
            }
            Ok([steps]) => {
                self.note("walk", steps <= 40 && out.clean(8 * (steps as usize + 1)));
                Ok(moments(&out.front(8 * (steps.min(40) as usize + 1))))
            }
        }
    }
    pub fn record(&self, room: usize) -> Answer<Vec<u8>> {
        let mut out = Lent::new(room);
        let r = self.numbers("record", |s, [a]: &mut [u64; 1]| entry::record(s, out.slice(), a));
        match r {
            Err(e) => {
                self.note("record, refused", out.clean(0));
                Err(e)
            }
            Ok([used]) => {
                self.note("record", used <= room as u64 && out.clean(used as usize));
                Ok(out.front(used as usize))
            }
        }
    }
}
