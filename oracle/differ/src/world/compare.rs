//! Everything that can be read, side by side.
use oracle::driver;
use oracle::error::Error;
use oracle::tlv::Value;
use oracle::trace;

use super::{number, source_value, stored_value, Diff, Done, Kind, World};
use crate::bytes;
use crate::port::{place, Port, MOMENTS_MAX, RECORD_MAX};

/// Whether a reading is refused, and with which number
fn refusal<T>(r: Result<T, u64>) -> Result<(), u64> {
    r.map(|_| ())
}

fn wanted<T>(r: Result<T, Error>) -> Result<(), u64> {
    r.map(|_| ()).map_err(|e| driver::number(e).into())
}

impl World {
    pub(super) fn spoils(&mut self, port: &Port) -> Done {
        self.answers += 1;
        if let Some(call) = port.spoiled.get() {
            return Err(Diff(format!("{call}: writes what it must not write")));
        }
        if !port.guarded() {
            return Err(Diff("bytes around the image changed".into()));
        }
        Ok(())
    }

    pub(super) fn compare(&mut self, probes: &[u64], short: bool) -> Done {
        self.compare_clock()?;
        match self.kind {
            Kind::Bare => self.compare_bare(probes)?,
            _ => self.compare_lists(probes, short)?,
        }
        trace::take();
        let port = self.port.clone();
        self.spoils(&port)
    }

    /// After a setting that the clock held, the Rust reads at its own anchor what the port reads now, and all else is equal
    fn compare_clock(&mut self) -> Done {
        let own_anchor = self.device.rtc_fields().4;
        let (at, anchor) = if self.again { (own_anchor.unwrap_or(0), Some(self.tick)) } else { (self.tick, own_anchor) };
        driver::set_tick(at);
        let (utc, reliable) = self.device.rtc_utc();
        same!(self, "utc_time", self.port.utc_time(self.tick), Ok((utc, reliable)));
        same!(self, "UTCTime", reliable.then_some(utc), self.device.attr_utc_time());
        same!(self, "granularity", self.port.granularity(), Ok(self.device.rtc_granularity().into()));
        same!(self, "Granularity", self.port.granularity(), Ok(self.device.attr_granularity().into()));
        same!(self, "source", self.port.source(), Ok(self.device.rtc_source().into()));
        same!(self, "TimeSource", self.port.source(), Ok(self.device.attr_source().into()));
        same!(self, "TrustedTimeSource", self.port.trusted().map(source_value), Ok(self.device.attr_trusted()));
        let (utc, persisted, g, s, _) = self.device.rtc_fields();
        let long = [place::UTC, place::PERSISTED, place::ANCHOR].map(|at| self.port.word(at, 8));
        same!(self, "clock, moments and anchor", long, [utc, persisted, anchor.unwrap_or(0)]);
        let codes = [place::GRANULARITY, place::SOURCE, place::SET].map(|at| self.port.word(at, 1) as u8);
        same!(self, "clock, codes", codes, [g, s, anchor.is_some().into()]);
        let local = self.device.local_time();
        let want = local.map_err(|e| u64::from(driver::number(e)));
        same!(self, "LocalTime", self.port.local_time(self.tick), want);
        driver::set_tick(self.tick);
        Ok(())
    }

    fn compare_bare(&mut self, probes: &[u64]) -> Done {
        let six = Err(6);
        same!(self, "TimeZone, no lists", refusal(self.port.zone_count()), wanted(self.device.attr_zones(None)));
        same!(self, "TimeZone, no lists", refusal(self.port.zone(0, 64)), wanted(self.device.attr_zones(Some(0))));
        same!(self, "DSTOffset, no lists", refusal(self.port.window_count()), wanted(self.device.attr_windows(None)));
        same!(self, "DSTOffset, no lists", refusal(self.port.window(0)), wanted(self.device.attr_windows(Some(0))));
        let sizes = wanted(self.device.attr_sizes());
        same!(self, "database, no lists", refusal(self.port.database()), sizes);
        same!(self, "zone limit, no lists", refusal(self.port.zone_limit()), sizes);
        same!(self, "window limit, no lists", refusal(self.port.window_limit()), sizes);
        same!(self, "generation, no lists", refusal(self.port.generation()), six);
        same!(self, "table empty, no lists", refusal(self.port.table_empty()), six);
        same!(self, "record, no lists", refusal(self.port.record(RECORD_MAX)), six);
        for now in probes {
            same!(self, "active zone, no lists", refusal(self.port.active_zone(*now, 64)), six);
            same!(self, "active window, no lists", refusal(self.port.active_window(*now)), six);
            same!(self, "usable, no lists", refusal(self.port.usable(*now)), six);
            same!(self, "next transition, no lists", refusal(self.port.next_transition(*now)), six);
            same!(self, "walk, no lists", refusal(self.port.walk(*now, MOMENTS_MAX)), six);
        }
        Ok(())
    }

    fn compare_lists(&mut self, probes: &[u64], short: bool) -> Done {
        self.compare_entries(short)?;
        self.compare_numbers()?;
        self.compare_record(short)?;
        for (i, now) in probes.iter().enumerate() {
            self.compare_lookups(*now, short)?;
            if i < 2 || probes.len() > 6 {
                self.compare_walk(*now, short)?;
            }
        }
        Ok(())
    }

    /// Both lists by entry, past their ends too
    fn compare_entries(&mut self, short: bool) -> Done {
        let zones = self.store().zones();
        same!(self, "TimeZone, count", self.port.zone_count(), Ok(zones.len() as u64));
        for (i, z) in zones.iter().enumerate() {
            let want = (z.offset, z.valid_at, z.name.as_ref().map(|n| n.as_bytes().to_vec()));
            let room = want.2.as_ref().map_or(0, |n| n.len());
            same!(self, "TimeZone, entry", self.port.zone(i, room), Ok(want));
            if short && room > 0 {
                same!(self, "TimeZone, no room", self.port.zone(i, room - 1), Err(9));
            }
        }
        let windows = self.store().windows();
        same!(self, "DSTOffset, count", self.port.window_count(), Ok(windows.len() as u64));
        for (i, w) in windows.iter().enumerate() {
            let want = (w.offset, w.valid_starting, w.valid_until);
            same!(self, "DSTOffset, entry", self.port.window(i), Ok(want));
        }
        for past in [0, 1] {
            let (i, k) = (zones.len() + past, windows.len() + past);
            same!(self, "TimeZone, past the end", refusal(self.port.zone(i, 64)), wanted(self.device.attr_zones(Some(i as u16))));
            same!(self, "DSTOffset, past the end", refusal(self.port.window(k)), wanted(self.device.attr_windows(Some(k as u16))));
        }
        if short {
            self.compare_attributes(zones.len(), windows.len())?;
        }
        Ok(())
    }

    fn compare_numbers(&mut self) -> Done {
        let (z, w) = self.store().max_sizes();
        same!(self, "zone limit", self.port.zone_limit(), Ok(z.into()));
        same!(self, "window limit", self.port.window_limit(), Ok(w.into()));
        same!(self, "generation", self.port.generation(), Ok(self.store().generation().into()));
        same!(self, "table empty", self.port.table_empty(), Ok(self.store().dst_table_empty().into()));
        Ok(())
    }

    fn compare_record(&mut self, short: bool) -> Done {
        trace::take();
        let stored = self.store().store();
        same!(self, "record, oracle", number(&stored), 0);
        let value = trace::take();
        let want = value.iter().find_map(stored_value).and_then(bytes::of_value);
        let want = want.ok_or(Diff("the oracle stores another shape".into()))?;
        if short {
            same!(self, "record, no room", self.port.record(want.len() - 1), Err(9));
        }
        same!(self, "record", self.port.record(want.len()), Ok(want));
        Ok(())
    }

    fn compare_lookups(&mut self, now: u64, short: bool) -> Done {
        let (offset, name) = self.store().active_time_zone(now);
        let name = name.map(String::into_bytes);
        let room = name.as_ref().map_or(0, Vec::len);
        if short && room > 0 {
            same!(self, "active zone, no room", self.port.active_zone(now, room - 1), Err(9));
        }
        same!(self, format_args!("active zone at {now}"), self.port.active_zone(now, room), Ok((offset, name)));
        same!(self, format_args!("active window at {now}"), self.port.active_window(now), Ok(self.store().active_dst_offset(now)));
        same!(self, format_args!("usable at {now}"), self.port.usable(now), Ok(self.store().dst_usable(now).into()));
        let next = self.store().next_transition(now);
        same!(self, format_args!("next transition at {now}"), self.port.next_transition(now), Ok(next));
        Ok(())
    }

    fn compare_walk(&mut self, now: u64, short: bool) -> Done {
        let walk = [vec![now], self.store().walk(now)].concat();
        let room = 8 * walk.len();
        if short {
            same!(self, "walk, no room", self.port.walk(now, room - 1), Err(9));
        }
        same!(self, format_args!("walk from {now}"), self.port.walk(now, room), Ok(walk));
        Ok(())
    }

    /// The attributes as the handler builds them, whole and one by one
    fn compare_attributes(&mut self, zone_count: usize, window_count: usize) -> Done {
        let mut zones = Vec::new();
        for i in 0..zone_count {
            let (offset, start, name) = self.port.zone(i, 64).map_err(|e| Diff(format!("TimeZone {i} is refused with {e}")))?;
            let mut fields = vec![(0, Value::Int(offset.into())), (1, Value::Uint(start))];
            if let Some(name) = name {
                fields.push((2, Value::Str(String::from_utf8(name).map_err(|_| Diff("a name that is not UTF-8".into()))?)));
            }
            zones.push(Value::Struct(fields));
            same!(self, "TimeZone, one", Ok(zones[i].clone()), self.device.attr_zones(Some(i as u16)).map_err(|_| ()));
        }
        same!(self, "TimeZone, all", Ok(Value::Array(zones)), self.device.attr_zones(None).map_err(|_| ()));
        let mut windows = Vec::new();
        for i in 0..window_count {
            let (offset, start, until) = self.port.window(i).map_err(|e| Diff(format!("DSTOffset {i} is refused with {e}")))?;
            let until = until.map_or(Value::Null, Value::Uint);
            windows.push(Value::Struct(vec![(0, Value::Int(offset.into())), (1, Value::Uint(start)), (2, until)]));
            same!(self, "DSTOffset, one", Ok(windows[i].clone()), self.device.attr_windows(Some(i as u16)).map_err(|_| ()));
        }
        same!(self, "DSTOffset, all", Ok(Value::Array(windows)), self.device.attr_windows(None).map_err(|_| ()));
        let sizes = (self.port.database(), self.port.zone_limit(), self.port.window_limit());
        let (database, z, w) = self.device.attr_sizes().map_err(|_| Diff("the oracle has no sizes".into()))?;
        same!(self, "sizes", sizes, (Ok(database.into()), Ok(z.into()), Ok(w.into())));
        Ok(())
    }
}
