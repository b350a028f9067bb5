//! A list as a command sends it.
use oracle::driver::{make_store, Device, RequestPart, WindowArg, ZoneArg};
use oracle::error::Error;
use oracle::tlv::Value;
use oracle::trace;
use timesync::Limits;

/// How many fields an entry has
pub const FIELDS: u8 = 3;

#[derive(Debug, Clone)]
pub enum List {
    Zones(Vec<ZoneArg>),
    Windows(Vec<WindowArg>),
}

impl List {
    pub fn command(&self) -> &'static str {
        match self {
            List::Zones(_) => "SetTimeZone",
            List::Windows(_) => "SetDSTOffset",
        }
    }

    /// The response, null where the command has none
    pub fn send(&self, device: &Device) -> Result<Value, Error> {
        match self {
            List::Zones(list) => device.cmd_set_time_zone(list),
            List::Windows(list) => device.cmd_set_dst_offset(list).map(|()| Value::Null),
        }
    }

    pub fn len(&self) -> usize {
        match self {
            List::Zones(list) => list.len(),
            List::Windows(list) => list.len(),
        }
    }

    /// Whether a command reads this part: no entry further than one past the limit, and no field of that one
    pub fn is_read(&self, part: RequestPart, limits: Limits) -> bool {
        let limit = match self {
            List::Zones(_) => limits.time_zone_max,
            List::Windows(_) => limits.dst_offset_max,
        };
        match part {
            RequestPart::List => true,
            RequestPart::Entry(at) => at < self.len().min(limit + 1),
            RequestPart::Field(at, _) => at < self.len().min(limit),
        }
    }

    /// Its first entries
    pub fn front(&self, count: usize) -> Self {
        match self {
            List::Zones(list) => List::Zones(list.iter().take(count).cloned().collect()),
            List::Windows(list) => List::Windows(list.iter().take(count).cloned().collect()),
        }
    }

    /// Why a new list store of the Rust refuses it, if it does
    pub fn refusal(&self, limits: Limits) -> Option<Error> {
        let store = make_store(limits.time_zone_max, limits.dst_offset_max)?;
        let answer = match self {
            List::Zones(list) => store.set_time_zone(list).map(drop),
            List::Windows(list) => store.set_dst_offset(list),
        };
        trace::take();
        answer.err()
    }
}

/// A zone that is accepted at its place, with a name of so many bytes
pub fn zone(index: usize, name: usize) -> ZoneArg {
    ZoneArg { offset: 3600, valid_at: 10 * index as u64, name: Some("n".repeat(name)) }
}

/// A window that is accepted at its place
pub fn window(index: usize) -> WindowArg {
    let start = 10 * index as u64;
    WindowArg { offset: 3600, valid_starting: start, valid_until: Some(start + 5) }
}

/// Zones with names of so many bytes
pub fn zones(count: usize, name: usize) -> Vec<ZoneArg> {
    (0..count).map(|index| zone(index, name)).collect()
}

pub fn windows(count: usize) -> Vec<WindowArg> {
    (0..count).map(window).collect()
}
