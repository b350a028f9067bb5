//! Zones and windows as they are sent and listed, and the sections that requests have.

use core::iter::once;

use crate::name::Name;
use crate::numbers::Refusal;
use crate::TIME_ZONE_NAME_MAX;

/// A zone as it is sent.
///
/// ```
/// use timesync::TimeZoneEntry;
///
/// let utc = TimeZoneEntry::default();
/// assert_eq!((utc.offset, utc.valid_at, utc.name), (0, 0, None));
/// let berlin = TimeZoneEntry { offset: 3600, name: Some("Europe/Berlin"), ..utc };
/// # assert_eq!(berlin.valid_at, 0);
/// ```
#[derive(Debug, Clone, Copy, PartialEq, Eq, Hash, Default)]
pub struct TimeZoneEntry<'a> {
    /// Offset from UTC in seconds.
    pub offset: i32,
    /// The moment from which it counts.
    pub valid_at: u64,
    /// Its name, if it has one.
    pub name: Option<&'a str>,
}

/// A zone as it is listed, with a name of its own.
///
/// ```
/// # use timesync::{Controller, Limits, Refusal, TimeZoneEntry};
/// # fn main() -> Result<(), Refusal> {
/// let controller = Controller::new(Some(Limits::DEVICE), 0, 0)?;
/// // an empty list shows one zone
/// assert_eq!(controller.handler().time_zone(0)?.as_entry(), TimeZoneEntry::default());
/// # Ok(())
/// # }
/// ```
#[derive(Debug, Clone, Copy, PartialEq, Eq)]
pub struct TimeZoneOwned {
    /// Offset from UTC in seconds.
    pub offset: i32,
    /// The moment from which it counts.
    pub valid_at: u64,
    /// Its name, if it has one.
    pub name: Option<Name>,
}

impl TimeZoneOwned {
    /// The same zone with its name borrowed, as it is sent.
    pub fn as_entry(&self) -> TimeZoneEntry<'_> {
        TimeZoneEntry {
            offset: self.offset,
            valid_at: self.valid_at,
            name: self.name.as_deref(),
        }
    }
}

/// A window as it is sent and listed.
///
/// ```
/// use timesync::DSTOffsetEntry;
///
/// // a school without summer time needs a window that is open and shifts nothing
/// let no_summer_time = DSTOffsetEntry::default();
/// assert_eq!((no_summer_time.offset, no_summer_time.valid_until), (0, None));
/// ```
#[derive(Debug, Clone, Copy, PartialEq, Eq, Hash, Default)]
pub struct DSTOffsetEntry {
    /// Offset from the zone's time in seconds, while the window is active.
    pub offset: i32,
    /// The moment at which it starts.
    pub valid_starting: u64,
    /// The moment at which it ends, if it does.
    pub valid_until: Option<u64>,
}

/// Writes the section of zones that SetTimeZone takes to the front of `out`, and answers it.
/// [`TIME_ZONE_SECTION_MAX`](crate::TIME_ZONE_SECTION_MAX) bytes suffice for all that any controller accepts.
///
/// Refused with NoSpace where `out` is too short, and, as the command would, with ConstraintError where a name is longer than
/// [`TIME_ZONE_NAME_MAX`] and with ResourceExhausted where there are more than 255 entries. `out` then stays as it was.
///
/// ```
/// # use timesync::{encode_time_zones, Refusal, TimeZoneEntry};
/// # fn main() -> Result<(), Refusal> {
/// let zones = [TimeZoneEntry { offset: 3600, valid_at: 0, name: Some("X") }];
/// let mut out = [0xFF; 20];
/// assert_eq!(encode_time_zones(&zones, &mut out)?, [1, 0x10, 0x0E, 0, 0, 0, 0, 0, 0, 0, 0, 0, 0, 1, 1, b'X']);
/// assert_eq!(encode_time_zones(&zones, &mut out[..15]), Err(Refusal::NoSpace));
/// # Ok(())
/// # }
/// ```
pub fn encode_time_zones<'o>(zones: &[TimeZoneEntry<'_>], out: &'o mut [u8]) -> Result<&'o [u8], Refusal> {
    let count = counted(zones.len())?;
    if zones
        .iter()
        .filter_map(|zone| zone.name)
        .any(|name| name.len() > TIME_ZONE_NAME_MAX)
    {
        return Err(Refusal::ConstraintError);
    }
    put(count.chain(zones.iter().flat_map(zone_bytes)), out)
}

/// Writes the section of windows that SetDSTOffset takes to the front of `out`, and answers it.
/// [`DST_OFFSET_SECTION_MAX`](crate::DST_OFFSET_SECTION_MAX) bytes suffice for all that any controller accepts.
///
/// Refused with NoSpace where `out` is too short, and, as the command would, with ResourceExhausted where there are more than 255 entries.
/// `out` then stays as it was.
///
/// ```
/// # use timesync::{encode_dst_offsets, DSTOffsetEntry, Refusal};
/// # fn main() -> Result<(), Refusal> {
/// let windows = [DSTOffsetEntry { offset: -1, valid_starting: 2, valid_until: None }];
/// let mut out = [0xFF; 20];
/// assert_eq!(encode_dst_offsets(&windows, &mut out)?, [1, 0xFF, 0xFF, 0xFF, 0xFF, 2, 0, 0, 0, 0, 0, 0, 0, 0]);
/// assert_eq!(encode_dst_offsets(&windows, &mut out[..13]), Err(Refusal::NoSpace));
/// # Ok(())
/// # }
/// ```
pub fn encode_dst_offsets<'o>(windows: &[DSTOffsetEntry], out: &'o mut [u8]) -> Result<&'o [u8], Refusal> {
    put(counted(windows.len())?.chain(windows.iter().flat_map(window_bytes)), out)
}

/// The byte that a section begins with.
fn counted(entries: usize) -> Result<impl Iterator<Item = u8> + Clone, Refusal> {
    u8::try_from(entries).map(once).map_err(|_| Refusal::ResourceExhausted)
}

/// An offset and a start, as both kinds of entry begin.
fn head_bytes(offset: i32, start: u64) -> impl Iterator<Item = u8> + Clone {
    offset.to_le_bytes().into_iter().chain(start.to_le_bytes())
}

/// 0 for what is absent; 1 and its bytes for what is there.
fn marked<I: Iterator<Item = u8> + Clone>(bytes: Option<I>) -> impl Iterator<Item = u8> + Clone {
    once(u8::from(bytes.is_some())).chain(bytes.into_iter().flatten())
}

fn zone_bytes<'z>(zone: &TimeZoneEntry<'z>) -> impl Iterator<Item = u8> + Clone + use<'z> {
    let name = zone.name.map(|name| once(name.len() as u8).chain(name.bytes()));
    head_bytes(zone.offset, zone.valid_at).chain(marked(name))
}

fn window_bytes(window: &DSTOffsetEntry) -> impl Iterator<Item = u8> + Clone + use<> {
    let until = window.valid_until.map(|until| until.to_le_bytes().into_iter());
    head_bytes(window.offset, window.valid_starting).chain(marked(until))
}

/// Puts bytes at the front of a slice that has room for all of them.
fn put(bytes: impl Iterator<Item = u8> + Clone, out: &mut [u8]) -> Result<&[u8], Refusal> {
    let front = out.get_mut(..bytes.clone().count()).ok_or(Refusal::NoSpace)?;
    for (to, byte) in front.iter_mut().zip(bytes) {
        *to = byte;
    }
    Ok(front)
}
