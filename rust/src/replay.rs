//! A whole history on a new list store.

use crate::controller::Limits;
use crate::entry;
use crate::name::Name;
use crate::numbers::Refusal;
use crate::outcome::answer;
use crate::store::Walk;
use crate::{MOMENTS_MAX, TIME_ZONE_NAME_MAX};

/// What a history leaves, and what is looked up in it.
///
/// ```
/// # use timesync::{replay, Limits, Refusal, RECORD_MAX};
/// # fn main() -> Result<(), Refusal> {
/// // a factory reset, and nothing else
/// let (history, start, at) = ([4], 5, 9);
/// let mut record = [0; RECORD_MAX];
/// let replayed = replay(Limits::DEVICE, &history, start, at, &mut record)?;
/// assert_eq!((replayed.walk.moments(), replayed.generation), (&[5][..], 1));
/// assert_eq!(record[..replayed.record_len], [0, 0]);
/// # Ok(())
/// # }
/// ```
#[derive(Debug, Clone, Copy, PartialEq, Eq)]
pub struct Replayed {
    /// The walk from the starting moment.
    pub walk: Walk,
    /// The offset and the name of the zone that is active at the moment looked at; 0 and no name where there is none.
    pub time_zone: (i32, Option<Name>),
    /// The offset of the window that is active then, if one is.
    pub dst_offset: Option<i32>,
    /// Whether some window is open or ends after it.
    pub dst_usable: bool,
    /// The smallest start or end after it, if there is one.
    pub next_transition: Option<u64>,
    /// The length of the record, which stands at the front of the slice that was lent.
    pub record_len: usize,
    /// How many changes were counted.
    pub generation: u32,
}

/// Makes a list store, runs the calls of a history on it, walks from a moment on and looks at another one. A history is calls one after the
/// other: a kind (0 SetTimeZone, 1 SetDSTOffset, 2 load, 3 load without a record, 4 factory reset), and for the first three a length in 4
/// bytes, little endian, and so many bytes. Refused with BadLimits, with Unreadable where the bytes are not a history, and with NoSpace
/// where the record does not fit.
///
/// ```
/// # use timesync::{replay, Limits, Refusal, RECORD_MAX};
/// let mut record = [0; RECORD_MAX];
/// // no call has kind 5
/// assert_eq!(replay(Limits::DEVICE, &[5], 0, 0, &mut record), Err(Refusal::Unreadable));
/// ```
pub fn replay(limits: Limits, history: &[u8], start: u64, at: u64, record: &mut [u8]) -> Result<Replayed, Refusal> {
    let (mut moments, mut name) = ([0; 8 * MOMENTS_MAX], [0; TIME_ZONE_NAME_MAX]);
    let (mut steps, mut used, mut generation) = (0, 0, 0);
    let (mut zone, mut named, mut name_used) = (0, 0, 0);
    let (mut active, mut window, mut usable, mut has_next, mut next) = (0, 0, 0, 0, 0);
    answer(entry::replay(
        limits.time_zone_max,
        limits.dst_offset_max,
        history,
        start,
        at,
        &mut moments,
        &mut steps,
        &mut name,
        &mut zone,
        &mut named,
        &mut name_used,
        &mut active,
        &mut window,
        &mut usable,
        &mut has_next,
        &mut next,
        record,
        &mut used,
        &mut generation,
    ))?;
    Ok(Replayed {
        walk: Walk::read(&moments, steps),
        time_zone: (zone, Name::read(name, named, name_used)),
        dst_offset: (active != 0).then_some(window),
        dst_usable: usable != 0,
        next_transition: (has_next != 0).then_some(next),
        record_len: used as usize,
        generation: generation as u32,
    })
}
