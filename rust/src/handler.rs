//! The handler: commands, attributes and the transition timer.

use core::num::NonZeroU8;

use crate::entries::{DSTOffsetEntry, TimeZoneOwned};
use crate::entry;
use crate::name::Name;
use crate::numbers::Refusal;
use crate::outcome::{answer, Carried, Outcome};
use crate::rtc::TrustedTimeSource;
use crate::TIME_ZONE_NAME_MAX;

/// How long the timer sleeps.
///
/// ```
/// # fn perform(_: timesync::Effect) {}
/// # use timesync::{Controller, Limits, Refusal, Sleep};
/// # fn main() -> Result<(), Refusal> {
/// let mut controller = Controller::new(Some(Limits::DEVICE), 0, 0)?;
/// match controller.handler_mut().look(0).carry_out(perform)? {
///     Sleep::Never => println!("there is no list store"),
///     Sleep::UntilWoken => { /* until Effect::WakeTimer */ }
///     Sleep::AtMost(us) => { /* so long, or until Effect::WakeTimer */ }
/// }
/// # Ok(())
/// # }
/// ```
#[derive(Debug, Clone, Copy, PartialEq, Eq, Hash)]
pub enum Sleep {
    /// There is no list store, so it never looks.
    Never,
    /// Until it is woken.
    UntilWoken,
    /// So many microseconds, or until it is woken.
    AtMost(u64),
}

/// The handler of an image.
///
/// ```
/// # fn perform(_: timesync::Effect) {}
/// # use timesync::{encode_dst_offsets, encode_time_zones, Controller, DSTOffsetEntry, Limits, Refusal, TimeZoneEntry, RECORD_MAX};
/// # fn main() -> Result<(), Refusal> {
/// const HOUR: u64 = 3_600_000_000;
/// let mut controller = Controller::new(Some(Limits::DEVICE), 0, HOUR)?;
/// let (mut request, mut record) = ([0; 64], [0; RECORD_MAX]);
/// let zones = encode_time_zones(&[TimeZoneEntry { offset: 3600, ..Default::default() }], &mut request)?;
/// controller.handler_mut().handle_set_time_zone(zones, &mut record).carry_out(perform)?;
/// let summer = DSTOffsetEntry { offset: 3600, valid_starting: 10 * HOUR, valid_until: Some(20 * HOUR) };
/// let windows = encode_dst_offsets(&[summer], &mut request)?;
/// controller.handler_mut().handle_set_dst_offset(windows, &mut record).carry_out(perform)?;
/// controller.handler_mut().handle_set_utc_time(0, 4, None, 0).carry_out(perform)?;
/// let handler = controller.handler();
/// assert_eq!(handler.local_time(9 * HOUR)?, Some(10 * HOUR)); // before the window: the zone's offset
/// assert_eq!(handler.local_time(10 * HOUR)?, Some(12 * HOUR)); // inside the window
/// assert_eq!(handler.local_time(20 * HOUR)?, None); // the windows have run out
/// # Ok(())
/// # }
/// ```
#[derive(Debug)]
pub struct TimeSyncHandler<I> {
    image: I,
}

impl<I: AsRef<[u8]>> TimeSyncHandler<I> {
    /// Over the bytes of an image. Each call is refused with BadLimits where they are not one.
    pub fn over(image: I) -> Self {
        TimeSyncHandler { image }
    }

    // a reading of one number
    fn number(&self, read: fn(&[u8], &mut u64) -> u64) -> Result<u64, Refusal> {
        let mut value = 0;
        answer(read(self.image.as_ref(), &mut value))?;
        Ok(value)
    }

    /// LocalTime at a tick: null where the clock is not set or no window is usable. Between windows it is UTC plus the zone's offset.
    pub fn local_time(&self, tick: u64) -> Result<Option<u64>, Refusal> {
        let (mut there, mut us) = (0, 0);
        answer(entry::local_time(self.image.as_ref(), tick, &mut there, &mut us))?;
        Ok((there != 0).then_some(us))
    }

    /// TimeZone: the listed zone with this index. An empty list shows one zone, offset 0 from moment 0 with no name.
    pub fn time_zone(&self, index: usize) -> Result<TimeZoneOwned, Refusal> {
        let mut name = [0; TIME_ZONE_NAME_MAX];
        let (mut offset, mut valid_at, mut named, mut len) = (0, 0, 0, 0);
        answer(entry::time_zone(
            self.image.as_ref(),
            index,
            &mut name,
            &mut offset,
            &mut valid_at,
            &mut named,
            &mut len,
        ))?;
        Ok(TimeZoneOwned {
            offset,
            valid_at,
            name: Name::read(name, named, len),
        })
    }

    /// DSTOffset: the window with this index.
    pub fn dst_offset(&self, index: usize) -> Result<DSTOffsetEntry, Refusal> {
        let (mut offset, mut valid_starting, mut closed, mut until) = (0, 0, 0, 0);
        answer(entry::dst_offset(
            self.image.as_ref(),
            index,
            &mut offset,
            &mut valid_starting,
            &mut closed,
            &mut until,
        ))?;
        Ok(DSTOffsetEntry {
            offset,
            valid_starting,
            valid_until: (closed != 0).then_some(until),
        })
    }

    /// How many zones are listed; never 0.
    pub fn time_zone_count(&self) -> Result<usize, Refusal> {
        self.number(entry::time_zone_count).map(|n| n as usize)
    }

    /// How many windows there are.
    pub fn dst_offset_count(&self) -> Result<usize, Refusal> {
        self.number(entry::dst_offset_count).map(|n| n as usize)
    }

    /// TimeZoneListMaxSize.
    pub fn time_zone_list_max_size(&self) -> Result<u8, Refusal> {
        self.number(entry::time_zone_list_max_size).map(|n| n as u8)
    }

    /// DSTOffsetListMaxSize.
    pub fn dst_offset_list_max_size(&self) -> Result<u8, Refusal> {
        self.number(entry::dst_offset_list_max_size).map(|n| n as u8)
    }

    /// TimeZoneDatabase by its number: 2, None.
    pub fn time_zone_database(&self) -> Result<u8, Refusal> {
        self.number(entry::time_zone_database).map(|n| n as u8)
    }
}

impl<I: AsRef<[u8]> + AsMut<[u8]>> TimeSyncHandler<I> {
    /// SetUTCTime, with the numbers that the request has. Any readable time source is ignored: the clock's becomes Admin. The clock counts
    /// on from the tick and is reported, also where it is set to what it was set to before. Refused with Unreadable where a number names
    /// nothing.
    pub fn handle_set_utc_time(&mut self, utc_us: u64, granularity: u8, time_source: Option<u8>, tick: u64) -> Outcome<'static> {
        let returned = entry::set_utc_time(
            self.image.as_mut(),
            utc_us,
            granularity,
            u8::from(time_source.is_some()),
            time_source.unwrap_or(0),
            tick,
        );
        Outcome::new(returned, (), Carried::default())
    }

    /// SetTrustedTimeSource of the fabric that sends it: a node and its endpoint, or none. A command of fabric index 0 is to be answered with
    /// [`Refusal::InvalidCommand`]; it cannot be passed on.
    pub fn handle_set_trusted_time_source(&mut self, fab_idx: NonZeroU8, source: Option<(u64, u16)>) -> Outcome<'static> {
        let (node_id, endpoint) = source.unwrap_or((0, 0));
        let named = u8::from(source.is_some());
        let returned = entry::set_trusted_time_source(self.image.as_mut(), fab_idx.get(), named, node_id, endpoint);
        let carried = Carried {
            source: source.map(|(node_id, endpoint)| TrustedTimeSource {
                fab_idx,
                node_id,
                endpoint,
            }),
            ..Carried::default()
        };
        Outcome::new(returned, (), carried)
    }

    /// SetTimeZone, with its section of zones ([`encode_time_zones`](crate::encode_time_zones)). The record that is to be stored is written to
    /// the front of `record`, for which [`RECORD_MAX`](crate::RECORD_MAX) bytes always suffice. DSTOffsetRequired is true whenever the
    /// command is accepted.
    pub fn handle_set_time_zone<'r>(&mut self, request: &[u8], record: &'r mut [u8]) -> Outcome<'r> {
        self.set_list(entry::set_time_zone, request, record)
    }

    /// SetDSTOffset, with its section of windows ([`encode_dst_offsets`](crate::encode_dst_offsets)); the record as with
    /// [`Self::handle_set_time_zone`]. Refused with ConstraintError or ResourceExhausted it empties the windows and wakes the timer.
    pub fn handle_set_dst_offset<'r>(&mut self, request: &[u8], record: &'r mut [u8]) -> Outcome<'r> {
        self.set_list(entry::set_dst_offset, request, record)
    }

    // a command on the lists
    fn set_list<'r>(&mut self, set: fn(&mut [u8], &[u8], &mut [u8], &mut u64) -> u64, request: &[u8], record: &'r mut [u8]) -> Outcome<'r> {
        let mut used = 0;
        let returned = set(self.image.as_mut(), request, record, &mut used);
        let carried = Carried {
            record: record.get(..used as usize).unwrap_or(&[]),
            ..Carried::default()
        };
        Outcome::new(returned, (), carried)
    }

    /// A look of the transition timer at a tick, which emits the events that are due and answers how long to sleep. On a clock that is not
    /// set, and with no list store, no event is due and what the last look saw stays.
    pub fn look(&mut self, tick: u64) -> Outcome<'static, Sleep> {
        let mut name = [0; TIME_ZONE_NAME_MAX];
        let (mut offset, mut named, mut len, mut active, mut sleep, mut sleep_us) = (0, 0, 0, 0, 0, 0);
        let returned = entry::look(
            self.image.as_mut(),
            tick,
            &mut name,
            &mut offset,
            &mut named,
            &mut len,
            &mut active,
            &mut sleep,
            &mut sleep_us,
        );
        let carried = Carried {
            offset,
            name: Name::read(name, named, len),
            dst_offset_active: active != 0,
            ..Carried::default()
        };
        let sleep = match sleep {
            0 => Sleep::Never,
            1 => Sleep::UntilWoken,
            _ => Sleep::AtMost(sleep_us),
        };
        Outcome::new(returned, sleep, carried)
    }
}
