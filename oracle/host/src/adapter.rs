//! The port's list store behind rs-matter's own trait `TimeZones`: the example of how to put it into a device.
//!
//! [`TimeSyncHandler::with_time_zones`](rs_matter::dm::clusters::time_sync::TimeSyncHandler::with_time_zones) takes a
//! [`PortTimeZones`]. What it does by hand, because the port leaves it to its host:
//!
//! - A request is decoded and becomes a section of bytes. One that cannot be decoded never reaches the port, so that
//!   the lists stay as they are.
//! - DSTOffsetRequired is true. The port has no output for it: it is true whenever SetTimeZone is accepted.
//! - A refusal becomes rs-matter's error code.
//! - The record goes to storage that the application wires in, and is loaded from it at startup.
//! - A wake is kept for the application's transition timer. The handler runs a timer for rs-matter's own store only.
//! - Reports are left out. The handler reports both attributes itself after an accepted command.

use rs_matter::dm::clusters::time_sync::{
    DSTOffsetEntry, SetDSTOffsetRequest, SetTimeZoneRequest, TimeZoneDatabaseEnum, TimeZoneEntry, TimeZones,
};
use rs_matter::dm::LifecycleOp;
use rs_matter::error::{Error, ErrorCode};
use rs_matter::utils::cell::RefCell;
use rs_matter::utils::sync::blocking::Mutex;
use rs_matter::utils::sync::{MaybeSendSync, Notification};
use timesync::{
    encode_dst_offsets, encode_time_zones, Controller, Effect, Limits, Outcome, Refusal, DST_OFFSET_SECTION_MAX,
    RECORD_MAX, TIME_ZONE_SECTION_MAX,
};

/// How many entries are sent at most: one past the largest limit.
const TIME_ZONES: usize = Limits::LARGEST.time_zone_max + 1;
const DST_OFFSETS: usize = Limits::LARGEST.dst_offset_max + 1;

/// The bytes of the entry past the limit: an offset, a start, and a mark for no name or no end.
const PAST_LIMIT: usize = 4 + 8 + 1;

/// The port's clock and client are not used here, so what they start from does not matter.
const NO_BUILD: u64 = 0;
const NO_PERIOD: u64 = 0;

/// Storage for one record, which the application wires in.
pub trait RecordStorage: MaybeSendSync {
    /// Reads the record to the front of `buf`, if there is one.
    fn load<'b>(&self, buf: &'b mut [u8]) -> Result<Option<&'b [u8]>, Error>;

    /// Replaces the record.
    fn store(&self, record: &[u8]) -> Result<(), Error>;

    /// Removes the record.
    fn remove(&self) -> Result<(), Error>;

    /// The record was refused at startup. The lists are empty now, and an administrator has to send them again.
    fn bad_record(&self);
}

/// The port's list store as a provider of the time zones.
pub struct PortTimeZones<S> {
    controller: Mutex<RefCell<Controller>>,
    /// Signalled on every change of the lists, as in rs-matter's own store.
    changed: Notification,
    storage: S,
}

impl<S: RecordStorage> PortTimeZones<S> {
    /// With empty lists; `LifecycleOp::Startup` loads them.
    pub fn new(limits: Limits, storage: S) -> Result<Self, Error> {
        let controller = Controller::new(Some(limits), NO_BUILD, NO_PERIOD).map_err(error)?;
        Ok(Self { controller: Mutex::new(RefCell::new(controller)), changed: Notification::new(), storage })
    }

    /// Waits until the lists may have changed. One waiter: the application's transition timer.
    pub async fn wait_changed(&self) {
        self.changed.wait().await
    }

    fn read<R>(&self, f: impl FnOnce(&Controller) -> R) -> R {
        self.controller.lock(|controller| f(&controller.borrow()))
    }

    fn write<R>(&self, f: impl FnOnce(&mut Controller) -> R) -> R {
        self.controller.lock(|controller| f(&mut controller.borrow_mut()))
    }

    /// Does what a call asks for, also where it is refused. Where storage fails, its error is the answer.
    fn carry_out(&self, outcome: Outcome<'_>) -> Result<(), Error> {
        let mut stored = Ok(());
        let answer = outcome.carry_out(|effect| match effect {
            Effect::WakeTimer => self.changed.notify(),
            Effect::StoreRecord(record) => stored = self.storage.store(record),
            Effect::RemoveRecord => stored = self.storage.remove(),
            // the handler reports, and a call on the lists asks for nothing else
            _ => {}
        });
        answer.map_err(error).and(stored)
    }

    /// Loads the lists. A record that is refused leaves them as they are, which is empty at startup.
    fn load(&self) -> Result<(), Error> {
        let mut buf = [0; RECORD_MAX];
        let record = self.storage.load(&mut buf)?;
        match self.write(|controller| controller.store_mut().load_persist(record)) {
            Err(Refusal::BadRecord) => self.storage.bad_record(),
            answer => answer.map_err(error)?,
        }
        Ok(())
    }

    /// Empties the lists and removes the record.
    fn reset(&self) -> Result<(), Error> {
        self.carry_out(self.write(|controller| controller.store_mut().reset_persist()))
    }
}

impl<S: RecordStorage> TimeZones for PortTimeZones<S> {
    fn time_zone(&self, visit: &mut dyn FnMut(&TimeZoneEntry<'_>) -> Result<(), Error>) -> Result<(), Error> {
        self.read(|controller| {
            for index in 0..controller.handler().time_zone_count().map_err(error)? {
                let zone = controller.handler().time_zone(index).map_err(error)?;
                visit(&TimeZoneEntry { offset: zone.offset, valid_at: zone.valid_at, name: zone.name.as_deref() })?;
            }
            Ok(())
        })
    }

    fn dst_offset(&self, visit: &mut dyn FnMut(&DSTOffsetEntry) -> Result<(), Error>) -> Result<(), Error> {
        self.read(|controller| {
            for index in 0..controller.handler().dst_offset_count().map_err(error)? {
                let window = controller.handler().dst_offset(index).map_err(error)?;
                let timesync::DSTOffsetEntry { offset, valid_starting, valid_until } = window;
                visit(&DSTOffsetEntry { offset, valid_starting, valid_until })?;
            }
            Ok(())
        })
    }

    fn time_zone_database(&self) -> Result<TimeZoneDatabaseEnum, Error> {
        match self.read(|controller| controller.handler().time_zone_database()).map_err(error)? {
            0 => Ok(TimeZoneDatabaseEnum::Full),
            1 => Ok(TimeZoneDatabaseEnum::Partial),
            _ => Ok(TimeZoneDatabaseEnum::None),
        }
    }

    fn time_zone_list_max_size(&self) -> Result<u8, Error> {
        self.read(|controller| controller.handler().time_zone_list_max_size()).map_err(error)
    }

    fn dst_offset_list_max_size(&self) -> Result<u8, Error> {
        self.read(|controller| controller.handler().dst_offset_list_max_size()).map_err(error)
    }

    fn set_time_zone(&self, request: &SetTimeZoneRequest<'_>) -> Result<bool, Error> {
        let mut zones = [timesync::TimeZoneEntry::default(); TIME_ZONES];
        let limit = self.time_zone_list_max_size()?;
        let zones = decode(request.time_zone()?.iter(), limit, &mut zones, |zone| {
            Ok(timesync::TimeZoneEntry { offset: zone.offset()?, valid_at: zone.valid_at()?, name: zone.name()? })
        })?;
        let mut section = [0; TIME_ZONE_SECTION_MAX + PAST_LIMIT];
        // a name that is too long is refused here already, with the code that the command has for it
        let section = encode_time_zones(zones, &mut section).map_err(error)?;
        let record = &mut [0; RECORD_MAX];
        self.carry_out(self.write(|controller| controller.handler_mut().handle_set_time_zone(section, record)))?;
        Ok(true)
    }

    fn set_dst_offset(&self, request: &SetDSTOffsetRequest<'_>) -> Result<(), Error> {
        let mut windows = [timesync::DSTOffsetEntry::default(); DST_OFFSETS];
        let limit = self.dst_offset_list_max_size()?;
        let windows = decode(request.dst_offset()?.iter(), limit, &mut windows, |window| {
            let (valid_starting, valid_until) = (window.valid_starting()?, window.valid_until()?.into_option());
            Ok(timesync::DSTOffsetEntry { offset: window.offset()?, valid_starting, valid_until })
        })?;
        let mut section = [0; DST_OFFSET_SECTION_MAX + PAST_LIMIT];
        let section = encode_dst_offsets(windows, &mut section).map_err(error)?;
        let record = &mut [0; RECORD_MAX];
        self.carry_out(self.write(|controller| controller.handler_mut().handle_set_dst_offset(section, record)))
    }

    fn lifecycle(&self, op: LifecycleOp) -> Result<(), Error> {
        match op {
            LifecycleOp::Startup => self.load(),
            LifecycleOp::FactoryReset => self.reset(),
            LifecycleOp::FabricRemoval { .. } | LifecycleOp::FailSafeCommit | LifecycleOp::FailSafeExpiry => Ok(()),
        }
    }
}

/// The entries of a request, at most one past the limit. rs-matter's own store refuses that one whatever it holds, and
/// reads no further. So it is sent empty; where an entry before it breaks a rule, the port refuses for that one.
fn decode<E, T>(
    entries: impl Iterator<Item = Result<E, Error>>,
    limit: u8,
    out: &mut [T],
    each: impl Fn(E) -> Result<T, Error>,
) -> Result<&[T], Error> {
    let limit = usize::from(limit);
    let mut count = 0;
    for (entry, out) in entries.take(limit + 1).zip(&mut *out) {
        let entry = entry?;
        if count < limit {
            *out = each(entry)?;
        }
        count += 1;
    }
    out.get(..count).ok_or(ErrorCode::ResourceExhausted.into())
}

/// rs-matter's code of a refusal. The last arm is for limits that are not allowed; no other refusal comes back here.
fn error(refusal: Refusal) -> Error {
    match refusal {
        Refusal::ConstraintError => ErrorCode::ConstraintError.into(),
        Refusal::ResourceExhausted => ErrorCode::ResourceExhausted.into(),
        _ => ErrorCode::Invalid.into(),
    }
}
