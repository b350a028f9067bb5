//! What a call asks the caller to do.

use core::iter::FusedIterator;

use crate::numbers::{AttributeId, EventId};
use crate::rtc::TrustedTimeSource;

/// What a call asks the caller to do, with all that it takes to do it. [`Outcome::carry_out`](crate::Outcome::carry_out) hands them out.
///
/// ```
/// # use timesync::{encode_time_zones, Controller, Effect, Limits, Refusal, TimeZoneEntry, RECORD_MAX};
/// # fn main() -> Result<(), Refusal> {
/// let mut controller = Controller::new(Some(Limits::DEVICE), 0, 3_600_000_000)?;
/// let berlin = TimeZoneEntry { offset: 3600, valid_at: 0, name: Some("Europe/Berlin") };
/// let (mut request, mut record) = ([0; 64], [0; RECORD_MAX]);
/// let request = encode_time_zones(&[berlin], &mut request)?;
/// let mut flash = Vec::new();
/// controller.handler_mut().handle_set_time_zone(request, &mut record).carry_out(|effect| match effect {
///     Effect::StoreRecord(bytes) => flash = bytes.to_vec(),
///     Effect::WakeTimer => { /* look again */ }
///     Effect::Report(attribute) => println!("report attribute {}", attribute.number()),
///     other => unreachable!("SetTimeZone asks for no {other:?}"),
/// })?;
/// assert_eq!(flash, [request, &[0]].concat());
/// # Ok(())
/// # }
/// ```
#[derive(Debug, Clone, Copy, PartialEq, Eq)]
pub enum Effect<'a> {
    /// Report that the attribute changed.
    Report(AttributeId),
    /// Emit the event.
    Emit(Event<'a>),
    /// Wake the transition timer, which then looks.
    WakeTimer,
    /// Tell the client that the trusted time source was set or cleared, which then says what comes next.
    WakeClient,
    /// Store this record of the lists in flash.
    StoreRecord(&'a [u8]),
    /// Remove the record of the lists from flash.
    RemoveRecord,
    /// Store this moment in flash.
    StoreMoment(u64),
    /// Remove the moment from flash.
    RemoveMoment,
    /// Store this trusted time source in flash.
    StoreSource(TrustedTimeSource),
    /// Remove the trusted time source from flash.
    RemoveSource,
}

/// An event with its fields, which have Matter's names.
///
/// ```
/// # fn perform(_: timesync::Effect) {}
/// # use timesync::{encode_dst_offsets, Controller, DSTOffsetEntry, Effect, Event, Limits, Refusal, RECORD_MAX};
/// # fn main() -> Result<(), Refusal> {
/// let mut controller = Controller::new(Some(Limits::DEVICE), 0, 3_600_000_000)?;
/// let summer = DSTOffsetEntry { offset: 3600, valid_starting: 0, valid_until: None };
/// let (mut request, mut record) = ([0; 32], [0; RECORD_MAX]);
/// let request = encode_dst_offsets(&[summer], &mut request)?;
/// controller.handler_mut().handle_set_dst_offset(request, &mut record).carry_out(perform)?;
/// controller.handler_mut().handle_set_utc_time(5, 4, None, 0).carry_out(perform)?;
/// let mut emitted = false;
/// controller.handler_mut().look(0).carry_out(|effect| {
///     emitted = effect == Effect::Emit(Event::DSTStatus { dst_offset_active: true });
/// })?;
/// assert!(emitted);
/// # Ok(())
/// # }
/// ```
#[derive(Debug, Clone, Copy, PartialEq, Eq)]
pub enum Event<'a> {
    /// No window is usable any more.
    DSTTableEmpty,
    /// A window became active or inactive.
    DSTStatus {
        /// Whether one is active.
        dst_offset_active: bool,
    },
    /// The active zone's offset changed.
    TimeZoneStatus {
        /// The offset in seconds.
        offset: i32,
        /// The zone's name, if it has one.
        name: Option<&'a str>,
    },
    /// An attempt got no time.
    TimeFailure,
    /// There is no trusted time source, or it does not answer.
    MissingTrustedTimeSource,
}

impl Event<'_> {
    /// Its number.
    ///
    /// ```
    /// assert_eq!(timesync::Event::TimeFailure.id().number(), 3);
    /// ```
    pub const fn id(self) -> EventId {
        match self {
            Event::DSTTableEmpty => EventId::DSTTableEmpty,
            Event::DSTStatus { .. } => EventId::DSTStatus,
            Event::TimeZoneStatus { .. } => EventId::TimeZoneStatus,
            Event::TimeFailure => EventId::TimeFailure,
            Event::MissingTrustedTimeSource => EventId::MissingTrustedTimeSource,
        }
    }
}

/// An effect as a function of [`entry`](crate::entry) returns it: a code, without what it carries.
///
/// ```
/// use timesync::{AttributeId, EffectCode};
///
/// assert_eq!(EffectCode::from_code(0x15), Some(EffectCode::Report(AttributeId::TimeZone)));
/// assert_eq!(EffectCode::WakeTimer.code(), 0x30);
/// ```
#[derive(Debug, Clone, Copy, PartialEq, Eq, Hash)]
pub enum EffectCode {
    /// [`Effect::Report`].
    Report(AttributeId),
    /// [`Effect::Emit`].
    Emit(EventId),
    /// [`Effect::WakeTimer`].
    WakeTimer,
    /// [`Effect::WakeClient`].
    WakeClient,
    /// [`Effect::StoreRecord`].
    StoreRecord,
    /// [`Effect::RemoveRecord`].
    RemoveRecord,
    /// [`Effect::StoreMoment`].
    StoreMoment,
    /// [`Effect::RemoveMoment`].
    RemoveMoment,
    /// [`Effect::StoreSource`].
    StoreSource,
    /// [`Effect::RemoveSource`].
    RemoveSource,
}

/// The codes of [`EffectCode::Report`] and [`EffectCode::Emit`] less the attribute's or the event's number, and how many each has room for.
const REPORT: u8 = 0x10;
const EMIT: u8 = 0x20;
const ROOM: u8 = 0x10;

impl EffectCode {
    /// The effects that have neither an attribute nor an event, with their codes.
    const PLAIN: [(u8, Self); 8] = [
        (0x30, Self::WakeTimer),
        (0x31, Self::WakeClient),
        (0x40, Self::StoreRecord),
        (0x41, Self::RemoveRecord),
        (0x42, Self::StoreMoment),
        (0x43, Self::RemoveMoment),
        (0x44, Self::StoreSource),
        (0x45, Self::RemoveSource),
    ];

    /// Its code, one byte and never 0.
    pub fn code(self) -> u8 {
        match self {
            EffectCode::Report(attribute) => REPORT + attribute.number(),
            EffectCode::Emit(event) => EMIT + event.number(),
            plain => Self::PLAIN.iter().find(|(_, effect)| *effect == plain).map_or(0, |(code, _)| *code),
        }
    }

    /// The effect that has this code.
    pub fn from_code(code: u8) -> Option<Self> {
        match code {
            REPORT.. if code < REPORT + ROOM => AttributeId::from_number(code - REPORT).map(EffectCode::Report),
            EMIT.. if code < EMIT + ROOM => EventId::from_number(code - EMIT).map(EffectCode::Emit),
            _ => Self::PLAIN.iter().find(|(plain, _)| *plain == code).map(|(_, effect)| *effect),
        }
    }
}

/// The effects of a call in order, read off what a function of [`entry`](crate::entry) returned.
///
/// ```
/// use timesync::{entry, EffectCode, EffectCodes, IMAGE_SIZE};
///
/// let mut image = [0; IMAGE_SIZE];
/// entry::new(&mut image, 1, 2, 2, 0, 3_600_000_000);
/// let returned = entry::reset_lists(&mut image);
/// assert!(EffectCodes::from_returned(returned).eq([EffectCode::RemoveRecord, EffectCode::WakeTimer]));
/// ```
#[derive(Debug, Clone, PartialEq, Eq, Default)]
#[must_use = "the effects are to be carried out"]
pub struct EffectCodes {
    // the codes that are left, the next one lowest
    left: u64,
}

impl EffectCodes {
    /// Of what a function of [`entry`](crate::entry) returned.
    pub const fn from_returned(returned: u64) -> Self {
        EffectCodes { left: returned >> 8 }
    }
}

impl Iterator for EffectCodes {
    type Item = EffectCode;

    fn next(&mut self) -> Option<EffectCode> {
        let effect = EffectCode::from_code(self.left as u8);
        self.left = if effect.is_some() { self.left >> 8 } else { 0 };
        effect
    }
}

impl FusedIterator for EffectCodes {}
