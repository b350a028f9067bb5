//! Clock, time-zone lists, timer and client of a Matter node, over a proved static library.
//!
//! All state is one image. Bytes are an image where there are at least [`IMAGE_SIZE`] of them and they begin with the 4 bytes of the magic;
//! nothing else decides it, so an image with damaged bytes behind the magic stands for some state. A [`Controller`] owns it or holds it in
//! lent bytes, and shows it as
//!
//! - [`Rtc`]: the clock,
//! - [`TimeZoneStore`]: the lists of zones and windows,
//! - [`TimeSyncHandler`]: the commands and attributes of the cluster, and the transition timer,
//! - [`TimeSyncClient`]: the client that asks another node for the time.
//!
//! Nothing here waits, stores or sends. A call that may ask for an effect returns an [`Outcome`]: [`Outcome::carry_out`] hands out each
//! [`Effect`], in order and with all that it carries, and then gives the answer. A call that is turned down can ask for effects too, as
//! here, where an administrator sends more windows than the controller takes:
//!
//! ```
//! use timesync::{encode_dst_offsets, Controller, DSTOffsetEntry, Effect, Limits, Refusal, DST_OFFSET_SECTION_MAX, RECORD_MAX};
//!
//! const DAY: u64 = 86_400_000_000;
//!
//! # fn main() -> Result<(), Refusal> {
//! let mut controller = Controller::new(Some(Limits::DEVICE), 0, 3_600_000_000)?;
//! let (mut request, mut record) = ([0; DST_OFFSET_SECTION_MAX], [0; RECORD_MAX]);
//! let summer = |year: u64| DSTOffsetEntry {
//!     offset: 3600,
//!     valid_starting: (365 * year + 90) * DAY,
//!     valid_until: Some((365 * year + 300) * DAY),
//! };
//!
//! // two summers are stored and reported
//! let two = encode_dst_offsets(&[summer(27), summer(28)], &mut request)?;
//! let mut flash = Vec::new();
//! controller.handler_mut().handle_set_dst_offset(two, &mut record).carry_out(|effect| match effect {
//!     Effect::StoreRecord(bytes) => flash = bytes.to_vec(),
//!     Effect::WakeTimer => { /* the timer looks */ }
//!     Effect::Report(attribute) => println!("report {attribute:?}"),
//!     other => unreachable!("{other:?}"),
//! })?;
//! assert!(!flash.is_empty());
//!
//! // three are refused, and the two are gone: the timer is to be woken, so that it tells of the empty table
//! let three = encode_dst_offsets(&[summer(27), summer(28), summer(29)], &mut request)?;
//! let mut woken = false;
//! let answer = controller.handler_mut().handle_set_dst_offset(three, &mut record).carry_out(|effect| match effect {
//!     Effect::WakeTimer => woken = true,
//!     other => unreachable!("{other:?}"),
//! });
//! assert_eq!((answer, woken), (Err(Refusal::ResourceExhausted), true));
//! assert!(controller.store().dst_table_empty()?);
//! # Ok(())
//! # }
//! ```
//!
//! In the other examples `perform` is the firmware's own function that does one effect.
//!
//! Moments are microseconds since the Matter epoch, ticks microseconds of a monotonic counter. [`encode_time_zones`] and
//! [`encode_dst_offsets`] write the sections that the commands take. [`entry`] has every function of the library as it is at C. The feature
//! `replay` adds whole histories on a new list store, out of an archive of its own; firmware does without it.
//!
//! At boot make the controller, load the clock ([`Rtc::load_persist`]) and the lists ([`TimeZoneStore::load_persist`]) with or without what
//! flash holds of them, and then make the first look ([`TimeSyncHandler::look`]) and the first attempt ([`TimeSyncClient::attempt`]). A load
//! of the lists that is refused with BadRecord changes nothing: go on with empty lists, and tell the administrator.
//! Of the calls that set the clock only SetUTCTime wakes the timer: look again after a report of [`AttributeId::UTCTime`] too.
//!
//! Names are those of rs-matter wherever it has one: of types (`DSTOffsetEntry`), of methods (`load_persist`), of fields (`fab_idx`) and of
//! Matter's own terms (`EventId::DSTTableEmpty`). Its `time_zone` is a zone in these sentences, and its `dst_offset` a window.
//! `oracle/host/src/adapter.rs` implements rs-matter's trait `TimeZones` over this crate: it shows how to put the port into a device.

#![no_std]
#![deny(missing_docs)]
#![deny(unsafe_code)]

pub mod entry;

mod client;
mod controller;
mod effect;
mod entries;
mod handler;
mod name;
mod numbers;
mod outcome;
#[cfg(feature = "replay")]
mod replay;
mod rtc;
mod store;

pub use client::{TimeSyncClient, Told, Wait};
pub use controller::{Controller, Limits};
pub use effect::{Effect, EffectCode, EffectCodes, Event};
pub use entries::{encode_dst_offsets, encode_time_zones, DSTOffsetEntry, TimeZoneEntry, TimeZoneOwned};
pub use handler::{Sleep, TimeSyncHandler};
pub use name::Name;
pub use numbers::{AttributeId, EventId, Refusal, TimeGranularity, TimeSource};
pub use outcome::Outcome;
#[cfg(feature = "replay")]
pub use replay::{replay, Replayed};
pub use rtc::{Rtc, TrustedTimeSource, UtcTime};
pub use store::{TimeZoneStore, Walk};

/// How many bytes an image has.
pub const IMAGE_SIZE: usize = 1136;

/// The longest name of a zone, in bytes.
pub const TIME_ZONE_NAME_MAX: usize = 64;

/// The longest section of zones that a controller accepts, in bytes: 8 zones with the longest names.
pub const TIME_ZONE_SECTION_MAX: usize = 625;

/// The longest section of windows that a controller accepts, in bytes: 16 windows that all end.
pub const DST_OFFSET_SECTION_MAX: usize = 337;

/// The longest record of both lists, in bytes.
pub const RECORD_MAX: usize = TIME_ZONE_SECTION_MAX + DST_OFFSET_SECTION_MAX;

/// The most moments that a walk has on a damaged image, the starting moment among them. Over accepted lists there are at most 40.
pub const MOMENTS_MAX: usize = 41;
