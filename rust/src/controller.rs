//! The image and its views.

use crate::client::TimeSyncClient;
use crate::entry;
use crate::handler::TimeSyncHandler;
use crate::numbers::Refusal;
use crate::outcome::answer;
use crate::rtc::Rtc;
use crate::store::TimeZoneStore;
use crate::IMAGE_SIZE;

/// The limits of a list store.
///
/// ```
/// # use timesync::{Controller, Limits, Refusal};
/// let limits = Limits { time_zone_max: 1, dst_offset_max: 16 };
/// assert!(Controller::new(Some(limits), 0, 0).is_ok());
/// let no_windows = Limits { dst_offset_max: 0, ..limits };
/// assert_eq!(Controller::new(Some(no_windows), 0, 0).err(), Some(Refusal::BadLimits));
/// ```
#[derive(Debug, Clone, Copy, PartialEq, Eq, Hash)]
pub struct Limits {
    /// How many zones it takes, 1 to 8.
    pub time_zone_max: usize,
    /// How many windows it takes, 1 to 16.
    pub dst_offset_max: usize,
}

impl Limits {
    /// The limits that the store of rs-matter has by default.
    pub const DEVICE: Self = Limits {
        time_zone_max: 2,
        dst_offset_max: 2,
    };

    /// The largest limits.
    pub const LARGEST: Self = Limits {
        time_zone_max: 8,
        dst_offset_max: 16,
    };
}

/// A controller: one image, owned or in lent bytes. A lent slice may be longer than an image; the bytes past it stay as they are.
///
/// ```
/// # use timesync::{Controller, Limits, Refusal, UtcTime, IMAGE_SIZE};
/// # fn main() -> Result<(), Refusal> {
/// let (build, period) = (5, 3_600_000_000);
/// let mut memory = [0; IMAGE_SIZE];
/// let lent = Controller::new_in(&mut memory[..], Some(Limits::DEVICE), build, period)?;
/// let owned = Controller::new(Some(Limits::DEVICE), build, period)?;
/// assert_eq!(lent.as_bytes(), owned.as_bytes());
/// assert_eq!(owned.rtc().utc_time(0)?, UtcTime::LastKnown(build));
/// # Ok(())
/// # }
/// ```
#[derive(Debug, Clone)]
pub struct Controller<B = [u8; IMAGE_SIZE]> {
    bytes: B,
}

impl Controller {
    /// A new controller that owns its image: with a list store of these limits, or without one; with the moment that the firmware was
    /// built and the period of the client in microseconds. Refused with BadLimits where the limits are not allowed.
    pub fn new(limits: Option<Limits>, build: u64, period: u64) -> Result<Self, Refusal> {
        Controller::new_in([0; IMAGE_SIZE], limits, build, period)
    }
}

impl<B: AsRef<[u8]> + AsMut<[u8]>> Controller<B> {
    /// A new controller in these bytes, whatever they hold. Refused with BadLimits where the limits are not allowed or the bytes are fewer
    /// than an image.
    pub fn new_in(mut bytes: B, limits: Option<Limits>, build: u64, period: u64) -> Result<Self, Refusal> {
        let Limits {
            time_zone_max,
            dst_offset_max,
        } = limits.unwrap_or(Limits::DEVICE);
        let returned = entry::new(
            bytes.as_mut(),
            u8::from(limits.is_some()),
            time_zone_max,
            dst_offset_max,
            build,
            period,
        );
        answer(returned).map(|()| Controller { bytes })
    }

    /// The clock, to be changed.
    pub fn rtc_mut(&mut self) -> Rtc<&mut [u8]> {
        Rtc::over(self.bytes.as_mut())
    }

    /// The list store, to be changed.
    pub fn store_mut(&mut self) -> TimeZoneStore<&mut [u8]> {
        TimeZoneStore::over(self.bytes.as_mut())
    }

    /// The handler, for commands and looks.
    pub fn handler_mut(&mut self) -> TimeSyncHandler<&mut [u8]> {
        TimeSyncHandler::over(self.bytes.as_mut())
    }

    /// The client.
    pub fn client_mut(&mut self) -> TimeSyncClient<&mut [u8]> {
        TimeSyncClient::over(self.bytes.as_mut())
    }
}

impl<B: AsRef<[u8]>> Controller<B> {
    /// Over bytes that hold an image already. Refused with BadLimits where they are not one.
    pub fn from_image(bytes: B) -> Result<Self, Refusal> {
        let mut value = 0;
        answer(entry::utc_time_granularity(bytes.as_ref(), &mut value)).map(|()| Controller { bytes })
    }

    /// The bytes, of which the first [`IMAGE_SIZE`] are the image.
    pub fn as_bytes(&self) -> &[u8] {
        self.bytes.as_ref()
    }

    /// Gives the bytes back.
    pub fn into_bytes(self) -> B {
        self.bytes
    }

    /// The clock, to be read.
    pub fn rtc(&self) -> Rtc<&[u8]> {
        Rtc::over(self.bytes.as_ref())
    }

    /// The list store, to be read.
    pub fn store(&self) -> TimeZoneStore<&[u8]> {
        TimeZoneStore::over(self.bytes.as_ref())
    }

    /// The handler, for its attributes.
    pub fn handler(&self) -> TimeSyncHandler<&[u8]> {
        TimeSyncHandler::over(self.bytes.as_ref())
    }
}
