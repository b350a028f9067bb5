//! The client that asks another node for the time.

use crate::entry;
use crate::numbers::Refusal;
use crate::outcome::{answer, Carried, Outcome};

/// What the source told: a moment, and the number of a granularity. A missing granularity and a number above 4 count as Seconds.
///
/// ```
/// use timesync::{TimeGranularity, Told};
///
/// let told = Told { utc_us: Some(845_000_000_000_000), granularity: Some(TimeGranularity::Milliseconds.number()) };
/// // a source whose UTCTime is null
/// let null = Told::default();
/// # assert_ne!(told, null);
/// ```
#[derive(Debug, Clone, Copy, PartialEq, Eq, Hash, Default)]
pub struct Told {
    /// UTCTime, or null.
    pub utc_us: Option<u64>,
    /// Granularity, if it was told.
    pub granularity: Option<u8>,
}

/// What comes next for the client.
///
/// ```
/// # use timesync::{Controller, Refusal, Wait};
/// # fn main() -> Result<(), Refusal> {
/// let mut controller = Controller::new(None, 0, 3_600_000_000)?;
/// match controller.client_mut().source_changed()? {
///     Wait::AttemptNow => { /* ask the source */ }
///     Wait::For(us) => { /* set a timer */ }
///     Wait::ForSource => println!("no trusted time source is set"),
/// }
/// # Ok(())
/// # }
/// ```
#[derive(Debug, Clone, Copy, PartialEq, Eq, Hash)]
pub enum Wait {
    /// An attempt at once.
    AttemptNow,
    /// An attempt after so many microseconds. Waking the client ends the wait.
    For(u64),
    /// No attempt until the client is woken.
    ForSource,
}

fn wait_of(kind: u64, us: u64) -> Wait {
    match kind {
        0 => Wait::AttemptNow,
        1 => Wait::For(us),
        _ => Wait::ForSource,
    }
}

/// The client of an image. What comes first is an attempt at once.
///
/// ```
/// # fn perform(_: timesync::Effect) {}
/// # use std::num::NonZeroU8;
/// # use timesync::{Controller, Refusal, Told, UtcTime, Wait};
/// # fn main() -> Result<(), Refusal> {
/// let period = 3_600_000_000;
/// let mut controller = Controller::new(None, 0, period)?;
/// controller.handler_mut().handle_set_trusted_time_source(NonZeroU8::MIN, Some((7, 0))).carry_out(perform)?;
/// assert_eq!(controller.client_mut().source_changed()?, Wait::AttemptNow);
/// let told = Told { utc_us: Some(845_000_000_000_000), granularity: Some(3) };
/// let wait = controller.client_mut().attempt(Some(told), 10).carry_out(perform)?;
/// assert_eq!(wait, Wait::For(period));
/// assert_eq!(controller.rtc().utc_time(12)?, UtcTime::Reliable(845_000_000_000_002));
/// # Ok(())
/// # }
/// ```
#[derive(Debug)]
pub struct TimeSyncClient<I> {
    image: I,
}

impl<I: AsRef<[u8]> + AsMut<[u8]>> TimeSyncClient<I> {
    /// Over the bytes of an image. Each call is refused with BadLimits where they are not one.
    pub fn over(image: I) -> Self {
        TimeSyncClient { image }
    }

    /// An attempt at a tick, with what the exchange with the trusted time source brought; `None` where it failed. The clock is asked for its
    /// trusted time source in this call, when the answer has come: an answer from a source that was cleared in between is not applied, and
    /// MissingTrustedTimeSource and TimeFailure are emitted where they are due. The timer is not woken by a time that was applied.
    pub fn attempt(&mut self, told: Option<Told>, tick: u64) -> Outcome<'static, Wait> {
        let (mut wait, mut wait_us) = (0, 0);
        let reading = told.unwrap_or_default();
        let moment = reading.utc_us.unwrap_or(0);
        let returned = entry::attempt(
            self.image.as_mut(),
            u8::from(told.is_some()),
            u8::from(reading.utc_us.is_some()),
            moment,
            u8::from(reading.granularity.is_some()),
            reading.granularity.unwrap_or(0),
            tick,
            &mut wait,
            &mut wait_us,
        );
        let carried = Carried {
            moment,
            ..Carried::default()
        };
        Outcome::new(returned, wait_of(wait, wait_us), carried)
    }

    /// The trusted time source was set or cleared: the retries start over. Answers [`Wait::AttemptNow`] where there is a source, else
    /// [`Wait::ForSource`]. Where an attempt is under way, call it after that attempt's answer. It asks for no effects.
    pub fn source_changed(&mut self) -> Result<Wait, Refusal> {
        let (mut wait, mut wait_us) = (0, 0);
        answer(entry::source_changed(self.image.as_mut(), &mut wait, &mut wait_us))?;
        Ok(wait_of(wait, wait_us))
    }
}
