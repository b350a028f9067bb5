//! The clock.

use core::num::NonZeroU8;

use crate::entry;
use crate::numbers::{Refusal, TimeGranularity, TimeSource};
use crate::outcome::{answer, Carried, Outcome};

/// The UTC time, in microseconds since the Matter epoch.
///
/// ```
/// use timesync::UtcTime;
///
/// assert_eq!(UtcTime::Reliable(5).reliable(), Some(5));
/// assert_eq!((UtcTime::LastKnown(5).reliable(), UtcTime::LastKnown(5).any()), (None, 5));
/// ```
#[derive(Debug, Clone, Copy, PartialEq, Eq, Hash)]
pub enum UtcTime {
    /// The clock is set: the current moment.
    Reliable(u64),
    /// It is not: the last known moment.
    LastKnown(u64),
}

impl UtcTime {
    /// The current moment, if the clock is set.
    pub const fn reliable(self) -> Option<u64> {
        match self {
            UtcTime::Reliable(us) => Some(us),
            UtcTime::LastKnown(_) => None,
        }
    }

    /// The moment, current or last known.
    pub const fn any(self) -> u64 {
        match self {
            UtcTime::Reliable(us) | UtcTime::LastKnown(us) => us,
        }
    }
}

/// The trusted time source: the fabric that set it, a node of that fabric and an endpoint of the node.
///
/// ```
/// # use std::num::NonZeroU8;
/// use timesync::TrustedTimeSource;
///
/// // of a fabric index that was read from somewhere; no fabric has index 0
/// let source = |fab_idx| Some(TrustedTimeSource { fab_idx: NonZeroU8::new(fab_idx)?, node_id: 7, endpoint: 0 });
/// assert_eq!((source(1).is_some(), source(0)), (true, None));
/// ```
#[derive(Debug, Clone, Copy, PartialEq, Eq, Hash)]
pub struct TrustedTimeSource {
    /// The fabric's index.
    pub fab_idx: NonZeroU8,
    /// The node.
    pub node_id: u64,
    /// The endpoint.
    pub endpoint: u16,
}

/// The clock of an image.
///
/// ```
/// # fn perform(_: timesync::Effect) {}
/// # use timesync::{Controller, Refusal, TimeGranularity, TimeSource, UtcTime};
/// # fn main() -> Result<(), Refusal> {
/// let mut controller = Controller::new(None, 5, 3_600_000_000)?;
/// assert_eq!(controller.rtc().utc_time(100)?, UtcTime::LastKnown(5));
/// let set = controller.rtc_mut().set_utc_time(1000, TimeGranularity::Seconds, TimeSource::GNSS, 100);
/// let changed = set.carry_out(perform)?;
/// assert_eq!((changed, controller.rtc().utc_time(130)?), (true, UtcTime::Reliable(1030)));
/// # Ok(())
/// # }
/// ```
#[derive(Debug)]
pub struct Rtc<I> {
    image: I,
}

impl<I: AsRef<[u8]>> Rtc<I> {
    /// Over the bytes of an image. Each call is refused with BadLimits where they are not one.
    pub fn over(image: I) -> Self {
        Rtc { image }
    }

    /// The UTC time at a tick.
    pub fn utc_time(&self, tick: u64) -> Result<UtcTime, Refusal> {
        let (mut reliable, mut us) = (0, 0);
        answer(entry::utc_time(self.image.as_ref(), tick, &mut reliable, &mut us))?;
        Ok(if reliable != 0 {
            UtcTime::Reliable(us)
        } else {
            UtcTime::LastKnown(us)
        })
    }

    /// How fine the time is; NoTime until the clock is set.
    pub fn utc_time_granularity(&self) -> Result<TimeGranularity, Refusal> {
        let mut value = 0;
        answer(entry::utc_time_granularity(self.image.as_ref(), &mut value))?;
        Ok(TimeGranularity::from_number(value as u8).unwrap_or(TimeGranularity::NoTime))
    }

    /// Where the time comes from; None until the clock is set.
    pub fn utc_time_source(&self) -> Result<TimeSource, Refusal> {
        let mut value = 0;
        answer(entry::utc_time_source(self.image.as_ref(), &mut value))?;
        Ok(TimeSource::from_number(value as u8).unwrap_or(TimeSource::None))
    }

    /// The trusted time source, if there is one. A damaged image can hold one of fabric index 0, which is shown as none.
    pub fn trusted_time_source(&self) -> Result<Option<TrustedTimeSource>, Refusal> {
        let (mut there, mut fab_idx, mut node_id, mut endpoint) = (0, 0, 0, 0);
        answer(entry::trusted_time_source(
            self.image.as_ref(),
            &mut there,
            &mut fab_idx,
            &mut node_id,
            &mut endpoint,
        ))?;
        // where there is none, all four numbers are 0
        Ok(NonZeroU8::new(fab_idx as u8).map(|fab_idx| TrustedTimeSource {
            fab_idx,
            node_id,
            endpoint: endpoint as u16,
        }))
    }
}

impl<I: AsRef<[u8]> + AsMut<[u8]>> Rtc<I> {
    /// Sets the clock, which counts on from the tick, and stores nothing. The granularity is lowered one step, but not below Minutes.
    ///
    /// Answers whether moment, lowered granularity or source are not those of the last setting. Where they are, the clock is set and
    /// reported all the same:
    ///
    /// ```
    /// # use timesync::{AttributeId, Controller, Effect, Refusal, TimeGranularity, TimeSource, UtcTime};
    /// # fn main() -> Result<(), Refusal> {
    /// # let mut controller = Controller::new(None, 5, 3_600_000_000)?;
    /// for (tick, changed) in [(0, true), (600_000_000, false)] {
    ///     let set = controller.rtc_mut().set_utc_time(1000, TimeGranularity::Seconds, TimeSource::Admin, tick);
    ///     let mut reported = false;
    ///     let answer = set.carry_out(|effect| reported |= effect == Effect::Report(AttributeId::UTCTime))?;
    ///     assert_eq!((answer, reported), (changed, true));
    ///     assert_eq!(controller.rtc().utc_time(tick)?, UtcTime::Reliable(1000));
    /// }
    /// # Ok(())
    /// # }
    /// ```
    pub fn set_utc_time(&mut self, utc_us: u64, granularity: TimeGranularity, source: TimeSource, tick: u64) -> Outcome<'static, bool> {
        self.set(entry::rtc_set_utc_time, utc_us, granularity, source, tick)
    }

    /// The same, and has the moment stored where it is a day or more from the persisted one.
    pub fn set_utc_time_persist(
        &mut self,
        utc_us: u64,
        granularity: TimeGranularity,
        source: TimeSource,
        tick: u64,
    ) -> Outcome<'static, bool> {
        self.set(entry::rtc_set_utc_time_persist, utc_us, granularity, source, tick)
    }

    // a setting; the moment is what it stores, if it stores
    fn set(
        &mut self,
        set: fn(&mut [u8], u64, u8, u8, u64, &mut u64) -> u64,
        utc_us: u64,
        granularity: TimeGranularity,
        source: TimeSource,
        tick: u64,
    ) -> Outcome<'static, bool> {
        let mut changed = 0;
        let returned = set(
            self.image.as_mut(),
            utc_us,
            granularity.number(),
            source.number(),
            tick,
            &mut changed,
        );
        let carried = Carried {
            moment: utc_us,
            ..Carried::default()
        };
        Outcome::new(returned, changed != 0, carried)
    }

    /// Loads the clock from what flash holds of it. The moment never reads below the build moment. It asks for no effects. A stored source of
    /// fabric index 0 cannot be passed on: load the clock without it, so that its moment is not lost, and tell the administrator.
    pub fn load_persist(&mut self, build: u64, moment: Option<u64>, source: Option<TrustedTimeSource>) -> Result<(), Refusal> {
        answer(entry::load_clock(
            self.image.as_mut(),
            build,
            u8::from(moment.is_some()),
            moment.unwrap_or(0),
            u8::from(source.is_some()),
            source.map_or(0, |stored| stored.fab_idx.get()),
            source.map_or(0, |stored| stored.node_id),
            source.map_or(0, |stored| stored.endpoint),
        ))
    }

    /// Factory reset of the clock.
    pub fn reset_persist(&mut self, build: u64) -> Outcome<'static> {
        Outcome::new(entry::reset_clock(self.image.as_mut(), build), (), Carried::default())
    }
}
