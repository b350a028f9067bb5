//! The list store.

use core::fmt;

use crate::entry;
use crate::name::Name;
use crate::numbers::Refusal;
use crate::outcome::{answer, Carried, Outcome};
use crate::{MOMENTS_MAX, TIME_ZONE_NAME_MAX};

/// The moments walked, ascending and the starting moment first.
///
/// ```
/// # fn perform(_: timesync::Effect) {}
/// # use timesync::{encode_dst_offsets, Controller, DSTOffsetEntry, Limits, Refusal, RECORD_MAX};
/// # fn main() -> Result<(), Refusal> {
/// # let mut controller = Controller::new(Some(Limits::DEVICE), 0, 0)?;
/// let window = DSTOffsetEntry { offset: 3600, valid_starting: 10, valid_until: Some(20) };
/// # let (mut request, mut record) = ([0; 64], [0; RECORD_MAX]);
/// # let request = encode_dst_offsets(&[window], &mut request)?;
/// # controller.handler_mut().handle_set_dst_offset(request, &mut record).carry_out(perform)?;
/// let walk = controller.store().walk(5)?;
/// assert_eq!((walk.steps(), walk.moments()), (2, &[5, 10, 20][..]));
/// assert_eq!(format!("{walk:?}"), "Walk([5, 10, 20])");
/// # Ok(())
/// # }
/// ```
#[derive(Clone, Copy)]
pub struct Walk {
    moments: [u64; MOMENTS_MAX],
    steps: usize,
}

impl Walk {
    /// Of the moments as they are copied, 8 bytes each.
    pub(crate) fn read(bytes: &[u8; 8 * MOMENTS_MAX], steps: u64) -> Self {
        let mut moments = [0; MOMENTS_MAX];
        for (moment, chunk) in moments.iter_mut().zip(bytes.chunks_exact(8)) {
            let mut le = [0; 8];
            le.copy_from_slice(chunk);
            *moment = u64::from_le_bytes(le);
        }
        Walk {
            moments,
            steps: steps.min(MOMENTS_MAX as u64 - 1) as usize,
        }
    }

    /// How many steps it took.
    pub fn steps(&self) -> usize {
        self.steps
    }

    /// The moments: one more than there are steps.
    pub fn moments(&self) -> &[u64] {
        self.moments.get(..=self.steps).unwrap_or(&[])
    }
}

impl PartialEq for Walk {
    fn eq(&self, other: &Self) -> bool {
        self.moments() == other.moments()
    }
}

impl Eq for Walk {}

impl fmt::Debug for Walk {
    fn fmt(&self, f: &mut fmt::Formatter<'_>) -> fmt::Result {
        f.debug_tuple("Walk").field(&self.moments()).finish()
    }
}

/// The list store of an image. Where it has none, readings are refused with AttributeNotFound, and load and reset do nothing.
///
/// ```
/// # use timesync::{Controller, Effect, Limits, Refusal};
/// # fn main() -> Result<(), Refusal> {
/// let mut controller = Controller::new(Some(Limits::DEVICE), 0, 0)?;
/// // no zones, and one window from moment 10 to moment 20
/// let flash = [0, 1, 0x10, 0x0E, 0, 0, 10, 0, 0, 0, 0, 0, 0, 0, 1, 20, 0, 0, 0, 0, 0, 0, 0];
/// controller.store_mut().load_persist(Some(&flash))?;
/// let store = controller.store();
/// assert_eq!((store.active_dst_offset(5)?, store.dst_usable(5)?), (None, true)); // before the window
/// assert_eq!((store.active_dst_offset(10)?, store.dst_usable(10)?), (Some(3600), true)); // inside it
/// assert_eq!((store.active_dst_offset(20)?, store.dst_usable(20)?), (None, false)); // run out
/// # Ok(())
/// # }
/// ```
#[derive(Debug)]
pub struct TimeZoneStore<I> {
    image: I,
}

impl<I: AsRef<[u8]>> TimeZoneStore<I> {
    /// Over the bytes of an image. Each call is refused with BadLimits where they are not one.
    pub fn over(image: I) -> Self {
        TimeZoneStore { image }
    }

    /// The offset and the name of the zone that is active at a moment; 0 and no name where there is none.
    pub fn active_time_zone(&self, now: u64) -> Result<(i32, Option<Name>), Refusal> {
        let mut name = [0; TIME_ZONE_NAME_MAX];
        let (mut offset, mut named, mut len) = (0, 0, 0);
        answer(entry::active_time_zone(
            self.image.as_ref(),
            now,
            &mut name,
            &mut offset,
            &mut named,
            &mut len,
        ))?;
        Ok((offset, Name::read(name, named, len)))
    }

    /// The offset of the window that is active at a moment, if one is.
    pub fn active_dst_offset(&self, now: u64) -> Result<Option<i32>, Refusal> {
        let (mut there, mut offset) = (0, 0);
        answer(entry::active_dst_offset(self.image.as_ref(), now, &mut there, &mut offset))?;
        Ok((there != 0).then_some(offset))
    }

    /// Whether there is no window at all.
    pub fn dst_table_empty(&self) -> Result<bool, Refusal> {
        let mut value = 0;
        answer(entry::dst_table_empty(self.image.as_ref(), &mut value))?;
        Ok(value != 0)
    }

    /// Whether some window is open or ends after a moment.
    pub fn dst_usable(&self, now: u64) -> Result<bool, Refusal> {
        let mut value = 0;
        answer(entry::dst_usable(self.image.as_ref(), now, &mut value))?;
        Ok(value != 0)
    }

    /// The smallest start or end after a moment, if there is one.
    pub fn next_transition(&self, now: u64) -> Result<Option<u64>, Refusal> {
        let (mut there, mut moment) = (0, 0);
        answer(entry::next_transition(self.image.as_ref(), now, &mut there, &mut moment))?;
        Ok((there != 0).then_some(moment))
    }

    /// How many changes of the lists there were; after the largest number it starts over.
    pub fn generation(&self) -> Result<u32, Refusal> {
        let mut value = 0;
        answer(entry::generation(self.image.as_ref(), &mut value))?;
        Ok(value as u32)
    }

    /// From a moment on to the next transition, until there is none. Over accepted lists it takes at most
    /// zone limit + 2 × window limit − 1 steps.
    pub fn walk(&self, start: u64) -> Result<Walk, Refusal> {
        let mut bytes = [0; 8 * MOMENTS_MAX];
        let mut steps = 0;
        answer(entry::walk(self.image.as_ref(), start, &mut bytes, &mut steps))?;
        Ok(Walk::read(&bytes, steps))
    }

    /// Copies the record of both lists to the front of `out`, and answers its length. [`RECORD_MAX`](crate::RECORD_MAX) bytes always
    /// suffice; refused with NoSpace where it does not fit.
    pub fn record(&self, out: &mut [u8]) -> Result<usize, Refusal> {
        let mut used = 0;
        answer(entry::record(self.image.as_ref(), out, &mut used))?;
        Ok(used as usize)
    }
}

impl<I: AsRef<[u8]> + AsMut<[u8]>> TimeZoneStore<I> {
    /// Loads the lists from the record that flash holds, if it holds one. No change is counted, and it asks for no effects: the timer is not
    /// woken. Refused with BadRecord where the record cannot be read or would not be accepted, and then the lists stay as they were.
    pub fn load_persist(&mut self, stored: Option<&[u8]>) -> Result<(), Refusal> {
        answer(entry::load_lists(
            self.image.as_mut(),
            u8::from(stored.is_some()),
            stored.unwrap_or(&[]),
        ))
    }

    /// Factory reset of the lists.
    pub fn reset_persist(&mut self) -> Outcome<'static> {
        Outcome::new(entry::reset_lists(self.image.as_mut()), (), Carried::default())
    }
}
