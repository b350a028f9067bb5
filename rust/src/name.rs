//! The name of a zone.

use core::fmt;
use core::ops::Deref;
use core::str::from_utf8;

use crate::TIME_ZONE_NAME_MAX;

/// The name of a zone, at most [`TIME_ZONE_NAME_MAX`] bytes. It is used as a `&str`.
///
/// ```
/// # fn perform(_: timesync::Effect) {}
/// # use timesync::{encode_time_zones, Controller, Limits, Refusal, TimeZoneEntry, RECORD_MAX};
/// # fn main() -> Result<(), Refusal> {
/// # let mut controller = Controller::new(Some(Limits::DEVICE), 0, 0)?;
/// # let berlin = TimeZoneEntry { offset: 3600, valid_at: 0, name: Some("Europe/Berlin") };
/// # let (mut request, mut record) = ([0; 64], [0; RECORD_MAX]);
/// # let request = encode_time_zones(&[berlin], &mut request)?;
/// # controller.handler_mut().handle_set_time_zone(request, &mut record).carry_out(perform)?;
/// let (_, name) = controller.store().active_time_zone(5)?;
/// assert_eq!(name.as_deref(), Some("Europe/Berlin"));
/// # Ok(())
/// # }
/// ```
#[derive(Clone, Copy)]
pub struct Name {
    bytes: [u8; TIME_ZONE_NAME_MAX],
    len: u8,
}

impl Name {
    /// The name in these bytes, where it is there.
    pub(crate) fn read(bytes: [u8; TIME_ZONE_NAME_MAX], named: u64, len: u64) -> Option<Self> {
        (named != 0).then_some(Name {
            bytes,
            len: len.min(TIME_ZONE_NAME_MAX as u64) as u8,
        })
    }

    /// Its bytes.
    pub fn as_bytes(&self) -> &[u8] {
        self.bytes.get(..usize::from(self.len)).unwrap_or(&[])
    }

    /// Its text. The commands accept well-formed UTF-8 alone; of a damaged image's bytes it is the longest well-formed part at the front.
    pub fn as_str(&self) -> &str {
        let bytes = self.as_bytes();
        let whole = match from_utf8(bytes) {
            Ok(text) => return text,
            Err(error) => error.valid_up_to(),
        };
        bytes.get(..whole).and_then(|front| from_utf8(front).ok()).unwrap_or("")
    }
}

impl Deref for Name {
    type Target = str;

    fn deref(&self) -> &str {
        self.as_str()
    }
}

impl PartialEq for Name {
    fn eq(&self, other: &Self) -> bool {
        self.as_bytes() == other.as_bytes()
    }
}

impl Eq for Name {}

impl fmt::Display for Name {
    fn fmt(&self, f: &mut fmt::Formatter<'_>) -> fmt::Result {
        f.pad(self.as_str())
    }
}

impl fmt::Debug for Name {
    fn fmt(&self, f: &mut fmt::Formatter<'_>) -> fmt::Result {
        fmt::Debug::fmt(self.as_str(), f)
    }
}
