//! Granularities, time sources, refusals, attributes and events, with their numbers.

use core::error::Error;
use core::fmt;

macro_rules! numbered {
    ($(#[$doc:meta])* $name:ident { $($(#[$each:meta])* $variant:ident = $number:literal,)* }) => {
        $(#[$doc])*
        #[derive(Debug, Clone, Copy, PartialEq, Eq, Hash)]
        #[repr(u8)]
        pub enum $name {
            $($(#[$each])* $variant = $number,)*
        }

        impl $name {
            /// Every one, by rising number.
            pub const ALL: &'static [Self] = &[$(Self::$variant,)*];

            /// Its number.
            pub const fn number(self) -> u8 {
                self as u8
            }

            /// The one that has this number.
            pub const fn from_number(number: u8) -> Option<Self> {
                match number {
                    $($number => Some(Self::$variant),)*
                    _ => None,
                }
            }
        }
    };
}

numbered! {
    /// How fine the clock's time is.
    ///
    /// ```
    /// use timesync::TimeGranularity;
    ///
    /// assert_eq!(TimeGranularity::from_number(2), Some(TimeGranularity::Seconds));
    /// assert_eq!(TimeGranularity::from_number(5), None);
    /// ```
    TimeGranularity {
        /// The time is not known.
        NoTime = 0,
        /// Minutes.
        Minutes = 1,
        /// Seconds.
        Seconds = 2,
        /// Milliseconds.
        Milliseconds = 3,
        /// Microseconds.
        Microseconds = 4,
    }
}

numbered! {
    /// Where the clock's time comes from.
    ///
    /// ```
    /// use timesync::TimeSource;
    ///
    /// assert_eq!((TimeSource::GNSS.number(), TimeSource::ALL.len()), (16, 17));
    /// ```
    TimeSource {
        /// Nowhere: the clock is not set.
        None = 0,
        /// Some other source.
        Unknown = 1,
        /// An administrator's command.
        Admin = 2,
        /// The Time Synchronization cluster of another node.
        NodeTimeCluster = 3,
        /// SNTP, not from a Matter node.
        NonMatterSNTP = 4,
        /// NTP, not from a Matter node.
        NonMatterNTP = 5,
        /// SNTP from a Matter node.
        MatterSNTP = 6,
        /// NTP from a Matter node.
        MatterNTP = 7,
        /// NTP from Matter nodes and others.
        MixedNTP = 8,
        /// SNTP with NTS, not from a Matter node.
        NonMatterSNTPNTS = 9,
        /// NTP with NTS, not from a Matter node.
        NonMatterNTPNTS = 10,
        /// SNTP with NTS from a Matter node.
        MatterSNTPNTS = 11,
        /// NTP with NTS from a Matter node.
        MatterNTPNTS = 12,
        /// NTP with NTS from Matter nodes and others.
        MixedNTPNTS = 13,
        /// A vendor's cloud.
        CloudSource = 14,
        /// PTP.
        PTP = 15,
        /// A satellite system.
        GNSS = 16,
    }
}

numbered! {
    /// Why a call is turned down.
    ///
    /// ```
    /// # use std::error::Error;
    /// # use timesync::{Controller, Limits, Refusal};
    /// fn boot() -> Result<Controller, Box<dyn Error>> {
    ///     let limits = Limits { time_zone_max: 9, ..Limits::LARGEST };
    ///     Ok(Controller::new(Some(limits), 0, 3_600_000_000)?)
    /// }
    /// let said = boot().unwrap_err().to_string();
    /// assert_eq!(said, "bad limits: the limits are not allowed, or the bytes are not an image (8)");
    /// ```
    Refusal {
        /// A request or a history that cannot be read, or a number out of range.
        Unreadable = 1,
        /// An entry breaks a rule, or an index is past the list.
        ConstraintError = 2,
        /// There are more entries than the limit.
        ResourceExhausted = 3,
        /// Fabric index 0.
        InvalidCommand = 4,
        /// A command on the lists, and there is no list store.
        CommandNotFound = 5,
        /// A reading of the lists, and there is no list store.
        AttributeNotFound = 6,
        /// A record in flash that cannot be read, or that is not taken here.
        BadRecord = 7,
        /// Limits that are not allowed, or bytes that are not an image.
        BadLimits = 8,
        /// An output buffer is shorter than what is copied into it.
        NoSpace = 9,
    }
}

impl fmt::Display for Refusal {
    fn fmt(&self, f: &mut fmt::Formatter<'_>) -> fmt::Result {
        let why = match self {
            Refusal::Unreadable => "unreadable: the request cannot be read, or a number in it names nothing",
            Refusal::ConstraintError => "constraint error: an entry breaks a rule, or an index is past the list",
            Refusal::ResourceExhausted => "resource exhausted: there are more entries than the limit",
            Refusal::InvalidCommand => "invalid command: no fabric has index 0",
            Refusal::CommandNotFound => "command not found: there is no list store",
            Refusal::AttributeNotFound => "attribute not found: there is no list store",
            Refusal::BadRecord => "bad record: what flash holds cannot be read or is not taken",
            Refusal::BadLimits => "bad limits: the limits are not allowed, or the bytes are not an image",
            Refusal::NoSpace => "no space: an output buffer is too short",
        };
        write!(f, "{why} ({})", self.number())
    }
}

impl Error for Refusal {}

numbered! {
    /// Attributes that are reported, with Matter's numbers.
    ///
    /// ```
    /// assert_eq!(timesync::AttributeId::DSTOffset.number(), 6);
    /// ```
    AttributeId {
        /// UTCTime.
        UTCTime = 0,
        /// Granularity.
        Granularity = 1,
        /// TimeSource.
        TimeSource = 2,
        /// TrustedTimeSource.
        TrustedTimeSource = 3,
        /// TimeZone.
        TimeZone = 5,
        /// DSTOffset.
        DSTOffset = 6,
    }
}

numbered! {
    /// Events that are emitted, with Matter's numbers.
    ///
    /// ```
    /// assert_eq!(timesync::EventId::DSTTableEmpty.number(), 0);
    /// ```
    EventId {
        /// No window is usable any more.
        DSTTableEmpty = 0,
        /// A window became active or inactive.
        DSTStatus = 1,
        /// The active zone's offset changed.
        TimeZoneStatus = 2,
        /// An attempt got no time.
        TimeFailure = 3,
        /// There is no trusted time source, or it does not answer.
        MissingTrustedTimeSource = 4,
    }
}
