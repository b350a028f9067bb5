//! Every order of mistakes: all short lists whose entries are good or have one mistake each.
use oracle::driver::{RequestPart, WindowArg, ZoneArg};
use timesync::{Limits, TIME_ZONE_NAME_MAX};

use crate::cases::Case;
use crate::list::{self, List, FIELDS};
use crate::pair::Step;

/// The largest limit here, and how many entries past it a list has at most
const LIMIT: usize = 3;
const PAST: usize = 2;
/// The bytes of names: short, past their limit, and past what a byte counts
const NAME: usize = 3;
const LONG: usize = TIME_ZONE_NAME_MAX + 1;
const LONGER: usize = 300;
/// One second more than an offset may have
const OFFSET: i32 = 14 * 3600 + 1;

/// What an entry is like
#[derive(Clone, Copy)]
enum Kind {
    Good,
    Undecodable,
    UndecodableField,
    /// The first zone starts after 0, a later one at 0
    WrongStart,
    /// A zone starts with the one before
    SameStart,
    LargeOffset,
    LongName,
    LongerName,
    /// A window has no end
    Open,
    /// A window ends where it starts
    NoTime,
    /// A window starts before the one before has ended
    Overlap,
}

const ZONES: &[Kind] = &[
    Kind::Good,
    Kind::Undecodable,
    Kind::UndecodableField,
    Kind::WrongStart,
    Kind::SameStart,
    Kind::LargeOffset,
    Kind::LongName,
    Kind::LongerName,
];
const WINDOWS: &[Kind] =
    &[Kind::Good, Kind::Undecodable, Kind::UndecodableField, Kind::Open, Kind::NoTime, Kind::Overlap];

fn zone((index, kind): (usize, &Kind)) -> ZoneArg {
    let good = list::zone(index, NAME);
    match kind {
        Kind::WrongStart => ZoneArg { valid_at: u64::from(index == 0), ..good },
        Kind::SameStart => ZoneArg { valid_at: list::zone(index.saturating_sub(1), NAME).valid_at, ..good },
        Kind::LargeOffset => ZoneArg { offset: OFFSET, ..good },
        Kind::LongName => list::zone(index, LONG),
        Kind::LongerName => list::zone(index, LONGER),
        _ => good,
    }
}

fn window((index, kind): (usize, &Kind)) -> WindowArg {
    let good = list::window(index);
    match kind {
        Kind::Open => WindowArg { valid_until: None, ..good },
        Kind::NoTime => WindowArg { valid_until: Some(good.valid_starting), ..good },
        Kind::Overlap => WindowArg { valid_starting: list::window(index.saturating_sub(1)).valid_starting + 1, ..good },
        _ => good,
    }
}

fn zones(kinds: &[Kind]) -> List {
    List::Zones(kinds.iter().enumerate().map(zone).collect())
}

fn windows(kinds: &[Kind]) -> List {
    List::Windows(kinds.iter().enumerate().map(window).collect())
}

fn unreadable((index, kind): (usize, &Kind)) -> Option<RequestPart> {
    match kind {
        Kind::Undecodable => Some(RequestPart::Entry(index)),
        Kind::UndecodableField => Some(RequestPart::Field(index, index as u8 % FIELDS)),
        _ => None,
    }
}

/// These kinds in every order, so many of them
fn orders(kinds: &'static [Kind], len: usize) -> impl Iterator<Item = Vec<Kind>> {
    let count = kinds.len();
    (0..count.pow(len as u32)).map(move |code| (0..len).map(|at| kinds[code / count.pow(at as u32) % count]).collect())
}

/// Every list of these kinds, sent to devices that have a zone and a window; one part at most cannot be decoded
fn cases(limit: usize, kinds: &'static [Kind], list: fn(&[Kind]) -> List) -> impl Iterator<Item = Case> {
    let limits = Limits { time_zone_max: limit, dst_offset_max: limit };
    (0..=limit + PAST).flat_map(move |len| orders(kinds, len)).filter_map(move |kinds| {
        let mut parts = kinds.iter().enumerate().filter_map(unreadable);
        let (part, more) = (parts.next(), parts.next());
        let (zone, window) = (List::Zones(list::zones(1, NAME)), List::Windows(list::windows(1)));
        let steps =
            vec![Step::Utc(0, 4), Step::Set(zone, None), Step::Set(window, None), Step::Set(list(&kinds), part)];
        more.is_none().then(|| Case::new(limits, steps))
    })
}

pub fn every_order() -> impl Iterator<Item = Case> {
    (1..=LIMIT).flat_map(|limit| cases(limit, ZONES, zones).chain(cases(limit, WINDOWS, windows)))
}
