//! Images to start from, and calls to try on them.

use super::calls::{Call, Lent, Library};
use super::{windows, zones};
use timesync::entry;

pub const HOUR: u64 = 3_600_000_000;
pub const DAY: u64 = 24 * HOUR;

/// A new image of the library: with a list store of these limits, or with none.
pub fn made(limits: Option<(usize, usize)>) -> Vec<u8> {
    let mut image = vec![0x5A; timesync::IMAGE_SIZE];
    let (zones, windows) = limits.unwrap_or((0, 0));
    assert_eq!(
        entry::new(&mut image, u8::from(limits.is_some()), zones, windows, 7 * DAY, 10 * 60_000_000),
        0
    );
    image
}

/// Runs calls that must be taken.
pub fn prepared(mut image: Vec<u8>, calls: &[Call]) -> Vec<u8> {
    let mut library = Library::new();
    for call in calls {
        let mut lent = Lent::new(&image, 962);
        assert_eq!(library.call(call, &mut lent) & 0xFF, 0, "{call:?}");
        image = lent.image;
    }
    image
}

/// Three zones, two of them named, and two windows, the second open; a set clock, a trusted source, a timer that has looked.
pub fn busy() -> Vec<u8> {
    prepared(
        made(Some((3, 2))),
        &[
            Call::SetTimeZone(zones(&[
                (3600, 0, Some("Europe/Berlin")),
                (7200, 30 * DAY, None),
                (-3600, 60 * DAY, Some("")),
            ])),
            Call::SetDstOffset(windows(&[(3600, 10 * DAY, Some(20 * DAY)), (1800, 40 * DAY, None)])),
            Call::SetTrustedTimeSource(2, 1, 0x1122_3344_5566_7788, 0x1234),
            Call::RtcSet(12 * DAY, 4, 16, 1000),
            Call::Look(1000),
            Call::Attempt(0, 0, 0, 0, 0, 2000),
        ],
    )
}

/// Limits 8 and 16 with every entry in use, at a minute to each; the names have 64 bytes.
pub fn full() -> Vec<u8> {
    let clock = Call::RtcSet(1, 4, 2, 0);
    prepared(made(Some((8, 16))), &[Call::LoadLists(1, lists_of(8, 16)), clock, Call::Look(0)])
}

/// A record of so many zones and windows that the rules accept.
pub fn lists_of(zone_count: u64, window_count: u64) -> Vec<u8> {
    [zones_of(zone_count), windows_of(window_count)].concat()
}

fn zones_of(count: u64) -> Vec<u8> {
    let name = "n".repeat(64);
    zones(
        &(0..count)
            .map(|i| (i as i32, i * 60_000_000, Some(name.as_str())))
            .collect::<Vec<_>>(),
    )
}

fn windows_of(count: u64) -> Vec<u8> {
    let minute = |i: u64| i * 60_000_000;
    windows(&(0..count).map(|i| (i as i32, minute(i), Some(minute(i) + 7))).collect::<Vec<_>>())
}

/// A call of each kind, most with more than one argument.
pub fn every_call() -> Vec<Call> {
    let mut calls = plain_calls();
    calls.extend(clock_calls());
    calls.extend(list_calls());
    for utc in [0, 7 * DAY, 12 * DAY, 20 * DAY, 35 * DAY, u64::MAX] {
        calls.extend([
            Call::DstUsable(utc),
            Call::ActiveTimeZone(utc),
            Call::ActiveDstOffset(utc),
            Call::NextTransition(utc),
            Call::Walk(utc),
            Call::RtcSet(utc, 3, 0, utc),
            Call::RtcSetPersist(utc, 2, 16, 3),
        ]);
    }
    for tick in [0, 1000, 9 * DAY, 29 * DAY, u64::MAX] {
        calls.extend([
            Call::UtcTime(tick),
            Call::LocalTime(tick),
            Call::Look(tick),
            Call::Attempt(0, 1, tick, 1, 1, tick),
            Call::Attempt(1, 1, tick, 1, 200, tick),
            Call::Attempt(2, 3, 12 * DAY, 4, 4, tick),
            Call::Attempt(1, 0, 1, 0, 0, tick),
            Call::Attempt(1, 1, 1, 1, 0, tick),
        ]);
    }
    for index in [0, 1, 2, 3, 7, 8, 15, 16, usize::MAX] {
        calls.extend([Call::TimeZone(index), Call::DstOffset(index)]);
    }
    calls
}

fn plain_calls() -> Vec<Call> {
    vec![
        Call::ResetLists,
        Call::ResetClock(9 * DAY),
        Call::Granularity,
        Call::TimeSource,
        Call::TrustedTimeSource,
        Call::TimeZoneCount,
        Call::DstOffsetCount,
        Call::TimeZoneListMaxSize,
        Call::DstOffsetListMaxSize,
        Call::TimeZoneDatabase,
        Call::Generation,
        Call::DstTableEmpty,
        Call::Record,
        Call::SourceChanged,
    ]
}

fn clock_calls() -> Vec<Call> {
    vec![
        Call::SetUtcTime(12 * DAY, 4, 0, 99, 5000),
        Call::SetUtcTime(50 * DAY, 0, 9, 16, 0),
        Call::SetUtcTime(0, 5, 0, 0, 0),
        Call::SetUtcTime(0, 1, 1, 17, 0),
        Call::SetTrustedTimeSource(0, 1, 1, 1),
        Call::SetTrustedTimeSource(2, 1, 0x1122_3344_5566_7788, 0x1234),
        Call::SetTrustedTimeSource(255, 255, u64::MAX, u16::MAX),
        Call::SetTrustedTimeSource(1, 0, 5, 5),
        Call::LoadClock(5, 1, 4, 1, 3, 4, 5),
        Call::LoadClock(5, 0, 4, 0, 0, 4, 5),
        Call::LoadClock(5, 2, 6, 2, 0, 4, 5),
        Call::RtcSet(1, 5, 0, 0),
        Call::RtcSetPersist(1, 4, 17, 0),
    ]
}

fn list_calls() -> Vec<Call> {
    vec![
        Call::SetTimeZone(zones(&[])),
        Call::SetTimeZone(zones(&[(-43200, 0, Some("Ä/Ö")), (50400, u64::MAX, None)])),
        Call::SetTimeZone(zones(&[(0, 1, None)])),
        Call::SetTimeZone(vec![1, 2, 3]),
        Call::SetTimeZone(zones(&[(1, 0, None), (2, 1, None), (3, 2, None), (4, 3, None)])),
        Call::SetDstOffset(windows(&[])),
        Call::SetDstOffset(windows(&[(i32::MIN, 0, Some(u64::MAX))])),
        Call::SetDstOffset(windows(&[(1, 1, None), (1, 2, None)])),
        Call::SetDstOffset(windows(&[(1, 1, Some(2)), (1, 2, Some(3)), (1, 3, Some(4))])),
        Call::SetDstOffset(vec![]),
        Call::LoadLists(0, vec![9]),
        Call::LoadLists(1, vec![]),
        Call::LoadLists(7, [zones(&[(5, 0, Some("x"))]), windows(&[(6, 7, None)])].concat()),
        Call::LoadLists(1, [zones(&[(5, 1, None)]), windows(&[])].concat()),
        // as many entries as there are places, and one more
        Call::SetTimeZone(zones_of(8)),
        Call::SetTimeZone(zones_of(9)),
        Call::SetDstOffset(windows_of(16)),
        Call::SetDstOffset(windows_of(17)),
        Call::LoadLists(1, lists_of(8, 16)),
        Call::LoadLists(1, lists_of(9, 16)),
        Call::LoadLists(1, lists_of(8, 17)),
    ]
}
