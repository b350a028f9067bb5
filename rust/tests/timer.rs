//! The timer's looks: which events are due, what they carry, and how long it sleeps.

mod common;

use common::{made, prepared, taken, windows, zones, Call, Lent, Library, DAY};
use timesync::EffectCode::Emit;
use timesync::EventId;

/// Sets the clock to the moment 0 at the tick 0: from then on a tick is its moment.
fn at_zero() -> Call {
    Call::RtcSet(0, 4, 2, 0)
}

/// An image with these lists and a clock on which a tick is its moment.
fn listed(zone_list: &[(i32, u64, Option<&str>)], window_list: &[(i32, u64, Option<u64>)]) -> Vec<u8> {
    prepared(
        made(Some((2, 2))),
        &[
            Call::SetTimeZone(zones(zone_list)),
            Call::SetDstOffset(windows(window_list)),
            at_zero(),
        ],
    )
}

fn day(d: u64) -> Call {
    Call::Look(d * DAY)
}

/// Zones at 0, 30 and 60 days; windows from 10 to 20 days and from 40 to 60; the clock is not set.
fn two_windows() -> Vec<u8> {
    let window_list = windows(&[(3600, 10 * DAY, Some(20 * DAY)), (1800, 40 * DAY, Some(60 * DAY))]);
    prepared(
        made(Some((3, 2))),
        &[Call::SetTimeZone(three_zones()), Call::SetDstOffset(window_list)],
    )
}

fn three_zones() -> Vec<u8> {
    zones(&[(3600, 0, Some("A")), (7200, 30 * DAY, None), (-3600, 60 * DAY, Some("C"))])
}

#[test]
fn first_looks() {
    // the clock is not set: until woken, and nothing is seen
    let image = two_windows();
    let (effects, lent) = taken(&image, day(1));
    assert_eq!((effects, lent.n), (vec![], [0, 0, 0, 1, 0]));
    assert!(lent.image == image);
    // the first look on a set clock is silent outside a window, and tells an active one
    let image = prepared(image, &[at_zero()]);
    let (effects, first) = taken(&image, day(1));
    assert_eq!((effects, first.n), (vec![], [0, 0, 0, 2, 9 * DAY + 100_000]));
    let (effects, active) = taken(&image, day(10));
    assert_eq!(effects, [Emit(EventId::DSTStatus)]);
    assert_eq!(active.n, [0, 0, 1, 2, 10 * DAY + 100_000]);
    // no list store
    assert_eq!(taken(&prepared(made(None), &[at_zero()]), day(1)).1.n, [0, 0, 0, 0, 0]);
}

#[test]
fn looks_one_after_the_other() {
    let (_, active) = taken(&prepared(two_windows(), &[at_zero()]), day(10));
    // a second look with nothing changed is silent
    assert_eq!(taken(&active.image, day(10)).0, []);
    // the window ends; another one is still to come
    let (effects, ended) = taken(&active.image, day(20));
    assert_eq!(
        (effects, ended.n),
        (vec![Emit(EventId::DSTStatus)], [0, 0, 0, 2, 10 * DAY + 100_000])
    );
    // a zone with no name
    let (effects, zone) = taken(&ended.image, day(30));
    assert_eq!((effects, zone.offset), (vec![Emit(EventId::TimeZoneStatus)], 7200));
    assert_eq!(zone.n, [0, 0, 0, 2, 10 * DAY + 100_000]);
    assert!(zone.out.iter().all(|b| *b == 0xA5));
    // everything at once: the zone changes, the window ends and none is usable
    let (_, inside) = taken(&zone.image, day(40));
    let (effects, last) = taken(&inside.image, day(60));
    let all = [EventId::TimeZoneStatus, EventId::DSTStatus, EventId::DSTTableEmpty];
    assert_eq!(effects, all.map(Emit));
    assert_eq!((last.offset, last.n), (-3600, [1, 1, 0, 1, 0]));
    assert_eq!((last.out[0], last.out[1]), (b'C', 0xA5));
}

#[test]
fn a_command_empties_the_table() {
    let (_, first) = taken(&prepared(two_windows(), &[at_zero()]), day(1));
    let cleared = prepared(first.image, &[Call::SetTimeZone(three_zones())]);
    assert_eq!(taken(&cleared, day(1)).0, [Emit(EventId::DSTTableEmpty)]);
}

#[test]
fn a_look_on_an_unset_clock_keeps_what_was_seen() {
    let (effects, seen) = taken(&listed(&[(3600, 0, None)], &[]), Call::Look(1));
    assert_eq!((effects, seen.n), (vec![], [0, 0, 0, 1, 0]));
    // the zone becomes another one while the clock is not set: nothing is told, and nothing forgotten
    let request = zones(&[(7200, 0, Some("B"))]);
    let unset = prepared(seen.image, &[Call::ResetClock(0), Call::SetTimeZone(request)]);
    let (effects, waiting) = taken(&unset, Call::Look(2));
    assert_eq!((effects, waiting.n), (vec![], [0, 0, 0, 1, 0]));
    assert!(waiting.image == unset);
    // told once the clock is set
    let (effects, told) = taken(&prepared(waiting.image, &[at_zero()]), Call::Look(3));
    assert_eq!(
        (effects, told.offset, told.n),
        (vec![Emit(EventId::TimeZoneStatus)], 7200, [1, 1, 0, 1, 0])
    );
    assert_eq!(told.out[..2], [b'B', 0xA5]);
}

#[test]
fn another_name_is_no_event() {
    let image = listed(&[(3600, 0, Some("A")), (3600, 10, Some("B"))], &[]);
    let (effects, first) = taken(&image, Call::Look(5));
    assert_eq!((effects, first.n), (vec![], [0, 0, 0, 2, 100_005]));
    // by a transition
    let (effects, second) = taken(&first.image, Call::Look(15));
    assert_eq!((effects, second.offset, second.n), (vec![], 0, [0, 0, 0, 1, 0]));
    assert!(second.out.iter().all(|b| *b == 0xA5));
    // by a command
    for name in [None, Some(""), Some("C")] {
        let request = zones(&[(3600, 0, name)]);
        let renamed = prepared(second.image.clone(), &[Call::SetTimeZone(request)]);
        assert_eq!(taken(&renamed, Call::Look(16)).0, [], "{name:?}");
    }
}

#[test]
fn adjacent_windows() {
    let image = listed(&[], &[(3600, 0, Some(10)), (1800, 10, Some(20))]);
    let (effects, first) = taken(&image, Call::Look(5));
    assert_eq!((effects, first.n), (vec![Emit(EventId::DSTStatus)], [0, 0, 1, 2, 100_005]));
    // another offset, but a window is active as before
    let (effects, second) = taken(&first.image, Call::Look(15));
    assert_eq!((effects, second.n), (vec![], [0, 0, 0, 2, 100_005]));
}

#[test]
fn a_refused_command_empties_the_table_once() {
    let (effects, usable) = taken(&listed(&[], &[(3600, 10, Some(20))]), Call::Look(5));
    assert_eq!((effects, usable.n), (vec![], [0, 0, 0, 2, 100_005]));
    let mut refused = Lent::new(&usable.image, 962);
    let request = windows(&[(0, 5, Some(5))]);
    assert_eq!(Library::new().held(&Call::SetDstOffset(request), &mut refused), 0x3002);
    // told by the next look, and by no later one
    let (effects, empty) = taken(&refused.image, Call::Look(6));
    assert_eq!((effects, empty.n), (vec![Emit(EventId::DSTTableEmpty)], [0, 0, 0, 1, 0]));
    let (effects, later) = taken(&empty.image, Call::Look(7));
    assert_eq!((effects, later.n), (vec![], [0, 0, 0, 1, 0]));
}

#[test]
fn the_longest_sleep() {
    // held at the largest number, which is not until woken
    for (start, sleep) in [
        (u64::MAX, u64::MAX),
        (u64::MAX - 99_999, u64::MAX),
        (u64::MAX - 100_000, u64::MAX),
        (u64::MAX - 100_001, u64::MAX - 1),
    ] {
        let by_zone = listed(&[(0, 0, None), (3600, start, None)], &[]);
        assert_eq!(taken(&by_zone, Call::Look(0)).1.n, [0, 0, 0, 2, sleep]);
        let by_window = listed(&[], &[(3600, start, None)]);
        assert_eq!(taken(&by_window, Call::Look(0)).1.n, [0, 0, 0, 2, sleep]);
    }
}

#[test]
fn a_window_inside_the_margin_is_never_seen() {
    let image = listed(&[(0, 0, None)], &[(3600, 1000, Some(2000))]);
    let (effects, before) = taken(&image, Call::Look(500));
    assert_eq!((effects, before.n), (vec![], [0, 0, 0, 2, 100_500]));
    // it came and went: it was never seen active
    let (effects, after) = taken(&before.image, Call::Look(101_000));
    assert_eq!((effects, after.n), (vec![Emit(EventId::DSTTableEmpty)], [0, 0, 0, 1, 0]));
}
