//! Each refusal at an entry where it can occur, and which comes first where two apply.

mod common;

use common::reference::image::{GENERATION, IMAGE_SIZE, WINDOW_COUNT};
use common::{busy, made, windows, zones, Call, Lent, Library, DAY};
use timesync::entry;

/// The number of the answer; where it is a refusal, nothing that was lent may have changed.
fn number(image: &[u8], room: usize, call: Call) -> u64 {
    let before = Lent::new(image, room);
    let mut lent = before.clone();
    let returned = Library::new().held(&call, &mut lent);
    if returned & 0xFF != 0 {
        assert!(lent == before, "{call:?}");
        assert_eq!(returned >> 8, 0, "{call:?}");
    }
    returned & 0xFF
}

/// An image that has lost its magic.
fn without_magic(mut image: Vec<u8>) -> Vec<u8> {
    image[0] ^= 1;
    image
}

#[test]
fn unreadable() {
    let image = busy();
    let good = zones(&[(0, 0, Some("UTC"))]);
    for cut in 0..good.len() {
        assert_eq!(number(&image, 962, Call::SetTimeZone(good[..cut].to_vec())), 1);
    }
    assert_eq!(number(&image, 962, Call::SetTimeZone([good.clone(), vec![0]].concat())), 1);
    let mut marked = zones(&[(0, 0, None)]);
    marked[13] = 2;
    assert_eq!(number(&image, 962, Call::SetTimeZone(marked)), 1);
    // in the middle of three entries
    for mark in [2, 255] {
        let mut marked = zones(&[(0, 0, None), (0, 1, None), (0, 2, None)]);
        marked[26] = mark;
        assert_eq!(number(&image, 962, Call::SetTimeZone(marked)), 1);
        let mut marked = windows(&[(0, 1, None), (0, 2, None), (0, 3, None)]);
        marked[26] = mark;
        assert_eq!(number(&image, 962, Call::SetDstOffset(marked)), 1);
    }
    let mut spoilt = good;
    let last = spoilt.len() - 1;
    spoilt[last] = 0xFF;
    assert_eq!(number(&image, 962, Call::SetTimeZone(spoilt)), 1);
    assert_eq!(number(&image, 962, Call::SetDstOffset(vec![1])), 1);
    assert_eq!(number(&image, 962, Call::SetUtcTime(1, 5, 0, 0, 1)), 1);
    assert_eq!(number(&image, 962, Call::SetUtcTime(1, 4, 1, 17, 1)), 1);
    assert_eq!(number(&image, 962, Call::SetUtcTime(1, 4, 0, 17, 1)), 0);
    assert_eq!(number(&image, 962, Call::RtcSet(1, 5, 0, 1)), 1);
    assert_eq!(number(&image, 962, Call::RtcSetPersist(1, 0, 17, 1)), 1);
}

#[test]
fn numbers_out_of_range() {
    let image = busy();
    let set = |granularity, source| number(&image, 0, Call::SetUtcTime(1, granularity, 1, source, 1));
    // granularities end at 4 and time sources at 16
    assert_eq!(set(255, 0), 1);
    assert_eq!((set(4, 17), set(4, 255)), (1, 1));
    for source in 0..=16 {
        assert_eq!(set(4, source), 0, "{source}");
    }
}

#[test]
fn indexes_past_every_list() {
    // cut to 32 bits the second would be that of the first entry
    let image = busy();
    for index in [65_535, 1 << 32] {
        assert_eq!(number(&image, 962, Call::TimeZone(index)), 2);
        assert_eq!(number(&image, 962, Call::DstOffset(index)), 2);
    }
}

#[test]
fn constraint_error() {
    let image = busy();
    let long = "x".repeat(65);
    let longest = "x".repeat(64);
    let bad: &[&[(i32, u64, Option<&str>)]] = &[
        &[(0, 1, None)],
        &[(0, 0, None), (0, 0, None)],
        &[(0, 0, None), (0, 5, None), (0, 5, None)],
        &[(0, 0, None), (0, 5, None), (0, 4, None)],
        &[(-43201, 0, None)],
        &[(50401, 0, None)],
        &[(0, 0, Some(&long))],
    ];
    for list in bad {
        assert_eq!(number(&image, 962, Call::SetTimeZone(zones(list))), 2, "{list:?}");
    }
    let good: &[&[(i32, u64, Option<&str>)]] = &[
        &[],
        &[(-43200, 0, None)],
        &[(50400, 0, Some(""))],
        &[(0, 0, Some(&longest)), (0, 1, None)],
    ];
    for list in good {
        assert_eq!(number(&image, 962, Call::SetTimeZone(zones(list))), 0, "{list:?}");
    }
    assert_eq!(number(&image, 962, Call::TimeZone(3)), 2);
    assert_eq!(number(&image, 962, Call::DstOffset(2)), 2);
    let empty = made(Some((1, 1)));
    assert_eq!(number(&empty, 0, Call::TimeZone(0)), 0);
    assert_eq!(number(&empty, 0, Call::TimeZone(1)), 2);
    assert_eq!(number(&empty, 0, Call::DstOffset(0)), 2);
}

/// A refused SetDSTOffset: the windows are gone, a change is counted, and the timer is to be woken.
fn windows_refused(list: &[(i32, u64, Option<u64>)], cause: u64) {
    let image = busy();
    for room in [0, 962] {
        let mut lent = Lent::new(&image, room);
        let returned = Library::new().held(&Call::SetDstOffset(windows(list)), &mut lent);
        assert_eq!(returned, 0x3000 | cause, "{list:?}");
        let mut expected = image.clone();
        expected[WINDOW_COUNT] = 0;
        expected[GENERATION] += 1;
        assert!(lent.image == expected, "{list:?}");
        assert_eq!((lent.out, lent.n), (Lent::new(&image, room).out, Lent::new(&image, room).n));
    }
}

#[test]
fn windows_that_break_a_rule() {
    windows_refused(&[(0, 1, Some(1))], 2);
    windows_refused(&[(0, 2, Some(1))], 2);
    windows_refused(&[(0, 1, None), (0, 2, None)], 2);
    windows_refused(&[(0, 1, Some(5)), (0, 4, Some(6))], 2);
    windows_refused(&[(0, 1, Some(5)), (0, 1, Some(6))], 2);
    windows_refused(&[(0, 1, Some(2)), (0, 2, Some(3)), (0, 3, Some(4))], 3);
}

#[test]
fn resource_exhausted() {
    let image = busy();
    let four = [(0, 0, None), (0, 1, None), (0, 2, None), (0, 3, None)];
    assert_eq!(number(&image, 962, Call::SetTimeZone(zones(&four))), 3);
    // the entry past the limit is not asked for its rule
    let four = [(0, 0, None), (0, 1, None), (0, 2, None), (99999, 3, None)];
    assert_eq!(number(&image, 962, Call::SetTimeZone(zones(&four))), 3);
    // an entry before it is
    let four = [(0, 0, None), (99999, 1, None), (0, 2, None), (0, 3, None)];
    assert_eq!(number(&image, 962, Call::SetTimeZone(zones(&four))), 2);
}

#[test]
fn no_list_store() {
    let none = prepared_without();
    assert_eq!(number(&none, 962, Call::SetTimeZone(vec![])), 5);
    assert_eq!(number(&none, 962, Call::SetDstOffset(vec![9, 9])), 5);
    for call in [
        Call::LocalTime(5),
        Call::TimeZoneCount,
        Call::DstOffsetCount,
        Call::TimeZoneListMaxSize,
        Call::DstOffsetListMaxSize,
        Call::TimeZoneDatabase,
        Call::Generation,
        Call::DstUsable(1),
        Call::DstTableEmpty,
        Call::TimeZone(99),
        Call::DstOffset(99),
        Call::ActiveTimeZone(1),
        Call::ActiveDstOffset(1),
        Call::NextTransition(1),
        Call::Walk(1),
        Call::Record,
    ] {
        assert_eq!(number(&none, 0, call.clone()), 6, "{call:?}");
    }
    // an unreliable clock shows null before anybody asks for the lists
    assert_eq!(number(&made(None), 0, Call::LocalTime(5)), 0);
    // load and reset of the lists have nothing to do
    assert_eq!(number(&none, 0, Call::LoadLists(1, vec![255])), 0);
    assert_eq!(number(&none, 0, Call::ResetLists), 0);
    assert_eq!(number(&none, 0, Call::Look(1)), 0);
}

fn prepared_without() -> Vec<u8> {
    common::prepared(made(None), &[Call::RtcSet(DAY, 4, 2, 0)])
}

#[test]
fn bad_record() {
    let image = busy();
    for stored in [
        vec![],
        vec![0],
        vec![0, 0, 0],
        [zones(&[(0, 1, None)]), windows(&[])].concat(),
        [zones(&[]), windows(&[(0, 1, Some(1))])].concat(),
        [zones(&[]), windows(&[(0, 1, Some(2)), (0, 2, Some(3)), (0, 3, None)])].concat(),
        [zones(&[(0, 0, None), (0, 1, None), (0, 2, None), (0, 3, None)]), windows(&[])].concat(),
    ] {
        assert_eq!(number(&image, 0, Call::LoadLists(1, stored.clone())), 7, "{stored:?}");
        assert_eq!(number(&image, 0, Call::LoadLists(0, stored)), 0);
    }
    let load = |has_source, fab_idx| Call::LoadClock(1, 1, 2, has_source, fab_idx, 3, 4);
    assert_eq!(number(&image, 0, load(1, 0)), 7);
    assert_eq!(number(&image, 0, load(0, 0)), 0);
    assert_eq!(number(&image, 0, load(1, 1)), 0);
}

#[test]
fn bad_limits() {
    for (zone_limit, window_limit) in [
        (0, 1),
        (1, 0),
        (9, 1),
        (1, 17),
        (usize::MAX, 1),
        (1, usize::MAX),
        (257, 1),
        (1, 1 << 32 | 1),
    ] {
        let mut image = vec![0x77; IMAGE_SIZE];
        assert_eq!(entry::new(&mut image, 1, zone_limit, window_limit, 1, 1), 8);
        assert!(image.iter().all(|b| *b == 0x77));
        // without a list store the limits are not looked at
        assert_eq!(entry::new(&mut image, 0, zone_limit, window_limit, 1, 1), 0);
        assert_eq!((&image[..5], &image[96..98]), (&b"TMS1\0"[..], &[0, 0][..]));
    }
    for len in [0, 1, 1120, 1135] {
        let mut short = vec![0x77; len];
        assert_eq!(entry::new(&mut short, 1, 1, 1, 1, 1), 8);
        assert_eq!(entry::new(&mut short, 0, 1, 1, 1, 1), 8);
        assert!(short.iter().all(|b| *b == 0x77));
    }
    let mut long = vec![0x77; IMAGE_SIZE + 10];
    assert_eq!(entry::new(&mut long, 255, 8, 16, 1, 1), 0);
    assert_eq!(long[IMAGE_SIZE..], [0x77; 10]);
    let mut expected = vec![0x77; IMAGE_SIZE + 10];
    assert_eq!(common::reference::new(&mut expected, 255, 8, 16, 1, 1), 0);
    assert!(long == expected);
}

#[test]
fn no_space() {
    let image = busy();
    assert_eq!(number(&image, 12, Call::TimeZone(0)), 9);
    assert_eq!(number(&image, 13, Call::TimeZone(0)), 0);
    assert_eq!(number(&image, 0, Call::TimeZone(1)), 0);
    assert_eq!(number(&image, 0, Call::TimeZone(2)), 0);
    assert_eq!(number(&image, 12, Call::ActiveTimeZone(0)), 9);
    // starts and ends after 0: 10, 20, 30, 40, 60 days
    assert_eq!(number(&image, 47, Call::Walk(0)), 9);
    assert_eq!(number(&image, 48, Call::Walk(0)), 0);
    // a section of 1 + 27 + 13 + 14 bytes, and one of 1 + 21 + 13
    assert_eq!(number(&image, 89, Call::Record), 9);
    assert_eq!(number(&image, 90, Call::Record), 0);
    assert_eq!(number(&image, 1, Call::SetTimeZone(zones(&[]))), 9);
    assert_eq!(number(&image, 2, Call::SetTimeZone(zones(&[]))), 0);
    assert_eq!(number(&image, 55, Call::SetDstOffset(windows(&[]))), 9);
    assert_eq!(number(&image, 56, Call::SetDstOffset(windows(&[]))), 0);
}

/// A section whose last byte is spoilt.
fn spoilt(mut request: Vec<u8>, byte: u8) -> Vec<u8> {
    *request.last_mut().unwrap() = byte;
    request
}

#[test]
fn read_whole_before_the_rules() {
    // limits 3 and 2
    let image = busy();
    let set = |request| number(&image, 962, Call::SetTimeZone(request));
    let four = zones(&[(0, 0, None), (0, 1, None), (0, 2, None), (0, 3, Some("n"))]);
    assert_eq!((set(four.clone()), set(spoilt(four, 0xFF))), (3, 1));
    let long = "n".repeat(65);
    let named = zones(&[(0, 0, Some(&long))]);
    assert_eq!((set(named.clone()), set(spoilt(named, 0xFF))), (2, 1));
    // the windows stay, which a refusal by the limit would empty
    let three = windows(&[(0, 1, Some(2)), (0, 3, Some(4)), (0, 5, None)]);
    let request = spoilt(three, 2);
    assert_eq!(number(&image, 962, Call::SetDstOffset(request)), 1);
}

#[test]
fn the_longest_request() {
    let image = busy();
    let long = "n".repeat(255);
    let set = |request: &[u8]| {
        let (mut lent, mut out, mut used) = (image.clone(), [0xAA; 962], 7);
        let returned = entry::set_time_zone(&mut lent, request, &mut out, &mut used);
        assert!(lent == image && out == [0xAA; 962] && used == 7);
        returned
    };
    // 255 zones: the first at fault by its name, then the fourth by the limit
    let all = zones(&(0..255).map(|i| (0, i, Some(long.as_str()))).collect::<Vec<_>>());
    assert_eq!((all.len(), set(&all)), (68_596, 2));
    let good = zones(
        &(0..255)
            .map(|i| (0, i, if i < 3 { None } else { Some(long.as_str()) }))
            .collect::<Vec<_>>(),
    );
    assert_eq!(set(&good), 3);
    assert_eq!((set(&spoilt(good.clone(), 0xFF)), set(&good[..good.len() - 1])), (1, 1));
}

#[test]
fn the_first_of_two() {
    let bad = without_magic(busy());
    let none = prepared_without();
    let image = busy();
    // 4 before 8
    assert_eq!(number(&bad, 0, Call::SetTrustedTimeSource(0, 1, 1, 1)), 4);
    assert_eq!(number(&[], 0, Call::SetTrustedTimeSource(0, 0, 1, 1)), 4);
    assert_eq!(number(&bad, 0, Call::SetTrustedTimeSource(1, 1, 1, 1)), 8);
    // 8 before 1, 5, 6, 7, 9
    assert_eq!(number(&bad, 0, Call::SetTimeZone(vec![])), 8);
    assert_eq!(number(&bad, 0, Call::SetUtcTime(0, 9, 0, 0, 0)), 8);
    assert_eq!(number(&bad, 0, Call::LoadLists(1, vec![])), 8);
    assert_eq!(number(&bad, 0, Call::LoadLists(0, vec![])), 8);
    assert_eq!(number(&bad, 0, Call::Record), 8);
    let both = without_magic(none.clone());
    assert_eq!(number(&both, 0, Call::SetDstOffset(vec![])), 8);
    assert_eq!(number(&both, 0, Call::Walk(0)), 8);
    // 5 before 1, 6 before 2 and 9
    assert_eq!(number(&none, 0, Call::SetTimeZone(vec![])), 5);
    assert_eq!(number(&none, 0, Call::TimeZone(usize::MAX)), 6);
    assert_eq!(number(&none, 0, Call::Record), 6);
    // 1 before 2: the second entry cannot be read, the first breaks a rule
    let mut request = zones(&[(0, 5, None), (0, 6, None)]);
    let last = request.len() - 1;
    request[last] = 2;
    assert_eq!(number(&image, 0, Call::SetTimeZone(request)), 1);
    // 2 before 9, 3 before 9
    assert_eq!(number(&image, 0, Call::SetTimeZone(zones(&[(0, 5, None)]))), 2);
    assert_eq!(number(&image, 0, Call::TimeZone(5)), 2);
    let four = [(0, 0, None), (0, 1, None), (0, 2, None), (0, 3, None)];
    assert_eq!(number(&image, 0, Call::SetTimeZone(zones(&four))), 3);
}

#[test]
fn a_look_without_room() {
    // the zone changes back to a named one, whose name has no room: the timer has not looked
    let image = busy();
    let at_zone_two = common::prepared(image, &[Call::Look(1000 + 20 * DAY)]);
    let back = common::prepared(at_zone_two, &[Call::RtcSet(DAY, 4, 2, 0)]);
    assert_eq!(number(&back, 12, Call::Look(0)), 9);
    assert_eq!(number(&back, 13, Call::Look(0)), 0);
}
