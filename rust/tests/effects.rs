//! What each call asks for, in order, and what it leaves.

mod common;

use common::reference::image::{word, CLOCK, GENERATION, TABLE, WINDOW_COUNT, ZONE_COUNT};
use common::{busy, made, taken, windows, zones, Call, Lent, Library, DAY};
use timesync::{AttributeId, EffectCode, EffectCodes, EventId};

use EffectCode::{Emit, RemoveMoment, RemoveRecord, RemoveSource, Report, StoreMoment, StoreRecord, StoreSource, WakeClient, WakeTimer};

/// How many zones and windows the image has, and its generation.
fn numbers(image: &[u8]) -> (u8, u8, u64) {
    (image[ZONE_COUNT], image[WINDOW_COUNT], word(image, GENERATION, 4))
}

/// The image with its clock's anchor at this tick.
fn anchored(image: &[u8], tick: u64) -> Vec<u8> {
    let mut moved = image.to_vec();
    moved[CLOCK + 24..CLOCK + 32].copy_from_slice(&tick.to_le_bytes());
    moved
}

const UTC: [EffectCode; 3] = [
    Report(AttributeId::UTCTime),
    Report(AttributeId::Granularity),
    Report(AttributeId::TimeSource),
];

#[test]
fn set_utc_time() {
    let set = |utc, granularity, tick| Call::SetUtcTime(utc, granularity, 0, 0, tick);
    for (limits, wakes) in [(Some((2, 2)), true), (None, false)] {
        let wake = if wakes { vec![WakeTimer] } else { vec![] };
        let due = [UTC.to_vec(), wake].concat();
        let (effects, lent) = taken(&made(limits), set(DAY, 3, 10));
        assert_eq!(effects, due);
        // the same again, also at an earlier tick: reported, and nothing but the anchor is new
        for tick in [99, 10, 4, 0] {
            let (effects, again) = taken(&lent.image, set(DAY, 3, tick));
            assert_eq!(effects, due);
            assert_eq!(taken(&again.image, Call::UtcTime(tick)).1.n[..2], [1, DAY]);
            assert!(again.image == anchored(&lent.image, tick));
        }
        // a granularity that is lowered to the same one is the same, and another one is not
        for (granularity, changed) in [(0, false), (1, false), (2, false), (3, true), (4, true)] {
            let (_, minutes) = taken(&made(limits), set(DAY, 1, 10));
            let (effects, again) = taken(&minutes.image, set(DAY, granularity, 99));
            assert_eq!(effects, due);
            assert_eq!(again.image != anchored(&minutes.image, 99), changed);
        }
        // refused, it moves nothing
        for refused in [set(DAY, 5, 99), Call::SetUtcTime(DAY, 3, 1, 17, 99)] {
            let mut after = Lent::new(&lent.image, 962);
            assert_eq!(Library::new().held(&refused, &mut after), 1);
            assert!(after.image == lent.image);
        }
    }
}

#[test]
fn set_trusted_time_source() {
    let set = |fab_idx, named, node_id, endpoint| Call::SetTrustedTimeSource(fab_idx, named, node_id, endpoint);
    let changed = Report(AttributeId::TrustedTimeSource);
    let (effects, none) = taken(&made(None), set(1, 0, 5, 6));
    assert_eq!(effects, [WakeClient]);
    let (effects, lent) = taken(&none.image, set(1, 1, 5, 6));
    assert_eq!(effects, [changed, StoreSource, WakeClient]);
    assert_eq!(taken(&lent.image, set(1, 9, 5, 6)).0, [WakeClient]);
    for other in [set(2, 1, 5, 6), set(1, 1, 4, 6), set(1, 1, 5, 7)] {
        assert_eq!(taken(&lent.image, other).0, [changed, StoreSource, WakeClient]);
    }
    // another fabric may clear it
    let (effects, cleared) = taken(&lent.image, set(3, 0, 5, 6));
    assert_eq!(
        effects,
        [changed, Emit(EventId::MissingTrustedTimeSource), RemoveSource, WakeClient]
    );
    assert!(cleared.image == none.image);
}

#[test]
fn set_time_zone() {
    let image = busy();
    let (effects, lent) = taken(&image, Call::SetTimeZone(zones(&[(60, 0, Some("a"))])));
    assert_eq!(
        effects,
        [
            WakeTimer,
            StoreRecord,
            Report(AttributeId::TimeZone),
            Report(AttributeId::DSTOffset)
        ]
    );
    let record = [zones(&[(60, 0, Some("a"))]), windows(&[])].concat();
    assert_eq!(lent.n[0], record.len() as u64);
    assert_eq!(lent.out[..record.len()], record);
    assert!(lent.out[record.len()..].iter().all(|b| *b == 0xA5));
    assert_eq!(numbers(&lent.image), (1, 0, numbers(&image).2 + 1));
}

#[test]
fn set_dst_offset() {
    let image = busy();
    let (effects, lent) = taken(&image, Call::SetDstOffset(windows(&[(60, 1, Some(2)), (61, 2, None)])));
    assert_eq!(effects, [WakeTimer, StoreRecord, Report(AttributeId::DSTOffset)]);
    // the zones of the record are those of the image
    let (_, record) = taken(&lent.image, Call::Record);
    assert_eq!(lent.n[0], record.n[0]);
    assert_eq!(lent.out, record.out);
    assert_eq!(numbers(&lent.image), (3, 2, numbers(&image).2 + 1));
    // refused, it wakes the timer and does nothing else that can be seen
    let mut refused = Lent::new(&image, 962);
    let returned = Library::new().held(&Call::SetDstOffset(windows(&[(0, 5, Some(5))])), &mut refused);
    assert_eq!(returned, 0x3002);
    assert_eq!(EffectCodes::from_returned(returned).collect::<Vec<_>>(), [WakeTimer]);
    assert_eq!(numbers(&refused.image), (3, 0, numbers(&image).2 + 1));
}

#[test]
fn generation_starts_over() {
    let mut image = busy();
    image[GENERATION..GENERATION + 4].fill(0xFF);
    for call in [Call::ResetLists, Call::SetTimeZone(zones(&[])), Call::SetDstOffset(windows(&[]))] {
        assert_eq!(taken(&image, call).1.image[GENERATION..GENERATION + 4], [0; 4]);
    }
    // a refused SetDSTOffset counts too, a refused SetTimeZone does not
    let mut lent = Lent::new(&image, 962);
    let request = windows(&[(0, 5, Some(5))]);
    assert_eq!(Library::new().held(&Call::SetDstOffset(request), &mut lent) & 0xFF, 2);
    assert_eq!(lent.image[GENERATION..GENERATION + 4], [0; 4]);
    let mut lent = Lent::new(&image, 962);
    let request = zones(&[(0, 5, None)]);
    assert_eq!(Library::new().held(&Call::SetTimeZone(request), &mut lent), 2);
    assert_eq!(lent.image[GENERATION..GENERATION + 4], [0xFF; 4]);
    let (_, read) = taken(&image, Call::Generation);
    assert_eq!(read.n[0], u64::from(u32::MAX));
}

#[test]
fn load_and_reset_of_the_lists() {
    let image = busy();
    let (effects, lent) = taken(&image, Call::ResetLists);
    assert_eq!(effects, [RemoveRecord, WakeTimer]);
    assert_eq!(numbers(&lent.image), (0, 0, numbers(&image).2 + 1));
    // counted even where they were empty
    assert_eq!(numbers(&taken(&lent.image, Call::ResetLists).1.image).2, numbers(&image).2 + 2);
    // the record of the lists brings them back, and no change is counted
    let (_, record) = taken(&image, Call::Record);
    let stored = record.out[..record.n[0] as usize].to_vec();
    let (effects, loaded) = taken(&lent.image, Call::LoadLists(1, stored));
    assert_eq!(effects, []);
    assert_eq!(numbers(&loaded.image), (3, 2, numbers(&lent.image).2));
    assert_eq!(loaded.image[TABLE + 8..], image[TABLE + 8..]);
    // no record leaves everything
    let (effects, left) = taken(&image, Call::LoadLists(0, vec![1, 2, 3]));
    assert_eq!(effects, []);
    assert!(left.image == image);
    assert_eq!(taken(&made(None), Call::ResetLists).0, []);
}

#[test]
fn load_and_reset_of_the_clock() {
    let (effects, lent) = taken(&busy(), Call::ResetClock(77));
    assert_eq!(effects, [RemoveMoment, RemoveSource]);
    assert_eq!(lent.image[CLOCK..CLOCK + 8], [0; 8]);
    assert_eq!(lent.image[CLOCK + 8], 77);
    let load = |has_moment, moment| Call::LoadClock(50, has_moment, moment, 1, 1, 2, 3);
    for (has_moment, moment, reads) in [(1, 49, 49 + 1), (1, 51, 51), (0, 99, 50)] {
        let (effects, lent) = taken(&busy(), load(has_moment, moment));
        assert_eq!(effects, []);
        let (_, read) = taken(&lent.image, Call::UtcTime(1 << 40));
        assert_eq!(read.n[..2], [0, reads]);
        let (_, source) = taken(&lent.image, Call::TrustedTimeSource);
        assert_eq!(source.n[..4], [1, 1, 2, 3]);
    }
}

#[test]
fn the_clocks_own_setting() {
    // a new image stands at 7 days, persisted
    let set = |utc, tick| Call::RtcSet(utc, 4, 5, tick);
    let persist = |utc, tick| Call::RtcSetPersist(utc, 4, 5, tick);
    let image = made(Some((2, 2)));
    let (effects, lent) = taken(&image, set(9 * DAY, 3));
    assert_eq!((effects, lent.n[0]), (UTC.to_vec(), 1));
    let (effects, again) = taken(&lent.image, set(9 * DAY, 4));
    assert_eq!((effects, again.n[0]), (UTC.to_vec(), 0));
    assert!(again.image == anchored(&lent.image, 4));
    // changed or not is asked of the last setting, not of what the clock reads by now
    let (_, now) = taken(&lent.image, Call::UtcTime(10));
    assert_eq!(taken(&lent.image, set(now.n[1], 10)).1.n[0], 1);
    // a day from the persisted moment is stored, a microsecond less is not, in both directions
    for (utc, stored) in [(8 * DAY, true), (8 * DAY - 1, false), (6 * DAY, true), (6 * DAY + 1, false)] {
        let (effects, lent) = taken(&image, persist(utc, 3));
        assert_eq!(effects, [UTC.to_vec(), if stored { vec![StoreMoment] } else { vec![] }].concat());
        assert_eq!(word(&lent.image, CLOCK + 16, 8), if stored { utc } else { 7 * DAY });
    }
    // not changed, and stored all the same
    let (effects, stored) = taken(&lent.image, persist(9 * DAY, 5));
    assert_eq!((effects, stored.n[0]), ([UTC.to_vec(), vec![StoreMoment]].concat(), 0));
    // the persisted moment was replaced: the same again stores nothing, and the anchor moves
    let (effects, again) = taken(&stored.image, persist(9 * DAY, 6));
    assert_eq!((effects, again.n[0]), (UTC.to_vec(), 0));
    assert!(again.image == anchored(&stored.image, 6));
    // a clock that is not set and holds the same setting, which only a damaged image has
    let mut unset = lent.image;
    unset[CLOCK + 2] = 0;
    let (effects, first) = taken(&unset, set(9 * DAY, 3));
    assert_eq!((effects, first.n[0]), (UTC.to_vec(), 0));
}
