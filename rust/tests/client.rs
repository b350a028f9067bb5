//! The client's attempts: what they bring, the waits between them, and the events of an hour.

mod common;

use common::reference::image::{CLIENT, CLOCK};
use common::{made, prepared, taken, Call, DAY, HOUR};
use timesync::EffectCode::{Emit, Report, StoreMoment};
use timesync::{entry, AttributeId, EffectCode, EventId};

const SECOND: u64 = 1_000_000;
const MINUTE: u64 = 60 * SECOND;

const UTC: [EffectCode; 3] = [
    Report(AttributeId::UTCTime),
    Report(AttributeId::Granularity),
    Report(AttributeId::TimeSource),
];

/// An image with a trusted time source, no list store and a client of this period.
fn sourced(period: u64) -> Vec<u8> {
    let mut image = vec![0x5A; timesync::IMAGE_SIZE];
    assert_eq!(entry::new(&mut image, 0, 0, 0, 7 * DAY, period), 0);
    let source = Call::SetTrustedTimeSource(1, 1, 2, 3);
    prepared(image, &[source])
}

/// An attempt that failed.
fn failure(tick: u64) -> Call {
    Call::Attempt(0, 1, 1, 1, 4, tick)
}

/// An attempt that brought a reading; beside the mark of what is missing stands a number that would do.
fn reading(utc: Option<u64>, granularity: Option<u8>, tick: u64) -> Call {
    Call::Attempt(
        1,
        u8::from(utc.is_some()),
        utc.unwrap_or(DAY),
        u8::from(granularity.is_some()),
        granularity.unwrap_or(4),
        tick,
    )
}

#[test]
fn without_a_source() {
    let both = [Emit(EventId::MissingTrustedTimeSource), Emit(EventId::TimeFailure)];
    // it waits for one, whatever came, and the events come once an hour
    let (effects, none) = taken(&made(None), reading(Some(5), Some(4), 10));
    assert_eq!((&effects[..], &none.n[..2]), (&both[..], &[2, 0][..]));
    assert_eq!(taken(&none.image, failure(10 + HOUR - 1)).0, []);
    assert_eq!(taken(&none.image, failure(10 + HOUR)).0, both);
    assert_eq!(taken(&none.image, failure(0)).0, []);
    let (_, waiting) = taken(&none.image, Call::SourceChanged);
    assert_eq!(waiting.n[..2], [2, 0]);
    // a source comes
    let image = prepared(none.image, &[Call::SetTrustedTimeSource(1, 1, 2, 3)]);
    let (effects, changed) = taken(&image, Call::SourceChanged);
    assert_eq!((effects, &changed.n[..2]), (vec![], &[0, 0][..]));
}

#[test]
fn an_answer_from_a_source_that_was_cleared() {
    // the source was there when the exchange was opened: what it brought is not applied
    let image = prepared(sourced(HOUR), &[Call::SetTrustedTimeSource(1, 0, 0, 0)]);
    let (effects, lent) = taken(&image, reading(Some(9 * DAY), Some(4), 5));
    assert_eq!(effects, [Emit(EventId::MissingTrustedTimeSource), Emit(EventId::TimeFailure)]);
    assert_eq!(lent.n[..2], [2, 0]);
    assert_eq!(taken(&lent.image, Call::UtcTime(5)).1.n[..2], [0, 7 * DAY]);
    // and the change that comes after it makes no attempt
    assert_eq!(taken(&lent.image, Call::SourceChanged).1.n[..2], [2, 0]);
}

#[test]
fn failures_double_the_wait() {
    // up to the period of ten minutes, and a source change starts over
    let mut image = prepared(sourced(10 * MINUTE), &[failure(10)]);
    for wait in [2, 4, 8, 10, 10] {
        let (effects, lent) = taken(&image, failure(20));
        assert_eq!((effects, &lent.n[..2]), (vec![], &[1, wait * MINUTE][..]));
        image = lent.image;
    }
    let image = prepared(image, &[Call::SourceChanged]);
    // a source without a time: TimeFailure alone
    let (effects, lent) = taken(&image, reading(None, Some(4), 2 * HOUR));
    assert_eq!((effects, &lent.n[..2]), (vec![Emit(EventId::TimeFailure)], &[1, MINUTE][..]));
    let (effects, _) = taken(&image, reading(Some(9 * DAY), Some(0), 2 * HOUR));
    assert_eq!(effects, [Emit(EventId::TimeFailure)]);
}

#[test]
fn an_applied_time() {
    let told = |granularity, tick| reading(Some(9 * DAY), Some(granularity), tick);
    let image = prepared(sourced(10 * MINUTE), &[failure(10), failure(20)]);
    // reported, stored a day or more from the persisted one, and a wait of the period
    let (effects, applied) = taken(&image, told(4, 30));
    assert_eq!(effects, [UTC.to_vec(), vec![StoreMoment]].concat());
    assert_eq!(applied.n[..2], [1, 10 * MINUTE]);
    // Microseconds count as Milliseconds, which are lowered to Seconds; the source is NodeTimeCluster
    assert_eq!(applied.image[CLOCK..CLOCK + 3], [2, 3, 1]);
    let (effects, again) = taken(&applied.image, told(3, 31));
    assert_eq!(effects, UTC);
    assert_eq!(again.image[CLOCK..CLOCK + 3], [2, 3, 1]);
    assert_eq!(taken(&applied.image, told(77, 31)).0, UTC);
    // the retries started over
    assert_eq!(taken(&applied.image, failure(31)).1.n[..2], [1, MINUTE]);
}

#[test]
fn the_first_retry_is_at_most_the_period() {
    // the period, the wait after a failure and the wait after the next one, in seconds
    for (period, first, second) in [(0, 0, 0), (59, 59, 59), (60, 60, 60), (61, 60, 61)] {
        let (_, once) = taken(&sourced(period * SECOND), failure(0));
        assert_eq!(once.n[..2], [1, first * SECOND], "{period}");
        let (_, twice) = taken(&once.image, failure(1));
        assert_eq!(twice.n[..2], [1, second * SECOND], "{period}");
    }
}

#[test]
fn the_longest_retry() {
    // doubled it would need a 65th bit
    let mut image = sourced(u64::MAX);
    image[CLIENT + 8..CLIENT + 16].copy_from_slice(&(1_u64 << 63).to_le_bytes());
    for wait in [1 << 63, u64::MAX, u64::MAX] {
        let (_, lent) = taken(&image, failure(0));
        assert_eq!(lent.n[..2], [1, wait]);
        image = lent.image;
    }
}

#[test]
fn a_reading_without_a_granularity() {
    // it counts as Seconds, which are lowered to Minutes
    let (effects, applied) = taken(&sourced(HOUR), reading(Some(7 * DAY + 1), None, 5));
    assert_eq!((effects, &applied.n[..2]), (UTC.to_vec(), &[1, HOUR][..]));
    assert_eq!(taken(&applied.image, Call::Granularity).1.n[0], 1);
    assert_eq!(taken(&applied.image, Call::UtcTime(7)).1.n[..2], [1, 7 * DAY + 3]);
}

#[test]
fn an_equal_reading_is_applied() {
    let equal = |tick| reading(Some(7 * DAY + 1), Some(3), tick);
    let image = prepared(sourced(HOUR), &[equal(5), failure(6), failure(7)]);
    // reported, nothing to store, and a wait of the period
    let (effects, applied) = taken(&image, equal(8));
    assert_eq!((effects, &applied.n[..2]), (UTC.to_vec(), &[1, HOUR][..]));
    // the anchor moves, and the retries start over
    assert_eq!(taken(&applied.image, Call::UtcTime(9)).1.n[..2], [1, 7 * DAY + 2]);
    assert_eq!(taken(&applied.image, failure(9)).1.n[..2], [1, 60 * SECOND]);
}

#[test]
fn each_event_has_its_own_hour() {
    let (effects, mut lent) = taken(&sourced(HOUR), reading(None, Some(4), 0));
    assert_eq!(effects, [Emit(EventId::TimeFailure)]);
    // the hours began at 0 and at 1 second
    for (seconds, event) in [
        (1, Some(EventId::MissingTrustedTimeSource)),
        (3_599, None),
        (3_600, Some(EventId::TimeFailure)),
        (3_601, Some(EventId::MissingTrustedTimeSource)),
        (7_199, None),
    ] {
        let (effects, next) = taken(&lent.image, failure(seconds * SECOND));
        assert_eq!(effects, event.map(Emit).into_iter().collect::<Vec<_>>(), "{seconds}");
        lent = next;
    }
}

#[test]
fn an_applied_time_keeps_the_hours() {
    let both = [Emit(EventId::MissingTrustedTimeSource), Emit(EventId::TimeFailure)];
    let (effects, failed) = taken(&sourced(HOUR), failure(0));
    assert_eq!(effects, both);
    let (effects, applied) = taken(&failed.image, reading(Some(7 * DAY + 1), Some(4), 60 * SECOND));
    assert_eq!(effects, UTC);
    // the failure after it is still in the hour of the first one
    assert_eq!(taken(&applied.image, failure(120 * SECOND)).0, []);
    assert_eq!(taken(&applied.image, failure(HOUR)).0, both);
}
