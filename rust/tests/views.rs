//! The crate's own types over the image.

mod common;

use std::error::Error;
use std::num::NonZeroU8;

use common::reference::image::CLOCK;
use common::{windows, zones, DAY};
use timesync::{
    AttributeId, Controller, DSTOffsetEntry, Effect, EffectCode, EffectCodes, Event, EventId, Limits, Outcome, Refusal, Sleep,
    TimeGranularity, TimeSource, TimeSyncHandler, TimeZoneEntry, Told, TrustedTimeSource, UtcTime, Wait, IMAGE_SIZE, RECORD_MAX,
};

const FABRIC: NonZeroU8 = NonZeroU8::MIN;

/// What a set clock reports.
const UTC: [Effect; 3] = [
    Effect::Report(AttributeId::UTCTime),
    Effect::Report(AttributeId::Granularity),
    Effect::Report(AttributeId::TimeSource),
];

/// The answer of a call that asks for these effects, in this order, and no other.
fn asking<T>(due: &[Effect<'_>], outcome: Outcome<'_, T>) -> Result<T, Refusal> {
    let mut left = due.iter();
    let answer = outcome.carry_out(|effect| assert_eq!(Some(&effect), left.next()));
    assert_eq!(left.next(), None);
    answer
}

fn berlin() -> Vec<u8> {
    zones(&[(3600, 0, Some("Europe/Berlin")), (7200, 30 * DAY, None)])
}

fn summers() -> Vec<u8> {
    windows(&[(3600, 10 * DAY, Some(20 * DAY)), (3600, 25 * DAY, Some(40 * DAY))])
}

#[test]
fn owned_and_lent() {
    let owned = Controller::new(Some(Limits::DEVICE), 5, 6).unwrap();
    assert_eq!(owned.as_bytes().len(), IMAGE_SIZE);
    let mut memory = [0x77; IMAGE_SIZE + 8];
    {
        let mut lent = Controller::new_in(&mut memory[..], Some(Limits::DEVICE), 5, 6).unwrap();
        assert_eq!(lent.as_bytes()[..IMAGE_SIZE], *owned.as_bytes());
        assert_eq!(lent.client_mut().source_changed(), Ok(Wait::ForSource));
    }
    assert_eq!(memory[IMAGE_SIZE..], [0x77; 8]);
    // a shared image can be read
    let again = Controller::from_image(&memory[..]).unwrap();
    assert_eq!(again.rtc().utc_time(9), Ok(UtcTime::LastKnown(5)));
    assert_eq!(again.store().generation(), Ok(0));
    let bytes = owned.into_bytes();
    assert!(Controller::from_image(bytes).is_ok());
    assert_eq!(Controller::from_image([0u8; IMAGE_SIZE - 1]).err(), Some(Refusal::BadLimits));
    // bytes that no controller was made in
    assert_eq!(Controller::from_image([0u8; IMAGE_SIZE]).err(), Some(Refusal::BadLimits));
    assert_eq!(Controller::from_image([2u8; IMAGE_SIZE]).err(), Some(Refusal::BadLimits));
    assert_eq!(
        Controller::new(
            Some(Limits {
                time_zone_max: 9,
                dst_offset_max: 1
            }),
            0,
            0
        )
        .err(),
        Some(Refusal::BadLimits)
    );
    assert_eq!(Controller::new_in([0u8; 9], None, 0, 0).err(), Some(Refusal::BadLimits));
    assert_eq!(TimeSyncHandler::over([0u8; 4]).time_zone(0), Err(Refusal::BadLimits));
}

#[test]
fn damaged_bytes_are_some_state() {
    // every byte behind the magic is 255: codes that name nothing, counts and limits past the places, names of 64 bytes
    let mut bytes = [0xFF; IMAGE_SIZE];
    bytes[..4].copy_from_slice(b"TMS1");
    let c = Controller::from_image(bytes).unwrap();
    assert_eq!(c.rtc().utc_time_granularity(), Ok(TimeGranularity::NoTime));
    assert_eq!(c.rtc().utc_time_source(), Ok(TimeSource::None));
    assert_eq!(c.rtc().utc_time(0), Ok(UtcTime::Reliable(u64::MAX)));
    assert_eq!((c.handler().time_zone_count(), c.handler().dst_offset_count()), (Ok(8), Ok(16)));
    assert_eq!(
        (c.handler().time_zone_list_max_size(), c.handler().dst_offset_list_max_size()),
        (Ok(8), Ok(16))
    );
    assert_eq!(c.store().generation(), Ok(u32::MAX));
    let entry = c.handler().time_zone(7).unwrap();
    assert_eq!(
        (entry.offset, entry.valid_at, entry.name.unwrap().as_bytes()),
        (-1, u64::MAX, &[0xFF; 64][..])
    );
    // no byte of it is UTF-8
    assert_eq!(entry.name.as_deref(), Some(""));
    let mut record = [0; RECORD_MAX];
    assert_eq!(c.store().record(&mut record), Ok(RECORD_MAX));
    // a mark and a length are written as the commands take them
    assert_eq!((record[0], record[13], record[14], record[625], record[638]), (8, 1, 64, 16, 1));
}

#[test]
fn clock() {
    let mut c = Controller::new(None, 7, 6).unwrap();
    assert_eq!(c.rtc().utc_time(100), Ok(UtcTime::LastKnown(7)));
    assert_eq!(c.rtc().utc_time_granularity(), Ok(TimeGranularity::NoTime));
    assert_eq!(c.rtc().utc_time_source(), Ok(TimeSource::None));
    assert_eq!(c.rtc().trusted_time_source(), Ok(None));
    let outcome = c.rtc_mut().set_utc_time(1000, TimeGranularity::Microseconds, TimeSource::GNSS, 100);
    assert_eq!(asking(&UTC, outcome), Ok(true));
    assert_eq!(c.rtc().utc_time(150), Ok(UtcTime::Reliable(1050)));
    assert_eq!(c.rtc().utc_time(50), Ok(UtcTime::Reliable(1000)));
    // held at the top
    assert_eq!(c.rtc().utc_time(u64::MAX), Ok(UtcTime::Reliable(u64::MAX)));
    assert_eq!(c.rtc().utc_time_granularity(), Ok(TimeGranularity::Milliseconds));
    assert_eq!(c.rtc().utc_time_source(), Ok(TimeSource::GNSS));
    let outcome = c
        .rtc_mut()
        .set_utc_time_persist(1000, TimeGranularity::Microseconds, TimeSource::GNSS, 200);
    assert_eq!(asking(&UTC, outcome), Ok(false));
    assert_eq!(c.rtc().utc_time(200), Ok(UtcTime::Reliable(1000)));
    let outcome = c
        .rtc_mut()
        .set_utc_time_persist(2 * DAY, TimeGranularity::NoTime, TimeSource::PTP, 200);
    assert_eq!(asking(&[&UTC[..], &[Effect::StoreMoment(2 * DAY)]].concat(), outcome), Ok(true));
    assert_eq!(c.rtc().utc_time_granularity(), Ok(TimeGranularity::Minutes));
}

#[test]
fn clock_loaded_and_reset() {
    let mut c = Controller::new(None, 7, 6).unwrap();
    let source = TrustedTimeSource {
        fab_idx: NonZeroU8::MAX,
        node_id: u64::MAX,
        endpoint: u16::MAX,
    };
    assert_eq!(c.rtc_mut().load_persist(9, Some(8), Some(source)), Ok(()));
    assert_eq!(c.rtc().trusted_time_source(), Ok(Some(source)));
    assert_eq!(c.rtc().utc_time(0), Ok(UtcTime::LastKnown(9)));
    // bytes that no call writes: a source of fabric index 0
    let mut bytes = *c.as_bytes().first_chunk::<IMAGE_SIZE>().unwrap();
    assert_eq!(bytes[CLOCK + 4], 255);
    bytes[CLOCK + 4] = 0;
    assert_eq!(Controller::from_image(bytes).unwrap().rtc().trusted_time_source(), Ok(None));
    let outcome = c.rtc_mut().reset_persist(11);
    assert_eq!(asking(&[Effect::RemoveMoment, Effect::RemoveSource], outcome), Ok(()));
    assert_eq!(c.rtc().trusted_time_source(), Ok(None));
    assert_eq!(c.rtc().utc_time(0).map(UtcTime::any), Ok(11));
    assert_eq!(c.rtc().utc_time(0).map(UtcTime::reliable), Ok(None));
}

/// Limits 3 and 2 with both lists, and the record that the last command stored.
fn with_lists() -> (Controller, Vec<u8>) {
    let limits = Limits {
        time_zone_max: 3,
        dst_offset_max: 2,
    };
    let mut c = Controller::new(Some(limits), 0, 0).unwrap();
    let mut record = [0; RECORD_MAX];
    let (zone_change, window_change) = (AttributeId::TimeZone, AttributeId::DSTOffset);
    let stored = [berlin(), vec![0]].concat();
    let due = [
        Effect::WakeTimer,
        Effect::StoreRecord(&stored),
        Effect::Report(zone_change),
        Effect::Report(window_change),
    ];
    assert_eq!(asking(&due, c.handler_mut().handle_set_time_zone(&berlin(), &mut record)), Ok(()));
    let stored = [berlin(), summers()].concat();
    let due = [Effect::WakeTimer, Effect::StoreRecord(&stored), Effect::Report(window_change)];
    assert_eq!(asking(&due, c.handler_mut().handle_set_dst_offset(&summers(), &mut record)), Ok(()));
    (c, stored)
}

#[test]
fn empty_lists() {
    // an empty list shows one zone
    let c = Controller::new(Some(Limits::DEVICE), 0, 0).unwrap();
    let shown = c.handler().time_zone(0).unwrap();
    assert_eq!((c.handler().time_zone_count(), shown.as_entry()), (Ok(1), TimeZoneEntry::default()));
    assert_eq!(c.store().dst_table_empty(), Ok(true));
}

#[test]
fn lists_read() {
    let (c, record) = with_lists();
    let (mut read, len) = ([0; RECORD_MAX], record.len());
    assert_eq!(c.store().record(&mut read), Ok(len));
    assert_eq!(read[..len], record);
    assert_eq!(c.store().record(&mut read[..len - 1]), Err(Refusal::NoSpace));
    assert_eq!((c.handler().time_zone_count(), c.handler().dst_offset_count()), (Ok(2), Ok(2)));
    assert_eq!(c.handler().time_zone_list_max_size(), Ok(3));
    assert_eq!(c.handler().dst_offset_list_max_size(), Ok(2));
    assert_eq!(c.handler().time_zone_database(), Ok(2));
    assert_eq!(c.store().generation(), Ok(2));
    let first = TimeZoneEntry {
        offset: 3600,
        valid_at: 0,
        name: Some("Europe/Berlin"),
    };
    let second = TimeZoneEntry {
        offset: 7200,
        valid_at: 30 * DAY,
        name: None,
    };
    assert_eq!(c.handler().time_zone(0).unwrap().as_entry(), first);
    assert_eq!(c.handler().time_zone(1).unwrap().as_entry(), second);
    assert_eq!(c.handler().time_zone(2), Err(Refusal::ConstraintError));
    let second = DSTOffsetEntry {
        offset: 3600,
        valid_starting: 25 * DAY,
        valid_until: Some(40 * DAY),
    };
    assert_eq!(c.handler().dst_offset(1), Ok(second));
    assert_eq!(c.handler().dst_offset(2), Err(Refusal::ConstraintError));
}

#[test]
fn lists_looked_up() {
    let (c, _) = with_lists();
    assert_eq!(c.store().active_time_zone(30 * DAY), Ok((7200, None)));
    assert_eq!(c.store().active_dst_offset(20 * DAY), Ok(None));
    assert_eq!(c.store().active_dst_offset(20 * DAY - 1), Ok(Some(3600)));
    assert_eq!(c.store().dst_usable(40 * DAY - 1), Ok(true));
    assert_eq!(c.store().dst_usable(40 * DAY), Ok(false));
    assert_eq!(c.store().dst_table_empty(), Ok(false));
    assert_eq!(c.store().next_transition(0), Ok(Some(10 * DAY)));
    assert_eq!(c.store().next_transition(40 * DAY), Ok(None));
    let walk = c.store().walk(1).unwrap();
    assert_eq!(walk.steps(), 5);
    assert_eq!(walk.moments(), [1, 10 * DAY, 20 * DAY, 25 * DAY, 30 * DAY, 40 * DAY]);
    // the moments, and not the room behind them
    assert_eq!(format!("{walk:?}"), format!("Walk({:?})", walk.moments()));
}

#[test]
fn local_time() {
    // null on a clock that is not set, between windows UTC and the zone, run out null
    let (mut c, _) = with_lists();
    assert_eq!(c.handler().local_time(0), Ok(None));
    assert_eq!(
        asking(&[], c.handler_mut().handle_set_utc_time(0, 5, None, 0)),
        Err(Refusal::Unreadable)
    );
    let due = [&UTC[..], &[Effect::WakeTimer]].concat();
    assert_eq!(asking(&due, c.handler_mut().handle_set_utc_time(0, 4, Some(0), 0)), Ok(()));
    let hour = common::HOUR;
    assert_eq!(c.handler().local_time(0), Ok(Some(hour)));
    assert_eq!(c.handler().local_time(10 * DAY), Ok(Some(10 * DAY + 2 * hour)));
    assert_eq!(c.handler().local_time(20 * DAY), Ok(Some(20 * DAY + hour)));
    assert_eq!(c.handler().local_time(30 * DAY), Ok(Some(30 * DAY + 3 * hour)));
    assert_eq!(c.handler().local_time(40 * DAY), Ok(None));
    assert_eq!(c.rtc().utc_time_source(), Ok(TimeSource::Admin));
}

#[test]
fn lists_lost_and_loaded() {
    let (mut c, record) = with_lists();
    let mut out = [0; RECORD_MAX];
    let outcome = c.handler_mut().handle_set_dst_offset(&windows(&[(0, 2, Some(1))]), &mut out);
    assert_eq!(asking(&[Effect::WakeTimer], outcome), Err(Refusal::ConstraintError));
    assert_eq!((c.handler().dst_offset_count(), out), (Ok(0), [0; RECORD_MAX]));
    assert_eq!(c.store_mut().load_persist(Some(&record)), Ok(()));
    assert_eq!(c.handler().dst_offset_count(), Ok(2));
    assert_eq!(c.store_mut().load_persist(None), Ok(()));
    assert_eq!(c.store_mut().load_persist(Some(&[])), Err(Refusal::BadRecord));
    assert_eq!(c.handler().dst_offset_count(), Ok(2));
    let due = [Effect::RemoveRecord, Effect::WakeTimer];
    assert_eq!(asking(&due, c.store_mut().reset_persist()), Ok(()));
    assert_eq!(c.store().walk(3).unwrap().moments(), [3]);
}

#[test]
fn no_list_store() {
    let mut c = Controller::new(None, 0, 0).unwrap();
    let mut record = [0; RECORD_MAX];
    assert_eq!(
        asking(&[], c.handler_mut().handle_set_time_zone(&berlin(), &mut record)),
        Err(Refusal::CommandNotFound)
    );
    assert_eq!(
        asking(&[], c.handler_mut().handle_set_dst_offset(&summers(), &mut record)),
        Err(Refusal::CommandNotFound)
    );
    assert_eq!(c.store().walk(0), Err(Refusal::AttributeNotFound));
    assert_eq!(asking(&[], c.store_mut().reset_persist()), Ok(()));
    assert_eq!(c.handler().local_time(0), Ok(None));
    assert_eq!(asking(&[], c.handler_mut().look(0)), Ok(Sleep::Never));
}

#[test]
fn timer() {
    let mut c = Controller::new(Some(Limits::LARGEST), 0, 0).unwrap();
    let mut record = [0; RECORD_MAX];
    let zone_list = zones(&[(0, 0, None), (3600, 30 * DAY, Some("Europe/Berlin"))]);
    let window_list = windows(&[(60, 10 * DAY, Some(30 * DAY))]);
    let taken = c.handler_mut().handle_set_time_zone(&zone_list, &mut record).carry_out(|_| ());
    assert_eq!(taken, Ok(()));
    let taken = c.handler_mut().handle_set_dst_offset(&window_list, &mut record).carry_out(|_| ());
    assert_eq!(taken, Ok(()));
    assert_eq!(asking(&[], c.handler_mut().look(5)), Ok(Sleep::UntilWoken));
    assert_eq!(c.handler_mut().handle_set_utc_time(0, 4, None, 0).carry_out(|_| ()), Ok(()));
    assert_eq!(asking(&[], c.handler_mut().look(0)), Ok(Sleep::AtMost(10 * DAY + 100_000)));
    let status = |dst_offset_active| Effect::Emit(Event::DSTStatus { dst_offset_active });
    assert_eq!(
        asking(&[status(true)], c.handler_mut().look(10 * DAY)),
        Ok(Sleep::AtMost(20 * DAY + 100_000))
    );
    let zone = Event::TimeZoneStatus {
        offset: 3600,
        name: Some("Europe/Berlin"),
    };
    let due = [Effect::Emit(zone), status(false), Effect::Emit(Event::DSTTableEmpty)];
    assert_eq!(asking(&due, c.handler_mut().look(30 * DAY)), Ok(Sleep::UntilWoken));
}

#[test]
fn client() {
    let mut c = Controller::new(None, 0, 100).unwrap();
    let told = Told {
        utc_us: Some(3 * DAY),
        granularity: Some(2),
    };
    let failed = [Event::MissingTrustedTimeSource, Event::TimeFailure].map(Effect::Emit);
    assert_eq!(asking(&failed, c.client_mut().attempt(Some(told), 0)), Ok(Wait::ForSource));
    let source = TrustedTimeSource {
        fab_idx: FABRIC,
        node_id: 2,
        endpoint: 3,
    };
    let due = [
        Effect::Report(AttributeId::TrustedTimeSource),
        Effect::StoreSource(source),
        Effect::WakeClient,
    ];
    assert_eq!(
        asking(&due, c.handler_mut().handle_set_trusted_time_source(FABRIC, Some((2, 3)))),
        Ok(())
    );
    assert_eq!(c.rtc().trusted_time_source(), Ok(Some(source)));
    assert_eq!(c.client_mut().source_changed(), Ok(Wait::AttemptNow));
    assert_eq!(asking(&[], c.client_mut().attempt(None, 0)), Ok(Wait::For(100)));
    let due = [&UTC[..], &[Effect::StoreMoment(3 * DAY)]].concat();
    assert_eq!(asking(&due, c.client_mut().attempt(Some(told), 7)), Ok(Wait::For(100)));
    assert_eq!(c.rtc().utc_time(8), Ok(UtcTime::Reliable(3 * DAY + 1)));
    assert_eq!(c.rtc().utc_time_source(), Ok(TimeSource::NodeTimeCluster));
    // UTCTime is null
    assert_eq!(asking(&[], c.client_mut().attempt(Some(Told::default()), 9)), Ok(Wait::For(100)));
    let due = [
        Effect::Report(AttributeId::TrustedTimeSource),
        Effect::Emit(Event::MissingTrustedTimeSource),
        Effect::RemoveSource,
        Effect::WakeClient,
    ];
    assert_eq!(asking(&due, c.handler_mut().handle_set_trusted_time_source(FABRIC, None)), Ok(()));
    assert_eq!(c.client_mut().source_changed(), Ok(Wait::ForSource));
}

#[test]
fn the_most_steps() {
    // 8 zones and 16 windows whose starts and ends all differ: 39 steps
    let mut c = Controller::new(Some(Limits::LARGEST), 0, 0).unwrap();
    let mut record = [0; RECORD_MAX];
    let name = "n".repeat(64);
    let zone_list: Vec<_> = (0..8).map(|i| (0, i * 1000, Some(name.as_str()))).collect();
    let window_list: Vec<_> = (0..16).map(|i| (0, 10 * i + 1, Some(10 * i + 5))).collect();
    let (zone_list, window_list) = (zones(&zone_list), windows(&window_list));
    assert_eq!(
        c.handler_mut().handle_set_time_zone(&zone_list, &mut record).carry_out(|_| ()),
        Ok(())
    );
    // the largest record, and one byte less than it needs
    let outcome = c.handler_mut().handle_set_dst_offset(&window_list, &mut record[..RECORD_MAX - 1]);
    assert_eq!(asking(&[], outcome), Err(Refusal::NoSpace));
    let mut stored = 0;
    let outcome = c.handler_mut().handle_set_dst_offset(&window_list, &mut record);
    let taken = outcome.carry_out(|effect| {
        if let Effect::StoreRecord(bytes) = effect {
            stored = bytes.len();
        }
    });
    assert_eq!((taken, stored), (Ok(()), RECORD_MAX));
    let walk = c.store().walk(0).unwrap();
    assert_eq!((walk.steps(), walk.moments().len()), (39, 40));
    assert!(walk.moments().windows(2).all(|w| w[0] < w[1]));
}

#[test]
fn numbers() {
    for (number, refusal) in (1..=9).zip(Refusal::ALL) {
        assert_eq!((refusal.number(), Refusal::from_number(number)), (number, Some(*refusal)));
    }
    assert_eq!((Refusal::from_number(0), Refusal::from_number(10)), (None, None));
    assert_eq!(
        (
            TimeGranularity::ALL.len(),
            TimeSource::ALL.len(),
            AttributeId::ALL.len(),
            EventId::ALL.len()
        ),
        (5, 17, 6, 5)
    );
    let codes = (0..=255)
        .filter_map(EffectCode::from_code)
        .map(EffectCode::code)
        .collect::<Vec<_>>();
    let mut expected = vec![0x10, 0x11, 0x12, 0x13, 0x15, 0x16, 0x20, 0x21, 0x22, 0x23, 0x24];
    expected.extend([0x30, 0x31, 0x40, 0x41, 0x42, 0x43, 0x44, 0x45]);
    assert_eq!(codes, expected);
    assert_eq!(EffectCodes::from_returned(9).next(), None);
    let two = EffectCodes::from_returned(0x30_4100);
    assert_eq!(two.collect::<Vec<_>>(), [EffectCode::RemoveRecord, EffectCode::WakeTimer]);
}

#[test]
fn refusals_as_errors() {
    fn told(refusal: Refusal) -> Box<dyn Error> {
        refusal.into()
    }
    let texts: Vec<String> = Refusal::ALL.iter().map(|refusal| told(*refusal).to_string()).collect();
    assert_eq!(texts[2], "resource exhausted: there are more entries than the limit (3)");
    for (refusal, text) in Refusal::ALL.iter().zip(&texts) {
        assert!(text.ends_with(&format!(" ({})", refusal.number())), "{text}");
    }
    // the words before the colon are the refusal's name
    for (refusal, text) in Refusal::ALL.iter().zip(&texts) {
        let (name, _) = text.split_once(": ").unwrap();
        assert_eq!(name.replace(' ', ""), format!("{refusal:?}").to_lowercase());
    }
}

#[test]
fn events_by_number() {
    let zone = Event::TimeZoneStatus { offset: 0, name: None };
    let status = Event::DSTStatus { dst_offset_active: true };
    let events = [
        Event::DSTTableEmpty,
        status,
        zone,
        Event::TimeFailure,
        Event::MissingTrustedTimeSource,
    ];
    assert_eq!(events.map(Event::id)[..], *EventId::ALL);
}
