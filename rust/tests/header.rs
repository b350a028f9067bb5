//! Every number that the C headers define, held to an answer of a call or to the order in the Rust, and the crate's numbers beside it.

mod common;

use std::collections::BTreeMap;
use std::fmt::Debug;

use common::reference::image::{put_windows, put_zones};
use common::{full, made, prepared, window, windows, zone, zones, Call, Lent, Library, DAY};
use timesync::{entry, AttributeId, EffectCode, EventId, Limits, Refusal, TimeGranularity, TimeSource};
use timesync::{IMAGE_SIZE, MOMENTS_MAX, RECORD_MAX, TIME_ZONE_NAME_MAX};

const HEADERS: [&str; 2] = [
    include_str!("../../include/timesync.h"),
    include_str!("../../include/timesync_replay.h"),
];

/// The Rust that the port was made from.
const RTC: &str = include_str!("../../docs/src/rs-matter-node-core/src/rtc.rs");

/// Numbers by the names of macros, without `TIMESYNC_`.
type Numbers = BTreeMap<String, u64>;

// ---- what the headers define

/// The name and the rest of every macro.
fn macros() -> Vec<(&'static str, &'static str)> {
    let defines = HEADERS.iter().flat_map(|h| h.lines()).filter(|l| l.contains("#define"));
    defines
        .map(|line| {
            let text = line.strip_prefix("#define TIMESYNC_").unwrap_or_else(|| panic!("{line}"));
            text.split_at(text.find([' ', '(']).unwrap_or(text.len()))
        })
        .collect()
}

fn number(text: &str) -> Option<u64> {
    let digits = text.trim_end_matches('u');
    match digits.strip_prefix("0x") {
        Some(hex) => u64::from_str_radix(hex, 16).ok(),
        None => digits.parse().ok(),
    }
}

/// The macros that stand for a number: all but the include guards and the two that take arguments.
fn defined() -> Numbers {
    let mut numbers = Numbers::new();
    for (name, rest) in macros() {
        if ["H", "REPLAY_H", "ANSWER", "EFFECT"].contains(&name) {
            continue;
        }
        let value = rest.split_whitespace().next().and_then(number);
        let before = numbers.insert(name.to_string(), value.unwrap_or_else(|| panic!("{name}{rest}")));
        assert_eq!(before, None, "{name} is defined twice");
    }
    numbers
}

// ---- what calls answer

/// What a call returns with so much room for its output, and what it leaves.
fn called(image: &[u8], call: &Call, room: usize) -> (u64, Lent) {
    let mut lent = Lent::new(image, room);
    (Library::new().call(call, &mut lent), lent)
}

/// The first number that a call leaves.
fn first_number(image: &[u8], call: &Call) -> u64 {
    called(image, call, 0).1.n[0]
}

/// The smallest number that a call takes.
fn smallest(takes: impl Fn(usize) -> bool) -> u64 {
    (0..4096).find(|n| takes(*n)).unwrap() as u64
}

/// The largest number that a call takes.
fn largest(takes: impl Fn(usize) -> bool) -> u64 {
    (0..256).rev().find(|n| takes(*n)).unwrap() as u64
}

/// 8 zones and 16 windows that no command accepts: all their starts and ends lie after 0 and differ.
fn most_boundaries() -> Vec<u8> {
    let mut image = made(Some((8, 16)));
    put_zones(&mut image, &(1..=8).map(|i| zone(0, i, None)).collect::<Vec<_>>());
    put_windows(
        &mut image,
        &(1..=16).map(|i| window(0, 10 * i, Some(10 * i + 5))).collect::<Vec<_>>(),
    );
    image
}

fn sizes() -> Vec<(&'static str, u64)> {
    let new = |size, zone_limit, window_limit| entry::new(&mut vec![0; size], 1, zone_limit, window_limit, 0, 0) == 0;
    let (image, listed, damaged) = (made(Some((1, 1))), full(), most_boundaries());
    let named = |length| Call::SetTimeZone(zones(&[(0, 0, Some(&"n".repeat(length)))]));
    let taken = |image: &[u8], call: Call, room| called(image, &call, room).0 & 0xFF == 0;
    vec![
        ("IMAGE_SIZE", smallest(|n| new(n, 1, 1))),
        ("NAME_MAX", largest(|n| taken(&image, named(n), RECORD_MAX))),
        ("RECORD_MAX", smallest(|n| taken(&listed, Call::Record, n))),
        ("MOMENTS_MAX", smallest(|n| taken(&damaged, Call::Walk(0), n))),
        ("ZONES_MAX", largest(|n| new(IMAGE_SIZE, n, 1))),
        ("WINDOWS_MAX", largest(|n| new(IMAGE_SIZE, 1, n))),
    ]
}

/// A call that is taken, and one for each refusal.
fn answers() -> Vec<(&'static str, u64)> {
    let (image, bare) = (made(Some((1, 1))), made(None));
    let two = zones(&[(0, 0, None), (0, 1, None)]);
    let calls = [
        ("OK", &image, Call::Generation),
        ("UNREADABLE", &image, Call::SetUtcTime(0, 5, 0, 0, 0)),
        ("CONSTRAINT_ERROR", &image, Call::TimeZone(1)),
        ("RESOURCE_EXHAUSTED", &image, Call::SetTimeZone(two)),
        ("INVALID_COMMAND", &image, Call::SetTrustedTimeSource(0, 1, 1, 1)),
        ("COMMAND_NOT_FOUND", &bare, Call::SetTimeZone(zones(&[]))),
        ("ATTRIBUTE_NOT_FOUND", &bare, Call::Generation),
        ("BAD_RECORD", &image, Call::LoadLists(1, vec![])),
        ("BAD_LIMITS", &vec![0; IMAGE_SIZE], Call::Generation),
        ("NO_SPACE", &image, Call::Record),
    ];
    calls.map(|(name, image, c)| (name, called(image, &c, 0).0 & 0xFF)).to_vec()
}

/// The timer has seen the first zone, and the window active and usable; at the moment 20 the second zone starts and the window ends.
fn seen_before_the_end() -> Vec<u8> {
    let zone_list = Call::SetTimeZone(zones(&[(0, 0, None), (60, 20, None)]));
    let window_list = Call::SetDstOffset(windows(&[(60, 0, Some(20))]));
    let clock = Call::RtcSet(0, 4, 2, 0);
    prepared(made(Some((2, 1))), &[zone_list, window_list, clock, Call::Look(10)])
}

/// Calls, and the effects of each in order, by their names in the header.
fn calls_with_effects() -> Vec<(Vec<u8>, Call, &'static str)> {
    let (image, bare) = (made(Some((1, 1))), made(None));
    let set_time = Call::SetUtcTime(DAY, 4, 0, 0, 0);
    let store_time = Call::RtcSetPersist(9 * DAY, 4, 2, 0);
    let source = |named| Call::SetTrustedTimeSource(1, named, 2, 3);
    let sourced = prepared(made(None), &[source(1)]);
    let cleared = "REPORT_TRUSTED_TIME_SOURCE EMIT_MISSING_TRUSTED_TIME_SOURCE REMOVE_SOURCE WAKE_CLIENT";
    let listed = "WAKE_TIMER STORE_RECORD REPORT_TIME_ZONE REPORT_DST_OFFSET";
    let failed = Call::Attempt(0, 0, 0, 0, 0, 0);
    let ended = "EMIT_TIME_ZONE_STATUS EMIT_DST_STATUS EMIT_DST_TABLE_EMPTY";
    vec![
        (
            image.clone(),
            set_time,
            "REPORT_UTC_TIME REPORT_GRANULARITY REPORT_TIME_SOURCE WAKE_TIMER",
        ),
        (
            bare.clone(),
            store_time,
            "REPORT_UTC_TIME REPORT_GRANULARITY REPORT_TIME_SOURCE STORE_MOMENT",
        ),
        (bare.clone(), source(1), "REPORT_TRUSTED_TIME_SOURCE STORE_SOURCE WAKE_CLIENT"),
        (sourced, source(0), cleared),
        (image.clone(), Call::SetTimeZone(zones(&[])), listed),
        (image, Call::ResetLists, "REMOVE_RECORD WAKE_TIMER"),
        (bare.clone(), Call::ResetClock(0), "REMOVE_MOMENT REMOVE_SOURCE"),
        (bare, failed, "EMIT_MISSING_TRUSTED_TIME_SOURCE EMIT_TIME_FAILURE"),
        (seen_before_the_end(), Call::Look(20), ended),
    ]
}

/// The code of each effect, as calls return it.
fn effects() -> Vec<(&'static str, u64)> {
    let mut codes = vec![];
    for (image, call, names) in calls_with_effects() {
        let names: Vec<_> = names.split(' ').collect();
        let bytes = called(&image, &call, RECORD_MAX).0.to_le_bytes();
        assert!(bytes[names.len() + 1..].iter().all(|b| *b == 0), "{call:?}");
        codes.extend(names.into_iter().zip(bytes[1..].iter().map(|b| u64::from(*b))));
    }
    codes
}

/// The numbers of a look's sleep, of the waits after an attempt and a source change, and of the database.
fn sleeps_and_waits() -> Vec<(&'static str, u64)> {
    let (image, bare) = (made(Some((1, 1))), made(None));
    let sourced = prepared(made(None), &[Call::SetTrustedTimeSource(1, 1, 2, 3)]);
    let failed = Call::Attempt(0, 0, 0, 0, 0, 0);
    let lent = |image: &[u8], c: &Call| called(image, c, RECORD_MAX).1.n;
    vec![
        ("SLEEP_NEVER", lent(&bare, &Call::Look(0))[3]),
        ("SLEEP_UNTIL_WOKEN", lent(&image, &Call::Look(0))[3]),
        ("SLEEP_AT_MOST", lent(&seen_before_the_end(), &Call::Look(11))[3]),
        ("WAIT_ATTEMPT_NOW", lent(&sourced, &Call::SourceChanged)[0]),
        ("WAIT_FOR", lent(&sourced, &failed)[0]),
        ("WAIT_FOR_SOURCE", lent(&bare, &failed)[0]),
        ("DATABASE_NONE", lent(&image, &Call::TimeZoneDatabase)[0]),
    ]
}

/// Every number that a call answers.
fn by_calls() -> Vec<(&'static str, u64)> {
    [sizes(), answers(), effects(), sleeps_and_waits()].concat()
}

// ---- what the Rust says

/// The variants of an enum of the Rust, in its order.
fn variants(name: &str) -> Vec<&'static str> {
    let (_, body) = RTC.split_once(&format!("pub enum {name} {{")).unwrap();
    let (body, _) = body.split_once('}').unwrap();
    body.split(',').map(str::trim).filter(|v| !v.is_empty()).collect()
}

/// The constants of the Rust whose names end so, with the kind before their names, and their numbers.
fn identifiers(kind: &str, end: &str) -> Vec<(String, u64)> {
    let constants = RTC.lines().filter_map(|l| l.strip_prefix("const ")?.split_once(end));
    constants
        .map(|(name, rest)| {
            let (_, value) = rest.trim_end_matches(';').split_once("= ").unwrap();
            (format!("{kind}_{name}"), number(value).unwrap())
        })
        .collect()
}

/// A name without what its writing in C or in Rust adds to its letters.
fn plain(name: &str) -> String {
    name.chars().filter(char::is_ascii_alphanumeric).collect::<String>().to_lowercase()
}

/// The macros with this prefix, by their plain names without it. One name is that of a refusal, though it begins as attributes do.
fn under(prefix: &str) -> Numbers {
    let numbers = defined().into_iter().filter(|(name, _)| name != "ATTRIBUTE_NOT_FOUND");
    let with_prefix = numbers.filter_map(|(name, n)| Some((plain(name.strip_prefix(prefix)?), n)));
    with_prefix.collect()
}

fn in_order(names: &[&str]) -> Numbers {
    names.iter().map(|v| plain(v)).zip(0..).collect()
}

// ---- the tests

#[test]
fn numbers_that_calls_answer() {
    let numbers = defined();
    for (name, answered) in by_calls() {
        assert_eq!(numbers.get(name), Some(&answered), "{name}");
    }
}

#[test]
fn effects_of_attributes_and_events() {
    // a code is that of the kind and the number of the attribute or of the event
    let numbers = defined();
    for (kind, of) in [("REPORT", "ATTRIBUTE_"), ("EMIT", "EVENT_")] {
        let sums: Numbers = under(of).into_iter().map(|(name, n)| (name, numbers[kind] + n)).collect();
        assert_eq!(under(&format!("{kind}_")), sums);
    }
}

#[test]
fn attributes_and_events_that_the_rust_numbers() {
    let numbers = defined();
    let (attributes, events) = (identifiers("ATTRIBUTE", "_ATTR_ID: "), identifiers("EVENT", "_EVENT_ID: "));
    assert_eq!((attributes.len(), events.len()), (4, 1));
    for (name, id) in attributes.iter().chain(&events) {
        assert_eq!(numbers.get(name), Some(id), "{name}");
    }
}

#[test]
fn granularities_and_sources_in_the_order_of_the_rust() {
    assert_eq!(under("GRANULARITY_"), in_order(&variants("TimeGranularity")));
    assert_eq!(under("SOURCE_"), in_order(&variants("TimeSource")));
}

/// What a clock that was set with these numbers reads: its granularity and its source.
fn read_after(granularity: u8, source: u8) -> (u64, u64) {
    let image = prepared(made(None), &[Call::RtcSet(1, granularity, source, 0)]);
    (first_number(&image, &Call::Granularity), first_number(&image, &Call::TimeSource))
}

#[test]
fn granularities_by_calls() {
    let numbers = defined();
    let of = |name: &str| numbers[&format!("GRANULARITY_{name}")];
    assert_eq!(first_number(&made(None), &Call::Granularity), of("NO_TIME"));
    // a setting lowers it by one step, but not below Minutes
    for (set, read) in [
        ("MICROSECONDS", "MILLISECONDS"),
        ("MILLISECONDS", "SECONDS"),
        ("SECONDS", "MINUTES"),
        ("MINUTES", "MINUTES"),
        ("NO_TIME", "MINUTES"),
    ] {
        assert_eq!(read_after(of(set) as u8, 0).0, of(read), "{set}");
    }
}

#[test]
fn sources_by_calls() {
    let (numbers, unset) = (defined(), made(None));
    let by_admin = prepared(unset.clone(), &[Call::SetUtcTime(1, 1, 0, 0, 0)]);
    let by_node = prepared(
        unset.clone(),
        &[Call::SetTrustedTimeSource(1, 1, 2, 3), Call::Attempt(1, 1, 1, 1, 1, 0)],
    );
    assert_eq!(first_number(&unset, &Call::TimeSource), numbers["SOURCE_NONE"]);
    assert_eq!(first_number(&by_admin, &Call::TimeSource), numbers["SOURCE_ADMIN"]);
    assert_eq!(first_number(&by_node, &Call::TimeSource), numbers["SOURCE_NODE_TIME_CLUSTER"]);
    for source in under("SOURCE_").into_values() {
        assert_eq!(read_after(1, source as u8).1, source);
    }
}

/// The numbers of an enum of the crate, by the plain names of its variants.
fn numbers_of<T: Copy + Debug>(all: &[T], number: fn(T) -> u8) -> Numbers {
    all.iter().map(|v| (plain(&format!("{v:?}")), u64::from(number(*v)))).collect()
}

#[test]
fn the_numbers_of_the_crate() {
    assert_eq!(under("GRANULARITY_"), numbers_of(TimeGranularity::ALL, TimeGranularity::number));
    assert_eq!(under("SOURCE_"), numbers_of(TimeSource::ALL, TimeSource::number));
    assert_eq!(under("ATTRIBUTE_"), numbers_of(AttributeId::ALL, AttributeId::number));
    assert_eq!(under("EVENT_"), numbers_of(EventId::ALL, EventId::number));
    let all: Vec<EffectCode> = (0..=255).filter_map(EffectCode::from_code).collect();
    let codes = effects().into_iter().map(|(name, code)| (plain(name), code)).collect::<Numbers>();
    assert_eq!(numbers_of(&all, EffectCode::code), codes);
    let refused = answers().into_iter().skip(1).map(|(name, number)| (plain(name), number));
    assert_eq!(numbers_of(Refusal::ALL, Refusal::number), refused.collect());
    let Limits {
        time_zone_max,
        dst_offset_max,
    } = Limits::LARGEST;
    let constants = [
        ("IMAGE_SIZE", IMAGE_SIZE),
        ("NAME_MAX", TIME_ZONE_NAME_MAX),
        ("RECORD_MAX", RECORD_MAX),
        ("MOMENTS_MAX", 8 * MOMENTS_MAX),
        ("ZONES_MAX", time_zone_max),
        ("WINDOWS_MAX", dst_offset_max),
    ];
    assert_eq!(sizes(), constants.map(|(name, n)| (name, n as u64)));
}

#[test]
fn no_other_macro() {
    let called: Vec<&str> = by_calls().into_iter().map(|(name, _)| name).collect();
    // these are compared whole, each with its own list
    let groups = ["ATTRIBUTE_", "EVENT_", "GRANULARITY_", "SOURCE_"];
    for name in defined().keys() {
        let held = called.contains(&name.as_str()) || ["REPORT", "EMIT"].contains(&name.as_str());
        assert!(held || groups.iter().any(|g| name.starts_with(g)), "{name}");
    }
}
