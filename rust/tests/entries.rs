//! Sections that the crate writes, and names that it reads.

mod common;

use common::reference::image::{put_zones, TABLE};
use common::{made, windows, zone, zones, Random};
use timesync::{
    encode_dst_offsets, encode_time_zones, Controller, DSTOffsetEntry, Limits, Refusal, TimeZoneEntry, DST_OFFSET_SECTION_MAX, RECORD_MAX,
    TIME_ZONE_NAME_MAX, TIME_ZONE_SECTION_MAX,
};

type ZoneList<'a> = Vec<(i32, u64, Option<&'a str>)>;
type WindowList = Vec<(i32, u64, Option<u64>)>;

fn zone_entries<'a>(list: &ZoneList<'a>) -> Vec<TimeZoneEntry<'a>> {
    let entry = |&(offset, valid_at, name): &(i32, u64, Option<&'a str>)| TimeZoneEntry { offset, valid_at, name };
    list.iter().map(entry).collect()
}

fn window_entries(list: &WindowList) -> Vec<DSTOffsetEntry> {
    let entry = |&(offset, valid_starting, valid_until): &(i32, u64, Option<u64>)| DSTOffsetEntry {
        offset,
        valid_starting,
        valid_until,
    };
    list.iter().map(entry).collect()
}

/// A function that writes a section.
type Encode<T> = for<'o> fn(&[T], &'o mut [u8]) -> Result<&'o [u8], Refusal>;

/// Holds what was written to a section, in as much room as it needs, in more and in one byte less.
fn held<T>(entries: &[T], encode: Encode<T>, section: &[u8]) {
    let mut exact = vec![0x55; section.len()];
    assert_eq!(encode(entries, &mut exact), Ok(section));
    let mut more = vec![0x55; section.len() + 9];
    assert_eq!(encode(entries, &mut more), Ok(section));
    assert_eq!(more[section.len()..], [0x55; 9]);
    let mut less = vec![0x55; section.len() - 1];
    assert_eq!(encode(entries, &mut less), Err(Refusal::NoSpace));
    assert!(less.iter().all(|byte| *byte == 0x55));
}

#[test]
fn written_as_the_commands_read() {
    let names = [None, Some(""), Some("Europe/Berlin"), Some("時間"), Some("n")];
    let mut random = Random::new(7);
    for count in 0..300 {
        let zone_list: ZoneList = (0..count % 20)
            .map(|i| (random.next() as i32, random.next(), names[i % 5]))
            .collect();
        held(&zone_entries(&zone_list), encode_time_zones, &zones(&zone_list));
        let until = |i: usize, random: &mut Random| (i % 3 != 0).then(|| random.next());
        let window_list: WindowList = (0..count % 20)
            .map(|i| (random.next() as i32, random.next(), until(i, &mut random)))
            .collect();
        held(&window_entries(&window_list), encode_dst_offsets, &windows(&window_list));
    }
}

#[test]
fn the_longest_sections() {
    let name = "n".repeat(TIME_ZONE_NAME_MAX);
    let zone_list: ZoneList = (0..8).map(|i| (0, i, Some(name.as_str()))).collect();
    let window_list: WindowList = (0..16).map(|i| (0, 2 * i, Some(2 * i + 1))).collect();
    let (mut zone_section, mut window_section) = ([0; TIME_ZONE_SECTION_MAX], [0; DST_OFFSET_SECTION_MAX]);
    let zone_section = encode_time_zones(&zone_entries(&zone_list), &mut zone_section).unwrap();
    let window_section = encode_dst_offsets(&window_entries(&window_list), &mut window_section).unwrap();
    assert_eq!(zone_section.len() + window_section.len(), RECORD_MAX);
    // and both are accepted
    let mut c = Controller::new(Some(Limits::LARGEST), 0, 0).unwrap();
    let mut record = [0; RECORD_MAX];
    let taken = c.handler_mut().handle_set_time_zone(zone_section, &mut record).carry_out(|_| ());
    assert_eq!(taken, Ok(()));
    let taken = c.handler_mut().handle_set_dst_offset(window_section, &mut record).carry_out(|_| ());
    assert_eq!(taken, Ok(()));
    // what is listed is written as it was sent
    let listed: Vec<_> = (0..8).map(|i| c.handler().time_zone(i).unwrap()).collect();
    let again: Vec<_> = listed.iter().map(|zone| zone.as_entry()).collect();
    assert_eq!(again, zone_entries(&zone_list));
}

#[test]
fn what_no_command_takes() {
    // a name of 65 bytes, and more entries than a section can count
    let long = "n".repeat(TIME_ZONE_NAME_MAX + 1);
    let mut out = [0x55; 8192];
    let list = zone_entries(&vec![(0, 0, None), (0, 1, Some(&long))]);
    assert_eq!(encode_time_zones(&list, &mut out), Err(Refusal::ConstraintError));
    let (many_zones, many_windows) = ([TimeZoneEntry::default(); 256], [DSTOffsetEntry::default(); 256]);
    assert_eq!(encode_time_zones(&many_zones, &mut out), Err(Refusal::ResourceExhausted));
    assert_eq!(encode_dst_offsets(&many_windows, &mut out), Err(Refusal::ResourceExhausted));
    assert_eq!(out, [0x55; 8192]);
    assert_eq!(encode_time_zones(&many_zones[1..], &mut out).map(|section| section[0]), Ok(255));
    assert_eq!(encode_dst_offsets(&many_windows[1..], &mut out).map(|section| section[0]), Ok(255));
}

/// The name that is read of a zone with these bytes in its place.
fn name_of(bytes: &[u8]) -> timesync::Name {
    let mut image = made(Some((1, 1)));
    put_zones(&mut image, &[zone(0, 0, Some(&"n".repeat(bytes.len())))]);
    let place = TABLE + 16 + 4 + 8 + 2;
    image[place..place + bytes.len()].copy_from_slice(bytes);
    let controller = Controller::from_image(image).unwrap();
    let (_, name) = controller.store().active_time_zone(0).unwrap();
    name.unwrap()
}

#[test]
fn names_as_text() {
    let name = name_of("Zürich".as_bytes());
    assert_eq!((name.as_str(), &*name, name.as_bytes()), ("Zürich", "Zürich", "Zürich".as_bytes()));
    assert_eq!((format!("{name}"), format!("{name:?}")), ("Zürich".into(), "\"Zürich\"".into()));
    assert_eq!((format!("{name:>8}"), name.len()), ("  Zürich".into(), 7));
    // of damaged bytes what is well formed at the front, and all bytes
    let damaged = name_of(b"Z\xC3\xBC\xFFrich");
    assert_eq!((damaged.as_str(), damaged.as_bytes()), ("Zü", &b"Z\xC3\xBC\xFFrich"[..]));
    let cut = name_of(b"Z\xC3");
    assert_eq!(cut.as_str(), "Z");
    assert_ne!(cut, name_of(b"Z"));
    assert_eq!(name_of(b"").as_str(), "");
}

#[test]
fn listed_windows_are_written_as_they_were_sent() {
    let sent = [(3600, 1, Some(2)), (-1, 2, None)];
    let mut c = Controller::new(Some(Limits::DEVICE), 0, 0).unwrap();
    let mut record = [0; RECORD_MAX];
    let taken = c
        .handler_mut()
        .handle_set_dst_offset(&windows(&sent), &mut record)
        .carry_out(|_| ());
    assert_eq!(taken, Ok(()));
    let listed = [0, 1].map(|i| c.handler().dst_offset(i).unwrap());
    let mut out = [0; DST_OFFSET_SECTION_MAX];
    assert_eq!(encode_dst_offsets(&listed, &mut out), Ok(&windows(&sent)[..]));
}
