//! The page that says how an image is laid out: its tables leave no byte out, and say where the parts stand.

mod common;

use common::reference::image::{
    CLIENT, CLOCK, GENERATION, IMAGE_SIZE, STORE, TABLE, TIMER, WINDOWS, WINDOW_COUNT, WINDOW_LIMIT, ZONES, ZONE_COUNT, ZONE_LIMIT,
};

const PAGE: &str = include_str!("../../docs/IMAGE.md");

/// A row of a table: where it stands, how many bytes it has, and what it is.
type Row = (usize, usize, &'static str);

/// The rows of the table behind these words.
fn table(words: &str) -> Vec<Row> {
    let (_, behind) = PAGE.split_once(words).unwrap_or_else(|| panic!("{words}"));
    let rows = behind.lines().skip_while(|line| !line.starts_with("|--:")).skip(1);
    rows.take_while(|line| line.starts_with('|'))
        .map(|line| {
            let cells: Vec<&str> = line.split('|').map(str::trim).collect();
            (cells[1].parse().unwrap(), cells[2].parse().unwrap(), cells[3])
        })
        .collect()
}

/// How many bytes the rows have, each of which begins where the one before it ends.
fn size(rows: &[Row]) -> usize {
    rows.iter().fold(0, |end, (at, bytes, what)| {
        assert_eq!(*at, end, "{what}");
        end + bytes
    })
}

/// Where the row that begins with these words stands, and how many bytes it has.
fn place(rows: &[Row], words: &str) -> (usize, usize) {
    let row = rows.iter().find(|(_, _, what)| what.starts_with(words));
    row.map(|(at, bytes, _)| (*at, *bytes)).unwrap_or_else(|| panic!("{words}"))
}

#[test]
fn the_parts_of_an_image() {
    let image = table("## The layout");
    assert_eq!(size(&image), IMAGE_SIZE);
    assert_eq!(place(&image, "whether there is a list store").0, STORE);
    for (part, at) in [("clock", CLOCK), ("client", CLIENT), ("timer", TIMER), ("table", TABLE)] {
        let rows = table(&format!("The {part}, from {at} on:"));
        assert_eq!(place(&image, &format!("the {part}")), (at, size(&rows)));
    }
}

#[test]
fn the_places_of_the_table() {
    let rows = table(&format!("The table, from {TABLE} on:"));
    for (what, at) in [
        ("zone limit", ZONE_LIMIT),
        ("window limit", WINDOW_LIMIT),
        ("how many zones", ZONE_COUNT),
        ("how many windows", WINDOW_COUNT),
        ("generation", GENERATION),
        ("8 zones, 80 bytes each", ZONES),
        ("16 windows, 24 bytes each", WINDOWS),
    ] {
        assert_eq!(TABLE + place(&rows, what).0, at, "{what}");
    }
}
