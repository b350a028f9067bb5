//! Images: new, short, long, without their magic and damaged. Every call is held to the reference, on memory that ends where its slices
//! end, or begins where they begin.

mod common;

use common::reference::image::{GENERATION, IMAGE_SIZE, TABLE, WINDOW_COUNT};
use common::reference::is_image;
use common::{busy, every_call, full, made, reference, Call, Lent, Library, Random};
use timesync::entry;

/// The bytes of the magic.
const MAGIC: std::ops::Range<usize> = 0..4;

/// The number that a call on a buffer that is not an image answers: fabric index 0 comes before the image.
fn refused(call: &Call) -> u64 {
    match call {
        Call::SetTrustedTimeSource(0, ..) => 4,
        _ => 8,
    }
}

/// After a refusal all that was lent is as it was, but for the windows that a SetDSTOffset refused with 2 or 3 empties and the change that it
/// counts.
fn as_it_was(call: &Call, returned: u64, before: &Lent, after: &Lent) {
    let mut expected = before.clone();
    if matches!((call, returned & 0xFF), (Call::SetDstOffset(_), 2 | 3)) {
        for at in [WINDOW_COUNT..WINDOW_COUNT + 1, GENERATION..GENERATION + 4] {
            expected.image[at.clone()].copy_from_slice(&after.image[at]);
        }
    }
    assert!(*after == expected, "{call:?}");
}

/// Each call does what the reference does. On a buffer that is not an image it is refused; an image is one still when the call is over.
fn held(library: &mut Library, calls: &[Call], image: &[u8]) {
    for call in calls {
        let before = Lent::new(image, 962);
        let mut lent = before.clone();
        let returned = library.held(call, &mut lent);
        if !is_image(image) {
            assert_eq!(returned, refused(call), "{call:?}");
        }
        if returned & 0xFF != 0 {
            as_it_was(call, returned, &before, &lent);
        }
        assert_eq!(is_image(&lent.image), is_image(image), "{call:?}");
    }
}

fn with(image: &[u8], at: usize, value: u8) -> Vec<u8> {
    let mut damaged = image.to_vec();
    damaged[at] = value;
    damaged
}

#[test]
fn size() {
    assert_eq!(entry::image_size(), 1136);
    assert_eq!(timesync::IMAGE_SIZE, 1136);
}

#[test]
fn new_images() {
    // every byte is written, whatever was there
    for fill in [0, 0x5A, 0xFF] {
        for list_store in [0, 1, 255] {
            let (mut image, mut expected) = (vec![fill; IMAGE_SIZE], vec![0; IMAGE_SIZE]);
            assert_eq!(entry::new(&mut image, list_store, 5, 9, 0x0102_0304_0506_0708, 61_000_000), 0);
            expected[..5].copy_from_slice(&[b'T', b'M', b'S', b'1', list_store.min(1)]);
            // the clock's moments, the client's period and its first retry
            expected[16..24].copy_from_slice(&[8, 7, 6, 5, 4, 3, 2, 1]);
            expected[24..32].copy_from_slice(&[8, 7, 6, 5, 4, 3, 2, 1]);
            expected[48..56].copy_from_slice(&61_000_000u64.to_le_bytes());
            expected[56..64].copy_from_slice(&60_000_000u64.to_le_bytes());
            if list_store != 0 {
                expected[96..98].copy_from_slice(&[5, 9]);
            }
            assert_eq!(image, expected);
        }
    }
}

#[test]
fn whole_images() {
    for mut library in [Library::new(), Library::at_front()] {
        for image in [busy(), full(), made(Some((1, 1))), made(Some((8, 16))), made(None)] {
            assert!(is_image(&image));
            held(&mut library, &every_call(), &image);
        }
    }
}

#[test]
fn short_and_zeroed() {
    let (mut library, calls, image) = (Library::new(), every_call(), busy());
    for len in [0, 1, 3, 4, 5, 8, 47, 48, 95, 96, 111, 112, 751, 752, 1120, 1134, 1135] {
        assert!(!is_image(&image[..len]));
        held(&mut library, &calls, &image[..len]);
    }
    for zeroed in [vec![0; IMAGE_SIZE], vec![0; 2 * IMAGE_SIZE]] {
        assert!(!is_image(&zeroed));
        held(&mut library, &calls, &zeroed);
    }
}

#[test]
fn long_images() {
    let (mut library, calls) = (Library::new(), every_call());
    // the memory ends with the slice, so these images begin at every alignment
    for past in (1..=8).chain([500]) {
        let mut image = busy();
        image.extend(std::iter::repeat(0xC3).take(past));
        for call in &calls {
            let mut lent = Lent::new(&image, 962);
            library.held(call, &mut lent);
            assert!(lent.image[IMAGE_SIZE..].iter().all(|b| *b == 0xC3), "{call:?}");
        }
    }
}

#[test]
fn every_value_of_every_byte_of_the_magic() {
    let (mut library, calls, image) = (Library::new(), every_call(), busy());
    for at in MAGIC {
        for value in (0..=255).filter(|v| *v != image[at]) {
            let damaged = with(&image, at, value);
            assert!(!is_image(&damaged));
            held(&mut library, &calls, &damaged);
        }
    }
}

#[test]
fn only_the_magic_makes_an_image() {
    let image = busy();
    for at in 0..IMAGE_SIZE {
        for value in [0, 1, 2, 3, 4, 5, 8, 9, 16, 17, 64, 65, 128, 255] {
            let mut read = 0;
            let refused = MAGIC.contains(&at) && image[at] != value;
            let returned = entry::utc_time_source(&with(&image, at, value), &mut read);
            assert_eq!(returned, if refused { 8 } else { 0 }, "byte {at}, value {value}");
        }
    }
}

#[test]
fn every_value_of_every_byte_before_the_entries() {
    let (mut library, image) = (Library::new(), busy());
    // those that read the lists among them
    let calls: Vec<Call> = every_call().into_iter().step_by(3).chain([Call::Record, Call::Walk(0)]).collect();
    for at in MAGIC.end..TABLE + 16 {
        for value in 0..=255 {
            held(&mut library, &calls, &with(&image, at, value));
        }
    }
}

#[test]
fn every_byte_damaged() {
    let (mut library, calls) = (Library::new(), every_call());
    for image in [busy(), full()] {
        for at in 0..IMAGE_SIZE {
            for value in [0, 1, 2, 64, 65, 255] {
                if image[at] != value {
                    held(&mut library, &calls, &with(&image, at, value));
                }
            }
        }
    }
}

#[test]
fn any_bytes_behind_the_magic() {
    let (mut random, calls) = (Random::new(0x9E37_79B9_7F4A_7C15), every_call());
    for mut library in [Library::new(), Library::at_front()] {
        for round in 0..90 {
            let mut image = busy();
            for byte in &mut image[MAGIC.end..] {
                // all values, or few different ones, so that moments meet; and mostly with a list store
                *byte = match round % 3 {
                    0 => random.next() as u8,
                    1 => random.below(2) as u8,
                    _ => [0, 1, 3, 255][random.below(4) as usize],
                };
            }
            held(&mut library, &calls, &image);
        }
    }
}

#[test]
fn lists_that_no_command_wrote() {
    // counts that are held at the places there are, and entries of any bytes
    let (mut library, calls, mut random) = (Library::new(), every_call(), Random::new(0x9E37_79B9_7F4A_7C15));
    for round in 0..60 {
        let mut image = busy();
        for byte in &mut image[TABLE..] {
            *byte = if round % 2 == 0 {
                random.next() as u8
            } else {
                random.below(2) as u8
            };
        }
        let (limits, counts) = (
            [[8, 16], [255, 255], [0, 0]][round % 3],
            [[8, 16], [9, 17], [255, 255]][round / 3 % 3],
        );
        image[TABLE..TABLE + 2].copy_from_slice(&limits);
        image[TABLE + 2..TABLE + 4].copy_from_slice(&counts);
        held(&mut library, &calls, &image);
    }
}

#[test]
fn any_bytes_as_a_request() {
    let (mut library, image, mut random) = (Library::new(), busy(), Random::new(0x9E37_79B9_7F4A_7C15));
    for length in 0..1100 {
        // a small count in front, so that some of them get further than the first entry
        let mut request: Vec<u8> = (0..length).map(|_| random.next() as u8).collect();
        if let Some(count) = request.first_mut() {
            *count %= 4;
        }
        for call in [
            Call::SetTimeZone(request.clone()),
            Call::SetDstOffset(request.clone()),
            Call::LoadLists(1, request),
        ] {
            library.held(&call, &mut Lent::new(&image, 962));
        }
    }
}

#[test]
fn every_room() {
    // one byte too few is refused and changes nothing, and bytes past a copy stay; both by the reference
    let mut library = Library::new();
    let image = busy();
    let calls = [
        Call::Record,
        Call::Walk(0),
        Call::Walk(u64::MAX),
        Call::TimeZone(0),
        Call::TimeZone(1),
        Call::TimeZone(2),
        Call::ActiveTimeZone(0),
        Call::SetTimeZone(common::zones(&[(0, 0, Some("UTC"))])),
        Call::SetDstOffset(common::windows(&[(0, 0, None)])),
        Call::SetDstOffset(common::windows(&[(0, 1, Some(1))])),
        Call::Look(60 * common::DAY),
        Call::Look(0),
    ];
    for call in &calls {
        for room in 0..140 {
            let before = Lent::new(&image, room);
            let mut lent = before.clone();
            if library.held(call, &mut lent) == 9 {
                assert!(lent == before, "{call:?} with {room}");
            }
        }
    }
}

#[test]
fn sequences() {
    // calls one after the other, from a new image on, or from one whose bytes are anything
    let (mut library, calls, mut random) = (Library::new(), every_call(), Random::new(0x2545_F491_4F6C_DD1D));
    for round in 0..60 {
        let limits = [Some((1, 1)), Some((2, 2)), Some((8, 16)), None][round % 4];
        let mut image = made(limits);
        if round % 3 == 0 {
            image[MAGIC.end..].iter_mut().for_each(|b| *b = random.next() as u8);
        }
        for _ in 0..200 {
            let call = &calls[random.below(calls.len() as u64) as usize];
            let room = if random.below(16) == 0 { 40 } else { 962 };
            let mut lent = Lent::new(&image, room);
            library.held(call, &mut lent);
            image = lent.image;
            assert!(is_image(&image), "{call:?}");
        }
    }
}

#[test]
fn the_reference_makes_the_same_image() {
    for limits in [Some((1, 16)), Some((8, 1)), None] {
        let mut expected = vec![0xEE; IMAGE_SIZE];
        let (zones, windows) = limits.unwrap_or((0, 0));
        let made_by = reference::new(
            &mut expected,
            u8::from(limits.is_some()),
            zones,
            windows,
            7 * common::DAY,
            600_000_000,
        );
        assert_eq!((made_by, made(limits)), (0, expected));
    }
}
