//! `replay` against the reference, on histories good and damaged, and what it says of some by hand.

mod common;

use common::{reference, windows, zones, Guarded, Random, DAY};
use timesync::{entry, replay, Limits, Refusal, Replayed, RECORD_MAX};

/// A history, and the moments that it is walked from and looked at.
#[derive(Debug, Clone, Copy)]
struct History<'a> {
    limits: (usize, usize),
    calls: &'a [u8],
    start: u64,
    at: u64,
}

impl<'a> History<'a> {
    fn new(limits: (usize, usize), calls: &'a [u8], start: u64, at: u64) -> Self {
        History { limits, calls, start, at }
    }
}

/// All that a replay is lent: moments, name and record with some room, the numbers, and the offsets of the zone and of the window.
#[derive(Debug, Clone, PartialEq, Eq)]
struct Lent {
    moments: Vec<u8>,
    name: Vec<u8>,
    out: Vec<u8>,
    n: [u64; 9],
    offsets: [i32; 2],
}

/// The room that always suffices: for moments, name and record.
const ROOMS: [usize; 3] = [328, 64, 962];

impl Lent {
    fn new([moments, name, out]: [usize; 3]) -> Self {
        Lent {
            moments: vec![0xA5; moments],
            name: vec![0x5A; name],
            out: vec![0xC3; out],
            n: [0xDEAD_BEEF_0000_0001; 9],
            offsets: [-77_777_777; 2],
        }
    }
}

macro_rules! runner {
    ($name:ident, $m:ident) => {
        fn $name(
            h: History,
            calls: &[u8],
            moments: &mut [u8],
            name: &mut [u8],
            out: &mut [u8],
            n: &mut [u64; 9],
            offsets: &mut [i32; 2],
        ) -> u64 {
            let (z, w) = h.limits;
            let [steps, named, name_used, active, usable, has_next, next, used, generation] = n;
            let [zone, window] = offsets;
            $m::replay(
                z, w, calls, h.start, h.at, moments, steps, name, zone, named, name_used, active, window, usable, has_next, next, out,
                used, generation,
            )
        }
    };
}

runner!(run_library, entry);
runner!(run_reference, reference);

/// Calls the library with slices that end where a page ends.
struct Pages([Guarded; 4]);

impl Pages {
    fn new() -> Self {
        Pages([Guarded::new(), Guarded::new(), Guarded::new(), Guarded::new()])
    }

    fn run(&mut self, h: History, lent: &mut Lent) -> u64 {
        let [p, q, r, s] = &mut self.0;
        let Lent {
            moments,
            name,
            out,
            n,
            offsets,
        } = lent;
        p.lend(&mut h.calls.to_vec(), |calls| {
            q.lend(moments, |moments| {
                r.lend(name, |name| {
                    s.lend(out, |out| run_library(h, calls, moments, name, out, n, offsets))
                })
            })
        })
    }

    /// Holds the library to the reference; after a refusal all that was lent is as it was.
    fn held(&mut self, h: History, rooms: [usize; 3]) -> u64 {
        let before = Lent::new(rooms);
        let (mut lent, mut due) = (before.clone(), before.clone());
        let expected = run_reference(
            h,
            h.calls,
            &mut due.moments,
            &mut due.name,
            &mut due.out,
            &mut due.n,
            &mut due.offsets,
        );
        let returned = self.run(h, &mut lent);
        assert_eq!(returned, expected, "{h:?}");
        assert_eq!(lent, due, "{h:?}");
        if returned != 0 {
            assert_eq!(lent, before, "{h:?}");
        }
        returned
    }
}

fn sized(kind: u8, bytes: &[u8]) -> Vec<u8> {
    [&[kind][..], &(bytes.len() as u32).to_le_bytes(), bytes].concat()
}

fn berlin() -> Vec<u8> {
    zones(&[(3600, 0, Some("Europe/Berlin")), (7200, 30 * DAY, None)])
}

fn summers() -> Vec<u8> {
    windows(&[(3600, 10 * DAY, Some(20 * DAY)), (1800, 25 * DAY, Some(40 * DAY))])
}

#[test]
fn cut_and_damaged() {
    let mut pages = Pages::new();
    let history = [
        sized(0, &berlin()),
        sized(1, &summers()),
        vec![3],
        sized(2, &[berlin(), summers()].concat()),
        vec![4, 3],
    ]
    .concat();
    let reset = history.len() - 2;
    for cut in 0..=history.len() {
        pages.held(History::new((2, 2), &history[..cut], 5, 12 * DAY), ROOMS);
        pages.held(History::new((8, 16), &history[..cut], u64::MAX, 0), ROOMS);
    }
    for at in 0..reset {
        for value in [0, 1, 2, 3, 4, 5, 128, 255] {
            let mut damaged = history[..reset].to_vec();
            damaged[at] = value;
            pages.held(History::new((2, 2), &damaged, 0, 26 * DAY), ROOMS);
        }
    }
    for room in 0..100 {
        for rooms in [[room, 64, 962], [328, room, 962], [328, 64, room]] {
            pages.held(History::new((2, 2), &history[..reset], 0, 0), rooms);
        }
    }
}

#[test]
fn limits() {
    let mut pages = Pages::new();
    let call = sized(1, &windows(&[(0, 1, Some(2)), (0, 2, None)]));
    for zone_limit in [0, 1, 2, 8, 9, 256, usize::MAX] {
        for window_limit in [0, 1, 2, 16, 17, 257, usize::MAX] {
            let returned = pages.held(History::new((zone_limit, window_limit), &call, 0, 1), ROOMS);
            let allowed = (1..=8).contains(&zone_limit) && (1..=16).contains(&window_limit);
            assert_eq!(returned, if allowed { 0 } else { 8 });
        }
    }
    // a length of 4 bytes that is far past the end
    let far = History::new((1, 1), &[0, 0xFF, 0xFF, 0xFF, 0xFF, 1, 2, 3], 0, 0);
    assert_eq!(pages.held(far, ROOMS), 1);
}

#[test]
fn the_first_of_two() {
    // 8 before 1 before 9
    let mut pages = Pages::new();
    let mut run = |limits, calls, rooms| {
        pages.held(
            History {
                limits,
                calls,
                start: 0,
                at: 0,
            },
            rooms,
        )
    };
    assert_eq!(run((0, 1), &[9], [0, 0, 0]), 8);
    assert_eq!(run((8, 17), &[9], [0, 0, 0]), 8);
    assert_eq!(run((8, 16), &[9], [0, 0, 0]), 1);
    assert_eq!(run((8, 16), &[0, 2, 0, 0, 0, 7], [0, 0, 0]), 1);
    assert_eq!(run((8, 16), &[], [7, 64, 962]), 9);
    assert_eq!(run((8, 16), &[], [328, 64, 1]), 9);
    assert_eq!(run((8, 16), &[4, 4, 3], [8, 0, 2]), 0);
    let named = sized(0, &zones(&[(0, 0, Some("abc"))]));
    assert_eq!(run((8, 16), &named, [8, 2, 962]), 9);
    assert_eq!(run((8, 16), &named, [8, 3, 962]), 0);
}

/// A call of some kind, with lists that meet in a few moments.
fn any_call(random: &mut Random) -> Vec<u8> {
    let mut starts: Vec<u64> = (0..random.below(5)).map(|_| random.below(9)).collect();
    starts.sort_unstable();
    let names = [None, Some(""), Some("Ä"), Some("a longer one")];
    let mut zone_list = vec![];
    let mut window_list = vec![];
    for (i, s) in starts.iter().enumerate() {
        let name = names[random.below(4) as usize];
        zone_list.push((random.below(60_000) as i32, s * (i.min(1) as u64), name));
        let until = (random.below(9) != 0).then_some(2 * s + 1 + random.below(2));
        window_list.push((random.below(3) as i32, 2 * s, until));
    }
    match random.below(6) {
        0 | 5 => sized(0, &zones(&zone_list)),
        1 => sized(1, &windows(&window_list)),
        2 => sized(2, &[zones(&zone_list), windows(&window_list)].concat()),
        kind => vec![kind as u8],
    }
}

#[test]
fn many_calls() {
    let (mut pages, mut random) = (Pages::new(), Random::new(0x1234_5678_9ABC_DEF1));
    for _ in 0..600 {
        let calls: Vec<u8> = (0..random.below(8)).flat_map(|_| any_call(&mut random)).collect();
        let limits = (1 + random.below(8) as usize, 1 + random.below(16) as usize);
        let (start, at) = (random.below(12), random.below(20));
        pages.held(History::new(limits, &calls, start, at), ROOMS);
    }
}

// ---- by hand, with the crate's own types

/// What a history leaves, and the record.
fn ran(calls: &[Vec<u8>], at: u64) -> Result<(Replayed, Vec<u8>), Refusal> {
    let mut out = [0; RECORD_MAX];
    let replayed = replay(Limits::LARGEST, &calls.concat(), 0, at, &mut out)?;
    Ok((replayed, out[..replayed.record_len].to_vec()))
}

#[test]
fn what_is_left() {
    let record = [berlin(), summers()].concat();
    let left = |calls: &[Vec<u8>]| {
        let (replayed, record) = ran(calls, 0).unwrap();
        (replayed.walk.moments().to_vec(), record, replayed.generation)
    };
    let moments = vec![0, 10 * DAY, 20 * DAY, 25 * DAY, 30 * DAY, 40 * DAY];
    let commands = [sized(0, &berlin()), sized(1, &summers())];
    assert_eq!(left(&commands), (moments.clone(), record.clone(), 2));
    let loads = [sized(2, &record), vec![3]];
    assert_eq!(left(&loads), (moments, record.clone(), 0));
    let refused = [sized(2, &record), sized(1, &windows(&[(0, 5, Some(5))]))];
    assert_eq!(left(&refused), (vec![0, 30 * DAY], [berlin(), vec![0]].concat(), 1));
    assert_eq!(left(&[sized(2, &record), vec![4]]), (vec![0], vec![0, 0], 1));
}

#[test]
fn what_is_looked_up() {
    let calls = [sized(0, &berlin()), sized(1, &summers())];
    for (at, zone, named, window, usable, next) in [
        (0, 3600, true, None, true, Some(10 * DAY)),
        (10 * DAY, 3600, true, Some(3600), true, Some(20 * DAY)),
        (20 * DAY, 3600, true, None, true, Some(25 * DAY)),
        (30 * DAY, 7200, false, Some(1800), true, Some(40 * DAY)),
        (40 * DAY, 7200, false, None, false, None),
    ] {
        let (replayed, _) = ran(&calls, at).unwrap();
        let (offset, name) = replayed.time_zone;
        assert_eq!((offset, name.as_deref()), (zone, named.then_some("Europe/Berlin")), "{at}");
        assert_eq!(
            (replayed.dst_offset, replayed.dst_usable, replayed.next_transition),
            (window, usable, next),
            "{at}"
        );
    }
    // nothing was sent: offset 0, no name, no window, no transition
    let (replayed, _) = ran(&[], 5).unwrap();
    assert_eq!((replayed.time_zone, replayed.dst_offset), ((0, None), None));
    assert_eq!((replayed.dst_usable, replayed.next_transition), (false, None));
}

#[test]
fn refusals() {
    assert_eq!(ran(&[vec![5]], 0).err(), Some(Refusal::Unreadable));
    let none = Limits {
        time_zone_max: 0,
        dst_offset_max: 1,
    };
    assert_eq!(replay(none, &[], 0, 0, &mut []).err(), Some(Refusal::BadLimits));
    assert_eq!(replay(Limits::DEVICE, &[], 0, 0, &mut []).err(), Some(Refusal::NoSpace));
}
