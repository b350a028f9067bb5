//! A whole history on a new list store, by the port.
use timesync::entry;

use crate::lent::{moments, Lent, NUMBER, SIGNED};
use crate::port::{Answer, MOMENTS_MAX, RECORD_MAX};

/// The lists that a history leaves, walked from a moment and looked at in another
#[derive(Debug, Clone, PartialEq, Eq)]
pub struct Replayed {
    pub moments: Vec<u64>,
    pub zone: (i32, Option<Vec<u8>>),
    pub window: Option<i32>,
    pub usable: bool,
    pub next: Option<u64>,
    pub record: Vec<u8>,
    pub generation: u64,
}

/// How many bytes are lent for the moments, the name and the record
#[derive(Debug, Clone, Copy)]
pub struct Rooms {
    pub moments: usize,
    pub name: usize,
    pub record: usize,
}

/// Where everything has room
pub const ROOMS: Rooms = Rooms { moments: MOMENTS_MAX, name: timesync::TIME_ZONE_NAME_MAX, record: RECORD_MAX };

/// What is copied, beside the number that was returned
struct Lents {
    moments: Lent,
    name: Lent,
    record: Lent,
    numbers: [u64; 9],
    offsets: [i32; 2],
}

impl Lents {
    fn new(rooms: Rooms) -> Self {
        let (moments, name, record) = (Lent::new(rooms.moments), Lent::new(rooms.name), Lent::new(rooms.record));
        Self { moments, name, record, numbers: [NUMBER; 9], offsets: [SIGNED; 2] }
    }

    fn run(&mut self, (z, w): (usize, usize), history: &[u8], start: u64, at: u64) -> u64 {
        let [steps, named, name_used, active, usable, has_next, next, used, generation] = &mut self.numbers;
        let [zone, window] = &mut self.offsets;
        let (moments, name, out) = (self.moments.slice(), self.name.slice(), self.record.slice());
        #[rustfmt::skip]
        let returned = entry::replay(
            z, w, history, start, at, moments, steps, name, zone, named, name_used, active, window, usable, has_next, next, out, used, generation,
        );
        returned
    }

    /// Whether nothing was written past what is copied, and every mark is 0 or 1 with 0 beside a 0
    fn clean(&self) -> bool {
        let [steps, named, name_used, active, usable, has_next, next, used, _] = self.numbers;
        let marks = [named, active, usable, has_next].iter().all(|mark| *mark <= 1);
        let absent = (named == 1 || name_used == 0) && (active == 1 || self.offsets[1] == 0) && (has_next == 1 || next == 0);
        let lengths = steps <= 40 && name_used <= 64 && used <= RECORD_MAX as u64;
        marks
            && absent
            && lengths
            && self.moments.clean(8 * (steps as usize + 1))
            && self.name.clean(name_used as usize)
            && self.record.clean(used as usize)
    }

    fn untouched(&self) -> bool {
        let numbers = self.numbers == [NUMBER; 9] && self.offsets == [SIGNED; 2];
        numbers && self.moments.clean(0) && self.name.clean(0) && self.record.clean(0)
    }
}

/// The number of a refusal, or what is left; a call that writes what it must not write counts as the number 255, which no refusal has
pub fn replay(limits: (usize, usize), history: &[u8], start: u64, at: u64, rooms: Rooms) -> Answer<Replayed> {
    let mut lent = Lents::new(rooms);
    let returned = lent.run(limits, history, start, at);
    if returned != 0 {
        return Err(if lent.untouched() { returned } else { 255 });
    }
    if !lent.clean() {
        return Err(255);
    }
    let [steps, named, name_used, active, usable, has_next, next, used, generation] = lent.numbers;
    Ok(Replayed {
        moments: moments(&lent.moments.front(8 * (steps as usize + 1))),
        zone: (lent.offsets[0], (named == 1).then(|| lent.name.front(name_used as usize))),
        window: (active == 1).then_some(lent.offsets[1]),
        usable: usable == 1,
        next: (has_next == 1).then_some(next),
        record: lent.record.front(used as usize),
        generation,
    })
}
