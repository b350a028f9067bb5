//! What the tests share: lists as bytes, lent memory with nothing behind it, calls as values, and images to start from.
#![allow(dead_code, unused_imports, clippy::too_many_arguments)]

mod calls;
mod images;
mod pages;
#[path = "../reference/mod.rs"]
pub mod reference;

pub use calls::{taken, Call, Lent, Library};
pub use images::{busy, every_call, full, lists_of, made, prepared, DAY, HOUR};
pub use pages::Guarded;

use reference::{windows_section, zones_section, Window, Zone};

pub fn zone(offset: i32, start: u64, name: Option<&str>) -> Zone {
    Zone {
        offset,
        start,
        name: name.map(|n| n.as_bytes().to_vec()),
    }
}

pub fn window(offset: i32, start: u64, until: Option<u64>) -> Window {
    Window { offset, start, until }
}

pub fn zones(list: &[(i32, u64, Option<&str>)]) -> Vec<u8> {
    zones_section(&list.iter().map(|z| zone(z.0, z.1, z.2)).collect::<Vec<_>>())
}

pub fn windows(list: &[(i32, u64, Option<u64>)]) -> Vec<u8> {
    windows_section(&list.iter().map(|w| window(w.0, w.1, w.2)).collect::<Vec<_>>())
}

/// Numbers that look random, the same in every run.
pub struct Random(u64);

impl Random {
    pub fn new(seed: u64) -> Self {
        Random(seed)
    }

    pub fn next(&mut self) -> u64 {
        self.0 ^= self.0 << 13;
        self.0 ^= self.0 >> 7;
        self.0 ^= self.0 << 17;
        self.0
    }

    /// One below `n`.
    pub fn below(&mut self, n: u64) -> u64 {
        (self.next() >> 20) % n
    }
}
