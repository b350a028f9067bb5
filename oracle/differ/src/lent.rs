//! What a call is lent to write to, with a pattern in it.

pub const GUARD: usize = 16;
pub const FILL: u8 = 0xA5;
pub const NUMBER: u64 = 0xA5A5_5A5A_0F0F_F0F0;
pub const SIGNED: i32 = 0x5A5A_0F0F;

/// A slice that is copied into: `room` bytes, and guard bytes past them
pub struct Lent {
    bytes: [u8; 1024],
    room: usize,
}

impl Lent {
    pub fn new(room: usize) -> Self {
        Self { bytes: [FILL; 1024], room }
    }
    pub fn slice(&mut self) -> &mut [u8] {
        &mut self.bytes[..self.room]
    }
    /// Whether nothing was written from `used` on
    pub fn clean(&self, used: usize) -> bool {
        used <= self.room && self.bytes[used..(self.room + GUARD).min(1024)].iter().all(|b| *b == FILL)
    }
    pub fn front(&self, used: usize) -> Vec<u8> {
        self.bytes[..used.min(self.room)].to_vec()
    }
}

/// Moments out of their bytes, 8 each
pub fn moments(bytes: &[u8]) -> Vec<u64> {
    bytes.chunks(8).map(|c| c.iter().rev().fold(0, |n, b| n << 8 | u64::from(*b))).collect()
}
