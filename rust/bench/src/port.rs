//! The port's sizes, and what its calls are lent.

pub const IMAGE: usize = timesync::IMAGE_SIZE;
pub const RECORD: usize = timesync::RECORD_MAX;
pub const MOMENTS: usize = 8 * timesync::MOMENTS_MAX;
pub const NAME: usize = timesync::TIME_ZONE_NAME_MAX;

pub type Image = [u8; IMAGE];

/// What a call is lent besides the image; each call writes the fields it needs.
#[repr(C)]
pub struct Out {
    pub a: u64,
    pub b: u64,
    pub c: u64,
    pub d: u64,
    pub e: u64,
    pub offset: i32,
    pub name: [u8; NAME],
    pub record: [u8; RECORD],
    pub moments: [u8; MOMENTS],
}

impl Out {
    pub fn new() -> Box<Self> {
        Box::new(Self {
            a: 0,
            b: 0,
            c: 0,
            d: 0,
            e: 0,
            offset: 0,
            name: [0; NAME],
            record: [0; RECORD],
            moments: [0; MOMENTS],
        })
    }
}
