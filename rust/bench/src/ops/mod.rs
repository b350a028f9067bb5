//! Every operation, on both sides and on the same inputs.
//!
//! Both sides are called functions: the port's are those of the archive, and each Rust function is called through one that is not inlined.

mod clock;
mod inputs;
mod lists;
mod lookups;
mod making;
mod readings;
mod rust;
mod steps;

use std::hint::black_box;

use oracle::dm::clusters::time_sync::{TimeSyncHandler, TimeZoneStore};
use oracle::driver::{set_tick, WindowArg, ZoneArg};
use oracle::rtc::Rtc;

use crate::port::{Image, Out};
use crate::shim::{clear, At};
use inputs::{BUILD, SET};
use making::leak;

pub type Work = Box<dyn FnMut() -> u64>;

/// A call, and what the loop does besides it, which is measured by itself and taken off
pub struct Side {
    pub work: Work,
    pub base: Work,
}

fn side(work: impl FnMut() -> u64 + 'static) -> Side {
    beside(work, || 0)
}

fn beside(work: impl FnMut() -> u64 + 'static, base: impl FnMut() -> u64 + 'static) -> Side {
    Side {
        work: Box::new(work),
        base: Box::new(base),
    }
}

/// A call of the Rust that writes to the shim's log
fn logged(mut work: impl FnMut() -> u64 + 'static) -> Side {
    beside(
        move || {
            clear();
            work()
        },
        || {
            clear();
            0
        },
    )
}

pub struct Op {
    pub name: &'static str,
    /// At most so many times the instructions of the Rust
    pub aim: f64,
    /// Whether both sides return the same number
    pub same: bool,
    pub port: Side,
    pub rust: Side,
}

impl Op {
    fn new(aim: f64, same: bool, name: &'static str, port: Side, rust: Side) -> Self {
        Op {
            name,
            aim,
            same,
            port,
            rust,
        }
    }

    /// A number or two out of the image, which the Rust has in a field
    fn reading(name: &'static str, port: Side, rust: Side) -> Self {
        Op::new(2.5, true, name, port, rust)
    }

    fn lookup(name: &'static str, port: Side, rust: Side) -> Self {
        Op::new(1.0, true, name, port, rust)
    }

    fn command(name: &'static str, port: Side, rust: Side) -> Self {
        Op::new(1.0, false, name, port, rust)
    }

    /// A request with names, which the Rust is handed decoded
    fn refused(name: &'static str, port: Side, rust: Side) -> Self {
        Op::new(5.0, false, name, port, rust)
    }

    fn step(name: &'static str, port: Side, rust: Side) -> Self {
        Op::new(1.0, false, name, port, rust)
    }
}

/// An image as a call is lent it: where it stands is hidden from the optimiser, its length is not
fn seen(image: &'static Image) -> &'static [u8] {
    black_box::<&Image>(image)
}

fn seen_mut(image: &mut Image) -> &mut [u8] {
    black_box::<&mut Image>(image)
}

/// A call of the port that may change this image
fn change_of(mut image: Box<Image>, mut call: impl FnMut(&mut [u8], &mut Out) -> u64 + 'static) -> Side {
    let mut o = Out::new();
    side(move || call(seen_mut(&mut image), &mut o))
}

/// Both sides at one pair of limits, every entry in use
struct Both<const Z: usize, const W: usize> {
    zones: &'static [ZoneArg],
    windows: &'static [WindowArg],
    /// In the last window and the last zone
    now: u64,
    /// When it is `now`
    tick: u64,
    image: &'static Image,
    at: At,
    rtc: &'static Rtc,
    store: &'static TimeZoneStore<Z, W>,
    handler: &'static TimeSyncHandler<'static>,
}

impl<const Z: usize, const W: usize> Both<Z, W> {
    fn new() -> Self {
        let (zones, windows) = (leak(inputs::zones(Z)), leak(inputs::windows(W)));
        oracle::driver::set_build_moment(BUILD);
        let at = making::context(making::flash(zones, windows));
        let store = making::store(zones, windows);
        let now = inputs::moment(windows);
        Both {
            zones,
            windows,
            now,
            tick: now - SET,
            image: Box::leak(making::image(Z, W, zones, windows)),
            at,
            rtc: leak(making::clock(at)),
            store,
            handler: making::handler(at, store),
        }
    }

    /// A store of its own, with the same lists
    fn new_store(&self) -> &'static TimeZoneStore<Z, W> {
        making::store(self.zones, self.windows)
    }

    /// A handler of its own
    fn new_handler(&self) -> &'static TimeSyncHandler<'static> {
        making::handler(self.at, self.new_store())
    }

    /// A reading of the port that answers one number
    fn number(&self, call: impl Fn(&[u8], &mut u64) -> u64 + 'static) -> Side {
        let (image, mut o) = (self.image, Out::new());
        side(move || call(seen(image), &mut o.a) + o.a)
    }

    /// A reading of the port that answers a mark and a number
    fn marked(&self, call: impl Fn(&[u8], &mut u64, &mut u64) -> u64 + 'static) -> Side {
        let (image, mut o) = (self.image, Out::new());
        side(move || call(seen(image), &mut o.a, &mut o.b) + o.b)
    }

    /// A reading of the port that answers more
    fn reading(&self, mut call: impl FnMut(&[u8], &mut Out) -> u64 + 'static) -> Side {
        let (image, mut o) = (self.image, Out::new());
        side(move || call(seen(image), &mut o))
    }

    /// A call of the port on an image of its own
    fn change(&self, call: impl FnMut(&mut [u8], &mut Out) -> u64 + 'static) -> Side {
        change_of(Box::new(*self.image), call)
    }

    /// The same, from the same image each time
    fn change_anew(&self, mut call: impl FnMut(&mut [u8], &mut Out) -> u64 + 'static) -> Side {
        let (image, mut o) = (self.image, Out::new());
        let (mut i, mut j) = (Box::new(*image), Box::new(*image));
        beside(
            move || {
                *i = *black_box(image);
                call(seen_mut(&mut i), &mut o)
            },
            move || {
                *j = *black_box(image);
                black_box(&mut *j);
                0
            },
        )
    }
}

/// All operations at one pair of limits
pub fn ops<const Z: usize, const W: usize>() -> Vec<Op> {
    let both = Both::<Z, W>::new();
    let mut list = readings::ops(&both);
    list.extend(lookups::ops(&both));
    list.extend(clock::commands(&both));
    list.extend(lists::ops(&both));
    list.extend(clock::loads(&both));
    list.extend(steps::ops(&both));
    list
}

/// What the Rust's clock shows unless an operation says otherwise
pub fn rest<const W: usize>() {
    set_tick(inputs::moment(&inputs::windows(W)) - SET);
}
