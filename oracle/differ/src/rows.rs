//! Where the port and the Rust are meant to differ: the rows of docs/DIFFERENCES.md, each with its smallest
//! input, both sides looked at. And the refusals that only the port has.
use std::panic::{catch_unwind, AssertUnwindSafe};

use oracle::driver::{self, Device, Outcome, Part, Stand, WindowArg, ZoneArg};
use oracle::tlv::Value;
use oracle::trace::{self, Effect};

use timesync::entry;

use crate::bytes;
use crate::input::{HOUR, SECOND};
use crate::port::{self, code, kind, place, Port, ADMIN, IMAGE, MOMENTS_MAX, NODE_TIME_CLUSTER, RECORD_MAX};
use crate::replay::{replay, ROOMS};
use crate::world::{Item, Kind, Step, World};

/// The granularities of numbers 1 and 2
const MINUTES: u8 = 1;
const SECONDS: u8 = 2;
/// The granularity that is lowered as Seconds are
const NO_TIME: u8 = 0;
/// When the same setting comes again: ten minutes after tick 0
const AGAIN: u64 = 600 * SECOND;
/// The moment that the other node tells
const TOLD: u64 = 5_000_000_000_000_000;
/// The source that is asked: node and endpoint, on fabric 1
const ASKED: (u64, u16) = (5, 0);

type Done = Result<(), String>;

struct Rows {
    answers: u64,
}

impl Rows {
    fn is<T: PartialEq + std::fmt::Debug>(&mut self, what: &str, got: T, want: T) -> Done {
        self.answers += 1;
        if got == want {
            Ok(())
        } else {
            Err(format!("{what}: {got:?}, and {want:?} is documented"))
        }
    }

    /// A call that is refused, asks for nothing and leaves the image
    fn left(&mut self, what: &str, port: &mut Port, answer: u64, call: impl FnOnce(&mut Port) -> port::Returned) -> Done {
        let before = port.image().to_vec();
        let r = call(port);
        self.is(what, (r.answer, r.effects), (answer, Vec::new()))?;
        self.is(what, port.image() == &before[..], true)?;
        self.is(what, (port.spoiled.get(), port.guarded()), (None, true))
    }
}

fn zone(offset: i32, valid_at: u64) -> ZoneArg {
    ZoneArg { offset, valid_at, name: None }
}

fn window(start: u64, end: u64) -> WindowArg {
    WindowArg { offset: 0, valid_starting: start, valid_until: Some(end) }
}

fn told() -> Outcome {
    Outcome::Answer(vec![Part { utc: Some(Ok(Some(TOLD))), granularity: Some(Ok(SECONDS)) }], false)
}

/// How many answers were compared
pub fn check() -> Result<u64, String> {
    let mut rows = Rows { answers: 0 };
    rows.lists()?;
    rows.clock()?;
    rows.client()?;
    rows.source_cleared()?;
    rows.source_replaced()?;
    rows.set_again()?;
    rows.applied_again()?;
    rows.not_set_yet()?;
    rows.limits()?;
    rows.images()?;
    rows.histories()?;
    trace::take();
    Ok(rows.answers)
}

impl Rows {
    /// Rows 1, 2 and 4
    fn lists(&mut self) -> Done {
        let store = driver::make_store(2, 2).unwrap();
        let mut port = Port::new(Some((2, 2)), 0, 0);
        let good = [window(1, 2)];
        port.set_list(false, &bytes::windows(&good), RECORD_MAX);
        store.set_dst_offset(&good).map_err(|_| "row 1: a good window is refused")?;
        trace::take();
        driver::set_unreadable(Some(0));
        let r = store.set_dst_offset(&good).map_err(driver::number);
        driver::set_unreadable(None);
        self.is("row 1, the Rust", (r, store.windows().len(), store.generation()), (Err(1), 0, 2))?;
        self.is("row 1, the Rust", trace::take(), vec![Effect::WakeTimer])?;
        let mut unreadable = bytes::windows(&good);
        unreadable[13] = 2;
        self.left("row 1", &mut port, 1, |p| p.set_list(false, &unreadable, RECORD_MAX).0)?;

        let two = [zone(0, 5), zone(0, 6)];
        driver::set_unreadable(Some(1));
        let r = store.set_time_zone(&two).map_err(driver::number);
        driver::set_unreadable(None);
        self.is("row 2, the Rust", r, Err(2))?;
        let mut unreadable = bytes::zones(&two);
        unreadable[26] = 2;
        self.left("row 2", &mut port, 1, |p| p.set_list(true, &unreadable, RECORD_MAX).0)?;

        let late = [zone(0, 5)];
        let r = store.load(Some(driver::record(&late, &[]))).map_err(driver::number);
        self.is("row 4, the Rust loads a zone that no command takes", (r, store.zones()), (Ok(()), late.to_vec()))?;
        self.left("row 4", &mut port, 7, |p| p.load_lists(Some(&bytes::record(&late, &[]))))?;
        let three = [zone(0, 0), zone(0, 1), zone(0, 2)];
        let r = store.load(Some(driver::record(&three, &[]))).map_err(driver::number);
        self.is("three zones, the Rust on the shim's vector", (r, store.zones()), (Err(1), late.to_vec()))?;
        self.left("row 4, three zones", &mut port, 7, |p| p.load_lists(Some(&bytes::record(&three, &[]))))?;
        self.left("row 4, no bytes", &mut port, 7, |p| p.load_lists(Some(&[])))
    }

    /// Rows 3, 5 and 6
    fn clock(&mut self) -> Done {
        driver::set_build_moment(0);
        driver::set_tick(0);
        let device = Device::new(true);
        let mut port = Port::new(Some((2, 2)), 0, 0);
        device.cmd_set_utc_time(9, 2).map_err(|_| "row 3: the clock cannot be set")?;
        port.set_utc_time(9, 2, None, 0);
        device.put_utc(Some(4));
        device.put_source(Some((0, 1, 1)));
        let r = device.rtc_load().map_err(driver::number);
        self.is("row 3, the Rust", (r, device.rtc_utc()), (Err(1), (4, false)))?;
        self.left("row 3", &mut port, 7, |p| p.load_clock(0, Some(4), Some((0, 1, 1))))?;
        self.is("row 3, the clock as it was", port.utc_time(0), Ok((9, true)))?;
        self.left("row 5", &mut port, 1, |p| p.set_utc_time(10, 2, Some(17), 0))?;
        self.is("row 6, the Rust", device.cmd_set_utc_time(10, 5).map_err(driver::number), Err(1))?;
        self.left("row 6", &mut port, 1, |p| p.set_utc_time(10, 5, None, 0))?;
        self.left("a setting of the clock with granularity 5", &mut port, 1, |p| p.rtc_set(false, 10, 5, 0, 0).0)?;
        self.left("a setting of the clock with source 17", &mut port, 1, |p| p.rtc_set(true, 10, 4, 17, 0).0)
    }

    /// Row 7
    fn client(&mut self) -> Done {
        driver::set_tick(HOUR);
        let mut device = Device::new(false);
        let mut port = Port::new(None, 0, 0);
        device.client_start(0);
        port.attempt(false, None, None, HOUR);
        device.cmd_set_source(1, Some((1, 1))).map_err(|_| "row 7: no source")?;
        port.set_source(1, Some((1, 1)));
        port.source_changed();
        driver::set_tick(10);
        driver::script(Outcome::NoSession);
        let r = catch_unwind(AssertUnwindSafe(|| device.client_step()));
        driver::clear_script();
        self.is("row 7, the Rust panics", r.is_err(), true)?;
        let (r, _) = port.attempt(false, None, None, 10);
        self.is("row 7, not due", (r.answer, r.effects), (0, Vec::new()))?;
        let ticks = (port.word(place::MISSING_AT, 8), port.word(place::FAILURE_AT, 8));
        let marks = (port.word(place::MISSING, 1), port.word(place::FAILURE, 1));
        self.is("row 7, the marks are kept", (ticks, marks), ((HOUR, HOUR), (1, 1)))
    }

    /// Row 9: the source is cleared while the exchange is open
    fn source_cleared(&mut self) -> Done {
        driver::set_build_moment(0);
        driver::set_tick(0);
        let mut device = Device::new(false);
        device.cmd_set_source(1, Some(ASKED)).map_err(|_| "row 9: no source")?;
        self.is("row 9, the Rust waits for the answer", device.client_start(HOUR), Stand::Exchange)?;
        device.cmd_set_source(1, None).map_err(|_| "row 9: the source is not cleared")?;
        self.is("row 9, the Rust's source is cleared", device.attr_trusted(), Value::Null)?;
        trace::take();
        driver::script(told());
        let stand = device.client_step();
        driver::clear_script();
        let emitted = trace::take().iter().any(|effect| matches!(effect, Effect::Emit(..)));
        self.is("row 9, the Rust emits nothing, then waits for a source", (emitted, stand), (false, Stand::Wait))?;
        self.is("row 9, the Rust applies the time", device.rtc_utc(), (TOLD, true))?;
        self.is("row 9, the Rust's granularity", device.rtc_granularity(), MINUTES)?;

        let mut port = Port::new(None, 0, HOUR);
        port.set_source(1, Some(ASKED));
        self.is("row 9, the source is set", port.trusted(), Ok(Some((1, ASKED.0, ASKED.1))))?;
        port.set_source(1, None);
        self.is("row 9, the source is cleared", port.trusted(), Ok(None))?;
        let before = port.image()[place::CLOCK].to_vec();
        let (r, wait) = port.attempt(true, Some(TOLD), Some(SECONDS), 0);
        let events = vec![code::MISSING_SOURCE, code::TIME_FAILURE];
        self.is("row 9, both events, then waits for a source", (r.answer, r.effects, wait), (0, events, (kind::WAIT_FOR_SOURCE, 0)))?;
        self.is("row 9, the clock as it was", port.image()[place::CLOCK] == before[..], true)?;
        let (r, wait) = port.source_changed();
        self.is("row 9, told of the change", (r.answer, r.effects, wait), (0, Vec::new(), (kind::WAIT_FOR_SOURCE, 0)))
    }

    /// No row: where the source is replaced while the exchange is open, both apply what the one before told, and ask the new one at once
    fn source_replaced(&mut self) -> Done {
        let mut world = World::new(Kind::Bare, 0, HOUR, 0);
        for step in [Step::Source(1, Some(ASKED)), Step::Open, Step::Source(2, Some((6, 1)))] {
            self.alike(&mut world, step)?;
        }
        self.is("a replaced source, not applied before the answer", world.port.utc_time(0), Ok((0, false)))?;
        self.alike(&mut world, Step::Client(told()))?;
        self.is("a replaced source, applied", world.port.utc_time(0), Ok((TOLD, true)))
    }

    /// Row 10: a setting that the clock holds, ten minutes later
    fn set_again(&mut self) -> Done {
        driver::set_build_moment(0);
        driver::set_tick(0);
        let device = Device::new(true);
        let mut port = Port::new(Some((2, 2)), 0, 0);
        device.cmd_set_utc_time(1000, SECONDS).map_err(|_| "row 10: the clock cannot be set")?;
        port.set_utc_time(1000, SECONDS, None, 0);
        driver::set_tick(AGAIN);
        trace::take();
        let r = device.cmd_set_utc_time(1000, SECONDS).map_err(driver::number);
        self.is("row 10, the Rust wakes the timer and reports nothing", (r, trace::take()), (Ok(()), vec![Effect::WakeTimer]))?;
        self.is("row 10, the Rust runs on", device.rtc_utc(), (AGAIN + 1000, true))?;
        let r = port.clone().set_utc_time(1000, SECONDS, None, AGAIN);
        let woken = [&code::UTC_REPORTS[..], &[code::WAKE_TIMER]].concat();
        self.is("row 10, reported", (r.answer, r.effects), (0, woken))?;
        for granularity in [NO_TIME, MINUTES, SECONDS] {
            for persist in [false, true] {
                let mut port = port.clone();
                let (r, changed) = port.rtc_set(persist, 1000, granularity, ADMIN, AGAIN);
                self.is("row 10, not changed, and reported", (r.answer, r.effects, changed), (0, code::UTC_REPORTS.to_vec(), Some(0)))?;
                self.is("row 10, anchored", (port.utc_time(AGAIN), port.word(place::ANCHOR, 8)), (Ok((1000, true)), AGAIN))?;
            }
        }
        self.left("row 10, a refused one", &mut port, 1, |p| p.set_utc_time(1000, 5, None, AGAIN))?;
        self.is("row 10, a refused one moves no anchor", port.utc_time(AGAIN), Ok((AGAIN + 1000, true)))
    }

    /// Row 10: a time that the client applies again, ten minutes later
    fn applied_again(&mut self) -> Done {
        driver::set_build_moment(0);
        driver::set_tick(0);
        let mut device = Device::new(false);
        device.cmd_set_source(1, Some(ASKED)).map_err(|_| "row 10: no source")?;
        driver::script(told());
        device.client_start(AGAIN);
        driver::set_tick(AGAIN);
        trace::take();
        driver::script(told());
        device.client_step();
        driver::clear_script();
        let reported = trace::take().iter().any(|effect| matches!(effect, Effect::Report(..)));
        self.is("row 10, the Rust applies it and reports nothing", (reported, device.rtc_utc()), (false, (TOLD + AGAIN, true)))?;

        let mut port = Port::new(None, 0, AGAIN);
        port.set_source(1, Some(ASKED));
        port.attempt(true, Some(TOLD), Some(SECONDS), 0);
        let before = port.word(place::PERSISTED, 8);
        let (r, wait) = port.attempt(true, Some(TOLD), Some(SECONDS), AGAIN);
        let answer = (0, code::UTC_REPORTS.to_vec(), (kind::WAIT_FOR, AGAIN));
        self.is("row 10, applied, reported and nothing stored", (r.answer, r.effects, wait), answer)?;
        self.is("row 10, the persisted moment stays", (before, port.word(place::PERSISTED, 8)), (TOLD, TOLD))?;
        self.is("row 10, anchored", (port.utc_time(AGAIN), port.source()), (Ok((TOLD, true)), Ok(NODE_TIME_CLUSTER.into())))
    }

    /// No row: a clock that is not set takes the moment and the time source that it holds as the Rust does
    fn not_set_yet(&mut self) -> Done {
        for persist in [false, true] {
            let mut world = World::new(Kind::Bare, 7, HOUR, 0);
            let (first, loaded) = (Step::Set(persist, 7, NO_TIME, 0), Step::LoadClock(7, Some(9), None));
            for step in [first, Step::Tick(AGAIN), loaded, Step::Set(persist, 9, MINUTES, 0)] {
                self.alike(&mut world, step)?;
            }
        }
        Ok(())
    }

    /// A step that both sides answer alike
    fn alike(&mut self, world: &mut World, step: Step) -> Done {
        let before = world.answers;
        let done = world.step(&Item { step, probes: Vec::new(), short: false });
        self.answers += world.answers - before;
        done.map_err(|diff| diff.0)
    }

    /// Row 8: limits that make no store
    fn limits(&mut self) -> Done {
        for z in 0..=9 {
            for w in 0..=17 {
                let good = (1..=8).contains(&z) && (1..=16).contains(&w);
                let mut bytes = [0x77; IMAGE];
                let r = entry::new(&mut bytes, 1, z, w, 1, 2);
                self.is("limits", (r, bytes != [0x77; IMAGE]), if good { (0, true) } else { (8, false) })?;
                self.is("limits, replayed", replay((z, w), &[], 0, 0, ROOMS).is_ok(), good)?;
                self.is("limits, made by the oracle", driver::make_store(z, w).is_some(), good)?;
            }
        }
        let mut bytes = [0x77; IMAGE];
        let r = entry::new(&mut bytes[..IMAGE - 1], 0, 0, 0, 1, 2);
        self.is("a slice that is too short", (r, bytes == [0x77; IMAGE]), (8, true))?;
        let far = usize::MAX;
        let r = entry::new(&mut bytes, 1, far, far, 1, 2);
        self.is("limits far too large", (r, bytes == [0x77; IMAGE]), (8, true))
    }

    /// Row 8: a buffer that is not an image is refused by every call; and an index far past the end
    fn images(&mut self) -> Done {
        let good = Port::new(Some((2, 2)), 0, 0);
        for index in [1 << 8, 1 << 16, 1 << 32, usize::MAX] {
            self.is("an index far past the end", good.zone(index, 64), Err(2))?;
            self.is("an index far past the end", good.window(index), Err(2))?;
        }
        for at in 0..4 {
            for byte in [0, b'T', b'M', b'S', b'1', 255] {
                let mut p = good.clone();
                if p.word(at, 1) != u64::from(byte) {
                    p.poke(at, &[byte]);
                    self.not_an_image(&format!("byte {at} is {byte}"), &mut p)?;
                }
            }
        }
        let mut zeroed = good.clone();
        zeroed.poke(0, &[0; IMAGE]);
        self.not_an_image("zeroed", &mut zeroed)?;
        for bytes in [0, 4, IMAGE - 1] {
            let mut short = good.clone();
            short.lend(bytes);
            self.not_an_image(&format!("{bytes} bytes"), &mut short)?;
        }
        Ok(())
    }

    fn not_an_image(&mut self, what: &str, p: &mut Port) -> Done {
        self.left(what, p, 8, |p| p.set_utc_time(1, 2, None, 0))?;
        self.left(what, p, 8, |p| p.set_source(1, None))?;
        self.left(what, p, 4, |p| p.set_source(0, None))?;
        self.left(what, p, 8, |p| p.set_list(true, &[0], RECORD_MAX).0)?;
        self.left(what, p, 8, |p| p.set_list(false, &[0], RECORD_MAX).0)?;
        self.left(what, p, 8, |p| p.load_lists(Some(&[0, 0])))?;
        self.left(what, p, 8, |p| p.load_lists(None))?;
        self.left(what, p, 8, |p| p.reset_lists())?;
        self.left(what, p, 8, |p| p.load_clock(0, None, None))?;
        self.left(what, p, 8, |p| p.reset_clock(0))?;
        self.left(what, p, 8, |p| p.rtc_set(false, 1, 2, 2, 0).0)?;
        self.left(what, p, 8, |p| p.rtc_set(true, 1, 2, 2, 0).0)?;
        self.left(what, p, 8, |p| p.look(0, 64).0)?;
        self.left(what, p, 8, |p| p.attempt(false, None, None, 0).0)?;
        self.left(what, p, 8, |p| p.source_changed().0)?;
        self.not_an_image_read(what, p)
    }

    fn not_an_image_read(&mut self, what: &str, p: &Port) -> Done {
        let refusals = [
            p.utc_time(0).err(),
            p.granularity().err(),
            p.source().err(),
            p.trusted().err(),
            p.local_time(0).err(),
            p.zone_count().err(),
            p.window_count().err(),
            p.zone_limit().err(),
            p.window_limit().err(),
            p.database().err(),
            p.generation().err(),
            p.table_empty().err(),
            p.usable(0).err(),
            p.zone(0, 64).err(),
            p.window(0).err(),
            p.active_zone(0, 64).err(),
            p.active_window(0).err(),
            p.next_transition(0).err(),
            p.walk(0, MOMENTS_MAX).err(),
            p.record(RECORD_MAX).err(),
        ];
        self.is(what, refusals, [Some(8); 20])?;
        self.answers += 19;
        self.is(what, p.spoiled.get(), None)
    }

    /// Row 8: bytes that are not a history
    fn histories(&mut self) -> Done {
        for (history, refusal) in [
            (&[][..], None),
            (&[3], None),
            (&[4, 4], None),
            (&[5], Some(1)),
            (&[4, 5], Some(1)),
            (&[0], Some(1)),
            (&[0, 0, 0, 0, 0], None),
            (&[0, 0, 0, 0], Some(1)),
            (&[2, 1, 0, 0, 0], Some(1)),
            (&[1, 1, 0, 0, 0, 0], None),
            (&[1, 255, 255, 255, 255, 0], Some(1)),
        ] {
            self.is(&format!("history {history:?}"), replay((1, 1), history, 0, 0, ROOMS).err(), refusal)?;
        }
        Ok(())
    }
}
