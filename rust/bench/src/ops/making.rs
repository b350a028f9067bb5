//! Both sides made, with the same lists and the same clock.

use std::any::Any;
use std::cell::Cell;
use std::num::NonZeroU8;

use oracle::dm::clusters::time_sync::{SetDSTOffsetRequest, SetTimeZoneRequest, TimeSyncHandler, TimeZoneStore, TimeZones};
use oracle::dm::{CmdDetails, Dataver};
use oracle::driver::{set_tick, WindowArg, ZoneArg};
use oracle::rtc::{Rtc, TimeGranularity, TimeSource, TrustedTimeSource};
use oracle::tlv::Value;
use oracle::Matter;
use timesync::entry;

use super::inputs::{section_of_windows, section_of_zones, BUILD, NODE, PERIOD, SET};
use crate::port::{Image, Out, IMAGE};
use crate::shim::{At, Ctx, Flash};

pub fn leak<T>(value: T) -> &'static T {
    Box::leak(Box::new(value))
}

pub fn context(flash: Flash) -> At {
    At(leak(Ctx {
        cmd: CmdDetails { fab_idx: 1 },
        effects: Cell::new(0),
        flash,
    }))
}

pub fn source(node_id: u64) -> Option<TrustedTimeSource> {
    Some(TrustedTimeSource {
        fab_idx: NonZeroU8::MIN,
        node_id,
        endpoint: 0,
    })
}

pub fn flash(zones: &[ZoneArg], windows: &[WindowArg]) -> Flash {
    Flash {
        lists: Some(oracle::driver::record(zones, windows)),
        moment: Some(Value::Uint(SET)),
        source: Some(Value::Struct(vec![
            (0, Value::Uint(1)),
            (1, Value::Uint(NODE)),
            (2, Value::Uint(0)),
        ])),
    }
}

/// A clock that is set, and its trusted time source
pub fn clock(at: At) -> Rtc {
    let mut rtc = Rtc::new();
    set_tick(0);
    rtc.set_utc_time(SET, TimeGranularity::Microseconds, TimeSource::Admin, &at);
    rtc.set_trusted_time_source(source(NODE), &at, at).unwrap();
    rtc
}

pub fn matter(at: At) -> &'static Matter<'static> {
    let matter = leak(Matter::new());
    matter.with_state(|state| state.rtc = clock(at));
    matter
}

pub fn store<const Z: usize, const W: usize>(zones: &[ZoneArg], windows: &[WindowArg]) -> &'static TimeZoneStore<Z, W> {
    let store = leak(TimeZoneStore::new());
    TimeZones::set_time_zone(store, &SetTimeZoneRequest(zones)).unwrap();
    TimeZones::set_dst_offset(store, &SetDSTOffsetRequest(windows)).unwrap();
    store
}

/// At 2 and 2 the handler of a store, at other limits of a provider: it then has no timer and wakes none
pub fn handler<const Z: usize, const W: usize>(at: At, store: &'static TimeZoneStore<Z, W>) -> &'static TimeSyncHandler<'static> {
    let any: &'static dyn Any = store;
    let matter = matter(at);
    leak(match any.downcast_ref::<TimeZoneStore<2, 2>>() {
        Some(store) => TimeSyncHandler::new_with_time_zone(Dataver::new(0), matter, store),
        None => TimeSyncHandler::new(Dataver::new(0), matter).with_time_zones(store),
    })
}

/// The port's image: lists, a set clock and its trusted time source
pub fn image(z: usize, w: usize, zones: &[ZoneArg], windows: &[WindowArg]) -> Box<Image> {
    let (mut image, mut out) = (Box::new([0xA5; IMAGE]), Out::new());
    let (zones, windows) = (section_of_zones(zones), section_of_windows(windows));
    let i = &mut image[..];
    let answers = [
        entry::new(i, 1, z, w, BUILD, PERIOD),
        entry::set_utc_time(i, SET, 4, 0, 0, 0),
        entry::set_trusted_time_source(i, 1, 1, NODE, 0),
        entry::set_time_zone(i, &zones, &mut out.record, &mut out.a),
        entry::set_dst_offset(i, &windows, &mut out.record, &mut out.a),
    ];
    assert!(answers.iter().all(|a| a & 0xff == 0), "the port refused its inputs: {answers:x?}");
    image
}
