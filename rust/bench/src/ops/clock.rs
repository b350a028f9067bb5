//! Commands on the clock, its own settings, its load and reset, and a new image.

use std::hint::black_box;
use std::mem::MaybeUninit;

use oracle::dm::clusters::time_sync::TimeZoneStore;
use oracle::rtc::{TimeGranularity, TimeSource};
use oracle::Matter;
use timesync::entry;

use super::inputs::{BUILD, DAY, NODE, PERIOD, SET};
use super::making::clock;
use super::rust::*;
use super::{beside, logged, side, Both, Op};

pub fn commands<const Z: usize, const W: usize>(both: &Both<Z, W>) -> Vec<Op> {
    let mut list = utc_time(both);
    list.extend(trusted_time_source(both));
    list.extend([setting(both), persisting(both)]);
    list
}

fn utc_time<const Z: usize, const W: usize>(both: &Both<Z, W>) -> Vec<Op> {
    let (at, tick) = (both.at, both.tick);
    let (changed, equal) = (both.new_handler(), both.new_handler());
    let (mut port_utc, mut rust_utc) = (SET, SET);
    vec![
        Op::command(
            "set_utc_time, changed",
            both.change(move |i, _| {
                port_utc ^= 1;
                entry::set_utc_time(i, port_utc, black_box(4), 0, 0, black_box(tick))
            }),
            logged(move || {
                rust_utc ^= 1;
                rust_set_utc_time(black_box(changed), at, rust_utc, black_box(4))
            }),
        ),
        Op::command(
            "set_utc_time, equal",
            both.change(move |i, _| entry::set_utc_time(i, black_box(SET), black_box(4), 0, 0, black_box(tick))),
            logged(move || rust_set_utc_time(black_box(equal), at, black_box(SET), black_box(4))),
        ),
    ]
}

fn trusted_time_source<const Z: usize, const W: usize>(both: &Both<Z, W>) -> Vec<Op> {
    let at = both.at;
    let (different, equal) = (both.new_handler(), both.new_handler());
    let (mut port_node, mut rust_node) = (NODE, NODE);
    vec![
        Op::command(
            "set_trusted_time_source, different",
            both.change(move |i, _| {
                port_node ^= 1;
                entry::set_trusted_time_source(i, black_box(1), 1, port_node, 0)
            }),
            logged(move || {
                rust_node ^= 1;
                rust_set_source(black_box(different), at, Some((rust_node, 0)))
            }),
        ),
        Op::command(
            "set_trusted_time_source, equal",
            both.change(|i, _| entry::set_trusted_time_source(i, black_box(1), 1, black_box(NODE), 0)),
            logged(move || rust_set_source(black_box(equal), at, Some((black_box(NODE), 0)))),
        ),
    ]
}

fn setting<const Z: usize, const W: usize>(both: &Both<Z, W>) -> Op {
    let (at, tick) = (both.at, both.tick);
    let (mut port_utc, mut rust_utc, mut rtc) = (SET, SET, clock(at));
    Op::command(
        "rtc_set_utc_time, changed",
        both.change(move |i, o| {
            port_utc ^= 1;
            entry::rtc_set_utc_time(i, port_utc, black_box(4), 2, black_box(tick), &mut o.a) + o.a
        }),
        side(move || {
            rust_utc ^= 1;
            let granularity = black_box(TimeGranularity::Microseconds);
            rust_rtc_set(black_box(&mut rtc), rust_utc, granularity, TimeSource::Admin, &at).into()
        }),
    )
}

fn persisting<const Z: usize, const W: usize>(both: &Both<Z, W>) -> Op {
    let (at, tick) = (both.at, both.tick);
    let (mut port_far, mut rust_far, mut rtc) = (false, false, clock(at));
    let moment = |far: bool| SET + if far { 2 * DAY } else { 0 };
    Op::command(
        "rtc_set_utc_time_persist, changed and stored",
        both.change(move |i, o| {
            port_far = !port_far;
            entry::rtc_set_utc_time_persist(i, moment(port_far), black_box(4), 2, black_box(tick), &mut o.a) + o.a
        }),
        side(move || {
            rust_far = !rust_far;
            let granularity = black_box(TimeGranularity::Microseconds);
            rust_rtc_set_persist(black_box(&mut rtc), moment(rust_far), granularity, TimeSource::Admin, at)
        }),
    )
}

pub fn loads<const Z: usize, const W: usize>(both: &Both<Z, W>) -> Vec<Op> {
    let at = both.at;
    let (mut loaded, mut reset) = (clock(at), clock(at));
    let mut made = Box::new(MaybeUninit::<(TimeZoneStore<Z, W>, Matter<'static>)>::uninit());
    vec![
        Op::command(
            "load_clock",
            both.change(|i, _| entry::load_clock(i, BUILD, black_box(1), black_box(SET), 1, 1, black_box(NODE), 0)),
            beside(
                move || rust_rtc_load(black_box(&mut loaded), black_box(&at.0.flash)),
                move || {
                    drop(black_box(at.0.flash.source.clone()));
                    0
                },
            ),
        ),
        Op::command(
            "reset_clock",
            both.change(|i, _| entry::reset_clock(i, black_box(BUILD))),
            side(move || rust_rtc_reset(black_box(&mut reset), black_box(&at.0.flash))),
        ),
        Op::command(
            "new",
            both.change(|i, _| entry::new(i, 1, black_box(Z), black_box(W), BUILD, PERIOD)),
            side(move || rust_new(black_box(&mut made))),
        ),
    ]
}
