//! Readings of the clock and of the lists.

use std::hint::black_box;

use timesync::entry;

use super::rust::*;
use super::{side, Both, Op};
use crate::port::Out;

pub fn ops<const Z: usize, const W: usize>(both: &Both<Z, W>) -> Vec<Op> {
    let mut list = of_the_clock(both);
    list.extend(numbers(both));
    list.extend([zone(both), window(both)]);
    list
}

fn of_the_clock<const Z: usize, const W: usize>(both: &Both<Z, W>) -> Vec<Op> {
    let (rtc, handler, at, tick) = (both.rtc, both.handler, both.at, both.tick);
    vec![
        Op::reading(
            "utc_time",
            both.marked(move |i, a, b| entry::utc_time(i, black_box(tick), a, b)),
            side(move || rust_utc_time(black_box(rtc))),
        ),
        Op::reading(
            "utc_time_granularity",
            both.number(entry::utc_time_granularity),
            side(move || rust_granularity(black_box(rtc)) as u64),
        ),
        Op::reading(
            "utc_time_source",
            both.number(entry::utc_time_source),
            side(move || rust_source(black_box(rtc)) as u64),
        ),
        Op::reading(
            "trusted_time_source",
            both.reading(|i, o| entry::trusted_time_source(i, &mut o.a, &mut o.b, &mut o.c, &mut o.d) + o.c),
            side(move || rust_trusted(black_box(rtc)).map_or(0, |s| s.node_id)),
        ),
        Op::lookup(
            "local_time",
            both.marked(move |i, a, b| entry::local_time(i, black_box(tick), a, b)),
            side(move || rust_local_time(black_box(handler), at)),
        ),
    ]
}

fn numbers<const Z: usize, const W: usize>(both: &Both<Z, W>) -> Vec<Op> {
    let (store, handler, at) = (both.store, both.handler, both.at);
    vec![
        Op::reading(
            "time_zone_count",
            both.number(entry::time_zone_count),
            side(move || rust_zone_count(black_box(store))),
        ),
        Op::reading(
            "dst_offset_count",
            both.number(entry::dst_offset_count),
            side(move || rust_window_count(black_box(store))),
        ),
        Op::reading(
            "time_zone_list_max_size",
            both.number(entry::time_zone_list_max_size),
            side(move || rust_zone_limit(black_box(handler), at)),
        ),
        Op::reading(
            "dst_offset_list_max_size",
            both.number(entry::dst_offset_list_max_size),
            side(move || rust_window_limit(black_box(handler), at)),
        ),
        Op::reading(
            "time_zone_database",
            both.number(entry::time_zone_database),
            side(move || rust_database(black_box(handler), at)),
        ),
        Op::reading(
            "generation",
            both.number(entry::generation),
            side(move || rust_generation(black_box(store)).into()),
        ),
    ]
}

fn zone<const Z: usize, const W: usize>(both: &Both<Z, W>) -> Op {
    let (store, mut o) = (both.store, Out::new());
    Op::lookup(
        "time_zone, the last entry",
        both.reading(|i, o| {
            let last = black_box(Z - 1);
            entry::time_zone(i, last, &mut o.name, &mut o.offset, &mut o.a, &mut o.b, &mut o.c) + o.offset as u64 + o.c
        }),
        side(move || {
            let found = rust_zone(black_box(store), black_box(Z - 1), &mut o);
            black_box(&o.name);
            found - 1 + o.offset as u64 + o.c
        }),
    )
}

fn window<const Z: usize, const W: usize>(both: &Both<Z, W>) -> Op {
    let (store, mut o) = (both.store, Out::new());
    Op::lookup(
        "dst_offset, the last entry",
        both.reading(|i, o| entry::dst_offset(i, black_box(W - 1), &mut o.offset, &mut o.a, &mut o.b, &mut o.c) + o.c),
        side(move || {
            let found = rust_window(black_box(store), black_box(W - 1), &mut o);
            found - 1 + o.c
        }),
    )
}
