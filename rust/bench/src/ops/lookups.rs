//! Lookups at a moment, and the walk.

use std::hint::black_box;

use oracle::utils::storage::String as Name;
use timesync::entry;

use super::making::leak;
use super::rust::*;
use super::{beside, side, Both, Op, Side};

pub fn ops<const Z: usize, const W: usize>(both: &Both<Z, W>) -> Vec<Op> {
    let (store, now) = (both.store, both.now);
    let mut list = zones(both);
    list.extend([
        Op::lookup(
            "active_dst_offset",
            both.reading(move |i, o| entry::active_dst_offset(i, black_box(now), &mut o.a, &mut o.offset) + o.offset as u64),
            side(move || rust_active_offset(black_box(store), black_box(now)).unwrap_or(0) as u64),
        ),
        Op::lookup(
            "dst_usable",
            both.number(move |i, a| entry::dst_usable(i, black_box(now), a)),
            side(move || rust_usable(black_box(store), black_box(now)).into()),
        ),
        Op::reading(
            "dst_table_empty",
            both.number(entry::dst_table_empty),
            side(move || rust_table_empty(black_box(store)).into()),
        ),
        Op::lookup(
            "next_transition",
            both.marked(move |i, a, b| entry::next_transition(i, black_box(now), a, b)),
            side(move || rust_next(black_box(store), black_box(now)).unwrap_or(0)),
        ),
        walk(both),
    ]);
    list
}

/// A name of 12 bytes, as the shim keeps names
pub fn name() -> &'static Name<64> {
    leak("Zone/Named-A".try_into().unwrap())
}

fn zones<const Z: usize, const W: usize>(both: &Both<Z, W>) -> Vec<Op> {
    let (store, now, name) = (both.store, both.now, name());
    let port = || -> Side {
        both.reading(move |i, o| {
            entry::active_time_zone(i, black_box(now), &mut o.name, &mut o.offset, &mut o.a, &mut o.b) + o.offset as u64 + o.b
        })
    };
    vec![
        Op::lookup(
            "active_time_zone",
            port(),
            side(move || rust_active_zone(black_box(store), black_box(now))),
        ),
        Op::lookup(
            "active_time_zone, less the shim's heap",
            port(),
            beside(
                move || rust_active_zone(black_box(store), black_box(now)),
                move || rust_name(black_box(name)),
            ),
        ),
    ]
}

fn walk<const Z: usize, const W: usize>(both: &Both<Z, W>) -> Op {
    let (store, mut moments) = (both.store, [0; 41]);
    Op::lookup(
        "walk, from 0",
        both.reading(|i, o| {
            let r = entry::walk(i, black_box(0), &mut o.moments, &mut o.a) + o.a;
            black_box(&o.moments);
            r
        }),
        side(move || {
            let steps = rust_walk(black_box(store), black_box(0), &mut moments);
            black_box(&moments);
            steps
        }),
    )
}
