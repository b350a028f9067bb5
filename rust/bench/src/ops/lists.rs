//! Commands on the lists, their load, their reset and their record. The port's commands start from the same image each time.

use std::hint::black_box;

use timesync::entry;

use super::inputs::{section_of_windows, section_of_zones, windows, zones};
use super::making::leak;
use super::rust::*;
use super::{beside, logged, side, Both, Op, Side};
use crate::shim::clear;

/// A command of the port with a request
fn port<const Z: usize, const W: usize>(
    both: &Both<Z, W>,
    call: impl Fn(&mut [u8], &[u8], &mut [u8], &mut u64) -> u64 + 'static,
    request: Vec<u8>,
) -> Side {
    both.change_anew(move |i, o| {
        let answer = call(i, black_box(&request), &mut o.record, &mut o.a);
        black_box(&o.record);
        answer
    })
}

pub fn ops<const Z: usize, const W: usize>(both: &Both<Z, W>) -> Vec<Op> {
    let mut list = zone_commands(both);
    list.extend(window_commands(both));
    list.extend([load(both), reset(both), record(both)]);
    list
}

fn zone_commands<const Z: usize, const W: usize>(both: &Both<Z, W>) -> Vec<Op> {
    let (at, good, mut bad) = (both.at, both.zones, zones(Z));
    bad[Z - 1].offset = 60_000;
    let bad = leak(bad);
    let (accepting, refusing) = (both.new_store(), both.new_store());
    vec![
        Op::command(
            "set_time_zone, accepted",
            port(both, entry::set_time_zone, section_of_zones(good)),
            logged(move || rust_set_zones(black_box(accepting), at, black_box(good))),
        ),
        Op::refused(
            "set_time_zone, refused at the last entry",
            port(both, entry::set_time_zone, section_of_zones(bad)),
            logged(move || rust_set_zones(black_box(refusing), at, black_box(bad))),
        ),
    ]
}

fn window_commands<const Z: usize, const W: usize>(both: &Both<Z, W>) -> Vec<Op> {
    let (at, good, mut bad) = (both.at, both.windows, windows(W));
    bad[W - 1].valid_starting = bad[W - 2].valid_until.unwrap() - 1;
    let bad = leak(bad);
    let (accepting, refusing) = (both.new_store(), both.new_store());
    vec![
        Op::command(
            "set_dst_offset, accepted",
            port(both, entry::set_dst_offset, section_of_windows(good)),
            logged(move || rust_set_windows(black_box(accepting), at, black_box(good))),
        ),
        Op::command(
            "set_dst_offset, refused at the last entry",
            port(both, entry::set_dst_offset, section_of_windows(bad)),
            logged(move || rust_set_windows(black_box(refusing), at, black_box(bad))),
        ),
    ]
}

fn load<const Z: usize, const W: usize>(both: &Both<Z, W>) -> Op {
    let (at, store) = (both.at, both.new_store());
    let stored = [section_of_zones(both.zones), section_of_windows(both.windows)].concat();
    Op::command(
        "load_lists",
        both.change(move |i, _| entry::load_lists(i, black_box(1), black_box(&stored))),
        beside(
            move || rust_load(black_box(store), black_box(&at.0.flash)),
            move || {
                drop(black_box(at.0.flash.lists.clone()));
                0
            },
        ),
    )
}

fn reset<const Z: usize, const W: usize>(both: &Both<Z, W>) -> Op {
    let (at, loaded, base) = (both.at, both.new_store(), both.new_store());
    Op::command(
        "reset_lists",
        both.change_anew(|i, _| entry::reset_lists(i)),
        beside(
            move || {
                clear();
                rust_load(black_box(loaded), black_box(&at.0.flash)) + rust_reset(black_box(loaded), black_box(&at.0.flash))
            },
            move || {
                clear();
                rust_load(black_box(base), black_box(&at.0.flash))
            },
        ),
    )
}

fn record<const Z: usize, const W: usize>(both: &Both<Z, W>) -> Op {
    let (at, store) = (both.at, both.store);
    Op::command(
        "record read, and stored by the Rust",
        both.reading(|i, o| {
            let r = entry::record(i, &mut o.record, &mut o.a);
            black_box(&o.record);
            r
        }),
        side(move || rust_store(black_box(store), black_box(&at.0.flash))),
    )
}
