//! The timer's looks and the client's steps.

use std::any::Any;
use std::future::Future;
use std::hint::black_box;
use std::pin::Pin;

use oracle::dm::clusters::time_sync::client::TimeSyncClient;
use oracle::dm::clusters::time_sync::{ClusterHandler, TimeZoneStore};
use oracle::driver::{script, set_tick, Outcome, Part};
use oracle::utils::timers::Duration;
use timesync::entry;

use super::inputs::{PERIOD, SET};
use super::lookups::name;
use super::making::{leak, matter};
use super::rust::*;
use super::{beside, change_of, logged, side, Both, Op, Side};
use crate::shim::clear;

pub fn ops<const Z: usize, const W: usize>(both: &Both<Z, W>) -> Vec<Op> {
    let mut list = looks(both);
    let own: &'static dyn Any = both.store;
    if own.is::<TimeZoneStore<2, 2>>() {
        list.push(own_loop(both));
    }
    list.extend([applied(both), failed(both), source_changed(both)]);
    list
}

// ---- the timer

/// Looks of the port, at the ticks that are given one after the other
fn look<const Z: usize, const W: usize>(both: &Both<Z, W>, mut tick: impl FnMut() -> u64 + 'static) -> Side {
    both.change(move |i, o| {
        let tick = tick();
        entry::look(
            i,
            tick,
            &mut o.name,
            &mut o.offset,
            &mut o.a,
            &mut o.b,
            &mut o.c,
            &mut o.d,
            &mut o.e,
        )
    })
}

/// Before every window and in the last one, by turns
fn toggled(tick: u64) -> impl FnMut() -> u64 {
    let mut early = false;
    move || {
        early = !early;
        black_box(if early { 0 } else { tick })
    }
}

fn looks<const Z: usize, const W: usize>(both: &Both<Z, W>) -> Vec<Op> {
    let (at, tick, name) = (both.at, both.tick, name());
    let rust = || {
        let (store, matter, mut seen) = (both.new_store(), matter(at), Seen::default());
        move || rust_look(black_box(store), black_box(matter), &mut seen, at).unwrap_or(0)
    };
    let (mut rust_due, mut next) = (rust(), toggled(tick));
    vec![
        Op::step("look, nothing due", look(both, move || black_box(tick)), side(rust())),
        Op::step(
            "look, nothing due, less the shim's heap",
            look(both, move || black_box(tick)),
            beside(rust(), move || rust_name(black_box(name))),
        ),
        Op::step(
            "look, TimeZoneStatus and DSTStatus due",
            look(both, toggled(tick)),
            side(move || {
                set_tick(next());
                rust_due()
            }),
        ),
    ]
}

fn own_loop<const Z: usize, const W: usize>(both: &Both<Z, W>) -> Op {
    let (at, tick, store) = (both.at, both.tick, both.new_store());
    let handler = super::making::handler(at, store);
    let mut run: Pin<Box<dyn Future<Output = _>>> = Box::pin(handler.run(at));
    Op::step(
        "look, nothing due, the Rust's own loop",
        look(both, move || black_box(tick)),
        logged(move || {
            store.note_changed();
            rust_poll(black_box(&mut run))
        }),
    )
}

// ---- the client

fn applied<const Z: usize, const W: usize>(both: &Both<Z, W>) -> Op {
    let (at, tick) = (both.at, both.tick);
    let (mut port_utc, mut rust_utc) = (SET, SET);
    let client = leak(TimeSyncClient::new(matter(at), ()));
    let says = |utc| {
        let (utc, granularity) = (Some(Ok(Some(utc))), Some(Ok(2)));
        Outcome::Answer(vec![Part { utc, granularity }], false)
    };
    Op::step(
        "attempt, a time applied",
        both.change(move |i, o| {
            port_utc ^= 1;
            entry::attempt(i, black_box(1), 1, port_utc, 1, black_box(2), black_box(tick), &mut o.a, &mut o.b)
        }),
        beside(
            move || {
                rust_utc ^= 1;
                clear();
                script(says(rust_utc));
                rust_attempt(black_box(client), &at)
            },
            move || {
                clear();
                drop(black_box(says(SET)));
                0
            },
        ),
    )
}

fn failed<const Z: usize, const W: usize>(both: &Both<Z, W>) -> Op {
    let (at, tick) = (both.at, both.tick);
    let client = leak(TimeSyncClient::new(matter(at), ()));
    Op::step(
        "attempt, the exchange failed",
        both.change(move |i, o| entry::attempt(i, black_box(0), 0, 0, 0, 0, black_box(tick), &mut o.a, &mut o.b)),
        logged(move || {
            script(Outcome::NoSession);
            rust_attempt(black_box(client), &at)
        }),
    )
}

fn source_changed<const Z: usize, const W: usize>(both: &Both<Z, W>) -> Op {
    let (at, matter) = (both.at, matter(both.at));
    matter.with_state(|state| state.rtc.set_trusted_time_source(None, &at, at)).unwrap();
    let client = leak(TimeSyncClient::new(matter, ()));
    let mut run: Pin<Box<dyn Future<Output = _>>> =
        Box::pin(async move { client.run(Duration::from_micros(PERIOD), &at.0.flash, &at).await });
    rust_poll(&mut run);
    let mut image = Box::new(*both.image);
    entry::set_trusted_time_source(&mut image[..], 1, 0, 0, 0);
    Op::step(
        "source_changed, to none",
        change_of(image, |i, o| entry::source_changed(i, &mut o.a, &mut o.b)),
        logged(move || {
            matter.notify_trusted_time_source_changed();
            rust_poll(black_box(&mut run))
        }),
    )
}
