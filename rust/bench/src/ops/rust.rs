//! The Rust's functions, each called and not inlined.

use std::future::Future;
use std::hint::black_box;
use std::marker::PhantomData;
use std::pin::{pin, Pin};
use std::task::{Context, Waker};

use oracle::dm::clusters::decl::time_synchronization::{SetTrustedTimeSourceRequest, SetUTCTimeRequest};
use oracle::dm::clusters::time_sync::client::TimeSyncClient;
use oracle::dm::clusters::time_sync::{
    ClusterHandler, DSTStatus, DSTTableEmpty, SetDSTOffsetRequest, SetTimeZoneRequest, TimeSyncHandler, TimeZoneStatus, TimeZoneStore,
    TimeZones,
};
use oracle::dm::{AttrChangeNotifier, InvokeContext};
use oracle::driver::{WindowArg, ZoneArg};
use oracle::persist::{KvBlobStoreAccess, Persist};
use oracle::rtc::{Rtc, TimeGranularity, TimeSource, TrustedTimeSource};
use oracle::Matter;

use crate::port::Out;
use crate::shim::{At, Flash};

/// What the last turn of the handler's loop saw
#[derive(Default)]
pub struct Seen {
    zone: Option<i32>,
    active: Option<bool>,
    usable: Option<bool>,
}

macro_rules! called {
    ($($(#[$meta:meta])* fn $name:ident[$($g:tt)*]($($arg:ident: $t:ty),* $(,)?) -> $r:ty $body:block)*) => {
        $( $(#[$meta])* #[inline(never)] pub fn $name<$($g)*>($($arg: $t),*) -> $r $body )*
    };
}

called! {
    fn rust_utc_time[](rtc: &Rtc) -> u64 { rtc.utc_time().reliable().unwrap_or(0) }
    fn rust_granularity[](rtc: &Rtc) -> TimeGranularity { rtc.utc_time_granularity() }
    fn rust_source[](rtc: &Rtc) -> TimeSource { rtc.utc_time_source() }
    fn rust_trusted[](rtc: &Rtc) -> Option<TrustedTimeSource> { rtc.trusted_time_source() }
    fn rust_local_time[](handler: &TimeSyncHandler<'static>, at: At) -> u64 {
        handler.local_time(at).ok().and_then(|t| t.into_option()).unwrap_or(0)
    }
    fn rust_zone_count[const Z: usize, const W: usize](store: &TimeZoneStore<Z, W>) -> u64 {
        let mut n = 0;
        let _ = TimeZones::time_zone(store, &mut |_| { n += 1; Ok(()) });
        n
    }
    fn rust_window_count[const Z: usize, const W: usize](store: &TimeZoneStore<Z, W>) -> u64 {
        let mut n = 0;
        let _ = TimeZones::dst_offset(store, &mut |_| { n += 1; Ok(()) });
        n
    }
    fn rust_zone_limit[](handler: &TimeSyncHandler<'static>, at: At) -> u64 {
        ClusterHandler::time_zone_list_max_size(handler, at).unwrap_or(0).into()
    }
    fn rust_window_limit[](handler: &TimeSyncHandler<'static>, at: At) -> u64 {
        ClusterHandler::dst_offset_list_max_size(handler, at).unwrap_or(0).into()
    }
    fn rust_database[](handler: &TimeSyncHandler<'static>, at: At) -> u64 {
        ClusterHandler::time_zone_database(handler, at).map_or(0, |d| d as u64)
    }
    fn rust_generation[const Z: usize, const W: usize](store: &TimeZoneStore<Z, W>) -> u32 { store.generation() }
    fn rust_zone[const Z: usize, const W: usize](store: &TimeZoneStore<Z, W>, index: usize, out: &mut Out) -> u64 {
        let (mut current, mut found) = (0, 0);
        let _ = TimeZones::time_zone(store, &mut |entry| {
            if current == index {
                out.offset = entry.offset;
                out.a = entry.valid_at;
                out.b = entry.name.is_some().into();
                let name = entry.name.unwrap_or("");
                out.name[..name.len()].copy_from_slice(name.as_bytes());
                out.c = name.len() as u64;
                found = 1;
            }
            current += 1;
            Ok(())
        });
        found
    }
    fn rust_window[const Z: usize, const W: usize](store: &TimeZoneStore<Z, W>, index: usize, out: &mut Out) -> u64 {
        let (mut current, mut found) = (0, 0);
        let _ = TimeZones::dst_offset(store, &mut |entry| {
            if current == index {
                out.offset = entry.offset;
                out.a = entry.valid_starting;
                out.b = entry.valid_until.is_some().into();
                out.c = entry.valid_until.unwrap_or(0);
                found = 1;
            }
            current += 1;
            Ok(())
        });
        found
    }
    /// The name is cloned by the unchanged function, and dropped here
    fn rust_active_zone[const Z: usize, const W: usize](store: &TimeZoneStore<Z, W>, now: u64) -> u64 {
        let (offset, name) = store.active_time_zone(now);
        offset as u64 + black_box(&name).as_deref().map_or(0, |n| n.len() as u64)
    }
    /// A name of 12 bytes cloned and dropped, as the shim keeps names
    fn rust_name[](name: &oracle::utils::storage::String<64>) -> u64 { black_box(&Some(name.clone())).as_deref().map_or(0, |n| n.len() as u64) }
    fn rust_active_offset[const Z: usize, const W: usize](store: &TimeZoneStore<Z, W>, now: u64) -> Option<i32> {
        store.active_dst_offset(now)
    }
    fn rust_usable[const Z: usize, const W: usize](store: &TimeZoneStore<Z, W>, now: u64) -> bool { store.dst_usable(now) }
    fn rust_table_empty[const Z: usize, const W: usize](store: &TimeZoneStore<Z, W>) -> bool { store.dst_table_empty() }
    fn rust_next[const Z: usize, const W: usize](store: &TimeZoneStore<Z, W>, now: u64) -> Option<u64> { store.next_transition(now) }
    fn rust_walk[const Z: usize, const W: usize](store: &TimeZoneStore<Z, W>, start: u64, moments: &mut [u64; 41]) -> u64 {
        let (mut now, mut steps) = (start, 0);
        moments[0] = now;
        while let Some(next) = store.next_transition(now) {
            steps += 1;
            moments[steps] = next;
            now = next;
        }
        steps as u64
    }
    fn rust_set_utc_time[](handler: &TimeSyncHandler<'static>, at: At, utc: u64, granularity: u8) -> u64 {
        handler.handle_set_utc_time(at, SetUTCTimeRequest { utc, granularity, _life: PhantomData }).is_err().into()
    }
    fn rust_set_source[](handler: &TimeSyncHandler<'static>, at: At, source: Option<(u64, u16)>) -> u64 {
        handler.handle_set_trusted_time_source(at, SetTrustedTimeSourceRequest { source, _life: PhantomData }).is_err().into()
    }
    /// What the handler does, less the response that it builds
    fn rust_set_zones[const Z: usize, const W: usize](store: &TimeZoneStore<Z, W>, at: At, zones: &[ZoneArg]) -> u64 {
        if TimeZones::set_time_zone(store, &SetTimeZoneRequest(zones)).is_err() || store.oracle_store(&at.0.flash).is_err() {
            return 1;
        }
        at.notify_own_attr_changed(5);
        at.notify_own_attr_changed(6);
        0
    }
    /// What the handler does
    fn rust_set_windows[const Z: usize, const W: usize](store: &TimeZoneStore<Z, W>, at: At, windows: &[WindowArg]) -> u64 {
        if TimeZones::set_dst_offset(store, &SetDSTOffsetRequest(windows)).is_err() || store.oracle_store(&at.0.flash).is_err() {
            return 1;
        }
        at.notify_own_attr_changed(6);
        0
    }
    fn rust_rtc_set[](rtc: &mut Rtc, utc: u64, g: TimeGranularity, s: TimeSource, at: &dyn AttrChangeNotifier) -> bool {
        rtc.set_utc_time(utc, g, s, at)
    }
    fn rust_rtc_set_persist[](rtc: &mut Rtc, utc: u64, g: TimeGranularity, s: TimeSource, at: At) -> u64 {
        let mut persist = Persist::new(&at.0.flash);
        if rtc.set_utc_time_persist(utc, g, s, &mut persist, &at).is_err() {
            return 1;
        }
        persist.run().is_err().into()
    }
    fn rust_rtc_load[](rtc: &mut Rtc, flash: &Flash) -> u64 { rtc.load_persist(flash).is_err().into() }
    fn rust_rtc_reset[](rtc: &mut Rtc, flash: &Flash) -> u64 { flash.access(|kv, buf| rtc.reset_persist(kv, buf)).is_err().into() }
    fn rust_load[const Z: usize, const W: usize](store: &TimeZoneStore<Z, W>, flash: &Flash) -> u64 { store.oracle_load(flash).is_err().into() }
    fn rust_reset[const Z: usize, const W: usize](store: &TimeZoneStore<Z, W>, flash: &Flash) -> u64 {
        flash.access(|kv, buf| store.oracle_reset(kv, buf)).is_err().into()
    }
    fn rust_store[const Z: usize, const W: usize](store: &TimeZoneStore<Z, W>, flash: &Flash) -> u64 { store.oracle_store(flash).is_err().into() }
    /// One turn of the handler's loop, less its sleep
    fn rust_look[const Z: usize, const W: usize](store: &TimeZoneStore<Z, W>, matter: &Matter<'static>, seen: &mut Seen, at: At) -> Option<u64> {
        let now = matter.with_state(|state| state.rtc.utc_time()).reliable()?;
        let (offset, name) = store.active_time_zone(now);
        if seen.zone != Some(offset) {
            if seen.zone.is_some() {
                let _ = TimeZoneStatus::emit_for(at, 0, |event| event.offset(offset)?.name(name.as_deref())?.end());
            }
            seen.zone = Some(offset);
        }
        let active = store.active_dst_offset(now).is_some();
        if seen.active != Some(active) {
            if seen.active.is_some() || active {
                let _ = DSTStatus::emit_for(at, 0, |event| event.dst_offset_active(active)?.end());
            }
            seen.active = Some(active);
        }
        let usable = store.dst_usable(now);
        if seen.usable != Some(usable) {
            if !usable && seen.usable == Some(true) {
                let _ = DSTTableEmpty::emit_for(at, 0, |event| event.end());
            }
            seen.usable = Some(usable);
        }
        store.next_transition(now).map(|next| next.saturating_sub(now).saturating_add(100_000))
    }
    fn rust_poll[](run: &mut Pin<Box<dyn Future<Output = Result<(), oracle::error::Error>>>>) -> u64 {
        run.as_mut().poll(&mut Context::from_waker(Waker::noop())).is_ready().into()
    }
    fn rust_attempt[](client: &TimeSyncClient<'static, ()>, at: &At) -> u64 {
        pin!(client.refresh_once(&at.0.flash, at)).poll(&mut Context::from_waker(Waker::noop())).is_ready().into()
    }
    fn rust_new[const Z: usize, const W: usize](at: &mut core::mem::MaybeUninit<(TimeZoneStore<Z, W>, Matter<'static>)>) -> u64 {
        at.write((TimeZoneStore::new(), Matter::new()));
        0
    }
}
