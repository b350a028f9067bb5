//! Every entry point of the library as a safe function over slices and references, with the arguments and the number of the C function.
//!
//! The C functions are declared here and called nowhere else; each function below is one call and nothing besides. They read and write only
//! what their pointers and lengths say, whatever the bytes are; a Rust slice or reference is always valid, and one that may be written never
//! overlaps another, so each function is safe.
//!
//! A reading returns 0 or the number of a refusal. A call that may change the image returns its number in the lowest byte and above it the
//! code of each effect, the first lowest. On a refusal everything that was lent stays as it was, but for the windows that a refused
//! SetDSTOffset empties and the change that it counts. [`Refusal`](crate::Refusal) and [`EffectCodes`](crate::EffectCodes) read what is returned.

#![allow(unsafe_code)]
#![allow(clippy::too_many_arguments)]

mod c {
    extern "C" {
        pub fn timesync_image_size() -> u64;
        pub fn timesync_new(
            image: *mut u8,
            image_len: usize,
            list_store: u8,
            zone_limit: usize,
            window_limit: usize,
            build: u64,
            period: u64,
        ) -> u64;
        pub fn timesync_set_utc_time(
            image: *mut u8,
            image_len: usize,
            utc_us: u64,
            granularity: u8,
            has_source: u8,
            source: u8,
            tick: u64,
        ) -> u64;
        pub fn timesync_set_trusted_time_source(
            image: *mut u8,
            image_len: usize,
            fab_idx: u8,
            named: u8,
            node_id: u64,
            endpoint: u16,
        ) -> u64;
        pub fn timesync_set_time_zone(
            image: *mut u8,
            image_len: usize,
            request: *const u8,
            request_len: usize,
            out: *mut u8,
            out_len: usize,
            used: *mut u64,
        ) -> u64;
        pub fn timesync_set_dst_offset(
            image: *mut u8,
            image_len: usize,
            request: *const u8,
            request_len: usize,
            out: *mut u8,
            out_len: usize,
            used: *mut u64,
        ) -> u64;
        pub fn timesync_load_lists(image: *mut u8, image_len: usize, there: u8, stored: *const u8, stored_len: usize) -> u64;
        pub fn timesync_reset_lists(image: *mut u8, image_len: usize) -> u64;
        pub fn timesync_load_clock(
            image: *mut u8,
            image_len: usize,
            build: u64,
            has_moment: u8,
            moment: u64,
            has_source: u8,
            fab_idx: u8,
            node_id: u64,
            endpoint: u16,
        ) -> u64;
        pub fn timesync_reset_clock(image: *mut u8, image_len: usize, build: u64) -> u64;
        pub fn timesync_rtc_set_utc_time(
            image: *mut u8,
            image_len: usize,
            utc_us: u64,
            granularity: u8,
            source: u8,
            tick: u64,
            changed: *mut u64,
        ) -> u64;
        pub fn timesync_rtc_set_utc_time_persist(
            image: *mut u8,
            image_len: usize,
            utc_us: u64,
            granularity: u8,
            source: u8,
            tick: u64,
            changed: *mut u64,
        ) -> u64;
        pub fn timesync_utc_time(image: *const u8, image_len: usize, tick: u64, reliable: *mut u64, utc_us: *mut u64) -> u64;
        pub fn timesync_utc_time_granularity(image: *const u8, image_len: usize, value: *mut u64) -> u64;
        pub fn timesync_utc_time_source(image: *const u8, image_len: usize, value: *mut u64) -> u64;
        pub fn timesync_trusted_time_source(
            image: *const u8,
            image_len: usize,
            there: *mut u64,
            fab_idx: *mut u64,
            node_id: *mut u64,
            endpoint: *mut u64,
        ) -> u64;
        pub fn timesync_local_time(image: *const u8, image_len: usize, tick: u64, there: *mut u64, local_us: *mut u64) -> u64;
        pub fn timesync_time_zone_count(image: *const u8, image_len: usize, value: *mut u64) -> u64;
        pub fn timesync_dst_offset_count(image: *const u8, image_len: usize, value: *mut u64) -> u64;
        pub fn timesync_time_zone_list_max_size(image: *const u8, image_len: usize, value: *mut u64) -> u64;
        pub fn timesync_dst_offset_list_max_size(image: *const u8, image_len: usize, value: *mut u64) -> u64;
        pub fn timesync_time_zone_database(image: *const u8, image_len: usize, value: *mut u64) -> u64;
        pub fn timesync_generation(image: *const u8, image_len: usize, value: *mut u64) -> u64;
        pub fn timesync_dst_usable(image: *const u8, image_len: usize, utc: u64, value: *mut u64) -> u64;
        pub fn timesync_dst_table_empty(image: *const u8, image_len: usize, value: *mut u64) -> u64;
        pub fn timesync_time_zone(
            image: *const u8,
            image_len: usize,
            index: usize,
            name: *mut u8,
            name_room: usize,
            offset: *mut i32,
            valid_at: *mut u64,
            named: *mut u64,
            name_len: *mut u64,
        ) -> u64;
        pub fn timesync_dst_offset(
            image: *const u8,
            image_len: usize,
            index: usize,
            offset: *mut i32,
            valid_starting: *mut u64,
            closed: *mut u64,
            valid_until: *mut u64,
        ) -> u64;
        pub fn timesync_active_time_zone(
            image: *const u8,
            image_len: usize,
            utc: u64,
            name: *mut u8,
            name_room: usize,
            offset: *mut i32,
            named: *mut u64,
            name_len: *mut u64,
        ) -> u64;
        pub fn timesync_active_dst_offset(image: *const u8, image_len: usize, utc: u64, there: *mut u64, offset: *mut i32) -> u64;
        pub fn timesync_next_transition(image: *const u8, image_len: usize, utc: u64, there: *mut u64, moment: *mut u64) -> u64;
        pub fn timesync_walk(image: *const u8, image_len: usize, start: u64, moments: *mut u8, moments_room: usize, steps: *mut u64)
            -> u64;
        pub fn timesync_record(image: *const u8, image_len: usize, out: *mut u8, out_len: usize, used: *mut u64) -> u64;
        pub fn timesync_look(
            image: *mut u8,
            image_len: usize,
            tick: u64,
            name: *mut u8,
            name_room: usize,
            offset: *mut i32,
            named: *mut u64,
            name_len: *mut u64,
            dst_active: *mut u64,
            sleep: *mut u64,
            sleep_us: *mut u64,
        ) -> u64;
        pub fn timesync_attempt(
            image: *mut u8,
            image_len: usize,
            answered: u8,
            has_utc: u8,
            utc_us: u64,
            has_granularity: u8,
            granularity: u8,
            tick: u64,
            wait: *mut u64,
            wait_us: *mut u64,
        ) -> u64;
        pub fn timesync_source_changed(image: *mut u8, image_len: usize, wait: *mut u64, wait_us: *mut u64) -> u64;
    }

    // of the archive that only differential runs link
    #[cfg(feature = "replay")]
    extern "C" {
        pub fn timesync_replay(
            zone_limit: usize,
            window_limit: usize,
            history: *const u8,
            history_len: usize,
            start: u64,
            at: u64,
            moments: *mut u8,
            moments_len: usize,
            steps: *mut u64,
            name: *mut u8,
            name_len: usize,
            zone: *mut i32,
            named: *mut u64,
            name_used: *mut u64,
            active: *mut u64,
            window: *mut i32,
            usable: *mut u64,
            has_next: *mut u64,
            next: *mut u64,
            out: *mut u8,
            out_len: usize,
            used: *mut u64,
            generation: *mut u64,
        ) -> u64;
    }
}

/// The number of bytes of an image.
#[inline]
pub fn image_size() -> u64 {
    // SAFETY: the function takes nothing and returns a number.
    unsafe { c::timesync_image_size() }
}

/// Makes a new image: with a list store of these limits where `list_store` is not 0, else without one. Refuses with 8.
#[inline]
pub fn new(image: &mut [u8], list_store: u8, zone_limit: usize, window_limit: usize, build: u64, period: u64) -> u64 {
    // SAFETY: each pointer comes from a slice with its length or from a reference, valid for the call and not aliased where written.
    unsafe { c::timesync_new(image.as_mut_ptr(), image.len(), list_store, zone_limit, window_limit, build, period) }
}

/// SetUTCTime. Refuses with 8, 1.
#[inline]
pub fn set_utc_time(image: &mut [u8], utc_us: u64, granularity: u8, has_source: u8, source: u8, tick: u64) -> u64 {
    // SAFETY: each pointer comes from a slice with its length or from a reference, valid for the call and not aliased where written.
    unsafe { c::timesync_set_utc_time(image.as_mut_ptr(), image.len(), utc_us, granularity, has_source, source, tick) }
}

/// SetTrustedTimeSource. Refuses with 4, 8.
#[inline]
pub fn set_trusted_time_source(image: &mut [u8], fab_idx: u8, named: u8, node_id: u64, endpoint: u16) -> u64 {
    // SAFETY: each pointer comes from a slice with its length or from a reference, valid for the call and not aliased where written.
    unsafe { c::timesync_set_trusted_time_source(image.as_mut_ptr(), image.len(), fab_idx, named, node_id, endpoint) }
}

/// SetTimeZone; the record to store goes to the front of `out`. Refuses with 8, 5, 1, then entry by entry 3 and 2, and 9.
#[inline]
pub fn set_time_zone(image: &mut [u8], request: &[u8], out: &mut [u8], used: &mut u64) -> u64 {
    // SAFETY: each pointer comes from a slice with its length or from a reference, valid for the call and not aliased where written.
    unsafe {
        c::timesync_set_time_zone(
            image.as_mut_ptr(),
            image.len(),
            request.as_ptr(),
            request.len(),
            out.as_mut_ptr(),
            out.len(),
            used,
        )
    }
}

/// SetDSTOffset; the record to store goes to the front of `out`. Refuses with 8, 5, 1, then entry by entry 3 and 2, and 9.
/// Refused with 2 or 3 it empties the windows and wakes the timer.
#[inline]
pub fn set_dst_offset(image: &mut [u8], request: &[u8], out: &mut [u8], used: &mut u64) -> u64 {
    // SAFETY: each pointer comes from a slice with its length or from a reference, valid for the call and not aliased where written.
    unsafe {
        c::timesync_set_dst_offset(
            image.as_mut_ptr(),
            image.len(),
            request.as_ptr(),
            request.len(),
            out.as_mut_ptr(),
            out.len(),
            used,
        )
    }
}

/// Loads the lists from their record where `there` is not 0. Refuses with 8, 7.
#[inline]
pub fn load_lists(image: &mut [u8], there: u8, stored: &[u8]) -> u64 {
    // SAFETY: each pointer comes from a slice with its length or from a reference, valid for the call and not aliased where written.
    unsafe { c::timesync_load_lists(image.as_mut_ptr(), image.len(), there, stored.as_ptr(), stored.len()) }
}

/// Empties the lists. Refuses with 8.
#[inline]
pub fn reset_lists(image: &mut [u8]) -> u64 {
    // SAFETY: each pointer comes from a slice with its length or from a reference, valid for the call and not aliased where written.
    unsafe { c::timesync_reset_lists(image.as_mut_ptr(), image.len()) }
}

/// Loads the clock from what flash holds of it. Refuses with 8, 7.
#[inline]
pub fn load_clock(
    image: &mut [u8],
    build: u64,
    has_moment: u8,
    moment: u64,
    has_source: u8,
    fab_idx: u8,
    node_id: u64,
    endpoint: u16,
) -> u64 {
    // SAFETY: each pointer comes from a slice with its length or from a reference, valid for the call and not aliased where written.
    unsafe {
        c::timesync_load_clock(
            image.as_mut_ptr(),
            image.len(),
            build,
            has_moment,
            moment,
            has_source,
            fab_idx,
            node_id,
            endpoint,
        )
    }
}

/// Resets the clock. Refuses with 8.
#[inline]
pub fn reset_clock(image: &mut [u8], build: u64) -> u64 {
    // SAFETY: each pointer comes from a slice with its length or from a reference, valid for the call and not aliased where written.
    unsafe { c::timesync_reset_clock(image.as_mut_ptr(), image.len(), build) }
}

/// Sets the clock with a source of any kind. Refuses with 8, 1.
#[inline]
pub fn rtc_set_utc_time(image: &mut [u8], utc_us: u64, granularity: u8, source: u8, tick: u64, changed: &mut u64) -> u64 {
    // SAFETY: each pointer comes from a slice with its length or from a reference, valid for the call and not aliased where written.
    unsafe { c::timesync_rtc_set_utc_time(image.as_mut_ptr(), image.len(), utc_us, granularity, source, tick, changed) }
}

/// The same, and has the moment stored that is a day or more from the persisted one. Refuses with 8, 1.
#[inline]
pub fn rtc_set_utc_time_persist(image: &mut [u8], utc_us: u64, granularity: u8, source: u8, tick: u64, changed: &mut u64) -> u64 {
    // SAFETY: each pointer comes from a slice with its length or from a reference, valid for the call and not aliased where written.
    unsafe { c::timesync_rtc_set_utc_time_persist(image.as_mut_ptr(), image.len(), utc_us, granularity, source, tick, changed) }
}

/// The UTC time at a tick. Refuses with 8.
#[inline]
pub fn utc_time(image: &[u8], tick: u64, reliable: &mut u64, utc_us: &mut u64) -> u64 {
    // SAFETY: each pointer comes from a slice with its length or from a reference, valid for the call and not aliased where written.
    unsafe { c::timesync_utc_time(image.as_ptr(), image.len(), tick, reliable, utc_us) }
}

/// Granularity by its number. Refuses with 8.
#[inline]
pub fn utc_time_granularity(image: &[u8], value: &mut u64) -> u64 {
    // SAFETY: each pointer comes from a slice with its length or from a reference, valid for the call and not aliased where written.
    unsafe { c::timesync_utc_time_granularity(image.as_ptr(), image.len(), value) }
}

/// TimeSource by its number. Refuses with 8.
#[inline]
pub fn utc_time_source(image: &[u8], value: &mut u64) -> u64 {
    // SAFETY: each pointer comes from a slice with its length or from a reference, valid for the call and not aliased where written.
    unsafe { c::timesync_utc_time_source(image.as_ptr(), image.len(), value) }
}

/// TrustedTimeSource, or that there is none. Refuses with 8.
#[inline]
pub fn trusted_time_source(image: &[u8], there: &mut u64, fab_idx: &mut u64, node_id: &mut u64, endpoint: &mut u64) -> u64 {
    // SAFETY: each pointer comes from a slice with its length or from a reference, valid for the call and not aliased where written.
    unsafe { c::timesync_trusted_time_source(image.as_ptr(), image.len(), there, fab_idx, node_id, endpoint) }
}

/// LocalTime at a tick, or null. Refuses with 8, 6.
#[inline]
pub fn local_time(image: &[u8], tick: u64, there: &mut u64, local_us: &mut u64) -> u64 {
    // SAFETY: each pointer comes from a slice with its length or from a reference, valid for the call and not aliased where written.
    unsafe { c::timesync_local_time(image.as_ptr(), image.len(), tick, there, local_us) }
}

/// How many zones are listed. Refuses with 8, 6.
#[inline]
pub fn time_zone_count(image: &[u8], value: &mut u64) -> u64 {
    // SAFETY: each pointer comes from a slice with its length or from a reference, valid for the call and not aliased where written.
    unsafe { c::timesync_time_zone_count(image.as_ptr(), image.len(), value) }
}

/// How many windows there are. Refuses with 8, 6.
#[inline]
pub fn dst_offset_count(image: &[u8], value: &mut u64) -> u64 {
    // SAFETY: each pointer comes from a slice with its length or from a reference, valid for the call and not aliased where written.
    unsafe { c::timesync_dst_offset_count(image.as_ptr(), image.len(), value) }
}

/// The zone limit. Refuses with 8, 6.
#[inline]
pub fn time_zone_list_max_size(image: &[u8], value: &mut u64) -> u64 {
    // SAFETY: each pointer comes from a slice with its length or from a reference, valid for the call and not aliased where written.
    unsafe { c::timesync_time_zone_list_max_size(image.as_ptr(), image.len(), value) }
}

/// The window limit. Refuses with 8, 6.
#[inline]
pub fn dst_offset_list_max_size(image: &[u8], value: &mut u64) -> u64 {
    // SAFETY: each pointer comes from a slice with its length or from a reference, valid for the call and not aliased where written.
    unsafe { c::timesync_dst_offset_list_max_size(image.as_ptr(), image.len(), value) }
}

/// TimeZoneDatabase: None, whose number is 2. Refuses with 8, 6.
#[inline]
pub fn time_zone_database(image: &[u8], value: &mut u64) -> u64 {
    // SAFETY: each pointer comes from a slice with its length or from a reference, valid for the call and not aliased where written.
    unsafe { c::timesync_time_zone_database(image.as_ptr(), image.len(), value) }
}

/// How many changes of the lists there were. Refuses with 8, 6.
#[inline]
pub fn generation(image: &[u8], value: &mut u64) -> u64 {
    // SAFETY: each pointer comes from a slice with its length or from a reference, valid for the call and not aliased where written.
    unsafe { c::timesync_generation(image.as_ptr(), image.len(), value) }
}

/// Whether some window is open or ends after the moment. Refuses with 8, 6.
#[inline]
pub fn dst_usable(image: &[u8], utc: u64, value: &mut u64) -> u64 {
    // SAFETY: each pointer comes from a slice with its length or from a reference, valid for the call and not aliased where written.
    unsafe { c::timesync_dst_usable(image.as_ptr(), image.len(), utc, value) }
}

/// Whether there is no window at all. Refuses with 8, 6.
#[inline]
pub fn dst_table_empty(image: &[u8], value: &mut u64) -> u64 {
    // SAFETY: each pointer comes from a slice with its length or from a reference, valid for the call and not aliased where written.
    unsafe { c::timesync_dst_table_empty(image.as_ptr(), image.len(), value) }
}

/// A listed zone; its name goes to the front of `name`. Refuses with 8, 6, 2, 9.
#[inline]
pub fn time_zone(
    image: &[u8],
    index: usize,
    name: &mut [u8],
    offset: &mut i32,
    valid_at: &mut u64,
    named: &mut u64,
    name_len: &mut u64,
) -> u64 {
    // SAFETY: each pointer comes from a slice with its length or from a reference, valid for the call and not aliased where written.
    unsafe {
        c::timesync_time_zone(
            image.as_ptr(),
            image.len(),
            index,
            name.as_mut_ptr(),
            name.len(),
            offset,
            valid_at,
            named,
            name_len,
        )
    }
}

/// A window. Refuses with 8, 6, 2.
#[inline]
pub fn dst_offset(image: &[u8], index: usize, offset: &mut i32, valid_starting: &mut u64, closed: &mut u64, valid_until: &mut u64) -> u64 {
    // SAFETY: each pointer comes from a slice with its length or from a reference, valid for the call and not aliased where written.
    unsafe { c::timesync_dst_offset(image.as_ptr(), image.len(), index, offset, valid_starting, closed, valid_until) }
}

/// The active zone; its name goes to the front of `name`. Refuses with 8, 6, 9.
#[inline]
pub fn active_time_zone(image: &[u8], utc: u64, name: &mut [u8], offset: &mut i32, named: &mut u64, name_len: &mut u64) -> u64 {
    // SAFETY: each pointer comes from a slice with its length or from a reference, valid for the call and not aliased where written.
    unsafe {
        c::timesync_active_time_zone(
            image.as_ptr(),
            image.len(),
            utc,
            name.as_mut_ptr(),
            name.len(),
            offset,
            named,
            name_len,
        )
    }
}

/// The offset of the active window, or that none is active. Refuses with 8, 6.
#[inline]
pub fn active_dst_offset(image: &[u8], utc: u64, there: &mut u64, offset: &mut i32) -> u64 {
    // SAFETY: each pointer comes from a slice with its length or from a reference, valid for the call and not aliased where written.
    unsafe { c::timesync_active_dst_offset(image.as_ptr(), image.len(), utc, there, offset) }
}

/// The smallest start or end after the moment, or that there is none. Refuses with 8, 6.
#[inline]
pub fn next_transition(image: &[u8], utc: u64, there: &mut u64, moment: &mut u64) -> u64 {
    // SAFETY: each pointer comes from a slice with its length or from a reference, valid for the call and not aliased where written.
    unsafe { c::timesync_next_transition(image.as_ptr(), image.len(), utc, there, moment) }
}

/// The walk: its moments go to the front of `moments`, 8 bytes each. Refuses with 8, 6, 9.
#[inline]
pub fn walk(image: &[u8], start: u64, moments: &mut [u8], steps: &mut u64) -> u64 {
    // SAFETY: each pointer comes from a slice with its length or from a reference, valid for the call and not aliased where written.
    unsafe { c::timesync_walk(image.as_ptr(), image.len(), start, moments.as_mut_ptr(), moments.len(), steps) }
}

/// The record of both lists goes to the front of `out`. Refuses with 8, 6, 9.
#[inline]
pub fn record(image: &[u8], out: &mut [u8], used: &mut u64) -> u64 {
    // SAFETY: each pointer comes from a slice with its length or from a reference, valid for the call and not aliased where written.
    unsafe { c::timesync_record(image.as_ptr(), image.len(), out.as_mut_ptr(), out.len(), used) }
}

/// A look of the timer. Refuses with 8, 9.
#[inline]
pub fn look(
    image: &mut [u8],
    tick: u64,
    name: &mut [u8],
    offset: &mut i32,
    named: &mut u64,
    name_len: &mut u64,
    dst_active: &mut u64,
    sleep: &mut u64,
    sleep_us: &mut u64,
) -> u64 {
    // SAFETY: each pointer comes from a slice with its length or from a reference, valid for the call and not aliased where written.
    unsafe {
        c::timesync_look(
            image.as_mut_ptr(),
            image.len(),
            tick,
            name.as_mut_ptr(),
            name.len(),
            offset,
            named,
            name_len,
            dst_active,
            sleep,
            sleep_us,
        )
    }
}

/// An attempt of the client with what the exchange brought. Refuses with 8.
#[inline]
pub fn attempt(
    image: &mut [u8],
    answered: u8,
    has_utc: u8,
    utc_us: u64,
    has_granularity: u8,
    granularity: u8,
    tick: u64,
    wait: &mut u64,
    wait_us: &mut u64,
) -> u64 {
    // SAFETY: each pointer comes from a slice with its length or from a reference, valid for the call and not aliased where written.
    unsafe {
        c::timesync_attempt(
            image.as_mut_ptr(),
            image.len(),
            answered,
            has_utc,
            utc_us,
            has_granularity,
            granularity,
            tick,
            wait,
            wait_us,
        )
    }
}

/// The trusted time source was set or cleared. Refuses with 8.
#[inline]
pub fn source_changed(image: &mut [u8], wait: &mut u64, wait_us: &mut u64) -> u64 {
    // SAFETY: each pointer comes from a slice with its length or from a reference, valid for the call and not aliased where written.
    unsafe { c::timesync_source_changed(image.as_mut_ptr(), image.len(), wait, wait_us) }
}

/// A whole history on a new list store, the walk after it from `start`, and what is looked up at `at`. Refuses with 8, 1, 9.
#[cfg(feature = "replay")]
#[inline]
pub fn replay(
    zone_limit: usize,
    window_limit: usize,
    history: &[u8],
    start: u64,
    at: u64,
    moments: &mut [u8],
    steps: &mut u64,
    name: &mut [u8],
    zone: &mut i32,
    named: &mut u64,
    name_used: &mut u64,
    active: &mut u64,
    window: &mut i32,
    usable: &mut u64,
    has_next: &mut u64,
    next: &mut u64,
    out: &mut [u8],
    used: &mut u64,
    generation: &mut u64,
) -> u64 {
    // SAFETY: each pointer comes from a slice with its length or from a reference, valid for the call and not aliased where written.
    unsafe {
        c::timesync_replay(
            zone_limit,
            window_limit,
            history.as_ptr(),
            history.len(),
            start,
            at,
            moments.as_mut_ptr(),
            moments.len(),
            steps,
            name.as_mut_ptr(),
            name.len(),
            zone,
            named,
            name_used,
            active,
            window,
            usable,
            has_next,
            next,
            out.as_mut_ptr(),
            out.len(),
            used,
            generation,
        )
    }
}
