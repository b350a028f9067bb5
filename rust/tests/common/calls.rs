//! Calls as values, on the library and on the reference.

use super::pages::Guarded;
use super::reference;
use timesync::{entry, EffectCode, EffectCodes};

/// Every entry point that takes an image, with its arguments that are not lent.
#[derive(Debug, Clone)]
pub enum Call {
    /// Moment, granularity, whether there is a source, the source, tick.
    SetUtcTime(u64, u8, u8, u8, u64),
    /// Fabric, whether a node is named, the node, the endpoint.
    SetTrustedTimeSource(u8, u8, u64, u16),
    SetTimeZone(Vec<u8>),
    SetDstOffset(Vec<u8>),
    /// Whether there is a record, and its bytes.
    LoadLists(u8, Vec<u8>),
    ResetLists,
    /// Build moment; whether there is a moment, the moment; whether there is a source, its fabric, node and endpoint.
    LoadClock(u64, u8, u64, u8, u8, u64, u16),
    /// Build moment.
    ResetClock(u64),
    /// Moment, granularity, source, tick.
    RtcSet(u64, u8, u8, u64),
    RtcSetPersist(u64, u8, u8, u64),
    /// At a tick.
    UtcTime(u64),
    Granularity,
    TimeSource,
    TrustedTimeSource,
    /// At a tick.
    LocalTime(u64),
    TimeZoneCount,
    DstOffsetCount,
    TimeZoneListMaxSize,
    DstOffsetListMaxSize,
    TimeZoneDatabase,
    Generation,
    /// At a moment.
    DstUsable(u64),
    DstTableEmpty,
    /// By index.
    TimeZone(usize),
    DstOffset(usize),
    /// At a moment.
    ActiveTimeZone(u64),
    ActiveDstOffset(u64),
    NextTransition(u64),
    Walk(u64),
    Record,
    /// At a tick.
    Look(u64),
    /// Whether it was answered; whether a moment came, the moment; whether a granularity came, the granularity; tick.
    Attempt(u8, u8, u64, u8, u8, u64),
    SourceChanged,
}

/// What a call is lent: the image, one output slice and numbers. Each call uses as many as it has.
#[derive(Debug, Clone, PartialEq, Eq)]
pub struct Lent {
    pub image: Vec<u8>,
    pub out: Vec<u8>,
    pub n: [u64; 5],
    pub offset: i32,
}

impl Lent {
    /// An image, and an output slice of this length, all of it filled with what no call would leave by chance.
    pub fn new(image: &[u8], room: usize) -> Self {
        Lent {
            image: image.to_vec(),
            out: vec![0xA5; room],
            n: [0xDEAD_BEEF_0000_0001; 5],
            offset: -77_777_777,
        }
    }
}

macro_rules! runner {
    ($name:ident, $($m:ident)::+) => {
        fn $name(call: &Call, image: &mut [u8], argument: &[u8], out: &mut [u8], n: &mut [u64; 5], offset: &mut i32) -> u64 {
            use $($m)::+ as m;
            let [a, b, c, d, e] = n;
            match *call {
                Call::SetUtcTime(utc, granularity, has_source, source, tick) => m::set_utc_time(image, utc, granularity, has_source, source, tick),
                Call::SetTrustedTimeSource(fab_idx, named, node_id, endpoint) => m::set_trusted_time_source(image, fab_idx, named, node_id, endpoint),
                Call::SetTimeZone(..) => m::set_time_zone(image, argument, out, a),
                Call::SetDstOffset(..) => m::set_dst_offset(image, argument, out, a),
                Call::LoadLists(there, ..) => m::load_lists(image, there, argument),
                Call::ResetLists => m::reset_lists(image),
                Call::LoadClock(build, has_moment, moment, has_source, fab_idx, node_id, endpoint) => {
                    m::load_clock(image, build, has_moment, moment, has_source, fab_idx, node_id, endpoint)
                }
                Call::ResetClock(build) => m::reset_clock(image, build),
                Call::RtcSet(utc, granularity, source, tick) => m::rtc_set_utc_time(image, utc, granularity, source, tick, a),
                Call::RtcSetPersist(utc, granularity, source, tick) => m::rtc_set_utc_time_persist(image, utc, granularity, source, tick, a),
                Call::UtcTime(tick) => m::utc_time(image, tick, a, b),
                Call::Granularity => m::utc_time_granularity(image, a),
                Call::TimeSource => m::utc_time_source(image, a),
                Call::TrustedTimeSource => m::trusted_time_source(image, a, b, c, d),
                Call::LocalTime(tick) => m::local_time(image, tick, a, b),
                Call::TimeZoneCount => m::time_zone_count(image, a),
                Call::DstOffsetCount => m::dst_offset_count(image, a),
                Call::TimeZoneListMaxSize => m::time_zone_list_max_size(image, a),
                Call::DstOffsetListMaxSize => m::dst_offset_list_max_size(image, a),
                Call::TimeZoneDatabase => m::time_zone_database(image, a),
                Call::Generation => m::generation(image, a),
                Call::DstUsable(utc) => m::dst_usable(image, utc, a),
                Call::DstTableEmpty => m::dst_table_empty(image, a),
                Call::TimeZone(index) => m::time_zone(image, index, out, offset, a, b, c),
                Call::DstOffset(index) => m::dst_offset(image, index, offset, a, b, c),
                Call::ActiveTimeZone(utc) => m::active_time_zone(image, utc, out, offset, a, b),
                Call::ActiveDstOffset(utc) => m::active_dst_offset(image, utc, a, offset),
                Call::NextTransition(utc) => m::next_transition(image, utc, a, b),
                Call::Walk(start) => m::walk(image, start, out, a),
                Call::Record => m::record(image, out, a),
                Call::Look(tick) => m::look(image, tick, out, offset, a, b, c, d, e),
                Call::Attempt(answered, has_utc, utc, has_granularity, granularity, tick) => {
                    m::attempt(image, answered, has_utc, utc, has_granularity, granularity, tick, a, b)
                }
                Call::SourceChanged => m::source_changed(image, a, b),
            }
        }
    };
}

runner!(run_library, entry);
runner!(run_reference, reference);

impl Call {
    /// The bytes of its argument, if it has one.
    pub fn argument(&self) -> &[u8] {
        match self {
            Call::SetTimeZone(request) | Call::SetDstOffset(request) => request,
            Call::LoadLists(_, stored) => stored,
            _ => &[],
        }
    }

    pub fn on_reference(&self, lent: &mut Lent) -> u64 {
        run_reference(self, &mut lent.image, self.argument(), &mut lent.out, &mut lent.n, &mut lent.offset)
    }
}

/// Calls the library on guarded memory.
pub struct Library {
    image: Guarded,
    argument: Guarded,
    out: Guarded,
}

impl Library {
    /// On memory that ends where its slices end.
    pub fn new() -> Self {
        Library {
            image: Guarded::new(),
            argument: Guarded::new(),
            out: Guarded::new(),
        }
    }

    /// On memory that begins where its slices begin.
    pub fn at_front() -> Self {
        Library {
            image: Guarded::at_front(),
            argument: Guarded::at_front(),
            out: Guarded::at_front(),
        }
    }

    pub fn call(&mut self, call: &Call, lent: &mut Lent) -> u64 {
        let mut argument = call.argument().to_vec();
        let Lent { image, out, n, offset } = lent;
        let Library {
            image: image_pages,
            argument: argument_pages,
            out: out_pages,
        } = self;
        image_pages.lend(image, |image| {
            argument_pages.lend(&mut argument, |argument| {
                out_pages.lend(out, |out| run_library(call, image, argument, out, n, offset))
            })
        })
    }

    /// Calls the library and the reference, holds the one to the other and answers what both returned.
    pub fn held(&mut self, call: &Call, lent: &mut Lent) -> u64 {
        let mut expected = lent.clone();
        let expect = call.on_reference(&mut expected);
        let got = self.call(call, lent);
        assert_eq!(got, expect, "returned {got:#x} and not {expect:#x}: {call:?}");
        assert!(
            lent.image == expected.image,
            "image at {:?}: {call:?}",
            first_difference(&lent.image, &expected.image)
        );
        assert!(
            lent.out == expected.out,
            "output at {:?}: {call:?}",
            first_difference(&lent.out, &expected.out)
        );
        assert_eq!(lent.n, expected.n, "numbers: {call:?}");
        assert_eq!(lent.offset, expected.offset, "offset: {call:?}");
        got
    }
}

/// Runs a call that must be taken, holds it to the reference, and answers its effects beside what it left.
pub fn taken(image: &[u8], call: Call) -> (Vec<EffectCode>, Lent) {
    let mut lent = Lent::new(image, 962);
    let returned = Library::new().held(&call, &mut lent);
    assert_eq!(returned & 0xFF, 0, "{call:?}");
    (EffectCodes::from_returned(returned).collect(), lent)
}

fn first_difference(a: &[u8], b: &[u8]) -> Option<usize> {
    a.iter().zip(b).position(|(x, y)| x != y)
}
