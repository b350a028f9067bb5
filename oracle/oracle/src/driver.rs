//! The oracle as the harness sees it: plain numbers in, answers and ordered effects out.
use core::future::Future;
use core::marker::PhantomData;
use core::num::NonZeroU8;
use core::pin::Pin;
use core::task::{Context, Poll, Waker};
use std::rc::Rc;

use crate::dm::clusters::decl::time_synchronization::{
    SetTimeZoneResponseBuilder, SetTrustedTimeSourceRequest, SetUTCTimeRequest,
    TrustedTimeSourceStructBuilder,
};
use crate::dm::clusters::time_sync::client::TimeSyncClient;
use crate::dm::clusters::time_sync::{
    cluster, ClusterHandler, DSTOffsetStructArrayBuilder, DSTOffsetStructBuilder,
    SetDSTOffsetRequest, SetTimeZoneRequest, TimeSyncHandler, TimeZoneStore,
    TimeZoneStructArrayBuilder, TimeZoneStructBuilder, TimeZones,
};
#[cfg(feature = "parts")]
pub use crate::dm::clusters::decl::time_synchronization::set_unreadable_part;
pub use crate::dm::clusters::decl::time_synchronization::{
    set_unreadable, RequestPart, WindowArg, ZoneArg,
};
pub use crate::rtc::{Rtc, TimeGranularity, TimeSource, TrustedTimeSource};
use crate::dm::{
    event_data, ArrayAttributeRead, AttrChangeNotifier, AttrId, ClusterId, CmdDetails, Dataver,
    EndptId, EventEmitter, EventId, EventWriter, HandlerContext, InvokeContext, LifecycleOp,
    ReadContext,
};
use crate::error::{Error, ErrorCode};
use crate::im::EventPriority;
use crate::persist::{
    KvBlobStoreAccess, Persist, SharedKv, LKG_UTC_KEY, TIME_ZONE_KEY, TRUSTED_TIME_SOURCE_KEY,
};
use crate::tlv::{Built, NullableBuilder, TLVBuilder, Value};
use crate::trace::{log, Effect};
pub use crate::transport::exchange::{clear_script, is_waiting, script, Outcome, Part};
use crate::utils::epoch::UtcTime;
use crate::utils::timers::{self, Duration};
use crate::Matter;

/// The number of a refusal
pub fn number(e: Error) -> u8 {
    match e.code() {
        ErrorCode::Invalid => 1,
        ErrorCode::ConstraintError => 2,
        ErrorCode::ResourceExhausted => 3,
        ErrorCode::InvalidCommand => 4,
        ErrorCode::CommandNotFound => 5,
        ErrorCode::AttributeNotFound => 6,
        ErrorCode::ExchangeFailed => 255,
    }
}

pub fn set_build_moment(us: u64) {
    oracle_param::set(us);
}

pub fn set_tick(us: u64) {
    timers::set_now(us);
}

pub fn tick() -> u64 {
    timers::now()
}

pub fn granularity(n: u8) -> Option<TimeGranularity> {
    use TimeGranularity::*;
    [NoTime, Minutes, Seconds, Milliseconds, Microseconds]
        .get(n as usize)
        .copied()
}

pub fn source(n: u8) -> Option<TimeSource> {
    use TimeSource::*;
    [
        None, Unknown, Admin, NodeTimeCluster, NonMatterSNTP, NonMatterNTP, MatterSNTP, MatterNTP,
        MixedNTP, NonMatterSNTPNTS, NonMatterNTPNTS, MatterSNTPNTS, MatterNTPNTS, MixedNTPNTS,
        CloudSource, PTP, GNSS,
    ]
    .get(n as usize)
    .copied()
}

/// The value tree that `TimeZoneStoreData` reads and writes
pub fn record(zones: &[ZoneArg], windows: &[WindowArg]) -> Value {
    let zones = zones.iter().map(|z| {
        let mut fields = vec![(0, Value::Int(z.offset.into())), (1, Value::Uint(z.valid_at))];
        if let Some(name) = &z.name {
            fields.push((2, Value::Str(name.clone())));
        }
        Value::Struct(fields)
    });
    let windows = windows.iter().map(|w| {
        let mut fields = vec![
            (0, Value::Int(w.offset.into())),
            (1, Value::Uint(w.valid_starting)),
        ];
        if let Some(until) = w.valid_until {
            fields.push((2, Value::Uint(until)));
        }
        Value::Struct(fields)
    });
    Value::Struct(vec![
        (0, Value::Array(zones.collect())),
        (1, Value::Array(windows.collect())),
    ])
}

// ---- The list store at any limits

pub trait StoreOps {
    fn set_time_zone(&self, zones: &[ZoneArg]) -> Result<bool, Error>;
    fn set_dst_offset(&self, windows: &[WindowArg]) -> Result<(), Error>;
    fn load(&self, record: Option<Value>) -> Result<(), Error>;
    fn store(&self) -> Result<(), Error>;
    fn reset(&self) -> Result<(), Error>;
    fn generation(&self) -> u32;
    fn set_generation(&self, generation: u32);
    fn active_time_zone(&self, now: u64) -> (i32, Option<String>);
    fn active_dst_offset(&self, now: u64) -> Option<i32>;
    fn dst_table_empty(&self) -> bool;
    fn dst_usable(&self, now: u64) -> bool;
    fn next_transition(&self, now: u64) -> Option<u64>;
    fn zones(&self) -> Vec<ZoneArg>;
    fn windows(&self) -> Vec<WindowArg>;
    fn max_sizes(&self) -> (u8, u8);

    /// The walk: `next_transition` until none
    fn walk(&self, mut now: u64) -> Vec<u64> {
        let mut out = Vec::new();
        while let Some(next) = self.next_transition(now) {
            out.push(next);
            assert!(out.len() <= 8 + 2 * 16, "the walk does not end");
            now = next;
        }
        out
    }
}

impl<const Z: usize, const W: usize> StoreOps for TimeZoneStore<Z, W> {
    fn set_time_zone(&self, zones: &[ZoneArg]) -> Result<bool, Error> {
        TimeZones::set_time_zone(self, &SetTimeZoneRequest(zones))
    }
    fn set_dst_offset(&self, windows: &[WindowArg]) -> Result<(), Error> {
        TimeZones::set_dst_offset(self, &SetDSTOffsetRequest(windows))
    }
    fn load(&self, record: Option<Value>) -> Result<(), Error> {
        let kv = SharedKv::default();
        if let Some(record) = record {
            kv.0.borrow_mut().0.insert(TIME_ZONE_KEY, record);
        }
        self.oracle_load(&kv)
    }
    fn store(&self) -> Result<(), Error> {
        self.oracle_store(&SharedKv::default())
    }
    fn reset(&self) -> Result<(), Error> {
        SharedKv::default().access(|kv, buf| self.oracle_reset(kv, buf))
    }
    fn generation(&self) -> u32 {
        TimeZoneStore::generation(self)
    }
    fn set_generation(&self, generation: u32) {
        self.oracle_set_generation(generation)
    }
    fn active_time_zone(&self, now: u64) -> (i32, Option<String>) {
        let (offset, name) = TimeZoneStore::active_time_zone(self, now);
        (offset, name.map(|name| (*name).to_owned()))
    }
    fn active_dst_offset(&self, now: u64) -> Option<i32> {
        TimeZoneStore::active_dst_offset(self, now)
    }
    fn dst_table_empty(&self) -> bool {
        TimeZoneStore::dst_table_empty(self)
    }
    fn dst_usable(&self, now: u64) -> bool {
        TimeZoneStore::dst_usable(self, now)
    }
    fn next_transition(&self, now: u64) -> Option<u64> {
        TimeZoneStore::next_transition(self, now)
    }
    fn zones(&self) -> Vec<ZoneArg> {
        let mut out = Vec::new();
        TimeZones::time_zone(self, &mut |entry| {
            out.push(ZoneArg {
                offset: entry.offset,
                valid_at: entry.valid_at,
                name: entry.name.map(str::to_owned),
            });
            Ok(())
        })
        .unwrap();
        out
    }
    fn windows(&self) -> Vec<WindowArg> {
        let mut out = Vec::new();
        TimeZones::dst_offset(self, &mut |entry| {
            out.push(WindowArg {
                offset: entry.offset,
                valid_starting: entry.valid_starting,
                valid_until: entry.valid_until,
            });
            Ok(())
        })
        .unwrap();
        out
    }
    fn max_sizes(&self) -> (u8, u8) {
        (
            TimeZones::time_zone_list_max_size(self).unwrap(),
            TimeZones::dst_offset_list_max_size(self).unwrap(),
        )
    }
}

/// A store as the handler's provider and as the driver's
pub trait AnyStore: StoreOps {
    fn as_time_zones(&self) -> &dyn TimeZones;
    fn as_ops(&self) -> &dyn StoreOps;
}

impl<const Z: usize, const W: usize> AnyStore for TimeZoneStore<Z, W> {
    fn as_time_zones(&self) -> &dyn TimeZones {
        self
    }
    fn as_ops(&self) -> &dyn StoreOps {
        self
    }
}

fn windows_limit<const Z: usize>(w: usize) -> Option<Box<dyn AnyStore>> {
    macro_rules! pick {
        ($($w:literal)*) => {
            match w {
                $( $w => Some(Box::new(TimeZoneStore::<Z, $w>::new())), )*
                _ => None,
            }
        };
    }
    pick!(1 2 3 4 5 6 7 8 9 10 11 12 13 14 15 16)
}

/// A store at limits 1 to 8 and 1 to 16
pub fn make_store(z: usize, w: usize) -> Option<Box<dyn AnyStore>> {
    macro_rules! pick {
        ($($z:literal)*) => {
            match z {
                $( $z => windows_limit::<$z>(w), )*
                _ => None,
            }
        };
    }
    pick!(1 2 3 4 5 6 7 8)
}

// ---- The context that the code under test is given

#[derive(Clone, Copy)]
pub struct Ctx {
    cmd: CmdDetails,
    kv: &'static SharedKv,
}

impl AttrChangeNotifier for Ctx {
    fn notify_attr_changed(&self, endpoint: EndptId, cluster: ClusterId, attr: AttrId) {
        log(Effect::Report(endpoint, cluster, attr));
    }
}

impl EventEmitter for Ctx {
    fn emit_event<F>(
        &self,
        endpoint: EndptId,
        cluster: ClusterId,
        event: EventId,
        _priority: EventPriority,
        f: F,
    ) -> Result<u64, Error>
    where
        F: FnOnce(EventWriter<'_>) -> Result<(), Error>,
    {
        log(Effect::Emit(endpoint, cluster, event, event_data(f)?));
        Ok(0)
    }
}

impl HandlerContext for Ctx {
    fn kv(&self) -> impl KvBlobStoreAccess + '_ {
        self.kv
    }
}

impl ReadContext for Ctx {}

impl InvokeContext for Ctx {
    fn cmd(&self) -> &CmdDetails {
        &self.cmd
    }
    fn notify_own_attr_changed(&self, attr: AttrId) {
        log(Effect::Report(0, 0x38, attr));
    }
}

// ---- A device: clock, handler at 2 and 2, timer, client

type Run = Pin<Box<dyn Future<Output = Result<(), Error>>>>;

/// What a loop waits for after a step
#[derive(Debug, Clone, Copy, PartialEq, Eq)]
pub enum Stand {
    /// Sleeping until this tick, or woken
    Until(u64),
    /// Waiting to be woken
    Wait,
    /// Waiting for the other node
    Exchange,
    Over,
}

const TIMER: u8 = 1;
const CLIENT: u8 = 2;

/// The parts are heap objects lent to each other for as long as the device lives; the loops,
/// which borrow them, go first.
pub struct Device {
    timer: Option<Run>,
    client: Option<Run>,
    client_at: *mut TimeSyncClient<'static, ()>,
    handler: *mut TimeSyncHandler<'static>,
    store: *mut TimeZoneStore<2, 2>,
    /// A list store at other limits, as a provider of the handler: no timer, nothing stored
    provider: *mut dyn AnyStore,
    /// A provider that is not of the unchanged files
    custom: Option<Rc<dyn TimeZones>>,
    matter: *mut Matter<'static>,
    kv: *mut SharedKv,
}

impl Drop for Device {
    fn drop(&mut self) {
        self.timer = None;
        self.client = None;
        unsafe {
            drop(Box::from_raw(self.client_at));
            drop(Box::from_raw(self.handler));
            if !self.store.is_null() {
                drop(Box::from_raw(self.store));
            }
            if !self.provider.is_null() {
                drop(Box::from_raw(self.provider));
            }
            drop(Box::from_raw(self.matter));
            drop(Box::from_raw(self.kv));
        }
    }
}

impl Device {
    pub fn new(with_store: bool) -> Self {
        Self::make(with_store, None)
    }

    /// A handler over a store at any limits. It is a provider like a custom one, so the handler
    /// neither stores nor has a timer; readings and refusals are those of the unchanged files.
    pub fn with_provider(z: usize, w: usize) -> Option<Self> {
        Some(Self::make(false, Some(make_store(z, w)?)))
    }

    /// A handler over a provider that is not of the unchanged files
    pub fn with_time_zones(custom: Rc<dyn TimeZones>) -> Self {
        let mut device = Self::make(false, None);
        let lent: &'static dyn TimeZones = unsafe { &*Rc::as_ptr(&custom) };
        let handler = unsafe { &mut *device.handler };
        *handler = handler.clone().with_time_zones(lent);
        device.custom = Some(custom);
        device
    }

    fn make(with_store: bool, provider: Option<Box<dyn AnyStore>>) -> Self {
        let kv = Box::into_raw(Box::new(SharedKv::default()));
        let matter = Box::into_raw(Box::new(Matter::new()));
        let store = if with_store {
            Box::into_raw(Box::new(TimeZoneStore::new()))
        } else {
            core::ptr::null_mut()
        };
        let m: &'static Matter<'static> = unsafe { &*matter };
        let handler = match unsafe { store.as_ref() } {
            Some(store) => TimeSyncHandler::new_with_time_zone(Dataver::new(0), m, store),
            None => TimeSyncHandler::new(Dataver::new(0), m),
        };
        let provider: *mut dyn AnyStore = match provider {
            Some(provider) => Box::into_raw(provider),
            None => core::ptr::null_mut::<TimeZoneStore<2, 2>>(),
        };
        let handler = match unsafe { provider.as_ref() } {
            Some(provider) => handler.with_time_zones(provider.as_time_zones()),
            None => handler,
        };
        clear_script();
        Self {
            timer: None,
            client: None,
            client_at: Box::into_raw(Box::new(TimeSyncClient::new(m, ()))),
            handler: Box::into_raw(Box::new(handler)),
            store,
            provider,
            custom: None,
            matter,
            kv,
        }
    }

    fn kv(&self) -> &'static SharedKv {
        unsafe { &*self.kv }
    }
    fn handler(&self) -> &'static TimeSyncHandler<'static> {
        unsafe { &*self.handler }
    }
    pub fn store(&self) -> Option<&dyn StoreOps> {
        unsafe {
            match self.store.as_ref() {
                Some(store) => Some(store),
                None => self.provider.as_ref().map(|provider| provider.as_ops()),
            }
        }
    }
    fn ctx(&self, fab_idx: u8) -> Ctx {
        Ctx {
            cmd: CmdDetails { fab_idx },
            kv: self.kv(),
        }
    }
    fn rtc<R>(&self, f: impl FnOnce(&mut Rtc) -> R) -> R {
        unsafe { &*self.matter }.with_state(|state| f(&mut state.rtc))
    }

    // Commands

    pub fn cmd_set_utc_time(&self, utc: u64, granularity: u8) -> Result<(), Error> {
        self.handler().handle_set_utc_time(
            self.ctx(1),
            SetUTCTimeRequest {
                utc,
                granularity,
                _life: PhantomData,
            },
        )
    }
    pub fn cmd_set_source(&self, fab: u8, source: Option<(u64, u16)>) -> Result<(), Error> {
        self.handler().handle_set_trusted_time_source(
            self.ctx(fab),
            SetTrustedTimeSourceRequest {
                source,
                _life: PhantomData,
            },
        )
    }
    pub fn cmd_set_time_zone(&self, zones: &[ZoneArg]) -> Result<Value, Error> {
        let built = self.handler().handle_set_time_zone(
            self.ctx(1),
            SetTimeZoneRequest(zones),
            SetTimeZoneResponseBuilder::new(Built::default()),
        )?;
        Ok(built.0.unwrap())
    }
    pub fn cmd_set_dst_offset(&self, windows: &[WindowArg]) -> Result<(), Error> {
        self.handler()
            .handle_set_dst_offset(self.ctx(1), SetDSTOffsetRequest(windows))
    }

    // Readings

    pub fn local_time(&self) -> Result<Option<u64>, Error> {
        Ok(self.handler().local_time(self.ctx(1))?.into_option())
    }
    pub fn attr_utc_time(&self) -> Option<u64> {
        self.handler().utc_time(self.ctx(1)).unwrap().into_option()
    }
    pub fn attr_granularity(&self) -> u8 {
        self.handler().granularity(self.ctx(1)).unwrap() as u8
    }
    pub fn attr_source(&self) -> u8 {
        self.handler().time_source(self.ctx(1)).unwrap() as u8
    }
    pub fn attr_trusted(&self) -> Value {
        self.handler()
            .trusted_time_source(
                self.ctx(1),
                NullableBuilder::<Built, TrustedTimeSourceStructBuilder<Built>>::new(
                    Built::default(),
                ),
            )
            .unwrap()
            .0
            .unwrap()
    }
    pub fn attr_zones(&self, index: Option<u16>) -> Result<Value, Error> {
        let read = match index {
            None => ArrayAttributeRead::ReadAll(TimeZoneStructArrayBuilder::new(Built::default())),
            Some(i) => ArrayAttributeRead::ReadOne(i, TimeZoneStructBuilder::new(Built::default())),
        };
        Ok(self.handler().time_zone(self.ctx(1), read)?.0.unwrap())
    }
    pub fn attr_windows(&self, index: Option<u16>) -> Result<Value, Error> {
        let read = match index {
            None => ArrayAttributeRead::ReadAll(DSTOffsetStructArrayBuilder::new(Built::default())),
            Some(i) => ArrayAttributeRead::ReadOne(i, DSTOffsetStructBuilder::new(Built::default())),
        };
        Ok(self.handler().dst_offset(self.ctx(1), read)?.0.unwrap())
    }
    pub fn attr_sizes(&self) -> Result<(u8, u8, u8), Error> {
        let handler = self.handler();
        Ok((
            handler.time_zone_database(self.ctx(1))? as u8,
            handler.time_zone_list_max_size(self.ctx(1))?,
            handler.dst_offset_list_max_size(self.ctx(1))?,
        ))
    }

    // Life

    pub fn lifecycle(&self, op: LifecycleOp) -> Result<(), Error> {
        self.handler().lifecycle(self.ctx(1), op)
    }
    pub fn startup(&self) -> Result<(), Error> {
        self.lifecycle(LifecycleOp::Startup)
    }
    pub fn factory_reset(&self) -> Result<(), Error> {
        self.lifecycle(LifecycleOp::FactoryReset)
    }
    /// What the flash holds, silently
    pub fn put_lists(&self, lists: Option<Value>) {
        self.put(TIME_ZONE_KEY, lists)
    }
    pub fn put_utc(&self, utc: Option<u64>) {
        self.put(LKG_UTC_KEY, utc.map(Value::Uint))
    }
    pub fn put_source(&self, source: Option<(u8, u64, u16)>) {
        let value = source.map(|(fab, node, endpoint)| {
            Value::Struct(vec![
                (0, Value::Uint(fab.into())),
                (1, Value::Uint(node)),
                (2, Value::Uint(endpoint.into())),
            ])
        });
        self.put(TRUSTED_TIME_SOURCE_KEY, value)
    }
    fn put(&self, key: u16, value: Option<Value>) {
        let mut kv = self.kv().0.borrow_mut();
        match value {
            Some(value) => kv.0.insert(key, value),
            None => kv.0.remove(&key),
        };
    }
    pub fn flash(&self) -> Vec<(u16, Value)> {
        let kv = self.kv().0.borrow();
        kv.0.iter().map(|(k, v)| (*k, v.clone())).collect()
    }

    // The clock itself

    pub fn rtc_load(&self) -> Result<(), Error> {
        let kv = self.kv();
        self.rtc(|rtc| rtc.load_persist(kv))
    }
    pub fn rtc_reset_persist(&self) -> Result<(), Error> {
        self.kv()
            .access(|kv, buf| self.rtc(|rtc| rtc.reset_persist(kv, buf)))
    }
    pub fn rtc_set(&self, utc: u64, g: TimeGranularity, s: TimeSource) -> bool {
        let ctx = self.ctx(1);
        self.rtc(|rtc| rtc.set_utc_time(utc, g, s, &ctx))
    }
    pub fn rtc_set_persist(&self, utc: u64, g: TimeGranularity, s: TimeSource) -> Result<(), Error> {
        let ctx = self.ctx(1);
        let mut persist = Persist::new(self.kv());
        self.rtc(|rtc| rtc.set_utc_time_persist(utc, g, s, &mut persist, &ctx))?;
        persist.run()
    }
    pub fn rtc_set_source(&self, source: Option<(NonZeroU8, u64, u16)>) -> Result<(), Error> {
        let ctx = self.ctx(1);
        let source = source.map(|(fab_idx, node_id, endpoint)| TrustedTimeSource {
            fab_idx,
            node_id,
            endpoint,
        });
        let mut persist = Persist::new(self.kv());
        self.rtc(|rtc| rtc.set_trusted_time_source_persist(source, &mut persist, &ctx, &ctx))?;
        persist.run()
    }
    /// Number, reliable
    pub fn rtc_utc(&self) -> (u64, bool) {
        match self.rtc(|rtc| rtc.utc_time()) {
            UtcTime::Reliable(us) => (us, true),
            UtcTime::LastKnown(us) => (us, false),
        }
    }
    pub fn rtc_granularity(&self) -> u8 {
        self.rtc(|rtc| rtc.utc_time_granularity()) as u8
    }
    pub fn rtc_source(&self) -> u8 {
        self.rtc(|rtc| rtc.utc_time_source()) as u8
    }
    /// UTC number, persisted, stored granularity and source, anchor
    pub fn rtc_fields(&self) -> (u64, u64, u8, u8, Option<u64>) {
        let (utc, persisted, g, s, anchor) = self.rtc(|rtc| rtc.oracle_fields());
        (utc, persisted, g as u8, s as u8, anchor)
    }

    // The loops

    pub fn timer_start(&mut self) -> Stand {
        self.timer = None;
        self.timer = Some(Box::pin(self.handler().run(self.ctx(1))));
        self.timer_step()
    }
    pub fn timer_step(&mut self) -> Stand {
        step(&mut self.timer, TIMER)
    }
    pub fn timer_due(&self) -> Option<u64> {
        timers::due(TIMER)
    }
    pub fn client_start(&mut self, period: u64) -> Stand {
        self.client = None;
        let client: &'static TimeSyncClient<'static, ()> = unsafe { &*self.client_at };
        let (kv, ctx) = (self.kv(), self.ctx(1));
        self.client = Some(Box::pin(async move {
            client.run(Duration::from_micros(period), kv, &ctx).await
        }));
        self.client_step()
    }
    pub fn client_step(&mut self) -> Stand {
        step(&mut self.client, CLIENT)
    }
    pub fn client_due(&self) -> Option<u64> {
        timers::due(CLIENT)
    }
}

/// Poll once: the loop runs until it has to wait
fn step(run: &mut Option<Run>, owner: u8) -> Stand {
    let Some(future) = run else {
        return Stand::Over;
    };
    timers::set_owner(owner);
    let polled = future.as_mut().poll(&mut Context::from_waker(Waker::noop()));
    timers::set_owner(0);
    match polled {
        Poll::Ready(_) => {
            *run = None;
            Stand::Over
        }
        Poll::Pending => match timers::due(owner) {
            Some(due) => Stand::Until(due),
            None if owner == CLIENT && is_waiting() => Stand::Exchange,
            None => Stand::Wait,
        },
    }
}

/// The cluster's shape for an options byte: features, attributes, commands
pub fn shape(options: u8) -> (u32, Vec<u32>, Vec<u32>) {
    macro_rules! pick {
        ($($o:literal)*) => { match options & 15 { $( $o => cluster::<$o>(), )* _ => unreachable!() } };
    }
    let c = pick!(0 1 2 3 4 5 6 7 8 9 10 11 12 13 14 15);
    (
        c.feature_map,
        c.attributes.iter().filter(|a| (c.with_attrs)(a, 1, 0)).map(|a| a.id).collect(),
        c.commands.iter().filter(|k| (c.with_cmds)(k, 1, 0)).map(|k| k.id).collect(),
    )
}
