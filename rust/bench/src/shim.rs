//! What the Rust is given here: a context that keeps an effect's code as the port does, and a key-value store that keeps nothing.
//!
//! The oracle's own context writes every effect into a log; this one does not, so that the log is no part of what is measured. Only
//! what the shim of the oracle logs by itself (a wake, a sleep, a read) is left, and `clear` empties it.

use std::cell::Cell;
use std::hint::black_box;

use oracle::dm::{
    event_data, AttrChangeNotifier, AttrId, ClusterId, CmdDetails, EndptId, EventEmitter, EventId, EventWriter, HandlerContext,
    InvokeContext, ReadContext,
};
use oracle::error::Error;
use oracle::im::EventPriority;
use oracle::persist::{KvBlobStore, KvBlobStoreAccess, LKG_UTC_KEY, TIME_ZONE_KEY, TRUSTED_TIME_SOURCE_KEY};
use oracle::tlv::Value;

/// Holds what a load finds; takes what is stored, and drops it
pub struct Flash {
    pub lists: Option<Value>,
    pub moment: Option<Value>,
    pub source: Option<Value>,
}

struct Opened<'a>(&'a Flash);

impl KvBlobStore for Opened<'_> {
    fn load(&mut self, key: u16, _: &mut [u8]) -> Result<Option<Value>, Error> {
        Ok(match key {
            TIME_ZONE_KEY => self.0.lists.clone(),
            LKG_UTC_KEY => self.0.moment.clone(),
            TRUSTED_TIME_SOURCE_KEY => self.0.source.clone(),
            _ => None,
        })
    }
    fn store(&mut self, key: u16, value: Value, _: &mut [u8]) -> Result<(), Error> {
        black_box((key, &value));
        Ok(())
    }
    fn remove(&mut self, key: u16, _: &mut [u8]) -> Result<(), Error> {
        black_box(key);
        Ok(())
    }
}

impl KvBlobStoreAccess for Flash {
    fn access<R>(&self, f: impl FnOnce(&mut dyn KvBlobStore, &mut [u8]) -> R) -> R {
        f(&mut Opened(self), &mut [])
    }
}

/// The codes of the effects, each in a byte, the last lowest
pub struct Ctx {
    pub cmd: CmdDetails,
    pub effects: Cell<u64>,
    pub flash: Flash,
}

impl Ctx {
    fn effect(&self, code: u64) {
        self.effects.set(self.effects.get() << 8 | code);
    }
}

#[derive(Clone, Copy)]
pub struct At(pub &'static Ctx);

impl AttrChangeNotifier for At {
    fn notify_attr_changed(&self, _: EndptId, _: ClusterId, attr: AttrId) {
        self.0.effect(0x10 | u64::from(attr));
    }
}

impl EventEmitter for At {
    fn emit_event<F>(&self, _: EndptId, _: ClusterId, event: EventId, _: EventPriority, f: F) -> Result<u64, Error>
    where
        F: FnOnce(EventWriter<'_>) -> Result<(), Error>,
    {
        black_box(event_data(f)?);
        self.0.effect(0x20 | u64::from(event));
        Ok(0)
    }
}

impl HandlerContext for At {
    fn kv(&self) -> impl KvBlobStoreAccess + '_ {
        &self.0.flash
    }
}

impl ReadContext for At {}

impl InvokeContext for At {
    fn cmd(&self) -> &CmdDetails {
        &self.0.cmd
    }
    fn notify_own_attr_changed(&self, attr: AttrId) {
        self.0.effect(0x10 | u64::from(attr));
    }
}

thread_local! {
    static CALLS: Cell<u32> = const { Cell::new(0) };
}

/// Empties the oracle's log at every 64th call
#[inline(always)]
pub fn clear() {
    let calls = CALLS.get().wrapping_add(1);
    CALLS.set(calls);
    if calls % 64 == 0 {
        drop(oracle::trace::take());
    }
}
