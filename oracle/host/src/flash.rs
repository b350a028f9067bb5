//! The flash of the port's device in a run: one record, with every change of it among the effects.
use std::cell::{Cell, RefCell};
use std::rc::Rc;

use differ::bytes;
use oracle::driver;
use oracle::error::{Error, ErrorCode};
use oracle::persist::TIME_ZONE_KEY;
use oracle::tlv::Value;
use oracle::trace::{log, Effect};

use crate::adapter::RecordStorage;

/// What a flash that fails answers: a code that nothing else here has
pub const FAILED: ErrorCode = ErrorCode::ExchangeFailed;

#[derive(Default)]
pub struct Flash {
    pub record: RefCell<Option<Vec<u8>>>,
    /// How often it was told of a bad record
    pub told: Cell<u64>,
    /// Whether every call fails
    pub fails: Cell<bool>,
}

/// A record as the value tree that rs-matter stores, null where it cannot be read
fn value(record: &[u8]) -> Value {
    bytes::read_record(record).map_or(Value::Null, |(zones, windows)| driver::record(&zones, &windows))
}

impl Flash {
    pub fn value(&self) -> Option<Value> {
        self.record.borrow().as_deref().map(value)
    }

    fn works(&self) -> Result<(), Error> {
        if self.fails.get() {
            return Err(FAILED.into());
        }
        Ok(())
    }
}

impl RecordStorage for Rc<Flash> {
    fn load<'b>(&self, buf: &'b mut [u8]) -> Result<Option<&'b [u8]>, Error> {
        self.works()?;
        let record = self.record.borrow();
        let Some(record) = record.as_deref() else { return Ok(None) };
        let front = buf.get_mut(..record.len()).ok_or(FAILED)?;
        front.copy_from_slice(record);
        Ok(Some(front))
    }

    fn store(&self, record: &[u8]) -> Result<(), Error> {
        self.works()?;
        log(Effect::Store(TIME_ZONE_KEY, value(record)));
        *self.record.borrow_mut() = Some(record.to_vec());
        Ok(())
    }

    fn remove(&self) -> Result<(), Error> {
        self.works()?;
        log(Effect::Remove(TIME_ZONE_KEY));
        *self.record.borrow_mut() = None;
        Ok(())
    }

    fn bad_record(&self) {
        self.told.set(self.told.get() + 1);
    }
}
