//! Two devices with the same handler, one over rs-matter's own list store and one over the port's: each step is done by
//! both, and then every attribute is compared.
use std::fmt::Debug;
use std::future::Future;
use std::pin::pin;
use std::rc::Rc;
use std::task::{Context, Waker};

use differ::draw::{self, Rng};
use oracle::dm::LifecycleOp;
use oracle::driver::{self, Device, RequestPart, StoreOps};
use oracle::error::{Error, ErrorCode};
use oracle::persist::TIME_ZONE_KEY;
use oracle::tlv::Value;
use oracle::trace::{self, Effect};
use timesync::Limits;

use crate::adapter::PortTimeZones;
use crate::counts::Counts;
use crate::flash::Flash;
use crate::list::List;

/// How many times LocalTime is read after a step
const LOCAL_TIMES: u64 = 4;
/// DSTOffset without an entry
pub const NO_WINDOWS: Value = Value::Array(Vec::new());

pub type Done = Result<(), String>;

#[derive(Debug, Clone)]
pub enum Step {
    /// The tick from now on
    Tick(u64),
    /// SetUTCTime: moment and granularity
    Utc(u64, u8),
    /// SetTimeZone or SetDSTOffset, and what of it cannot be decoded
    Set(List, Option<RequestPart>),
    /// New devices on the same flash, which may now hold a bad record
    Restart(Option<Vec<u8>>),
    /// Startup, FactoryReset and the operations that do nothing, on the devices that run
    Lifecycle(LifecycleOp),
}

/// The port's device, and what is behind its handler
pub struct Port {
    pub device: Device,
    pub time_zones: Rc<PortTimeZones<Rc<Flash>>>,
    pub flash: Rc<Flash>,
}

impl Port {
    pub fn new(limits: Limits, flash: Rc<Flash>) -> Result<Self, Error> {
        let time_zones = Rc::new(PortTimeZones::new(limits, flash.clone())?);
        Ok(Self { device: Device::with_time_zones(time_zones.clone()), time_zones, flash })
    }

    /// Whether a wake is kept for the timer
    fn is_woken(&self) -> bool {
        let wait = pin!(self.time_zones.wait_changed());
        let woken = wait.poll(&mut Context::from_waker(Waker::noop())).is_ready();
        trace::take();
        woken
    }
}

/// What a device answers, and what it does
type Did<T> = (T, Vec<Effect>);
type Response = Result<Value, Error>;

pub fn did<T>(device: &Device, call: impl FnOnce(&Device) -> T) -> Did<T> {
    let answer = call(device);
    (answer, trace::take())
}

pub struct Pair<'c> {
    pub limits: Limits,
    rust: Device,
    port: Port,
    /// What the flash holds, as rs-matter stores it
    kept: Option<Value>,
    /// Whether that is a bad record
    bad: bool,
    counts: &'c mut Counts,
}

fn rust_device(limits: Limits) -> Result<Device, String> {
    Device::with_provider(limits.time_zone_max, limits.dst_offset_max).ok_or("limits that make no list store".into())
}

fn port_device(limits: Limits, flash: Rc<Flash>) -> Result<Port, String> {
    Port::new(limits, flash).map_err(|error| format!("the port takes no limits {limits:?}: {error}"))
}

fn store(device: &Device) -> Result<&dyn StoreOps, Error> {
    device.store().ok_or(ErrorCode::AttributeNotFound.into())
}

impl<'c> Pair<'c> {
    pub fn new(limits: Limits, counts: &'c mut Counts) -> Result<Self, String> {
        driver::set_tick(0);
        driver::set_unreadable_part(None);
        trace::take();
        let (rust, port) = (rust_device(limits)?, port_device(limits, Rc::default())?);
        Ok(Self { limits, rust, port, kept: None, bad: false, counts })
    }

    /// Does a step on both; `probe` decides when LocalTime is read after it
    pub fn step(&mut self, step: &Step, probe: u64) -> Done {
        match step {
            Step::Tick(tick) => driver::set_tick(*tick),
            Step::Utc(us, granularity) => {
                self.both("SetUTCTime", |device| device.cmd_set_utc_time(*us, *granularity))?
            }
            Step::Set(list, unreadable) => self.set(list, *unreadable)?,
            Step::Restart(bad) => self.restart(bad.as_deref())?,
            Step::Lifecycle(LifecycleOp::Startup) => self.startup()?,
            Step::Lifecycle(LifecycleOp::FactoryReset) => self.factory_reset()?,
            Step::Lifecycle(op) => self.both("lifecycle", |device| device.lifecycle(*op))?,
        }
        self.compare(probe)
    }

    /// A command that both answer alike, with the same effects
    fn both<T: PartialEq + Debug>(&mut self, what: &str, call: impl Fn(&Device) -> T) -> Done {
        let rust = did(&self.rust, &call);
        let port = self.on_port(&call)?;
        self.counts.same(what, &port, &rust)
    }

    /// A command on the port's device; a wake among its effects is kept for the timer
    fn on_port<T>(&mut self, call: impl FnOnce(&Device) -> T) -> Result<Did<T>, String> {
        let port = did(&self.port.device, call);
        self.counts.same("a wake is kept", &self.port.is_woken(), &port.1.contains(&Effect::WakeTimer))?;
        Ok(port)
    }

    // Commands on the lists

    fn set(&mut self, list: &List, unreadable: Option<RequestPart>) -> Done {
        let before = self.rust_record()?;
        driver::set_unreadable_part(unreadable);
        let rust = did(&self.rust, |device| list.send(device));
        let port = self.on_port(|device| list.send(device));
        driver::set_unreadable_part(None);
        let port = port?;
        self.counts.met(list.command(), &port.0);
        match unreadable.filter(|part| list.is_read(*part, self.limits)) {
            None => self.decoded(list.command(), rust, port),
            Some(part) => self.undecodable(list, part, rust, port).and(self.give_back(before)),
        }
    }

    /// Both answer alike. A custom provider stores by itself, so the Rust's lists are stored here, where the handler
    /// stores those of its own store.
    fn decoded(&mut self, what: &str, mut rust: Did<Response>, port: Did<Response>) -> Done {
        if rust.0.is_ok() {
            let record = self.rust_record()?;
            rust.1.insert(1, Effect::Store(TIME_ZONE_KEY, record.clone()));
            (self.kept, self.bad) = (Some(record), false);
        }
        self.counts.same(what, &port, &rust)
    }

    /// Rows 1 and 2 of the documented differences: the port refuses the request and does nothing. The Rust refuses for
    /// the first mistake, and SetDSTOffset has emptied its windows.
    fn undecodable(&mut self, list: &List, part: RequestPart, rust: Did<Response>, port: Did<Response>) -> Done {
        let invalid = Error::new(ErrorCode::Invalid);
        self.counts.same("a request that cannot be decoded", &port, &(Err(invalid), Vec::new()))?;
        let before = match part {
            RequestPart::List => 0,
            RequestPart::Entry(at) => at,
            // which rules come before a field, and what is left of the windows, depends on the field
            RequestPart::Field(..) => {
                return self.counts.same("an undecodable field, the Rust", &rust.0.is_ok(), &false)
            }
        };
        let mistake = list.front(before).refusal(self.limits).unwrap_or(invalid);
        let wake = if let List::Windows(_) = list { vec![Effect::WakeTimer] } else { Vec::new() };
        self.counts.same("a request that cannot be decoded, the Rust", &rust, &(Err(mistake), wake))?;
        match list {
            List::Zones(_) => Ok(()),
            List::Windows(_) => self.counts.same("the Rust's windows", &self.rust.attr_windows(None), &Ok(NO_WINDOWS)),
        }
    }

    /// The Rust's lists are again what they were
    fn give_back(&self, before: Value) -> Done {
        let load = store(&self.rust).and_then(|store| store.load(Some(before)));
        load.map_err(|error| format!("the Rust does not take its lists back: {error}"))
    }

    /// The Rust's lists as it stores them
    fn rust_record(&self) -> Result<Value, String> {
        let stored = store(&self.rust).and_then(|store| store.store());
        match (stored, trace::take().pop()) {
            (Ok(()), Some(Effect::Store(TIME_ZONE_KEY, record))) => Ok(record),
            other => Err(format!("the Rust stores no lists: {other:?}")),
        }
    }

    /// The same as bytes, a good record at these limits
    pub fn record(&self) -> Vec<u8> {
        let record = self.rust_record().ok().as_ref().and_then(differ::bytes::of_value);
        record.unwrap_or_default()
    }

    // Life

    fn restart(&mut self, bad: Option<&[u8]>) -> Done {
        if let Some(bad) = bad {
            *self.port.flash.record.borrow_mut() = Some(bad.to_vec());
            (self.kept, self.bad) = (self.port.flash.value(), true);
        }
        self.rust = rust_device(self.limits)?;
        self.port = port_device(self.limits, self.port.flash.clone())?;
        self.startup()
    }

    /// Both take the lists of the record. A bad one leaves the lists: the Rust answers with an error, and the adapter
    /// tells the application.
    fn startup(&mut self) -> Done {
        let (record, told) = (self.kept.clone(), self.port.flash.told.get());
        let rust = did(&self.rust, |device| device.startup().and(store(device)?.load(record)));
        let port = self.on_port(Device::startup)?;
        let answer = if self.bad { Err(ErrorCode::Invalid.into()) } else { Ok(()) };
        self.counts.met(if self.bad { "Startup, bad record" } else { "Startup" }, &port.0);
        self.counts.same("Startup, the Rust", &rust, &(answer, Vec::new()))?;
        self.counts.same("Startup", &port, &(Ok(()), Vec::new()))?;
        self.counts.same("Startup, a bad record", &(self.port.flash.told.get() - told), &u64::from(self.bad))
    }

    fn factory_reset(&mut self) -> Done {
        let rust = did(&self.rust, |device| device.factory_reset().and(store(device)?.reset()));
        let port = self.on_port(Device::factory_reset)?;
        (self.kept, self.bad) = (None, false);
        self.counts.met("FactoryReset", &rust.0);
        self.counts.same("FactoryReset", &port, &rust)
    }

    // Readings

    /// A reading that both answer alike: the answer
    fn read<T: PartialEq + Debug>(&mut self, what: &str, call: impl Fn(&Device) -> T) -> Result<T, String> {
        let rust = did(&self.rust, &call);
        self.counts.same(what, &did(&self.port.device, &call), &rust)?;
        Ok(rust.0)
    }

    fn compare(&mut self, probe: u64) -> Done {
        let zones = self.read("TimeZone", |device| device.attr_zones(None))?;
        self.one_by_one("TimeZone, one", zones, |device, index| device.attr_zones(Some(index)))?;
        let windows = self.read("DSTOffset", |device| device.attr_windows(None))?;
        self.one_by_one("DSTOffset, one", windows, |device, index| device.attr_windows(Some(index)))?;
        self.read("TimeZoneDatabase and both limits", Device::attr_sizes).map(drop)?;
        self.counts.same("the record in flash", &self.port.flash.value(), &self.kept)?;
        self.at_ticks(probe)
    }

    /// Each entry of a list by its index, and one past it
    fn one_by_one(&mut self, what: &str, list: Response, read: impl Fn(&Device, u16) -> Response) -> Done {
        let Ok(Value::Array(entries)) = list else { return Err(format!("{what}: {list:?} is no list")) };
        for index in 0..=entries.len() as u16 {
            self.read(what, |device| read(device, index)).map(drop)?;
        }
        Ok(())
    }

    /// The clock and LocalTime now, and at ticks around boundaries of the lists
    fn at_ticks(&mut self, probe: u64) -> Done {
        let (tick, mut rng) = (driver::tick(), Rng::new(probe, 0));
        for read in 0..LOCAL_TIMES {
            if read > 0 {
                driver::set_tick(self.tick_near_boundary(&mut rng));
            }
            self.read("UTCTime", Device::attr_utc_time)?;
            let local_time = self.read("LocalTime", Device::local_time)?;
            self.counts.met("LocalTime", &local_time.ok().flatten().ok_or("null"));
        }
        driver::set_tick(tick);
        self.read("Granularity", Device::attr_granularity)?;
        self.read("TimeSource", Device::attr_source).map(drop)
    }

    /// A tick at which the clock reads a boundary, or one beside it
    pub fn tick_near_boundary(&self, rng: &mut Rng) -> u64 {
        let (utc, _, _, _, anchor) = self.rust.rtc_fields();
        let bound = rng.pick(&self.boundaries());
        rng.near(anchor.unwrap_or(0).saturating_add(bound.saturating_sub(utc)))
    }

    pub fn is_clock_set(&self) -> bool {
        self.rust.attr_utc_time().is_some()
    }

    pub fn moment(&self, rng: &mut Rng) -> u64 {
        draw::moment(rng, || self.boundaries())
    }

    /// Every start and end of the lists, and the current moment
    fn boundaries(&self) -> Vec<u64> {
        let mut out = vec![self.rust.rtc_utc().0];
        if let Ok(store) = store(&self.rust) {
            out.extend(store.zones().iter().map(|zone| zone.valid_at));
            out.extend(store.windows().iter().flat_map(|w| [Some(w.valid_starting), w.valid_until]).flatten());
        }
        out
    }
}
