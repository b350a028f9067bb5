//! The port and the oracle side by side: each step is done by both, and then all that can be read is
//! compared.
use oracle::driver::{self, Device, Outcome, StoreOps};
use oracle::error::Error;
use oracle::persist::{LKG_UTC_KEY, TIME_ZONE_KEY, TRUSTED_TIME_SOURCE_KEY};
use oracle::tlv::Value;
use oracle::trace::{self, Effect};

use crate::bytes;
use crate::port::{code, place, LookTold, Port, Returned, Source, ADMIN, RECORD_MAX};
use crate::tally;

/// What the image is compared with
#[derive(Debug, Clone, Copy, PartialEq, Eq)]
pub enum Kind {
    /// A list store at any limits, behind the handler as a provider: clock, lists and LocalTime, no timer
    Lists(usize, usize),
    /// Clock, handler at 2 and 2, timer, client
    Device,
    /// The same without a list store
    Bare,
}

impl Kind {
    pub fn limits(self) -> Option<(usize, usize)> {
        match self {
            Kind::Lists(z, w) => Some((z, w)),
            Kind::Device => Some((2, 2)),
            Kind::Bare => None,
        }
    }
}

#[derive(Debug, Clone, PartialEq)]
pub enum Step {
    /// The tick from now on
    Tick(u64),
    /// SetUTCTime: moment, granularity, maybe a time source
    Utc(u64, u8, Option<u8>),
    /// SetTrustedTimeSource: fabric, maybe node and endpoint
    Source(u8, Option<(u64, u16)>),
    /// SetTimeZone, SetDSTOffset and a load of the lists, by their bytes
    Zones(Vec<u8>),
    Windows(Vec<u8>),
    Load(Option<Vec<u8>>),
    /// Factory reset of the lists
    Reset,
    /// The clock's own setting: whether it persists, moment, granularity, source
    Set(bool, u64, u8, u8),
    /// A load of the clock: build moment, stored moment, stored source
    LoadClock(u64, Option<u64>, Option<Source>),
    ResetClock(u64),
    /// The generation is put to a number
    Generation(u32),
    /// The timer's loop runs until it waits
    Look,
    /// The client's loop runs until it waits, and an exchange that it opens stays open
    Open,
    /// The client's loop runs until it waits, and its exchanges end so
    Client(Outcome),
}

/// A step, the moments at which the lists are looked up after it, and whether slices that are too short
/// are lent too
#[derive(Debug, Clone, PartialEq)]
pub struct Item {
    pub step: Step,
    pub probes: Vec<u64>,
    pub short: bool,
}

#[derive(Debug, Clone)]
pub struct Diff(pub String);

type Done = Result<(), Diff>;

/// Time Synchronization
const CLUSTER: u32 = 0x38;

fn number<T>(r: &Result<T, Error>) -> u64 {
    match r {
        Ok(_) => 0,
        Err(e) => driver::number(*e).into(),
    }
}

pub struct World {
    pub kind: Kind,
    pub port: Port,
    device: Device,
    pub tick: u64,
    /// The loops as the port's caller keeps them: started or not, due, woken
    timer: Option<Option<u64>>,
    timer_woken: bool,
    client: Option<Option<u64>>,
    client_woken: bool,
    /// The source that the open exchange was opened with
    exchange: Option<Source>,
    period: u64,
    /// The list calls so far as one history; none once the generation was put
    history: Option<Vec<u8>>,
    /// A clock that was set got the setting that it holds: the port's anchor has moved, the Rust's has not, and the sequence ends
    pub again: bool,
    pub answers: u64,
}

macro_rules! same {
    ($self:ident, $what:expr, $port:expr, $oracle:expr) => {{
        let (port, oracle) = ($port, $oracle);
        $self.answers += 1;
        if port != oracle {
            return Err(Diff(format!("{}: port {:?}, oracle {:?}", $what, port, oracle)));
        }
    }};
}

// they use the macro above
mod compare;
mod history;
mod loops;

fn source_value(source: Option<Source>) -> Value {
    match source {
        None => Value::Null,
        Some((fab, node, endpoint)) => {
            Value::Struct(vec![(0, Value::Uint(fab.into())), (1, Value::Uint(node)), (2, Value::Uint(endpoint.into()))])
        }
    }
}

impl World {
    pub fn new(kind: Kind, build: u64, period: u64, tick: u64) -> Self {
        driver::set_build_moment(build);
        driver::set_tick(tick);
        trace::take();
        let device = match kind {
            Kind::Lists(z, w) => Device::with_provider(z, w).expect("limits"),
            Kind::Device => Device::new(true),
            Kind::Bare => Device::new(false),
        };
        Self {
            kind,
            port: Port::new(kind.limits(), build, period),
            device,
            tick,
            timer: None,
            timer_woken: false,
            client: None,
            client_woken: false,
            exchange: None,
            period,
            history: Some(Vec::new()),
            again: false,
            answers: 0,
        }
    }

    fn store(&self) -> &dyn StoreOps {
        self.device.store().expect("a list store")
    }

    /// What an effect that the port asks for is to the oracle, with what it carries
    fn effect(port: &Port, asked: u8, record: Option<&[u8]>, told: Option<&LookTold>) -> Result<Effect, Diff> {
        let none = || Value::Struct(Vec::new());
        Ok(match asked {
            code::REPORT..=code::REPORT_LAST => Effect::Report(0, CLUSTER, u32::from(asked - code::REPORT)),
            code::DST_STATUS => {
                let told = told.ok_or(Diff("DSTStatus from a call that is not a look".into()))?;
                Effect::Emit(0, CLUSTER, u32::from(asked - code::EMIT), Value::Struct(vec![(0, Value::Bool(told.dst_active))]))
            }
            code::TIME_ZONE_STATUS => {
                let told = told.ok_or(Diff("TimeZoneStatus from a call that is not a look".into()))?;
                let mut fields = vec![(0, Value::Int(told.offset.into()))];
                if let Some(name) = &told.name {
                    let name = String::from_utf8(name.clone()).map_err(|_| Diff("a name that is not UTF-8".into()))?;
                    fields.push((1, Value::Str(name)));
                }
                Effect::Emit(0, CLUSTER, u32::from(asked - code::EMIT), Value::Struct(fields))
            }
            code::EMIT..=code::EMIT_LAST => Effect::Emit(0, CLUSTER, u32::from(asked - code::EMIT), none()),
            code::WAKE_TIMER => Effect::WakeTimer,
            code::WAKE_CLIENT => Effect::WakeClient,
            code::STORE_RECORD => {
                let bytes = record.ok_or(Diff("a record to store, and none was copied".into()))?;
                let (zones, windows) =
                    bytes::read_record(bytes).ok_or(Diff(format!("stored record {} cannot be read", bytes::hex(bytes))))?;
                Effect::Store(TIME_ZONE_KEY, driver::record(&zones, &windows))
            }
            code::REMOVE_RECORD => Effect::Remove(TIME_ZONE_KEY),
            code::STORE_MOMENT => Effect::Store(LKG_UTC_KEY, Value::Uint(port.word(place::PERSISTED, 8))),
            code::REMOVE_MOMENT => Effect::Remove(LKG_UTC_KEY),
            code::STORE_SOURCE => {
                let source = (port.word(place::FABRIC, 1) as u8, port.word(place::NODE, 8), port.word(place::ENDPOINT, 2) as u16);
                Effect::Store(TRUSTED_TIME_SOURCE_KEY, source_value(Some(source)))
            }
            code::REMOVE_SOURCE => Effect::Remove(TRUSTED_TIME_SOURCE_KEY),
            _ => return Err(Diff(format!("{asked:#x} is not the code of an effect"))),
        })
    }

    fn effects(port: &Port, r: &Returned, record: Option<&[u8]>, told: Option<&LookTold>) -> Result<Vec<Effect>, Diff> {
        r.effects.iter().map(|code| Self::effect(port, *code, record, told)).collect()
    }

    /// Whether a clock is set and holds just this setting; its granularity is one step lower, and never lower than Minutes
    fn holds(port: &Port, utc: u64, granularity: u8, source: u8) -> bool {
        let lowered = granularity.saturating_sub(1).max(1);
        let codes = [place::SET, place::GRANULARITY, place::SOURCE].map(|at| port.word(at, 1));
        port.word(place::UTC, 8) == utc && codes == [1, lowered, source].map(u64::from)
    }

    /// What is compared of a setting: where the clock holds it, the port reports it all the same and the Rust does not
    fn set(&mut self, what: &'static str, r: &Returned, again: bool, answer: u64, mut effects: Vec<Effect>) -> Done {
        if again {
            tally::met("the same setting again", r);
            effects.splice(0..0, code::UTC_REPORTS.map(|asked| Effect::Report(0, CLUSTER, u32::from(asked - code::REPORT))));
        }
        self.again = again;
        self.called(what, r, None, answer, effects)
    }

    /// The answer and the effects of a call, side by side
    fn called(&mut self, what: &'static str, r: &Returned, record: Option<&[u8]>, answer: u64, effects: Vec<Effect>) -> Done {
        tally::met(what, r);
        same!(self, format_args!("{what}, answer"), r.answer, answer);
        let asked = Self::effects(&self.port, r, record, None)?;
        same!(self, format_args!("{what}, effects"), asked, effects);
        self.timer_woken |= r.effects.contains(&code::WAKE_TIMER);
        self.client_woken |= r.effects.contains(&code::WAKE_CLIENT);
        Ok(())
    }

    /// A refusal that the oracle has no counterpart for: the number, no effects, and nothing changed
    fn turned_down(&mut self, what: &'static str, r: &Returned, answer: u64, before: &[u8]) -> Done {
        tally::met(what, r);
        same!(self, format_args!("{what}, answer"), (r.answer, &r.effects[..]), (answer, &[][..]));
        self.unchanged(what, before)
    }

    fn unchanged(&mut self, what: &'static str, before: &[u8]) -> Done {
        self.answers += 1;
        match self.port.image().iter().zip(before).position(|(a, b)| a != b) {
            None => Ok(()),
            Some(at) => Err(Diff(format!("{what}: byte {at} of the image changed"))),
        }
    }

    pub fn step(&mut self, item: &Item) -> Done {
        trace::take();
        driver::set_tick(self.tick);
        match &item.step {
            Step::Tick(tick) => {
                self.tick = *tick;
                driver::set_tick(*tick);
            }
            Step::Utc(utc, g, source) => self.set_utc(*utc, *g, *source)?,
            Step::Source(fab, named) => self.set_source(*fab, *named)?,
            Step::Zones(request) => self.set_list(true, request, item.short)?,
            Step::Windows(request) => self.set_list(false, request, item.short)?,
            Step::Load(stored) => self.load(stored.as_deref())?,
            Step::Reset => self.reset()?,
            Step::Set(persist, utc, g, s) => self.rtc_set(*persist, *utc, *g, *s)?,
            Step::LoadClock(build, moment, source) => self.load_clock(*build, *moment, *source)?,
            Step::ResetClock(build) => {
                driver::set_build_moment(*build);
                let r = self.device.rtc_reset_persist();
                let effects = trace::take();
                let p = self.port.reset_clock(*build);
                self.called("reset of the clock", &p, None, number(&r), effects)?;
            }
            Step::Generation(generation) => {
                if self.kind != Kind::Bare {
                    self.store().set_generation(*generation);
                    self.port.poke(place::GENERATION, &generation.to_le_bytes());
                    self.history = None;
                }
            }
            Step::Look => self.look(item.short)?,
            Step::Open => self.client(None)?,
            Step::Client(outcome) => self.client(Some(outcome))?,
        }
        self.compare(&item.probes, item.short)
    }

    fn set_source(&mut self, fab: u8, named: Option<(u64, u16)>) -> Done {
        let r = self.device.cmd_set_source(fab, named);
        let effects = trace::take();
        let before = self.port.image().to_vec();
        let p = self.port.set_source(fab, named);
        self.called("SetTrustedTimeSource", &p, None, number(&r), effects)?;
        if p.answer != 0 {
            self.unchanged("SetTrustedTimeSource", &before)?;
        }
        Ok(())
    }

    fn reset(&mut self) -> Done {
        let r = match self.kind {
            Kind::Lists(..) => self.store().reset(),
            _ => self.device.factory_reset(),
        };
        let effects = trace::take();
        let p = self.port.reset_lists();
        self.called("factory reset", &p, None, number(&r), effects)?;
        self.note_history(4, None);
        Ok(())
    }

    fn load_clock(&mut self, build: u64, moment: Option<u64>, source: Option<Source>) -> Done {
        let before = self.port.image().to_vec();
        let p = self.port.load_clock(build, moment, source);
        if matches!(source, Some((0, ..))) {
            // a bad record: the Rust has reset the clock when it fails, the port leaves it
            return self.turned_down("load of the clock", &p, 7, &before);
        }
        driver::set_build_moment(build);
        self.device.put_utc(moment);
        self.device.put_source(source);
        let r = self.device.rtc_load();
        self.called("load of the clock", &p, None, number(&r), trace::take())
    }

    fn set_utc(&mut self, utc: u64, g: u8, source: Option<u8>) -> Done {
        let before = self.port.image().to_vec();
        let again = Self::holds(&self.port, utc, g, ADMIN);
        let p = self.port.set_utc_time(utc, g, source, self.tick);
        if source.is_some_and(|s| s > 16) {
            // a number of no time source: the Rust never reads the field
            return self.turned_down("SetUTCTime", &p, 1, &before);
        }
        let r = self.device.cmd_set_utc_time(utc, g);
        let mut effects = trace::take();
        if r.is_ok() && matches!(self.kind, Kind::Lists(..)) {
            // a provider's timer is its own, the port's list store has one
            effects.push(Effect::WakeTimer);
        }
        self.set("SetUTCTime", &p, again, number(&r), effects)?;
        if p.answer != 0 {
            self.unchanged("SetUTCTime", &before)?;
        }
        Ok(())
    }

    fn rtc_set(&mut self, persist: bool, utc: u64, g: u8, s: u8) -> Done {
        let before = self.port.image().to_vec();
        let again = Self::holds(&self.port, utc, g, s);
        let (p, changed) = self.port.rtc_set(persist, utc, g, s, self.tick);
        let (Some(granularity), Some(source)) = (driver::granularity(g), driver::source(s)) else {
            return self.turned_down("a setting of the clock", &p, 1, &before);
        };
        let (utc0, _, g0, s0, _) = self.device.rtc_fields();
        let (answer, told) = if persist {
            let r = self.device.rtc_set_persist(utc, granularity, source);
            // it does not say whether something changed, but the fields do
            let (utc1, _, g1, s1, _) = self.device.rtc_fields();
            (number(&r), (utc0, g0, s0) != (utc1, g1, s1))
        } else {
            (0, self.device.rtc_set(utc, granularity, source))
        };
        self.set("a setting of the clock", &p, again, answer, trace::take())?;
        same!(self, "changed", changed, Some(u64::from(told)));
        Ok(())
    }

    fn set_list(&mut self, zones: bool, request: &[u8], short: bool) -> Done {
        let what = if zones { "SetTimeZone" } else { "SetDSTOffset" };
        let before = self.port.image().to_vec();
        let read_zones = if zones { bytes::read_zones(request) } else { None };
        let read_windows = if zones { None } else { bytes::read_windows(request) };
        self.note_history(!zones as u8, Some(request));
        if self.kind != Kind::Bare && read_zones.is_none() && read_windows.is_none() {
            let (p, _) = self.port.set_list(zones, request, RECORD_MAX);
            return self.turned_down(what, &p, 1, &before);
        }
        let answer = if zones {
            let r = self.device.cmd_set_time_zone(&read_zones.unwrap_or_default());
            if let Ok(response) = &r {
                // DSTOffsetRequired: the port says true by accepting
                same!(self, "SetTimeZone, response", &Value::Struct(vec![(0, Value::Bool(true))]), response);
            }
            number(&r)
        } else {
            number(&self.device.cmd_set_dst_offset(&read_windows.unwrap_or_default()))
        };
        let mut effects = trace::take();
        if answer == 0 && matches!(self.kind, Kind::Lists(..)) {
            // a provider stores by itself; the device stores after the wake
            self.store().store().map_err(|_| Diff("the oracle's store fails".into()))?;
            let stored = trace::take();
            effects.splice(1..1, stored);
        }
        if short && answer == 0 {
            if let Some(value) = effects.iter().find_map(stored_value) {
                let need = bytes::of_value(value).map_or(0, |b| b.len());
                self.set_list_shortly(what, zones, request, need)?;
            }
        }
        let (p, record) = self.port.set_list(zones, request, RECORD_MAX);
        self.called(what, &p, record.as_deref(), answer, effects)?;
        if p.effects.is_empty() {
            self.unchanged(what, &before)?;
        }
        Ok(())
    }

    /// On copies: with a byte too few for the record, and with as many as it needs
    fn set_list_shortly(&mut self, what: &'static str, zones: bool, request: &[u8], need: usize) -> Done {
        let mut copy = self.port.clone();
        let (p, _) = copy.set_list(zones, request, need - 1);
        same!(self, format_args!("{what} with no room"), (p.answer, &p.effects[..]), (9, &[][..]));
        same!(self, format_args!("{what} with no room, image unchanged"), copy.image() == self.port.image(), true);
        let mut copy = self.port.clone();
        let (p, _) = copy.set_list(zones, request, need);
        same!(self, format_args!("{what} with just room"), p.answer, 0);
        self.spoils(&copy)
    }

    fn load(&mut self, stored: Option<&[u8]>) -> Done {
        let before = self.port.image().to_vec();
        let p = self.port.load_lists(stored);
        self.note_history(if stored.is_some() { 2 } else { 3 }, stored);
        let Some(limits) = self.kind.limits() else {
            let r = self.device.startup();
            self.called("load of the lists", &p, None, number(&r), trace::take())?;
            return self.unchanged("load of the lists", &before);
        };
        let value = match stored {
            None => None,
            Some(bytes) => match bytes::read_record(bytes) {
                Some((zones, windows)) if accepted(limits, &zones, &windows) => Some(driver::record(&zones, &windows)),
                // unreadable, or lists that the commands would not take: the Rust's load has no rules
                _ => return self.turned_down("load of the lists", &p, 7, &before),
            },
        };
        let r = match self.kind {
            Kind::Lists(..) => self.store().load(value),
            _ => {
                self.device.put_lists(value);
                self.device.startup()
            }
        };
        self.called("load of the lists", &p, None, number(&r), trace::take())?;
        if stored.is_none() {
            self.unchanged("load with no record", &before)?;
        }
        Ok(())
    }

    /// Every start and end of the oracle's lists, and the current moment
    pub fn boundaries(&self) -> Vec<u64> {
        let mut out = vec![self.device.rtc_utc().0];
        if self.kind != Kind::Bare {
            out.extend(self.store().zones().iter().map(|z| z.valid_at));
            for w in self.store().windows() {
                out.push(w.valid_starting);
                out.extend(w.valid_until);
            }
        }
        out
    }

    /// Whether a step gives a set clock the setting that it holds
    pub fn sets_again(&self, step: &Step) -> bool {
        match step {
            Step::Utc(utc, g, _) => Self::holds(&self.port, *utc, *g, ADMIN),
            Step::Set(_, utc, g, s) => Self::holds(&self.port, *utc, *g, *s),
            Step::Client(outcome) => Self::told(Self::reading(Some(outcome))).is_some_and(|(utc, g)| Self::holds_told(&self.port, utc, g)),
            _ => false,
        }
    }

    pub fn exchange_open(&self) -> bool {
        self.exchange.is_some()
    }

    pub fn dues(&self) -> [Option<u64>; 2] {
        [self.timer.flatten(), self.client.flatten()]
    }
}

fn stored_value(effect: &Effect) -> Option<&Value> {
    match effect {
        Effect::Store(TIME_ZONE_KEY, value) => Some(value),
        _ => None,
    }
}

/// Whether the commands would take both lists, as a new store of the oracle says
pub fn accepted(limits: (usize, usize), zones: &[driver::ZoneArg], windows: &[driver::WindowArg]) -> bool {
    let store = driver::make_store(limits.0, limits.1).expect("limits");
    let good = store.set_time_zone(zones).is_ok() && store.set_dst_offset(windows).is_ok();
    trace::take();
    good
}
