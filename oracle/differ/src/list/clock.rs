//! Random scripts on the Rust's clock, with what it answers to each step as `vectors` writes it.
//!
//! No step has a stored source of fabric index 0, a granularity above 4 or a time source above 16: there the port
//! is meant to differ. A set clock that gets the setting it holds answers as the port does and then reads otherwise,
//! so there the script ends.
use std::num::NonZeroU8;

use oracle::driver::{self, Device};
use oracle::persist::{LKG_UTC_KEY, TRUSTED_TIME_SOURCE_KEY};
use oracle::tlv::Value;
use oracle::trace::{self, Effect};

use crate::input::{Rng, DAY, TOP};
use crate::port::Source;

/// A script so far: its bytes, and what each step answered
struct Script {
    device: Device,
    bytes: Vec<u8>,
    answers: Vec<String>,
    /// The source that was last installed or loaded
    last: Source,
    /// A set clock got the setting that it holds
    again: bool,
}

/// The numbers of a source's value tree: fabric index, node, endpoint
fn shown(source: &Value) -> String {
    let Value::Struct(fields) = source else { return format!("{source}") };
    let numbers: Vec<String> = fields.iter().map(|(_, value)| value.to_string()).collect();
    numbers.join(" ")
}

impl Script {
    fn new() -> Self {
        driver::set_build_moment(0);
        trace::take();
        Self { device: Device::new(false), bytes: Vec::new(), answers: Vec::new(), last: (1, 1, 1), again: false }
    }

    fn set(&mut self, persists: bool, utc: u64, granularity: u8, source: u8, tick: u64) -> Result<(), String> {
        self.bytes.push(if persists { b'P' } else { b'S' });
        self.bytes.extend(utc.to_le_bytes());
        self.bytes.extend([granularity, source]);
        self.bytes.extend(tick.to_le_bytes());
        driver::set_tick(tick);
        let (Some(g), Some(s)) = (driver::granularity(granularity), driver::source(source)) else {
            return Err("a granularity or a time source out of range".into());
        };
        let fields = |device: &Device| {
            let (utc, _, granularity, source, _) = device.rtc_fields();
            (utc, granularity, source)
        };
        let before = fields(&self.device);
        let changed = if persists {
            // it does not say whether something changed, but the fields do
            self.device.rtc_set_persist(utc, g, s).map_err(|_| "a setting fails")?;
            before != fields(&self.device)
        } else {
            self.device.rtc_set(utc, g, s)
        };
        let effects = trace::take();
        let reported = effects.iter().any(|effect| matches!(effect, Effect::Report(..)));
        self.again = !changed && !reported;
        let stored = effects.iter().find_map(|effect| match effect {
            Effect::Store(LKG_UTC_KEY, moment) => Some(moment),
            _ => None,
        });
        let mut answer = String::from(if changed { "changed" } else { "same" });
        if persists {
            answer += &stored.map_or(", not stored".into(), |moment| format!(", stored {moment}"));
        }
        self.answers.push(answer);
        Ok(())
    }

    fn trust(&mut self, source: Option<Source>) -> Result<(), String> {
        match source {
            Some((fabric, node, endpoint)) => {
                self.bytes.extend([b'T', fabric]);
                self.bytes.extend(node.to_le_bytes());
                self.bytes.extend(endpoint.to_le_bytes());
            }
            None => self.bytes.push(b'C'),
        }
        let named = match source {
            Some((fabric, node, endpoint)) => Some((NonZeroU8::new(fabric).ok_or("a fabric index 0")?, node, endpoint)),
            None => None,
        };
        self.device.rtc_set_source(named).map_err(|_| "a change of the source fails")?;
        let answer = trace::take().iter().find_map(|effect| match effect {
            Effect::Store(TRUSTED_TIME_SOURCE_KEY, source) => Some(format!("stored source {}", shown(source))),
            Effect::Remove(TRUSTED_TIME_SOURCE_KEY) => Some("removed source".into()),
            _ => None,
        });
        self.answers.push(answer.unwrap_or("same source".into()));
        Ok(())
    }

    fn load(&mut self, build: u64, moment: Option<u64>, source: Option<Source>) -> Result<(), String> {
        let (fabric, node, endpoint) = source.unwrap_or_default();
        self.bytes.extend([b'L', fabric]);
        self.bytes.extend(node.to_le_bytes());
        self.bytes.extend(endpoint.to_le_bytes());
        self.bytes.extend([u8::from(source.is_some()), u8::from(moment.is_some())]);
        self.bytes.extend(moment.unwrap_or_default().to_le_bytes());
        self.bytes.extend(build.to_le_bytes());
        driver::set_build_moment(build);
        self.device.put_utc(moment);
        self.device.put_source(source);
        self.device.rtc_load().map_err(|_| "a load fails")?;
        trace::take();
        self.answers.push("loaded".into());
        Ok(())
    }

    fn reset(&mut self, build: u64) -> Result<(), String> {
        self.bytes.push(b'R');
        self.bytes.extend(build.to_le_bytes());
        driver::set_build_moment(build);
        self.device.rtc_reset_persist().map_err(|_| "a reset fails")?;
        trace::take();
        self.answers.push("reset".into());
        Ok(())
    }

    fn read(&mut self, tick: u64) {
        self.bytes.push(b'U');
        self.bytes.extend(tick.to_le_bytes());
        driver::set_tick(tick);
        let (utc, reliable) = self.device.rtc_utc();
        let (granularity, source) = (self.device.rtc_granularity(), self.device.rtc_source());
        let trusted = match self.device.attr_trusted() {
            Value::Null => "none trusted".into(),
            source => format!("trusted {}", shown(&source)),
        };
        let how = if reliable { "reliable" } else { "last known" };
        self.answers.push(format!("{how} {utc}, granularity {granularity}, time source {source}, {trusted}"));
    }

    /// A moment at an edge of what the clock holds, or at an edge of all moments
    fn moment(&self, rng: &mut Rng) -> u64 {
        let (utc, persisted, ..) = self.device.rtc_fields();
        let from = rng.pick(&[utc, utc, persisted, persisted, 0, 2 * DAY, TOP]);
        let far = rng.pick(&[0, 0, 1, DAY - 1, DAY, DAY + 1]);
        if rng.one_in(2) {
            from.saturating_add(far)
        } else {
            from.saturating_sub(far)
        }
    }

    /// A tick about the anchor, or at an edge of all ticks
    fn tick(&self, rng: &mut Rng) -> u64 {
        let anchor = self.device.rtc_fields().4.unwrap_or(5);
        let near = [anchor.saturating_sub(1), anchor, anchor.saturating_add(1), anchor.saturating_add(DAY)];
        rng.pick(&[near[0], near[1], near[2], near[3], 0, 1, 1000, TOP])
    }

    /// A setting: some are the clock's own, fewer on a set clock, and the others have its moment or its time source now and then
    fn setting(&mut self, persists: bool, rng: &mut Rng) -> Result<(), String> {
        let (utc, _, granularity, source, anchor) = self.device.rtc_fields();
        let tick = self.tick(rng);
        if rng.one_in(if anchor.is_some() { 12 } else { 3 }) {
            return self.set(persists, utc, granularity + 1, source, tick);
        }
        let moment = self.moment(rng);
        let any = rng.below(17) as u8;
        let source = rng.pick(&[source, 2, any]);
        self.set(persists, moment, rng.below(5) as u8, source, tick)
    }

    /// A source that differs from the last one in one part, or not at all
    fn source(&mut self, rng: &mut Rng) -> Source {
        match rng.below(4) {
            0 => self.last.0 = rng.pick(&[1, 2, 255]),
            1 => self.last.1 = rng.pick(&[0, 1, TOP]),
            2 => self.last.2 = rng.pick(&[0, 1, 65535]),
            _ => {}
        }
        self.last
    }

    fn step(&mut self, rng: &mut Rng) -> Result<(), String> {
        let build = rng.pick(&[0, 1, 1000, DAY, TOP]);
        match rng.below(12) {
            kind @ 0..=5 => self.setting(kind > 2, rng),
            6..=8 => {
                let source = if rng.one_in(5) { None } else { Some(self.source(rng)) };
                self.trust(source)
            }
            9 | 10 => {
                let moment = if rng.one_in(4) { None } else { Some(self.moment(rng)) };
                let source = if rng.one_in(2) { None } else { Some(self.source(rng)) };
                self.load(build, moment, source)
            }
            _ => self.reset(build),
        }
    }
}

/// A script in bytes, with a reading after each step, and what it answers
pub fn script(rng: &mut Rng) -> Result<(Vec<u8>, String), String> {
    let mut script = Script::new();
    for _ in 0..3 + rng.below(5) {
        script.step(rng)?;
        if script.again {
            break;
        }
        let tick = script.tick(rng);
        script.read(tick);
    }
    Ok((script.bytes, script.answers.join("; ")))
}
