//! The bytes of requests, records and histories: written and read here on their own, after the layout
//! that the C header gives.
use oracle::driver::{WindowArg, ZoneArg};
use oracle::tlv::Value;

fn entry(out: &mut Vec<u8>, offset: i32, start: u64) {
    out.extend(offset.to_le_bytes());
    out.extend(start.to_le_bytes());
}

pub fn zones(list: &[ZoneArg]) -> Vec<u8> {
    let mut out = vec![list.len() as u8];
    for z in list {
        entry(&mut out, z.offset, z.valid_at);
        match &z.name {
            None => out.push(0),
            Some(name) => {
                out.extend([1, name.len() as u8]);
                out.extend(name.as_bytes());
            }
        }
    }
    out
}

pub fn windows(list: &[WindowArg]) -> Vec<u8> {
    let mut out = vec![list.len() as u8];
    for w in list {
        entry(&mut out, w.offset, w.valid_starting);
        match w.valid_until {
            None => out.push(0),
            Some(until) => {
                out.push(1);
                out.extend(until.to_le_bytes());
            }
        }
    }
    out
}

pub fn record(zone_list: &[ZoneArg], window_list: &[WindowArg]) -> Vec<u8> {
    let mut out = zones(zone_list);
    out.extend(windows(window_list));
    out
}

// ---- Reading

struct Reader<'a>(&'a [u8]);

impl<'a> Reader<'a> {
    fn take(&mut self, n: usize) -> Option<&'a [u8]> {
        let (front, rest) = self.0.split_at_checked(n)?;
        self.0 = rest;
        Some(front)
    }
    fn byte(&mut self) -> Option<u8> {
        self.take(1).map(|b| b[0])
    }
    fn number(&mut self) -> Option<u64> {
        self.take(8).map(|b| u64::from_le_bytes(b.try_into().unwrap()))
    }
    fn entry(&mut self) -> Option<(i32, u64, u8)> {
        let offset = i32::from_le_bytes(self.take(4)?.try_into().unwrap());
        Some((offset, self.number()?, self.byte().filter(|mark| *mark <= 1)?))
    }
    fn zones(&mut self) -> Option<Vec<ZoneArg>> {
        let n = self.byte()?;
        (0..n)
            .map(|_| {
                let (offset, valid_at, mark) = self.entry()?;
                let name = match mark {
                    0 => None,
                    _ => {
                        let len = self.byte()?;
                        Some(std::str::from_utf8(self.take(len.into())?).ok()?.to_owned())
                    }
                };
                Some(ZoneArg { offset, valid_at, name })
            })
            .collect()
    }
    fn windows(&mut self) -> Option<Vec<WindowArg>> {
        let n = self.byte()?;
        (0..n)
            .map(|_| {
                let (offset, valid_starting, mark) = self.entry()?;
                let valid_until = match mark {
                    0 => None,
                    _ => Some(self.number()?),
                };
                Some(WindowArg { offset, valid_starting, valid_until })
            })
            .collect()
    }
    fn over<T>(self, value: T) -> Option<T> {
        self.0.is_empty().then_some(value)
    }
}

pub fn read_zones(bytes: &[u8]) -> Option<Vec<ZoneArg>> {
    let mut r = Reader(bytes);
    let list = r.zones()?;
    r.over(list)
}

pub fn read_windows(bytes: &[u8]) -> Option<Vec<WindowArg>> {
    let mut r = Reader(bytes);
    let list = r.windows()?;
    r.over(list)
}

pub fn read_record(bytes: &[u8]) -> Option<(Vec<ZoneArg>, Vec<WindowArg>)> {
    let mut r = Reader(bytes);
    let lists = (r.zones()?, r.windows()?);
    r.over(lists)
}

// ---- The value tree that the oracle stores

/// The record's bytes of the value that the oracle stored, or none where it has another shape
pub fn of_value(value: &Value) -> Option<Vec<u8>> {
    let Value::Struct(fields) = value else { return None };
    let [(0, Value::Array(zone_list)), (1, Value::Array(window_list))] = &fields[..] else {
        return None;
    };
    let mut out = vec![zone_list.len() as u8];
    for zone in zone_list {
        let Value::Struct(fields) = zone else { return None };
        let (Some((0, Value::Int(offset))), Some((1, Value::Uint(start)))) = (fields.first(), fields.get(1)) else {
            return None;
        };
        entry(&mut out, (*offset).try_into().ok()?, *start);
        match &fields[2..] {
            [] => out.push(0),
            [(2, Value::Str(name))] => {
                out.extend([1, name.len() as u8]);
                out.extend(name.as_bytes());
            }
            _ => return None,
        }
    }
    out.push(window_list.len() as u8);
    for window in window_list {
        let Value::Struct(fields) = window else { return None };
        let (Some((0, Value::Int(offset))), Some((1, Value::Uint(start)))) = (fields.first(), fields.get(1)) else {
            return None;
        };
        entry(&mut out, (*offset).try_into().ok()?, *start);
        match &fields[2..] {
            [] => out.push(0),
            [(2, Value::Uint(until))] => {
                out.push(1);
                out.extend(until.to_le_bytes());
            }
            _ => return None,
        }
    }
    Some(out)
}

pub fn hex(bytes: &[u8]) -> String {
    bytes.iter().map(|b| format!("{b:02x}")).collect()
}
