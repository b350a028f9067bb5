//! Lists: as bytes, read, and tested by the rules.

use super::image::word;

#[derive(Debug, Clone, PartialEq, Eq)]
pub struct Zone {
    pub offset: i32,
    pub start: u64,
    pub name: Option<Vec<u8>>,
}

#[derive(Debug, Clone, PartialEq, Eq)]
pub struct Window {
    pub offset: i32,
    pub start: u64,
    pub until: Option<u64>,
}

#[derive(Debug, Clone, PartialEq, Eq, Default)]
pub struct Lists {
    pub zones: Vec<Zone>,
    pub windows: Vec<Window>,
}

// ---- written

pub fn zone_bytes(z: &Zone) -> Vec<u8> {
    let mut b = z.offset.to_le_bytes().to_vec();
    b.extend(z.start.to_le_bytes());
    match &z.name {
        None => b.push(0),
        Some(n) => {
            b.push(1);
            b.push(n.len() as u8);
            b.extend(n);
        }
    }
    b
}

pub fn window_bytes(w: &Window) -> Vec<u8> {
    let mut b = w.offset.to_le_bytes().to_vec();
    b.extend(w.start.to_le_bytes());
    match w.until {
        None => b.push(0),
        Some(e) => {
            b.push(1);
            b.extend(e.to_le_bytes());
        }
    }
    b
}

pub fn zones_section(zones: &[Zone]) -> Vec<u8> {
    let mut b = vec![zones.len() as u8];
    zones.iter().for_each(|z| b.extend(zone_bytes(z)));
    b
}

pub fn windows_section(windows: &[Window]) -> Vec<u8> {
    let mut b = vec![windows.len() as u8];
    windows.iter().for_each(|w| b.extend(window_bytes(w)));
    b
}

pub fn record_bytes(l: &Lists) -> Vec<u8> {
    let mut b = zones_section(&l.zones);
    b.extend(windows_section(&l.windows));
    b
}

// ---- read: whole, or not at all

pub struct Reader<'a> {
    pub rest: &'a [u8],
}

impl<'a> Reader<'a> {
    pub fn take(&mut self, n: usize) -> Option<&'a [u8]> {
        if n > self.rest.len() {
            return None;
        }
        let (front, rest) = self.rest.split_at(n);
        self.rest = rest;
        Some(front)
    }

    pub fn byte(&mut self) -> Option<u8> {
        self.take(1).map(|b| b[0])
    }

    pub fn number(&mut self, n: usize) -> Option<u64> {
        self.take(n).map(|b| word(b, 0, n))
    }

    fn zone(&mut self) -> Option<Zone> {
        let offset = self.number(4)? as u32 as i32;
        let start = self.number(8)?;
        let name = match self.byte()? {
            0 => None,
            1 => {
                let n = usize::from(self.byte()?);
                let bytes = self.take(n)?;
                std::str::from_utf8(bytes).ok()?;
                Some(bytes.to_vec())
            }
            _ => return None,
        };
        Some(Zone { offset, start, name })
    }

    fn window(&mut self) -> Option<Window> {
        let offset = self.number(4)? as u32 as i32;
        let start = self.number(8)?;
        let until = match self.byte()? {
            0 => None,
            1 => Some(self.number(8)?),
            _ => return None,
        };
        Some(Window { offset, start, until })
    }

    fn zones(&mut self) -> Option<Vec<Zone>> {
        (0..self.byte()?).map(|_| self.zone()).collect()
    }

    fn windows(&mut self) -> Option<Vec<Window>> {
        (0..self.byte()?).map(|_| self.window()).collect()
    }

    pub fn end(&self) -> Option<()> {
        self.rest.is_empty().then_some(())
    }
}

pub fn read_zones(s: &[u8]) -> Option<Vec<Zone>> {
    let mut r = Reader { rest: s };
    let zones = r.zones()?;
    r.end().map(|()| zones)
}

pub fn read_windows(s: &[u8]) -> Option<Vec<Window>> {
    let mut r = Reader { rest: s };
    let windows = r.windows()?;
    r.end().map(|()| windows)
}

pub fn read_record(s: &[u8]) -> Option<Lists> {
    let mut r = Reader { rest: s };
    let (zones, windows) = (r.zones()?, r.windows()?);
    r.end().map(|()| Lists { zones, windows })
}

// ---- tested: 0, or the number of the first cause

pub fn test_zones(limit: usize, zones: &[Zone]) -> u8 {
    for (i, z) in zones.iter().enumerate() {
        if i == limit {
            return 3;
        }
        let fine = (i == 0) == (z.start == 0)
            && (i == 0 || zones[i - 1].start < z.start)
            && (-43200..=50400).contains(&z.offset)
            && z.name.as_ref().map_or(true, |n| n.len() <= 64);
        if !fine {
            return 2;
        }
    }
    0
}

pub fn test_windows(limit: usize, windows: &[Window]) -> u8 {
    for (i, w) in windows.iter().enumerate() {
        if i == limit {
            return 3;
        }
        let after = i == 0 || {
            let b = &windows[i - 1];
            b.start < w.start && b.until.is_some_and(|e| e <= w.start)
        };
        if !(after && w.until.map_or(true, |e| w.start < e)) {
            return 2;
        }
    }
    0
}
