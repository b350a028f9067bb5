//! The list calls of a sequence once more, as one history on a new store.
use oracle::trace;

use super::{stored_value, Diff, Done, World};
use crate::bytes;
use crate::replay::{replay, Replayed, Rooms, ROOMS};

/// At so many moments a replayed history is looked at
const LOOKED: usize = 4;

impl World {
    pub(super) fn note_history(&mut self, kind: u8, given: Option<&[u8]>) {
        if let Some(history) = &mut self.history {
            history.push(kind);
            if let Some(given) = given {
                history.extend((given.len() as u32).to_le_bytes());
                history.extend(given);
            }
        }
    }

    pub fn history(&self) -> Option<&[u8]> {
        self.history.as_deref()
    }

    /// The list calls once more as one history on a new store, walked from a moment and looked at in several
    pub fn finish(&mut self, start: u64) -> Done {
        let (Some(limits), Some(history)) = (self.kind.limits(), self.history.clone()) else {
            return Ok(());
        };
        let mut looked: Vec<u64> = self.boundaries().iter().flat_map(|b| [b.saturating_sub(1), *b]).chain([start]).collect();
        looked.sort_unstable();
        looked.dedup();
        let apart = looked.len().div_ceil(LOOKED);
        for at in looked.into_iter().step_by(apart) {
            let want = self.oracle_replayed(start, at)?;
            self.replayed(limits, &history, start, at, want)?;
        }
        Ok(())
    }

    /// A replay, and one with a byte too few for each of the three slices that something is copied into
    fn replayed(&mut self, limits: (usize, usize), history: &[u8], start: u64, at: u64, want: Replayed) -> Done {
        let name = want.zone.1.as_ref().map_or(0, Vec::len);
        let rooms = Rooms { moments: 8 * want.moments.len(), name, record: want.record.len() };
        let mut short = vec![Rooms { moments: rooms.moments - 1, ..ROOMS }, Rooms { record: rooms.record - 1, ..ROOMS }];
        if name > 0 {
            short.push(Rooms { name: name - 1, ..ROOMS });
        }
        for rooms in short {
            same!(self, format_args!("replay with {rooms:?}"), replay(limits, history, start, at, rooms), Err(9));
        }
        let got = replay(limits, history, start, at, rooms).map_err(|e| Diff(format!("replay is refused with {e}")))?;
        same!(self, "replay, moments", got.moments, want.moments);
        same!(self, format_args!("replay, zone at {at}"), got.zone, want.zone);
        same!(self, format_args!("replay, window at {at}"), got.window, want.window);
        same!(self, format_args!("replay, usable at {at}"), got.usable, want.usable);
        same!(self, format_args!("replay, next transition after {at}"), got.next, want.next);
        same!(self, "replay, record", got.record, want.record);
        same!(self, "replay, generation", got.generation, want.generation);
        Ok(())
    }

    /// What the oracle's own store says of all that a replay answers
    fn oracle_replayed(&self, start: u64, at: u64) -> Result<Replayed, Diff> {
        let (record, generation, moments) = self.oracle_lists(start)?;
        let (offset, name) = self.store().active_time_zone(at);
        let (window, usable) = (self.store().active_dst_offset(at), self.store().dst_usable(at));
        let next = self.store().next_transition(at);
        Ok(Replayed { moments, zone: (offset, name.map(String::into_bytes)), window, usable, next, record, generation })
    }

    /// From the oracle: the record's bytes, the generation, and the moments walked, the start first
    pub fn oracle_lists(&self, start: u64) -> Result<(Vec<u8>, u64, Vec<u64>), Diff> {
        trace::take();
        let stored = self.store().store();
        let value = trace::take();
        let record = value.iter().find_map(stored_value).and_then(bytes::of_value);
        match (stored, record) {
            (Ok(()), Some(record)) => Ok((record, self.store().generation().into(), [vec![start], self.store().walk(start)].concat())),
            _ => Err(Diff("the oracle stores another shape".into())),
        }
    }
}
