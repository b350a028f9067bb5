//! The loops of the timer and of the client: the Rust's run until they wait, and the port's calls are made
//! as its caller makes them.
use oracle::driver::{self, Outcome, Part, Stand};
use oracle::trace::{self, Effect};

use super::{Diff, Done, Kind, World};
use crate::input::HOUR;
use crate::port::{code, kind, place, LookTold, Port, Returned, Source, NODE_TIME_CLUSTER};
use crate::tally;

/// What the caller makes of an outcome: whether it was answered, a moment, a granularity
type Reading = (bool, Option<u64>, Option<u8>);

/// The client's marks: whether there is one, its tick, and the event that it holds back
const MARKS: [(usize, usize, u8); 2] =
    [(place::MISSING, place::MISSING_AT, code::MISSING_SOURCE), (place::FAILURE, place::FAILURE_AT, code::TIME_FAILURE)];

/// What a step of the client's loop did, by the port
struct Round {
    effects: Vec<Effect>,
    due: Option<u64>,
    /// The source that the open exchange was opened with
    exchange: Option<Source>,
    /// An event was asked for whose mark lies after the tick: the Rust has no answer there
    backwards: bool,
    /// A time was applied that the clock held
    again: bool,
}

impl World {
    pub(super) fn look(&mut self, short: bool) -> Done {
        if matches!(self.kind, Kind::Lists(..)) {
            return Ok(());
        }
        let stand = if self.timer.is_none() { self.device.timer_start() } else { self.device.timer_step() };
        let effects = trace::take();
        if self.kind == Kind::Bare {
            let before = self.port.image().to_vec();
            let (p, told) = self.port.look(self.tick, 64);
            same!(self, "look, answer", (p.answer, &p.effects[..]), (0, &[][..]));
            let silent = LookTold { offset: 0, name: None, dst_active: false, sleep: (kind::SLEEP_NEVER, 0) };
            same!(self, "look with no list store", told, Some(silent));
            same!(self, "look, stand", (Vec::new(), Stand::Wait), (effects, stand));
            self.timer = Some(None);
            return self.unchanged("look with no list store", &before);
        }
        let mut asked = Vec::new();
        let mut over = self.timer.flatten().is_some_and(|due| due <= self.tick);
        while self.timer.is_none() || over || self.timer_woken {
            // a sleep that is over comes first, and a wake is then kept
            if self.timer.is_some() && !over {
                self.timer_woken = false;
            }
            over = false;
            self.timer = Some(self.look_once(short, &mut asked)?);
        }
        let due = self.timer.flatten();
        same!(self, "look, events and sleep", asked, effects);
        same!(self, "look, stand", due.map_or(Stand::Wait, Stand::Until), stand);
        Ok(())
    }

    /// One look: its events and its sleep, and when it is due again
    fn look_once(&mut self, short: bool, asked: &mut Vec<Effect>) -> Result<Option<u64>, Diff> {
        let copy = short.then(|| self.port.clone());
        let (p, told) = self.port.look(self.tick, 64);
        tally::met("look", &p);
        same!(self, "look, answer", p.answer, 0);
        let told = told.ok_or(Diff("a look told nothing".into()))?;
        if let Some(mut copy) = copy {
            let before = copy.image().to_vec();
            let named = told.name.as_ref().is_some_and(|n| !n.is_empty());
            let (q, _) = copy.look(self.tick, 0);
            same!(self, "look with no room", q.answer, if named { 9 } else { 0 });
            same!(self, "look with no room, image unchanged", named && copy.image() != &before[..], false);
            self.spoils(&copy)?;
        }
        asked.extend(Self::effects(&self.port, &p, None, Some(&told))?);
        let zone_told = p.effects.contains(&code::TIME_ZONE_STATUS);
        same!(self, "look, what is not told is 0", !zone_told && (told.offset, &told.name) != (0, &None), false);
        same!(self, "look, what is not told is 0", !p.effects.contains(&code::DST_STATUS) && told.dst_active, false);
        let due = match told.sleep {
            (kind::SLEEP_UNTIL_WOKEN, 0) => None,
            (kind::SLEEP_AT_MOST, us) => {
                asked.push(Effect::Sleep(us));
                Some(self.tick.saturating_add(us))
            }
            other => return Err(Diff(format!("look, sleep {other:?}"))),
        };
        asked.push(Effect::ParkTimer);
        Ok(due)
    }

    // ---- The client

    pub(super) fn reading(outcome: Option<&Outcome>) -> Reading {
        let Some(Outcome::Answer(parts, fault)) = outcome else {
            return (false, None, None);
        };
        if parts.is_empty() || *fault {
            return (false, None, None);
        }
        let (mut utc, mut granularity) = (None, None);
        for Part { utc: u, granularity: g } in parts {
            match u {
                Some(Err(())) => return (false, None, None),
                Some(Ok(moment)) => utc = *moment,
                None => {}
            }
            if let Some(Ok(n)) = g {
                // a number that cannot be read leaves what an earlier part said
                if *n <= 4 || granularity.is_none() {
                    granularity = Some(*n);
                }
            }
        }
        (true, utc, granularity)
    }

    /// The time of a reading, if it has one: its moment and the granularity that the clock is set with
    pub(super) fn told((answered, utc, granularity): Reading) -> Option<(u64, u8)> {
        let granularity = match granularity {
            // missing, or a number that names none: Seconds; and a round trip is within milliseconds at best
            None | Some(5..) => 2,
            Some(g) => g.min(3),
        };
        utc.filter(|_| answered && granularity != 0).map(|utc| (utc, granularity))
    }

    pub(super) fn holds_told(port: &Port, utc: u64, granularity: u8) -> bool {
        Self::holds(port, utc, granularity, NODE_TIME_CLUSTER)
    }

    /// The client's loop until it waits, on an image; without an outcome an exchange stays open
    fn client_round(&mut self, port: &mut Port, woken: &mut bool, outcome: Option<&Outcome>) -> Result<Round, Diff> {
        let mut round = Round { effects: Vec::new(), due: self.client.flatten(), exchange: self.exchange, backwards: false, again: false };
        let (mut must, mut fresh) = (self.client.is_none() || self.exchange.is_some(), false);
        loop {
            if must {
                Self::open(port, &mut round)?;
                if round.exchange.is_some() && outcome.is_none() {
                    round.due = None;
                    return Ok(round);
                }
                self.attempt(port, outcome, &mut round)?;
                (must, fresh) = (false, true);
            }
            if !fresh && round.due.is_some_and(|due| due <= self.tick) {
                must = true;
            } else if *woken {
                *woken = false;
                let (p, wait) = port.source_changed();
                let now = wait == (kind::WAIT_ATTEMPT_NOW, 0);
                tally::met(if now { "source changed, attempt now" } else { "source changed, wait" }, &p);
                same!(self, "source changed, answer", (p.answer, &p.effects[..]), (0, &[][..]));
                if now {
                    must = true;
                } else {
                    self.park(&mut round, wait)?;
                    fresh = true;
                }
            } else {
                return Ok(round);
            }
        }
    }

    fn trusted(port: &Port) -> Result<Option<Source>, Diff> {
        port.trusted().map_err(|e| Diff(format!("trusted source is refused with {e}")))
    }

    /// An exchange is opened where none is open and there is a source
    fn open(port: &Port, round: &mut Round) -> Done {
        if round.exchange.is_none() {
            round.exchange = Self::trusted(port)?;
            round.effects.extend(round.exchange.map(|(fab, node, _)| Effect::Initiate(fab, node)));
        }
        Ok(())
    }

    /// One attempt: what is asked for, and how long to wait
    fn attempt(&mut self, port: &mut Port, outcome: Option<&Outcome>, round: &mut Round) -> Done {
        let (asked, trusted) = (round.exchange.take(), Self::trusted(port)?);
        if let (Some((_, _, endpoint)), Some(outcome)) = (asked, outcome) {
            if *outcome != Outcome::NoSession {
                round.effects.push(Effect::Read(vec![(endpoint, 0), (endpoint, 1)], true));
            }
        }
        let (before, reading) = (port.clone(), Self::reading(outcome));
        let cleared = asked.filter(|_| trusted.is_none());
        if let Some((fab, node, endpoint)) = cleared {
            self.attempt_cleared(port.clone(), reading)?;
            // the Rust goes on with the source that it asked: for this one call it is there again
            port.set_source(fab, Some((node, endpoint)));
        }
        let (answered, utc, granularity) = reading;
        let (p, wait) = port.attempt(answered, utc, granularity, self.tick);
        if cleared.is_some() {
            port.copy_source(&before);
        }
        tally::met(["attempt, waits 0", "attempt, waits for a time", "attempt, waits for a source"][wait.0.min(2) as usize], &p);
        if trusted.is_some() && trusted != asked {
            tally::met("attempt, source replaced while open", &p);
        }
        same!(self, "attempt, answer", p.answer, 0);
        let applied = Self::told(reading).filter(|_| asked.is_some());
        for (mark, wanted) in MARKS.into_iter().zip([asked.is_none() || !answered, applied.is_none()]) {
            if wanted {
                round.backwards |= self.before_mark(port, &before, mark, &p)?;
            }
        }
        let mut effects = Self::effects(port, &p, None, None)?;
        if applied.is_some_and(|(utc, g)| Self::holds_told(&before, utc, g)) {
            // the port reports it all the same, the Rust does not
            tally::met("attempt, the same time again", &p);
            same!(self, "attempt again, reports first", p.effects.get(..3), Some(&code::UTC_REPORTS[..]));
            effects.drain(..3);
            round.again = true;
        }
        round.effects.extend(effects);
        self.park(round, wait)
    }

    /// Whether the mark of a wanted event lies after the tick; then there is no event, and the mark is kept
    fn before_mark(&mut self, port: &Port, before: &Port, (mark, at, code): (usize, usize, u8), p: &Returned) -> Result<bool, Diff> {
        if before.word(mark, 1) == 0 || before.word(at, 8) <= self.tick {
            return Ok(false);
        }
        tally::met("attempt before its mark", p);
        same!(self, "attempt before its mark, no event", p.effects.contains(&code), false);
        same!(self, "attempt before its mark, mark kept", (port.word(mark, 1), port.word(at, 8)), (1, before.word(at, 8)));
        Ok(true)
    }

    /// On a copy, the answer of an exchange whose source was cleared: the events that are due are marked, nothing else changes, and
    /// the client waits for a source
    fn attempt_cleared(&mut self, mut copy: Port, (answered, utc, granularity): Reading) -> Done {
        let (mut wanted, mut events) = (copy.clone(), Vec::new());
        for (mark, at, code) in MARKS {
            let elapsed = self.tick.checked_sub(copy.word(at, 8));
            if copy.word(mark, 1) == 0 || elapsed.is_some_and(|us| us >= HOUR) {
                wanted.poke(mark, &[1]);
                wanted.poke(at, &self.tick.to_le_bytes());
                events.push(code);
            }
        }
        let (p, wait) = copy.attempt(answered, utc, granularity, self.tick);
        tally::met("attempt, source cleared while open", &p);
        same!(self, "attempt, source cleared", (p.answer, p.effects, wait), (0, events, (kind::WAIT_FOR_SOURCE, 0)));
        same!(self, "attempt, source cleared, image as wanted", copy.image() == wanted.image(), true);
        self.spoils(&copy)
    }

    fn park(&self, round: &mut Round, wait: (u64, u64)) -> Done {
        round.effects.push(Effect::ParkClient);
        round.due = match wait {
            (kind::WAIT_FOR_SOURCE, 0) => None,
            (kind::WAIT_FOR, us) => {
                round.effects.push(Effect::Sleep(us));
                Some(self.tick.saturating_add(us))
            }
            other => return Err(Diff(format!("client, wait {other:?}"))),
        };
        Ok(())
    }

    pub(super) fn client(&mut self, outcome: Option<&Outcome>) -> Done {
        if matches!(self.kind, Kind::Lists(..)) {
            return Ok(());
        }
        let (mut port, mut woken) = (self.port.clone(), self.client_woken);
        let round = self.client_round(&mut port, &mut woken, outcome)?;
        self.spoils(&port)?;
        if round.backwards {
            // the Rust panics here: what the port does was looked at, and neither goes on from it
            return Ok(());
        }
        driver::clear_script();
        // an attempt, and one more where the source changed meanwhile
        for outcome in [outcome, outcome].into_iter().flatten() {
            driver::script(outcome.clone());
        }
        let stand = match self.client {
            None => self.device.client_start(self.period),
            Some(_) => self.device.client_step(),
        };
        driver::clear_script();
        let effects = trace::take();
        self.port = port;
        self.again = round.again;
        self.client_woken = woken;
        self.client = Some(round.due);
        self.exchange = round.exchange;
        same!(self, "client, effects and waits", round.effects, effects);
        let waits = if round.exchange.is_some() { Stand::Exchange } else { round.due.map_or(Stand::Wait, Stand::Until) };
        same!(self, "client, stand", waits, stand);
        Ok(())
    }

    /// LocalTime and a look at each of these ticks
    pub fn watch(&mut self, ticks: std::ops::RangeInclusive<u64>) -> Done {
        for tick in ticks {
            self.tick = tick;
            driver::set_tick(tick);
            trace::take();
            let want = self.device.local_time().map_err(|e| u64::from(driver::number(e)));
            same!(self, format_args!("LocalTime at tick {tick}"), self.port.local_time(tick), want);
            self.look(false)?;
        }
        Ok(())
    }
}
