//! What a call returns: its answer and its effects.

use crate::effect::{Effect, EffectCode, EffectCodes, Event};
use crate::name::Name;
use crate::numbers::{EventId, Refusal};
use crate::rtc::TrustedTimeSource;

/// The answer of a call that may change the image, and the effects that it asks for. A call that was turned down can ask for effects too: a
/// SetDSTOffset that breaks a rule has emptied the windows, and the timer is to be woken. So the answer is behind the effects:
/// [`carry_out`](Self::carry_out) is the one way to it.
///
/// ```
/// # use timesync::{encode_dst_offsets, Controller, DSTOffsetEntry, Effect, Limits, Refusal, RECORD_MAX};
/// # fn main() -> Result<(), Refusal> {
/// let mut controller = Controller::new(Some(Limits::DEVICE), 0, 3_600_000_000)?;
/// let open = DSTOffsetEntry { offset: 0, valid_starting: 0, valid_until: None };
/// let (mut request, mut record) = ([0; 64], [0; RECORD_MAX]);
/// // nothing can follow an open window
/// let request = encode_dst_offsets(&[open, open], &mut request)?;
/// let mut woken = false;
/// let answer = controller
///     .handler_mut()
///     .handle_set_dst_offset(request, &mut record)
///     .carry_out(|effect| woken |= effect == Effect::WakeTimer);
/// assert_eq!((answer, woken), (Err(Refusal::ConstraintError), true));
/// # Ok(())
/// # }
/// ```
///
/// What would lose the effects does not compile. There is no answer to ask for first:
///
/// ```compile_fail,E0616
/// # use timesync::{Controller, Refusal};
/// # fn main() -> Result<(), Refusal> {
/// # let mut controller = Controller::new(None, 0, 3_600_000_000)?;
/// controller.handler_mut().handle_set_utc_time(5, 4, None, 0).answer?;
/// # Ok(())
/// # }
/// ```
///
/// and the compiler warns of an outcome that is not used:
///
/// ```compile_fail
/// #![deny(unused_must_use)]
/// # use timesync::{Controller, Refusal};
/// # fn main() -> Result<(), Refusal> {
/// # let mut controller = Controller::new(None, 0, 3_600_000_000)?;
/// controller.handler_mut().handle_set_utc_time(5, 4, None, 0);
/// # Ok(())
/// # }
/// ```
#[derive(Debug, Clone, PartialEq, Eq)]
#[must_use = "carry_out does what the call asks for, also where it was turned down, and gives its answer"]
pub struct Outcome<'a, T = ()> {
    answer: Result<T, Refusal>,
    effects: EffectCodes,
    carried: Carried<'a>,
}

impl<'a, T> Outcome<'a, T> {
    /// Of what a function of [`entry`](crate::entry) returned, with the value that it answers where it was taken and what its effects carry.
    pub(crate) fn new(returned: u64, value: T, carried: Carried<'a>) -> Self {
        Outcome {
            answer: answer(returned).map(|()| value),
            effects: EffectCodes::from_returned(returned),
            carried,
        }
    }

    /// Hands each effect out, in order, and then answers: what the call answers, or why it was turned down.
    pub fn carry_out(self, mut each: impl FnMut(Effect<'_>)) -> Result<T, Refusal> {
        for effect in self.effects.filter_map(|code| self.carried.effect(code)) {
            each(effect);
        }
        self.answer
    }
}

/// What the effects of a call carry.
#[derive(Debug, Clone, PartialEq, Eq, Default)]
pub(crate) struct Carried<'a> {
    pub record: &'a [u8],
    pub moment: u64,
    pub source: Option<TrustedTimeSource>,
    pub offset: i32,
    pub name: Option<Name>,
    pub dst_offset_active: bool,
}

impl Carried<'_> {
    /// The effect of a code. A source is stored only by a call that was given one, so none is left out.
    fn effect(&self, code: EffectCode) -> Option<Effect<'_>> {
        Some(match code {
            EffectCode::Report(attribute) => Effect::Report(attribute),
            EffectCode::Emit(event) => Effect::Emit(self.event(event)),
            EffectCode::WakeTimer => Effect::WakeTimer,
            EffectCode::WakeClient => Effect::WakeClient,
            EffectCode::StoreRecord => Effect::StoreRecord(self.record),
            EffectCode::RemoveRecord => Effect::RemoveRecord,
            EffectCode::StoreMoment => Effect::StoreMoment(self.moment),
            EffectCode::RemoveMoment => Effect::RemoveMoment,
            EffectCode::StoreSource => Effect::StoreSource(self.source?),
            EffectCode::RemoveSource => Effect::RemoveSource,
        })
    }

    fn event(&self, event: EventId) -> Event<'_> {
        match event {
            EventId::DSTTableEmpty => Event::DSTTableEmpty,
            EventId::DSTStatus => Event::DSTStatus {
                dst_offset_active: self.dst_offset_active,
            },
            EventId::TimeZoneStatus => Event::TimeZoneStatus {
                offset: self.offset,
                name: self.name.as_deref(),
            },
            EventId::TimeFailure => Event::TimeFailure,
            EventId::MissingTrustedTimeSource => Event::MissingTrustedTimeSource,
        }
    }
}

/// The number in the lowest byte: taken, or a refusal. A number that names none counts as BadLimits; the library returns no such number.
pub(crate) fn answer(returned: u64) -> Result<(), Refusal> {
    match returned as u8 {
        0 => Ok(()),
        number => Err(Refusal::from_number(number).unwrap_or(Refusal::BadLimits)),
    }
}
