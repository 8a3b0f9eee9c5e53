//! The agents that steps work with.
use crate::agent::Agent;
use crate::error::{Error, done, of_text};
use crate::number::AgentNumber;
use crate::owned_slot::text_of_call;
use crate::run::SeatStep;
use crate::sys;

/// The agent that a step works with: one that it borrows, or one that a run has lent it.
pub(crate) enum Holder<'a> {
    Own(&'a mut Agent),
    Seat(SeatStep<'a>),
}

impl Holder<'_> {
    pub(crate) fn number(&self) -> AgentNumber {
        match self {
            Holder::Own(agent) => agent.number(),
            Holder::Seat(seat_step) => seat_step.number(),
        }
    }

    /// How many moves the parts of a run before that of the step have.
    pub(crate) fn before(&self) -> u64 {
        match self {
            Holder::Own(_) => 0,
            Holder::Seat(seat_step) => seat_step.part().before,
        }
    }

    /// Calls the agent, which a run may have taken back.
    pub(crate) fn with<T>(&self, call: impl FnOnce(&Agent) -> Result<T, Error>) -> Result<T, Error> {
        match self {
            Holder::Own(agent) => call(agent),
            Holder::Seat(seat_step) => seat_step.with(call),
        }
    }
}

/// Fires what the agent's step has pushed, after a receipt of what the step read if the agent is recording.
pub(crate) fn commit(agent: &Agent) -> Result<u32, Error> {
    let call = if agent.is_recording() { sys::asm_commit_recorded } else { sys::asm_commit };
    let mut numbers = sys::Numbers::default();
    // SAFETY: the slots are of one agent and its step, which this thread alone has, and the texts and numbers outlive the call.
    let code = unsafe { call(agent.slots.agent(), agent.slots.step(), &raw mut numbers) };
    match code {
        sys::STALE | sys::CLASH => Err(of_text(code, &agent.last_answer()?).of_fire()),
        code => {
            done(code)?;
            Ok(numbers.fired)
        }
    }
}

/// The text of what the agent's step would fire by now.
pub(crate) fn offer_text(agent: &Agent) -> Result<Vec<u8>, Error> {
    // SAFETY: the slots are of one agent and its step, which this thread alone has, and the texts and numbers outlive the call.
    let (code, text) =
        text_of_call(|out, room, written| unsafe { sys::asm_offer(agent.slots.step(), out, room, written) });
    done(code)?;
    Ok(text)
}
