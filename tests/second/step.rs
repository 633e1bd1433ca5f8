//! What the steps of router, node and server share: their answers, and the ranges of settings.

use crate::bytes::Address;
use crate::refusal::Refusal;

/// What a call hands back: done or a refusal, and the message that goes out, if any.
pub struct Answer {
    pub refusal: Option<Refusal>,
    pub sent: Sent,
}

/// The bytes written, and the link address they go to: none for a broadcast, the server, or nobody.
#[derive(Clone, Copy)]
pub struct Sent {
    pub length: usize,
    pub to: Option<Address>,
}

impl Sent {
    pub const NOTHING: Sent = Sent { length: 0, to: None };

    /// To everyone in reach, to the server, or back to where a server's request came from.
    pub fn openly(length: usize) -> Self {
        Sent { length, to: None }
    }

    pub fn to(address: Address, length: usize) -> Self {
        Sent { length, to: Some(address) }
    }
}

impl Answer {
    pub fn done(sent: Sent) -> Self {
        Answer { refusal: None, sent }
    }

    pub fn refused(refusal: Refusal) -> Self {
        Answer { refusal: Some(refusal), sent: Sent::NOTHING }
    }

    pub fn sending(self, sent: Sent) -> Self {
        Answer { sent, ..self }
    }
}

/// Most calls write nothing where they refuse.
impl From<Result<Sent, Refusal>> for Answer {
    fn from(outcome: Result<Sent, Refusal>) -> Self {
        outcome.map_or_else(Answer::refused, Answer::done)
    }
}

/// Refusal 20: an output has room for the longest message of its family.
pub fn room(out: &[u8], most: usize) -> Result<(), Refusal> {
    holds(out.len() >= most, Refusal::Output)
}

/// The refusal, unless the condition holds.
pub fn holds(condition: bool, refusal: Refusal) -> Result<(), Refusal> {
    if condition {
        Ok(())
    } else {
        Err(refusal)
    }
}

/// Windows, patience and ticks are 1 to 2^32-1.
pub fn ticks(given: u64) -> Result<u64, Refusal> {
    holds((1..=u64::from(u32::MAX)).contains(&given), Refusal::Setting).map(|()| given)
}

/// A setting that stands in a 16-bit field.
pub fn sixteen_bits(given: u64) -> Result<u16, Refusal> {
    holds(given <= u64::from(u16::MAX), Refusal::Setting).map(|()| given as u16)
}

/// Refusal 7, or the clock is stored.
pub fn advance(clock: &mut u64, now: u64) -> Result<(), Refusal> {
    holds(now >= *clock, Refusal::ClockBack)?;
    *clock = now;
    Ok(())
}
