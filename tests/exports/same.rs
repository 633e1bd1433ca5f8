//! Compares what a wrapper hands back with the second program's answer, and counts what was done.

use crate::failed;
use crate::refusal::Refusal;
use crate::step::Answer;
use core::sync::atomic::{AtomicUsize, Ordering::Relaxed};
use mis::{Outcome, To};

/// A message that was written, and the node that it is about.
#[derive(Clone, Copy)]
pub struct Message {
    pub bytes: [u8; 512],
    pub length: usize,
    pub node: usize,
}

impl Message {
    pub const NONE: Message = Message { bytes: [0; 512], length: 0, node: 0 };
}

/// Where a message without an address goes.
#[derive(Clone, Copy)]
pub enum Openly {
    Nobody,
    Everyone,
    Server,
}

/// The calls on a party.
const CALLS: [&str; 11] =
    ["beacon", "hear", "request", "login", "reply", "success", "failure", "close", "closed", "leave", "left"];

/// How often each was done and not refused: one sees what the chance reached.
static DONE: [AtomicUsize; CALLS.len()] = [ZERO; CALLS.len()];
const ZERO: AtomicUsize = AtomicUsize::new(0);

/// The calls with how often each was done.
pub fn done() -> impl Iterator<Item = (&'static str, usize)> {
    CALLS.iter().zip(&DONE).map(|(name, count)| (*name, count.load(Relaxed)))
}

/// Compares a call that may write; hands back the message.
pub fn same(what: &str, found: Outcome, answer: Answer, out: &[u8], openly: Openly) -> Option<Message> {
    let sent = &out[..answer.sent.length];
    let to = match (answer.sent.to, openly) {
        _ if sent.is_empty() => To::Nobody,
        (Some(address), _) => To::Address(address),
        (None, Openly::Nobody) => To::Nobody,
        (None, Openly::Everyone) => To::Everyone,
        (None, Openly::Server) => To::Server,
    };
    number(what, found.result, answer.refusal);
    if found.to != to || found.sent != sent {
        failed(format_args!("{what}: another message or receiver"));
    }
    let mut message = Message { length: sent.len(), ..Message::NONE };
    message.bytes.get_mut(..sent.len())?.copy_from_slice(sent);
    (!sent.is_empty()).then_some(message)
}

/// Compares the number of a call; there is no message.
pub fn number(what: &str, found: Result<(), mis::Refusal>, refusal: Option<Refusal>) -> Option<Message> {
    let found = found.map_or_else(mis::Refusal::number, |()| 0);
    let expected = refusal.map_or(0, Refusal::number);
    if found != expected {
        failed(format_args!("{what}: {found}, and the second program has {expected}"));
    }
    if found == 0 {
        if let Some(call) = CALLS.iter().position(|call| *call == what) {
            DONE[call].fetch_add(1, Relaxed);
        }
    }
    None
}
