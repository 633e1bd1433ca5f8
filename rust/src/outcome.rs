//! What a call that may write hands back.

use crate::{Address, Refusal};

/// To whom goes what was written.
#[derive(Clone, Copy, Debug, PartialEq, Eq)]
pub enum To {
    /// Nothing was written, or the caller knows to whom it goes: a server's answer, what a writer of `bare` wrote.
    Nobody,
    /// All gauges in reach.
    Everyone,
    Address(Address),
    Server,
}

/// Whether the call was done, and what is to be sent. Some refusals write a message too: send what is there.
#[derive(Clone, Copy, Debug, PartialEq, Eq)]
pub struct Outcome<'a> {
    pub result: Result<(), Refusal>,
    pub to: To,
    /// The message; empty where there is none.
    pub sent: &'a [u8],
}

impl<'a> Outcome<'a> {
    pub(crate) fn refused(refusal: Refusal) -> Self {
        Outcome { result: Err(refusal), to: To::Nobody, sent: &[] }
    }

    /// Runs a call on an output and an address, and takes the number apart that it hands back.
    pub(crate) fn of(out: &'a mut [u8], call: impl FnOnce(*mut u8, usize, *mut Address) -> u32) -> Self {
        let mut address = [0; 6];
        let told = call(out.as_mut_ptr(), out.len(), &mut address);
        let to = match told >> 8 & 255 {
            1 => To::Everyone,
            2 => To::Address(address),
            3 => To::Server,
            _ => To::Nobody,
        };
        let out: &'a [u8] = out;
        match out.get(..(told >> 16) as usize) {
            Some(sent) => Outcome { result: Refusal::result(told & 255), to, sent },
            None => Outcome::refused(Refusal::Misuse),
        }
    }
}
