//! The gauge.

use crate::{raw, sized, Address, Digest, Outcome, Refusal};

/// What a gauge is set up with. A setting out of its range is refused (18).
#[derive(Clone, Copy)]
pub struct NodeSettings<'a> {
    /// Ticks in one unit of lifetime, as at its router, 1 to 2^32-1.
    pub unit: u64,
    /// A request that waits is given up for a beacon more than this many ticks newer, 1 to 2^32-1.
    pub patience: u64,
    /// Known to this gauge and the server, 1 to 253 bytes.
    pub password: &'a [u8],
    /// Its name in the server's book, 1 to 253 bytes.
    pub account: &'a [u8],
    /// The security type, 2 or 3.
    pub kind: u64,
    /// The hall's network number, up to 65,535.
    pub network: u64,
    /// Its own link address.
    pub address: Address,
    /// The router's link address.
    pub router: Address,
}

/// A gauge over a lent state buffer.
pub struct Node<'s> {
    state: &'s mut [u8],
}

/// A call that takes a message and writes nothing.
type Takes = unsafe extern "C" fn(*mut u8, usize, u64, *const u8, usize) -> u32;

impl<'s> Node<'s> {
    /// How many bytes the state buffer has.
    pub fn size() -> usize {
        unsafe { raw::mis_node_size() }
    }

    /// Sets a gauge up, neither waiting nor open. A refusal leaves the buffer as it was.
    pub fn set_up(state: &'s mut [u8], settings: &NodeSettings) -> Result<Self, Refusal> {
        let node = Node::resume(state)?;
        let NodeSettings { password, account, address, router, .. } = settings;
        // The state has the library's size, and the borrows keep the buffers apart.
        let number = unsafe {
            raw::mis_node_set_up(
                node.state.as_mut_ptr(),
                node.state.len(),
                settings.unit,
                settings.patience,
                password.as_ptr(),
                password.len(),
                account.as_ptr(),
                account.len(),
                settings.kind,
                settings.network,
                address,
                router,
            )
        };
        Refusal::result(number & 255).map(|()| node)
    }

    /// Goes on with a state that was set up earlier.
    pub fn resume(state: &'s mut [u8]) -> Result<Self, Refusal> {
        sized(state, Self::size()).map(|state| Node { state })
    }

    /// A beacon: a gauge that wants a session writes its request for the router, with this fresh random seed. Output: `OUT_RADIO` bytes.
    pub fn hear<'a>(&mut self, clock: u64, seed: &Digest, message: &[u8], out: &'a mut [u8]) -> Outcome<'a> {
        let (state, size) = (self.state.as_mut_ptr(), self.state.len());
        let (bytes, length) = (message.as_ptr(), message.len());
        Outcome::of(out, |out, room, to| unsafe {
            raw::mis_node_hear(state, size, clock, seed, bytes, length, out, room, to)
        })
    }

    /// A success: the right one opens the session that the gauge waits for; one that is refused with 5 ends its waiting.
    pub fn success(&mut self, clock: u64, message: &[u8]) -> Result<(), Refusal> {
        self.takes(raw::mis_node_success, clock, message)
    }

    /// A failure with the stamp that the gauge waits on ends its waiting.
    pub fn failure(&mut self, clock: u64, message: &[u8]) -> Result<(), Refusal> {
        self.takes(raw::mis_node_failure, clock, message)
    }

    /// A terminating message from the router.
    pub fn left(&mut self, clock: u64, message: &[u8]) -> Result<(), Refusal> {
        self.takes(raw::mis_node_left, clock, message)
    }

    fn takes(&mut self, call: Takes, clock: u64, message: &[u8]) -> Result<(), Refusal> {
        let (state, size) = (self.state.as_mut_ptr(), self.state.len());
        let told = unsafe { call(state, size, clock, message.as_ptr(), message.len()) };
        Refusal::result(told & 255)
    }

    /// Closes the gauge's session and writes the terminating message for the router. Output: `OUT_RADIO` bytes.
    pub fn leave<'a>(&mut self, clock: u64, out: &'a mut [u8]) -> Outcome<'a> {
        let (state, size) = (self.state.as_mut_ptr(), self.state.len());
        Outcome::of(out, |out, room, to| unsafe { raw::mis_node_leave(state, size, clock, out, room, to) })
    }
}
