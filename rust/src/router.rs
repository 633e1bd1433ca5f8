//! The base router.

use crate::{raw, sized, Address, Outcome, Refusal};

/// What a router is set up with. A setting out of its range is refused (18).
#[derive(Clone, Copy)]
pub struct RouterSettings<'a> {
    /// Ticks for which a gauge's request is fresh, 1 to 2^32-1.
    pub window: u64,
    /// Ticks in one unit of lifetime, 1 to 2^32-1.
    pub unit: u64,
    /// Units for which a session stays open, 1 to 65,535.
    pub lifetime: u64,
    /// The hall's network number, up to 65,535.
    pub network: u64,
    /// The router's link address.
    pub address: Address,
    /// The address by which the server knows it.
    pub ipv4: [u8; 4],
    /// Shared with the server, 1 to 253 bytes.
    pub secret: &'a [u8],
    /// Where the router hangs.
    pub position: [u8; 12],
    /// Told in the beacon, up to 65,535.
    pub interval: u64,
    /// Up to 16 groups of 4 bytes.
    pub groups: &'a [u8],
}

/// A router over a lent state buffer.
pub struct Router<'s> {
    state: &'s mut [u8],
}

impl<'s> Router<'s> {
    /// How many bytes the state buffer has.
    pub fn size() -> usize {
        unsafe { raw::mis_router_size() }
    }

    /// Sets a router up, all 64 places free. A refusal leaves the buffer as it was.
    pub fn set_up(state: &'s mut [u8], settings: &RouterSettings) -> Result<Self, Refusal> {
        let router = Router::resume(state)?;
        let RouterSettings { address, ipv4, secret, position, groups, .. } = settings;
        // The state has the library's size, and the borrows keep the buffers apart.
        let number = unsafe {
            raw::mis_router_set_up(
                router.state.as_mut_ptr(),
                router.state.len(),
                settings.window,
                settings.unit,
                settings.lifetime,
                settings.network,
                address,
                ipv4,
                secret.as_ptr(),
                secret.len(),
                position,
                settings.interval,
                groups.as_ptr(),
                groups.len(),
            )
        };
        Refusal::result(number & 255).map(|()| router)
    }

    /// Goes on with a state that was set up earlier.
    pub fn resume(state: &'s mut [u8]) -> Result<Self, Refusal> {
        sized(state, Self::size()).map(|state| Router { state })
    }

    /// The beacon for all gauges in reach, the clock its stamp. Output: `OUT_RADIO` bytes.
    pub fn beacon<'a>(&mut self, clock: u64, serial: u16, out: &'a mut [u8]) -> Outcome<'a> {
        let (state, size) = (self.state.as_mut_ptr(), self.state.len());
        Outcome::of(out, |out, room, to| unsafe {
            raw::mis_router_beacon(state, size, clock, serial, out, room, to)
        })
    }

    /// A request from the gauge at `from`: the access request for the server, or the success once more; refusals 9, 10, 12 and 14 write a
    /// failure. Output: `OUT_LOGIN` bytes.
    pub fn request<'a>(
        &mut self,
        clock: u64,
        from: &Address,
        message: &[u8],
        out: &'a mut [u8],
    ) -> Outcome<'a> {
        let (state, size) = (self.state.as_mut_ptr(), self.state.len());
        let (bytes, length) = (message.as_ptr(), message.len());
        Outcome::of(out, |out, room, to| unsafe {
            raw::mis_router_request(state, size, clock, from, bytes, length, out, room, to)
        })
    }

    /// The server's reply: an accept opens the session and writes the success, a reject writes a failure. Output: `OUT_RADIO` bytes.
    pub fn reply<'a>(&mut self, clock: u64, message: &[u8], out: &'a mut [u8]) -> Outcome<'a> {
        let (state, size) = (self.state.as_mut_ptr(), self.state.len());
        let (bytes, length) = (message.as_ptr(), message.len());
        Outcome::of(out, |out, room, to| unsafe {
            raw::mis_router_reply(state, size, clock, bytes, length, out, room, to)
        })
    }

    /// Closes a gauge's session and writes the terminating message for it. Output: `OUT_RADIO` bytes.
    pub fn close<'a>(&mut self, clock: u64, node: &Address, out: &'a mut [u8]) -> Outcome<'a> {
        let (state, size) = (self.state.as_mut_ptr(), self.state.len());
        Outcome::of(out, |out, room, to| unsafe {
            raw::mis_router_close(state, size, clock, node, out, room, to)
        })
    }

    /// A terminating message from the gauge at `from`.
    pub fn closed(&mut self, clock: u64, from: &Address, message: &[u8]) -> Result<(), Refusal> {
        let (state, size) = (self.state.as_mut_ptr(), self.state.len());
        let (bytes, length) = (message.as_ptr(), message.len());
        let told = unsafe { raw::mis_router_closed(state, size, clock, from, bytes, length) };
        Refusal::result(told & 255)
    }

    /// The taken places as one word, place 0 in the lowest bit.
    pub fn taken(&self) -> u64 {
        unsafe { raw::mis_router_taken(self.state.as_ptr(), self.state.len()) }
    }

    /// How many places are taken.
    pub fn count(&self) -> u32 {
        unsafe { raw::mis_router_count(self.state.as_ptr(), self.state.len()) }
    }
}
