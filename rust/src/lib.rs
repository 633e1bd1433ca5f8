//! The proved login code for gauges (nodes), base routers and the login server, as safe Rust over the archive `libmis.a`.
//!
//! No library but `core` is needed and nothing is put on a heap: a party's state is a buffer that the caller lends, of the size that
//! `Router::size` or `Node::size` tells. Build it with plain `rustc` and name the archive when you link; with `--cfg std` the error type is
//! also a `std::error::Error`. docs/BOUNDARY.md shows the commands.
//!
//! Left to the caller: a fresh seed of 16 random bytes for each `Node::hear`, stack enough (docs/BENCH.md), and that nobody else reads a
//! state's bytes, since keys stand in them.
#![no_std]

#[cfg(std)]
extern crate std;

pub mod bare;
mod digest;
mod node;
mod outcome;
pub mod raw;
mod refusal;
mod router;
mod server;

pub use bare::{read, readauth};
pub use digest::{hmac, md5};
pub use node::{Node, NodeSettings};
pub use outcome::{Outcome, To};
pub use refusal::Refusal;
pub use router::{Router, RouterSettings};
pub use server::{book_whole, login};

/// A link address.
pub type Address = [u8; 6];

/// A digest, check value, key or seed.
pub type Digest = [u8; 16];

/// The output that a call to the radio asks for.
pub const OUT_RADIO: usize = 1500;

/// The output that `Router::request`, `login` and the writers for the link between router and server ask for.
pub const OUT_LOGIN: usize = 4096;

/// A state buffer of the library's size; any other is misuse.
fn sized(state: &mut [u8], size: usize) -> Result<&mut [u8], Refusal> {
    if state.len() == size {
        Ok(state)
    } else {
        Err(Refusal::Misuse)
    }
}
