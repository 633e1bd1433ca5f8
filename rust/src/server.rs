//! The login server.

use crate::{raw, Outcome};

/// An access request from the router at IPv4 address `source`; the accept or reject goes back to where it came from. Routers' secrets come
/// from the mill's book, accounts from it first. Output: `OUT_LOGIN` bytes.
pub fn login<'a>(
    mill: &[u8],
    visitors: &[u8],
    source: &[u8; 4],
    message: &[u8],
    out: &'a mut [u8],
) -> Outcome<'a> {
    // The archive reads books, source and message and writes within the output.
    Outcome::of(out, |out, room, _| unsafe {
        raw::mis_server_login(
            mill.as_ptr(),
            mill.len(),
            visitors.as_ptr(),
            visitors.len(),
            source,
            message.as_ptr(),
            message.len(),
            out,
            room,
        )
    })
}

/// Whether a book is whole: try a changed one before it takes the old one's place.
pub fn book_whole(book: &[u8]) -> bool {
    unsafe { raw::mis_book_whole(book.as_ptr(), book.len()) }
}
