//! MD5 (RFC 1321) and HMAC-MD5 (RFC 2104).

use crate::{raw, Digest};

pub fn md5(message: &[u8]) -> Digest {
    let mut digest = [0; 16];
    // The archive reads the message and writes 16 bytes.
    unsafe { raw::mis_md5(message.as_ptr(), message.len(), &mut digest) };
    digest
}

pub fn hmac(key: &[u8], message: &[u8]) -> Digest {
    let mut code = [0; 16];
    // The archive reads key and message and writes 16 bytes.
    unsafe { raw::mis_hmac_md5(key.as_ptr(), key.len(), message.as_ptr(), message.len(), &mut code) };
    code
}
