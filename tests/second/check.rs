//! Check values, keys and Authenticators (the paper, 'Check value and key'; 004, 2.4).

use crate::bytes::Address;
use crate::md5::{hmac, md5, Digest};
use crate::message::{Header, Message};
use crate::misp::CHECK_VALUE;
use core::ops::Range;

/// MD5 of the message with the 16 bytes of its check value zero, the sender's address, the receiver's.
pub fn authentication_data(message: &[u8], at: usize, sender: &Address, receiver: &Address) -> Digest {
    md5(&[&message[..at], &[0; 16], &message[at + 16..], sender, receiver])
}

/// The authentication data of a message that its reader took. Its check value is the first object 5.
pub fn data_of(message: &Message, sender: &Address, receiver: &Address) -> Digest {
    let at = message.object(CHECK_VALUE).map_or(0, |object| object.at);
    authentication_data(message.header.bytes(), at, sender, receiver)
}

/// Under the password in a request, under the session key in success and terminating messages.
pub fn check_value(key: &[u8], data: &Digest) -> Digest {
    hmac(key, &[data])
}

pub fn session_key(password: &[u8], seed: &Digest) -> Digest {
    hmac(password, &[seed])
}

/// The session key XOR the HMAC-MD5 of the check value under the router secret. Twice gives the key back.
pub fn masked(key: &Digest, check_value: &Digest, secret: &[u8]) -> Digest {
    let mut masked = hmac(secret, &[check_value]);
    for (byte, key) in masked.iter_mut().zip(key) {
        *byte ^= key;
    }
    masked
}

/// Where the Authenticator stands in a MISAUTH message.
pub const AUTHENTICATOR: Range<usize> = 4..20;

/// HMAC-MD5 under the router secret, over the message with the field zero.
pub fn authenticator(message: &[u8], secret: &[u8]) -> Digest {
    hmac(secret, &[&message[..AUTHENTICATOR.start], &[0; 16], &message[AUTHENTICATOR.end..]])
}

pub fn authentic(header: &Header, secret: &[u8]) -> bool {
    header.bytes()[AUTHENTICATOR] == authenticator(header.bytes(), secret)
}
