//! The test vectors of the RFCs, run by `run`.

use crate::md5::{hmac, md5};
use crate::script::hex;

#[path = "../vectors/rfc.rs"]
mod rfc;

#[test]
fn md5_vectors() {
    for (text, digest) in rfc::MD5 {
        assert_eq!(hex(&md5(&[text.as_bytes()])), digest);
    }
}

#[test]
fn hmac_vectors() {
    for (key, text, digest) in rfc::HMAC {
        assert_eq!(hex(&hmac(key, &[text])), digest);
    }
}

/// The parts of a text may be cut anywhere.
#[test]
fn md5_of_parts() {
    let text = [0x5a; 200];
    for cut in 0..=text.len() {
        assert_eq!(md5(&[&text[..cut], &text[cut..]]), md5(&[&text]));
    }
}
