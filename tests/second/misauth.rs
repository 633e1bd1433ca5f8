//! MISAUTH: its three messages as tables, and their writers.

use crate::check;
use crate::md5::Digest;
use crate::message::{Counts, Family, Kind, Object, Rule, Writer};

/// Codes (003, 3.1).
pub const REQUEST: u8 = 1;
pub const ACCEPT: u8 = 2;
pub const REJECT: u8 = 3;

/// Types of objects (003, 3.2).
pub const NAME: u8 = 1;
pub const ROUTER_IPV4: u8 = 4;
pub const PROXY: u8 = 33;
pub const ROUTER_IPV6: u8 = 95;
pub const DATA: u8 = 200;
pub const HASH: u8 = 201;
pub const SEED: u8 = 202;
pub const KEY: u8 = 203;
pub const POSITION: u8 = 204;
pub const SECURITY_TYPE: u8 = 205;
pub const GROUPS: u8 = 206;

/// The paper, 'MISAUTH messages'; optional objects as in 003, 5.
pub static MISAUTH: Family = Family {
    header: 20,
    most: 4096,
    padding: false,
    counts: Counts::Last,
    repeats: &[PROXY, ROUTER_IPV6],
    sixteen: &[DATA, HASH, SEED, KEY],
    name: NAME,
    takes,
    kinds: &[
        Kind {
            code: REQUEST,
            mandatory: &[NAME, DATA, HASH, SEED, SECURITY_TYPE, POSITION],
            optional: &[ROUTER_IPV4, PROXY, ROUTER_IPV6, GROUPS],
        },
        Kind { code: ACCEPT, mandatory: &[KEY, HASH], optional: &[PROXY] },
        Kind { code: REJECT, mandatory: &[], optional: &[PROXY] },
    ],
};

pub const CODES: [u8; 3] = [REQUEST, ACCEPT, REJECT];

fn takes(object: &Object) -> bool {
    object.obeys(rule(object.of_type))
}

/// 003, 4.2, 4.4 and 4.9 to 4.11.
fn rule(of_type: u8) -> Rule {
    match of_type {
        ROUTER_IPV4 => Rule::Fixed(6),
        ROUTER_IPV6 => Rule::Fixed(18),
        POSITION => Rule::Fixed(14),
        SECURITY_TYPE => Rule::Fixed(4),
        GROUPS => Rule::List(4),
        _ => Rule::Any,
    }
}

pub struct AccessRequest<'a> {
    pub identifier: u8,
    pub account: &'a [u8],
    pub data: &'a Digest,
    pub check_value: &'a Digest,
    pub seed: &'a Digest,
    pub security_type: u16,
    pub position: &'a [u8; 12],
}

pub fn write_access_request(request: &AccessRequest, secret: &[u8], out: &mut [u8]) -> usize {
    let writer = Writer::new(&MISAUTH, REQUEST, request.identifier, out)
        .object(NAME, request.account)
        .object(DATA, request.data)
        .object(HASH, request.check_value)
        .object(SEED, request.seed)
        .object(SECURITY_TYPE, &request.security_type.to_be_bytes())
        .object(POSITION, request.position);
    authenticated(writer, secret)
}

pub fn write_accept(
    identifier: u8,
    key: &Digest,
    check_value: &Digest,
    secret: &[u8],
    out: &mut [u8],
) -> usize {
    let writer = Writer::new(&MISAUTH, ACCEPT, identifier, out).object(KEY, key).object(HASH, check_value);
    authenticated(writer, secret)
}

pub fn write_reject(identifier: u8, secret: &[u8], out: &mut [u8]) -> usize {
    authenticated(Writer::new(&MISAUTH, REJECT, identifier, out), secret)
}

/// Puts the Authenticator into its field; gives the message's length.
fn authenticated(writer: Writer, secret: &[u8]) -> usize {
    let message = writer.finish();
    let authenticator = check::authenticator(message, secret);
    message[check::AUTHENTICATOR].copy_from_slice(&authenticator);
    message.len()
}
