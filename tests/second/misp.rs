//! MISP: its five control messages as tables, and their writers.

use crate::bytes::Address;
use crate::check;
use crate::md5::Digest;
use crate::message::{Counts, Family, Kind, Message, Object, Rule, Writer};

/// Codes (000, 4.3).
pub const BEACON: u8 = 1;
pub const REQUEST: u8 = 3;
pub const SUCCESS: u8 = 4;
pub const FAILURE: u8 = 8;
pub const TERMINATING: u8 = 9;

/// Types of objects (000, 4.4).
pub const STAMP: u8 = 2;
pub const LOCAL: u8 = 3;
pub const REMOTE: u8 = 4;
pub const CHECK_VALUE: u8 = 5;
pub const ACCOUNT: u8 = 6;
pub const KEY_DELIVERY: u8 = 8;
pub const POSITION: u8 = 9;
pub const ADDRESSES_LEFT: u8 = 10;
pub const FILTER: u8 = 11;
pub const REASON: u8 = 13;
pub const GROUPS: u8 = 14;
pub const LIFETIME: u8 = 15;
pub const SERIAL: u8 = 16;
pub const INTERVAL: u8 = 17;
pub const SECURITY_TYPES: u8 = 18;
pub const UPLINK: u8 = 19;
pub const CHANNEL: u8 = 20;
pub const NETWORKS: u8 = 21;

/// The security types that are built: 2 and 3.
pub const BUILT: [u16; 2] = [2, 3];

/// The paper, 'MISP messages'; optional objects as in 000, 4.5.2 to 4.5.6.
pub static MISP: Family = Family {
    header: 4,
    most: 1500,
    padding: true,
    counts: Counts::First,
    repeats: &[],
    sixteen: &[CHECK_VALUE, KEY_DELIVERY],
    name: ACCOUNT,
    takes,
    kinds: &[
        Kind {
            code: BEACON,
            mandatory: &[STAMP, GROUPS, SERIAL, INTERVAL, SECURITY_TYPES, NETWORKS],
            optional: &[POSITION, ADDRESSES_LEFT, FILTER, UPLINK, CHANNEL],
        },
        Kind {
            code: REQUEST,
            mandatory: &[STAMP, SECURITY_TYPES, CHECK_VALUE, ACCOUNT, KEY_DELIVERY, NETWORKS],
            optional: &[LOCAL],
        },
        Kind {
            code: SUCCESS,
            mandatory: &[STAMP, LIFETIME, CHECK_VALUE, NETWORKS],
            optional: &[LOCAL, REMOTE],
        },
        Kind { code: FAILURE, mandatory: &[STAMP, REASON], optional: &[] },
        Kind { code: TERMINATING, mandatory: &[STAMP, CHECK_VALUE], optional: &[REASON] },
    ],
};

pub const CODES: [u8; 5] = [BEACON, REQUEST, SUCCESS, FAILURE, TERMINATING];

/// Whether an object counts at all: its length fits, and a filter is 0 or 1 (001, 4.4.10).
fn takes(object: &Object) -> bool {
    object.obeys(rule(object.of_type)) && (object.of_type != FILTER || object.value[0] <= 1)
}

/// The paper's table of types and lengths.
fn rule(of_type: u8) -> Rule {
    match of_type {
        STAMP => Rule::Fixed(10),
        LOCAL | REMOTE => Rule::Fixed(6),
        POSITION => Rule::Fixed(14),
        ADDRESSES_LEFT | FILTER | CHANNEL => Rule::Fixed(3),
        REASON | LIFETIME | SERIAL | INTERVAL => Rule::Fixed(4),
        UPLINK => Rule::Fixed(8),
        GROUPS => Rule::List(4),
        SECURITY_TYPES | NETWORKS => Rule::List(2),
        _ => Rule::Any,
    }
}

impl Message<'_> {
    pub fn stamp(&self) -> u64 {
        self.number(STAMP)
    }

    pub fn check_value(&self) -> Digest {
        self.sixteen(CHECK_VALUE)
    }

    /// S: the top bit of byte 1.
    pub fn s(&self) -> bool {
        self.header.second() & 0x80 != 0
    }

    /// The one security type of a request, where its list is one number that is built.
    pub fn security_type(&self) -> Option<u16> {
        let list = self.value(SECURITY_TYPES);
        BUILT.iter().copied().find(|built| list == built.to_be_bytes())
    }
}

/// Who sends a message to whom, and the key of its check value.
pub struct Seal<'a> {
    pub key: &'a [u8],
    pub sender: &'a Address,
    pub receiver: &'a Address,
}

pub struct Beacon<'a> {
    pub stamp: u64,
    pub groups: &'a [u8],
    pub serial: u16,
    pub interval: u16,
    pub network: u16,
}

pub fn write_beacon(beacon: &Beacon, out: &mut [u8]) -> usize {
    let mut types = [0; 4];
    types[..2].copy_from_slice(&BUILT[0].to_be_bytes());
    types[2..].copy_from_slice(&BUILT[1].to_be_bytes());
    Writer::new(&MISP, BEACON, 0, out)
        .object(STAMP, &beacon.stamp.to_be_bytes())
        .object(GROUPS, beacon.groups)
        .object(SERIAL, &beacon.serial.to_be_bytes())
        .object(INTERVAL, &beacon.interval.to_be_bytes())
        .object(SECURITY_TYPES, &types)
        .object(NETWORKS, &beacon.network.to_be_bytes())
        .finish()
        .len()
}

pub struct Request<'a> {
    pub stamp: u64,
    pub security_type: u16,
    pub account: &'a [u8],
    pub seed: &'a Digest,
    pub network: u16,
}

pub fn write_request(request: &Request, seal: &Seal, out: &mut [u8]) -> usize {
    let writer = Writer::new(&MISP, REQUEST, 0, out)
        .object(STAMP, &request.stamp.to_be_bytes())
        .object(SECURITY_TYPES, &request.security_type.to_be_bytes());
    let at = writer.next_value();
    let writer = writer
        .object(CHECK_VALUE, &[0; 16])
        .object(ACCOUNT, request.account)
        .object(KEY_DELIVERY, request.seed)
        .object(NETWORKS, &request.network.to_be_bytes());
    seal.put(writer.finish(), at)
}

pub fn write_success(stamp: u64, lifetime: u16, network: u16, seal: &Seal, out: &mut [u8]) -> usize {
    let writer = Writer::new(&MISP, SUCCESS, 0, out)
        .object(STAMP, &stamp.to_be_bytes())
        .object(LIFETIME, &lifetime.to_be_bytes());
    let at = writer.next_value();
    let writer = writer.object(CHECK_VALUE, &[0; 16]).object(NETWORKS, &network.to_be_bytes());
    seal.put(writer.finish(), at)
}

pub fn write_failure(stamp: u64, reason: u16, out: &mut [u8]) -> usize {
    Writer::new(&MISP, FAILURE, 0, out)
        .object(STAMP, &stamp.to_be_bytes())
        .object(REASON, &reason.to_be_bytes())
        .finish()
        .len()
}

pub fn write_terminating(stamp: u64, seal: &Seal, out: &mut [u8]) -> usize {
    let writer = Writer::new(&MISP, TERMINATING, 0, out).object(STAMP, &stamp.to_be_bytes());
    let at = writer.next_value();
    seal.put(writer.object(CHECK_VALUE, &[0; 16]).finish(), at)
}

impl Seal<'_> {
    /// Puts the check value where 16 zeros stand for it; gives the message's length.
    fn put(&self, message: &mut [u8], at: usize) -> usize {
        let data = check::authentication_data(message, at, self.sender, self.receiver);
        message[at..at + 16].copy_from_slice(&check::check_value(self.key, &data));
        message.len()
    }

    /// Whether the check value that a message carries is the right one.
    pub fn fits(&self, message: &Message) -> bool {
        let data = check::data_of(message, self.sender, self.receiver);
        message.check_value() == check::check_value(self.key, &data)
    }
}
