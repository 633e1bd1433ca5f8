//! Calls on no party: digests and the bare readers.

use crate::chance::Chance;
use crate::failed;
use crate::md5;
use crate::message;
use crate::misauth::{self, MISAUTH};
use crate::misp::{self, MISP};
use crate::refusal::Refusal;
use crate::same::{number, Message};
use crate::writers::KINDS;
use core::sync::atomic::{AtomicUsize, Ordering::Relaxed};

/// How often each reader handed fields out.
static READ: [AtomicUsize; KINDS.len()] = [ZERO; KINDS.len()];
const ZERO: AtomicUsize = AtomicUsize::new(0);

/// The fields of each kind were compared.
pub fn done() -> usize {
    for (name, count) in KINDS.iter().zip(&READ) {
        if count.load(Relaxed) == 0 {
            failed(format_args!("{name}: never read"));
        }
    }
    READ.iter().map(|count| count.load(Relaxed)).sum()
}

/// MD5 of the message, HMAC-MD5 of a part under the rest.
pub fn codes(message: &[u8], chance: &mut Chance) {
    let (key, text) = message.split_at(chance.below(message.len() + 1));
    if mis::md5(message) != md5::md5(&[message]) || mis::hmac(key, text) != md5::hmac(key, &[text]) {
        failed(format_args!("MD5 or HMAC-MD5 of {} bytes", message.len()));
    }
}

/// Each reader, on a message of any kind.
pub fn readers(message: &[u8]) -> Option<Message> {
    number("read", mis::read(message), MISP.read(&misp::CODES, message).err());
    let login = MISAUTH.read(&misauth::CODES, message).err();
    number("readauth", mis::readauth(message), login);
    radio(message);
    between(message);
    None
}

/// A number that may be missing.
fn optional(second: &message::Message, of_type: u8) -> Option<u64> {
    second.object(of_type).map(|_| second.number(of_type))
}

fn radio(message: &[u8]) {
    let told = |code| MISP.read(&[code], message);
    fields("beacon", mis::bare::read_beacon(message), told(misp::BEACON), |it, second| {
        let uplink = |it: &mis::bare::Uplink| {
            (u64::from(it.line) << 32 | u64::from(it.up) << 16 | u64::from(it.down)).to_be_bytes()
        };
        it.stamp == second.stamp()
            && it.groups == second.value(misp::GROUPS)
            && u64::from(it.serial) == second.number(misp::SERIAL)
            && u64::from(it.interval) == second.number(misp::INTERVAL)
            && it.security == second.value(misp::SECURITY_TYPES)
            && it.networks == second.value(misp::NETWORKS)
            && it.position.as_ref().map_or(&[][..], |it| it) == second.value(misp::POSITION)
            && it.left == optional(second, misp::ADDRESSES_LEFT)
            && it.filter == optional(second, misp::FILTER)
            && it.uplink.as_ref().map(uplink).as_ref().map_or(&[][..], |it| &it[2..])
                == second.value(misp::UPLINK)
            && it.channel == optional(second, misp::CHANNEL)
    });
    fields("request", mis::bare::read_request(message), told(misp::REQUEST), |it, second| {
        it.s == second.s()
            && it.stamp == second.stamp()
            && it.security == second.value(misp::SECURITY_TYPES)
            && it.check == second.check_value()
            && it.account == second.value(misp::ACCOUNT)
            && it.seed == second.sixteen(misp::KEY_DELIVERY)
            && it.networks == second.value(misp::NETWORKS)
            && it.local == optional(second, misp::LOCAL)
    });
    fields("success", mis::bare::read_success(message), told(misp::SUCCESS), |it, second| {
        it.s == second.s()
            && it.stamp == second.stamp()
            && u64::from(it.lifetime) == second.number(misp::LIFETIME)
            && it.check == second.check_value()
            && it.networks == second.value(misp::NETWORKS)
            && it.local == optional(second, misp::LOCAL)
            && it.remote == optional(second, misp::REMOTE)
    });
    fields("failure", mis::bare::read_failure(message), told(misp::FAILURE), |it, second| {
        it.stamp == second.stamp() && u64::from(it.reason) == second.number(misp::REASON)
    });
    fields("terminating", mis::bare::read_terminating(message), told(misp::TERMINATING), |it, second| {
        it.s == second.s()
            && it.stamp == second.stamp()
            && it.check == second.check_value()
            && it.reason == optional(second, misp::REASON)
    });
}

/// The messages between router and server.
fn between(message: &[u8]) {
    let told = |code| MISAUTH.read(&[code], message);
    let count = |second: &message::Message, of_type| second.every(of_type).count() as u64;
    let request = mis::bare::read_access_request(message);
    fields("access request", request, told(misauth::REQUEST), |it, second| {
        let mis::bare::AccessRequest { fields, proxies, sixes } = it;
        fields.identifier == second.header.second()
            && fields.account == second.value(misauth::NAME)
            && fields.data == second.sixteen(misauth::DATA)
            && fields.check == second.sixteen(misauth::HASH)
            && fields.seed == second.sixteen(misauth::SEED)
            && u64::from(fields.security) == second.number(misauth::SECURITY_TYPE)
            && fields.position == second.value(misauth::POSITION)
            && fields.router == optional(second, misauth::ROUTER_IPV4)
            && fields.groups == second.object(misauth::GROUPS).map(|it| it.value)
            && *proxies == count(second, misauth::PROXY)
            && *sixes == count(second, misauth::ROUTER_IPV6)
    });
    fields("accept", mis::bare::read_accept(message), told(misauth::ACCEPT), |it, second| {
        it.identifier == second.header.second()
            && it.key == second.sixteen(misauth::KEY)
            && it.check == second.sixteen(misauth::HASH)
            && it.proxies == count(second, misauth::PROXY)
    });
    fields("reject", mis::bare::read_reject(message), told(misauth::REJECT), |it, second| {
        it.identifier == second.header.second() && it.proxies == count(second, misauth::PROXY)
    });
}

/// Both refuse with one number, or what the wrapper hands back fits.
fn fields<Found>(
    what: &str,
    found: Result<Found, mis::Refusal>,
    expected: Result<message::Message, Refusal>,
    fits: impl Fn(&Found, &message::Message) -> bool,
) {
    let right = match (&found, &expected) {
        (Ok(found), Ok(expected)) => {
            if let Some(kind) = KINDS.iter().position(|kind| *kind == what) {
                READ[kind].fetch_add(1, Relaxed);
            }
            fits(found, expected)
        }
        (Err(found), Err(expected)) => found.number() == expected.number(),
        _ => false,
    };
    if !right {
        failed(format_args!("the reader of a {what}"));
    }
}
