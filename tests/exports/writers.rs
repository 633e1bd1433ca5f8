//! The bare writers beside the second program's own: fields at random, some out of their range, and each message compared byte by byte.

use crate::chance::Chance;
use crate::failed;
use crate::message::{Family, Writer};
use crate::misauth::{self, MISAUTH};
use crate::misp::{self, MISP};
use core::sync::atomic::{AtomicUsize, Ordering::Relaxed};
use mis::bare::{AccessFields, Beacon, Failure, Request, Success, Terminating, Uplink};
use mis::Outcome;

pub const KINDS: [&str; 8] =
    ["beacon", "request", "success", "failure", "terminating", "access request", "accept", "reject"];

/// How often each was written, and how often refused with 18.
static WRITTEN: [AtomicUsize; 8] = [ZERO; 8];
static REFUSED: [AtomicUsize; 8] = [ZERO; 8];
const ZERO: AtomicUsize = AtomicUsize::new(0);

/// Each kind was written, and each but the failure, of which nothing can be out of range, refused.
pub fn done() -> (usize, usize) {
    let sum = |counts: &[AtomicUsize; 8]| counts.iter().map(|count| count.load(Relaxed)).sum();
    for (at, name) in KINDS.iter().enumerate() {
        if WRITTEN[at].load(Relaxed) == 0 || (REFUSED[at].load(Relaxed) == 0 && *name != "failure") {
            failed(format_args!("{name}: never written or never refused"));
        }
    }
    (sum(&WRITTEN), sum(&REFUSED))
}

/// Bytes at random that a field is cut from.
struct Stock {
    bytes: [u8; 600],
    at: usize,
}

impl Stock {
    fn new(chance: &mut Chance) -> Self {
        let mut bytes = [0; 600];
        chance.fill(&mut bytes);
        Stock { bytes, at: 0 }
    }

    /// A byte string, mostly one of whole elements that fits an object.
    fn some(&mut self, unit: usize, chance: &mut Chance) -> (usize, usize) {
        let length = match chance.below(12) {
            0 => 253 / unit * unit,
            1 => 254 + chance.below(3),
            2 => chance.below(20),
            _ => chance.below(8) * unit,
        };
        self.at = chance.below(self.bytes.len() - length);
        (self.at, self.at + length)
    }

    fn sixteen(&self, chance: &mut Chance) -> mis::Digest {
        let mut digest = [0; 16];
        let at = chance.below(self.bytes.len() - 16);
        digest.copy_from_slice(&self.bytes[at..at + 16]);
        digest
    }
}

/// None, a number below the bound, the bound, or above it.
fn number(bound: u64, chance: &mut Chance) -> Option<u64> {
    match chance.below(8) {
        0 => Some(bound),
        1 => Some([u64::MAX, u64::MAX - 1, bound + 1][chance.below(3)]),
        2 | 3 => Some(chance.next() % bound),
        4 => Some(bound - 1),
        _ => None,
    }
}

fn fits(number: Option<u64>, bound: u64) -> bool {
    number.map_or(true, |number| number < bound)
}

fn list(value: &[u8], unit: usize) -> bool {
    value.len() <= 253 && value.len() % unit == 0
}

fn name(value: &[u8]) -> bool {
    !value.is_empty() && value.len() <= 253
}

/// An object that may be missing, its number in so many bytes.
fn given<'a>(writer: Writer<'a>, of_type: u8, width: usize, number: Option<u64>) -> Writer<'a> {
    match number {
        Some(number) => writer.object(of_type, &number.to_be_bytes()[8 - width..]),
        None => writer,
    }
}

/// A run of objects of a type: values of any length up to five for 33, or sixteen of 248 bytes; of 16 bytes for 95; now and then one that is none.
fn run(of_type: u8, room: &mut [u8; 4200], chance: &mut Chance) -> (usize, bool) {
    let (mut length, mut whole) = (0, true);
    let many = chance.one_in(30);
    for _ in 0..if many { 16 } else { chance.below(4) } {
        let size = match (of_type, many) {
            (95, _) => 18,
            (_, true) => 250,
            _ => 2 + chance.below(6),
        };
        chance.fill(&mut room[length..length + size]);
        room[length] = of_type;
        room[length + 1] = size as u8;
        length += size;
    }
    if length > 0 && chance.one_in(6) {
        match chance.below(3) {
            0 => length -= 1,
            1 => room[0] ^= 1,
            _ => room[1] = 1,
        }
        whole = false;
    }
    (length, whole)
}

/// Compares one kind: 20, 18, or the second program's bytes, which are those that it writes where all is in range and fits.
fn held(
    kind: usize,
    family: &Family,
    found: Outcome,
    in_range: bool,
    other: &mut [u8],
    write: impl FnOnce(&mut [u8]) -> usize,
) {
    let told = found.result.map_or_else(mis::Refusal::number, |()| 0);
    let mut room = [0; 16_384];
    let length = if in_range { write(&mut room) } else { 0 };
    let expected = match () {
        () if other.len() < family.most => 20,
        () if !in_range || length > family.most => 18,
        () => 0,
    };
    let sent = if expected == 0 { &room[..length] } else { &[] };
    if told != expected || found.sent != sent || found.to != mis::To::Nobody {
        failed(format_args!(
            "the writer of a {}: {told}, and the second program has {expected}",
            KINDS[kind]
        ));
    }
    match told {
        0 => WRITTEN[kind].fetch_add(1, Relaxed),
        18 => REFUSED[kind].fetch_add(1, Relaxed),
        _ => 0,
    };
}

/// One message of a kind at random.
pub fn compared(chance: &mut Chance, out: &mut [u8], other: &mut [u8]) {
    match chance.below(8) {
        0 => beacon(chance, out, other),
        1 => request(chance, out, other),
        2 => success(chance, out, other),
        3 => failure(chance, out, other),
        4 => terminating(chance, out, other),
        5 => access_request(chance, out, other),
        kind => reply(kind, chance, out, other),
    }
}

fn beacon(chance: &mut Chance, out: &mut [u8], other: &mut [u8]) {
    let mut stock = Stock::new(chance);
    let (groups, security, networks) = (stock.some(4, chance), stock.some(2, chance), stock.some(2, chance));
    let cut = |(from, to): (usize, usize)| &stock.bytes[from..to];
    let mut position = [0; 12];
    chance.fill(&mut position);
    let line = chance.next() as u16;
    let it = Beacon {
        stamp: chance.next() << 8,
        groups: cut(groups),
        serial: chance.next() as u16,
        interval: chance.next() as u16,
        security: cut(security),
        networks: cut(networks),
        position: chance.one_in(2).then_some(position),
        left: number(256, chance),
        filter: number(2, chance),
        uplink: chance.one_in(2).then_some(Uplink { line, up: line ^ 0x1234, down: line ^ 0x4321 }),
        channel: number(256, chance),
    };
    let in_range = list(it.groups, 4)
        && list(it.security, 2)
        && list(it.networks, 2)
        && fits(it.left, 256)
        && fits(it.filter, 2)
        && fits(it.channel, 256);
    held(0, &MISP, mis::bare::write_beacon(&it, out), in_range, other, |room| {
        let mut writer = Writer::new(&MISP, misp::BEACON, 0, room)
            .object(misp::STAMP, &it.stamp.to_be_bytes())
            .object(misp::GROUPS, it.groups)
            .object(misp::SERIAL, &it.serial.to_be_bytes())
            .object(misp::INTERVAL, &it.interval.to_be_bytes())
            .object(misp::SECURITY_TYPES, it.security)
            .object(misp::NETWORKS, it.networks);
        if let Some(position) = it.position {
            writer = writer.object(misp::POSITION, &position);
        }
        writer = given(writer, misp::ADDRESSES_LEFT, 1, it.left);
        writer = given(writer, misp::FILTER, 1, it.filter);
        if let Some(Uplink { line, up, down }) = it.uplink {
            let number = u64::from(line) << 32 | u64::from(up) << 16 | u64::from(down);
            writer = writer.object(misp::UPLINK, &number.to_be_bytes()[2..]);
        }
        given(writer, misp::CHANNEL, 1, it.channel).finish().len()
    });
}

fn request(chance: &mut Chance, out: &mut [u8], other: &mut [u8]) {
    let mut stock = Stock::new(chance);
    let (security, account, networks) = (stock.some(2, chance), stock.some(1, chance), stock.some(2, chance));
    let cut = |(from, to): (usize, usize)| &stock.bytes[from..to];
    let it = Request {
        s: chance.one_in(2),
        stamp: chance.next() << 8,
        security: cut(security),
        check: stock.sixteen(chance),
        account: cut(account),
        seed: stock.sixteen(chance),
        networks: cut(networks),
        local: number(1 << 32, chance),
    };
    let in_range =
        list(it.security, 2) && list(it.networks, 2) && name(it.account) && fits(it.local, 1 << 32);
    held(1, &MISP, mis::bare::write_request(&it, out), in_range, other, |room| {
        let writer = Writer::new(&MISP, misp::REQUEST, u8::from(it.s) << 7, room)
            .object(misp::STAMP, &it.stamp.to_be_bytes())
            .object(misp::SECURITY_TYPES, it.security)
            .object(misp::CHECK_VALUE, &it.check)
            .object(misp::ACCOUNT, it.account)
            .object(misp::KEY_DELIVERY, &it.seed)
            .object(misp::NETWORKS, it.networks);
        given(writer, misp::LOCAL, 4, it.local).finish().len()
    });
}

fn success(chance: &mut Chance, out: &mut [u8], other: &mut [u8]) {
    let mut stock = Stock::new(chance);
    let (from, to) = stock.some(2, chance);
    let it = Success {
        s: chance.one_in(2),
        stamp: chance.next() << 8,
        lifetime: chance.next() as u16,
        check: stock.sixteen(chance),
        networks: &stock.bytes[from..to],
        local: number(1 << 32, chance),
        remote: number(1 << 32, chance),
    };
    let in_range = list(it.networks, 2) && fits(it.local, 1 << 32) && fits(it.remote, 1 << 32);
    held(2, &MISP, mis::bare::write_success(&it, out), in_range, other, |room| {
        let writer = Writer::new(&MISP, misp::SUCCESS, u8::from(it.s) << 7, room)
            .object(misp::STAMP, &it.stamp.to_be_bytes())
            .object(misp::LIFETIME, &it.lifetime.to_be_bytes())
            .object(misp::CHECK_VALUE, &it.check)
            .object(misp::NETWORKS, it.networks);
        given(given(writer, misp::LOCAL, 4, it.local), misp::REMOTE, 4, it.remote).finish().len()
    });
}

fn failure(chance: &mut Chance, out: &mut [u8], other: &mut [u8]) {
    let it = Failure { stamp: chance.next() << 8, reason: chance.next() as u16 };
    held(3, &MISP, mis::bare::write_failure(it, out), true, other, |room| {
        misp::write_failure(it.stamp, it.reason, room)
    });
}

fn terminating(chance: &mut Chance, out: &mut [u8], other: &mut [u8]) {
    let it = Terminating {
        s: chance.one_in(2),
        stamp: chance.next() << 8,
        check: Stock::new(chance).sixteen(chance),
        reason: number(1 << 16, chance),
    };
    held(4, &MISP, mis::bare::write_terminating(&it, out), fits(it.reason, 1 << 16), other, |room| {
        let writer = Writer::new(&MISP, misp::TERMINATING, u8::from(it.s) << 7, room)
            .object(misp::STAMP, &it.stamp.to_be_bytes())
            .object(misp::CHECK_VALUE, &it.check);
        given(writer, misp::REASON, 2, it.reason).finish().len()
    });
}

/// Writes a run's objects one by one.
fn repeated<'a>(mut writer: Writer<'a>, mut run: &[u8]) -> Writer<'a> {
    while let [of_type, length, ..] = run {
        writer = writer.object(*of_type, &run[2..usize::from(*length)]);
        run = &run[usize::from(*length)..];
    }
    writer
}

fn access_request(chance: &mut Chance, out: &mut [u8], other: &mut [u8]) {
    let mut stock = Stock::new(chance);
    let (account, groups) = (stock.some(1, chance), stock.some(4, chance));
    let (mut proxies, mut sixes) = ([0; 4200], [0; 4200]);
    let (many, whole) = run(misauth::PROXY, &mut proxies, chance);
    let (more, sound) = run(misauth::ROUTER_IPV6, &mut sixes, chance);
    let (proxies, sixes) = (&proxies[..many], &sixes[..more]);
    let cut = |(from, to): (usize, usize)| &stock.bytes[from..to];
    let mut position = [0; 12];
    chance.fill(&mut position);
    let it = AccessFields {
        identifier: chance.next() as u8,
        account: cut(account),
        data: stock.sixteen(chance),
        check: stock.sixteen(chance),
        seed: stock.sixteen(chance),
        security: chance.next() as u16,
        position,
        router: number(1 << 32, chance),
        groups: chance.one_in(2).then_some(cut(groups)),
    };
    let in_range = whole
        && sound
        && name(it.account)
        && fits(it.router, 1 << 32)
        && it.groups.map_or(true, |groups| list(groups, 4));
    held(5, &MISAUTH, mis::bare::write_access_request(&it, proxies, sixes, out), in_range, other, |room| {
        let writer = Writer::new(&MISAUTH, misauth::REQUEST, it.identifier, room)
            .object(misauth::NAME, it.account)
            .object(misauth::DATA, &it.data)
            .object(misauth::HASH, &it.check)
            .object(misauth::SEED, &it.seed)
            .object(misauth::SECURITY_TYPE, &it.security.to_be_bytes())
            .object(misauth::POSITION, &it.position);
        let writer = given(writer, misauth::ROUTER_IPV4, 4, it.router);
        let writer = repeated(repeated(writer, proxies), sixes);
        match it.groups {
            Some(groups) => writer.object(misauth::GROUPS, groups),
            None => writer,
        }
        .finish()
        .len()
    });
}

/// An accept, the seventh kind, or a reject.
fn reply(kind: usize, chance: &mut Chance, out: &mut [u8], other: &mut [u8]) {
    let stock = Stock::new(chance);
    let mut proxies = [0; 4200];
    let (many, whole) = run(misauth::PROXY, &mut proxies, chance);
    let (identifier, proxies) = (chance.next() as u8, &proxies[..many]);
    let (key, check) = (stock.sixteen(chance), stock.sixteen(chance));
    let found = match kind {
        6 => mis::bare::write_accept(identifier, &key, &check, proxies, out),
        _ => mis::bare::write_reject(identifier, proxies, out),
    };
    held(kind, &MISAUTH, found, whole, other, |room| {
        let writer = match kind {
            6 => Writer::new(&MISAUTH, misauth::ACCEPT, identifier, room)
                .object(misauth::KEY, &key)
                .object(misauth::HASH, &check),
            _ => Writer::new(&MISAUTH, misauth::REJECT, identifier, room),
        };
        repeated(writer, proxies).finish().len()
    });
}
