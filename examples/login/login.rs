//! One login of a gauge through router and server over the boundary, then a terminating message. Each step prints its number, to whom the
//! message goes and its bytes. Here the parties stand in one program and hand each other the bytes; in a mill radio and network do.
//!
//! It needs `core` alone: native.rs is a program around it with the standard library, bare.rs one without.

use core::fmt::{Result, Write};
use mis::{Node, NodeSettings, Outcome, Refusal, Router, RouterSettings, To};

const ROUTER: mis::Address = [2, 0, 0, 0, 0, 1];
const GAUGE: mis::Address = [2, 0, 0, 0, 0, 9];
const IPV4: [u8; 4] = [10, 0, 0, 1];
const POSITION: [u8; 12] = [0, 0x3d, 0x80, 0, 0, 0x17, 0x80, 0, 0, 12, 0, 4];
const SECRET: &[u8] = b"hall three";
const PASSWORD: &[u8] = b"reel seven";
const ACCOUNT: &[u8] = b"gauge-9@mill";

/// Everywhere but in an example the seed comes from a good random source, fresh for each call.
const SEED: mis::Digest = [0, 1, 2, 3, 4, 5, 6, 7, 8, 9, 10, 11, 12, 13, 14, 15];

/// The mill's book: one router with its secret, one account with its password.
const MILL: &[u8] = b"\0\x01\x0a\0\0\x01\x0ahall three\0\x01\x0cgauge-9@mill\x0areel seven";

/// No router and no account.
const VISITORS: &[u8] = &[0; 4];

/// The most that a state may have here: the example lends states from the stack.
const ROOM: usize = 16_384;

/// The message under way.
struct Message {
    bytes: [u8; mis::OUT_LOGIN],
    length: usize,
}

impl Message {
    fn bytes(&self) -> &[u8] {
        &self.bytes[..self.length]
    }
}

fn number(result: core::result::Result<(), Refusal>) -> u8 {
    result.map_or_else(Refusal::number, |()| 0)
}

fn hex(print: &mut dyn Write, bytes: &[u8]) -> Result {
    bytes.iter().try_for_each(|byte| write!(print, "{byte:02x}"))
}

/// Prints a step; what it wrote, if anything, is the message of the next.
fn step(print: &mut dyn Write, message: &mut Message, what: &str, outcome: Outcome) -> Result {
    write!(print, "{what}: {}", number(outcome.result))?;
    if !outcome.sent.is_empty() {
        message.length = outcome.sent.len();
        message.bytes[..message.length].copy_from_slice(outcome.sent);
        write!(print, ", to ")?;
        match outcome.to {
            To::Everyone => write!(print, "everyone")?,
            To::Server => write!(print, "the server")?,
            To::Address(address) => hex(print, &address)?,
            To::Nobody => write!(print, "where the request came from")?,
        }
        write!(print, ": ")?;
        hex(print, message.bytes())?;
    }
    writeln!(print)
}

/// The router of the hall and the gauge on its crane.
struct Parties<'s> {
    router: Router<'s>,
    gauge: Node<'s>,
}

fn set_up<'s>(
    router: &'s mut [u8; ROOM],
    gauge: &'s mut [u8; ROOM],
) -> core::result::Result<Parties<'s>, Refusal> {
    let state = router.get_mut(..Router::size()).ok_or(Refusal::Misuse)?;
    let settings = RouterSettings {
        window: 100,
        unit: 10,
        lifetime: 60,
        network: 4,
        address: ROUTER,
        ipv4: IPV4,
        secret: SECRET,
        position: POSITION,
        interval: 20,
        groups: &[0, 0, 0, 1],
    };
    let router = Router::set_up(state, &settings)?;
    let state = gauge.get_mut(..Node::size()).ok_or(Refusal::Misuse)?;
    let settings = NodeSettings {
        unit: 10,
        patience: 50,
        password: PASSWORD,
        account: ACCOUNT,
        kind: 2,
        network: 4,
        address: GAUGE,
        router: ROUTER,
    };
    Ok(Parties { router, gauge: Node::set_up(state, &settings)? })
}

/// Opens a session: beacon, request, access request, accept, success. Then the gauge leaves.
fn steps(print: &mut dyn Write, parties: Parties) -> Result {
    let Parties { mut router, mut gauge } = parties;
    let mut out = [0; mis::OUT_LOGIN];
    let mut message = Message { bytes: [0; mis::OUT_LOGIN], length: 0 };
    step(print, &mut message, "beacon from the router", router.beacon(1000, 1, &mut out))?;
    let outcome = gauge.hear(1001, &SEED, message.bytes(), &mut out);
    step(print, &mut message, "request from the gauge", outcome)?;
    let outcome = router.request(1002, &GAUGE, message.bytes(), &mut out);
    step(print, &mut message, "access request from the router", outcome)?;
    let outcome = mis::login(MILL, VISITORS, &IPV4, message.bytes(), &mut out);
    step(print, &mut message, "accept from the server", outcome)?;
    let outcome = router.reply(1003, message.bytes(), &mut out);
    step(print, &mut message, "success from the router", outcome)?;
    writeln!(print, "the gauge opens: {}", number(gauge.success(1004, message.bytes())))?;
    writeln!(print, "places taken: {}, in number {}", router.taken(), router.count())?;
    step(print, &mut message, "terminating message from the gauge", gauge.leave(1005, &mut out))?;
    writeln!(print, "the router closes: {}", number(router.closed(1006, &GAUGE, message.bytes())))?;
    writeln!(print, "the same once more: {}", number(router.closed(1007, &GAUGE, message.bytes())))
}

pub fn login(print: &mut dyn Write) -> Result {
    let (mut router, mut gauge) = ([0; ROOM], [0; ROOM]);
    writeln!(print, "the mill's book is whole: {}", u8::from(mis::book_whole(MILL)))?;
    match set_up(&mut router, &mut gauge) {
        Ok(parties) => {
            writeln!(print, "the router is set up: 0")?;
            writeln!(print, "the gauge is set up: 0")?;
            steps(print, parties)
        }
        Err(refusal) => {
            writeln!(print, "not set up: {refusal}")?;
            Err(core::fmt::Error)
        }
    }
}
