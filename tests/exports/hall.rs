//! A hall on either side: one router, eight nodes, one server. Each call is made on both, and number, receiver and bytes must be the same.

use crate::bare::{codes, readers};
use crate::book::Book;
use crate::chance::Chance;
use crate::failed;
use crate::node::{self, Node};
use crate::router::{self, Router};
use crate::same::{number, same, Message, Openly};
use crate::server::{self, Lent};
use crate::wrappers::{node_settings, ROUTER};
use crate::writers;
use core::cell::UnsafeCell;

const NODES: usize = 8;
const ROOM: usize = 8192;
const KEPT: usize = 16;

/// The accounts of the nodes; the last is in no book, and the one before it has another password there.
const ACCOUNTS: [&[u8]; NODES] = [b"a", b"b@mill", b"crane three", b"d", b"e", b"visitor", b"g", b"stranger"];

/// Two routers and the first accounts; then the visitors' book.
const MILL: &[u8] = b"\0\x02\x0a\0\0\x01\x0ahall three\x0a\0\0\x02\x05other\
    \0\x06\x01a\x0areel seven\x06b@mill\x0areel seven\x0bcrane three\x0areel seven\
    \x01d\x0areel seven\x01e\x0areel seven\x01g\x05wrong";
const VISITORS: &[u8] = b"\0\0\0\x02\x07visitor\x0areel seven\x01g\x0areel seven";

#[derive(Clone, Copy)]
enum Call {
    Beacon,
    Hear,
    Request,
    Login,
    Reply,
    Success,
    Failure,
    Close,
    Closed,
    Leave,
    Left,
    Codes,
    Readers,
}

use Call::*;

const CALLS: [Call; 13] =
    [Beacon, Hear, Request, Login, Reply, Success, Failure, Close, Closed, Leave, Left, Codes, Readers];

/// What is too large for a stack.
struct Buffers {
    router: [u8; ROOM],
    nodes: [[u8; ROOM]; NODES],
    kept: [Message; KEPT],
    out: [u8; mis::OUT_LOGIN],
    other: [u8; mis::OUT_LOGIN],
    book: [u8; 512],
}

struct Shared(UnsafeCell<Buffers>);

// The program has one thread.
unsafe impl Sync for Shared {}

static BUFFERS: Shared = Shared(UnsafeCell::new(Buffers {
    router: [0; ROOM],
    nodes: [[0; ROOM]; NODES],
    kept: [Message::NONE; KEPT],
    out: [0; mis::OUT_LOGIN],
    other: [0; mis::OUT_LOGIN],
    book: [0; 512],
}));

/// What a call is made with.
struct Turn<'a> {
    now: u64,
    node: usize,
    message: &'a [u8],
    out: &'a mut [u8],
    other: &'a mut [u8],
}

impl Turn<'_> {
    fn address(&self) -> mis::Address {
        node_settings(self.node as u8, ACCOUNTS[self.node]).address
    }
}

/// Makes so many calls, a new hall for every 4,000, and hands back how many were made.
pub fn compared(count: usize) -> usize {
    const CALLS: usize = 4000;
    let buffers = unsafe { &mut *BUFFERS.0.get() };
    if mis::Router::size() > ROOM || mis::Node::size() > ROOM {
        failed(format_args!("the states are larger than this test thinks"));
    }
    let mut chance = Chance(0x9e37_79b9_7f4a_7c15);
    let mut made = 0;
    while made < count {
        if one_hall(buffers, &mut chance, CALLS).is_none() {
            failed(format_args!("no hall was set up"));
        }
        made += CALLS;
    }
    made
}

/// Sets both sides up anew and makes so many calls.
fn one_hall(buffers: &mut Buffers, chance: &mut Chance, calls: usize) -> Option<()> {
    let Buffers { router, nodes, kept, out, other, book } = buffers;
    let mut router = mis::Router::set_up(&mut router[..mis::Router::size()], &ROUTER).ok()?;
    let mut second = second_router()?;
    let mut second_nodes: [Option<Node>; NODES] = Default::default();
    for (number, node) in second_nodes.iter_mut().enumerate() {
        let settings = node_settings(number as u8, ACCOUNTS[number]);
        mis::Node::set_up(&mut nodes[number][..mis::Node::size()], &settings).ok()?;
        *node = second_node(&settings);
    }
    let (mut clock, mut next) = (1000, 0);
    for _ in 0..calls {
        clock += [0, 0, 1, 1, 2, 5, 40, 900][chance.below(8)];
        let given = chosen(kept, next, chance);
        let message = &given.bytes[..given.length];
        let call = if chance.one_in(3) { CALLS[chance.below(CALLS.len())] } else { fitting(message, chance) };
        let room = if chance.one_in(50) { [0, 1499, 1500, 4095][chance.below(4)] } else { mis::OUT_LOGIN };
        let (out, other) = (&mut out[..room], &mut other[..room]);
        let now = if chance.one_in(60) { clock - 1 } else { clock };
        // Mostly the node that the message is about; a beacon is for all.
        let node = if chance.one_in(8) || given.bytes[0] == 1 { chance.below(NODES) } else { given.node };
        let turn = Turn { now, node, message, out, other };
        let written = match call {
            Beacon | Request | Reply | Close | Closed => at_router(call, &mut router, &mut second, turn),
            Login => at_server(book, chance, turn),
            Codes => at_no_party(chance, turn),
            Readers => readers(message),
            _ => {
                let mut wrapped = mis::Node::resume(&mut nodes[node][..mis::Node::size()]).ok()?;
                at_node(call, &mut wrapped, second_nodes[node].as_mut()?, chance, turn)
            }
        };
        if (router.taken(), router.count()) != second.taken() {
            failed(format_args!("the taken places differ"));
        }
        if let Some(message) = written {
            let node = if matches!(call, Login | Reply) { given.node } else { node };
            kept[next] = Message { node, ..message };
            next = (next + 1) % KEPT;
        }
    }
    Some(())
}

/// The last message mostly, or one of the last sixteen; one in four is damaged.
fn chosen(kept: &[Message; KEPT], next: usize, chance: &mut Chance) -> Message {
    let at = if chance.one_in(4) { chance.below(KEPT) } else { (next + KEPT - 1) % KEPT };
    let mut given = kept[at];
    if chance.one_in(4) {
        given.length = chance.damage(&mut given.bytes, given.length);
    }
    given
}

/// A call that takes a message of this code.
fn fitting(message: &[u8], chance: &mut Chance) -> Call {
    let radio = message.get(4) == Some(&2) && message.get(5) == Some(&10);
    match message.first() {
        Some(1) if radio => Hear,
        Some(3) if radio => Request,
        Some(4) => [Success, Success, Success, Success, Leave, Close][chance.below(6)],
        Some(8) => Failure,
        Some(9) => [Closed, Left][chance.below(2)],
        Some(1) => Login,
        Some(2) | Some(3) => Reply,
        _ => Beacon,
    }
}

fn at_router(call: Call, router: &mut mis::Router, second: &mut Router, turn: Turn) -> Option<Message> {
    let (address, Turn { now, message, out, other, .. }) = (turn.address(), turn);
    match call {
        Beacon => {
            let answer = second.beacon(now, 7, other).into();
            same("beacon", router.beacon(now, 7, out), answer, other, Openly::Everyone)
        }
        Request => {
            let answer = second.request(now, address, message, other);
            same("request", router.request(now, &address, message, out), answer, other, Openly::Server)
        }
        Reply => {
            let answer = second.reply(now, message, other).into();
            same("reply", router.reply(now, message, out), answer, other, Openly::Nobody)
        }
        Close => {
            let answer = second.close(now, address, other).into();
            same("close", router.close(now, &address, out), answer, other, Openly::Nobody)
        }
        _ => {
            let expected = second.closed(now, address, message).err();
            number("closed", router.closed(now, &address, message), expected)
        }
    }
}

fn at_node(
    call: Call,
    node: &mut mis::Node,
    second: &mut Node,
    chance: &mut Chance,
    turn: Turn,
) -> Option<Message> {
    let Turn { now, message, out, other, .. } = turn;
    match call {
        Hear => {
            let mut seed = [0; 16];
            chance.fill(&mut seed);
            let answer = second.hear(now, &seed, message, other).into();
            same("hear", node.hear(now, &seed, message, out), answer, other, Openly::Nobody)
        }
        Leave => {
            let answer = second.leave(now, other).into();
            same("leave", node.leave(now, out), answer, other, Openly::Nobody)
        }
        Success => number("success", node.success(now, message), second.success(now, message).err()),
        Failure => number("failure", node.failure(now, message), second.failure(now, message).err()),
        _ => number("left", node.left(now, message), second.left(now, message).err()),
    }
}

/// A login from our router mostly, under a book that is mostly whole.
fn at_server(book: &mut [u8; 512], chance: &mut Chance, turn: Turn) -> Option<Message> {
    let source = if chance.one_in(20) { [10, 0, 0, 2 + chance.below(2) as u8] } else { [10, 0, 0, 1] };
    let mut mill = MILL;
    if chance.one_in(20) {
        book[..MILL.len()].copy_from_slice(MILL);
        let length = chance.damage(book, MILL.len());
        mill = &book[..length];
    }
    let whole = Book::open(mill).is_some();
    if mis::book_whole(mill) != whole {
        failed(format_args!("book_whole: the second program has {whole}"));
    }
    let Turn { message, out, other, .. } = turn;
    let answer = server::login(&Lent { mill, visitors: VISITORS }, &source, message, other).into();
    same("login", mis::login(mill, VISITORS, &source, message, out), answer, other, Openly::Nobody)
}

fn at_no_party(chance: &mut Chance, turn: Turn) -> Option<Message> {
    codes(turn.message, chance);
    writers::compared(chance, turn.out, turn.other);
    None
}

fn second_router() -> Option<Router> {
    let wanted = router::Wanted {
        window: ROUTER.window,
        ticks: ROUTER.unit,
        lifetime: ROUTER.lifetime,
        network: ROUTER.network,
        address: ROUTER.address,
        secret: ROUTER.secret,
        position: ROUTER.position,
        interval: ROUTER.interval,
        groups: ROUTER.groups,
    };
    Router::setup(&wanted).ok()
}

fn second_node(settings: &mis::NodeSettings) -> Option<Node> {
    let wanted = node::Wanted {
        ticks: settings.unit,
        patience: settings.patience,
        password: settings.password,
        account: settings.account,
        security_type: settings.kind,
        network: settings.network,
        address: settings.address,
        router: settings.router,
    };
    Node::setup(&wanted).ok()
}
