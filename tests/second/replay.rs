//! The parties of a script, and the answer to each of its lines.

use crate::message::Message;
use crate::misauth::{self, MISAUTH};
use crate::misp::{self, MISP};
use crate::node::{self, Node};
use crate::refusal::Refusal;
use crate::router::{self, Place, Router};
use crate::script::{hex, Words};
use crate::server::{self, Lent};
use crate::step::{Answer, Sent};

/// Output buffers have so many bytes at the start, and never more.
const MOST_ROOM: usize = 4096;

const NODES: usize = 8;

/// A call at a node that takes a message and writes nothing.
type Takes = fn(&mut Node, u64, &[u8]) -> Result<Sent, Refusal>;

/// One router, one server with two books, eight nodes: each absent at the start.
pub struct Replay {
    router: Option<Router>,
    nodes: [Option<Node>; NODES],
    books: Option<(Vec<u8>, Vec<u8>)>,
    room: usize,
    out: [u8; MOST_ROOM],
}

impl Replay {
    pub fn new() -> Self {
        let nodes = [(); NODES].map(|()| None);
        Replay { router: None, nodes, books: None, room: MOST_ROOM, out: [0; MOST_ROOM] }
    }

    /// The lines that a line prints, each with its end.
    pub fn answer(&mut self, line: &[u8]) -> String {
        if line.is_empty() || line.starts_with(b"#") {
            return String::new();
        }
        self.call(line).unwrap_or_else(|| "error\n".to_string())
    }

    /// Nothing where the line cannot be read or names a party that is absent.
    fn call(&mut self, line: &[u8]) -> Option<String> {
        let mut words = Words::new(line);
        match words.word()? {
            b"router" => self.setup_router(words),
            b"node" => self.setup_node(words),
            b"books" => self.lend_books(words),
            b"room" => self.set_room(words),
            b"beacon" => self.beacon(words),
            b"request" => self.request(words),
            b"reply" => self.reply(words),
            b"close" => self.close(words),
            b"closed" => self.closed(words),
            b"taken" => self.taken(words),
            b"places" => self.places(words),
            b"hear" => self.hear(words),
            b"success" => self.node_takes(words, Node::success),
            b"failure" => self.node_takes(words, Node::failure),
            b"left" => self.node_takes(words, Node::left),
            b"leave" => self.leave(words),
            b"state" => self.state(words),
            b"login" => self.login(words),
            b"read" => read(words),
            b"readauth" => readauth(words),
            _ => None,
        }
    }

    fn setup_router(&mut self, mut words: Words) -> Option<String> {
        let (window, ticks) = (words.number()?, words.number()?);
        let (lifetime, network) = (words.number()?, words.number()?);
        let address = words.fixed()?;
        // The router's own IPv4 address stands in no message that a step writes.
        let _ipv4: [u8; 4] = words.fixed()?;
        let secret = &words.bytes()?;
        let (position, interval) = (words.fixed()?, words.number()?);
        let groups = &words.bytes().filter(|groups| groups.len() % 4 == 0)?;
        words.end()?;
        let wanted =
            router::Wanted { window, ticks, lifetime, network, address, secret, position, interval, groups };
        Some(kept(Router::setup(&wanted), &mut self.router))
    }

    fn setup_node(&mut self, mut words: Words) -> Option<String> {
        let number = words.number_to(NODES - 1)?;
        let (ticks, patience) = (words.number()?, words.number()?);
        let (password, account) = (&words.bytes()?, &words.bytes()?);
        let (security_type, network) = (words.number()?, words.number()?);
        let (address, router) = (words.fixed()?, words.fixed()?);
        words.end()?;
        let wanted =
            node::Wanted { ticks, patience, password, account, security_type, network, address, router };
        Some(kept(Node::setup(&wanted), &mut self.nodes[number]))
    }

    fn lend_books(&mut self, mut words: Words) -> Option<String> {
        let books = (words.bytes()?, words.bytes()?);
        words.end()?;
        self.books = Some(books);
        Some(done())
    }

    fn set_room(&mut self, mut words: Words) -> Option<String> {
        let room = words.number_to(MOST_ROOM)?;
        words.end()?;
        self.room = room;
        Some(done())
    }

    fn beacon(&mut self, mut words: Words) -> Option<String> {
        let (now, serial) = (words.number()?, words.number_to(usize::from(u16::MAX))?);
        words.end()?;
        let out = &mut self.out[..self.room];
        let answer = self.router.as_mut()?.beacon(now, serial as u16, out);
        Some(printed(answer, out))
    }

    fn request(&mut self, mut words: Words) -> Option<String> {
        let (now, from, message) = (words.number()?, words.fixed()?, words.bytes()?);
        words.end()?;
        let out = &mut self.out[..self.room];
        let answer = self.router.as_mut()?.request(now, from, &message, out);
        Some(printed(answer, out))
    }

    fn reply(&mut self, mut words: Words) -> Option<String> {
        let (now, message) = (words.number()?, words.bytes()?);
        words.end()?;
        let out = &mut self.out[..self.room];
        let answer = self.router.as_mut()?.reply(now, &message, out);
        Some(printed(answer, out))
    }

    fn close(&mut self, mut words: Words) -> Option<String> {
        let (now, to) = (words.number()?, words.fixed()?);
        words.end()?;
        let out = &mut self.out[..self.room];
        let answer = self.router.as_mut()?.close(now, to, out);
        Some(printed(answer, out))
    }

    fn closed(&mut self, mut words: Words) -> Option<String> {
        let (now, from, message) = (words.number()?, words.fixed()?, words.bytes()?);
        words.end()?;
        let answer = self.router.as_mut()?.closed(now, from, &message);
        Some(printed(answer, &self.out))
    }

    fn taken(&self, mut words: Words) -> Option<String> {
        words.end()?;
        let (word, count) = self.router.as_ref()?.taken();
        Some(format!("{word} {count}\n"))
    }

    fn places(&self, mut words: Words) -> Option<String> {
        words.end()?;
        Some(self.router.as_ref()?.places().map(|(number, place)| place_line(number, place)).collect())
    }

    /// The node that the next word names.
    fn node(&mut self, words: &mut Words) -> Option<&mut Node> {
        let number = words.number_to(NODES - 1)?;
        self.nodes[number].as_mut()
    }

    fn hear(&mut self, mut words: Words) -> Option<String> {
        let number = words.number_to(NODES - 1)?;
        let (now, seed, message) = (words.number()?, words.fixed()?, words.bytes()?);
        words.end()?;
        let out = &mut self.out[..self.room];
        let answer = self.nodes[number].as_mut()?.hear(now, &seed, &message, out);
        Some(printed(answer, out))
    }

    /// A success, a failure or a terminating message at a node.
    fn node_takes(&mut self, mut words: Words, call: Takes) -> Option<String> {
        let node = self.node(&mut words)?;
        let (now, message) = (words.number()?, words.bytes()?);
        words.end()?;
        let answer = call(node, now, &message);
        Some(printed(answer, &self.out))
    }

    fn leave(&mut self, mut words: Words) -> Option<String> {
        let (number, now) = (words.number_to(NODES - 1)?, words.number()?);
        words.end()?;
        let out = &mut self.out[..self.room];
        let answer = self.nodes[number].as_mut()?.leave(now, out);
        Some(printed(answer, out))
    }

    fn state(&mut self, mut words: Words) -> Option<String> {
        let node = self.node(&mut words)?;
        words.end()?;
        Some(state_line(node))
    }

    fn login(&mut self, mut words: Words) -> Option<String> {
        let (ipv4, message) = (words.fixed()?, words.bytes()?);
        words.end()?;
        let (mill, visitors) = self.books.as_ref()?;
        let out = &mut self.out[..self.room];
        let answer = server::login(&Lent { mill, visitors }, &ipv4, &message, out);
        Some(printed(answer, out))
    }
}

fn read(mut words: Words) -> Option<String> {
    let message = words.bytes()?;
    words.end()?;
    let read = MISP.read(&misp::CODES, &message);
    Some(fields_line(read, |message| u8::from(message.s())))
}

fn readauth(mut words: Words) -> Option<String> {
    let message = words.bytes()?;
    words.end()?;
    let read = MISAUTH.read(&misauth::CODES, &message);
    Some(fields_line(read, |message| message.header.second()))
}

/// A party takes its predecessor's place only where its setup is not refused.
fn kept<Party>(setup: Result<Party, Refusal>, party: &mut Option<Party>) -> String {
    let outcome = setup.map(|made| {
        *party = Some(made);
        Sent::NOTHING
    });
    printed(outcome, &[])
}

fn done() -> String {
    printed(Answer::done(Sent::NOTHING), &[])
}

/// The refusal number or 0, the bytes written, the address they go to.
fn printed(answer: impl Into<Answer>, out: &[u8]) -> String {
    let answer = answer.into();
    let number = answer.refusal.map_or(0, Refusal::number);
    let to = answer.sent.to.map_or("-".to_string(), |address| hex(&address));
    format!("{number} {} {to}\n", hex(&out[..answer.sent.length]))
}

/// Code, S or Identifier, and the fields; or the refusal number alone.
fn fields_line(read: Result<Message, Refusal>, second: fn(&Message) -> u8) -> String {
    let message = match read {
        Ok(message) => message,
        Err(refusal) => return format!("{}\n", refusal.number()),
    };
    let fields: String = message.fields().map(|it| format!(" {}={}", it.of_type, hex(it.value))).collect();
    format!("0 {} {}{fields}\n", message.header.code(), second(&message))
}

fn place_line(number: usize, place: &Place) -> String {
    let attempt = place.attempt.map(|it| format!("{} {}", it.stamp, hex(&it.check_value)));
    let session = place.session.map(|it| {
        let (check_value, key) = (hex(&it.check_value), hex(&it.key));
        format!("{} {check_value} {key} {}", it.stamp, it.since)
    });
    let (attempt, session) = (or_none(attempt), or_none(session));
    format!("{number} {} {} {attempt} {session}\n", hex(&place.address), place.last)
}

fn state_line(node: &Node) -> String {
    let used = or_none(node.used.map(|stamp| stamp.to_string()));
    let waiting = or_none(node.waiting.map(|waiting| waiting.stamp.to_string()));
    let session =
        node.session.map(|it| format!("{} {} {} {}", it.stamp, hex(&it.key), it.since, it.lifetime));
    format!("{} {used} {waiting} {}\n", node.clock, or_none(session))
}

fn or_none(text: Option<String>) -> String {
    text.unwrap_or_else(|| "-".to_string())
}
