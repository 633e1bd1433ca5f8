//! The node's steps (the paper, 'Steps').

use crate::bytes::{text, Address, Text};
use crate::check;
use crate::md5::Digest;
use crate::message::Message;
use crate::misp::{self, Request, Seal, MISP};
use crate::refusal::Refusal;
use crate::step::{advance, holds, room, sixteen_bits, ticks, Sent};

/// The settings as given, each number in 64 bits.
pub struct Wanted<'a> {
    pub ticks: u64,
    pub patience: u64,
    pub password: &'a [u8],
    pub account: &'a [u8],
    pub security_type: u64,
    pub network: u64,
    pub address: Address,
    pub router: Address,
}

struct Settings {
    /// Ticks per lifetime unit.
    ticks: u64,
    patience: u64,
    password: Text,
    account: Text,
    security_type: u16,
    network: u16,
    address: Address,
    router: Address,
}

impl Settings {
    fn new(wanted: &Wanted) -> Result<Self, Refusal> {
        let security_type = sixteen_bits(wanted.security_type)?;
        holds(misp::BUILT.contains(&security_type), Refusal::Setting)?;
        Ok(Settings {
            ticks: ticks(wanted.ticks)?,
            patience: ticks(wanted.patience)?,
            password: text(wanted.password).ok_or(Refusal::Setting)?,
            account: text(wanted.account).ok_or(Refusal::Setting)?,
            security_type,
            network: sixteen_bits(wanted.network)?,
            address: wanted.address,
            router: wanted.router,
        })
    }
}

/// A request that was sent: its stamp, and the session key that its seed gives.
#[derive(Clone, Copy)]
pub struct Waiting {
    pub stamp: u64,
    pub key: Digest,
}

#[derive(Clone, Copy)]
pub struct Session {
    pub stamp: u64,
    pub key: Digest,
    pub since: u64,
    pub lifetime: u16,
}

pub struct Node {
    settings: Settings,
    pub clock: u64,
    /// The highest stamp used; a fresh node has used none.
    pub used: Option<u64>,
    pub waiting: Option<Waiting>,
    pub session: Option<Session>,
}

impl Node {
    pub fn setup(wanted: &Wanted) -> Result<Self, Refusal> {
        let settings = Settings::new(wanted)?;
        Ok(Node { settings, clock: 0, used: None, waiting: None, session: None })
    }

    /// A beacon: the node answers with a request.
    pub fn hear(&mut self, now: u64, seed: &Digest, given: &[u8], out: &mut [u8]) -> Result<Sent, Refusal> {
        room(out, MISP.most)?;
        self.begin(now)?;
        let beacon = MISP.read(&[misp::BEACON], given)?;
        self.judge(&beacon)?;
        let stamp = beacon.stamp();
        let Settings { security_type, network, router, .. } = self.settings;
        let (account, password) = (self.settings.account.bytes(), self.settings.password.bytes());
        let request = Request { stamp, security_type, account, seed, network };
        let seal = Seal { key: password, sender: &self.settings.address, receiver: &router };
        let length = misp::write_request(&request, &seal, out);
        self.waiting = Some(Waiting { stamp, key: check::session_key(password, seed) });
        self.used = Some(stamp);
        Ok(Sent::to(router, length))
    }

    /// 21, 13, 9 and 10, in this order.
    fn judge(&self, beacon: &Message) -> Result<(), Refusal> {
        let stamp = beacon.stamp();
        holds(self.session.is_none() && !self.patient(stamp), Refusal::NotExpected)?;
        holds(self.used.map_or(true, |used| stamp > used), Refusal::StampNotAbove)?;
        holds(beacon.lists(misp::SECURITY_TYPES, self.settings.security_type), Refusal::SecurityType)?;
        holds(beacon.lists(misp::NETWORKS, self.settings.network), Refusal::Network)
    }

    /// Whether the node waits, and the stamp is not more than P above its own.
    fn patient(&self, stamp: u64) -> bool {
        let patience = self.settings.patience;
        self.waiting.map_or(false, |waiting| stamp.saturating_sub(waiting.stamp) <= patience)
    }

    /// A success: it opens. One with refusal 5 ends waiting.
    pub fn success(&mut self, now: u64, given: &[u8]) -> Result<Sent, Refusal> {
        self.begin(now)?;
        let read = MISP.read(&[misp::SUCCESS], given);
        if matches!(read, Err(Refusal::MandatoryMissing)) {
            self.waiting = None;
        }
        let success = read?;
        holds(!success.s(), Refusal::SIsOne)?;
        let Waiting { stamp, key } = self.waiting_on(&success)?;
        holds(self.seal_from_router(&key).fits(&success), Refusal::CheckValue)?;
        let lifetime = success.number(misp::LIFETIME) as u16;
        self.session = Some(Session { stamp, key, since: now, lifetime });
        self.waiting = None;
        Ok(Sent::NOTHING)
    }

    /// A failure: it ends waiting.
    pub fn failure(&mut self, now: u64, given: &[u8]) -> Result<Sent, Refusal> {
        self.begin(now)?;
        let failure = MISP.read(&[misp::FAILURE], given)?;
        self.waiting_on(&failure)?;
        self.waiting = None;
        Ok(Sent::NOTHING)
    }

    fn waiting_on(&self, message: &Message) -> Result<Waiting, Refusal> {
        let waiting = self.waiting.filter(|waiting| waiting.stamp == message.stamp());
        waiting.ok_or(Refusal::NotExpected)
    }

    fn seal_from_router<'a>(&'a self, key: &'a Digest) -> Seal<'a> {
        Seal { key, sender: &self.settings.router, receiver: &self.settings.address }
    }

    /// Writes a terminating message and closes the session.
    pub fn leave(&mut self, now: u64, out: &mut [u8]) -> Result<Sent, Refusal> {
        room(out, MISP.most)?;
        self.begin(now)?;
        let Session { stamp, key, .. } = self.session.ok_or(Refusal::NotExpected)?;
        let Settings { address, router, .. } = self.settings;
        let seal = Seal { key: &key, sender: &address, receiver: &router };
        let length = misp::write_terminating(stamp, &seal, out);
        self.session = None;
        Ok(Sent::to(router, length))
    }

    /// A terminating message from the router.
    pub fn left(&mut self, now: u64, given: &[u8]) -> Result<Sent, Refusal> {
        self.begin(now)?;
        let message = MISP.read(&[misp::TERMINATING], given)?;
        holds(!message.s(), Refusal::SIsOne)?;
        let Session { stamp, key, .. } = self.session.ok_or(Refusal::NotExpected)?;
        holds(message.stamp() == stamp, Refusal::NotExpected)?;
        holds(self.seal_from_router(&key).fits(&message), Refusal::CheckValue)?;
        self.session = None;
        Ok(Sent::NOTHING)
    }

    /// Refusal 7; past it the clock is stored and a session that has lapsed goes.
    fn begin(&mut self, now: u64) -> Result<(), Refusal> {
        advance(&mut self.clock, now)?;
        let ticks = self.settings.ticks;
        let open =
            |session: &Session| now.saturating_sub(session.since) <= u64::from(session.lifetime) * ticks;
        self.session = self.session.filter(open);
        Ok(())
    }
}
