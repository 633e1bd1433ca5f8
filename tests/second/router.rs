//! The router's steps (the paper, 'Steps').

use crate::bytes::{text, Address, Kept, Text};
use crate::check;
use crate::md5::Digest;
use crate::message::Message;
use crate::misauth::{self, AccessRequest, MISAUTH};
use crate::misp::{self, Beacon, Seal, MISP};
use crate::refusal::Refusal;
use crate::step::{advance, holds, room, sixteen_bits, ticks, Answer, Sent};

pub const PLACES: usize = 64;

/// Most groups a router is in, of four bytes each.
const MOST_GROUPS: usize = 16 * 4;

/// Reasons of failures (000, 4.4.11; docs/DECISIONS.md, 5).
const NO_SERVER: u16 = 1;
const AUTHENTICATION_FAILED: u16 = 128;
const LACK_OF_ADDRESSES: u16 = 129;
const MESSAGE_FORMAT: u16 = 130;

/// The settings as given, each number in 64 bits.
pub struct Wanted<'a> {
    pub window: u64,
    pub ticks: u64,
    pub lifetime: u64,
    pub network: u64,
    pub address: Address,
    pub secret: &'a [u8],
    pub position: [u8; 12],
    pub interval: u64,
    pub groups: &'a [u8],
}

struct Settings {
    window: u64,
    /// Ticks per lifetime unit.
    ticks: u64,
    lifetime: u16,
    network: u16,
    address: Address,
    secret: Text,
    position: [u8; 12],
    interval: u16,
    groups: Kept<MOST_GROUPS>,
}

impl Settings {
    fn new(wanted: &Wanted) -> Result<Self, Refusal> {
        holds(wanted.lifetime > 0, Refusal::Setting)?;
        Ok(Settings {
            window: ticks(wanted.window)?,
            ticks: ticks(wanted.ticks)?,
            lifetime: sixteen_bits(wanted.lifetime)?,
            network: sixteen_bits(wanted.network)?,
            address: wanted.address,
            secret: text(wanted.secret).ok_or(Refusal::Setting)?,
            position: wanted.position,
            interval: sixteen_bits(wanted.interval)?,
            groups: Kept::new(wanted.groups).ok_or(Refusal::Setting)?,
        })
    }

    /// How long a session stays open: L x U.
    fn session_ticks(&self) -> u64 {
        u64::from(self.lifetime) * self.ticks
    }
}

/// A request that waits for the server.
#[derive(Clone, Copy)]
pub struct Attempt {
    pub stamp: u64,
    pub check_value: Digest,
}

#[derive(Clone, Copy)]
pub struct Session {
    pub stamp: u64,
    pub check_value: Digest,
    pub key: Digest,
    pub since: u64,
}

/// What the router keeps of one node address.
#[derive(Clone, Copy)]
pub struct Place {
    pub address: Address,
    pub last: u64,
    pub attempt: Option<Attempt>,
    pub session: Option<Session>,
}

impl Place {
    /// An attempt goes, then a session; then the place, unless it has a session or its last stamp is young.
    fn lapsed(mut self, now: u64, settings: &Settings) -> Option<Place> {
        let old = |stamp: u64| now.saturating_sub(stamp) > settings.window;
        let over = |since: u64| now.saturating_sub(since) > settings.session_ticks();
        self.attempt = self.attempt.filter(|attempt| !old(attempt.stamp));
        self.session = self.session.filter(|session| !over(session.since));
        (self.session.is_some() || !old(self.last)).then_some(self)
    }
}

/// How a request stands that is not refused: new at this place, waiting there, or the one of an open session.
enum Standing {
    New(usize),
    Waiting(usize),
    Open(Session),
}

pub struct Router {
    settings: Settings,
    clock: u64,
    places: [Option<Place>; PLACES],
}

impl Router {
    pub fn setup(wanted: &Wanted) -> Result<Self, Refusal> {
        let settings = Settings::new(wanted)?;
        Ok(Router { settings, clock: 0, places: [None; PLACES] })
    }

    /// The taken places as one word, place 0 lowest, and the number of ones.
    pub fn taken(&self) -> (u64, u32) {
        let word = self.places().fold(0, |word, (number, _)| word | 1 << number);
        (word, word.count_ones())
    }

    /// The taken places with their numbers.
    pub fn places(&self) -> impl Iterator<Item = (usize, &Place)> {
        let numbered = self.places.iter().enumerate();
        numbered.filter_map(|(number, place)| place.as_ref().map(|place| (number, place)))
    }

    pub fn beacon(&mut self, now: u64, serial: u16, out: &mut [u8]) -> Result<Sent, Refusal> {
        room(out, MISP.most)?;
        self.begin(now)?;
        let Settings { interval, network, .. } = self.settings;
        let groups = self.settings.groups.bytes();
        let beacon = Beacon { stamp: now, groups, serial, interval, network };
        Ok(Sent::openly(misp::write_beacon(&beacon, out)))
    }

    /// A request from a node. Refusals 9, 10, 12 and 14 send a failure.
    pub fn request(&mut self, now: u64, from: Address, given: &[u8], out: &mut [u8]) -> Answer {
        let request = match self.read_request(now, given, out) {
            Ok(request) => request,
            Err(refusal) => return Answer::refused(refusal),
        };
        match self.judge(&from, &request) {
            Ok(standing) => Answer::done(self.answer(standing, from, &request, out)),
            Err(refusal) => match reason(refusal) {
                Some(reason) => Answer::refused(refusal).sending(failure(from, request.stamp(), reason, out)),
                None => Answer::refused(refusal),
            },
        }
    }

    /// Refusals 20, 7 and 1 to 6 of a request.
    fn read_request<'a>(&mut self, now: u64, given: &'a [u8], out: &[u8]) -> Result<Message<'a>, Refusal> {
        room(out, MISAUTH.most)?;
        self.begin(now)?;
        MISP.read(&[misp::REQUEST], given)
    }

    /// Refusals 8 to 14 of a request, or how it stands.
    fn judge(&self, from: &Address, request: &Message) -> Result<Standing, Refusal> {
        let stamp = request.stamp();
        holds(!request.s(), Refusal::SIsOne)?;
        holds(request.security_type().is_some(), Refusal::SecurityType)?;
        holds(request.lists(misp::NETWORKS, self.settings.network), Refusal::Network)?;
        holds(stamp <= self.clock, Refusal::StampAhead)?;
        holds(self.clock - stamp <= self.settings.window, Refusal::StampOld)?;
        match self.place_of(from) {
            Some((number, place)) => standing(number, place, request),
            None => self.lowest_free().map(Standing::New),
        }
    }

    fn place_of(&self, address: &Address) -> Option<(usize, &Place)> {
        self.places().find(|(_, place)| place.address == *address)
    }

    fn lowest_free(&self) -> Result<usize, Refusal> {
        self.places.iter().position(|place| place.is_none()).ok_or(Refusal::NoPlace)
    }

    /// A new request becomes its place's attempt; a repeat changes nothing.
    fn answer(&mut self, standing: Standing, from: Address, request: &Message, out: &mut [u8]) -> Sent {
        match standing {
            Standing::Open(session) => self.success(&from, &session, out),
            Standing::Waiting(number) => self.access_request(number, &from, request, out),
            Standing::New(number) => {
                let session = self.places[number].and_then(|place| place.session);
                let (stamp, check_value) = (request.stamp(), request.check_value());
                let attempt = Some(Attempt { stamp, check_value });
                self.places[number] = Some(Place { address: from, last: stamp, attempt, session });
                self.access_request(number, &from, request, out)
            }
        }
    }

    fn access_request(&self, number: usize, from: &Address, request: &Message, out: &mut [u8]) -> Sent {
        let access = AccessRequest {
            identifier: number as u8,
            account: request.value(misp::ACCOUNT),
            data: &check::data_of(request, from, &self.settings.address),
            check_value: &request.check_value(),
            seed: &request.sixteen(misp::KEY_DELIVERY),
            security_type: request.number(misp::SECURITY_TYPES) as u16,
            position: &self.settings.position,
        };
        Sent::openly(misauth::write_access_request(&access, self.settings.secret.bytes(), out))
    }

    fn success(&self, to: &Address, session: &Session, out: &mut [u8]) -> Sent {
        let Settings { lifetime, network, .. } = self.settings;
        let seal = self.seal(to, session);
        Sent::to(*to, misp::write_success(session.stamp, lifetime, network, &seal, out))
    }

    fn seal<'a>(&'a self, receiver: &'a Address, session: &'a Session) -> Seal<'a> {
        Seal { key: &session.key, sender: &self.settings.address, receiver }
    }

    /// The server's reply.
    pub fn reply(&mut self, now: u64, given: &[u8], out: &mut [u8]) -> Result<Sent, Refusal> {
        room(out, MISP.most)?;
        self.begin(now)?;
        let header = MISAUTH.header(&[misauth::ACCEPT, misauth::REJECT], given)?;
        let number = usize::from(header.second());
        let (mut place, attempt) = self.waiting_at(number).ok_or(Refusal::FitsNoAttempt)?;
        holds(check::authentic(&header, self.settings.secret.bytes()), Refusal::Authenticator)?;
        let reply = header.read()?;
        place.attempt = None;
        let sent = if reply.header.code() == misauth::ACCEPT {
            let session = self.opened(attempt, &reply)?;
            place.session = Some(session);
            self.success(&place.address, &session, out)
        } else {
            failure(place.address, attempt.stamp, AUTHENTICATION_FAILED, out)
        };
        self.places[number] = Some(place);
        Ok(sent)
    }

    fn waiting_at(&self, number: usize) -> Option<(Place, Attempt)> {
        let place = self.places.get(number).copied().flatten()?;
        place.attempt.map(|attempt| (place, attempt))
    }

    /// The session that an accept opens: object 201 is the attempt's check value.
    fn opened(&self, attempt: Attempt, accept: &Message) -> Result<Session, Refusal> {
        let Attempt { stamp, check_value } = attempt;
        holds(accept.sixteen(misauth::HASH) == check_value, Refusal::FitsNoAttempt)?;
        let secret = self.settings.secret.bytes();
        let key = check::masked(&accept.sixteen(misauth::KEY), &check_value, secret);
        Ok(Session { stamp, check_value, key, since: self.clock })
    }

    /// Writes a terminating message to a node and closes its session.
    pub fn close(&mut self, now: u64, to: Address, out: &mut [u8]) -> Result<Sent, Refusal> {
        room(out, MISP.most)?;
        self.begin(now)?;
        let (number, session) = self.session_of(&to)?;
        let length = misp::write_terminating(session.stamp, &self.seal(&to, &session), out);
        self.end_session(number);
        Ok(Sent::to(to, length))
    }

    /// A terminating message from a node.
    pub fn closed(&mut self, now: u64, from: Address, given: &[u8]) -> Result<Sent, Refusal> {
        self.begin(now)?;
        let message = MISP.read(&[misp::TERMINATING], given)?;
        holds(!message.s(), Refusal::SIsOne)?;
        let (number, session) = self.session_of(&from)?;
        holds(message.stamp() == session.stamp, Refusal::NotExpected)?;
        let seal = Seal { key: &session.key, sender: &from, receiver: &self.settings.address };
        holds(seal.fits(&message), Refusal::CheckValue)?;
        self.end_session(number);
        Ok(Sent::NOTHING)
    }

    fn session_of(&self, address: &Address) -> Result<(usize, Session), Refusal> {
        let (number, place) = self.place_of(address).ok_or(Refusal::NotExpected)?;
        place.session.map(|session| (number, session)).ok_or(Refusal::NotExpected)
    }

    /// The place keeps its address, its attempt and its last stamp.
    fn end_session(&mut self, number: usize) {
        if let Some(place) = &mut self.places[number] {
            place.session = None;
        }
    }

    /// Refusal 7; past it the clock is stored and what has lapsed goes.
    fn begin(&mut self, now: u64) -> Result<(), Refusal> {
        advance(&mut self.clock, now)?;
        for place in &mut self.places {
            *place = place.and_then(|place| place.lapsed(now, &self.settings));
        }
        Ok(())
    }
}

/// A repeat has the stamp and check value of the attempt or of the session; the stamp of any other request must be above the last (13).
fn standing(number: usize, place: &Place, request: &Message) -> Result<Standing, Refusal> {
    let (stamp, check_value) = (request.stamp(), request.check_value());
    let attempt = place.attempt.filter(|it| it.stamp == stamp && it.check_value == check_value);
    let session = place.session.filter(|it| it.stamp == stamp && it.check_value == check_value);
    match (attempt, session) {
        (Some(_), _) => Ok(Standing::Waiting(number)),
        (None, Some(session)) => Ok(Standing::Open(session)),
        (None, None) => holds(stamp > place.last, Refusal::StampNotAbove).map(|()| Standing::New(number)),
    }
}

fn failure(to: Address, stamp: u64, reason: u16, out: &mut [u8]) -> Sent {
    Sent::to(to, misp::write_failure(stamp, reason, out))
}

/// The reason of the failure that a refusal sends.
fn reason(refusal: Refusal) -> Option<u16> {
    match refusal {
        Refusal::SecurityType | Refusal::Network => Some(MESSAGE_FORMAT),
        Refusal::StampOld => Some(NO_SERVER),
        Refusal::NoPlace => Some(LACK_OF_ADDRESSES),
        _ => None,
    }
}
