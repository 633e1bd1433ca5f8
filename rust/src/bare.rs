//! Reading and writing alone, for a log, a screen or a test: the eight kinds of message field by field. No check value and no Authenticator
//! is tested or computed. A message that is written is read back as the same fields.

use crate::{raw, Digest, Outcome, Refusal};

/// Whether a message on the radio can be read, whichever of its five kinds it is: refusals 1 to 6.
pub fn read(message: &[u8]) -> Result<(), Refusal> {
    Refusal::result(unsafe { raw::mis_read(message.as_ptr(), message.len()) } & 255)
}

/// The same for a message between router and server.
pub fn readauth(message: &[u8]) -> Result<(), Refusal> {
    Refusal::result(unsafe { raw::mis_readauth(message.as_ptr(), message.len()) } & 255)
}

/// Latitude, longitude and two heights, as they stand in an object.
pub type Position = [u8; 12];

/// A number that is missing, over the boundary.
const NONE: u64 = u64::MAX;

/// The uplink of a router: its type of line, and kbps both ways.
#[derive(Clone, Copy, Debug, PartialEq, Eq)]
pub struct Uplink {
    pub line: u16,
    pub up: u16,
    pub down: u16,
}

/// Lists are as they stand in the message: groups of 4 bytes, security types and network numbers of 2. Numbers that may be missing are wide
/// enough to say one that is out of its range, which a writer refuses (18).
#[derive(Clone, Copy, Debug, PartialEq, Eq)]
pub struct Beacon<'a> {
    pub stamp: u64,
    pub groups: &'a [u8],
    pub serial: u16,
    pub interval: u16,
    pub security: &'a [u8],
    pub networks: &'a [u8],
    pub position: Option<Position>,
    /// Addresses left, up to 255.
    pub left: Option<u64>,
    /// 0 or 1.
    pub filter: Option<u64>,
    pub uplink: Option<Uplink>,
    /// Up to 255.
    pub channel: Option<u64>,
}

#[derive(Clone, Copy, Debug, PartialEq, Eq)]
pub struct Request<'a> {
    pub s: bool,
    pub stamp: u64,
    pub security: &'a [u8],
    pub check: Digest,
    /// The gauge's name in the server's book, 1 to 253 bytes.
    pub account: &'a [u8],
    pub seed: Digest,
    pub networks: &'a [u8],
    /// An IPv4 address.
    pub local: Option<u64>,
}

#[derive(Clone, Copy, Debug, PartialEq, Eq)]
pub struct Success<'a> {
    pub s: bool,
    pub stamp: u64,
    /// Of the key, in units.
    pub lifetime: u16,
    pub check: Digest,
    pub networks: &'a [u8],
    /// An IPv4 address each.
    pub local: Option<u64>,
    pub remote: Option<u64>,
}

#[derive(Clone, Copy, Debug, PartialEq, Eq)]
pub struct Failure {
    pub stamp: u64,
    pub reason: u16,
}

#[derive(Clone, Copy, Debug, PartialEq, Eq)]
pub struct Terminating {
    pub s: bool,
    pub stamp: u64,
    pub check: Digest,
    /// Up to 65,535.
    pub reason: Option<u64>,
}

/// An access request as its reader hands it out: of objects that may repeat, how many there are.
#[derive(Clone, Copy, Debug, PartialEq, Eq)]
pub struct AccessRequest<'a> {
    pub fields: AccessFields<'a>,
    pub proxies: u64,
    pub sixes: u64,
}

/// What reader and writer of an access request share.
#[derive(Clone, Copy, Debug, PartialEq, Eq)]
pub struct AccessFields<'a> {
    pub identifier: u8,
    pub account: &'a [u8],
    /// The authentication data.
    pub data: Digest,
    pub check: Digest,
    pub seed: Digest,
    pub security: u16,
    pub position: Position,
    /// The router's IPv4 address.
    pub router: Option<u64>,
    pub groups: Option<&'a [u8]>,
}

#[derive(Clone, Copy, Debug, PartialEq, Eq)]
pub struct Accept {
    pub identifier: u8,
    /// The session key under its mask.
    pub key: Digest,
    pub check: Digest,
    pub proxies: u64,
}

#[derive(Clone, Copy, Debug, PartialEq, Eq)]
pub struct Reject {
    pub identifier: u8,
    pub proxies: u64,
}

/// The numbers that a reader handed out, taken one after the other, with the message that they speak of.
struct Handed<'a, 'n> {
    message: &'a [u8],
    numbers: core::slice::Iter<'n, u64>,
}

impl<'a> Handed<'a, '_> {
    fn number(&mut self) -> Result<u64, Refusal> {
        self.numbers.next().copied().ok_or(Refusal::Misuse)
    }

    fn narrow<N: TryFrom<u64>>(&mut self) -> Result<N, Refusal> {
        N::try_from(self.number()?).map_err(|_| Refusal::Misuse)
    }

    fn flag(&mut self) -> Result<bool, Refusal> {
        Ok(self.number()? == 1)
    }

    fn optional(&mut self) -> Result<Option<u64>, Refusal> {
        Ok(Some(self.number()?).filter(|number| *number != NONE))
    }

    /// The bytes at an offset, of a length.
    fn bytes(&mut self) -> Result<&'a [u8], Refusal> {
        let (at, length): (usize, usize) = (self.narrow()?, self.narrow()?);
        self.message.get(at..).and_then(|rest| rest.get(..length)).ok_or(Refusal::Misuse)
    }

    fn digest(&mut self) -> Result<Digest, Refusal> {
        self.bytes()?.try_into().map_err(|_| Refusal::Misuse)
    }
}

/// Runs a reader on room for its numbers, and takes them where it did not refuse.
fn handed<'a, 'n, const N: usize>(
    message: &'a [u8],
    numbers: &'n mut [u64; N],
    call: impl FnOnce(*const u8, usize, *mut [u64; N]) -> u32,
) -> Result<Handed<'a, 'n>, Refusal> {
    Refusal::result(call(message.as_ptr(), message.len(), numbers))?;
    Ok(Handed { message, numbers: numbers.iter() })
}

/// A reader that hands out numbers alone.
type Reads<const N: usize> = unsafe extern "C" fn(*const u8, usize, *mut [u64; N]) -> u32;

/// Runs such a reader.
fn handed_alone<'a, 'n, const N: usize>(
    message: &'a [u8],
    numbers: &'n mut [u64; N],
    call: Reads<N>,
) -> Result<Handed<'a, 'n>, Refusal> {
    handed(message, numbers, |message, length, fields| unsafe { call(message, length, fields) })
}

/// A beacon; refusals 1 to 6, 3 for another kind of message.
pub fn read_beacon(message: &[u8]) -> Result<Beacon<'_>, Refusal> {
    let (mut numbers, mut place) = ([0; 17], [0; 12]);
    let mut it = handed(message, &mut numbers, |message, length, fields| unsafe {
        raw::mis_read_beacon(message, length, fields, &mut place)
    })?;
    Ok(Beacon {
        stamp: it.number()?,
        groups: it.bytes()?,
        serial: it.narrow()?,
        interval: it.narrow()?,
        security: it.bytes()?,
        networks: it.bytes()?,
        position: it.flag()?.then_some(place),
        left: it.optional()?,
        filter: it.optional()?,
        uplink: {
            let (given, uplink) =
                (it.flag()?, Uplink { line: it.narrow()?, up: it.narrow()?, down: it.narrow()? });
            given.then_some(uplink)
        },
        channel: it.optional()?,
    })
}

pub fn read_request(message: &[u8]) -> Result<Request<'_>, Refusal> {
    let mut numbers = [0; 13];
    let mut it = handed_alone(message, &mut numbers, raw::mis_read_request)?;
    Ok(Request {
        s: it.flag()?,
        stamp: it.number()?,
        security: it.bytes()?,
        check: it.digest()?,
        account: it.bytes()?,
        seed: it.digest()?,
        networks: it.bytes()?,
        local: it.optional()?,
    })
}

pub fn read_success(message: &[u8]) -> Result<Success<'_>, Refusal> {
    let mut numbers = [0; 9];
    let mut it = handed_alone(message, &mut numbers, raw::mis_read_success)?;
    Ok(Success {
        s: it.flag()?,
        stamp: it.number()?,
        lifetime: it.narrow()?,
        check: it.digest()?,
        networks: it.bytes()?,
        local: it.optional()?,
        remote: it.optional()?,
    })
}

pub fn read_failure(message: &[u8]) -> Result<Failure, Refusal> {
    let mut numbers = [0; 2];
    let mut it = handed_alone(message, &mut numbers, raw::mis_read_failure)?;
    Ok(Failure { stamp: it.number()?, reason: it.narrow()? })
}

pub fn read_terminating(message: &[u8]) -> Result<Terminating, Refusal> {
    let mut numbers = [0; 5];
    let mut it = handed_alone(message, &mut numbers, raw::mis_read_terminating)?;
    Ok(Terminating { s: it.flag()?, stamp: it.number()?, check: it.digest()?, reason: it.optional()? })
}

pub fn read_access_request(message: &[u8]) -> Result<AccessRequest<'_>, Refusal> {
    let (mut numbers, mut position) = ([0; 16], [0; 12]);
    let mut it = handed(message, &mut numbers, |message, length, fields| unsafe {
        raw::mis_read_access_request(message, length, fields, &mut position)
    })?;
    let mut fields = AccessFields {
        identifier: it.narrow()?,
        account: it.bytes()?,
        data: it.digest()?,
        check: it.digest()?,
        seed: it.digest()?,
        security: it.narrow()?,
        position,
        router: it.optional()?,
        groups: None,
    };
    let (proxies, sixes) = (it.number()?, it.number()?);
    let (given, groups) = (it.flag()?, it.bytes()?);
    fields.groups = given.then_some(groups);
    Ok(AccessRequest { fields, proxies, sixes })
}

pub fn read_accept(message: &[u8]) -> Result<Accept, Refusal> {
    let mut numbers = [0; 6];
    let mut it = handed_alone(message, &mut numbers, raw::mis_read_accept)?;
    Ok(Accept { identifier: it.narrow()?, key: it.digest()?, check: it.digest()?, proxies: it.number()? })
}

pub fn read_reject(message: &[u8]) -> Result<Reject, Refusal> {
    let mut numbers = [0; 2];
    let mut it = handed_alone(message, &mut numbers, raw::mis_read_reject)?;
    Ok(Reject { identifier: it.narrow()?, proxies: it.number()? })
}

/// A number that is given is never taken for none: the largest is out of every range, as is the one before it.
fn said(number: Option<u64>) -> u64 {
    number.map_or(NONE, |number| number.min(NONE - 1))
}

/// Writes a beacon; refusals 20 and 18. Output: `OUT_RADIO` bytes, here and in the four below.
pub fn write_beacon<'o>(it: &Beacon, out: &'o mut [u8]) -> Outcome<'o> {
    let position = it.position.unwrap_or([0; 12]);
    let uplink = it.uplink.unwrap_or(Uplink { line: 0, up: 0, down: 0 });
    Outcome::of(out, |out, room, _| unsafe {
        raw::mis_write_beacon(
            it.stamp,
            it.groups.as_ptr(),
            it.groups.len(),
            it.serial,
            it.interval,
            it.security.as_ptr(),
            it.security.len(),
            it.networks.as_ptr(),
            it.networks.len(),
            it.position.is_some(),
            &position,
            said(it.left),
            said(it.filter),
            it.uplink.is_some(),
            uplink.line,
            uplink.up,
            uplink.down,
            said(it.channel),
            out,
            room,
        )
    })
}

pub fn write_request<'o>(it: &Request, out: &'o mut [u8]) -> Outcome<'o> {
    Outcome::of(out, |out, room, _| unsafe {
        raw::mis_write_request(
            it.s,
            it.stamp,
            it.security.as_ptr(),
            it.security.len(),
            &it.check,
            it.account.as_ptr(),
            it.account.len(),
            &it.seed,
            it.networks.as_ptr(),
            it.networks.len(),
            said(it.local),
            out,
            room,
        )
    })
}

pub fn write_success<'o>(it: &Success, out: &'o mut [u8]) -> Outcome<'o> {
    Outcome::of(out, |out, room, _| unsafe {
        raw::mis_write_success(
            it.s,
            it.stamp,
            it.lifetime,
            &it.check,
            it.networks.as_ptr(),
            it.networks.len(),
            said(it.local),
            said(it.remote),
            out,
            room,
        )
    })
}

pub fn write_failure(it: Failure, out: &mut [u8]) -> Outcome<'_> {
    Outcome::of(out, |out, room, _| unsafe { raw::mis_write_failure(it.stamp, it.reason, out, room) })
}

pub fn write_terminating<'o>(it: &Terminating, out: &'o mut [u8]) -> Outcome<'o> {
    Outcome::of(out, |out, room, _| unsafe {
        raw::mis_write_terminating(it.s, it.stamp, &it.check, said(it.reason), out, room)
    })
}

/// Writes an access request, the Authenticator zero; `proxies` are whole objects 33 one after the other, `sixes` whole objects 95. Output:
/// `OUT_LOGIN` bytes, here and in the two below.
pub fn write_access_request<'o>(
    it: &AccessFields,
    proxies: &[u8],
    sixes: &[u8],
    out: &'o mut [u8],
) -> Outcome<'o> {
    let groups = it.groups.unwrap_or(&[]);
    Outcome::of(out, |out, room, _| unsafe {
        raw::mis_write_access_request(
            it.identifier,
            it.account.as_ptr(),
            it.account.len(),
            &it.data,
            &it.check,
            &it.seed,
            it.security,
            &it.position,
            said(it.router),
            proxies.as_ptr(),
            proxies.len(),
            sixes.as_ptr(),
            sixes.len(),
            it.groups.is_some(),
            groups.as_ptr(),
            groups.len(),
            out,
            room,
        )
    })
}

pub fn write_accept<'o>(
    identifier: u8,
    key: &Digest,
    check: &Digest,
    proxies: &[u8],
    out: &'o mut [u8],
) -> Outcome<'o> {
    Outcome::of(out, |out, room, _| unsafe {
        raw::mis_write_accept(identifier, key, check, proxies.as_ptr(), proxies.len(), out, room)
    })
}

pub fn write_reject<'o>(identifier: u8, proxies: &[u8], out: &'o mut [u8]) -> Outcome<'o> {
    Outcome::of(out, |out, room, _| unsafe {
        raw::mis_write_reject(identifier, proxies.as_ptr(), proxies.len(), out, room)
    })
}
