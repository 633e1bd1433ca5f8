//! The server's step (the paper, 'Steps').

use crate::book::Book;
use crate::check;
use crate::message::Message;
use crate::misauth::{self, MISAUTH};
use crate::misp::BUILT;
use crate::refusal::Refusal;
use crate::step::{holds, room, Sent};

/// The two books that the server is lent.
pub struct Lent<'a> {
    pub mill: &'a [u8],
    pub visitors: &'a [u8],
}

/// An access request from the router with this IPv4 address.
pub fn login(lent: &Lent, ipv4: &[u8; 4], given: &[u8], out: &mut [u8]) -> Result<Sent, Refusal> {
    room(out, MISAUTH.most)?;
    let mill = Book::open(lent.mill).ok_or(Refusal::BookBroken)?;
    let visitors = Book::open(lent.visitors).ok_or(Refusal::BookBroken)?;
    let header = MISAUTH.header(&[misauth::REQUEST], given)?;
    let secret = mill.secret(ipv4).ok_or(Refusal::RouterUnknown)?;
    holds(check::authentic(&header, secret), Refusal::Authenticator)?;
    let request = header.read()?;
    let identifier = request.header.second();
    let length = match accepted(&mill, &visitors, &request) {
        Some(password) => {
            let check_value = request.sixteen(misauth::HASH);
            let key = check::session_key(password, &request.sixteen(misauth::SEED));
            let key = check::masked(&key, &check_value, secret);
            misauth::write_accept(identifier, &key, &check_value, secret, out)
        }
        None => misauth::write_reject(identifier, secret, out),
    };
    Ok(Sent::openly(length))
}

/// The account's password, if the server accepts. The first book that has the account decides, the mill's first.
fn accepted<'a>(mill: &Book<'a>, visitors: &Book<'a>, request: &Message) -> Option<&'a [u8]> {
    let account = request.value(misauth::NAME);
    let password = mill.password(account).or_else(|| visitors.password(account))?;
    let check_value = check::check_value(password, &request.sixteen(misauth::DATA));
    let right = check_value == request.sixteen(misauth::HASH);
    let security_type = request.number(misauth::SECURITY_TYPE) as u16;
    (right && BUILT.contains(&security_type)).then_some(password)
}
