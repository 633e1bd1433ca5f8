//! What MISP and MISAUTH share: a header, the walk over the objects, which object counts, and the writer.

use crate::bytes::{array, number};
use crate::md5::Digest;
use crate::refusal::Refusal;

/// What the tables say of an object's length, its type and length bytes counted.
pub enum Rule {
    Fixed(usize),
    /// Two bytes and a list of elements of this size.
    List(usize),
    Any,
}

/// One kind of message: its code and the types of the objects it must and may hold.
pub struct Kind {
    pub code: u8,
    pub mandatory: &'static [u8],
    pub optional: &'static [u8],
}

impl Kind {
    fn holds(&self, of_type: u8) -> bool {
        self.mandatory.contains(&of_type) || self.optional.contains(&of_type)
    }
}

pub enum Counts {
    First,
    Last,
}

/// One of the two protocols: limits and rules, each in one place.
pub struct Family {
    pub header: usize,
    pub most: usize,
    /// Whether type 0 is a single byte of padding.
    pub padding: bool,
    pub counts: Counts,
    pub repeats: &'static [u8],
    /// Types whose value has 16 bytes where the message must hold them.
    pub sixteen: &'static [u8],
    /// The type of the name, which is not empty.
    pub name: u8,
    pub takes: fn(&Object) -> bool,
    pub kinds: &'static [Kind],
}

impl Family {
    /// Refusals 1 to 3: the header of a message with one of these codes.
    pub fn header<'a>(&'static self, codes: &[u8], given: &'a [u8]) -> Result<Header<'a>, Refusal> {
        if given.len() < self.header {
            return Err(Refusal::FewerBytesThanHeader);
        }
        let length = number(&given[2..4]) as usize;
        if length < self.header || length > self.most || length > given.len() {
            return Err(Refusal::Length);
        }
        let kind = self.kinds.iter().find(|kind| kind.code == given[0] && codes.contains(&kind.code));
        let bytes = &given[..length];
        kind.map(|kind| Header { family: self, kind, bytes }).ok_or(Refusal::Code)
    }

    /// Refusals 1 to 6: a whole message with one of these codes.
    pub fn read<'a>(&'static self, codes: &[u8], given: &'a [u8]) -> Result<Message<'a>, Refusal> {
        self.header(codes, given)?.read()
    }

    /// Whether a value has the size that refusal 6 asks of its type.
    fn sized(&self, of_type: u8, value: &[u8]) -> bool {
        if self.sixteen.contains(&of_type) {
            value.len() == 16
        } else {
            of_type != self.name || !value.is_empty()
        }
    }
}

/// A message of which only the header is known to be right.
pub struct Header<'a> {
    family: &'static Family,
    kind: &'static Kind,
    bytes: &'a [u8],
}

impl<'a> Header<'a> {
    pub fn code(&self) -> u8 {
        self.kind.code
    }

    /// Byte 1: flags in MISP, the Identifier in MISAUTH.
    pub fn second(&self) -> u8 {
        self.bytes[1]
    }

    /// The message's Length bytes.
    pub fn bytes(&self) -> &'a [u8] {
        self.bytes
    }

    /// Refusals 4 to 6.
    pub fn read(self) -> Result<Message<'a>, Refusal> {
        let message = Message { header: self };
        message.walk().try_for_each(|object| object.map(|_| ()))?;
        let Header { family, kind, .. } = message.header;
        if kind.mandatory.iter().any(|of_type| message.object(*of_type).is_none()) {
            return Err(Refusal::MandatoryMissing);
        }
        if kind.mandatory.iter().any(|of_type| !family.sized(*of_type, message.value(*of_type))) {
            return Err(Refusal::Size);
        }
        Ok(message)
    }
}

/// A message that its reader takes.
pub struct Message<'a> {
    pub header: Header<'a>,
}

impl<'a> Message<'a> {
    fn walk(&self) -> Walk<'a> {
        let Header { family, bytes, .. } = self.header;
        Walk { message: bytes, at: family.header, padding: family.padding }
    }

    /// The objects of this type that are not passed over, in their order.
    pub fn every(&self, of_type: u8) -> impl Iterator<Item = Object<'a>> {
        let (holds, takes) = (self.header.kind.holds(of_type), self.header.family.takes);
        self.walk().flatten().filter(move |object| holds && object.of_type == of_type && takes(object))
    }

    /// The object of this type that counts.
    pub fn object(&self, of_type: u8) -> Option<Object<'a>> {
        let mut every = self.every(of_type);
        match self.header.family.counts {
            Counts::First => every.next(),
            Counts::Last => every.last(),
        }
    }

    /// The value of the object that counts; nothing where there is none.
    pub fn value(&self, of_type: u8) -> &'a [u8] {
        self.object(of_type).map_or(&[], |object| object.value)
    }

    pub fn number(&self, of_type: u8) -> u64 {
        number(self.value(of_type))
    }

    pub fn sixteen(&self, of_type: u8) -> Digest {
        array(self.value(of_type))
    }

    /// Whether the list of 16-bit numbers of this type names the number.
    pub fn lists(&self, of_type: u8, wanted: u16) -> bool {
        self.value(of_type).chunks(2).any(|element| number(element) == u64::from(wanted))
    }

    /// The fields that the reader hands back, by rising type, repeats in their order.
    pub fn fields<'m>(&'m self) -> impl Iterator<Item = Object<'a>> + 'm {
        (0..=u8::MAX).flat_map(move |of_type| {
            let repeats = self.header.family.repeats.contains(&of_type);
            let every = self.every(of_type).filter(move |_| repeats);
            every.chain(self.object(of_type).filter(move |_| !repeats))
        })
    }
}

/// One object: its type, its value, and where in the message the value stands.
#[derive(Clone, Copy)]
pub struct Object<'a> {
    pub of_type: u8,
    pub value: &'a [u8],
    pub at: usize,
}

impl Object<'_> {
    /// Whether the object's length is as the rule asks.
    pub fn obeys(&self, rule: Rule) -> bool {
        match rule {
            Rule::Fixed(length) => self.value.len() + 2 == length,
            Rule::List(unit) => self.value.len() % unit == 0,
            Rule::Any => true,
        }
    }
}

/// The walk over the objects. A broken one is handed back as refusal 4 and ends it.
struct Walk<'a> {
    message: &'a [u8],
    at: usize,
    padding: bool,
}

impl<'a> Iterator for Walk<'a> {
    type Item = Result<Object<'a>, Refusal>;

    fn next(&mut self) -> Option<Self::Item> {
        while self.padding && self.message.get(self.at) == Some(&0) {
            self.at += 1;
        }
        let at = self.at;
        let of_type = *self.message.get(at)?;
        let length = self.message.get(at + 1).map_or(0, |length| usize::from(*length));
        if length < 2 || at + length > self.message.len() {
            self.at = self.message.len();
            return Some(Err(Refusal::BrokenObject));
        }
        self.at += length;
        Some(Ok(Object { of_type, value: &self.message[at + 2..self.at], at: at + 2 }))
    }
}

/// Writes one message from the start of a lent buffer, which has room for the longest of its family.
pub struct Writer<'a> {
    out: &'a mut [u8],
    length: usize,
}

impl<'a> Writer<'a> {
    /// The header: code, byte 1, Length, and zeros for what else the family has there.
    pub fn new(family: &Family, code: u8, second: u8, out: &'a mut [u8]) -> Self {
        out[..family.header].fill(0);
        out[..2].copy_from_slice(&[code, second]);
        Writer { out, length: family.header }
    }

    pub fn object(mut self, of_type: u8, value: &[u8]) -> Self {
        let end = self.length + 2 + value.len();
        self.out[self.length..self.length + 2].copy_from_slice(&[of_type, (value.len() + 2) as u8]);
        self.out[self.length + 2..end].copy_from_slice(value);
        self.length = end;
        self
    }

    /// Where the value of the object that is written next will stand.
    pub fn next_value(&self) -> usize {
        self.length + 2
    }

    /// The whole message, its Length set.
    pub fn finish(self) -> &'a mut [u8] {
        self.out[2..4].copy_from_slice(&(self.length as u16).to_be_bytes());
        &mut self.out[..self.length]
    }
}
