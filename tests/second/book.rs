//! The account book (the paper, 'Account book').

use crate::bytes::number;
use crate::distinct::after_distinct;

const MOST: usize = 65_536;
const LENGTHS: core::ops::RangeInclusive<usize> = 1..=253;

/// A book that is not broken.
pub struct Book<'a> {
    routers: Section<'a>,
    accounts: Section<'a>,
}

impl<'a> Book<'a> {
    /// Nothing if the book is broken.
    pub fn open(bytes: &'a [u8]) -> Option<Self> {
        if bytes.len() > MOST {
            return None;
        }
        let (routers, rest) = Section::open(bytes, Names::Ipv4)?;
        let (accounts, rest) = Section::open(rest, Names::Accounts)?;
        rest.is_empty().then_some(Book { routers, accounts })
    }

    /// The secret of the router with this IPv4 address.
    pub fn secret(&self, ipv4: &[u8; 4]) -> Option<&'a [u8]> {
        self.routers.secret_of(ipv4)
    }

    pub fn password(&self, account: &[u8]) -> Option<&'a [u8]> {
        self.accounts.secret_of(account)
    }
}

#[derive(Clone, Copy)]
enum Names {
    /// Four bytes each.
    Ipv4,
    /// Each after its length.
    Accounts,
}

/// A two-byte count and so many entries: a name, and its secret after a length.
#[derive(Clone)]
pub struct Section<'a> {
    names: Names,
    /// How many entries are left, and the bytes from the next one on.
    pub left: u64,
    pub rest: &'a [u8],
}

type Entry<'a> = (&'a [u8], &'a [u8]);

impl<'a> Section<'a> {
    /// The section at the start of the bytes, and the bytes after it.
    fn open(bytes: &'a [u8], names: Names) -> Option<(Self, &'a [u8])> {
        let (count, rest) = cut(bytes, 2)?;
        let section = Section { names, left: number(count), rest };
        let rest = after_distinct(section.clone())?;
        Some((section, rest))
    }

    fn secret_of(&self, wanted: &[u8]) -> Option<&'a [u8]> {
        self.clone().find(|(name, _)| *name == wanted).map(|(_, secret)| secret)
    }
}

impl<'a> Iterator for Section<'a> {
    type Item = Entry<'a>;

    /// Nothing after the last entry, and where an entry is broken.
    fn next(&mut self) -> Option<Entry<'a>> {
        self.left = self.left.checked_sub(1)?;
        let (name, rest) = match self.names {
            Names::Ipv4 => cut(self.rest, 4)?,
            Names::Accounts => cut_after_length(self.rest)?,
        };
        let (secret, rest) = cut_after_length(rest)?;
        self.rest = rest;
        Some((name, secret))
    }
}

/// The first bytes, and the rest.
fn cut(bytes: &[u8], length: usize) -> Option<(&[u8], &[u8])> {
    (length <= bytes.len()).then(|| bytes.split_at(length))
}

/// The bytes that the first byte counts, and the rest.
fn cut_after_length(bytes: &[u8]) -> Option<(&[u8], &[u8])> {
    let (length, rest) = bytes.split_first()?;
    let length = usize::from(*length);
    cut(rest, length).filter(|_| LENGTHS.contains(&length))
}
