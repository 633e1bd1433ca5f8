//! Why a call was refused: the paper's table, and the misuse of a state buffer.

use core::fmt;

#[derive(Clone, Copy, Debug, PartialEq, Eq, Hash)]
pub enum Refusal {
    ShortHeader = 1,
    BadLength = 2,
    OtherCode = 3,
    BrokenObject = 4,
    MissingObject = 5,
    BadValue = 6,
    ClockBack = 7,
    OtherKey = 8,
    SecurityType = 9,
    NetworkNumber = 10,
    StampAhead = 11,
    StampOld = 12,
    StampUsed = 13,
    NoPlace = 14,
    NoAttempt = 15,
    WrongAuthenticator = 16,
    WrongCheck = 17,
    OutOfRange = 18,
    BrokenBook = 19,
    SmallOutput = 20,
    NotExpected = 21,
    UnknownRouter = 22,
    /// A state buffer has not the library's size, or the archive is not the one that this crate was written for.
    Misuse = 255,
}

use Refusal::*;

impl Refusal {
    /// All of them, by rising number.
    pub const ALL: [Refusal; 23] = [
        ShortHeader,
        BadLength,
        OtherCode,
        BrokenObject,
        MissingObject,
        BadValue,
        ClockBack,
        OtherKey,
        SecurityType,
        NetworkNumber,
        StampAhead,
        StampOld,
        StampUsed,
        NoPlace,
        NoAttempt,
        WrongAuthenticator,
        WrongCheck,
        OutOfRange,
        BrokenBook,
        SmallOutput,
        NotExpected,
        UnknownRouter,
        Misuse,
    ];

    /// The number in the paper's table; 255 for misuse.
    pub fn number(self) -> u8 {
        self as u8
    }

    /// Done at 0, else the refusal of that number.
    pub(crate) fn result(number: u32) -> Result<(), Refusal> {
        match number {
            0 => Ok(()),
            _ => Err(Self::ALL.iter().copied().find(|it| u32::from(it.number()) == number).unwrap_or(Misuse)),
        }
    }

    fn text(self) -> &'static str {
        match self {
            ShortHeader => "fewer bytes than a header has",
            BadLength => "Length is below the header, above the limit or above the bytes given",
            OtherCode => "a Code that this call does not take",
            BrokenObject => "an object without length byte, with a Length below 2, or past the end",
            MissingObject => "a mandatory object is missing",
            BadValue => "a check value, seed, authentication data or key without 16 bytes, or an empty name",
            ClockBack => "the clock is below the stored one",
            OtherKey => "S is 1",
            SecurityType => "not one security type, 2 or 3; at a gauge: its type is not in the beacon's list",
            NetworkNumber => "our network number is not in the list",
            StampAhead => "the stamp is above the clock",
            StampOld => "the stamp is further back than the window",
            StampUsed => "the stamp is not above the last one",
            NoPlace => "no place for a new node",
            NoAttempt => "the reply fits no waiting attempt",
            WrongAuthenticator => "the Authenticator is wrong",
            WrongCheck => "the check value is wrong",
            OutOfRange => "a setting, or a field to be written, is out of its range",
            BrokenBook => "a book is broken",
            SmallOutput => "the output is too small",
            NotExpected => "the message is not expected in this state",
            UnknownRouter => "the router is not in the book",
            Misuse => "the state buffer has not the library's size, or the archive is another one",
        }
    }
}

impl fmt::Display for Refusal {
    fn fmt(&self, f: &mut fmt::Formatter) -> fmt::Result {
        write!(f, "refused with {}: {}", self.number(), self.text())
    }
}

#[cfg(std)]
impl std::error::Error for Refusal {}
