//! The numbers a call can hand back: the paper's table, one name for each.

#[derive(Clone, Copy, Debug, PartialEq, Eq)]
pub enum Refusal {
    FewerBytesThanHeader = 1,
    Length = 2,
    Code = 3,
    BrokenObject = 4,
    MandatoryMissing = 5,
    Size = 6,
    ClockBack = 7,
    SIsOne = 8,
    SecurityType = 9,
    Network = 10,
    StampAhead = 11,
    StampOld = 12,
    StampNotAbove = 13,
    NoPlace = 14,
    FitsNoAttempt = 15,
    Authenticator = 16,
    CheckValue = 17,
    Setting = 18,
    BookBroken = 19,
    Output = 20,
    NotExpected = 21,
    RouterUnknown = 22,
}

impl Refusal {
    pub fn number(self) -> u8 {
        self as u8
    }
}
