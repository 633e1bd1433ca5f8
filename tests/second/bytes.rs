//! Numbers in bytes, and short byte strings that a party keeps.

/// A link address.
pub type Address = [u8; 6];

/// An unsigned number, most significant byte first.
pub fn number(bytes: &[u8]) -> u64 {
    bytes.iter().fold(0, |number, byte| number << 8 | u64::from(*byte))
}

/// The first `N` bytes; zeros where there are fewer.
pub fn array<const N: usize>(bytes: &[u8]) -> [u8; N] {
    let mut array = [0; N];
    for (to, from) in array.iter_mut().zip(bytes) {
        *to = *from;
    }
    array
}

/// A byte string of at most `MOST` bytes, kept without a heap.
#[derive(Clone)]
pub struct Kept<const MOST: usize> {
    bytes: [u8; MOST],
    length: usize,
}

impl<const MOST: usize> Kept<MOST> {
    pub fn new(given: &[u8]) -> Option<Self> {
        let (bytes, length) = (array(given), given.len());
        (length <= MOST).then_some(Kept { bytes, length })
    }

    pub fn bytes(&self) -> &[u8] {
        &self.bytes[..self.length]
    }
}

/// A secret, password or account: the paper gives each 1 to 253 bytes.
pub type Text = Kept<253>;

pub fn text(given: &[u8]) -> Option<Text> {
    Kept::new(given).filter(|_| !given.is_empty())
}
