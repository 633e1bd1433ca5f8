//! The words of one line of a script.

/// The words that are still to be read. Every method gives nothing where the line cannot be read.
pub struct Words<'a> {
    rest: core::slice::Split<'a, u8, fn(&u8) -> bool>,
}

impl<'a> Words<'a> {
    /// Words are parted by one space each, so a double, leading or trailing space makes an empty word.
    pub fn new(line: &'a [u8]) -> Self {
        Words { rest: line.split(|byte| *byte == b' ') }
    }

    pub fn word(&mut self) -> Option<&'a [u8]> {
        self.rest.next()
    }

    /// No word is left.
    pub fn end(&mut self) -> Option<()> {
        match self.word() {
            Some(_) => None,
            None => Some(()),
        }
    }

    /// A decimal number of at most 64 bits.
    pub fn number(&mut self) -> Option<u64> {
        let digits = self.word()?;
        let digit = |byte: &u8| byte.is_ascii_digit().then(|| u64::from(byte - b'0'));
        let number =
            digits.iter().try_fold(0, |number: u64, byte| number.checked_mul(10)?.checked_add(digit(byte)?));
        number.filter(|_| !digits.is_empty())
    }

    /// A number from 0 to `most`.
    pub fn number_to(&mut self, most: usize) -> Option<usize> {
        let number = usize::try_from(self.number()?).ok()?;
        (number <= most).then_some(number)
    }

    /// A byte string in hex; `-` is the empty one.
    pub fn bytes(&mut self) -> Option<Vec<u8>> {
        let word = self.word()?;
        if word == b"-" {
            return Some(Vec::new());
        }
        if word.is_empty() || word.len() % 2 != 0 {
            return None;
        }
        word.chunks_exact(2).map(|pair| Some(nibble(pair[0])? << 4 | nibble(pair[1])?)).collect()
    }

    /// A byte string of `N` bytes.
    pub fn fixed<const N: usize>(&mut self) -> Option<[u8; N]> {
        self.bytes()?.try_into().ok()
    }
}

fn nibble(digit: u8) -> Option<u8> {
    char::from(digit).to_digit(16).map(|value| value as u8)
}

/// A byte string as it is printed.
pub fn hex(bytes: &[u8]) -> String {
    if bytes.is_empty() {
        return "-".to_string();
    }
    bytes.iter().map(|byte| format!("{byte:02x}")).collect()
}
