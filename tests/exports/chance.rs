//! Numbers and bytes at random, the same at each run, and damage to a message.

pub struct Chance(pub u64);

impl Chance {
    pub fn next(&mut self) -> u64 {
        self.0 ^= self.0 << 13;
        self.0 ^= self.0 >> 7;
        self.0 ^= self.0 << 17;
        self.0 >> 8
    }

    pub fn below(&mut self, most: usize) -> usize {
        (self.next() % most as u64) as usize
    }

    pub fn one_in(&mut self, count: usize) -> bool {
        self.below(count) == 0
    }

    pub fn fill(&mut self, bytes: &mut [u8]) {
        for byte in bytes {
            *byte = self.next() as u8;
        }
    }

    /// Changes a byte, cuts the message, moves its Length or lets bytes follow; hands back how many bytes it then has.
    pub fn damage(&mut self, message: &mut [u8], length: usize) -> usize {
        let at = self.below(length.max(1));
        match self.below(5) {
            0 => message[at] = self.next() as u8,
            1 => message[at] ^= 1 << self.below(8),
            2 => return at,
            3 => message[3] = message[3].wrapping_add(self.below(7) as u8).wrapping_sub(3),
            _ => {
                let end = (length + self.below(20)).min(message.len());
                self.fill(&mut message[length.min(end)..end]);
                return end;
            }
        }
        length
    }
}
