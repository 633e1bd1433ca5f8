//! MD5 (RFC 1321) and HMAC-MD5 (RFC 2104).

pub type Digest = [u8; 16];

/// MD5 of the parts, one after the other.
pub fn md5(parts: &[&[u8]]) -> Digest {
    let mut md5 = Md5::new();
    for part in parts {
        md5.take(part);
    }
    md5.digest()
}

/// HMAC-MD5 of the text, given in parts, under the key (RFC 2104, section 2).
pub fn hmac(key: &[u8], text: &[&[u8]]) -> Digest {
    let mut inner = Md5::new();
    inner.take(&keyed(key, 0x36));
    for part in text {
        inner.take(part);
    }
    md5(&[&keyed(key, 0x5c), &inner.digest()])
}

/// The key as one block XOR the pad; a key over 64 bytes is hashed first.
fn keyed(key: &[u8], pad: u8) -> [u8; BLOCK] {
    if key.len() > BLOCK {
        return keyed(&md5(&[key]), pad);
    }
    let mut block = [pad; BLOCK];
    for (byte, key) in block.iter_mut().zip(key) {
        *byte ^= key;
    }
    block
}

const BLOCK: usize = 64;

/// RFC 1321, 3.3: words A, B, C, D.
const START: [u32; 4] = [0x67452301, 0xefcdab89, 0x98badcfe, 0x10325476];

/// RFC 1321, 3.4: the amounts of rotation, by round.
const ROTATIONS: [[u32; 4]; 4] = [[7, 12, 17, 22], [5, 9, 14, 20], [4, 11, 16, 23], [6, 10, 15, 21]];

/// RFC 1321, 3.4: T[i], the integer part of 4294967296 times abs(sin(i)).
#[rustfmt::skip]
const T: [u32; 64] = [
    0xd76aa478, 0xe8c7b756, 0x242070db, 0xc1bdceee, 0xf57c0faf, 0x4787c62a, 0xa8304613, 0xfd469501,
    0x698098d8, 0x8b44f7af, 0xffff5bb1, 0x895cd7be, 0x6b901122, 0xfd987193, 0xa679438e, 0x49b40821,
    0xf61e2562, 0xc040b340, 0x265e5a51, 0xe9b6c7aa, 0xd62f105d, 0x02441453, 0xd8a1e681, 0xe7d3fbc8,
    0x21e1cde6, 0xc33707d6, 0xf4d50d87, 0x455a14ed, 0xa9e3e905, 0xfcefa3f8, 0x676f02d9, 0x8d2a4c8a,
    0xfffa3942, 0x8771f681, 0x6d9d6122, 0xfde5380c, 0xa4beea44, 0x4bdecfa9, 0xf6bb4b60, 0xbebfbc70,
    0x289b7ec6, 0xeaa127fa, 0xd4ef3085, 0x04881d05, 0xd9d4d039, 0xe6db99e5, 0x1fa27cf8, 0xc4ac5665,
    0xf4292244, 0x432aff97, 0xab9423a7, 0xfc93a039, 0x655b59c3, 0x8f0ccc92, 0xffeff47d, 0x85845dd1,
    0x6fa87e4f, 0xfe2ce6e0, 0xa3014314, 0x4e0811a1, 0xf7537e82, 0xbd3af235, 0x2ad7d2bb, 0xeb86d391,
];

/// A digest under way: the state after all whole blocks, and the bytes that wait for theirs.
struct Md5 {
    state: [u32; 4],
    waiting: [u8; BLOCK],
    taken: u64,
}

impl Md5 {
    fn new() -> Self {
        Md5 { state: START, waiting: [0; BLOCK], taken: 0 }
    }

    fn filled(&self) -> usize {
        (self.taken % BLOCK as u64) as usize
    }

    fn take(&mut self, mut bytes: &[u8]) {
        while !bytes.is_empty() {
            let filled = self.filled();
            let (now, later) = bytes.split_at(bytes.len().min(BLOCK - filled));
            self.waiting[filled..filled + now.len()].copy_from_slice(now);
            self.taken = self.taken.wrapping_add(now.len() as u64);
            if self.filled() == 0 {
                self.state = block(self.state, &self.waiting);
            }
            bytes = later;
        }
    }

    /// RFC 1321, 3.1 and 3.2: a one bit, zeros up to 56 of 64 bytes, the length in bits.
    fn digest(mut self) -> Digest {
        let bits = self.taken.wrapping_mul(8);
        self.take(&[0x80]);
        while self.filled() != 56 {
            self.take(&[0]);
        }
        self.take(&bits.to_le_bytes());
        let mut digest = [0; 16];
        for (four, word) in digest.chunks_exact_mut(4).zip(self.state) {
            four.copy_from_slice(&word.to_le_bytes());
        }
        digest
    }
}

/// RFC 1321, 3.4: the four rounds over one block.
fn block(state: [u32; 4], bytes: &[u8; BLOCK]) -> [u32; 4] {
    let mut words = [0; 16];
    for (word, four) in words.iter_mut().zip(bytes.chunks_exact(4)) {
        *word = u32::from_le_bytes([four[0], four[1], four[2], four[3]]);
    }
    let [mut a, mut b, mut c, mut d] = state;
    for i in 0..64 {
        let (mixed, k) = match i / 16 {
            0 => (b & c | !b & d, i),
            1 => (b & d | c & !d, 5 * i + 1),
            2 => (b ^ c ^ d, 3 * i + 5),
            _ => (c ^ (b | !d), 7 * i),
        };
        let sum = a.wrapping_add(mixed).wrapping_add(words[k % 16]).wrapping_add(T[i]);
        let next = b.wrapping_add(sum.rotate_left(ROTATIONS[i / 16][i % 4]));
        (a, b, c, d) = (d, next, b, c);
    }
    let [first, second, third, fourth] = state;
    [first.wrapping_add(a), second.wrapping_add(b), third.wrapping_add(c), fourth.wrapping_add(d)]
}
