// What the program `vectors` must write, from a second MD5 and HMAC-MD5 that share nothing with the crates:
// the table T is worked out from the sine, the rounds are a loop, and bytes are handled by the standard library.
// The digests that the RFCs print are held against it here.

mod rfc;

const SHIFTS: [[u32; 4]; 4] = [[7, 12, 17, 22], [5, 9, 14, 20], [4, 11, 16, 23], [6, 10, 15, 21]];

fn sine(i: usize) -> u32 {
    (4294967296.0 * ((i + 1) as f64).sin().abs()) as u32
}

fn process(state: [u32; 4], block: &[u8]) -> [u32; 4] {
    let x: Vec<u32> = block.chunks(4).map(|b| u32::from_le_bytes(b.try_into().unwrap())).collect();
    let [mut a, mut b, mut c, mut d] = state;
    for i in 0..64 {
        let (f, k) = match i / 16 {
            0 => ((b & c) | (!b & d), i),
            1 => ((b & d) | (c & !d), (5 * i + 1) % 16),
            2 => (b ^ c ^ d, (3 * i + 5) % 16),
            _ => (c ^ (b | !d), 7 * i % 16),
        };
        let sum = a.wrapping_add(f).wrapping_add(x[k]).wrapping_add(sine(i));
        let turned = sum.rotate_left(SHIFTS[i / 16][i % 4]);
        (a, d, c, b) = (d, c, b, b.wrapping_add(turned));
    }
    [state[0].wrapping_add(a), state[1].wrapping_add(b), state[2].wrapping_add(c), state[3].wrapping_add(d)]
}

fn md5(message: &[u8]) -> [u8; 16] {
    let mut padded = message.to_vec();
    padded.push(0x80);
    while padded.len() % 64 != 56 {
        padded.push(0);
    }
    padded.extend((message.len() as u64).wrapping_mul(8).to_le_bytes());
    let mut state = [0x67452301, 0xefcdab89, 0x98badcfe, 0x10325476];
    for block in padded.chunks(64) {
        state = process(state, block);
    }
    let mut digest = [0; 16];
    for (to, word) in digest.chunks_mut(4).zip(state) {
        to.copy_from_slice(&word.to_le_bytes());
    }
    digest
}

fn hmac(key: &[u8], message: &[u8]) -> [u8; 16] {
    let mut block = if key.len() > 64 { md5(key).to_vec() } else { key.to_vec() };
    block.resize(64, 0);
    let keyed = |pad: u8, rest: &[u8]| {
        let mut all: Vec<u8> = block.iter().map(|b| b ^ pad).collect();
        all.extend(rest);
        md5(&all)
    };
    keyed(0x5c, &keyed(0x36, message))
}

fn hex(bytes: &[u8]) -> String {
    bytes.iter().map(|b| format!("{b:02x}")).collect()
}

// Prints a line whose digest the RFC prints too.
fn known(label: &str, digest: [u8; 16], printed: &str) {
    assert_eq!(hex(&digest), printed, "{label}");
    println!("{label} {printed}");
}

fn rfc1321() {
    for (i, (message, printed)) in rfc::MD5.iter().enumerate() {
        known(&format!("rfc1321-{}", i + 1), md5(message.as_bytes()), printed);
    }
}

fn rfc2104_and_2202() {
    for (rfc, count) in [("rfc2104", 3), ("rfc2202", 7)] {
        for (i, (key, message, printed)) in rfc::HMAC.iter().take(count).enumerate() {
            known(&format!("{rfc}-{}", i + 1), hmac(key, message), printed);
        }
    }
}

fn main() {
    rfc1321();
    rfc2104_and_2202();
    let pattern: Vec<u8> = (0..300).map(|i: usize| ((7 * i + 3) % 256) as u8).collect();
    for n in 0..=300 {
        println!("md5-{n} {}", hex(&md5(&pattern[..n])));
    }
    for k in [0, 1, 63, 64, 65, 253] {
        for n in [0, 1, 55, 56, 64, 119, 300] {
            println!("hmac-{k}-{n} {}", hex(&hmac(&pattern[..k], &pattern[..n])));
        }
    }
}
