//! AES-128 by the substitution table, written from FIPS 197.

pub struct Aes128 {
    round_keys: [[u8; 16]; 11],
    table: [u8; 256],
}

fn times_x(a: u8) -> u8 {
    (a << 1) ^ ((a >> 7) * 0x1b)
}

fn product(mut a: u8, mut b: u8) -> u8 {
    let mut sum = 0;
    while b != 0 {
        if b & 1 == 1 {
            sum ^= a;
        }
        a = times_x(a);
        b >>= 1;
    }
    sum
}

/// The table is worked out from its rule when a cipher is made.
fn substitution_table() -> [u8; 256] {
    let mut table = [0; 256];
    for a in 0..=255u8 {
        let inverse = (0..=255u8).find(|&b| product(a, b) == 1).unwrap_or(0);
        let spread = (0..5).fold(0, |sum, turn| sum ^ inverse.rotate_left(turn));
        table[a as usize] = spread ^ 0x63;
    }
    table
}

impl Aes128 {
    pub fn new(key: &[u8; 16]) -> Self {
        let table = substitution_table();
        let mut round_keys = [*key; 11];
        let mut constant = 1;
        for round in 1..11 {
            let mut k = round_keys[round - 1];
            let last = [k[12], k[13], k[14], k[15]];
            for r in 0..4 {
                k[r] ^= table[last[(r + 1) % 4] as usize];
            }
            k[0] ^= constant;
            for i in 4..16 {
                k[i] ^= k[i - 4];
            }
            constant = times_x(constant);
            round_keys[round] = k;
        }
        Aes128 { round_keys, table }
    }

    pub fn image(&self, block: u128) -> u128 {
        let mut s = block.to_be_bytes();
        add(&mut s, &self.round_keys[0]);
        for round in 1..11 {
            let mut shifted = [0; 16];
            for c in 0..4 {
                for r in 0..4 {
                    shifted[4 * c + r] = self.table[s[4 * ((c + r) % 4) + r] as usize];
                }
            }
            if round < 10 {
                mix(&mut shifted);
            }
            s = shifted;
            add(&mut s, &self.round_keys[round]);
        }
        u128::from_be_bytes(s)
    }
}

fn add(s: &mut [u8; 16], k: &[u8; 16]) {
    for i in 0..16 {
        s[i] ^= k[i];
    }
}

fn mix(s: &mut [u8; 16]) {
    for column in s.chunks_exact_mut(4) {
        let [a, b, c, d] = [column[0], column[1], column[2], column[3]];
        let all = a ^ b ^ c ^ d;
        column[0] ^= all ^ times_x(a ^ b);
        column[1] ^= all ^ times_x(b ^ c);
        column[2] ^= all ^ times_x(c ^ d);
        column[3] ^= all ^ times_x(d ^ a);
    }
}
