//! AES-128, after FIPS 197. The state is sixteen bytes in the block's order: byte 4 c + r stands in column c and row r.

use crate::block;
use crate::cipher::BlockCipher;

const ROUNDS: usize = 10;
const ROUND_CONSTANTS: [u8; ROUNDS] = [0x01, 0x02, 0x04, 0x08, 0x10, 0x20, 0x40, 0x80, 0x1b, 0x36];
const SUBSTITUTION: [u8; 256] = substitution_table();

type State = [u8; 16];

/// AES-128 under a key.
#[derive(Clone, Debug)]
pub struct Aes128 {
    round_keys: [State; ROUNDS + 1],
}

impl Aes128 {
    /// The cipher of a key.
    pub fn new(key: [u8; 16]) -> Self {
        Aes128 { round_keys: expand(key) }
    }
}

impl BlockCipher for Aes128 {
    fn image(&self, block: u128) -> u128 {
        let mut state = add(block::to_bytes(block), self.round_keys[0]);
        for round_key in &self.round_keys[1..ROUNDS] {
            state = add(mix_columns(shift_rows(substitute(state))), *round_key);
        }
        block::from_bytes(add(shift_rows(substitute(state)), self.round_keys[ROUNDS]))
    }
}

/// A byte times x, modulo x^8 + x^4 + x^3 + x + 1.
const fn times_x(byte: u8) -> u8 {
    let carry = byte >> 7;
    (byte << 1) ^ (carry * 0x1b)
}

/// The product of two bytes in the field.
const fn product(a: u8, b: u8) -> u8 {
    let mut sum = 0;
    let mut shifted = a;
    let mut rest = b;
    while rest != 0 {
        if rest & 1 == 1 {
            sum ^= shifted;
        }
        shifted = times_x(shifted);
        rest >>= 1;
    }
    sum
}

/// The inverse of a byte, and 0 for 0: the byte to the power 254 = 2 + 4 + .. + 128, since every byte but 0 to the power 255 is 1.
const fn inverse(byte: u8) -> u8 {
    let mut power = 1;
    let mut square = byte;
    let mut count = 0;
    while count < 7 {
        square = product(square, square);
        power = product(power, square);
        count += 1;
    }
    power
}

/// What a byte is substituted by: bit i is bits i, i+4, i+5, i+6 and i+7 of the inverse (places modulo 8) and bit i of 63, added up.
/// A rotation to the left by 4 brings bit i+4 to place i, one by 3 bit i+5, and so on.
const fn substituted(byte: u8) -> u8 {
    let b = inverse(byte);
    b ^ b.rotate_left(1) ^ b.rotate_left(2) ^ b.rotate_left(3) ^ b.rotate_left(4) ^ 0x63
}

/// The substitutes of all bytes.
const fn substitution_table() -> [u8; 256] {
    let mut table = [0; 256];
    let mut byte = 0;
    while byte < 256 {
        table[byte] = substituted(byte as u8);
        byte += 1;
    }
    table
}

fn substitute(state: State) -> State {
    state.map(|byte| SUBSTITUTION[usize::from(byte)])
}

/// Row r moves r columns to the left.
fn shift_rows(state: State) -> State {
    std::array::from_fn(|place| {
        let (column, row) = (place / 4, place % 4);
        state[4 * ((column + row) % 4) + row]
    })
}

/// Each byte becomes 2, 3, 1 and 1 times itself and the three below it, round and round.
fn mix_columns(state: State) -> State {
    let doubled = state.map(times_x);
    std::array::from_fn(|place| {
        let column = place / 4 * 4;
        let below = |by: usize| column + (place + by) % 4;
        doubled[below(0)] ^ doubled[below(1)] ^ state[below(1)] ^ state[below(2)] ^ state[below(3)]
    })
}

fn add(a: State, b: State) -> State {
    std::array::from_fn(|place| a[place] ^ b[place])
}

fn expand(key: State) -> [State; ROUNDS + 1] {
    let mut round_keys = [key; ROUNDS + 1];
    for (round, constant) in ROUND_CONSTANTS.into_iter().enumerate() {
        round_keys[round + 1] = next_round_key(round_keys[round], constant);
    }
    round_keys
}

/// The first column gets the last one, moved up by a place and substituted, and the constant; each other gets the one before it.
fn next_round_key(old: State, constant: u8) -> State {
    let mut new = old;
    for row in 0..4 {
        new[row] ^= SUBSTITUTION[usize::from(old[12 + (row + 1) % 4])];
    }
    new[0] ^= constant;
    for place in 4..16 {
        new[place] ^= new[place - 4];
    }
    new
}

#[cfg(test)]
mod tests {
    use super::*;

    /// Figure 7 of FIPS 197.
    const PRINTED: &str = "637c777bf26b6fc53001672bfed7ab76ca82c97dfa5947f0add4a2af9ca472c0b7fd9326363ff7cc34a5e5f171d83115\
        04c723c31896059a071280e2eb27b27509832c1a1b6e5aa0523bd6b329e32f8453d100ed20fcb15b6acbbe394a4c58cf\
        d0efaafb434d338545f9027f503c9fa851a3408f929d38f5bcb6da2110fff3d2cd0c13ec5f974417c4a77e3d645d1973\
        60814fdc222a908846eeb814de5e0bdbe0323a0a4906245cc2d3ac629195e479e7c8376d8dd54ea96c56f4ea657aae08\
        ba78252e1ca6b4c6e8dd741f4bbd8b8a703eb5664803f60e613557b986c11d9ee1f8981169d98e949b1e87e9ce5528df\
        8ca1890dbfe6426841992d0fb054bb16";

    #[test]
    fn the_substitution_is_the_printed_table() {
        assert_eq!(crate::digits::read(PRINTED.as_bytes()), Some(SUBSTITUTION.to_vec()));
    }

    #[test]
    fn an_inverse_undoes() {
        assert_eq!(inverse(0), 0);
        for byte in 1..=255 {
            assert_eq!(product(byte, inverse(byte)), 1);
        }
    }

    #[test]
    fn products_of_fips_197() {
        assert_eq!(product(0x57, 0x83), 0xc1);
        assert_eq!(product(0x57, 0x13), 0xfe);
    }

    #[test]
    fn a_round_of_appendix_b() {
        let start = block::to_bytes(0x193de3bea0f4e22b9ac68d2ae9f84808);
        let substituted = substitute(start);
        assert_eq!(block::from_bytes(substituted), 0xd42711aee0bf98f1b8b45de51e415230);
        let shifted = shift_rows(substituted);
        assert_eq!(block::from_bytes(shifted), 0xd4bf5d30e0b452aeb84111f11e2798e5);
        assert_eq!(block::from_bytes(mix_columns(shifted)), 0x046681e5e0cb199a48f8d37a2806264c);
    }

    #[test]
    fn key_expansion_of_appendix_a() {
        let cipher = Aes128::new(block::to_bytes(0x2b7e151628aed2a6abf7158809cf4f3c));
        assert_eq!(block::from_bytes(cipher.round_keys[1]), 0xa0fafe1788542cb123a339392a6c7605);
        assert_eq!(block::from_bytes(cipher.round_keys[10]), 0xd014f9a8c9ee2589e13f0cc8b6630ca6);
    }

    fn check(key: u128, block: u128, image: u128) {
        assert_eq!(Aes128::new(block::to_bytes(key)).image(block), image);
    }

    #[test]
    fn examples_of_fips_197() {
        check(0x2b7e151628aed2a6abf7158809cf4f3c, 0x3243f6a8885a308d313198a2e0370734, 0x3925841d02dc09fbdc118597196a0b32);
        check(0x000102030405060708090a0b0c0d0e0f, 0x00112233445566778899aabbccddeeff, 0x69c4e0d86a7b0430d8cdb78070b4c55a);
    }

    #[test]
    fn electronic_codebook_of_sp_800_38a() {
        let key = 0x2b7e151628aed2a6abf7158809cf4f3c;
        check(key, 0x6bc1bee22e409f96e93d7e117393172a, 0x3ad77bb40d7a3660a89ecaf32466ef97);
        check(key, 0xae2d8a571e03ac9c9eb76fac45af8e51, 0xf5d3d58503b9699de785895a96fdbaaf);
        check(key, 0x30c81c46a35ce411e5fbc1191a0a52ef, 0x43b1cd7f598ece23881b00e3ed030688);
        check(key, 0xf69f2445df4f9b17ad2b417be66c3710, 0x7b0c785e27e8ad3f8223207104725dd4);
    }

    #[test]
    fn known_answers_of_nist() {
        check(0, 0, 0x66e94bd4ef8a2c3b884cfa59ca342b2e);
        check(0, 1 << 127, 0x3ad78e726c1ec02b7ebfe92b23d9ec34);
        check(0, 3 << 126, 0xaae5939c8efdf2f04e60b9fe7117b2c2);
        check(1 << 127, 0, 0x0edd33d3c621e546455bd8ba1418bec8);
        check(0, 0xf34481ec3cc627bacd5dc3fb08f273e6, 0x0336763e966d92595a567cc9ce537f5e);
        check(0x10a58869d74be5a374cf867cfb473859, 0, 0x6d251e6944b051e04eaa6fb4dbf78465);
        check(0x2b7e151628aed2a6abf7158809cf4f3c, 0xf0f1f2f3f4f5f6f7f8f9fafbfcfdfeff, 0xec8cdf7398607cb0f2d21675ea9ea1e4);
    }
}
