//! The polynomial hash. A block is a polynomial over the two-element field, its highest bit the coefficient of x^127; products are
//! modulo x^128 + x^7 + x^2 + x + 1. The string is padded to blocks, and each is added in and multiplied by the key.

use crate::block;

/// x^7 + x^2 + x + 1, which x^128 is equal to.
const OVERFLOW: u128 = 0x87;

/// A block times x.
pub fn double(block: u128) -> u128 {
    let carry = block >> 127;
    (block << 1) ^ (carry * OVERFLOW)
}

/// The product of two blocks: the sum of x^i a over the one bits i of b.
pub fn multiply(a: u128, b: u128) -> u128 {
    let mut sum = 0;
    let mut doubled = a;
    for i in 0..128 {
        sum ^= doubled * ((b >> i) & 1);
        doubled = double(doubled);
    }
    sum
}

/// The blocks of a string with a one bit and the fewest zero bits behind it.
pub fn pad(bytes: &[u8]) -> Vec<u128> {
    let (whole, rest) = bytes.as_chunks::<{ block::BYTES }>();
    let mut last = [0; block::BYTES];
    for (place, byte) in last.iter_mut().zip(rest.iter().chain(&[0x80])) {
        *place = *byte;
    }
    whole.iter().chain([&last]).map(|bytes| block::from_bytes(*bytes)).collect()
}

/// The hash of a string under a key (figure 5).
pub fn hash(key: u128, bytes: &[u8]) -> u128 {
    pad(bytes).into_iter().fold(0, |sum, block| multiply(sum ^ block, key))
}

#[cfg(test)]
mod tests {
    use super::*;
    use crate::samples::Numbers;

    const TOP: u128 = 1 << 127;

    #[test]
    fn products_worked_out() {
        assert_eq!(multiply(TOP, 2), 0x87);
        assert_eq!(multiply(TOP, TOP), (0xc0 << 120) + 0x1067);
    }

    #[test]
    fn laws_of_the_product() {
        let mut numbers = Numbers::new(1);
        for _ in 0..50 {
            let (a, b, c) = (numbers.block(), numbers.block(), numbers.block());
            assert_eq!(multiply(a, b), multiply(b, a));
            assert_eq!(multiply(multiply(a, b), c), multiply(a, multiply(b, c)));
            assert_eq!(multiply(a, b ^ c), multiply(a, b) ^ multiply(a, c));
            assert_eq!(multiply(a, 1), a);
            assert_eq!(multiply(a, 2), double(a));
            assert_eq!(multiply(a, 0), 0);
        }
    }

    /// In the field of 2^128 elements, squaring 128 times changes nothing, and 64 times changes most.
    #[test]
    fn the_blocks_are_a_field() {
        let a = Numbers::new(2).block();
        let squared = |times: u32| (0..times).fold(a, |power, _| multiply(power, power));
        assert_eq!(squared(128), a);
        assert_ne!(squared(64), a);
    }

    /// The product by long division: the polynomials' product in 256 bits, and then the modulus taken off from the top.
    fn by_long_division(a: u128, b: u128) -> u128 {
        let mut bits = [false; 256];
        for i in 0..128 {
            for k in 0..128 {
                bits[i + k] ^= (a >> i) & (b >> k) & 1 == 1;
            }
        }
        for top in (128..256).rev() {
            if bits[top] {
                for power in [128, 7, 2, 1, 0] {
                    bits[top - 128 + power] ^= true;
                }
            }
        }
        (0..128).filter(|i| bits[*i]).map(|i| 1 << i).sum()
    }

    #[test]
    fn doubling_is_long_division() {
        let mut numbers = Numbers::new(3);
        for _ in 0..50 {
            let (a, b) = (numbers.block(), numbers.block());
            assert_eq!(multiply(a, b), by_long_division(a, b));
        }
        assert_eq!(multiply(u128::MAX, u128::MAX), by_long_division(u128::MAX, u128::MAX));
    }

    #[test]
    fn hashes_worked_out() {
        assert_eq!(hash(2, &[]), 0x87);
        assert_eq!(hash(2, &block::to_bytes(1)), 0x83);
    }

    #[test]
    fn padding() {
        assert_eq!(pad(&[]), [TOP]);
        assert_eq!(pad(&[0xab]), [0xab80 << 112]);
        assert_eq!(pad(&[0; 15]), [0x80]);
        assert_eq!(pad(&[0; 16]), [0, TOP]);
        assert_eq!(pad(&[0xff; 17]), [u128::MAX, 0xff80 << 112]);
        assert_eq!(pad(&[0x80]), [0x8080 << 112]);
    }

    #[test]
    fn under_the_key_one_the_hash_is_the_sum_of_the_blocks() {
        let bytes: Vec<u8> = (0..100).collect();
        assert_eq!(hash(1, &bytes), pad(&bytes).into_iter().fold(0, |sum, block| sum ^ block));
    }
}
