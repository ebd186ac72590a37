//! Speck128/256, as its designers publish it: 34 rounds on two 64-bit words, with a key of four words.

use crate::cipher::BlockCipher;

const ROUNDS: usize = 34;

/// Speck128/256 under a key.
#[derive(Clone, Debug)]
pub struct Speck {
    round_keys: [u64; ROUNDS],
}

impl Speck {
    /// The cipher of a key: the big-endian words l_2, l_1, l_0 and k_0.
    pub fn new(key: [u8; 32]) -> Self {
        let mut words = [0; 4];
        for (word, bytes) in words.iter_mut().zip(key.chunks(8)) {
            *word = bytes.iter().fold(0, |sum, byte| (sum << 8) | u64::from(*byte));
        }
        Speck { round_keys: expand(words) }
    }
}

impl BlockCipher for Speck {
    fn image(&self, block: u128) -> u128 {
        let mut pair = Pair { x: (block >> 64) as u64, y: block as u64 };
        for round_key in self.round_keys {
            pair = pair.round(round_key);
        }
        (u128::from(pair.x) << 64) | u128::from(pair.y)
    }
}

/// The two words that a round works on.
#[derive(Clone, Copy)]
struct Pair {
    x: u64,
    y: u64,
}

impl Pair {
    fn round(self, key: u64) -> Pair {
        let x = self.x.rotate_right(8).wrapping_add(self.y) ^ key;
        let y = self.y.rotate_left(3) ^ x;
        Pair { x, y }
    }
}

/// The key schedule: a round on l_i and k_i, with i in the place of the key, gives l_(i+3) and k_(i+1).
fn expand([l2, l1, l0, k0]: [u64; 4]) -> [u64; ROUNDS] {
    let mut round_keys = [k0; ROUNDS];
    let mut l = [l0, l1, l2];
    for i in 0..ROUNDS - 1 {
        let next = Pair { x: l[i % 3], y: round_keys[i] }.round(i as u64);
        l[i % 3] = next.x;
        round_keys[i + 1] = next.y;
    }
    round_keys
}

#[cfg(test)]
mod tests {
    use super::*;

    #[test]
    fn the_vector_of_the_paper() {
        let key = std::array::from_fn(|place| 31 - place as u8);
        let cipher = Speck::new(key);
        assert_eq!(cipher.round_keys[0], 0x0706050403020100);
        assert_eq!(cipher.image(0x65736f6874206e49_202e72656e6f6f70), 0x4109010405c0f53e_4eeeb48d9c188f43);
    }
}
