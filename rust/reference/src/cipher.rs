//! A block cipher holds a key and means one function from blocks to blocks; the value of the function at a block is its image.

use crate::aes::Aes128;
use crate::practice::Practice;
use crate::refusal::KEY_LENGTH;
use crate::speck::Speck;

/// A function from blocks to blocks.
pub trait BlockCipher {
    /// The image of a block, both as numbers.
    fn image(&self, block: u128) -> u128;
}

/// The ciphers that there are.
#[derive(Clone, Copy, Debug, PartialEq, Eq)]
pub enum Cipher {
    /// The block xor the key; it keeps nothing secret.
    Practice,
    /// AES-128, of FIPS 197.
    Aes,
    /// Speck128/256.
    Speck,
}

impl Cipher {
    /// All of them.
    pub const ALL: [Cipher; 3] = [Cipher::Practice, Cipher::Aes, Cipher::Speck];

    /// The cipher of a name, if there is one.
    pub fn named(name: &[u8]) -> Option<Cipher> {
        Self::ALL.into_iter().find(|cipher| cipher.name().as_bytes() == name)
    }

    /// The cipher's name.
    pub fn name(self) -> &'static str {
        match self {
            Cipher::Practice => "practice",
            Cipher::Aes => "aes",
            Cipher::Speck => "speck",
        }
    }

    /// How many bytes a key has.
    pub fn key_len(self) -> usize {
        match self {
            Cipher::Practice | Cipher::Aes => 16,
            Cipher::Speck => 32,
        }
    }

    /// The cipher under a key; 7 where the key has not the cipher's length.
    pub fn make(name: Cipher, key: &[u8]) -> Result<Box<dyn BlockCipher>, u8> {
        Ok(match name {
            Cipher::Practice => Box::new(Practice::new(sized(key)?)),
            Cipher::Aes => Box::new(Aes128::new(sized(key)?)),
            Cipher::Speck => Box::new(Speck::new(sized(key)?)),
        })
    }
}

/// The key as an array of the length that is wanted, or 7.
fn sized<const LEN: usize>(key: &[u8]) -> Result<[u8; LEN], u8> {
    key.try_into().map_err(|_| KEY_LENGTH)
}

#[cfg(test)]
mod tests {
    use super::*;

    #[test]
    fn names() {
        for cipher in Cipher::ALL {
            assert_eq!(Cipher::named(cipher.name().as_bytes()), Some(cipher));
        }
        for name in ["", "AES", "aes ", "aes\r", "practic", "speck128"] {
            assert_eq!(Cipher::named(name.as_bytes()), None);
        }
    }

    #[test]
    fn only_the_right_key_length_makes_a_cipher() {
        for cipher in Cipher::ALL {
            for len in 0..70 {
                let answer = Cipher::make(cipher, &vec![0; len]).err();
                assert_eq!(answer, (len != cipher.key_len()).then_some(7));
            }
        }
    }
}
