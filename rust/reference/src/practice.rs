//! The practice cipher: the image is the block xor the key, so figures can be worked out by hand.

use crate::block;
use crate::cipher::BlockCipher;

/// The practice cipher under a key.
#[derive(Clone, Debug)]
pub struct Practice {
    key: u128,
}

impl Practice {
    /// The cipher of a key.
    pub fn new(key: [u8; 16]) -> Self {
        Practice { key: block::from_bytes(key) }
    }
}

impl BlockCipher for Practice {
    fn image(&self, block: u128) -> u128 {
        block ^ self.key
    }
}

#[cfg(test)]
mod tests {
    use super::*;

    #[test]
    fn the_image_is_the_xor() {
        let cipher = Practice::new([0xf0; 16]);
        assert_eq!(cipher.image(0), u128::from_be_bytes([0xf0; 16]));
        assert_eq!(cipher.image(u128::MAX), u128::from_be_bytes([0x0f; 16]));
    }
}
