//! A block is sixteen bytes, and also a number of 128 bits: big-endian, so the first byte is the highest.

/// How many bytes a block has.
pub const BYTES: usize = 16;

/// The number of a block's bytes.
pub fn from_bytes(bytes: [u8; BYTES]) -> u128 {
    u128::from_be_bytes(bytes)
}

/// The bytes of a block's number.
pub fn to_bytes(block: u128) -> [u8; BYTES] {
    block.to_be_bytes()
}

/// The bytes of several blocks, one behind the other.
pub fn all_bytes(blocks: &[u128]) -> impl Iterator<Item = u8> {
    blocks.iter().flat_map(|block| to_bytes(*block))
}

#[cfg(test)]
mod tests {
    use super::*;

    #[test]
    fn the_first_byte_is_the_highest() {
        let mut bytes = [0; BYTES];
        bytes[0] = 0x80;
        bytes[15] = 0x07;
        assert_eq!(from_bytes(bytes), (1 << 127) + 7);
        assert_eq!(to_bytes((1 << 127) + 7), bytes);
    }

    #[test]
    fn blocks_follow_each_other() {
        let bytes: Vec<u8> = all_bytes(&[1, 2]).collect();
        assert_eq!(bytes.len(), 32);
        assert_eq!((bytes[15], bytes[31]), (1, 2));
    }
}
