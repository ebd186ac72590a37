//! The form of a sheet's lines: the fields of line 1, and how many bytes each line of ciphertext has.

use crate::digits;
use crate::limits::{HEADER_MAX, MESSAGE_MAX, NONCE_END, TAG_MAX, TAG_MIN};
use crate::refusal::{FIELD, Refusal, SHEET_LAYER};

/// The byte that ends a line.
pub const LINE_FEED: u8 = b'\n';
/// How many bytes line 1 tells.
pub const FIELD_BYTES: usize = 15;
/// How many bytes of ciphertext the first line can have: the first frame but for the tag's block.
const FIRST_LINE: usize = 4_080;
/// How many bytes of ciphertext a later line can have: a frame.
const LATER_LINE: usize = 4_096;

/// What line 1 tells.
#[derive(Clone, Copy, Debug, PartialEq, Eq)]
pub struct Fields {
    /// The nonce, in eight bytes.
    pub nonce: u64,
    /// How many bytes the message has, in four.
    pub message_len: u32,
    /// How many bytes the header has, in two.
    pub header_len: u16,
    /// How many bytes the tag has, in one.
    pub tag_len: u8,
}

impl Fields {
    /// The fifteen bytes of line 1.
    pub fn to_bytes(self) -> Vec<u8> {
        let mut bytes = self.nonce.to_be_bytes().to_vec();
        bytes.extend(self.message_len.to_be_bytes());
        bytes.extend(self.header_len.to_be_bytes());
        bytes.extend(self.tag_len.to_be_bytes());
        bytes
    }

    /// The fields that fifteen bytes tell.
    pub fn from_bytes(bytes: [u8; FIELD_BYTES]) -> Self {
        Fields {
            nonce: digits::number(&bytes[..8]),
            message_len: digits::number(&bytes[8..12]) as u32,
            header_len: digits::number(&bytes[12..14]) as u16,
            tag_len: bytes[14],
        }
    }

    /// 13 where a field is outside its range, with the number of the first that is.
    pub fn judge(self) -> Result<(), Refusal> {
        let within = [
            self.nonce < NONCE_END,
            self.message_len as usize <= MESSAGE_MAX,
            usize::from(self.header_len) <= HEADER_MAX,
            (TAG_MIN..=TAG_MAX).contains(&usize::from(self.tag_len)),
        ];
        match (1..).zip(within).find(|(_, within)| !within) {
            Some((field, _)) => Err(Refusal::telling(FIELD, [field, SHEET_LAYER])),
            None => Ok(()),
        }
    }
}

/// How many bytes each line of ciphertext has, for a message of this many.
pub fn ciphertext_lines(message_len: usize) -> Vec<usize> {
    let mut lines = Vec::new();
    let mut left = message_len;
    let mut room = FIRST_LINE;
    while left > 0 {
        let bytes = left.min(room);
        lines.push(bytes);
        left -= bytes;
        room = LATER_LINE;
    }
    lines
}

#[cfg(test)]
mod tests {
    use super::*;

    #[test]
    fn lines_of_the_document() {
        assert_eq!(ciphertext_lines(0), []);
        assert_eq!(ciphertext_lines(1), [1]);
        assert_eq!(ciphertext_lines(4_080), [4_080]);
        assert_eq!(ciphertext_lines(4_081), [4_080, 1]);
        assert_eq!(ciphertext_lines(8_176), [4_080, 4_096]);
        let longest = ciphertext_lines(1_048_576);
        assert_eq!(longest.len(), 257);
        assert_eq!((longest[0], longest[256]), (4_080, 16));
        assert!(longest[1..256].iter().all(|bytes| *bytes == 4_096));
    }

    #[test]
    fn fields_stand_one_behind_the_other() {
        let fields = Fields { nonce: 0x0102030405060708, message_len: 0x090a0b0c, header_len: 0x0d0e, tag_len: 0x0f };
        let bytes: Vec<u8> = (1..=15).collect();
        assert_eq!(fields.to_bytes(), bytes);
        assert_eq!(Fields::from_bytes(std::array::from_fn(|place| place as u8 + 1)), fields);
    }

    #[test]
    fn the_first_field_outside_is_told() {
        let good = Fields { nonce: (1 << 63) - 1, message_len: 1_048_576, header_len: 4_096, tag_len: 16 };
        assert_eq!(good.judge(), Ok(()));
        assert_eq!(Fields { tag_len: 12, ..good }.judge(), Ok(()));
        let told = |field| Err(Refusal { number: 13, values: vec![field, 2] });
        for tag_len in [0, 11, 17, 255] {
            assert_eq!(Fields { tag_len, ..good }.judge(), told(4));
        }
        let bad = Fields { nonce: 1 << 63, message_len: 1_048_577, header_len: 4_097, tag_len: 11 };
        assert_eq!(bad.judge(), told(1));
        assert_eq!(Fields { nonce: 0, ..bad }.judge(), told(2));
        assert_eq!(Fields { nonce: 0, message_len: 0, ..bad }.judge(), told(3));
        assert_eq!(Fields { header_len: 0, ..good }.judge(), Ok(()));
    }
}
