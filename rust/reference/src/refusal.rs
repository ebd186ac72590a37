//! A refusal has a number and, for some numbers, values. A number means the same whoever answers it.

/// What a call answers when it refuses.
#[derive(Clone, Debug, PartialEq, Eq)]
pub struct Refusal {
    /// Which refusal it is.
    pub number: u8,
    /// What it tells besides: for 8 which buffer; for 11 and 12 line, column and layer; for 13 field and layer; for 14 and 15 the layer.
    pub values: Vec<u64>,
}

/// The header passes, or would pass, 4,096 bytes.
pub const HEADER_LENGTH: u8 = 1;
/// The message passes, or would pass, 1,048,576 bytes.
pub const MESSAGE_LENGTH: u8 = 2;
/// The output has another length than the piece.
pub const OUTPUT_LENGTH: u8 = 3;
/// The tag's length is not 12 to 16.
pub const TAG_LENGTH: u8 = 4;
/// The nonce is 2^63 or more.
pub const NONCE: u8 = 5;
/// The read would pass the end.
pub const READ_END: u8 = 6;
/// A key has not its cipher's length.
pub const KEY_LENGTH: u8 = 7;
/// A buffer is too small: 0 for written lines, 1 for the header, 2 for the message.
pub const BUFFER: u8 = 8;
/// A byte in a digit's place is no digit.
pub const NO_DIGIT: u8 = 11;
/// A line ends early or late, or the text ends in it.
pub const LINE_LENGTH: u8 = 12;
/// A field of line 1 is outside its range.
pub const FIELD: u8 = 13;
/// Bytes follow the last line.
pub const TRAILING: u8 = 14;
/// The tag is not the sheet's.
pub const TAG: u8 = 15;
/// The sealer is down until it is restarted.
pub const DOWN: u8 = 21;
/// The mark store is full.
pub const FULL: u8 = 22;
/// The power failed.
pub const POWER: u8 = 23;

/// The number of the line layer.
pub const LINE_LAYER: u64 = 1;
/// The number of the sheet layer.
pub const SHEET_LAYER: u64 = 2;
/// The number of the seal layer.
pub const SEAL_LAYER: u64 = 3;

impl Refusal {
    /// A refusal that tells no values.
    pub fn plain(number: u8) -> Self {
        Refusal { number, values: Vec::new() }
    }

    /// A refusal that tells values.
    pub fn telling<const COUNT: usize>(number: u8, values: [u64; COUNT]) -> Self {
        Refusal { number, values: values.to_vec() }
    }

    /// The tag is not the sheet's: 15, from the seal layer.
    pub fn wrong_tag() -> Self {
        Self::telling(TAG, [SEAL_LAYER])
    }
}
