//! The limits of a sheet: a tag of 12 to 16 bytes, a nonce of 63 bits, a header of 4,096 and a message of 1,048,576 bytes.

use crate::refusal::{HEADER_LENGTH, MESSAGE_LENGTH, NONCE, Refusal, TAG_LENGTH};

/// The most bytes of a header.
pub const HEADER_MAX: usize = 4_096;
/// The most bytes of a message, and so of a ciphertext.
pub const MESSAGE_MAX: usize = 1_048_576;
/// The fewest bytes of a tag.
pub const TAG_MIN: usize = 12;
/// The most bytes of a tag.
pub const TAG_MAX: usize = 16;
/// The first number that is no nonce.
pub const NONCE_END: u64 = 1 << 63;

/// 4 where a tag may not have this length.
pub fn tag(len: usize) -> Result<(), Refusal> {
    hold((TAG_MIN..=TAG_MAX).contains(&len), TAG_LENGTH)
}

/// 5 where this is no nonce.
pub fn nonce(nonce: u64) -> Result<(), Refusal> {
    hold(nonce < NONCE_END, NONCE)
}

/// 1 where a header may not have this length.
pub fn header(len: usize) -> Result<(), Refusal> {
    hold(len <= HEADER_MAX, HEADER_LENGTH)
}

/// 2 where a message or a ciphertext may not have this length.
pub fn message(len: usize) -> Result<(), Refusal> {
    hold(len <= MESSAGE_MAX, MESSAGE_LENGTH)
}

/// All limits of a sheet in the order in which they are tested: 4, 5, 1, 2.
pub fn sheet(nonce_value: u64, header_bytes: &[u8], ciphertext: &[u8], tag_bytes: &[u8]) -> Result<(), Refusal> {
    tag(tag_bytes.len())?;
    nonce(nonce_value)?;
    header(header_bytes.len())?;
    message(ciphertext.len())
}

fn hold(within: bool, number: u8) -> Result<(), Refusal> {
    if within { Ok(()) } else { Err(Refusal::plain(number)) }
}
