//! A sealed sheet as text: lines of digits, each ended by a line feed. Line 1 tells nonce and lengths and so fixes all the others: the
//! header, the ciphertext a frame a line, and the tag.

mod form;
mod open;
mod read;
mod write;

pub use form::{Fields, ciphertext_lines};
pub use open::open;
pub use read::{Sheet, read};
pub use write::{text, write};
