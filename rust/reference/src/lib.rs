//! A second, independent implementation of the sealing library: CHM over AES-128, Speck128/256 or the practice cipher, a sealer
//! that issues nonces from a mark store, and sealed sheets as lines of text.
//!
//! It is written from the documents and the published method alone, so that its results can be held against those of the proved
//! implementation. It prefers the plain definition to the fast way wherever both are at hand.

pub mod aes;
pub mod block;
pub mod chm;
pub mod cipher;
pub mod digits;
pub mod hash;
pub mod keystream;
pub mod limits;
pub mod lines;
pub mod practice;
pub mod programs;
pub mod refusal;
pub mod sealer;
pub mod speck;
pub mod store;

#[cfg(test)]
mod samples;

pub use cipher::{BlockCipher, Cipher};
pub use refusal::Refusal;
