//! What the tests share: ciphers, and numbers that look arbitrary.

use std::cell::RefCell;

use crate::block;
use crate::cipher::{BlockCipher, Cipher};
use crate::practice::Practice;

/// The practice cipher under a key.
pub fn practice(key: u128) -> Practice {
    Practice::new(block::to_bytes(key))
}

/// One cipher of each kind, each under some key.
pub fn ciphers() -> Vec<Box<dyn BlockCipher>> {
    let key: Vec<u8> = (0x40..0x60).collect();
    Cipher::ALL.into_iter().flat_map(|cipher| Cipher::make(cipher, &key[..cipher.key_len()])).collect()
}

/// A cipher that notes which images it was asked for.
pub struct Recorder {
    asked: RefCell<Vec<u128>>,
}

impl Recorder {
    pub fn new() -> Self {
        Recorder { asked: RefCell::new(Vec::new()) }
    }

    pub fn asked(&self) -> Vec<u128> {
        self.asked.borrow().clone()
    }
}

impl BlockCipher for Recorder {
    fn image(&self, block: u128) -> u128 {
        self.asked.borrow_mut().push(block);
        block
    }
}

/// Numbers that look arbitrary and are the same in every run: the generator SplitMix64.
pub struct Numbers {
    state: u64,
}

impl Numbers {
    pub fn new(seed: u64) -> Self {
        Numbers { state: seed }
    }

    pub fn word(&mut self) -> u64 {
        self.state = self.state.wrapping_add(0x9e3779b97f4a7c15);
        let z = (self.state ^ (self.state >> 30)).wrapping_mul(0xbf58476d1ce4e5b9);
        let z = (z ^ (z >> 27)).wrapping_mul(0x94d049bb133111eb);
        z ^ (z >> 31)
    }

    pub fn block(&mut self) -> u128 {
        (u128::from(self.word()) << 64) | u128::from(self.word())
    }

    pub fn below(&mut self, end: usize) -> usize {
        (self.word() % end as u64) as usize
    }

    pub fn bytes(&mut self, len: usize) -> Vec<u8> {
        (0..len).map(|_| self.word() as u8).collect()
    }
}
