//! Keystream and hash of CHM, written from the published method.

use crate::aes::Aes128;

/// The keystream as published: a counter goes up, each frame of 256 blocks draws a mask first.
pub fn keystream(cipher: &Aes128, nonce: u64, blocks: usize) -> Vec<u128> {
    let mut counter = u128::from(nonce) << 64;
    let mut stream = Vec::with_capacity(blocks);
    let mut mask = 0;
    for i in 0..blocks {
        if i % 256 == 0 {
            mask = cipher.image(counter);
            counter += 1;
        }
        stream.push(cipher.image(counter) ^ mask);
        counter += 1;
    }
    stream
}

/// A whole message xored with the keystream after its first block.
pub fn crypt(cipher: &Aes128, nonce: u64, message: &mut [u8]) {
    let mut counter = (u128::from(nonce) << 64) + 2;
    let mut mask = cipher.image(u128::from(nonce) << 64);
    for (i, chunk) in message.chunks_mut(16).enumerate() {
        if (i + 1) % 256 == 0 {
            mask = cipher.image(counter);
            counter += 1;
        }
        let block = (cipher.image(counter) ^ mask).to_be_bytes();
        counter += 1;
        for (byte, key) in chunk.iter_mut().zip(block) {
            *byte ^= key;
        }
    }
}

fn double(a: u128) -> u128 {
    (a << 1) ^ ((a >> 127) * 0x87)
}

/// The product modulo x^128 + x^7 + x^2 + x + 1, by doubling and without a branch.
pub fn product(a: u128, b: u128) -> u128 {
    let mut sum = 0;
    let mut shifted = a;
    let mut rest = b;
    for _ in 0..128 {
        sum ^= (rest & 1).wrapping_neg() & shifted;
        shifted = double(shifted);
        rest >>= 1;
    }
    sum
}

pub fn hash(key: u128, bytes: &[u8]) -> u128 {
    let mut sum = 0;
    let mut chunks = bytes.chunks_exact(16);
    for chunk in &mut chunks {
        sum = product(sum ^ u128::from_be_bytes(chunk.try_into().unwrap()), key);
    }
    let mut last = [0; 16];
    let rest = chunks.remainder();
    last[..rest.len()].copy_from_slice(rest);
    last[rest.len()] = 0x80;
    product(sum ^ u128::from_be_bytes(last), key)
}
