//! The keystream, twice: as published, by an incremented counter that runs through frames of 256 blocks, each under a mask; and in
//! closed form, which says at once which counters are behind a block.

use crate::block;
use crate::cipher::BlockCipher;

/// How many keystream blocks a frame has.
pub const FRAME: u64 = 256;

/// The counter that a nonce starts at: the nonce, then 64 zero bits. For a nonce of 63 bits the first bit is zero.
pub fn initial_counter(nonce: u64) -> u128 {
    u128::from(nonce) << 64
}

/// The published procedure (figure 2): this many blocks of keystream from a counter on.
pub fn generate(cipher: &dyn BlockCipher, start: u128, blocks: u64) -> Vec<u128> {
    let mut stream = Vec::new();
    let mut counter = start;
    for frame in 0..blocks.div_ceil(FRAME) {
        let mask = cipher.image(counter);
        counter = increment(counter);
        for place in 0..FRAME {
            stream.push(cipher.image(counter) ^ mask);
            counter = increment(counter);
            if FRAME * frame + place + 1 == blocks {
                break;
            }
        }
    }
    stream
}

fn increment(counter: u128) -> u128 {
    counter.wrapping_add(1)
}

/// The whole keystream of a message of this many bytes, as published: one block for the tag, then one for each block of the message.
pub fn of_message(cipher: &dyn BlockCipher, nonce: u64, message_len: usize) -> Vec<u128> {
    let blocks = message_len.div_ceil(block::BYTES) as u64;
    generate(cipher, initial_counter(nonce), blocks + 1)
}

/// The mask of a frame, in closed form.
pub fn mask_of(cipher: &dyn BlockCipher, nonce: u64, frame: u128) -> u128 {
    cipher.image(counter(nonce, first_of_frame(frame)))
}

/// The keystream block of an index, in closed form; index 0 is the tag's.
pub fn block_of(cipher: &dyn BlockCipher, nonce: u64, index: u128) -> u128 {
    let (frame, place) = (index / u128::from(FRAME), index % u128::from(FRAME));
    let own = counter(nonce, first_of_frame(frame).wrapping_add(place + 1));
    cipher.image(own) ^ mask_of(cipher, nonce, frame)
}

/// The keystream's byte for the message's byte at an offset, in closed form.
pub fn byte_of(cipher: &dyn BlockCipher, nonce: u64, offset: u128) -> u8 {
    let bytes = block::to_bytes(block_of(cipher, nonce, message_block(offset)));
    bytes[(offset % 16) as usize]
}

/// The keystream's bytes for a stretch of the message, in closed form, a block at a time.
pub fn stretch(cipher: &dyn BlockCipher, nonce: u64, offset: u64, len: usize) -> Vec<u8> {
    let mut stream = Vec::with_capacity(len);
    while stream.len() < len {
        let position = u128::from(offset) + stream.len() as u128;
        let bytes = block::to_bytes(block_of(cipher, nonce, message_block(position)));
        let wanted = len - stream.len();
        stream.extend(bytes.into_iter().skip((position % 16) as usize).take(wanted));
    }
    stream
}

/// The last counter that a message of this many blocks uses.
pub fn last_counter(blocks: u64) -> u128 {
    let blocks = u128::from(blocks);
    blocks + (blocks + 1).div_ceil(u128::from(FRAME))
}

/// The index of the keystream block that the message's byte at an offset is in.
fn message_block(offset: u128) -> u128 {
    1 + offset / 16
}

/// The number of a frame's first counter: each frame takes one counter more than it has blocks.
fn first_of_frame(frame: u128) -> u128 {
    frame.wrapping_mul(u128::from(FRAME) + 1)
}

/// Counter j of a nonce; modulo 2^128, as the published counter is.
fn counter(nonce: u64, j: u128) -> u128 {
    initial_counter(nonce).wrapping_add(j)
}

#[cfg(test)]
mod tests {
    use super::*;
    use crate::samples::{Recorder, ciphers, practice};

    #[test]
    fn figures_under_practice() {
        for key in [0, u128::MAX, 0x1234] {
            let cipher = practice(key);
            assert_eq!(block_of(&cipher, 0, 0), 1);
            assert_eq!(block_of(&cipher, 0, 255), 256);
            assert_eq!(block_of(&cipher, 0, 256), 3);
            let published = generate(&cipher, 0, 257);
            assert_eq!((published[0], published[255], published[256]), (1, 256, 3));
        }
    }

    #[test]
    fn both_forms_agree() {
        for cipher in ciphers() {
            for nonce in [0, 1, 5_120, (1 << 63) - 1, 1 << 63, u64::MAX] {
                let published = generate(cipher.as_ref(), initial_counter(nonce), 1_030);
                for (index, block) in published.iter().enumerate() {
                    assert_eq!(block_of(cipher.as_ref(), nonce, index as u128), *block);
                }
            }
        }
    }

    #[test]
    fn bytes_are_those_of_the_published_blocks() {
        let len = 4_096 + 37;
        for cipher in ciphers() {
            let blocks = of_message(cipher.as_ref(), 77, len);
            let published: Vec<u8> = block::all_bytes(&blocks[1..]).take(len).collect();
            let closed: Vec<u8> = (0..len).map(|offset| byte_of(cipher.as_ref(), 77, offset as u128)).collect();
            assert_eq!(published, closed);
            for (from, to) in [(0, 0), (0, 1), (3, 40), (15, 17), (16, 32), (4_070, 4_100), (0, len), (len, len)] {
                assert_eq!(stretch(cipher.as_ref(), 77, from as u64, to - from), published[from..to]);
            }
        }
    }

    #[test]
    fn a_stretch_may_pass_64_bits() {
        let cipher = practice(9);
        let bytes = stretch(&cipher, 3, u64::MAX - 1, 40);
        for (k, byte) in bytes.iter().enumerate() {
            assert_eq!(*byte, byte_of(&cipher, 3, u128::from(u64::MAX - 1) + k as u128));
        }
    }

    #[test]
    fn as_many_blocks_as_wanted() {
        let cipher = practice(0);
        for blocks in [0, 1, 2, 255, 256, 257, 511, 512, 513, 1_024] {
            assert_eq!(generate(&cipher, 0, blocks).len() as u64, blocks);
        }
        for (bytes, blocks) in [(0, 1), (1, 2), (16, 2), (17, 3), (4_080, 256), (4_081, 257)] {
            assert_eq!(of_message(&cipher, 0, bytes).len(), blocks);
        }
    }

    #[test]
    fn each_counter_to_the_last_is_used_once() {
        for blocks in [0, 1, 254, 255, 256, 510, 511, 512, 1_000] {
            let recorder = Recorder::new();
            of_message(&recorder, 6, 16 * blocks as usize);
            let counters: Vec<u128> = (0..=last_counter(blocks)).map(|j| (6 << 64) + j).collect();
            assert_eq!(recorder.asked(), counters);
        }
        assert_eq!(last_counter(65_536), 65_793);
    }

    #[test]
    fn the_ends_of_the_types_are_no_trouble() {
        let cipher = practice(1);
        block_of(&cipher, u64::MAX, u128::MAX);
        mask_of(&cipher, u64::MAX, u128::MAX);
        byte_of(&cipher, u64::MAX, u128::MAX);
        assert_eq!(last_counter(u64::MAX), u128::from(u64::MAX) + (1 << 56));
    }
}
