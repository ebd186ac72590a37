//! CHM as published (figure 4): the message is xored with the keystream behind its first block, and the tag is the hash of the
//! ciphertext, the hash of the header and that first block, added up. Check confirms a tag; read deciphers a part.

use crate::block;
use crate::cipher::BlockCipher;
use crate::hash::hash;
use crate::keystream;
use crate::limits;
use crate::refusal::{READ_END, Refusal};

/// 127 one bits and a zero: its image is the ciphertext's hash key.
pub const CONST0: u128 = u128::MAX - 1;
/// 128 one bits: its image is the header's hash key.
pub const CONST1: u128 = u128::MAX;

/// What a tag is made with beside header and ciphertext.
#[derive(Clone, Debug)]
pub struct TagKeys {
    /// The ciphertext's hash key, S0.
    pub ciphertext: u128,
    /// The header's hash key, S1.
    pub header: u128,
    /// The first block of keystream, S2.
    pub first_block: u128,
}

impl TagKeys {
    /// The keys of a cipher and a nonce.
    pub fn new(cipher: &dyn BlockCipher, nonce: u64) -> Self {
        let stream = keystream::of_message(cipher, nonce, 0);
        Self::with_first_block(cipher, stream[0])
    }

    fn with_first_block(cipher: &dyn BlockCipher, first_block: u128) -> Self {
        TagKeys { ciphertext: cipher.image(CONST0), header: cipher.image(CONST1), first_block }
    }

    /// All sixteen bytes of the tag.
    pub fn tag(&self, header: &[u8], ciphertext: &[u8]) -> [u8; 16] {
        block::to_bytes(hash(self.ciphertext, ciphertext) ^ hash(self.header, header) ^ self.first_block)
    }
}

/// The published encryption: the ciphertext and the first `tag_len` bytes of the tag, of which there are at most sixteen. It tests no
/// limits.
pub fn seal(cipher: &dyn BlockCipher, nonce: u64, tag_len: usize, header: &[u8], message: &[u8]) -> (Vec<u8>, Vec<u8>) {
    let stream = keystream::of_message(cipher, nonce, message.len());
    let keys = TagKeys::with_first_block(cipher, stream[0]);
    let ciphertext = xor(message, &stream[1..]);
    let tag = keys.tag(header, &ciphertext).into_iter().take(tag_len).collect();
    (ciphertext, tag)
}

/// The published decryption: the message, or none where the tag is not the first bytes of the one that ciphertext and header give. It
/// tests no limits.
pub fn unseal(cipher: &dyn BlockCipher, nonce: u64, header: &[u8], ciphertext: &[u8], tag: &[u8]) -> Option<Vec<u8>> {
    let stream = keystream::of_message(cipher, nonce, ciphertext.len());
    let keys = TagKeys::with_first_block(cipher, stream[0]);
    keys.tag(header, ciphertext).starts_with(tag).then(|| xor(ciphertext, &stream[1..]))
}

/// Whether this is a sheet's tag; nothing is deciphered. The tests are, in this order: 4, 5, 1, 2, 15.
pub fn check(cipher: &dyn BlockCipher, nonce: u64, header: &[u8], ciphertext: &[u8], tag: &[u8]) -> Result<(), Refusal> {
    limits::sheet(nonce, header, ciphertext, tag)?;
    let right = TagKeys::new(cipher, nonce).tag(header, ciphertext).starts_with(tag);
    if right { Ok(()) } else { Err(Refusal::wrong_tag()) }
}

/// Fills `out` with the message's bytes from an offset on; 6, and `out` as it was, where they would pass the end. It trusts that the sheet
/// was checked.
pub fn read(cipher: &dyn BlockCipher, nonce: u64, ciphertext: &[u8], offset: u64, out: &mut [u8]) -> Result<(), Refusal> {
    let end = u128::from(offset) + out.len() as u128;
    if end > ciphertext.len() as u128 {
        return Err(Refusal::plain(READ_END));
    }
    let stream = keystream::of_message(cipher, nonce, ciphertext.len());
    let message = xor(ciphertext, &stream[1..]);
    out.copy_from_slice(&message[offset as usize..end as usize]);
    Ok(())
}

/// A text xored with the bytes of keystream blocks, as far as it goes.
fn xor(text: &[u8], stream: &[u128]) -> Vec<u8> {
    text.iter().zip(block::all_bytes(stream)).map(|(byte, key)| byte ^ key).collect()
}

#[cfg(test)]
mod tests {
    use super::*;
    use crate::limits::{HEADER_MAX, MESSAGE_MAX, NONCE_END};
    use crate::samples::{Numbers, ciphers, practice};

    #[test]
    fn the_example_worked_out() {
        let cipher = practice(u128::MAX - 3);
        let (ciphertext, tag) = seal(&cipher, 0, 16, &[], &[0; 16]);
        assert_eq!(ciphertext, block::to_bytes(2));
        assert_eq!(tag, block::to_bytes((1 << 127) + 9));
    }

    #[test]
    fn decryption_undoes_encryption() {
        let mut numbers = Numbers::new(4);
        for cipher in ciphers() {
            for len in [0, 1, 15, 16, 17, 4_079, 4_080, 4_081, 8_176, 8_177] {
                let (header, message) = (numbers.bytes(len % 50), numbers.bytes(len));
                let nonce = numbers.word() >> 1;
                for tag_len in 12..=16 {
                    let (ciphertext, tag) = seal(cipher.as_ref(), nonce, tag_len, &header, &message);
                    assert_eq!((ciphertext.len(), tag.len()), (len, tag_len));
                    assert_eq!(check(cipher.as_ref(), nonce, &header, &ciphertext, &tag), Ok(()));
                    assert_eq!(unseal(cipher.as_ref(), nonce, &header, &ciphertext, &tag), Some(message.clone()));
                }
            }
        }
    }

    #[test]
    fn the_ciphertext_is_the_closed_keystream_on_the_message() {
        let mut numbers = Numbers::new(5);
        for cipher in ciphers() {
            let message = numbers.bytes(9_000);
            let (ciphertext, _) = seal(cipher.as_ref(), 12, 16, &[], &message);
            for (offset, (sealed, plain)) in ciphertext.iter().zip(&message).enumerate() {
                assert_eq!(sealed ^ plain, keystream::byte_of(cipher.as_ref(), 12, offset as u128));
            }
        }
    }

    #[test]
    fn a_shorter_tag_is_the_front_of_a_longer_one() {
        let cipher = practice(5);
        let (ciphertext, tag) = seal(&cipher, 3, 16, b"head", b"body");
        for len in 12..=16 {
            assert_eq!(seal(&cipher, 3, len, b"head", b"body").1, tag[..len]);
            assert_eq!(check(&cipher, 3, b"head", &ciphertext, &tag[..len]), Ok(()));
        }
    }

    #[test]
    fn every_changed_bit_is_found() {
        for cipher in ciphers() {
            let cipher = cipher.as_ref();
            let (ciphertext, tag) = seal(cipher, 3, 12, b"head", b"some body of text");
            let wrong = Err(Refusal { number: 15, values: vec![3] });
            for bit in 0..8 * ciphertext.len() {
                let mut changed = ciphertext.clone();
                changed[bit / 8] ^= 1 << (bit % 8);
                assert_eq!(check(cipher, 3, b"head", &changed, &tag), wrong);
                assert_eq!(unseal(cipher, 3, b"head", &changed, &tag), None);
            }
            for bit in 0..8 * tag.len() {
                let mut changed = tag.clone();
                changed[bit / 8] ^= 1 << (bit % 8);
                assert_eq!(check(cipher, 3, b"head", &ciphertext, &changed), wrong);
            }
            for header in [&b"hea"[..], b"heae", b"head\0", b"", b"head\x80"] {
                assert_eq!(check(cipher, 3, header, &ciphertext, &tag), wrong);
            }
        }
    }

    #[test]
    fn another_nonce_is_found_but_not_under_practice() {
        for (cipher, found) in ciphers().iter().zip([false, true, true]) {
            let cipher = cipher.as_ref();
            let (ciphertext, tag) = seal(cipher, 3, 12, b"head", b"some body of text");
            for nonce in [0, 2, 4, NONCE_END - 1] {
                assert_eq!(check(cipher, nonce, b"head", &ciphertext, &tag).is_err(), found);
            }
        }
    }

    #[test]
    fn check_refuses_in_order() {
        let cipher = practice(0);
        let number = |nonce, header, ciphertext, tag| {
            check(&cipher, nonce, &vec![0; header], &vec![0; ciphertext], &vec![0; tag]).map_err(|refusal| refusal.number)
        };
        for tag in [0, 11, 17] {
            assert_eq!(number(NONCE_END, HEADER_MAX + 1, MESSAGE_MAX + 1, tag), Err(4));
        }
        assert_eq!(number(NONCE_END, HEADER_MAX + 1, MESSAGE_MAX + 1, 12), Err(5));
        assert_eq!(number(NONCE_END - 1, HEADER_MAX + 1, MESSAGE_MAX + 1, 16), Err(1));
        assert_eq!(number(NONCE_END - 1, HEADER_MAX, MESSAGE_MAX + 1, 16), Err(2));
        assert_eq!(number(NONCE_END - 1, HEADER_MAX, MESSAGE_MAX, 16), Err(15));
    }

    #[test]
    fn reads_anywhere() {
        let mut numbers = Numbers::new(6);
        for cipher in ciphers() {
            let message = numbers.bytes(4_100);
            let (ciphertext, _) = seal(cipher.as_ref(), 9, 16, &[], &message);
            for (from, to) in [(0, 0), (0, 4_100), (1, 2), (4_078, 4_099), (4_100, 4_100)] {
                let mut out = vec![0; to - from];
                assert_eq!(read(cipher.as_ref(), 9, &ciphertext, from as u64, &mut out), Ok(()));
                assert_eq!(out, message[from..to]);
            }
        }
    }

    #[test]
    fn a_read_past_the_end_changes_nothing() {
        let cipher = practice(7);
        for (offset, len) in [(0, 6), (5, 1), (6, 0), (u64::MAX, 0), (u64::MAX, 3)] {
            let mut out = vec![0xaa; len];
            assert_eq!(read(&cipher, 0, &[0; 5], offset, &mut out), Err(Refusal::plain(6)));
            assert_eq!(out, vec![0xaa; len]);
        }
        assert_eq!(read(&cipher, 0, &[0; 5], 5, &mut []), Ok(()));
    }
}
