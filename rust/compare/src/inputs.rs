//! Inputs for sheetseal and sheetopen: good ones, and ways to damage them.

use crate::random::Random;
use reference::Cipher;

pub const CIPHERS: [Cipher; 3] = [Cipher::Practice, Cipher::Aes, Cipher::Speck];

/// Bytes that are put in the place of others: digits, a capital, what stands beside the digits in ASCII, line ends, and no ASCII.
pub const INTRUDERS: [u8; 14] = [b'0', b'7', b'9', b'a', b'f', b'A', b'g', b'/', b':', b'`', b'\n', b'\r', 0x00, 0xff];

pub fn digits(bytes: &[u8]) -> String {
    bytes.iter().map(|byte| format!("{byte:02x}")).collect()
}

/// Five lines for sheetseal.
pub fn seal_input(cipher: Cipher, key: &[u8], mark: u64, header: &[u8], message: &[u8]) -> Vec<u8> {
    format!("{}\n{}\n{mark:014x}\n{}\n{}\n", cipher.name(), digits(key), digits(header), digits(message)).into_bytes()
}

/// A name, a key and a sheet's lines for sheetopen.
pub fn open_input(cipher: Cipher, key: &[u8], sheet: &[u8]) -> Vec<u8> {
    let mut input = format!("{}\n{}\n", cipher.name(), digits(key)).into_bytes();
    input.extend_from_slice(sheet);
    input
}

/// A sheet's lines by the reference, with a header and a message of these lengths.
pub fn sheet(random: &mut Random, cipher: Cipher, key: &[u8], nonce: u64, tag_len: usize, header: usize, message: usize) -> Vec<u8> {
    let header = random.bytes(header);
    let message = random.bytes(message);
    let made = Cipher::make(cipher, key).expect("a key of the cipher's length");
    let (ciphertext, tag) = reference::chm::seal(&*made, nonce, tag_len, &header, &message);
    reference::lines::text(nonce, &header, &ciphertext, &tag).expect("a sheet within the limits")
}

/// Every front of an input, and the input with some bytes more.
pub fn cut_and_extended(input: &[u8]) -> impl Iterator<Item = Vec<u8>> + '_ {
    let fronts = (0..input.len()).map(move |len| input[..len].to_vec());
    let longer = ["\n", "0", "00\n", "x", "\r\n"].into_iter().map(move |more| [input, more.as_bytes()].concat());
    fronts.chain(longer)
}

/// An input with one byte exchanged, removed or doubled, at every place.
pub fn damaged(input: &[u8]) -> impl Iterator<Item = Vec<u8>> + '_ {
    (0..input.len()).flat_map(move |at| {
        let exchanged = INTRUDERS.iter().map(move |byte| {
            let mut copy = input.to_vec();
            copy[at] = *byte;
            copy
        });
        let removed = [input[..at].to_vec(), input[at + 1..].to_vec()].concat();
        let doubled = [input[..=at].to_vec(), input[at..].to_vec()].concat();
        exchanged.chain([removed, doubled])
    })
}
