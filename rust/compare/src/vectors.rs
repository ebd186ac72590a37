//! Images of blocks: the published vectors of AES-128 and Speck128/256, which both must give, and random keys and blocks.

use crate::family::Family;
use crate::inputs::CIPHERS;
use crate::proved;
use crate::random::Random;
use reference::Cipher;

struct Vector {
    cipher: Cipher,
    key: &'static str,
    block: u128,
    image: u128,
}

/// FIPS 197, appendices B and C.1; the four blocks of SP 800-38A, F.1.1; and the Speck128/256 vector of the paper that defines Speck.
const VECTORS: [Vector; 7] = [
    Vector {
        cipher: Cipher::Aes,
        key: "2b7e151628aed2a6abf7158809cf4f3c",
        block: 0x3243f6a8885a308d313198a2e0370734,
        image: 0x3925841d02dc09fbdc118597196a0b32,
    },
    Vector {
        cipher: Cipher::Aes,
        key: "000102030405060708090a0b0c0d0e0f",
        block: 0x00112233445566778899aabbccddeeff,
        image: 0x69c4e0d86a7b0430d8cdb78070b4c55a,
    },
    Vector {
        cipher: Cipher::Aes,
        key: "2b7e151628aed2a6abf7158809cf4f3c",
        block: 0x6bc1bee22e409f96e93d7e117393172a,
        image: 0x3ad77bb40d7a3660a89ecaf32466ef97,
    },
    Vector {
        cipher: Cipher::Aes,
        key: "2b7e151628aed2a6abf7158809cf4f3c",
        block: 0xae2d8a571e03ac9c9eb76fac45af8e51,
        image: 0xf5d3d58503b9699de785895a96fdbaaf,
    },
    Vector {
        cipher: Cipher::Aes,
        key: "2b7e151628aed2a6abf7158809cf4f3c",
        block: 0x30c81c46a35ce411e5fbc1191a0a52ef,
        image: 0x43b1cd7f598ece23881b00e3ed030688,
    },
    Vector {
        cipher: Cipher::Aes,
        key: "2b7e151628aed2a6abf7158809cf4f3c",
        block: 0xf69f2445df4f9b17ad2b417be66c3710,
        image: 0x7b0c785e27e8ad3f8223207104725dd4,
    },
    Vector {
        cipher: Cipher::Speck,
        key: "1f1e1d1c1b1a191817161514131211100f0e0d0c0b0a09080706050403020100",
        block: 0x65736f6874206e49202e72656e6f6f70,
        image: 0x4109010405c0f53e4eeeb48d9c188f43,
    },
];

fn number_of(cipher: Cipher) -> u8 {
    match cipher {
        Cipher::Practice => 1,
        Cipher::Aes => 2,
        Cipher::Speck => 3,
    }
}

/// The image, or the refusal, as bytes.
fn told(answer: Result<u128, u8>) -> Vec<u8> {
    match answer {
        Ok(image) => image.to_be_bytes().to_vec(),
        Err(refusal) => vec![refusal],
    }
}

fn image(cipher: Cipher, key: &[u8], block: u128) -> Result<u128, u8> {
    Cipher::make(cipher, key).map(|made| made.image(block))
}

fn unhex(text: &str) -> Vec<u8> {
    (0..text.len() / 2).filter_map(|at| u8::from_str_radix(&text[2 * at..2 * at + 2], 16).ok()).collect()
}

pub fn images(random: &mut Random) -> Family {
    let mut family = Family::new("images of blocks: the published vectors with both, and random keys of every length to 40 bytes");
    for vector in VECTORS {
        let key = unhex(vector.key);
        let published = vector.image.to_be_bytes().to_vec();
        family.compare(&key, told(proved::image(number_of(vector.cipher), &key, vector.block)), published.clone());
        family.compare(&key, published, told(image(vector.cipher, &key, vector.block)));
    }
    for cipher in CIPHERS {
        for turn in 0..600 {
            let len = if turn < 400 { cipher.key_len() } else { turn % 41 };
            let key = random.bytes(len);
            let block = u128::from(random.word()) << 64 | u128::from(random.word());
            family.compare(&key, told(proved::image(number_of(cipher), &key, block)), told(image(cipher, &key, block)));
        }
    }
    family
}
