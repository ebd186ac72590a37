//! Compares the proved code with the second implementation, on many inputs. The seed is fixed and printed; where the two differ, the
//! smallest input that was found is printed. The last line is 'N passed, M failed', a family of inputs each.

mod family;
mod inputs;
mod proved;
mod random;
mod vectors;

use family::Family;
use inputs::CIPHERS;
use random::Random;
use reference::{Cipher, programs};

const SEED: u64 = 0x6e61_7672_656c_756b;

/// Lengths around the edges of blocks and frames.
const LENGTHS: [usize; 24] =
    [0, 1, 2, 15, 16, 17, 31, 32, 33, 255, 256, 257, 4079, 4080, 4081, 4095, 4096, 4097, 8175, 8176, 8177, 16383, 16384, 16385];

const MARKS: [u64; 8] = [0, 1, 7, 1 << 20, (1 << 53) - 1, 1 << 53, (1 << 53) + 1, (1 << 56) - 1];

fn seals(family: &mut Family, input: &[u8]) {
    family.compare(input, proved::sheetseal(input), programs::sheetseal(input));
}

fn opens(family: &mut Family, input: &[u8]) {
    family.compare(input, proved::sheetopen(input), programs::sheetopen(input));
}

fn sealed_lengths(random: &mut Random) -> Family {
    let mut family = Family::new("sheetseal: every length around the edges of blocks, frames and limits");
    for cipher in CIPHERS {
        let key = random.bytes(cipher.key_len());
        for len in LENGTHS {
            let (header, message) = (random.bytes(9), random.bytes(len));
            seals(&mut family, &inputs::seal_input(cipher, &key, 3, &header, &message));
            let (header, message) = (random.bytes(len.min(4097)), random.bytes(20));
            seals(&mut family, &inputs::seal_input(cipher, &key, 3, &header, &message));
        }
    }
    family
}

fn sealed_marks_and_keys(random: &mut Random) -> Family {
    let mut family = Family::new("sheetseal: marks, keys of every length to 40 bytes, and headers over the limit");
    for cipher in CIPHERS {
        for mark in MARKS {
            for header in [0, 4096, 4097] {
                let key = random.bytes(cipher.key_len());
                let (header, message) = (random.bytes(header), random.bytes(33));
                seals(&mut family, &inputs::seal_input(cipher, &key, mark, &header, &message));
            }
        }
        for key_len in 0..=40 {
            for mark in [5, 1 << 53] {
                let key = random.bytes(key_len);
                seals(&mut family, &inputs::seal_input(cipher, &key, mark, b"header", b"message"));
            }
        }
    }
    family
}

fn sealed_damage(random: &mut Random) -> Family {
    let mut family = Family::new("sheetseal: a small input with each byte damaged, cut at each place, and extended");
    for cipher in CIPHERS {
        let key = random.bytes(cipher.key_len());
        let input = inputs::seal_input(cipher, &key, 9, &random.bytes(2), &random.bytes(5));
        inputs::damaged(&input).chain(inputs::cut_and_extended(&input)).for_each(|input| seals(&mut family, &input));
    }
    family
}

fn sealed_long_inputs(random: &mut Random) -> Family {
    let mut family = Family::new("sheetseal: inputs at and past 65,536 bytes");
    let key = random.bytes(16);
    let start = inputs::seal_input(Cipher::Aes, &key, 1, b"", b"").len();
    for header in 13_000..13_003 {
        for total in 65_530..65_545_usize {
            let rest = (total - start).saturating_sub(2 * header) / 2;
            let mut input = inputs::seal_input(Cipher::Aes, &key, 1, &random.bytes(header), &random.bytes(rest));
            seals(&mut family, &input);
            input.resize(total, b'0');
            seals(&mut family, &input);
        }
    }
    // five good lines that end just there, and then more
    let key = random.bytes(16);
    let fill = (65_536 - inputs::seal_input(Cipher::Aes, &key, 1, b"", &[0; 16_384]).len()) / 2;
    for header in [fill - 1, fill, fill + 1] {
        let mut input = inputs::seal_input(Cipher::Aes, &key, 1, &random.bytes(header), &random.bytes(16_384));
        seals(&mut family, &input);
        input.extend_from_slice(&[b'x'; 40]);
        seals(&mut family, &input);
    }
    family
}

fn opened_lengths(random: &mut Random) -> Family {
    let mut family = Family::new("sheetopen: sheets of every length around the edges, all tag lengths, large nonces");
    for cipher in CIPHERS {
        let key = random.bytes(cipher.key_len());
        for (at, len) in LENGTHS.into_iter().enumerate() {
            let nonce = random.word() >> 1;
            let sheet = inputs::sheet(random, cipher, &key, nonce, 12 + at % 5, len.min(4096) / 3, len);
            opens(&mut family, &inputs::open_input(cipher, &key, &sheet));
            let other = random.bytes(cipher.key_len());
            opens(&mut family, &inputs::open_input(cipher, &other, &sheet));
        }
    }
    for (header, message) in [(4096, 1_048_576), (0, 1_048_576), (4096, 1_048_575), (17, 500_000)] {
        let key = random.bytes(16);
        let sheet = inputs::sheet(random, Cipher::Aes, &key, (1 << 63) - 1, 16, header, message);
        opens(&mut family, &inputs::open_input(Cipher::Aes, &key, &sheet));
    }
    family
}

fn opened_damage(random: &mut Random) -> Family {
    let mut family = Family::new("sheetopen: small sheets with each byte damaged, cut at each place, and extended");
    for (cipher, tag_len, header, message) in
        [(Cipher::Practice, 12, 0, 0), (Cipher::Aes, 16, 3, 20), (Cipher::Speck, 13, 1, 1), (Cipher::Aes, 15, 0, 17)]
    {
        let key = random.bytes(cipher.key_len());
        let sheet = inputs::sheet(random, cipher, &key, 77, tag_len, header, message);
        let input = inputs::open_input(cipher, &key, &sheet);
        inputs::damaged(&input).chain(inputs::cut_and_extended(&input)).for_each(|input| opens(&mut family, &input));
    }
    family
}

fn opened_frames(random: &mut Random) -> Family {
    let mut family = Family::new("sheetopen: sheets of several frames, damaged at random places and at the ends of lines");
    let key = random.bytes(16);
    for message in [4080, 4081, 8176, 8177, 12_300] {
        let sheet = inputs::sheet(random, Cipher::Aes, &key, 5, 16, 40, message);
        let input = inputs::open_input(Cipher::Aes, &key, &sheet);
        let feeds = (0..input.len()).filter(|at| input[*at] == b'\n');
        let near: Vec<usize> = feeds.flat_map(|at| [at.saturating_sub(1), at, (at + 1).min(input.len() - 1)]).collect();
        let far: Vec<usize> = (0..60).map(|_| random.below(input.len())).collect();
        for at in near.into_iter().chain(far) {
            let mut copy = input.clone();
            copy[at] = inputs::INTRUDERS[random.below(inputs::INTRUDERS.len())];
            opens(&mut family, &copy);
            copy.truncate(at);
            opens(&mut family, &copy);
        }
    }
    family
}

fn opened_fields(random: &mut Random) -> Family {
    let mut family = Family::new("sheetopen: fields of line 1 at the edges of their ranges");
    let key = random.bytes(16);
    for nonce in [0, (1 << 63) - 1, 1 << 63, u64::MAX] {
        for message in [0, 1, 1_048_576, 1_048_577, u32::MAX] {
            for header in [0, 4096, 4097, u16::MAX] {
                for tag in [0, 11, 12, 16, 17, u8::MAX] {
                    let first = format!("{nonce:016x}{message:08x}{header:04x}{tag:02x}\n");
                    opens(&mut family, &inputs::open_input(Cipher::Practice, &key, first.as_bytes()));
                    let sheet = format!("{first}\n{}\n", inputs::digits(&[7; 16]));
                    opens(&mut family, &inputs::open_input(Cipher::Practice, &key, sheet.as_bytes()));
                }
            }
        }
    }
    family
}

fn opened_random(random: &mut Random) -> Family {
    let mut family = Family::new("sheetseal, then sheetopen of what it printed, on random inputs");
    for turn in 0..400 {
        let cipher = CIPHERS[turn % 3];
        let key = random.bytes(cipher.key_len());
        let (header, message) = (random.below(60), random.below(5000));
        let input = inputs::seal_input(cipher, &key, random.word() >> 12, &random.bytes(header), &random.bytes(message));
        seals(&mut family, &input);
        let sheet = proved::sheetseal(&input);
        opens(&mut family, &inputs::open_input(cipher, &key, &sheet));
    }
    family
}

fn main() {
    println!("seed {SEED:016x}");
    let mut random = Random::new(SEED);
    let families = [
        vectors::images(&mut random),
        sealed_lengths(&mut random),
        sealed_marks_and_keys(&mut random),
        sealed_damage(&mut random),
        sealed_long_inputs(&mut random),
        opened_lengths(&mut random),
        opened_damage(&mut random),
        opened_frames(&mut random),
        opened_fields(&mut random),
        opened_random(&mut random),
    ];
    let results: Vec<bool> = families.into_iter().map(Family::report).collect();
    let passed = results.iter().filter(|equal| **equal).count();
    println!("{passed} passed, {} failed", results.len() - passed);
    if passed < results.len() {
        std::process::exit(1);
    }
}
