//! How fast the proved hash and keystream are, beside the same work in ordinary Rust, in one run on one mebibyte.
//! It is a measurement and no test; it stops where the two disagree.

mod aes;
mod chm;

use std::time::Instant;

const BYTES: usize = 1 << 20;
const ROUNDS: usize = 7;

unsafe extern "C" {
    /// The hash of the bytes under the key of two halves, as sixteen bytes.
    fn navreluk_hash(key_high: u64, key_low: u64, bytes: *const u8, len: usize, out: *mut u8, out_len: usize);
    /// The bytes, which stand at a message offset, xored with the keystream of AES under the key; 0, or a refusal's number.
    fn navreluk_xor_aes(key: *const u8, key_len: usize, nonce: u64, offset: u64, bytes: *mut u8, len: usize) -> u8;
}

fn proved_hash(key: u128, bytes: &[u8]) -> u128 {
    let mut out = [0; 16];
    // SAFETY: both slices are valid for their lengths during the call, and the second is not shared.
    unsafe {
        navreluk_hash((key >> 64) as u64, key as u64, bytes.as_ptr(), bytes.len(), out.as_mut_ptr(), out.len());
    }
    u128::from_be_bytes(out)
}

fn proved_crypt(key: &[u8; 16], nonce: u64, message: &mut [u8]) {
    // SAFETY: both slices are valid for their lengths during the call, and the second is not shared.
    let refused = unsafe { navreluk_xor_aes(key.as_ptr(), key.len(), nonce, 0, message.as_mut_ptr(), message.len()) };
    assert_eq!(refused, 0);
}

/// The best time of some rounds, in seconds.
fn best(mut work: impl FnMut()) -> f64 {
    (0..ROUNDS)
        .map(|_| {
            let start = Instant::now();
            work();
            start.elapsed().as_secs_f64()
        })
        .fold(f64::INFINITY, f64::min)
}

fn row(name: &str, proved: f64, ordinary: f64) {
    let speed = |seconds: f64| BYTES as f64 / seconds / 1e6;
    println!("{name:<22} {:>7.1} MB/s {:>7.1} MB/s {:>6.2}", speed(proved), speed(ordinary), proved / ordinary);
}

fn main() {
    let message: Vec<u8> = (0..BYTES).map(|i| (i * 7 + (i >> 9)) as u8).collect();
    let key: [u8; 16] = std::array::from_fn(|i| i as u8);
    let hash_key = 0x0123456789abcdeffedcba9876543210;
    let cipher = aes::Aes128::new(&key);

    assert_eq!(cipher.image(0x00112233445566778899aabbccddeeff), 0x69c4e0d86a7b0430d8cdb78070b4c55a);
    assert_eq!(proved_hash(hash_key, &message), chm::hash(hash_key, &message));
    let (mut ours, mut theirs) = (message.clone(), message.clone());
    proved_crypt(&key, 5, &mut ours);
    chm::crypt(&cipher, 5, &mut theirs);
    assert_eq!(ours, theirs);
    let stream = chm::keystream(&cipher, 5, BYTES / 16 + 1);
    assert_eq!(ours[BYTES - 16..], (u128::from_be_bytes(message[BYTES - 16..].try_into().unwrap()) ^ stream[BYTES / 16]).to_be_bytes());

    println!("{:<22} {:>12} {:>12} {:>6}", "on 1 MiB", "proved", "ordinary", "ratio");
    let mut sum = 0;
    let proved = best(|| sum ^= proved_hash(hash_key, &message));
    let ordinary = best(|| sum ^= chm::hash(hash_key, &message));
    row("hash", proved, ordinary);
    let proved = best(|| proved_crypt(&key, 5, &mut ours));
    let ordinary = best(|| chm::crypt(&cipher, 5, &mut theirs));
    row("keystream, AES-128", proved, ordinary);
    println!("(ratio: time of the proved code over time of the ordinary code, each the best of {ROUNDS}; hashes sum to {sum:x})");
}
