//! The proved code, through its static library: numbers and byte slices, a slice as a pointer and a length.

unsafe extern "C" {
    fn navreluk_image(cipher: u8, key: *const u8, key_len: usize, high: u64, low: u64, out: *mut u8, out_len: usize) -> u8;
    fn navreluk_sheetseal(input: *const u8, input_len: usize, out: *mut u8, out_len: usize) -> usize;
    fn navreluk_sheetopen(input: *const u8, input_len: usize, out: *mut u8, out_len: usize) -> usize;
}

/// Two lines of digits for the longest header and the longest message.
const LONGEST_OUTPUT: usize = 2 * (4096 + 1048576) + 2;

/// The image of a block under the cipher of that number, or what was answered instead.
pub fn image(cipher: u8, key: &[u8], block: u128) -> Result<u128, u8> {
    let mut out = [0; 16];
    // SAFETY: both slices are valid for their lengths during the call, and the second is not shared.
    let answer =
        unsafe { navreluk_image(cipher, key.as_ptr(), key.len(), (block >> 64) as u64, block as u64, out.as_mut_ptr(), out.len()) };
    if answer == 0 { Ok(u128::from_be_bytes(out)) } else { Err(answer) }
}

pub fn sheetseal(input: &[u8]) -> Vec<u8> {
    let mut out = vec![0; 65536];
    // SAFETY: both slices are valid for their lengths during the call, and the second is not shared.
    let count = unsafe { navreluk_sheetseal(input.as_ptr(), input.len(), out.as_mut_ptr(), out.len()) };
    out.truncate(count);
    out
}

pub fn sheetopen(input: &[u8]) -> Vec<u8> {
    let mut out = vec![0; LONGEST_OUTPUT];
    // SAFETY: both slices are valid for their lengths during the call, and the second is not shared.
    let count = unsafe { navreluk_sheetopen(input.as_ptr(), input.len(), out.as_mut_ptr(), out.len()) };
    out.truncate(count);
    out
}
