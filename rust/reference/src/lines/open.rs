//! Opening the lines of a sheet: they are read, the buffers measured, the tag confirmed, and only then is anything deciphered.

use super::form::Fields;
use super::read::read;
use crate::chm;
use crate::cipher::BlockCipher;
use crate::refusal::{BUFFER, Refusal};

/// Which buffer 8 tells where the header does not fit.
const HEADER_BUFFER: u64 = 1;
/// Which buffer 8 tells where the message does not fit.
const MESSAGE_BUFFER: u64 = 2;

/// Puts header and message of a sheet to the fronts of two buffers and tells the fields. The faults are those of the lines, then 8 for the
/// header's buffer and 8 for the message's, then 15; all leave both buffers as they were.
pub fn open(cipher: &dyn BlockCipher, text: &[u8], header: &mut [u8], message: &mut [u8]) -> Result<Fields, Refusal> {
    let sheet = read(text)?;
    let header_front = front(header, sheet.header.len(), HEADER_BUFFER)?;
    let message_front = front(message, sheet.ciphertext.len(), MESSAGE_BUFFER)?;
    chm::check(cipher, sheet.nonce, &sheet.header, &sheet.ciphertext, &sheet.tag)?;
    chm::read(cipher, sheet.nonce, &sheet.ciphertext, 0, message_front)?;
    header_front.copy_from_slice(&sheet.header);
    Ok(Fields {
        nonce: sheet.nonce,
        message_len: sheet.ciphertext.len() as u32,
        header_len: sheet.header.len() as u16,
        tag_len: sheet.tag.len() as u8,
    })
}

/// The front of a buffer, or 8 where the buffer is shorter.
fn front(buffer: &mut [u8], len: usize, which: u64) -> Result<&mut [u8], Refusal> {
    buffer.get_mut(..len).ok_or_else(|| Refusal::telling(BUFFER, [which]))
}

#[cfg(test)]
mod tests {
    use super::*;
    use crate::lines::text;
    use crate::samples::{Numbers, ciphers, practice};

    fn sealed(cipher: &dyn BlockCipher, nonce: u64, tag_len: usize, header: &[u8], message: &[u8]) -> Vec<u8> {
        let (ciphertext, tag) = chm::seal(cipher, nonce, tag_len, header, message);
        text(nonce, header, &ciphertext, &tag).expect("all is within the limits")
    }

    /// Opens into buffers of these lengths, and sees to it that a refusal changes neither.
    fn opened(cipher: &dyn BlockCipher, text: &[u8], header_room: usize, message_room: usize) -> Result<Fields, Refusal> {
        let (mut header, mut message) = (vec![0xaa; header_room], vec![0xaa; message_room]);
        let answer = open(cipher, text, &mut header, &mut message);
        if answer.is_err() {
            assert!(header.iter().chain(&message).all(|byte| *byte == 0xaa));
        }
        answer
    }

    #[test]
    fn what_is_sealed_is_opened() {
        let mut numbers = Numbers::new(10);
        for cipher in ciphers() {
            for len in [0, 1, 16, 4_080, 4_081, 8_180] {
                let (header, message) = (numbers.bytes(len % 7), numbers.bytes(len));
                let tag_len = 12 + len % 5;
                let text = sealed(cipher.as_ref(), 99, tag_len, &header, &message);
                let (mut header_room, mut message_room) = (vec![0xaa; header.len() + 2], vec![0xaa; len + 2]);
                let fields = open(cipher.as_ref(), &text, &mut header_room, &mut message_room);
                let expected = Fields { nonce: 99, message_len: len as u32, header_len: header.len() as u16, tag_len: tag_len as u8 };
                assert_eq!(fields, Ok(expected));
                assert_eq!(header_room, [header.as_slice(), &[0xaa; 2]].concat());
                assert_eq!(message_room, [message.as_slice(), &[0xaa; 2]].concat());
            }
        }
    }

    #[test]
    fn the_longest_sheet() {
        let cipher = &ciphers()[1];
        let (header, message) = (vec![3; 4_096], vec![5; 1_048_576]);
        let text = sealed(cipher.as_ref(), (1 << 63) - 1, 16, &header, &message);
        assert_eq!(text.iter().filter(|byte| **byte == b'\n').count(), 260);
        let (mut header_room, mut message_room) = (vec![0; 4_096], vec![0; 1_048_576]);
        assert!(open(cipher.as_ref(), &text, &mut header_room, &mut message_room).is_ok());
        assert!(header_room == header && message_room == message);
    }

    #[test]
    fn buffers_are_measured_after_the_lines_and_before_the_tag() {
        let cipher = practice(3);
        let mut text = sealed(&cipher, 0, 12, b"head", b"message");
        let small = |which| Err(Refusal { number: 8, values: vec![which] });
        assert!(opened(&cipher, &text, 4, 7).is_ok());
        assert_eq!(opened(&cipher, &text, 3, 7), small(1));
        assert_eq!(opened(&cipher, &text, 4, 6), small(2));
        assert_eq!(opened(&cipher, &text, 3, 6), small(1));
        let last = text.len() - 2;
        text[last] = if text[last] == b'0' { b'1' } else { b'0' };
        assert_eq!(opened(&cipher, &text, 3, 7), small(1));
        assert_eq!(opened(&cipher, &text, 4, 6), small(2));
        assert_eq!(opened(&cipher, &text, 4, 7), Err(Refusal { number: 15, values: vec![3] }));
        text.push(b'\n');
        assert_eq!(opened(&cipher, &text, 0, 0), Err(Refusal { number: 14, values: vec![2] }));
    }

    /// Under Practice, which is the first of the ciphers, the nonce falls out of the keystream, so there another one is not found.
    #[test]
    fn every_other_digit_after_the_lengths_is_a_wrong_tag() {
        for (cipher, nonce_digits) in ciphers().iter().zip([0, 16, 16]) {
            let text = sealed(cipher.as_ref(), 2_048, 13, b"hd", b"message text of more than one block");
            for place in (0..nonce_digits).chain(30..text.len()).filter(|place| text[*place] != b'\n') {
                let mut damaged = text.clone();
                damaged[place] = if text[place] == b'1' { b'2' } else { b'1' };
                assert_eq!(opened(cipher.as_ref(), &damaged, 50, 50), Err(Refusal { number: 15, values: vec![3] }));
            }
        }
    }

    #[test]
    fn a_tag_that_was_cut_opens_if_line_1_says_so() {
        let cipher = practice(6);
        let (ciphertext, tag) = chm::seal(&cipher, 5, 16, b"h", b"m");
        for len in 12..=16 {
            let text = text(5, b"h", &ciphertext, &tag[..len]).expect("all is within the limits");
            assert_eq!(opened(&cipher, &text, 1, 1).map(|fields| fields.tag_len), Ok(len as u8));
        }
    }
}
