//! Writing the lines of a sheet. It does not judge the tag.

use super::form::{Fields, LINE_FEED, ciphertext_lines};
use crate::digits;
use crate::limits;
use crate::refusal::{BUFFER, Refusal};

/// Which buffer 8 tells where the lines do not fit.
const LINES_BUFFER: u64 = 0;

/// The lines of a sheet. The tests are, in this order: 4, 5, 1, 2.
pub fn text(nonce: u64, header: &[u8], ciphertext: &[u8], tag: &[u8]) -> Result<Vec<u8>, Refusal> {
    limits::sheet(nonce, header, ciphertext, tag)?;
    let fields = Fields { nonce, message_len: ciphertext.len() as u32, header_len: header.len() as u16, tag_len: tag.len() as u8 };
    let mut text = Vec::new();
    push_line(&mut text, &fields.to_bytes());
    push_line(&mut text, header);
    let mut rest = ciphertext;
    for bytes in ciphertext_lines(ciphertext.len()) {
        let (line, behind) = rest.split_at(bytes);
        push_line(&mut text, line);
        rest = behind;
    }
    push_line(&mut text, tag);
    Ok(text)
}

/// Puts the lines of a sheet to the front of a buffer and tells how many bytes they have; 8, after all other tests, where they do not fit.
pub fn write(nonce: u64, header: &[u8], ciphertext: &[u8], tag: &[u8], out: &mut [u8]) -> Result<usize, Refusal> {
    let text = text(nonce, header, ciphertext, tag)?;
    match out.get_mut(..text.len()) {
        Some(front) => {
            front.copy_from_slice(&text);
            Ok(text.len())
        }
        None => Err(Refusal::telling(BUFFER, [LINES_BUFFER])),
    }
}

fn push_line(text: &mut Vec<u8>, bytes: &[u8]) {
    text.extend(digits::write(bytes));
    text.push(LINE_FEED);
}

#[cfg(test)]
mod tests {
    use super::*;
    use crate::limits::{HEADER_MAX, MESSAGE_MAX, NONCE_END};

    #[test]
    fn the_example_of_the_document() {
        let mut ciphertext = [0; 16];
        ciphertext[15] = 2;
        let mut tag = [0; 16];
        (tag[0], tag[15]) = (0x80, 9);
        let expected = "000000000000000000000010000010\n\n00000000000000000000000000000002\n80000000000000000000000000000009\n";
        let mut out = [b'#'; 100];
        assert_eq!(write(0, &[], &ciphertext, &tag, &mut out), Ok(expected.len()));
        assert_eq!(out[..expected.len()], *expected.as_bytes());
        assert_eq!(out[expected.len()..], [b'#'; 2]);
    }

    #[test]
    fn refusals_in_order() {
        let mut out = [b'#'; 40];
        let (header, ciphertext) = (vec![0; HEADER_MAX + 1], vec![0; MESSAGE_MAX + 1]);
        for tag in [11, 17] {
            assert_eq!(write(NONCE_END, &header, &ciphertext, &vec![0; tag], &mut out), Err(Refusal::plain(4)));
        }
        assert_eq!(write(NONCE_END, &header, &ciphertext, &[0; 16], &mut out), Err(Refusal::plain(5)));
        assert_eq!(write(0, &header, &ciphertext, &[0; 16], &mut out), Err(Refusal::plain(1)));
        assert_eq!(write(0, &header[1..], &ciphertext, &[0; 16], &mut out), Err(Refusal::plain(2)));
        let full = Err(Refusal { number: 8, values: vec![0] });
        assert_eq!(write(0, &header[1..], &ciphertext[1..], &[0; 16], &mut out), full);
        assert_eq!(write(0, &[], &[], &[0; 16], &mut out), full);
        assert_eq!(out, [b'#'; 40]);
    }

    #[test]
    fn a_buffer_of_the_exact_length_does() {
        let len = 31 + 3 + 5 + 25;
        assert_eq!(write(7, &[1], &[2, 3], &[4; 12], &mut vec![0; len]), Ok(len));
        assert_eq!(write(7, &[1], &[2, 3], &[4; 12], &mut vec![0; len - 1]), Err(Refusal { number: 8, values: vec![0] }));
    }
}
