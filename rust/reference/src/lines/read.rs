//! Reading the lines of a sheet, byte by byte: the first fault is told, with its line and column.

use super::form::{FIELD_BYTES, Fields, LINE_FEED, ciphertext_lines};
use crate::digits;
use crate::refusal::{LINE_LAYER, LINE_LENGTH, NO_DIGIT, Refusal, SHEET_LAYER, TRAILING};

/// What the lines of a sheet tell.
#[derive(Clone, Debug, PartialEq, Eq)]
pub struct Sheet {
    /// The nonce.
    pub nonce: u64,
    /// The header.
    pub header: Vec<u8>,
    /// The ciphertext, whose length is the message's.
    pub ciphertext: Vec<u8>,
    /// The tag.
    pub tag: Vec<u8>,
}

/// The sheet that a text tells. The faults are 11 and 12 of line 1, 13, then 11 and 12 of the other lines, then 14.
pub fn read(text: &[u8]) -> Result<Sheet, Refusal> {
    let mut lines = Lines { rest: text, line: 0 };
    let fields = Fields::from_bytes(lines.array()?);
    fields.judge()?;
    let header = lines.line(fields.header_len.into())?;
    let mut ciphertext = Vec::new();
    for bytes in ciphertext_lines(fields.message_len as usize) {
        ciphertext.extend(lines.line(bytes)?);
    }
    let tag = lines.line(fields.tag_len.into())?;
    lines.end()?;
    Ok(Sheet { nonce: fields.nonce, header, ciphertext, tag })
}

/// The text that is not read yet, and the number of the line that was read last.
struct Lines<'a> {
    rest: &'a [u8],
    line: u64,
}

impl Lines<'_> {
    /// The next line, which is to have this many bytes.
    fn line(&mut self, bytes: usize) -> Result<Vec<u8>, Refusal> {
        self.line += 1;
        let mut line = Vec::new();
        let mut column = 1;
        for _ in 0..bytes {
            let high = self.digit(column)?;
            let low = self.digit(column + 1)?;
            line.push(16 * high + low);
            column += 2;
        }
        self.line_feed(column)?;
        Ok(line)
    }

    /// Line 1, as an array.
    fn array(&mut self) -> Result<[u8; FIELD_BYTES], Refusal> {
        let mut array = [0; FIELD_BYTES];
        for (place, byte) in array.iter_mut().zip(self.line(FIELD_BYTES)?) {
            *place = byte;
        }
        Ok(array)
    }

    /// The digit in this column.
    fn digit(&mut self, column: u64) -> Result<u8, Refusal> {
        match self.next() {
            None | Some(LINE_FEED) => Err(self.fault(LINE_LENGTH, column)),
            Some(byte) => digits::value(byte).ok_or_else(|| self.fault(NO_DIGIT, column)),
        }
    }

    /// The line's end in this column.
    fn line_feed(&mut self, column: u64) -> Result<(), Refusal> {
        match self.next() {
            Some(LINE_FEED) => Ok(()),
            _ => Err(self.fault(LINE_LENGTH, column)),
        }
    }

    /// The text's end.
    fn end(&self) -> Result<(), Refusal> {
        if self.rest.is_empty() { Ok(()) } else { Err(Refusal::telling(TRAILING, [SHEET_LAYER])) }
    }

    fn next(&mut self) -> Option<u8> {
        let (byte, rest) = self.rest.split_first()?;
        self.rest = rest;
        Some(*byte)
    }

    fn fault(&self, number: u8, column: u64) -> Refusal {
        Refusal::telling(number, [self.line, column, LINE_LAYER])
    }
}

#[cfg(test)]
mod tests {
    use super::*;
    use crate::lines::text;
    use crate::samples::Numbers;

    fn refused(text: &[u8]) -> (u8, Vec<u64>) {
        let refusal = read(text).expect_err("the text is faulty");
        (refusal.number, refusal.values)
    }

    /// The line and the column of each place of a text, the place behind its end too.
    fn places(text: &[u8]) -> Vec<(u64, u64)> {
        let mut places = vec![(1, 1)];
        for byte in text {
            let (line, column) = places[places.len() - 1];
            places.push(if *byte == LINE_FEED { (line + 1, 1) } else { (line, column + 1) });
        }
        places
    }

    fn samples() -> Vec<Vec<u8>> {
        let mut numbers = Numbers::new(8);
        let sizes = [(0, 0, 12), (0, 3, 16), (2, 0, 13), (1, 2, 14), (5, 4_083, 15)];
        let mut sample = |(header, message, tag)| {
            let (header, message, tag) = (numbers.bytes(header), numbers.bytes(message), numbers.bytes(tag));
            text(77, &header, &message, &tag).expect("all is within the limits")
        };
        sizes.into_iter().map(&mut sample).collect()
    }

    /// Places to damage: all of a short text, and some hundreds of a long one with all line ends.
    fn chosen(text: &[u8]) -> Vec<usize> {
        let near_end = |place: usize| text[place..text.len().min(place + 3)].contains(&LINE_FEED);
        (0..text.len()).filter(|place| text.len() < 300 || place % 97 == 0 || near_end(*place)).collect()
    }

    #[test]
    fn what_is_written_is_read() {
        let mut numbers = Numbers::new(9);
        for len in [0, 1, 4_080, 4_081, 8_176, 8_177] {
            let (header, ciphertext, tag) = (numbers.bytes(len / 3), numbers.bytes(len), numbers.bytes(12 + len % 5));
            let lines = text(len as u64, &header, &ciphertext, &tag).expect("all is within the limits");
            assert_eq!(read(&lines), Ok(Sheet { nonce: len as u64, header, ciphertext, tag }));
        }
    }

    #[test]
    fn a_byte_that_is_no_digit() {
        for sample in samples() {
            let places = places(&sample);
            for place in chosen(&sample) {
                let (line, column) = places[place];
                for byte in [b'g', b'A', b'F', b'\r', b' ', b'/', b':', b'`', 0, 0x80, 0xff] {
                    let mut damaged = sample.clone();
                    damaged[place] = byte;
                    let number = if sample[place] == LINE_FEED { 12 } else { 11 };
                    assert_eq!(refused(&damaged), (number, vec![line, column, 1]));
                }
            }
        }
    }

    #[test]
    fn a_line_that_ends_early() {
        for sample in samples() {
            let places = places(&sample);
            for place in chosen(&sample).into_iter().filter(|place| sample[*place] != LINE_FEED) {
                let (line, column) = places[place];
                let mut damaged = sample.clone();
                damaged[place] = LINE_FEED;
                assert_eq!(refused(&damaged), (12, vec![line, column, 1]));
            }
        }
    }

    #[test]
    fn a_line_that_ends_late() {
        for sample in samples() {
            let places = places(&sample);
            for place in chosen(&sample).into_iter().filter(|place| sample[*place] == LINE_FEED) {
                let (line, column) = places[place];
                for byte in [b'0', b'g', b'\r'] {
                    let mut damaged = sample.clone();
                    damaged.insert(place, byte);
                    assert_eq!(refused(&damaged), (12, vec![line, column, 1]));
                }
            }
        }
    }

    #[test]
    fn a_text_that_ends_early() {
        for sample in samples() {
            let places = places(&sample);
            for place in chosen(&sample) {
                let (line, column) = places[place];
                assert_eq!(refused(&sample[..place]), (12, vec![line, column, 1]));
            }
        }
        assert_eq!(refused(b""), (12, vec![1, 1, 1]));
        assert_eq!(refused(b"\n"), (12, vec![1, 1, 1]));
    }

    #[test]
    fn bytes_behind_the_last_line() {
        for sample in samples() {
            for behind in ["\n", "0", "g", " ", "\r\n"] {
                assert_eq!(refused(&[&sample, behind.as_bytes()].concat()), (14, vec![2]));
            }
        }
    }

    #[test]
    fn fields_are_judged_between_line_1_and_line_2() {
        let bad = [
            ("800000000000000000100001100111", 1),
            ("7fffffffffffffff00100001100111", 2),
            ("7fffffffffffffff00100000100111", 3),
            ("7fffffffffffffff0010000010000b", 4),
            ("000000000000000000000000000011", 4),
        ];
        for (line, field) in bad {
            for behind in ["\n", "\n\n", "\nx", "\n00"] {
                assert_eq!(refused(&[line, behind].concat().into_bytes()), (13, vec![field, 2]));
            }
            for behind in ["", "0\n", "\r\n"] {
                assert_eq!(refused(&[line, behind].concat().into_bytes()), (12, vec![1, 31, 1]));
            }
        }
    }

    #[test]
    fn the_first_fault_is_told() {
        let sample = b"00000000000000000000000100010c\nAB\n0\n000000000000000000000000\nmore";
        assert_eq!(refused(sample), (11, vec![2, 1, 1]));
        let sample = b"00000000000000000000000100010c\nab\n0\n000000000000000000000000\nmore";
        assert_eq!(refused(sample), (12, vec![3, 2, 1]));
        let sample = b"00000000000000000000000100010c\nab\n00\n00000000000000000000000\nmore";
        assert_eq!(refused(sample), (12, vec![4, 24, 1]));
    }
}
