//! The programs sheetseal and sheetopen, as functions from the bytes that go in to those that come out.

use crate::cipher::{BlockCipher, Cipher};
use crate::digits;
use crate::limits::{HEADER_MAX, MESSAGE_MAX};
use crate::lines;
use crate::refusal::{FIELD, LINE_LENGTH, NO_DIGIT, Refusal, TAG, TRAILING};
use crate::sealer::Sealer;
use crate::store::Register;

/// What lies behind this many bytes of sheetseal's input does not exist.
const SEAL_INPUT_MAX: usize = 65_536;
/// The most bytes of a message that sheetseal takes.
const SEAL_MESSAGE_MAX: usize = 16_384;
/// How many digits sheetseal's mark has.
const MARK_DIGITS: usize = 14;
/// How many bytes a tag of sheetseal has.
const SEAL_TAG: usize = 16;

/// Seals the sheet that five lines tell, or says in a line why not.
pub fn sheetseal(input: &[u8]) -> Vec<u8> {
    let input = input.get(..SEAL_INPUT_MAX).unwrap_or(input);
    answer(Order::read(input).and_then(Order::seal))
}

/// Opens the sheet behind the lines of a cipher and a key, or says in a line why not.
pub fn sheetopen(input: &[u8]) -> Vec<u8> {
    answer(open_sheet(input))
}

/// Why a program prints no sheet.
#[derive(Debug)]
enum Stop {
    BadLine(u64),
    Refused(Refusal),
}

impl From<Refusal> for Stop {
    fn from(refusal: Refusal) -> Stop {
        Stop::Refused(refusal)
    }
}

fn answer(result: Result<Vec<u8>, Stop>) -> Vec<u8> {
    match result {
        Ok(output) => output,
        Err(Stop::BadLine(number)) => format!("bad line {number}\n").into_bytes(),
        Err(Stop::Refused(refusal)) => format!("{}\n", sentence(&refusal)).into_bytes(),
    }
}

/// A refusal in words, with the names of its values.
fn sentence(refusal: &Refusal) -> String {
    let names: &[&str] = match refusal.number {
        NO_DIGIT | LINE_LENGTH => &["line", "column", "layer"],
        FIELD => &["field", "layer"],
        TRAILING | TAG => &["layer"],
        _ => &[],
    };
    let mut sentence = format!("refused {}", refusal.number);
    for (name, value) in names.iter().zip(&refusal.values) {
        let value = if *name == "layer" { layer_name(*value) } else { value.to_string() };
        sentence += &format!(" {name} {value}");
    }
    sentence
}

fn layer_name(layer: u64) -> String {
    match layer {
        1 => "line".into(),
        2 => "sheet".into(),
        3 => "seal".into(),
        other => other.to_string(),
    }
}

/// Input that is read line by line; the line that was read last has this number.
struct Input<'a> {
    rest: &'a [u8],
    line: u64,
}

impl<'a> Input<'a> {
    fn new(rest: &'a [u8]) -> Self {
        Input { rest, line: 0 }
    }

    /// The next line as its form has it; it is bad where the form has nothing for it, and where it is missing or has no line feed.
    fn line<T>(&mut self, form: impl FnOnce(&'a [u8]) -> Option<T>) -> Result<T, Stop> {
        self.line += 1;
        let line = self.next_line().and_then(form);
        line.ok_or(Stop::BadLine(self.line))
    }

    fn next_line(&mut self) -> Option<&'a [u8]> {
        let end = self.rest.iter().position(|byte| *byte == b'\n')?;
        let (line, behind) = self.rest.split_at(end);
        self.rest = behind.get(1..).unwrap_or_default();
        Some(line)
    }

    /// The end; bytes behind the last line are told as one more line.
    fn end(&self) -> Result<(), Stop> {
        if self.rest.is_empty() { Ok(()) } else { Err(Stop::BadLine(self.line + 1)) }
    }
}

/// The cipher of a name under a key, or 7.
fn make(cipher: Cipher, key: &[u8]) -> Result<Box<dyn BlockCipher>, Stop> {
    Cipher::make(cipher, key).map_err(|number| Refusal::plain(number).into())
}

/// What sheetseal is to do.
struct Order {
    cipher: Cipher,
    key: Vec<u8>,
    mark: u64,
    header: Vec<u8>,
    message: Vec<u8>,
}

impl Order {
    fn read(input: &[u8]) -> Result<Order, Stop> {
        let mut input = Input::new(input);
        let order = Order {
            cipher: input.line(Cipher::named)?,
            key: input.line(digits::read)?,
            mark: input.line(mark)?,
            header: input.line(digits::read)?,
            message: input.line(short_message)?,
        };
        input.end()?;
        Ok(order)
    }

    fn seal(self) -> Result<Vec<u8>, Stop> {
        let cipher = make(self.cipher, &self.key)?;
        let mut sealer = Sealer::new(cipher, Register::new(self.mark, u32::MAX, 0));
        let mut draft = sealer.begin(SEAL_TAG)?;
        draft.head(&self.header)?;
        let mut ciphertext = vec![0; self.message.len()];
        draft.body(sealer.cipher(), &self.message, &mut ciphertext)?;
        let sealed = draft.finish();
        Ok(lines::text(sealed.nonce, &self.header, &ciphertext, sealed.tag())?)
    }
}

fn mark(line: &[u8]) -> Option<u64> {
    let bytes = digits::read(line)?;
    (line.len() == MARK_DIGITS).then(|| digits::number(&bytes))
}

fn short_message(line: &[u8]) -> Option<Vec<u8>> {
    digits::read(line).filter(|message| message.len() <= SEAL_MESSAGE_MAX)
}

fn open_sheet(input: &[u8]) -> Result<Vec<u8>, Stop> {
    let mut input = Input::new(input);
    let name = input.line(Cipher::named)?;
    let key = input.line(digits::read)?;
    let cipher = make(name, &key)?;
    let (mut header, mut message) = (vec![0; HEADER_MAX], vec![0; MESSAGE_MAX]);
    let fields = lines::open(cipher.as_ref(), input.rest, &mut header, &mut message)?;
    header.truncate(fields.header_len.into());
    message.truncate(fields.message_len as usize);
    Ok([digits::write(&header), digits::write(&message), Vec::new()].join(&b'\n'))
}

#[cfg(test)]
mod tests {
    use super::*;
    use crate::chm;
    use crate::samples::Numbers;

    const KEY: &str = "fffffffffffffffffffffffffffffffc";
    const MARK: &str = "00000000000000";
    const ZEROS: &str = "00000000000000000000000000000000";

    fn sealed(input: &str) -> String {
        String::from_utf8(sheetseal(input.as_bytes())).expect("the output is text")
    }

    fn opened(input: &str) -> String {
        String::from_utf8(sheetopen(input.as_bytes())).expect("the output is text")
    }

    fn joined(lines: &[&str]) -> String {
        lines.iter().map(|line| format!("{line}\n")).collect()
    }

    fn hex(bytes: &[u8]) -> String {
        String::from_utf8(digits::write(bytes)).expect("digits are text")
    }

    #[test]
    fn the_printed_examples() {
        let sheet = "000000000000000000000010000010\n\n00000000000000000000000000000002\n80000000000000000000000000000009\n";
        assert_eq!(sealed(&joined(&["practice", KEY, MARK, "", ZEROS])), sheet);
        assert_eq!(opened(&(joined(&["practice", KEY]) + sheet)), joined(&["", ZEROS]));
    }

    #[test]
    fn there_and_back() {
        let mut numbers = Numbers::new(11);
        for cipher in Cipher::ALL {
            for (header_len, message_len) in [(0, 0), (1, 1), (4_096, 16_384), (7, 4_081), (30, 0)] {
                let key = numbers.bytes(cipher.key_len());
                let (header, message) = (numbers.bytes(header_len), numbers.bytes(message_len));
                let mark = numbers.word() >> 11;
                let input = joined(&[cipher.name(), &hex(&key), &format!("{mark:014x}"), &hex(&header), &hex(&message)]);
                let sheet = sealed(&input);
                let made = Cipher::make(cipher, &key).unwrap_or_else(|_| unreachable!("the length is right"));
                let (ciphertext, tag) = chm::seal(made.as_ref(), mark * 1_024, 16, &header, &message);
                assert_eq!(sheet.as_bytes(), lines::text(mark * 1_024, &header, &ciphertext, &tag).expect("all is within the limits"));
                let back = opened(&(joined(&[cipher.name(), &hex(&key)]) + &sheet));
                assert_eq!(back, joined(&[&hex(&header), &hex(&message)]));
            }
        }
    }

    #[test]
    fn a_bad_line_is_told() {
        let good = ["practice", KEY, MARK, "", ZEROS];
        let bad: [&[&str]; 5] = [
            &["", "Practice", "practice ", "practice\r", "des", "aes128"],
            &["0", "0g", "FF", "00 ", " 00", "00\r"],
            &["", "0000000000000", "000000000000000", "0000000000000g", "0000000000000A", "0000000000000000"],
            &["0", "0G", "ab\r", "x"],
            &["0", "0G", "ab\r", "x", &"0".repeat(32_770), &"0".repeat(32_769)],
        ];
        for (place, lines) in bad.iter().enumerate() {
            for line in *lines {
                let mut input = good;
                input[place] = line;
                assert_eq!(sealed(&joined(&input)), format!("bad line {}\n", place + 1));
                input[place + 1..].fill("?");
                assert_eq!(sealed(&(joined(&input) + "more")), format!("bad line {}\n", place + 1));
            }
        }
        assert!(sealed(&joined(&["practice", KEY, MARK, "", &"0".repeat(32_768)])).starts_with("0000"));
    }

    #[test]
    fn a_line_without_its_end_is_bad() {
        let good = joined(&["practice", KEY, MARK, "ab", ZEROS]);
        for end in 0..good.len() {
            let line = 1 + good[..end].matches('\n').count();
            assert_eq!(sealed(&good[..end]), format!("bad line {line}\n"));
        }
        for behind in ["\n", "0", "\r\n", "\n\n"] {
            assert_eq!(sealed(&format!("{good}{behind}")), "bad line 6\n");
        }
    }

    #[test]
    fn refusals_of_sealing_in_order() {
        let long = "00".repeat(4_097);
        let full = "20000000000000";
        assert_eq!(sealed(&joined(&["practice", "", full, &long, ""])), "refused 7\n");
        assert_eq!(sealed(&joined(&["aes", &"00".repeat(32), full, &long, ""])), "refused 7\n");
        assert_eq!(sealed(&joined(&["speck", KEY, full, &long, ""])), "refused 7\n");
        assert_eq!(sealed(&joined(&["practice", KEY, full, &long, ""])), "refused 22\n");
        assert_eq!(sealed(&joined(&["practice", KEY, "ffffffffffffff", &long, ""])), "refused 22\n");
        assert_eq!(sealed(&joined(&["practice", KEY, "1fffffffffffff", &long, ""])), "refused 1\n");
        assert!(sealed(&joined(&["practice", KEY, "1fffffffffffff", &long[2..], ""])).starts_with("7ffffffffffffc0000000000100010\n00"));
        assert_eq!(sealed(&(joined(&["practice", "", full, &long, ""]) + "\n")), "bad line 6\n");
    }

    #[test]
    fn what_lies_behind_65536_bytes_does_not_exist() {
        let lines = |header: usize, message: usize| joined(&["aes", KEY, MARK, &"0".repeat(header), &"0".repeat(message)]);
        let room = 65_536 - lines(0, 0).len();
        let exact = lines(room - 32_768, 32_768);
        assert_eq!(exact.len(), 65_536);
        assert_eq!(sealed(&exact), "refused 1\n");
        assert_eq!(sealed(&(exact.clone() + "more")), "refused 1\n");
        assert_eq!(sealed(&lines(room - 32_766, 32_768)), "bad line 5\n");
        assert_eq!(sealed(&lines(room + 2, 0)), "bad line 4\n");
        assert_eq!(sealed(&(lines(room - 32_770, 32_768) + "\n\n\n")), "bad line 6\n");
        assert_eq!(sealed(&joined(&["practice", &"0".repeat(70_000)])), "bad line 2\n");
    }

    #[test]
    fn answers_of_sheetopen() {
        let sheet = sealed(&joined(&["practice", KEY, MARK, "ab", "0102"]));
        let with = |name: &str, key: &str, sheet: &str| opened(&format!("{name}\n{key}\n{sheet}"));
        assert_eq!(with("practice", KEY, &sheet), "ab\n0102\n");
        assert_eq!(with("none", "x", "x"), "bad line 1\n");
        assert_eq!(with("aes", "abc", "x"), "bad line 2\n");
        assert_eq!(with("aes", "AB", "x"), "bad line 2\n");
        assert_eq!(opened(""), "bad line 1\n");
        assert_eq!(opened("aes"), "bad line 1\n");
        assert_eq!(opened("aes\n"), "bad line 2\n");
        assert_eq!(opened(&format!("aes\n{KEY}")), "bad line 2\n");
        assert_eq!(with("aes", "", "x"), "refused 7\n");
        assert_eq!(with("speck", KEY, "x"), "refused 7\n");
        assert_eq!(with("aes", KEY, ""), "refused 12 line 1 column 1 layer line\n");
        assert_eq!(with("aes", KEY, "x"), "refused 11 line 1 column 1 layer line\n");
        assert_eq!(with("practice", KEY, &sheet.replace("ab", "aB")), "refused 11 line 2 column 2 layer line\n");
        assert_eq!(with("practice", KEY, &sheet.replace("ab", "abc")), "refused 12 line 2 column 3 layer line\n");
        assert_eq!(with("practice", KEY, &sheet.replace("ab\n", "")), "refused 12 line 2 column 3 layer line\n");
        assert_eq!(with("practice", KEY, "f00000000000000000000010000010\n"), "refused 13 field 1 layer sheet\n");
        assert_eq!(with("practice", KEY, "000000000000000000000010000011\n"), "refused 13 field 4 layer sheet\n");
        assert_eq!(with("practice", KEY, &(sheet.clone() + "\n")), "refused 14 layer sheet\n");
        assert_eq!(with("aes", KEY, &sheet), "refused 15 layer seal\n");
        assert_eq!(with("practice", KEY, &sheet.replace("ab", "ac")), "refused 15 layer seal\n");
    }

    #[test]
    fn bytes_that_are_no_text_are_no_trouble() {
        let mut numbers = Numbers::new(12);
        for len in 0..200 {
            let bytes = numbers.bytes(len);
            assert_eq!(sheetseal(&bytes), b"bad line 1\n");
            assert_eq!(sheetopen(&bytes), b"bad line 1\n");
            let behind = [format!("practice\n{KEY}\n").as_bytes(), &bytes].concat();
            assert!(sheetopen(&behind).starts_with(b"refused 1"));
        }
    }
}
