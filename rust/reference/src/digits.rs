//! Bytes as digits: two a byte, the higher first, 0 to 9 and a to f. Capital letters are no digits.

/// The value of a digit.
pub fn value(byte: u8) -> Option<u8> {
    match byte {
        b'0'..=b'9' => Some(byte - b'0'),
        b'a'..=b'f' => Some(byte - b'a' + 10),
        _ => None,
    }
}

/// The bytes that digits tell; none where a byte is no digit or their number is odd.
pub fn read(text: &[u8]) -> Option<Vec<u8>> {
    let values: Option<Vec<u8>> = text.iter().map(|byte| value(*byte)).collect();
    join(&values?)
}

/// The bytes that digits' values tell; none where their number is odd.
pub fn join(values: &[u8]) -> Option<Vec<u8>> {
    let (pairs, left) = values.as_chunks::<2>();
    left.is_empty().then(|| pairs.iter().map(|[high, low]| 16 * (high & 15) + (low & 15)).collect())
}

/// The digits of bytes.
pub fn write(bytes: &[u8]) -> Vec<u8> {
    const DIGITS: &[u8; 16] = b"0123456789abcdef";
    bytes.iter().flat_map(|byte| [byte >> 4, byte & 15]).map(|digit| DIGITS[usize::from(digit)]).collect()
}

/// The number of bytes, the first the highest; what passes 64 bits falls away.
pub fn number(bytes: &[u8]) -> u64 {
    bytes.iter().fold(0, |sum, byte| (sum << 8) | u64::from(*byte))
}

#[cfg(test)]
mod tests {
    use super::*;

    #[test]
    fn sixteen_bytes_are_digits() {
        let digits: Vec<u8> = (0..=255).filter(|byte| value(*byte).is_some()).collect();
        assert_eq!(digits, b"0123456789abcdef");
        for (place, digit) in digits.iter().enumerate() {
            assert_eq!(value(*digit), Some(place as u8));
        }
    }

    #[test]
    fn reading_undoes_writing() {
        let bytes: Vec<u8> = (0..=255).collect();
        assert_eq!(read(&write(&bytes)), Some(bytes));
        assert_eq!(write(&[0x0a, 0xf1]), b"0af1");
    }

    #[test]
    fn what_is_not_read() {
        for text in ["0", "000", "0A", "0g", "00 ", "0\r"] {
            assert_eq!(read(text.as_bytes()), None);
        }
        assert_eq!(read(b""), Some(vec![]));
    }

    #[test]
    fn numbers() {
        assert_eq!(number(&[]), 0);
        assert_eq!(number(&[1, 2, 3]), 0x010203);
    }
}
