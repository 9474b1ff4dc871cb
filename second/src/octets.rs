//! Big-endian fields and hex text.

/// A member identifier (MI).
pub type Mi = [u8; 12];
/// A secure channel identifier (SCI).
pub type Sci = [u8; 8];

/// The `N` octets that begin at `at`.
pub fn part<const N: usize>(from: &[u8], at: usize) -> [u8; N] {
    from[at..at + N].try_into().expect("a part has N octets")
}

pub fn u16_at(from: &[u8], at: usize) -> u16 {
    u16::from_be_bytes(part(from, at))
}

pub fn u32_at(from: &[u8], at: usize) -> u32 {
    u32::from_be_bytes(part(from, at))
}

pub fn u64_at(from: &[u8], at: usize) -> u64 {
    u64::from_be_bytes(part(from, at))
}

/// `length` raised to a multiple of 4.
pub fn padded(length: usize) -> usize {
    length.div_ceil(4) * 4
}

pub fn hex(octets: &[u8]) -> String {
    const DIGITS: &[u8; 16] = b"0123456789abcdef";
    let mut text = String::with_capacity(2 * octets.len());
    for octet in octets {
        text.push(char::from(DIGITS[usize::from(octet >> 4)]));
        text.push(char::from(DIGITS[usize::from(octet & 15)]));
    }
    text
}

/// Octets from hex digits; blanks and line ends between them are passed over.
pub fn unhex(text: &str) -> Option<Vec<u8>> {
    let digits: Option<Vec<u8>> = text
        .chars()
        .filter(|c| !c.is_whitespace())
        .map(|c| c.to_digit(16).and_then(|d| u8::try_from(d).ok()))
        .collect();
    let digits = digits?;
    if digits.len() % 2 != 0 {
        return None;
    }
    Some(digits.chunks(2).map(|pair| pair[0] << 4 | pair[1]).collect())
}
