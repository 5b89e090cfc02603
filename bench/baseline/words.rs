//! Words, numbers and names, and the faults of lines.

/// The first fault of a document's form.
pub struct FormFault {
    pub line: u32,
    pub kind: &'static str,
}

/// Kinds of bytes: 0 of a word, 1 the space, 2 the line feed, 3 none that a line may have.
pub const CLASS: [u8; 256] = {
    let mut class = [3; 256];
    let mut byte = 0x20;
    while byte <= 0x7e {
        class[byte] = 0;
        byte += 1;
    }
    class[b' ' as usize] = 1;
    class[b'\n' as usize] = 2;
    class
};

/// 1 to 12 digits, without a leading zero unless it is `0`.
pub fn number(word: &[u8]) -> Option<u64> {
    if word.is_empty() || word.len() > 12 || (word[0] == b'0' && word.len() > 1) {
        return None;
    }
    let mut value = 0;
    for &byte in word {
        let digit = byte.wrapping_sub(b'0');
        if digit > 9 {
            return None;
        }
        value = value * 10 + u64::from(digit);
    }
    Some(value)
}

/// A number or its negative, of 32 bits with sign.
pub fn integer(word: &[u8]) -> Option<i32> {
    let value = match word.split_first() {
        Some((b'-', rest)) => match number(rest)? {
            0 => return None,
            value => -(value as i64),
        },
        _ => number(word)? as i64,
    };
    i32::try_from(value).ok()
}

/// 1 to 16 letters, digits and `_`, of which the first is no digit, filled up with zeros.
pub fn name(word: &[u8]) -> Option<u128> {
    if word.is_empty() || word.len() > 16 || word[0].is_ascii_digit() {
        return None;
    }
    let mut text = [0; 16];
    for (place, &byte) in text.iter_mut().zip(word) {
        if !byte.is_ascii_alphanumeric() && byte != b'_' {
            return None;
        }
        *place = byte;
    }
    Some(u128::from_le_bytes(text))
}

/// The first fault of the line that begins at `start`, which has one.
pub fn line_fault(bytes: &[u8], start: usize, line: u32) -> FormFault {
    let rest = &bytes[start..];
    let length = rest.iter().position(|&byte| byte == b'\n').unwrap_or(rest.len());
    let kind = if rest[..length].iter().any(|&byte| CLASS[usize::from(byte)] == 3) {
        "byte"
    } else if length > 200 {
        "long"
    } else if length == rest.len() {
        "cut"
    } else {
        "row"
    };
    FormFault { line, kind }
}
