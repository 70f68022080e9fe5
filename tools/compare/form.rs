//! The form of a text that is read, as include/dtoa.h says it. This check is written from there alone, and shares nothing with the
//! archive's own.

/// The numbers of reading's answers.
pub const READ: u32 = 0;
pub const WRONG_LENGTH: u32 = 10;
pub const WRONG_FORM: u32 = 11;

/// A text that is read has at most this many bytes.
pub const LONGEST: usize = 64;

/// An exponent has at most this many digits.
const EXPONENT_DIGITS: usize = 4;

/// The number that the archive is to answer.
pub fn number(text: &[u8]) -> u32 {
    match text.len() {
        1..=LONGEST if is_name(text) || is_number(text) => READ,
        1..=LONGEST => WRONG_FORM,
        _ => WRONG_LENGTH,
    }
}

fn is_name(text: &[u8]) -> bool {
    matches!(text, b"NaN" | b"inf" | b"-inf")
}

fn is_number(text: &[u8]) -> bool {
    let (decimal, exponent) = parted(unsigned(text), b'e');
    let (whole, fraction) = parted(decimal, b'.');
    are_digits(whole) && fraction.is_none_or(are_digits) && exponent.is_none_or(is_exponent)
}

fn is_exponent(text: &[u8]) -> bool {
    let digits = unsigned(text);
    are_digits(digits) && digits.len() <= EXPONENT_DIGITS
}

fn are_digits(text: &[u8]) -> bool {
    !text.is_empty() && text.iter().all(u8::is_ascii_digit)
}

fn unsigned(text: &[u8]) -> &[u8] {
    text.strip_prefix(b"-").unwrap_or(text)
}

/// What stands before the first such byte and what behind it, where there is one.
fn parted(text: &[u8], byte: u8) -> (&[u8], Option<&[u8]>) {
    match text.iter().position(|other| *other == byte) {
        Some(at) => (&text[..at], Some(&text[at + 1..])),
        None => (text, None),
    }
}
