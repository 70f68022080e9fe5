//! Reading: from a text to the number.

use core::fmt;

use crate::Float;

/// A text that is read has at most this many bytes.
pub const LONGEST: usize = 64;

/// Reads a text as an `f32` or an `f64`: as the number nearest to its value, and where two are as near, as the one with the even
/// significand.
///
/// A text that [`Buffer::format`](crate::Buffer::format) printed is read as the very same number, bit for bit:
///
/// ```
/// let mut buffer = malekoco::Buffer::new();
/// for number in [0.1, -0.0, 5e-324, f64::MAX, f64::NEG_INFINITY] {
///     let read: f64 = malekoco::parse(buffer.format(number))?;
///     assert_eq!(read.to_bits(), number.to_bits());
/// }
/// # Ok::<(), malekoco::ReadError>(())
/// ```
///
/// The text may be given as a string or as bytes, which need not be UTF-8:
///
/// ```
/// assert_eq!(malekoco::parse::<f32>("8848.86"), Ok(8848.86));
/// assert_eq!(malekoco::parse::<f32>(b"1e-45"), Ok(f32::from_bits(1)));
/// ```
///
/// A row of [`format_row`](crate::format_row) is read number by number:
///
/// ```
/// let heights: Result<Vec<f32>, _> = "8848.86 -0.0 1e21".split(' ').map(malekoco::parse).collect();
/// assert_eq!(heights, Ok(vec![8848.86, -0.0, 1e21]));
/// ```
///
/// # The form
///
/// A text has the form of a number where all of it is: a `-` or none; one or more digits; then nothing, or a `.` and one or more
/// digits; then nothing, or an `e`, a `-` or none, and 1 to 4 digits. `NaN`, `inf` and `-inf` have it too. That is less than the
/// standard library's `parse` takes: no `+`, no `E`, no `.5`, no `5.`, and no other way to write the names.
///
/// ```
/// assert_eq!(malekoco::parse::<f64>("-12.50e-3"), Ok(-0.0125));
/// assert_eq!(malekoco::parse::<f64>("007"), Ok(7.0));
/// for text in ["+1", "1E5", ".5", "5.", "1e", "1e00005", " 1", "Inf", "one"] {
///     assert_eq!(malekoco::parse::<f64>(text), Err(malekoco::ReadError::WrongForm));
/// }
/// ```
///
/// # The number
///
/// Every text of this form is read as the standard library's `parse` reads it: from half a step above the largest number on it is
/// the infinity, and a zero has the sign of its text, also where the value was only rounded to it. `NaN` is read as the pattern
/// 7fc00000 or 7ff8000000000000.
///
/// ```
/// assert_eq!(malekoco::parse("9007199254740993"), Ok(9007199254740992.0));
/// assert_eq!(malekoco::parse("1e309"), Ok(f64::INFINITY));
/// assert_eq!(malekoco::parse::<f32>("-1e-9999").map(f32::to_bits), Ok(0x8000_0000));
/// assert_eq!(malekoco::parse::<f64>("NaN").map(f64::to_bits), Ok(0x7ff8_0000_0000_0000));
/// ```
///
/// # Errors
///
/// [`ReadError::WrongLength`] where the text is empty or has more than [`LONGEST`] bytes, whatever they are; and
/// [`ReadError::WrongForm`] where it has not the form of a number.
#[inline]
pub fn parse<F: Float>(text: impl AsRef<[u8]>) -> Result<F, ReadError> {
    F::READ.read(text.as_ref()).map(F::from_pattern)
}

/// Why a text is not read.
///
/// ```
/// use malekoco::{parse, ReadError};
///
/// assert_eq!(parse::<f32>(""), Err(ReadError::WrongLength));
/// assert_eq!(parse::<f32>("0".repeat(65)), Err(ReadError::WrongLength));
/// assert_eq!(parse::<f32>("1.5 "), Err(ReadError::WrongForm));
/// assert_eq!(ReadError::WrongForm.to_string(), "the text has not the form of a number");
/// ```
#[derive(Clone, Copy, Debug, PartialEq, Eq)]
pub enum ReadError {
    /// The text is empty, or has more than [`LONGEST`] bytes. This is looked at first.
    WrongLength,
    /// The text has not the form of a number.
    WrongForm,
}

impl fmt::Display for ReadError {
    fn fmt(&self, formatter: &mut fmt::Formatter) -> fmt::Result {
        match self {
            ReadError::WrongLength => write!(formatter, "the text is empty or has more than {LONGEST} bytes"),
            ReadError::WrongForm => formatter.write_str("the text has not the form of a number"),
        }
    }
}

impl core::error::Error for ReadError {}
