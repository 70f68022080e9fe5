//! Rows: many `f32` in one call.

use core::fmt;

use crate::archive;

/// A row has at most this many numbers.
pub const ROW_LIMIT: usize = 4096;

/// The bytes that the output of [`format_row`] has for each number: room for the longest text of any and a space.
const ROOM_EACH: usize = 26;

/// The bytes that [`format_row`] asks of the output for a row of so many numbers: 26 for each. Where 26 times the count is above
/// `usize::MAX`, it is `usize::MAX`; such a row is far too long.
///
/// ```
/// const CORNERS: usize = 4;
/// let mut out = [0; malekoco::row_room(CORNERS)];
/// assert_eq!(out.len(), 104);
/// assert_eq!(malekoco::format_row(&[0.5; CORNERS], &mut out), Ok("0.5 0.5 0.5 0.5"));
/// ```
#[inline]
pub const fn row_room(count: usize) -> usize {
    count.saturating_mul(ROOM_EACH)
}

/// Prints a row of numbers into `out`, and hands out the row's text: what [`Buffer::format`](crate::Buffer::format) prints for
/// each, in their order, with one space between two and none at the end. No numbers give the empty text.
///
/// The text stands at the start of `out`, and every byte behind it stays as it was.
///
/// ```
/// let heights = [8848.86, -0.0, f32::NAN];
/// let mut out = vec![0; malekoco::row_room(heights.len())];
/// assert_eq!(malekoco::format_row(&heights, &mut out), Ok("8848.86 -0.0 NaN"));
/// ```
///
/// A longer list is printed row after row, into one output:
///
/// ```
/// let heights = vec![1.5; 10_000];
/// let mut out = [0; malekoco::row_room(malekoco::ROW_LIMIT)];
/// let mut lines = String::new();
/// for row in heights.chunks(malekoco::ROW_LIMIT) {
///     lines += malekoco::format_row(row, &mut out)?;
///     lines += "\n";
/// }
/// assert_eq!(lines.lines().count(), 3);
/// # Ok::<(), malekoco::RowError>(())
/// ```
///
/// # Errors
///
/// [`RowError::TooMany`] where the row has more than [`ROW_LIMIT`] numbers, whatever the length of `out`; and
/// [`RowError::TooShort`] where `out` has fewer than [`row_room`] bytes, also where the text would fit. Both leave all of `out`
/// as it was.
#[inline]
pub fn format_row<'a>(numbers: &[f32], out: &'a mut [u8]) -> Result<&'a str, RowError> {
    archive::print_row(numbers, out)
}

/// Why a row is not printed.
///
/// ```
/// use malekoco::{format_row, RowError};
///
/// assert_eq!(format_row(&[1.0, 2.0], &mut [0; 51]), Err(RowError::TooShort));
/// assert_eq!(format_row(&[1.0; 4097], &mut []), Err(RowError::TooMany));
/// assert_eq!(RowError::TooMany.to_string(), "the row has more than 4096 numbers");
/// ```
#[derive(Clone, Copy, Debug, PartialEq, Eq)]
pub enum RowError {
    /// The row has more than [`ROW_LIMIT`] numbers. This is looked at first.
    TooMany,
    /// The output has fewer than [`row_room`] bytes.
    TooShort,
}

impl fmt::Display for RowError {
    fn fmt(&self, formatter: &mut fmt::Formatter) -> fmt::Result {
        match self {
            RowError::TooMany => write!(formatter, "the row has more than {ROW_LIMIT} numbers"),
            RowError::TooShort => write!(formatter, "the output has fewer than {ROOM_EACH} bytes for each number of the row"),
        }
    }
}

impl core::error::Error for RowError {}
