//! Prints `f32` and `f64` as decimal text, byte for byte as the crate dtoa 1.0.11 does, and reads decimal text as the nearest
//! number, through the proved functions of `libdtoa_c.a`. What is proved of them stands in the repository's `docs/PROMISES.md`;
//! that this file calls them rightly is not proved, and is short enough to be read.
//!
//! # Use
//!
//! In the `Cargo.toml` of a package beside this repository, after `rt lib` in the repository's folder crates/dtoa_c:
//!
//! ```toml
//! [dependencies]
//! malekoco = { path = "../malekoco/bindings/rust" }
//! ```
//!
//! The interface is that of the original, with one difference: [`Buffer::format_finite`] answers `None` on a NaN or an
//! infinity, where the original prints some number or other.
//!
//! ```
//! let mut buffer = malekoco::Buffer::new();
//! assert_eq!(buffer.format(2.71828), "2.71828");
//! assert_eq!(buffer.format(0.1f32), "0.1");
//! assert_eq!(buffer.format(f64::NEG_INFINITY), "-inf");
//! assert_eq!(buffer.format_finite(1e21), Some("1e21"));
//! assert_eq!(buffer.format_finite(f32::NAN), None);
//! ```
//!
//! Beyond the original, [`format_row`] prints up to 4,096 `f32` in one call, with a space between two:
//!
//! ```
//! let mut out = [0; malekoco::row_room(3)];
//! assert_eq!(malekoco::format_row(&[0.0, 1.5, f32::INFINITY], &mut out), Ok("0.0 1.5 inf"));
//! ```
//!
//! And [`parse`] reads a text. A printed number parses as the very same number, and so it does with the standard library:
//!
//! ```
//! let height = 8848.86f32;
//! let mut buffer = malekoco::Buffer::new();
//! let text = buffer.format_finite(height).expect("a height is finite");
//! assert_eq!(malekoco::parse::<f32>(text).unwrap().to_bits(), height.to_bits());
//! assert_eq!(text.parse::<f32>().unwrap().to_bits(), height.to_bits());
//! ```

#![no_std]
#![deny(missing_docs)]

mod archive;
mod read;
mod row;

use archive::{Entry, Reader, ROOM};

pub use read::{parse, ReadError, LONGEST};
pub use row::{format_row, row_room, RowError, ROW_LIMIT};

/// Room for the text of one number.
///
/// A buffer may be used again for the next number as soon as the text of the last is no longer needed.
///
/// ```
/// let mut buffer = malekoco::Buffer::new();
/// for (number, text) in [(1.5, "1.5"), (-0.0, "-0.0"), (1e300, "1e300")] {
///     assert_eq!(buffer.format(number), text);
/// }
/// ```
#[derive(Clone, Copy, Debug)]
pub struct Buffer {
    bytes: [u8; ROOM],
}

impl Buffer {
    /// A new buffer. This is cheap: 25 bytes, no allocation.
    ///
    /// ```
    /// const EMPTY: malekoco::Buffer = malekoco::Buffer::new();
    /// assert_eq!({ EMPTY }.format(1.0), "1.0");
    /// ```
    #[inline]
    pub const fn new() -> Buffer {
        Buffer { bytes: [0; ROOM] }
    }

    /// Prints a number into this buffer, and hands out its text.
    ///
    /// A NaN is printed as `NaN`, whatever its sign and its other bits, and the infinities as `inf` and `-inf`.
    ///
    /// ```
    /// let mut buffer = malekoco::Buffer::new();
    /// assert_eq!(buffer.format(1e20), "100000000000000000000.0");
    /// assert_eq!(buffer.format(-f32::NAN), "NaN");
    /// ```
    #[inline]
    pub fn format<F: Float>(&mut self, value: F) -> &str {
        let printed = F::FORMAT.print(value.bits(), &mut self.bytes);
        printed.expect("a buffer of 25 bytes serves every number")
    }

    /// Prints a finite number into this buffer, and hands out its text; `None` where the number is a NaN or an infinity.
    ///
    /// ```
    /// let mut buffer = malekoco::Buffer::new();
    /// assert_eq!(buffer.format_finite(5e-324), Some("5e-324"));
    /// assert_eq!(buffer.format_finite(f64::INFINITY), None);
    /// ```
    #[inline]
    pub fn format_finite<F: Float>(&mut self, value: F) -> Option<&str> {
        F::FORMAT_FINITE.print(value.bits(), &mut self.bytes)
    }
}

impl Default for Buffer {
    #[inline]
    fn default() -> Buffer {
        Buffer::new()
    }
}

/// A floating-point number that a [`Buffer`] prints and [`parse`] reads: `f32` and `f64`, and no type outside this crate.
///
/// ```
/// fn length<F: malekoco::Float>(number: F) -> usize {
///     malekoco::Buffer::new().format(number).len()
/// }
/// assert_eq!(length(0.25f32), 4);
/// assert_eq!(length(0.25f64), 4);
/// ```
///
/// ```compile_fail
/// malekoco::Buffer::new().format(1);
/// ```
///
/// ```compile_fail
/// struct Half(u16);
/// impl malekoco::Float for Half {}
/// ```
pub trait Float: sealed::Sealed {}

impl Float for f32 {}
impl Float for f64 {}

/// What keeps [`Float`] to the two types: no one outside can name this trait.
mod sealed {
    use super::{Entry, Reader};

    pub trait Sealed: Copy {
        type Bits;
        const FORMAT: Entry<Self::Bits>;
        const FORMAT_FINITE: Entry<Self::Bits>;
        const READ: Reader<Self::Bits>;
        fn bits(self) -> Self::Bits;
        fn from_pattern(bits: Self::Bits) -> Self;
    }
}

impl sealed::Sealed for f32 {
    type Bits = u32;
    const FORMAT: Entry<u32> = archive::FORMAT32;
    const FORMAT_FINITE: Entry<u32> = archive::FORMAT_FINITE32;
    const READ: Reader<u32> = archive::READ32;

    #[inline]
    fn bits(self) -> u32 {
        self.to_bits()
    }

    #[inline]
    fn from_pattern(bits: u32) -> f32 {
        f32::from_bits(bits)
    }
}

impl sealed::Sealed for f64 {
    type Bits = u64;
    const FORMAT: Entry<u64> = archive::FORMAT64;
    const FORMAT_FINITE: Entry<u64> = archive::FORMAT_FINITE64;
    const READ: Reader<u64> = archive::READ64;

    #[inline]
    fn bits(self) -> u64 {
        self.to_bits()
    }

    #[inline]
    fn from_pattern(bits: u64) -> f64 {
        f64::from_bits(bits)
    }
}
