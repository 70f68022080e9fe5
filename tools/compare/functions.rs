//! What is called at each width: the archive's functions and the crate's, side by side.

use crate::archive;
use crate::archive::{Printed, Read64};
use crate::width::{Binary32, Binary64, Width};

/// Which of a width's two entries is called.
#[derive(Clone, Copy, PartialEq, Eq)]
pub enum Entry {
    /// `Buffer::format`: every pattern is printed.
    Every,
    /// `Buffer::format_finite`: for finite patterns only.
    FiniteOnly,
}

pub const ENTRIES: [Entry; 2] = [Entry::Every, Entry::FiniteOnly];

pub trait Functions: Width {
    /// The name of the archive's function.
    fn name(entry: Entry) -> &'static str;

    /// What the archive answers.
    ///
    /// # Safety
    /// `buf` points to `room` bytes that may be written.
    unsafe fn ours(entry: Entry, bits: u64, buf: *mut u8, room: usize) -> Printed;

    /// What the crate prints. Its finite-only entry is not to be asked for a NaN or an infinity.
    fn original(entry: Entry, bits: u64, buffer: &mut dtoa::Buffer) -> &str;

    /// The name of the archive's function that reads.
    const READ: &'static str;

    /// The pattern that `NaN` is read as: the exponent's bits and the first of the significand.
    const NAN: u64 = ((1 << (Self::EXPONENT + 1)) - 1) << (Self::SIGNIFICAND - 1);

    /// What the archive reads.
    ///
    /// # Safety
    /// `text` points to `len` bytes that may be read.
    unsafe fn read(text: *const u8, len: usize) -> Read64;

    fn is_nan(bits: u64) -> bool {
        !Self::is_finite(bits) && bits & ((1 << Self::SIGNIFICAND) - 1) != 0
    }
}

impl Functions for Binary32 {
    const READ: &'static str = "dtoa_read32";

    fn name(entry: Entry) -> &'static str {
        match entry {
            Entry::Every => "dtoa_format32",
            Entry::FiniteOnly => "dtoa_format_finite32",
        }
    }

    #[inline(always)]
    unsafe fn ours(entry: Entry, bits: u64, buf: *mut u8, room: usize) -> Printed {
        match entry {
            Entry::Every => archive::dtoa_format32(bits as u32, buf, room),
            Entry::FiniteOnly => archive::dtoa_format_finite32(bits as u32, buf, room),
        }
    }

    #[inline(always)]
    fn original(entry: Entry, bits: u64, buffer: &mut dtoa::Buffer) -> &str {
        match entry {
            Entry::Every => buffer.format(f32::from_bits(bits as u32)),
            Entry::FiniteOnly => buffer.format_finite(f32::from_bits(bits as u32)),
        }
    }

    #[inline(always)]
    unsafe fn read(text: *const u8, len: usize) -> Read64 {
        let read = archive::dtoa_read32(text, len);
        Read64 { pattern: u64::from(read.pattern), number: read.number }
    }
}

impl Functions for Binary64 {
    const READ: &'static str = "dtoa_read64";

    fn name(entry: Entry) -> &'static str {
        match entry {
            Entry::Every => "dtoa_format64",
            Entry::FiniteOnly => "dtoa_format_finite64",
        }
    }

    #[inline(always)]
    unsafe fn ours(entry: Entry, bits: u64, buf: *mut u8, room: usize) -> Printed {
        match entry {
            Entry::Every => archive::dtoa_format64(bits, buf, room),
            Entry::FiniteOnly => archive::dtoa_format_finite64(bits, buf, room),
        }
    }

    #[inline(always)]
    fn original(entry: Entry, bits: u64, buffer: &mut dtoa::Buffer) -> &str {
        match entry {
            Entry::Every => buffer.format(f64::from_bits(bits)),
            Entry::FiniteOnly => buffer.format_finite(f64::from_bits(bits)),
        }
    }

    #[inline(always)]
    unsafe fn read(text: *const u8, len: usize) -> Read64 {
        archive::dtoa_read64(text, len)
    }
}
