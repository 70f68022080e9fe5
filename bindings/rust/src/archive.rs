//! The functions of `libdtoa_c.a` (`include/dtoa.h`), and the one place that calls them: all of the crate's `unsafe` is here.

use crate::read::ReadError;
use crate::row::RowError;

/// A buffer of so many bytes serves every number, and no shorter one does.
pub const ROOM: usize = 25;

/// `DTOA_TOO_MANY`. A row has one other refusal.
const TOO_MANY: u32 = 3;

/// `DTOA_WRONG_LENGTH`. Reading has one other refusal.
const WRONG_LENGTH: u32 = 10;

/// `struct dtoa_printed`.
#[repr(C)]
struct Printed {
    number: u32,
    length: u32,
}

/// `struct dtoa_read32` and `struct dtoa_read64`.
#[repr(C)]
struct Read<Bits> {
    pattern: Bits,
    number: u32,
}

extern "C" {
    fn dtoa_format32(bits: u32, buf: *mut u8, len: usize) -> Printed;
    fn dtoa_format64(bits: u64, buf: *mut u8, len: usize) -> Printed;
    fn dtoa_format_finite32(bits: u32, buf: *mut u8, len: usize) -> Printed;
    fn dtoa_format_finite64(bits: u64, buf: *mut u8, len: usize) -> Printed;
    fn dtoa_format_row32(patterns: *const u32, count: usize, out: *mut u8, len: usize) -> Printed;
    fn dtoa_read32(text: *const u8, len: usize) -> Read<u32>;
    fn dtoa_read64(text: *const u8, len: usize) -> Read<u64>;
}

/// One of the four functions for one number. None but the constants below can be made, since the field is private to this file.
pub struct Entry<Bits>(unsafe extern "C" fn(Bits, *mut u8, usize) -> Printed);

pub const FORMAT32: Entry<u32> = Entry(dtoa_format32);
pub const FORMAT64: Entry<u64> = Entry(dtoa_format64);
pub const FORMAT_FINITE32: Entry<u32> = Entry(dtoa_format_finite32);
pub const FORMAT_FINITE64: Entry<u64> = Entry(dtoa_format_finite64);

impl<Bits> Entry<Bits> {
    /// Prints a pattern into `bytes`, and hands out its text; `None` where the function refused.
    #[inline]
    pub fn print(self, bits: Bits, bytes: &mut [u8; ROOM]) -> Option<&str> {
        // SAFETY: the call. The declarations above are those of include/dtoa.h, and `Bits` is the function's own parameter. It
        // asks for `len` bytes at `buf` that it may read and write while it runs: `bytes` is lent to it alone, has `ROOM` bytes,
        // and they are initialised. It keeps no pointer, and does not unwind: it is proved to end, without a panic.
        // The text. It is proved that a call answering number 0 has put `length` bytes of text at the start of the buffer, 3 to
        // 25 of them, each a visible character of ASCII: so the range lies in `bytes`, and is UTF-8.
        unsafe {
            let printed = (self.0)(bits, bytes.as_mut_ptr(), bytes.len());
            if printed.number != 0 {
                return None;
            }
            Some(core::str::from_utf8_unchecked(bytes.get_unchecked(..printed.length as usize)))
        }
    }
}

/// Prints a row of numbers into `out`, and hands out its text.
#[inline]
pub fn print_row<'a>(numbers: &[f32], out: &'a mut [u8]) -> Result<&'a str, RowError> {
    // SAFETY: the call. The declaration above is that of include/dtoa.h. It asks for `count` patterns at `patterns` that it may
    // read while it runs: `numbers` are so many, and an f32 has the size, the alignment and the bits of its pattern, a u32. It
    // asks for `len` bytes at `out` that it may read and write: `out` is lent to it alone, so shares none with `numbers`, and its
    // bytes are initialised. No slice's pointer is null, not even an empty one's. It keeps no pointer, and does not unwind: it
    // is proved to end, without a panic.
    // The text. It is proved that a call answering number 0 has put `length` bytes of text at the start of `out`, at most 26 for
    // each number, for which it found room, and each a visible character of ASCII or a space: so the range lies in `out`, and is
    // UTF-8.
    unsafe {
        let printed = dtoa_format_row32(numbers.as_ptr().cast(), numbers.len(), out.as_mut_ptr(), out.len());
        match printed.number {
            0 => Ok(core::str::from_utf8_unchecked(out.get_unchecked(..printed.length as usize))),
            TOO_MANY => Err(RowError::TooMany),
            _ => Err(RowError::TooShort),
        }
    }
}

/// One of the two functions that read a text. None but the constants below can be made, since the field is private to this file.
pub struct Reader<Bits>(unsafe extern "C" fn(*const u8, usize) -> Read<Bits>);

pub const READ32: Reader<u32> = Reader(dtoa_read32);
pub const READ64: Reader<u64> = Reader(dtoa_read64);

impl<Bits> Reader<Bits> {
    /// Reads a text, and hands out its pattern.
    #[inline]
    pub fn read(self, text: &[u8]) -> Result<Bits, ReadError> {
        // SAFETY: the declarations above are those of include/dtoa.h. The function asks for `len` bytes at `text` that it may read
        // while it runs: `text` has so many, and they are initialised. No slice's pointer is null, not even an empty one's. It
        // writes to none of them, keeps no pointer, and does not unwind: it is proved to end, without a panic.
        let read = unsafe { (self.0)(text.as_ptr(), text.len()) };
        match read.number {
            0 => Ok(read.pattern),
            WRONG_LENGTH => Err(ReadError::WrongLength),
            _ => Err(ReadError::WrongForm),
        }
    }
}
