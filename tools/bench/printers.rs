//! What is timed: our calls, the crate's, and those of other libraries where they are installed (the configuration says which).
//! Each function prints all of the numbers, and hands back the bytes that it wrote, so that no call is left out.

use std::hint::black_box;

use crate::archive::{dtoa_format32, dtoa_format64, dtoa_format_row32};
use crate::workloads::ROW;

/// The bytes that we ask for to print a row.
const ROW_ROOM: usize = 26 * ROW;

/// No text of a library in C++ is longer.
#[cfg(any(fmt, dragonbox))]
const LONGEST: usize = 64;

/// The buffers that are printed into, again and again.
pub struct Buffers {
    /// Ours and the crate's: the same 25 bytes for both. Neither this one nor the next two are ever cleared.
    original: dtoa::Buffer,
    #[cfg(ryu)]
    ryu: ryu::Buffer,
    /// Of the libraries in C++.
    #[cfg(any(fmt, dragonbox))]
    bytes: [u8; LONGEST],
    /// Of rows whose texts are pushed one by one: cleared before each row, with its room from the start.
    pushed: String,
    /// Of our rows, and never cleared.
    row: Vec<u8>,
    /// Of the rows of the libraries in C++, and never cleared.
    #[cfg(any(fmt, dragonbox))]
    cpp_row: Vec<u8>,
}

impl Buffers {
    pub fn new() -> Buffers {
        Buffers {
            original: dtoa::Buffer::new(),
            #[cfg(ryu)]
            ryu: ryu::Buffer::new(),
            #[cfg(any(fmt, dragonbox))]
            bytes: [0; LONGEST],
            pushed: String::with_capacity(ROW_ROOM),
            row: vec![0; ROW_ROOM],
            #[cfg(any(fmt, dragonbox))]
            cpp_row: vec![0; (LONGEST + 1) * ROW],
        }
    }
}

pub struct Printer {
    pub name: &'static str,
    pub print64: fn(&[f64], &mut Buffers) -> usize,
    pub print32: fn(&[f32], &mut Buffers) -> usize,
    /// Prints the numbers with a space between two, as one text.
    pub print_row: fn(&[f32], &mut Buffers) -> usize,
}

/// The crate comes first and we second; an earlier archive of ours comes last.
pub const PRINTERS: &[Printer] = &[
    Printer { name: "crate", print64: crate64, print32: crate32, print_row: crate_row },
    Printer { name: "ours", print64: ours64, print32: ours32, print_row: ours_row },
    #[cfg(ryu)]
    Printer { name: "ryu", print64: ryu64, print32: ryu32, print_row: ryu_row },
    #[cfg(fmt)]
    Printer { name: "fmt", print64: cpp::fmt64, print32: cpp::fmt32, print_row: cpp::fmt_row },
    #[cfg(dragonbox)]
    Printer { name: "Dragonbox", print64: cpp::dragonbox64, print32: cpp::dragonbox32, print_row: cpp::dragonbox_row },
    #[cfg(before)]
    Printer { name: "before", print64: before::before64, print32: before::before32, print_row: before::before_row },
];

fn crate64(numbers: &[f64], buffers: &mut Buffers) -> usize {
    numbers.iter().map(|number| black_box(buffers.original.format(*number)).len()).sum()
}

fn crate32(numbers: &[f32], buffers: &mut Buffers) -> usize {
    numbers.iter().map(|number| black_box(buffers.original.format(*number)).len()).sum()
}

/// Makes a row of texts that are pushed one by one.
fn push_row(numbers: &[f32], row: &mut String, mut push: impl FnMut(f32, &mut String)) -> usize {
    row.clear();
    for number in numbers {
        if !row.is_empty() {
            row.push(' ');
        }
        push(*number, row);
    }
    black_box(row).len()
}

fn crate_row(numbers: &[f32], buffers: &mut Buffers) -> usize {
    push_row(numbers, &mut buffers.pushed, |number, row| row.push_str(buffers.original.format(number)))
}

/// The bytes of the crate's buffer, which is an array of 25 bytes and nothing else.
fn lent(buffer: &mut dtoa::Buffer) -> (*mut u8, usize) {
    let length = std::mem::size_of::<dtoa::Buffer>();
    (black_box(buffer as *mut dtoa::Buffer).cast(), length)
}

/// The three functions of an archive of ours, by the names that its calls have.
macro_rules! archive {
    ($print64:ident, $format64:ident, $print32:ident, $format32:ident, $print_row:ident, $format_row32:ident) => {
        pub fn $print64(numbers: &[f64], buffers: &mut Buffers) -> usize {
            let (buf, len) = lent(&mut buffers.original);
            // SAFETY: buf points to len bytes that are lent to this function alone.
            numbers.iter().map(|number| unsafe { $format64(number.to_bits(), buf, len) }.length as usize).sum()
        }

        pub fn $print32(numbers: &[f32], buffers: &mut Buffers) -> usize {
            let (buf, len) = lent(&mut buffers.original);
            // SAFETY: as above.
            numbers.iter().map(|number| unsafe { $format32(number.to_bits(), buf, len) }.length as usize).sum()
        }

        pub fn $print_row(numbers: &[f32], buffers: &mut Buffers) -> usize {
            let row = black_box(&mut buffers.row);
            // SAFETY: an f32 has the layout of its pattern, and the row's bytes are lent to this function alone.
            unsafe { $format_row32(numbers.as_ptr().cast(), numbers.len(), row.as_mut_ptr(), row.len()) }.length as usize
        }
    };
}

archive!(ours64, dtoa_format64, ours32, dtoa_format32, ours_row, dtoa_format_row32);

/// An earlier archive, with its functions renamed.
#[cfg(before)]
mod before {
    use super::{black_box, lent, Buffers};
    use crate::archive::Printed;

    extern "C" {
        fn before_format64(bits: u64, buf: *mut u8, len: usize) -> Printed;
        fn before_format32(bits: u32, buf: *mut u8, len: usize) -> Printed;
        fn before_format_row32(patterns: *const u32, count: usize, out: *mut u8, len: usize) -> Printed;
    }

    archive!(before64, before_format64, before32, before_format32, before_row, before_format_row32);
}

#[cfg(ryu)]
fn ryu64(numbers: &[f64], buffers: &mut Buffers) -> usize {
    numbers.iter().map(|number| black_box(buffers.ryu.format(*number)).len()).sum()
}

#[cfg(ryu)]
fn ryu32(numbers: &[f32], buffers: &mut Buffers) -> usize {
    numbers.iter().map(|number| black_box(buffers.ryu.format(*number)).len()).sum()
}

#[cfg(ryu)]
fn ryu_row(numbers: &[f32], buffers: &mut Buffers) -> usize {
    push_row(numbers, &mut buffers.pushed, |number, row| row.push_str(buffers.ryu.format(number)))
}

/// fmt.cpp and dragonbox.cpp.
#[cfg(any(fmt, dragonbox))]
mod cpp {
    use super::Buffers;

    macro_rules! printer {
        ($function:ident, $number:ty, $call:ident) => {
            pub fn $function(numbers: &[$number], buffers: &mut Buffers) -> usize {
                extern "C" {
                    fn $call(number: $number, buf: *mut u8) -> usize;
                }
                let buf = buffers.bytes.as_mut_ptr();
                // SAFETY: buf points to room for the longest text that is lent to this function alone.
                numbers.iter().map(|number| unsafe { $call(*number, buf) }).sum()
            }
        };
    }

    /// Prints each text of a row at its place.
    macro_rules! row_printer {
        ($function:ident, $call:ident) => {
            pub fn $function(numbers: &[f32], buffers: &mut Buffers) -> usize {
                extern "C" {
                    fn $call(number: f32, buf: *mut u8) -> usize;
                }
                let (row, mut length) = (buffers.cpp_row.as_mut_ptr(), 0);
                for number in numbers {
                    // SAFETY: row points to room for as many of the longest texts, with a space each, that is lent to this
                    // function alone.
                    unsafe {
                        if length > 0 {
                            *row.add(length) = b' ';
                            length += 1;
                        }
                        length += $call(*number, row.add(length));
                    }
                }
                length
            }
        };
    }

    #[cfg(fmt)]
    printer!(fmt64, f64, bench_fmt64);
    #[cfg(fmt)]
    printer!(fmt32, f32, bench_fmt32);
    #[cfg(fmt)]
    row_printer!(fmt_row, bench_fmt32);
    #[cfg(dragonbox)]
    printer!(dragonbox64, f64, bench_dragonbox64);
    #[cfg(dragonbox)]
    printer!(dragonbox32, f32, bench_dragonbox32);
    #[cfg(dragonbox)]
    row_printer!(dragonbox_row, bench_dragonbox32);
}
