//! The functions of libdtoa_c.a, as include/dtoa.h declares them.

/// `struct dtoa_printed`.
#[repr(C)]
#[derive(Clone, Copy, PartialEq, Eq)]
pub struct Printed {
    pub number: u32,
    pub length: u32,
}

/// `struct dtoa_read32`.
#[repr(C)]
#[derive(Clone, Copy, PartialEq, Eq)]
pub struct Read32 {
    pub pattern: u32,
    pub number: u32,
}

/// `struct dtoa_read64`.
#[repr(C)]
#[derive(Clone, Copy, PartialEq, Eq)]
pub struct Read64 {
    pub pattern: u64,
    pub number: u32,
}

// a program may have no use for some of them
#[allow(dead_code)]
extern "C" {
    pub fn dtoa_format32(bits: u32, buf: *mut u8, len: usize) -> Printed;
    pub fn dtoa_format64(bits: u64, buf: *mut u8, len: usize) -> Printed;
    pub fn dtoa_format_finite32(bits: u32, buf: *mut u8, len: usize) -> Printed;
    pub fn dtoa_format_finite64(bits: u64, buf: *mut u8, len: usize) -> Printed;
    pub fn dtoa_format_row32(patterns: *const u32, count: usize, out: *mut u8, len: usize) -> Printed;
    pub fn dtoa_read32(text: *const u8, len: usize) -> Read32;
    pub fn dtoa_read64(text: *const u8, len: usize) -> Read64;
}
