//! What is timed of reading: our calls, Rust's `parse`, and fast_float where it is installed (the configuration says whether). Each
//! function reads all of the texts, and hands back the sum of their patterns, so that no call is left out.

use crate::archive::{dtoa_read32, dtoa_read64};

pub struct Reader {
    pub name: &'static str,
    pub read64: fn(&[&str]) -> u64,
    pub read32: fn(&[&str]) -> u64,
}

/// Rust's `parse` comes first and we second; an earlier archive of ours comes last.
pub const READERS: &[Reader] = &[
    Reader { name: "parse", read64: parse64, read32: parse32 },
    Reader { name: "ours", read64: ours64, read32: ours32 },
    #[cfg(fast_float)]
    Reader { name: "fast_float", read64: cpp::fast_float64, read32: cpp::fast_float32 },
    #[cfg(before_reads)]
    Reader { name: "before", read64: before::before64, read32: before::before32 },
];

fn sum<'a>(texts: &[&'a str], read: impl Fn(&'a str) -> u64) -> u64 {
    texts.iter().fold(0, |sum, text| sum.wrapping_add(read(text)))
}

fn parse64(texts: &[&str]) -> u64 {
    sum(texts, |text| text.parse::<f64>().expect("a printed number").to_bits())
}

fn parse32(texts: &[&str]) -> u64 {
    sum(texts, |text| u64::from(text.parse::<f32>().expect("a printed number").to_bits()))
}

/// The two functions of an archive of ours, by the names that its calls have.
macro_rules! archive {
    ($ours64:ident, $read64:ident, $ours32:ident, $read32:ident) => {
        pub fn $ours64(texts: &[&str]) -> u64 {
            // SAFETY: a text has so many bytes at its start.
            sum(texts, |text| unsafe { $read64(text.as_ptr(), text.len()) }.pattern)
        }

        pub fn $ours32(texts: &[&str]) -> u64 {
            // SAFETY: as above.
            sum(texts, |text| u64::from(unsafe { $read32(text.as_ptr(), text.len()) }.pattern))
        }
    };
}

archive!(ours64, dtoa_read64, ours32, dtoa_read32);

/// An earlier archive, with its functions renamed.
#[cfg(before_reads)]
mod before {
    use super::sum;
    use crate::archive::{Read32, Read64};

    extern "C" {
        fn before_read64(text: *const u8, len: usize) -> Read64;
        fn before_read32(text: *const u8, len: usize) -> Read32;
    }

    archive!(before64, before_read64, before32, before_read32);
}

/// fast_float.cpp.
#[cfg(fast_float)]
mod cpp {
    use super::sum;

    extern "C" {
        fn bench_fast_float64(text: *const u8, length: usize) -> f64;
        fn bench_fast_float32(text: *const u8, length: usize) -> f32;
    }

    pub fn fast_float64(texts: &[&str]) -> u64 {
        // SAFETY: a text has so many bytes at its start.
        sum(texts, |text| unsafe { bench_fast_float64(text.as_ptr(), text.len()) }.to_bits())
    }

    pub fn fast_float32(texts: &[&str]) -> u64 {
        // SAFETY: as above.
        sum(texts, |text| u64::from(unsafe { bench_fast_float32(text.as_ptr(), text.len()) }.to_bits()))
    }
}
