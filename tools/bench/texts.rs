//! The texts that are read: what we print for the numbers of a workload.

use std::str;

use crate::archive::{dtoa_format32, dtoa_format64, Printed};
use crate::workloads::Numbers;

/// The bytes that we ask for to print a number.
const ROOM: usize = 25;

/// Texts that stand one behind the other, with nothing between two.
pub struct Texts {
    all: String,
    ends: Vec<usize>,
}

impl Texts {
    pub fn new(numbers: &Numbers) -> Texts {
        let mut texts = Texts { all: String::new(), ends: Vec::new() };
        // SAFETY: push lends each call so many bytes.
        match numbers {
            Numbers::F64(numbers) => {
                numbers.iter().for_each(|number| texts.push(|buf, len| unsafe { dtoa_format64(number.to_bits(), buf, len) }))
            }
            Numbers::F32(numbers) | Numbers::Rows(numbers) => {
                numbers.iter().for_each(|number| texts.push(|buf, len| unsafe { dtoa_format32(number.to_bits(), buf, len) }))
            }
        }
        texts
    }

    fn push(&mut self, print: impl Fn(*mut u8, usize) -> Printed) {
        let mut bytes = [0; ROOM];
        let length = print(bytes.as_mut_ptr(), bytes.len()).length as usize;
        self.all += str::from_utf8(&bytes[..length]).expect("a printed text is ASCII");
        self.ends.push(self.all.len());
    }

    /// Each text by itself.
    pub fn slices(&self) -> Vec<&str> {
        let starts = [0].into_iter().chain(self.ends.iter().copied());
        starts.zip(&self.ends).map(|(start, end)| &self.all[start..*end]).collect()
    }
}
