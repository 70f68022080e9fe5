//! Calls of the archive that read a text, held against what they are to answer: form.rs says which number, Rust's `parse` which
//! pattern.

use std::str;

use crate::archive::Read64;
use crate::damage::{damage, short, LARGEST};
use crate::draws::Draws;
use crate::form;
use crate::functions::Functions;
use crate::report::Differences;
use crate::texts::Texts;
use crate::width::{Binary32, Binary64, Width};

/// What makes the numbers of the damaged texts others than those of the good ones.
const DAMAGED: u64 = 0x6461_6d61_6765_6421;

/// A text that is lent to the archive. It stands between two fences of digits, so that a call which reads beyond an end of it
/// answers otherwise.
struct LentText {
    bytes: Box<[u8; FENCE + LARGEST + FENCE]>,
    length: usize,
}

const FENCE: usize = 64;
const FILL: u8 = b'7';

impl LentText {
    fn new() -> LentText {
        LentText { bytes: Box::new([FILL; FENCE + LARGEST + FENCE]), length: 0 }
    }

    /// Puts a text between the fences.
    #[inline(always)]
    fn put(&mut self, text: &[u8]) {
        let (end, last_end) = (FENCE + text.len(), FENCE + self.length);
        self.bytes[FENCE..end].copy_from_slice(text);
        if end < last_end {
            self.bytes[end..last_end].fill(FILL);
        }
        self.length = text.len();
    }

    fn text(&self) -> &[u8] {
        &self.bytes[FENCE..FENCE + self.length]
    }

    /// What the archive reads.
    #[inline(always)]
    fn read<W: Functions>(&self) -> Read64 {
        // SAFETY: the bytes are a part of the array, and the pointer is the array's.
        unsafe { W::read(self.bytes.as_ptr().add(FENCE), self.length) }
    }

    /// Whether every byte outside the text is a digit still.
    fn stayed(&self) -> bool {
        let (before, behind) = (&self.bytes[..FENCE], &self.bytes[FENCE + self.length..]);
        before.iter().chain(behind).all(|byte| *byte == FILL)
    }
}

/// What a thread needs to read.
pub struct Reads<'a> {
    lent: LentText,
    texts: Texts,
    damaged: Vec<u8>,
    differences: &'a Differences,
    pub calls: u64,
}

impl<'a> Reads<'a> {
    pub fn new(differences: &'a Differences) -> Reads<'a> {
        Reads { lent: LentText::new(), texts: Texts::new(), damaged: Vec::new(), differences, calls: 0 }
    }

    /// Reads the lent text, and writes down a difference.
    #[inline(always)]
    fn inspect<W: Functions>(&mut self, wanted: Read64) {
        self.calls += 1;
        let got = self.lent.read::<W>();
        if got != wanted {
            self.differ::<W>(wanted, got);
        }
    }

    #[cold]
    fn differ<W: Functions>(&self, wanted: Read64, got: Read64) {
        self.differences.add(|| {
            let digits = W::BITS as usize / 4;
            let say = |read: Read64| format!("number {}, pattern 0x{:0digits$x}", read.number, read.pattern);
            let text = self.lent.text();
            let call = format!("{}(\"{}\"), {} bytes", W::READ, text.escape_ascii(), text.len());
            format!("{call}\n  wanted  {}\n  got     {}", say(wanted), say(got))
        });
    }

    /// Reads what was printed for a pattern: the same pattern is wanted, and for every NaN the one that its name is read as.
    #[inline(always)]
    pub fn compare_printed<W: Functions>(&mut self, bits: u64, text: &str) {
        let pattern = if W::is_nan(bits) { W::NAN } else { bits };
        self.lent.put(text.as_bytes());
        self.inspect::<W>(Read64 { pattern, number: form::READ });
    }

    /// Reads text number `n` of the seed, which is to have the form.
    pub fn compare_text(&mut self, seed: u64, n: u64) {
        let text = self.texts.make(&mut Draws::new(seed, n));
        assert!(form::number(text) == form::READ, "no text of the form was made: {}", text.escape_ascii());
        self.lent.put(text);
        self.compare_lent(form::READ);
    }

    /// Reads text number `n` of those of 1 to 3 bytes.
    pub fn compare_short(&mut self, n: u64) {
        let (bytes, length) = short(n);
        self.lent.put(&bytes[..length]);
        self.compare_lent(form::number(&bytes[..length]));
    }

    /// Reads damaged text number `n` of the seed.
    pub fn compare_damaged(&mut self, seed: u64, n: u64) {
        let mut draws = Draws::new(seed ^ DAMAGED, n);
        self.damaged.clear();
        self.damaged.extend(self.texts.make(&mut draws));
        damage(&mut self.damaged, &mut draws);
        self.lent.put(&self.damaged);
        self.compare_lent(form::number(&self.damaged));
    }

    /// Reads the lent text at both widths, and wants this number.
    fn compare_lent(&mut self, number: u32) {
        let (mut narrow, mut wide) = (0, 0);
        if number == form::READ {
            let text = str::from_utf8(self.lent.text()).expect("a text of the form is ASCII");
            (narrow, wide) = (Binary32::parse(text), Binary64::parse(text));
        }
        self.inspect::<Binary32>(Read64 { pattern: narrow, number });
        self.inspect::<Binary64>(Read64 { pattern: wide, number });
    }

    /// Looks whether the calls so far left every byte around their texts as it was.
    pub fn look_around(&mut self) {
        if !self.lent.stayed() {
            self.differences.add(|| String::from("a call that reads changed a byte near its text"));
            self.lent = LentText::new();
        }
    }
}
