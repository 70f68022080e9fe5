//! Calls of the archive for one number, held against what they are to answer: docs/RULES.md says which number, the crate which
//! text.

use crate::archive::Printed;
use crate::functions::{Entry, Functions};
use crate::lent::{fenced, Lent};
use crate::plan::{LARGEST, ROOM};
use crate::reads::Reads;
use crate::report::Differences;

/// What a thread needs to make calls.
pub struct Caller<'a> {
    lent: Lent<{ fenced(LARGEST) }>,
    original: dtoa::Buffer,
    pub reads: Reads<'a>,
    pub differences: &'a Differences,
    calls: u64,
}

const TOO_SHORT: Printed = Printed { number: 1, length: 0 };
const NOT_FINITE: Printed = Printed { number: 2, length: 0 };

fn printed(text: &str) -> Printed {
    Printed { number: 0, length: text.len() as u32 }
}

impl<'a> Caller<'a> {
    pub fn new(differences: &'a Differences) -> Caller<'a> {
        let reads = Reads::new(differences);
        Caller { lent: Lent::new(), original: dtoa::Buffer::new(), reads, differences, calls: 0 }
    }

    /// The calls so far, those that read too.
    pub fn calls(&self) -> u64 {
        self.calls + self.reads.calls
    }

    #[inline(always)]
    fn call<W: Functions>(&mut self, entry: Entry, bits: u64, room: usize) -> Printed {
        self.calls += 1;
        // SAFETY: no room is longer than the lent buffer.
        unsafe { W::ours(entry, bits, self.lent.start(), room) }
    }

    /// Makes both entries' calls for a pattern, in a buffer that serves and in one that is too short, and says whether number,
    /// length and text are right and the bytes near the text stayed. The crate is asked once: at a finite pattern its
    /// `format` is its `format_finite`. Its text, which ours is held against, is read back.
    #[inline(always)]
    pub fn agrees<W: Functions>(&mut self, bits: u64, serving: usize, too_short: usize) -> bool {
        let text = W::original(Entry::Every, bits, &mut self.original);
        self.reads.compare_printed::<W>(bits, text);
        let (answer, with_text) = (printed(text), self.lent.near_with(text));
        let untouched = self.lent.near_with("");

        let mut same = self.call::<W>(Entry::Every, bits, too_short) == TOO_SHORT;
        same &= self.call::<W>(Entry::FiniteOnly, bits, too_short) == TOO_SHORT;
        same &= self.lent.near_was(&untouched);

        same &= self.call::<W>(Entry::Every, bits, serving) == answer;
        same &= self.lent.near_was(&with_text);

        let finite_only = self.call::<W>(Entry::FiniteOnly, bits, serving);
        if W::is_finite(bits) {
            same &= finite_only == answer;
            same &= self.lent.near_was(&with_text);
        } else {
            same &= finite_only == NOT_FINITE;
            same &= self.lent.near_was(&untouched);
        }
        same
    }

    /// Reads back what is printed for a pattern.
    pub fn read_back<W: Functions>(&mut self, bits: u64) {
        let text = W::original(Entry::Every, bits, &mut self.original);
        self.reads.compare_printed::<W>(bits, text);
    }

    /// Whether the calls so far left every byte as it was that none of their texts covers. Puts right what they did not.
    pub fn left_nothing(&mut self) -> bool {
        let nothing = self.lent.stayed(0);
        self.lent.refill();
        nothing
    }

    /// Makes one call and looks at every byte. Writes down a difference, and says whether there was none.
    pub fn inspect<W: Functions>(&mut self, entry: Entry, bits: u64, room: usize) -> bool {
        let got = self.call::<W>(entry, bits, room);
        let (wanted, text) = if room < ROOM {
            (TOO_SHORT, "")
        } else if entry == Entry::FiniteOnly && !W::is_finite(bits) {
            (NOT_FINITE, "")
        } else {
            let text = W::original(entry, bits, &mut self.original);
            (printed(text), text)
        };
        let length = got.length as usize;
        let same = got == wanted && self.lent.text(length) == text.as_bytes() && self.lent.stayed(length);
        if !same {
            let lent = &self.lent;
            self.differences.add(|| {
                let call = format!("{}(0x{bits:0digits$x})", W::name(entry), digits = W::BITS as usize / 4);
                let wanted = format!("number {}, length {}, {text:?}", wanted.number, wanted.length);
                let got = format!("number {}, length {length}, \"{}\"", got.number, lent.text(length).escape_ascii());
                format!("{call}, buffer of {room} bytes\n  wanted  {wanted}\n  got     {got}{}", lent.strays(length))
            });
        }
        self.lent.refill();
        same
    }
}
