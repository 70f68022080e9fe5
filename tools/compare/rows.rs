//! Rows: calls of the archive for many patterns at once, held against the crate's `format` called once for each.

use crate::archive::{dtoa_format_row32, Printed};
use crate::functions::{Entry, Functions};
use crate::lent::{fenced, Lent};
use crate::plan::edges;
use crate::random::random;
use crate::report::Differences;
use crate::width::Binary32;

/// A row has at most this many patterns, and asks for this many bytes for each.
const LIMIT: usize = 4096;
const ROOM_EACH: usize = 26;

/// The numbers of a row's answers.
const PRINTED: u32 = 0;
const TOO_MANY: u32 = 3;
const TOO_SHORT: u32 = 4;

/// A larger buffer than a row asks for has 1 to this many bytes more.
const MORE: u64 = 64;

/// The longest buffer that is lent.
const LARGEST: usize = ROOM_EACH * (LIMIT + 1) + MORE as usize;

/// The lengths that are not left to chance.
const COUNTS: [usize; 5] = [0, 1, 2, LIMIT, LIMIT + 1];

/// The pattern of the positive infinity.
const INFINITY: u32 = 0x7f80_0000;

/// So many bytes of a text are shown before the place where it differs, and behind it.
const SHOWN: usize = 30;

/// What a thread needs to compare rows.
pub struct Rows<'a> {
    lent: Lent<{ fenced(LARGEST) }>,
    original: dtoa::Buffer,
    edges: Vec<u32>,
    differences: &'a Differences,
    pub calls: u64,
}

impl<'a> Rows<'a> {
    pub fn new(differences: &'a Differences) -> Rows<'a> {
        let edges = edges::<Binary32>().map(|bits| bits as u32).collect();
        Rows { lent: Lent::new(), original: dtoa::Buffer::new(), edges, differences, calls: 0 }
    }

    /// Rows of each of the lengths, which together take every one of the edges. Says how many rows they are.
    pub fn compare_edges(&mut self) -> u64 {
        let mut rows = 0;
        for count in COUNTS {
            let step = if count == 0 { self.edges.len() } else { count };
            for first in (0..self.edges.len()).step_by(step) {
                let patterns: Vec<u32> = self.edges.iter().copied().cycle().skip(first).take(count).collect();
                self.compare(&patterns, rows);
                rows += 1;
            }
        }
        rows
    }

    /// Row number `n` of the seed. One in 16 has one of these lengths; of the others as many are at most 1 long as at most 2, at
    /// most 4 and so on.
    pub fn compare_random(&mut self, seed: u64, n: u64) {
        let seed = random(!seed, n);
        let (choice, length) = (random(seed, 0), random(seed, 1) as usize);
        let count = match choice % 16 {
            0 => COUNTS[length % COUNTS.len()],
            _ => length % ((LIMIT >> (choice / 16 % 13)) + 1),
        };
        let patterns: Vec<u32> = (0..count).map(|at| self.pattern(random(seed, at as u64 + 2))).collect();
        self.compare(&patterns, n);
    }

    /// Of eight patterns one is a NaN, one an infinity and two are edges; the others have random bits.
    fn pattern(&self, drawn: u64) -> u32 {
        let bits = (drawn >> 32) as u32;
        match drawn % 8 {
            0 => bits | INFINITY | 1,
            1 => bits & 1 << 31 | INFINITY,
            2 | 3 => self.edges[bits as usize % self.edges.len()],
            _ => bits,
        }
    }

    /// Row number `n` in a buffer of no bytes, of one too few, of as many as it asks for, and of more.
    fn compare(&mut self, patterns: &[u32], n: u64) {
        let text = self.joined(patterns);
        let room = ROOM_EACH * patterns.len();
        let mut rooms = vec![0, room.saturating_sub(1), room, room + 1 + (n % MORE) as usize];
        rooms.dedup();
        for room in rooms {
            self.inspect(patterns, room, &text);
        }
    }

    /// The crate's texts of the patterns, with one space between two.
    fn joined(&mut self, patterns: &[u32]) -> String {
        let mut text = String::new();
        for (at, bits) in patterns.iter().enumerate() {
            if at > 0 {
                text.push(' ');
            }
            text += Binary32::original(Entry::Every, u64::from(*bits), &mut self.original);
        }
        text
    }

    /// Makes one call and looks at every byte. Writes down a difference.
    fn inspect(&mut self, patterns: &[u32], room: usize, joined: &str) {
        self.calls += 1;
        // SAFETY: the patterns are as many as is said, and no room is longer than the lent buffer.
        let got = unsafe { dtoa_format_row32(patterns.as_ptr(), patterns.len(), self.lent.start(), room) };
        let (number, text) = if patterns.len() > LIMIT {
            (TOO_MANY, "")
        } else if room < ROOM_EACH * patterns.len() {
            (TOO_SHORT, "")
        } else {
            (PRINTED, joined)
        };
        let wanted = Answer { printed: Printed { number, length: text.len() as u32 }, text: text.as_bytes() };
        let length = got.length as usize;
        let got = Answer { printed: got, text: self.lent.text(length) };
        if got != wanted || !self.lent.stayed(length) {
            self.differences.add(|| {
                let call = format!("a row of {} patterns, buffer of {room} bytes", patterns.len());
                let (part, strays) = (wanted.part_from(&got, patterns), self.lent.strays(length));
                let (wanted, got) = (wanted.beside(&got), got.beside(&wanted));
                format!("{call}{part}\n  wanted  {wanted}\n  got     {got}{strays}")
            });
        }
        self.lent.refill();
    }
}

/// What a call answers: number and length, and the text that the length says.
#[derive(PartialEq, Eq)]
struct Answer<'a> {
    printed: Printed,
    text: &'a [u8],
}

impl Answer<'_> {
    /// The first place where the other text is another, or the end of the shorter.
    fn parting(&self, other: &Answer) -> usize {
        self.text.iter().zip(other.text).take_while(|(ours, theirs)| ours == theirs).count()
    }

    /// Says at which pattern of the row the other text leaves this one; nothing where the two are the same.
    fn part_from(&self, other: &Answer, patterns: &[u32]) -> String {
        if self.text == other.text {
            return String::new();
        }
        let place = self.parting(other);
        let number = self.text[..place].iter().filter(|byte| **byte == b' ').count();
        let pattern = patterns.get(number).map(|bits| format!(", at pattern number {number}, 0x{bits:08x}"));
        format!(", the texts part at byte {place}{}", pattern.unwrap_or_default())
    }

    /// Says what is answered, with as much of the text as stands around the place where the other text leaves it.
    fn beside(&self, other: &Answer) -> String {
        let place = self.parting(other);
        let (first, end) = (place.saturating_sub(SHOWN), self.text.len().min(place + SHOWN));
        let (before, behind) = (if first > 0 { ".." } else { "" }, if end < self.text.len() { ".." } else { "" });
        let Printed { number, length } = self.printed;
        format!("number {number}, length {length}, {before}\"{}\"{behind}", self.text[first..end].escape_ascii())
    }
}
