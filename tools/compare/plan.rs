//! What is compared: which patterns, in which order, with buffers of which lengths.

use crate::width::Width;

/// The shortest buffer that serves, and the longest that is lent.
pub const ROOM: usize = 25;
pub const LARGEST: usize = 4096;

/// The lengths of the lent buffers: 0 to 64, and the largest.
pub fn rooms() -> impl Iterator<Item = usize> {
    (0..=64).chain([LARGEST])
}

/// The buffer of pattern number `n` of a sweep: one of 25 to 64, or the largest.
pub fn serving(n: u64) -> usize {
    let choice = n as usize % 41;
    if choice == 40 {
        LARGEST
    } else {
        ROOM + choice
    }
}

/// The buffer of pattern number `n` of a sweep that is too short: one of 0 to 24.
pub fn too_short(n: u64) -> usize {
    n as usize % ROOM
}

/// Pattern number `n` of all binary32 patterns, in an order that goes through every exponent again and again: runs of 256
/// neighbours, the runs spread evenly. Each pattern has one number, since the factor is odd.
pub fn spread(n: u64) -> u64 {
    let run = (n >> 8).wrapping_mul(0x9e_3779) & 0xff_ffff;
    run << 8 | n & 0xff
}

/// The patterns of a width at every exponent, with the first, second, middle and last significand and both signs.
pub fn edges<W: Width>() -> impl Iterator<Item = u64> {
    let significands = [0, 1, 1 << (W::SIGNIFICAND - 1), (1 << W::SIGNIFICAND) - 1];
    let exponents = 0..1u64 << W::EXPONENT;
    let magnitudes = exponents.flat_map(move |exponent| significands.map(|significand| exponent << W::SIGNIFICAND | significand));
    magnitudes.flat_map(|magnitude| [magnitude, 1 << (W::BITS - 1) | magnitude])
}

/// The sweeps are cut into blocks of this many patterns or texts, or of this many rows, which take about as long.
const BLOCK: u64 = 1 << 16;
const ROW_BLOCK: u64 = 1 << 7;

/// What is gone through.
#[derive(Clone, Copy)]
pub enum Sweep {
    All32,
    Random64,
    Subnormal64,
    Rows,
    Texts,
    ShortTexts,
    DamagedTexts,
}

/// A block of a sweep: patterns, rows or texts from `first` on, below `end`.
pub struct Block {
    pub sweep: Sweep,
    pub first: u64,
    pub end: u64,
}

/// How many patterns, rows or texts each sweep has.
pub struct Plan {
    pub seed: u64,
    pub all32: u64,
    pub random64: u64,
    pub subnormal64: u64,
    pub rows: u64,
    pub texts: u64,
    pub short_texts: u64,
    pub damaged_texts: u64,
}

/// Of `all` blocks `few` are of one sweep, spread evenly. Says whether block number `i` is one of them, and which number it has
/// among them or among the others.
fn turn(i: u64, few: u64, all: u64) -> (bool, u64) {
    let (before, after) = (i * few / all, (i + 1) * few / all);
    if before < after {
        (true, before)
    } else {
        (false, i - before)
    }
}

impl Plan {
    /// Each sweep, with how many it has, and how many of them make a block.
    fn sweeps(&self) -> [(Sweep, u64, u64); 7] {
        [
            (Sweep::All32, self.all32, BLOCK),
            (Sweep::Random64, self.random64, BLOCK),
            (Sweep::Subnormal64, self.subnormal64, BLOCK),
            (Sweep::Rows, self.rows, ROW_BLOCK),
            (Sweep::Texts, self.texts, BLOCK),
            (Sweep::ShortTexts, self.short_texts, BLOCK),
            (Sweep::DamagedTexts, self.damaged_texts, BLOCK),
        ]
    }

    pub fn blocks(&self) -> u64 {
        self.sweeps().iter().map(|(_, count, size)| count.div_ceil(*size)).sum()
    }

    /// Block number `i`. Those of the sweeps stand in turn, as evenly as their counts allow, so that the work goes on at one
    /// pace and the time left can be told.
    pub fn block(&self, i: u64) -> Block {
        let (mut place, mut blocks) = (i, self.blocks());
        for (sweep, count, size) in self.sweeps().into_iter().rev() {
            let few = count.div_ceil(size);
            let (is_of_sweep, number) = turn(place, few, blocks);
            if is_of_sweep {
                return Block { sweep, first: number * size, end: count.min((number + 1) * size) };
            }
            (place, blocks) = (number, blocks - few);
        }
        unreachable!("there is no block number {i}")
    }
}
