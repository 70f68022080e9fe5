//! The buffer that is lent to the archive: it stands between two fences, and every byte of all three has a value of its own
//! place, which no text has.
//!
//! In the long runs of single numbers only the bytes that a text can reach are looked at and put right after every call. Any
//! other byte keeps what was written to it, so that one look at the whole finds a stray write of any call before it.

/// The bytes at the buffer's start that are looked at after every call: those of the longest text, and some behind them.
const NEAR: usize = 32;

const FENCE: usize = 64;

/// The bytes of a buffer of this length and of its fences.
pub const fn fenced(length: usize) -> usize {
    FENCE + length + FENCE
}

const fn fill<const WHOLE: usize>() -> [u8; WHOLE] {
    let mut bytes = [0; WHOLE];
    let mut at = 0;
    while at < WHOLE {
        bytes[at] = 0x80 | (at * 37 % 128) as u8;
        at += 1;
    }
    bytes
}

/// The fill of the near bytes.
const NEAR_FILL: [u8; NEAR] = {
    let (whole, mut near, mut at) = (fill::<{ fenced(NEAR) }>(), [0; NEAR], 0);
    while at < NEAR {
        near[at] = whole[FENCE + at];
        at += 1;
    }
    near
};

/// A buffer and its fences, of `WHOLE` bytes together.
pub struct Lent<const WHOLE: usize> {
    bytes: Box<[u8; WHOLE]>,
}

impl<const WHOLE: usize> Lent<WHOLE> {
    /// What every byte holds before a call.
    const FILL: &'static [u8; WHOLE] = &fill();

    /// The length of the buffer.
    const LENGTH: usize = WHOLE - fenced(0);

    pub fn new() -> Lent<WHOLE> {
        Lent { bytes: Box::new(*Self::FILL) }
    }

    /// The start of the lent buffer.
    #[inline(always)]
    pub fn start(&mut self) -> *mut u8 {
        // SAFETY: the fence and the buffer are parts of one array. The pointer is the array's, so that a call which writes over
        // an end of the buffer meets a fence.
        unsafe { self.bytes.as_mut_ptr().add(FENCE) }
    }

    #[inline(always)]
    fn near(&mut self) -> &mut [u8; NEAR] {
        (&mut self.bytes[FENCE..FENCE + NEAR]).try_into().expect("the slice has as many bytes")
    }

    /// The near bytes as they are to be after a text was put at their start.
    #[inline(always)]
    pub fn near_with(&self, text: &str) -> [u8; NEAR] {
        let mut near = NEAR_FILL;
        near[..text.len()].copy_from_slice(text.as_bytes());
        near
    }

    /// Whether the near bytes are these. Puts their fill back.
    #[inline(always)]
    pub fn near_was(&mut self, wanted: &[u8; NEAR]) -> bool {
        let near = self.near();
        let same = near == wanted;
        *near = NEAR_FILL;
        same
    }

    /// Gives every byte its fill.
    pub fn refill(&mut self) {
        *self.bytes = *Self::FILL;
    }

    /// The first `length` bytes of the lent buffer, or all of it.
    pub fn text(&self, length: usize) -> &[u8] {
        &self.bytes[FENCE..FENCE + length.min(Self::LENGTH)]
    }

    /// Whether every byte outside the first `length` has its fill.
    pub fn stayed(&self, length: usize) -> bool {
        let behind = FENCE + length.min(Self::LENGTH);
        self.bytes[..FENCE] == Self::FILL[..FENCE] && self.bytes[behind..] == Self::FILL[behind..]
    }

    /// Says of a call which bytes it changed that are to stay, those outside the first `length`; nothing where it changed none.
    pub fn strays(&self, length: usize) -> String {
        let text = FENCE..FENCE + length;
        let lacking = (0..WHOLE).filter(|at| !text.contains(at) && self.bytes[*at] != Self::FILL[*at]);
        let shown: String =
            lacking.take(8).map(|at| format!(" {}:{:02x}", at as isize - FENCE as isize, self.bytes[at])).collect();
        match shown.as_str() {
            "" => shown,
            _ => format!(", and changed bytes that are to stay, place:value{shown}"),
        }
    }
}
