//! Texts that may not have the form of a number: every one of a few bytes, and damaged copies of good ones.

use std::iter;

use crate::draws::Draws;
use crate::form::LONGEST;

/// No damaged text is longer.
pub const LARGEST: usize = 4 * LONGEST;

/// How many texts of 1, 2 and 3 bytes there are.
const SHORT: [u64; 3] = [1 << 8, 1 << 16, 1 << 24];

/// How many texts there are of 1 to 3 bytes.
pub const ALL_SHORT: u64 = SHORT[0] + SHORT[1] + SHORT[2];

/// The bytes that a damage puts most often: those of numbers and names, and some that other readers take.
const LIKELY: &[u8] = b"0123456789..--eeNaninf+E_, x\0";

/// Text number `n` of those of 1, 2 and 3 bytes, and its length. The longest stand in an order that goes through all of their
/// first bytes again and again.
pub fn short(n: u64) -> ([u8; 3], usize) {
    let (bytes, length) = if n < SHORT[0] {
        (n, 1)
    } else if n < SHORT[0] + SHORT[1] {
        (n - SHORT[0], 2)
    } else {
        ((n - SHORT[0] - SHORT[1]).wrapping_mul(0x9e_3779) % SHORT[2], 3)
    };
    ([bytes as u8, (bytes >> 8) as u8, (bytes >> 16) as u8], length)
}

/// Damages a text, most often once.
pub fn damage(text: &mut Vec<u8>, draws: &mut Draws) {
    let times = if draws.below(4) == 0 { 2 + draws.below(2) } else { 1 };
    for _ in 0..times {
        damage_once(text, draws);
    }
    text.truncate(LARGEST);
}

fn damage_once(text: &mut Vec<u8>, draws: &mut Draws) {
    if text.is_empty() {
        return text.push(byte(draws));
    }
    let at = draws.below(text.len());
    match draws.below(16) {
        0..4 => text[at] = byte(draws),
        4..6 => drop(text.remove(at)),
        6..9 => text.insert(at, byte(draws)),
        9 => text.push(byte(draws)),
        10..12 => text.insert(at, text[at]),
        12 => text.truncate(at),
        13 => drop(text.drain(..at)),
        14 => text.swap(at, 0),
        _ => {
            let more = draws.below(2 * LONGEST);
            text.splice(at..at, iter::repeat_n(b'0', more));
        }
    }
}

/// A byte, seven in eight times a likely one.
fn byte(draws: &mut Draws) -> u8 {
    match draws.below(8) {
        0 => draws.bits() as u8,
        _ => LIKELY[draws.below(LIKELY.len())],
    }
}
