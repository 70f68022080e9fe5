//! Patterns whose rest equals D, made and not met by chance.
//!
//! Since rest is what H has above a multiple of the unit and D is H - L, the two are equal where L itself is such a multiple:
//! of 10^p * 2^x at a place p of 0 or above, and of 2^(x - n) at a place -n below. L is one more than the rounded product of
//! the lower boundary and the table's entry, so a multiple wanted as L leaves one or two whole numbers for the lower boundary,
//! and one of them must be an odd number, 2f - 1, shifted as the boundaries are. The multiples are tried one after the other.

use crate::random::random;
use crate::rules::{Tie, Width};

/// So many multiples are tried for an exponent and a place; about one in 180 gives a binary32 pattern, and one in 1,500 a
/// binary64 pattern.
const TRIES: u64 = 10_000;

/// A magnitude with the biased exponent, not that of the subnormals, whose rest equals D at the place. It is looked for from
/// some multiple on that the exponent and the place settle, and from the first one again after the last.
pub fn magnitude(width: &Width, biased: u64, tie: Tie) -> Option<u64> {
    let hidden = 1u64 << width.s;
    let (shift, upper_exponent) = width.shift(hidden, biased as i32 - width.bias - width.s as i32);
    let (power, x) = width.power(upper_exponent);
    let unit = match tie {
        Tie::Above(place) => 10u64.pow(place).checked_mul(1 << x)?,
        Tie::Below(n) => 1 << x.checked_sub(n)?,
    };
    let lower_of = |f: u64| (2 * f - 1) << shift;
    let first = width.product(lower_of(hidden + 1), power) / unit + 1;
    let count = (width.product(lower_of(2 * hidden - 1), power) / unit + 1).saturating_sub(first);
    for n in 0..count.min(TRIES) {
        let multiple = first + (random(biased, unit) % count + n) % count;
        let l = u128::from(multiple) * u128::from(unit);
        // the lower boundaries whose rounded product is l - 1
        let half = 1u128 << (width.n - 1);
        let from = (((l - 1) << width.n) - half).div_ceil(u128::from(power));
        let to = ((l << width.n) - half - 1) / u128::from(power);
        for lower in from..=to {
            let (odd, left) = (lower >> shift, lower & ((1 << shift) - 1));
            if left != 0 || odd % 2 == 0 {
                continue;
            }
            let f = (odd as u64 + 1) / 2;
            let magnitude = (biased << width.s) + f - hidden;
            if f < 2 * hidden && width.tie(magnitude) == Some(tie) {
                return Some(magnitude);
            }
        }
    }
    None
}
