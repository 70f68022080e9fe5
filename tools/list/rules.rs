//! The scaled numbers and the places of docs/RULES.md, sections 1 to 3, in whole numbers: enough to tell at which place a
//! pattern's rest equals D. The texts of the list are the crate's own, and do not come from here.

/// A width, with its table of powers of ten.
pub struct Width {
    pub bits: u32,
    /// N: the bits of a scaled number.
    pub n: u32,
    /// S: the bits of a significand.
    pub s: u32,
    pub bias: i32,
    /// The power of ten that the table's first entry stands for; each next one is eight more.
    pub first_power: i32,
    pub significands: Vec<u64>,
    pub exponents: Vec<i32>,
}

/// A place at which the rest equals D, and no place before it passes.
#[derive(Clone, Copy, PartialEq, Eq)]
pub enum Tie {
    /// Place p, 0 or above: it passes.
    Above(u32),
    /// Place -n, below 0: it does not pass.
    Below(u32),
}

/// H, L and x.
pub struct Scaled {
    pub h: u64,
    pub l: u64,
    pub x: u32,
}

impl Width {
    /// f and e of a finite magnitude.
    fn decoded(&self, magnitude: u64) -> (u64, i32) {
        let (biased, significand) = ((magnitude >> self.s) as i32, magnitude & ((1 << self.s) - 1));
        match biased {
            0 => (significand, 1 - self.bias - self.s as i32),
            _ => (significand + (1 << self.s), biased - self.bias - self.s as i32),
        }
    }

    pub fn product(&self, a: u64, b: u64) -> u64 {
        ((u128::from(a) * u128::from(b) + (1 << (self.n - 1))) >> self.n) as u64
    }

    /// The table's entry for an upper boundary at exponent E: its significand, and x.
    pub fn power(&self, e: i32) -> (u64, u32) {
        let j = (f64::from(3 - self.n as i32 - e) * 2f64.log10()).ceil() as i32;
        let index = ((j - self.first_power - 1).div_euclid(8) + 1) as usize;
        let x = -(e + self.exponents[index] + self.n as i32);
        (self.significands[index], x as u32)
    }

    /// How far an upper boundary's 2f + 1 is shifted, and the exponent E that it ends at.
    pub fn shift(&self, f: u64, e: i32) -> (u32, i32) {
        let shift = self.n - (64 - (2 * f + 1).leading_zeros());
        (shift, e - 1 - shift as i32)
    }

    /// H, L and x of a finite magnitude above zero.
    pub fn scaled(&self, magnitude: u64) -> Scaled {
        let (f, e) = self.decoded(magnitude);
        let (shift, upper_exponent) = self.shift(f, e);
        let (power, x) = self.power(upper_exponent);
        let upper = (2 * f + 1) << shift;
        let lower = if f == 1 << self.s { (4 * f - 1) << (shift - 1) } else { (2 * f - 1) << shift };
        Scaled { h: self.product(upper, power) - 1, l: self.product(lower, power) + 1, x }
    }

    /// The place at which the rest of a finite magnitude above zero equals D.
    pub fn tie(&self, magnitude: u64) -> Option<Tie> {
        let Scaled { h, l, x } = self.scaled(magnitude);
        let (d, whole) = (h - l, h >> x);
        for place in (0..whole.checked_ilog10().map_or(0, |digits| digits + 1)).rev() {
            let rest = h % (10u64.pow(place) << x);
            if rest <= d {
                return (rest == d).then_some(Tie::Above(place));
            }
        }
        let (mut rest, mut room, below_one) = (h & ((1 << x) - 1), d, (1u64 << x) - 1);
        for n in 1.. {
            (rest, room) = ((rest * 10) & below_one, room * 10);
            if rest == room {
                return Some(Tie::Below(n));
            }
            if rest < room {
                break;
            }
        }
        None
    }
}

/// The list of numbers that a static array of the crate's source has.
fn table(source: &str, name: &str) -> Vec<i128> {
    let found = source.split_once(&format!("static {name}:")).unwrap_or_else(|| panic!("the crate's lib.rs has no {name}")).1;
    let list = found.split_once("= [").and_then(|(_, rest)| rest.split_once(']')).expect("a list in brackets").0;
    let number = |word: &str| match word.strip_prefix("0x") {
        Some(digits) => i128::from_str_radix(digits, 16),
        None => word.parse(),
    };
    list.split(',').map(str::trim).filter(|word| !word.is_empty()).map(|word| number(word).expect("a number")).collect()
}

/// Both widths, with the tables of the crate's lib.rs.
pub fn widths(source: &str) -> [Width; 2] {
    [(32, 23, 127, -36), (64, 52, 1023, -348)].map(|(bits, s, bias, first_power)| Width {
        bits,
        n: bits,
        s,
        bias,
        first_power,
        significands: table(source, &format!("CACHED_POWERS_F_{bits}")).into_iter().map(|f| f as u64).collect(),
        exponents: table(source, &format!("CACHED_POWERS_E_{bits}")).into_iter().map(|e| e as i32).collect(),
    })
}
