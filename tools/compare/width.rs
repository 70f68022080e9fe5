//! The two widths: how a pattern is made up, and what Rust's own `parse` reads.

pub trait Width {
    /// The bits of a pattern, of its significand, and of its exponent.
    const BITS: u32;
    const SIGNIFICAND: u32;
    const EXPONENT: u32 = Self::BITS - Self::SIGNIFICAND - 1;

    /// What Rust's `parse` reads. The text is to have a form that it takes.
    fn parse(text: &str) -> u64;

    fn is_finite(bits: u64) -> bool {
        let exponent = bits >> Self::SIGNIFICAND & ((1 << Self::EXPONENT) - 1);
        exponent != (1 << Self::EXPONENT) - 1
    }
}

pub struct Binary32;
pub struct Binary64;

impl Width for Binary32 {
    const BITS: u32 = 32;
    const SIGNIFICAND: u32 = 23;

    #[inline(always)]
    fn parse(text: &str) -> u64 {
        u64::from(text.parse::<f32>().expect("a form that parse takes").to_bits())
    }
}

impl Width for Binary64 {
    const BITS: u32 = 64;
    const SIGNIFICAND: u32 = 52;

    #[inline(always)]
    fn parse(text: &str) -> u64 {
        text.parse::<f64>().expect("a form that parse takes").to_bits()
    }
}
