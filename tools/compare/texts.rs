//! Texts to read, each settled by a seed and its number. All have the form of a number, or are one of the names.

use crate::decimal::Whole;
use crate::draws::Draws;
use crate::form::LONGEST;
use crate::width::{Binary32, Binary64, Width};
use crate::written::{Written, MOST_DIGITS};

/// Where the decimal exponents of both widths end, and a little beyond.
const ENDS: [(i32, i32); 4] = [(-48, -36), (36, 40), (-328, -305), (305, 311)];

/// The biased exponents at which the point halfway to the next number has so few digits that most fit, for each width.
const HALFWAY32: (i32, i32) = (76, 254);
const HALFWAY64: (i32, i32) = (1013, 1231);

/// What a text is made as.
#[derive(Clone, Copy)]
pub enum Kind {
    /// Any digits with a point anywhere, and an exponent of 0 to 4 digits.
    Any,
    /// Any digits, of a number of both widths, or of one that is too large or too small for them.
    Near,
    /// The same where the decimal exponents of the widths end.
    NearEnds,
    /// Halfway between two numbers, or close to that.
    Halfway32,
    Halfway64,
    /// The same from the smallest number to the largest, where few fit to their last digit.
    HalfwayAnywhere,
    /// Halfway between two numbers of f64, by few digits and a power of ten.
    HalfwayByPower,
    ZeroOrName,
}

/// Makes texts, again and again in the same room.
pub struct Texts {
    written: Written,
    whole: Whole,
}

impl Texts {
    pub fn new() -> Texts {
        Texts { written: Written::new(), whole: Whole::new() }
    }

    /// The text that these draws settle, of any kind.
    pub fn make(&mut self, draws: &mut Draws) -> &[u8] {
        let negative = draws.once_in(2);
        let kind = match draws.below(32) {
            0 => Kind::HalfwayByPower,
            1..8 => Kind::Any,
            8..16 => Kind::Near,
            16..20 => Kind::NearEnds,
            20..25 => Kind::Halfway32,
            25..30 => Kind::Halfway64,
            30 => Kind::HalfwayAnywhere,
            _ => Kind::ZeroOrName,
        };
        self.make_kind(kind, negative, draws)
    }

    /// The text of this kind that these draws settle.
    pub fn make_kind(&mut self, kind: Kind, negative: bool, draws: &mut Draws) -> &[u8] {
        self.written.text.clear();
        if negative {
            self.written.text.push(b'-');
        }
        match kind {
            Kind::Any => self.any(draws),
            Kind::Near => {
                let power = draws.between(-400, 400);
                self.near(power, draws);
            }
            Kind::NearEnds => {
                let (from, to) = ENDS[draws.below(ENDS.len())];
                let power = draws.between(from, to);
                self.near(power, draws);
            }
            Kind::Halfway32 => {
                let magnitude = normal::<Binary32>(HALFWAY32, draws);
                self.halfway::<Binary32>(magnitude, draws);
            }
            Kind::Halfway64 => {
                let magnitude = normal::<Binary64>(HALFWAY64, draws);
                self.halfway::<Binary64>(magnitude, draws);
            }
            Kind::HalfwayAnywhere => self.halfway_anywhere(draws),
            Kind::HalfwayByPower => self.halfway_by_power(draws),
            Kind::ZeroOrName => self.zero_or_name(draws),
        }
        &self.written.text
    }

    fn any(&mut self, draws: &mut Draws) {
        self.draw_digits(60, draws);
        let exponent_digits = draws.below(5);
        let negative = draws.once_in(2);
        let taken = self.written.text.len() + 1 + if exponent_digits > 0 { 2 + exponent_digits } else { 0 };
        self.written.digits.truncate(LONGEST - taken);
        let point = 1 + draws.below(self.written.digits.len());
        self.written.put_digits(point);
        if exponent_digits > 0 {
            self.written.text.extend(if negative { &b"e-"[..] } else { b"e" });
            self.written.text.extend((0..exponent_digits).map(|_| draws.below(10) as u8 + b'0'));
        }
    }

    /// Any digits, of a number whose first digit has about this place.
    fn near(&mut self, place: i32, draws: &mut Draws) {
        let most = if draws.once_in(2) { 20 } else { MOST_DIGITS };
        self.draw_digits(most, draws);
        self.written.lay_out(place + 1 - self.written.digits.len() as i32, draws);
    }

    /// The point halfway between a number and the next, where it can be: from the smallest to the largest number.
    fn halfway_anywhere(&mut self, draws: &mut Draws) {
        let bits = draws.bits();
        match draws.below(4) {
            0 => self.halfway::<Binary32>(bits >> 40 & 0x7f_ffff, draws),
            1 => self.halfway::<Binary32>(bits >> 33 & 0x7fff_ffff, draws),
            2 => self.halfway::<Binary64>(bits >> 12, draws),
            _ => self.halfway::<Binary64>(bits >> 1, draws),
        }
    }

    /// Digits times a power of ten that f64 has, of which the fives make an odd number of 54 bits: one more than f64 keeps.
    fn halfway_by_power(&mut self, draws: &mut Draws) {
        let power = draws.between(1, 22);
        let fives = 5u64.pow(power as u32);
        let (least, end) = ((1 << 53) / fives + 1, (1 << 54) / fives);
        let digits = (least + draws.bits() % (end - least)) | 1;
        self.whole.set(digits, 10, 0);
        self.whole.write(&mut self.written.digits);
        self.written.lay_out(power, draws);
    }

    /// The point halfway between a magnitude and the next one, to its last digit where that fits; one in eight times the magnitude
    /// itself. Three in four times it is a little more or less than that.
    fn halfway<W: Width>(&mut self, magnitude: u64, draws: &mut Draws) {
        let magnitude = if W::is_finite(magnitude) { magnitude } else { magnitude ^ 1 << (W::BITS - 2) };
        let hidden = 1 << W::SIGNIFICAND;
        let (biased, significand) = ((magnitude >> W::SIGNIFICAND) as i32, magnitude & (hidden - 1));
        let f = if biased == 0 { significand } else { significand | hidden };
        let twice = 2 * f + u64::from(f == 0 || !draws.once_in(8));
        // half the weight of a significand's last bit
        let lowest = 2 - (1 << (W::EXPONENT - 1)) - W::SIGNIFICAND as i32 - 1;
        let exponent = lowest + biased.max(1) - 1;
        let mut power = exponent.min(0);
        self.whole.set(twice, if exponent < 0 { 5 } else { 2 }, exponent.unsigned_abs());
        self.whole.write(&mut self.written.digits);
        while self.written.digits.ends_with(b"0") {
            self.written.digits.pop();
            power += 1;
        }
        power += self.depart(draws);
        self.written.lay_out(power, draws);
    }

    /// Makes a number a little more or less: by a digit behind it, by its last digit, or by leaving digits away. Says by how many
    /// places the power of its last digit has changed.
    fn depart(&mut self, draws: &mut Draws) -> i32 {
        let count = self.written.digits.len();
        match draws.below(4) {
            0 => {
                let room = MOST_DIGITS.saturating_sub(count + 1);
                let zeros = if room > 0 { draws.below(room + 1) } else { 0 };
                self.written.digits.resize(count + zeros, b'0');
                self.written.digits.push(b'1');
            }
            1 if count > 1 => self.written.digits[count - 1] -= 1,
            2 if count > 15 => {
                self.written.digits.truncate(15 + draws.below(count - 15));
                let last = self.written.digits.len() - 1;
                if self.written.digits[last] < b'9' && draws.once_in(2) {
                    self.written.digits[last] += 1;
                }
            }
            _ => (),
        }
        count as i32 - self.written.digits.len() as i32
    }

    fn zero_or_name(&mut self, draws: &mut Draws) {
        match draws.below(4) {
            0 => {
                self.written.text.clear();
                self.written.text.extend(b"NaN");
            }
            1 => self.written.text.extend(b"inf"),
            _ => {
                self.written.digits.clear();
                self.written.digits.resize(1 + draws.below(MOST_DIGITS), b'0');
                let power = draws.between(-9900, 9900);
                self.written.lay_out(power, draws);
            }
        }
    }

    /// Draws 1 to `most` digits. One in four times most of them are zeros or nines.
    fn draw_digits(&mut self, most: usize, draws: &mut Draws) {
        let count = 1 + draws.below(most);
        let filled = draws.once_in(4).then(|| if draws.once_in(2) { b'0' } else { b'9' });
        self.written.digits.clear();
        for _ in 0..count {
            let digit = draws.below(10) as u8 + b'0';
            self.written.digits.push(filled.filter(|_| !draws.once_in(8)).unwrap_or(digit));
        }
    }
}

/// The magnitude of a number with one of these biased exponents.
fn normal<W: Width>((from, to): (i32, i32), draws: &mut Draws) -> u64 {
    let biased = draws.between(from, to) as u64;
    biased << W::SIGNIFICAND | draws.bits() >> (64 - W::SIGNIFICAND)
}
