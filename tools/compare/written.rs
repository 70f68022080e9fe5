//! How a number is written: each has many texts of the form.

use std::iter;

use crate::draws::Draws;
use crate::form::LONGEST;

/// The longest exponent, with its letter and its sign.
const EXPONENT: usize = 6;

/// As many digits as fit beside a sign, a point and the longest exponent.
pub const MOST_DIGITS: usize = LONGEST - EXPONENT - 2;

/// A text, and the digits and the exponent that are put into it.
pub struct Written {
    /// The text so far: at first nothing or a sign.
    pub text: Vec<u8>,
    pub digits: Vec<u8>,
    exponent: Vec<u8>,
}

impl Written {
    pub fn new() -> Written {
        Written { text: Vec::new(), digits: Vec::new(), exponent: Vec::new() }
    }

    /// Puts the digits with a point behind so many of them, or without where these are all.
    pub fn put_digits(&mut self, point: usize) {
        let (whole, fraction) = self.digits.split_at(point);
        self.text.extend(whole);
        if !fraction.is_empty() {
            self.text.push(b'.');
            self.text.extend(fraction);
        }
    }

    /// Writes the digits times this power of ten in one of the many ways, and leaves the last of them away where they do not fit.
    pub fn lay_out(&mut self, mut power: i32, draws: &mut Draws) {
        match draws.below(4) {
            0 if self.fits_plain(power) => return self.put_plain(power),
            1 => power -= self.put_zeros(draws),
            _ => (),
        }
        let point = 1 + draws.below(self.digits.len().min(MOST_DIGITS));
        self.set_exponent(power + (self.digits.len() - point) as i32, draws);
        self.digits.truncate(LONGEST - self.text.len() - 1 - self.exponent.len());
        self.put_digits(point);
        self.text.extend(&self.exponent);
        if draws.once_in(8) {
            let (front, room) = (usize::from(self.text[0] == b'-'), LONGEST - self.text.len());
            self.text.splice(front..front, iter::repeat_n(b'0', room));
        }
    }

    fn fits_plain(&self, power: i32) -> bool {
        let (sign, count, places) = (self.text.len(), self.digits.len(), power.unsigned_abs() as usize);
        let length = if power >= 0 { count + places } else { (count + 1).max(places + 2) };
        sign + length <= LONGEST
    }

    /// Writes the digits times this power of ten without an exponent.
    fn put_plain(&mut self, power: i32) {
        let (count, places) = (self.digits.len(), power.unsigned_abs() as usize);
        if power >= 0 {
            self.digits.resize(count + places, b'0');
            self.put_digits(count + places);
        } else {
            self.digits.splice(..0, iter::repeat_n(b'0', (places + 1).saturating_sub(count)));
            self.put_digits(self.digits.len() - places);
        }
    }

    /// Puts zeros before the digits and behind them, as many as fit. Says how many stand behind them.
    fn put_zeros(&mut self, draws: &mut Draws) -> i32 {
        let room = MOST_DIGITS.saturating_sub(self.digits.len());
        let behind = draws.below(room + 1);
        let before = draws.below(room - behind + 1);
        self.digits.splice(..0, iter::repeat_n(b'0', before));
        self.digits.extend(iter::repeat_n(b'0', behind));
        behind as i32
    }

    /// Writes an exponent, one in four times with zeros at its front; that of 0 may be left away.
    fn set_exponent(&mut self, exponent: i32, draws: &mut Draws) {
        self.exponent.clear();
        if exponent == 0 && draws.once_in(2) {
            return;
        }
        let negative = exponent < 0 || exponent == 0 && draws.once_in(2);
        let (mut digits, mut rest, mut first) = ([b'0'; 4], exponent.unsigned_abs(), 3);
        for (at, digit) in digits.iter_mut().enumerate().rev() {
            *digit += (rest % 10) as u8;
            rest /= 10;
            if *digit != b'0' {
                first = at;
            }
        }
        if draws.once_in(4) {
            first = draws.below(first + 1);
        }
        self.exponent.extend(if negative { &b"e-"[..] } else { b"e" });
        self.exponent.extend(&digits[first..]);
    }
}
