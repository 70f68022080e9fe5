//! Whole numbers of any size, in decimal: enough to write a binary number out to its last digit.

/// A limb has nine digits.
const LIMB: u64 = 1_000_000_000;
const LIMB_DIGITS: usize = 9;

/// A whole number, the lowest limb first.
pub struct Whole {
    limbs: Vec<u32>,
}

impl Whole {
    pub fn new() -> Whole {
        Whole { limbs: Vec::new() }
    }

    /// Makes it `number * base^power`.
    pub fn set(&mut self, number: u64, base: u32, power: u32) {
        self.limbs.clear();
        let mut rest = number;
        while rest > 0 {
            self.limbs.push((rest % LIMB) as u32);
            rest /= LIMB;
        }
        // as many factors at once as a limb's multiplication takes
        let most = u32::MAX.ilog(base);
        for _ in 0..power / most {
            self.multiply(base.pow(most));
        }
        self.multiply(base.pow(power % most));
    }

    fn multiply(&mut self, factor: u32) {
        let mut carry = 0;
        for limb in &mut self.limbs {
            let product = u64::from(*limb) * u64::from(factor) + carry;
            (*limb, carry) = ((product % LIMB) as u32, product / LIMB);
        }
        while carry > 0 {
            self.limbs.push((carry % LIMB) as u32);
            carry /= LIMB;
        }
    }

    /// Writes its digits, none of them a zero at the front.
    pub fn write(&self, digits: &mut Vec<u8>) {
        digits.clear();
        for limb in self.limbs.iter().rev() {
            let (mut nine, mut rest) = ([b'0'; LIMB_DIGITS], *limb);
            for digit in nine.iter_mut().rev() {
                *digit += (rest % 10) as u8;
                rest /= 10;
            }
            digits.extend(nine);
        }
        let zeros = digits.iter().take_while(|digit| **digit == b'0').count();
        digits.drain(..zeros);
    }
}
