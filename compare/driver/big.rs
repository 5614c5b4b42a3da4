//! Whole numbers of any size, as far as the tables need them.

use std::cmp::Ordering;

/// A whole number, lowest 32 bits first, without zeros at the top.
pub struct Big(Vec<u32>);

impl Big {
    /// The whole number with this value.
    pub fn new(value: u32) -> Big {
        Big(vec![value]).trimmed()
    }

    /// The number without zeros at the top.
    fn trimmed(mut self) -> Big {
        while self.0.last() == Some(&0) {
            self.0.pop();
        }
        self
    }

    /// The product with a small number.
    pub fn times(mut self, factor: u32) -> Big {
        let mut carry = 0u64;
        for digit in &mut self.0 {
            carry += u64::from(*digit) * u64::from(factor);
            *digit = carry as u32;
            carry >>= 32;
        }
        self.0.push(carry as u32);
        self.trimmed()
    }

    /// The product with a small number, taken this many times.
    pub fn times_power(mut self, factor: u32, power: u32) -> Big {
        for _ in 0..power {
            self = self.times(factor);
        }
        self
    }

    /// The product with two to the power of `bits`.
    pub fn shifted(self, bits: u32) -> Big {
        let mut digits = vec![0; bits as usize / 32];
        digits.extend(self.0);
        Big(digits).times(1 << (bits % 32))
    }

    /// How two whole numbers compare.
    pub fn compare(&self, other: &Big) -> Ordering {
        let longer = self.0.len().cmp(&other.0.len());
        longer.then_with(|| self.0.iter().rev().cmp(other.0.iter().rev()))
    }
}
