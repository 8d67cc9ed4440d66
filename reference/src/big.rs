//! Whole numbers of any size, just enough to compare powers of 7 and 5 exactly.

use std::cmp::Ordering;

/// Limbs of 32 bits, the lowest first, without zeros at the high end.
#[derive(Clone, Debug, PartialEq, Eq)]
pub struct Big(Vec<u32>);

impl Big {
    pub fn power(base: u32, exponent: u32) -> Big {
        (0..exponent).fold(Big(vec![1]), |big, _| big.times(base))
    }

    pub fn times(&self, factor: u32) -> Big {
        let mut limbs = Vec::with_capacity(self.0.len() + 1);
        let mut carry = 0u64;
        for &limb in &self.0 {
            let sum = u64::from(limb) * u64::from(factor) + carry;
            limbs.push(sum as u32);
            carry = sum >> 32;
        }
        limbs.push(carry as u32);
        while limbs.last() == Some(&0) {
            limbs.pop();
        }
        Big(limbs)
    }
}

impl Ord for Big {
    fn cmp(&self, other: &Big) -> Ordering {
        let longer = self.0.len().cmp(&other.0.len());
        longer.then_with(|| self.0.iter().rev().cmp(other.0.iter().rev()))
    }
}

impl PartialOrd for Big {
    fn partial_cmp(&self, other: &Big) -> Option<Ordering> {
        Some(self.cmp(other))
    }
}

#[cfg(test)]
mod tests {
    use super::*;

    #[test]
    fn powers_agree_with_machine_numbers_where_those_reach() {
        for exponent in 0..45 {
            let limbs = Big::power(7, exponent).0;
            let value = limbs.iter().rev();
            let value = value.fold(0, |value, &limb| (value << 32) | u128::from(limb));
            assert_eq!(value, 7u128.pow(exponent));
        }
    }

    #[test]
    fn order_is_that_of_the_numbers() {
        assert!(Big::power(7, 63) > Big::power(5, 63));
        assert!(Big::power(2, 64) > Big::power(2, 63));
        assert!(Big::power(2, 40).times(0) < Big::power(2, 0));
        assert_eq!(Big::power(6, 70).cmp(&Big::power(6, 70)), Ordering::Equal);
    }
}
