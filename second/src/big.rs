// big.rs: whole numbers of any size, as few operations as the exact filter values need.

use std::cmp::Ordering;

/// Not negative; 64 bits a place, lowest first, no zero place at the top.
#[derive(Debug, Clone, PartialEq, Eq, Default)]
pub struct Big(Vec<u64>);

impl Big {
    pub fn from(value: u64) -> Big {
        Big(vec![value]).trimmed()
    }

    fn trimmed(mut self) -> Big {
        while self.0.last() == Some(&0) {
            self.0.pop();
        }
        self
    }

    /// This number times a power of two.
    pub fn shifted(&self, bits: usize) -> Big {
        let (places, bits) = (bits / 64, bits % 64);
        let mut shifted = vec![0; places];
        let mut carry = 0;
        for &place in &self.0 {
            let wide = u128::from(place) << bits;
            shifted.push(wide as u64 | carry);
            carry = (wide >> 64) as u64;
        }
        shifted.push(carry);
        Big(shifted).trimmed()
    }

    pub fn plus(&self, other: &Big) -> Big {
        let longest = self.0.len().max(other.0.len());
        let mut sum = Vec::with_capacity(longest + 1);
        let mut carry = 0u128;
        for place in 0..longest {
            let of = |number: &Big| u128::from(number.0.get(place).copied().unwrap_or(0));
            let wide = of(self) + of(other) + carry;
            sum.push(wide as u64);
            carry = wide >> 64;
        }
        sum.push(carry as u64);
        Big(sum).trimmed()
    }

    pub fn times(&self, factor: u64) -> Big {
        let mut product = Vec::with_capacity(self.0.len() + 1);
        let mut carry = 0u128;
        for &place in &self.0 {
            let wide = u128::from(place) * u128::from(factor) + carry;
            product.push(wide as u64);
            carry = wide >> 64;
        }
        product.push(carry as u64);
        Big(product).trimmed()
    }
}

impl PartialOrd for Big {
    fn partial_cmp(&self, other: &Big) -> Option<Ordering> {
        Some(self.cmp(other))
    }
}

impl Ord for Big {
    fn cmp(&self, other: &Big) -> Ordering {
        let by_size = self.0.len().cmp(&other.0.len());
        by_size.then_with(|| self.0.iter().rev().cmp(other.0.iter().rev()))
    }
}

#[cfg(test)]
mod tests {
    use super::*;

    #[test]
    fn agrees_with_wide_numbers_of_the_machine() {
        let wide = |high: u64, low: u64| Big(vec![low, high]).trimmed();
        let of = |value: u128| wide((value >> 64) as u64, value as u64);
        for a in [0u128, 1, 1023, u64::MAX as u128, 1 << 64, (1 << 100) + 12345] {
            for b in [0u128, 7, 8191, u64::MAX as u128, 1 << 90] {
                assert_eq!(of(a).plus(&of(b)), of(a + b));
                assert_eq!(of(a).cmp(&of(b)), a.cmp(&b));
            }
            assert_eq!(of(a).times(1023), of(a * 1023));
            assert_eq!(of(a).shifted(13), of(a << 13));
            assert_eq!(of(a).shifted(64).shifted(3), of(a).shifted(67));
        }
        assert_eq!(Big::from(5).shifted(70), wide(5 << 6, 0));
        assert_eq!(Big::from(0), Big::default());
    }
}
