// float.rs: the sample of a 32-bit float, worked out from its bits in whole numbers (02, A3).

use crate::big::Big;

/// What the bits of an IEEE 754 binary32 say.
#[derive(Debug, Clone, PartialEq, Eq)]
pub enum Float {
    /// Quiet or signalling, of either sign.
    Nan,
    Infinite {
        negative: bool,
    },
    /// "A finite one is a whole number over 2 to the 149th": the sign and that whole number's size (02, A3).
    Finite {
        negative: bool,
        over_2_149: Big,
    },
}

const FRACTION_BITS: usize = 23;
const LEAST_SAMPLE: i64 = -32_768;
const MOST_SAMPLE: i64 = 32_767;

impl Float {
    pub fn of_bits(bits: u32) -> Float {
        let negative = bits >> 31 == 1;
        let exponent = (bits >> FRACTION_BITS) as usize % 256;
        let fraction = u64::from(bits % (1 << FRACTION_BITS));
        match (exponent, fraction) {
            (255, 0) => Float::Infinite { negative },
            (255, _) => Float::Nan,
            // Zeros and subnormals: the unit is 2 to the -149th.
            (0, _) => Float::Finite { negative, over_2_149: Big::from(fraction) },
            _ => {
                let over_2_149 = Big::from((1 << FRACTION_BITS) + fraction).shifted(exponent - 1);
                Float::Finite { negative, over_2_149 }
            }
        }
    }

    /// None for a NaN, which has no sample (02, A3: 14).
    pub fn sample(&self) -> Option<i64> {
        match self {
            Float::Nan => None,
            Float::Infinite { negative: true } => Some(LEAST_SAMPLE),
            Float::Infinite { negative: false } => Some(MOST_SAMPLE),
            Float::Finite { negative, over_2_149 } => Some(held_floor(*negative, &over_2_149.shifted(15))),
        }
    }
}

/// The floor of a whole number over 2 to the 149th, held to the samples' range: the greatest sample that is not above
/// it, or the least sample where all are.
fn held_floor(negative: bool, over_2_149: &Big) -> i64 {
    let not_above = |sample: i64| {
        let size = Big::from(sample.unsigned_abs()).shifted(149);
        if negative {
            sample <= 0 && size >= *over_2_149
        } else {
            sample <= 0 || size <= *over_2_149
        }
    };
    let (mut low, mut high) = (LEAST_SAMPLE, MOST_SAMPLE);
    while low < high {
        let middle = (low + high + 1).div_euclid(2);
        if not_above(middle) {
            low = middle;
        } else {
            high = middle - 1;
        }
    }
    low
}

/// The bits of a whole number over a power of two, where binary32 has it exactly as a normal number or zero.
pub fn bits_of_ratio(numerator: i64, power: usize) -> u32 {
    let size = numerator.unsigned_abs();
    let sign = u32::from(numerator < 0) << 31;
    if size == 0 {
        return sign;
    }
    let places = size.ilog2() as usize;
    assert!(places <= FRACTION_BITS && power < 127 + places, "no normal binary32");
    let fraction = ((size << (FRACTION_BITS - places)) % (1 << FRACTION_BITS)) as u32;
    sign + (((127 + places - power) as u32) << FRACTION_BITS) + fraction
}

/// The next float down: one more in size below zero, one less above it.
pub fn below(bits: u32) -> u32 {
    match bits {
        0 => 0x8000_0001,
        0x8000_0000.. => bits + 1,
        _ => bits - 1,
    }
}

/// The next float up.
pub fn above(bits: u32) -> u32 {
    below(bits ^ 0x8000_0000) ^ 0x8000_0000
}

#[cfg(test)]
mod tests {
    use super::*;

    fn sample(bits: u32) -> Option<i64> {
        Float::of_bits(bits).sample()
    }

    #[test]
    fn the_figures_of_the_request() {
        assert_eq!(bits_of_ratio(1, 0), 0x3F80_0000);
        assert_eq!(sample(0x3F80_0000), Some(32_767), "1.0");
        assert_eq!(sample(0xBF80_0000), Some(-32_768), "-1.0");
        assert_eq!(sample(0x7F80_0000), Some(32_767), "infinity");
        assert_eq!(sample(0xFF80_0000), Some(-32_768), "minus infinity");
        assert_eq!((sample(0), sample(0x8000_0000)), (Some(0), Some(0)), "both zeros");
    }

    #[test]
    fn subnormals_are_no_zeros() {
        for size in [1, 2, 0x0040_0000, 0x007F_FFFF] {
            assert_eq!((sample(size), sample(size + 0x8000_0000)), (Some(0), Some(-1)));
        }
        assert_eq!((sample(0x0080_0000), sample(0x8080_0000)), (Some(0), Some(-1)), "the least normal ones");
    }

    #[test]
    fn every_nan_is_one() {
        for bits in [0x7FC0_0000, 0x7F80_0001, 0x7FBF_FFFF, 0x7FFF_FFFF, 0x7FA5_5A5A] {
            assert_eq!((sample(bits), sample(bits + 0x8000_0000)), (None, None));
        }
    }

    #[test]
    fn sizes_of_1_and_more_are_held_to_the_ends() {
        for bits in [0x3F80_0001, 0x4000_0000, 0x4700_0000, 0x4F00_0000, 0x7F7F_FFFF] {
            assert_eq!((sample(bits), sample(bits + 0x8000_0000)), (Some(32_767), Some(-32_768)));
        }
    }

    #[test]
    fn every_k_over_32768_and_its_neighbours() {
        for k in -32_768..=32_767 {
            let bits = bits_of_ratio(k, 15);
            assert_eq!(sample(bits), Some(k));
            assert_eq!(sample(below(bits)), Some((k - 1).max(-32_768)), "one ulp below {k}");
            assert_eq!(sample(above(bits)), Some(k), "one ulp above {k}");
        }
        assert_eq!(sample(below(0x3F80_0000)), Some(32_767));
    }

    /// Halves go down, whatever their sign and their neighbours' parity.
    #[test]
    fn every_half_step_goes_down() {
        for k in -32_768..=32_767 {
            assert_eq!(sample(bits_of_ratio(2 * k + 1, 16)), Some(k));
        }
    }
}
