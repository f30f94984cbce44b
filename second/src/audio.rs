// audio.rs: mix, filters and kept bits of one audio fingerprint, as the whole history (01, Audio).

use crate::float::Float;

/// The most bits a fingerprint may hold, the unfinished byte included (01, Audio).
pub const MOST_BITS: usize = 256;

/// Bytes of one instant of a mix type: one, two or five samples of two bytes; none for a type that is not listed.
pub fn instant_size(mix_type: u8) -> Option<usize> {
    match mix_type {
        1 => Some(2),
        2 => Some(4),
        5 => Some(10),
        _ => None,
    }
}

/// The mixing rule that the two ends have agreed on (02, A9).
#[derive(Debug, Clone, Copy, PartialEq, Eq)]
pub enum Rule {
    /// 1: towards minus infinity (01, Audio).
    Down,
    /// 2: towards zero.
    TowardsZero,
}

impl Rule {
    pub fn numbered(number: u8) -> Option<Rule> {
        match number {
            1 => Some(Rule::Down),
            2 => Some(Rule::TowardsZero),
            _ => None,
        }
    }

    /// What a fraction is rounded to: of the two whole numbers around it, which are one where it is whole, the lower
    /// or the one of less size. The denominator is above 0.
    pub fn rounded(self, numerator: i64, denominator: i64) -> i64 {
        let lower = numerator.div_euclid(denominator);
        let upper = lower + i64::from(lower * denominator < numerator);
        match self {
            Rule::TowardsZero if upper.abs() < lower.abs() => upper,
            Rule::Down | Rule::TowardsZero => lower,
        }
    }
}

/// The weighted sum of one instant's samples, and what it is divided by (000, 5.3.1; 01, Audio).
pub fn weighted_sum(samples: &[i64]) -> (i64, i64) {
    match *samples {
        [mono] => (mono, 1),
        [l, r] => (7071 * (l + r), 20_000),
        [l, r, c, ls, rs] => (7071 * l + 7071 * r + 10_000 * c + 5000 * ls + 5000 * rs, 40_000),
        _ => panic!("an instant has one, two or five samples"),
    }
}

/// One instant mixed to mono.
pub fn mix(samples: &[i64], rule: Rule) -> i64 {
    let (sum, denominator) = weighted_sum(samples);
    rule.rounded(sum, denominator)
}

/// 000, 5.3.2: one's complement of a negative value.
pub fn pseudo_absolute(mixed: i64) -> i64 {
    if mixed < 0 {
        -mixed - 1
    } else {
        mixed
    }
}

/// The samples of one lent instant.
fn lent_samples(instant: &[u8]) -> Vec<i64> {
    instant.chunks(2).map(|pair| i64::from(i16::from_le_bytes([pair[0], pair[1]]))).collect()
}

/// One audio fingerprint since setup or audio restart. Entry i of the first three lists belongs to sample i.
#[derive(Debug, Clone)]
pub struct Sound {
    pub mix_type: u8,
    pub decimator: usize,
    pub rule: Rule,
    pub value: Vec<i64>,
    pub envelope: Vec<i64>,
    pub mean: Vec<i64>,
    /// Every bit kept, at samples 0, D, 2D and so on.
    pub bits: Vec<bool>,
    /// How many of the oldest bits have been packed.
    packed: usize,
}

impl Sound {
    pub fn new(mix_type: u8, decimator: usize, rule: Rule) -> Sound {
        let (value, envelope, mean, bits) = (Vec::new(), Vec::new(), Vec::new(), Vec::new());
        Sound { mix_type, decimator, rule, value, envelope, mean, bits, packed: 0 }
    }

    pub fn instant_size(&self) -> usize {
        instant_size(self.mix_type).expect("setup takes listed mix types only")
    }

    pub fn held_bits(&self) -> usize {
        self.bits.len() - self.packed
    }

    /// Bits that the first so many samples make: one for each multiple of D below the number.
    fn bits_of(&self, samples: usize) -> usize {
        samples.div_ceil(self.decimator)
    }

    /// How many further instants fit before the bit store is full.
    pub fn instants_that_fit(&self) -> usize {
        let bits_allowed = self.packed + MOST_BITS;
        bits_allowed * self.decimator - self.value.len()
    }

    /// Numbers 8 and 9 of a Sound call, then the block's work.
    pub fn take_block(&mut self, block: &[u8]) -> Result<(), u8> {
        if block.len() % self.instant_size() != 0 {
            return Err(8);
        }
        self.refuse_overfill(block.len() / self.instant_size())?;
        for instant in block.chunks(self.instant_size()) {
            self.enter(&lent_samples(instant));
        }
        Ok(())
    }

    /// Numbers 14 and 9 of a call with one instant in floating point, then its work. As many values as the kind says.
    pub fn take_instant(&mut self, values: &[Float]) -> Result<(), u8> {
        if values.len() != usize::from(self.mix_type) {
            return Err(14);
        }
        let samples: Option<Vec<i64>> = values.iter().map(Float::sample).collect();
        let samples = samples.ok_or(14)?;
        self.refuse_overfill(1)?;
        self.enter(&samples);
        Ok(())
    }

    /// Number 9 for so many further instants.
    fn refuse_overfill(&self, instants: usize) -> Result<(), u8> {
        if self.bits_of(self.value.len() + instants) - self.packed > MOST_BITS {
            return Err(9);
        }
        Ok(())
    }

    /// Sample i: E(0) = M(0) = 0 and sample 0 enters neither filter (01, Audio; 000, 5.3.3 to 5.3.6).
    fn enter(&mut self, samples: &[i64]) {
        let a = pseudo_absolute(mix(samples, self.rule));
        let i = self.value.len();
        let (envelope, mean) = if i == 0 {
            (0, 0)
        } else {
            let (e, m) = (self.envelope[i - 1], self.mean[i - 1]);
            (8 * a + e - e.div_euclid(1024), a + m - m.div_euclid(8192))
        };
        self.value.push(a);
        self.envelope.push(envelope);
        self.mean.push(mean);
        if i % self.decimator == 0 {
            self.bits.push(mean < envelope);
        }
    }

    /// The oldest whole bytes, filled from bit 0 (000, 5.3.6), if so many are held.
    pub fn oldest_bytes(&self, count: usize) -> Option<Vec<u8>> {
        if self.held_bits() < 8 * count {
            return None;
        }
        let bits = &self.bits[self.packed..self.packed + 8 * count];
        let byte = |bits: &[bool]| (0..8).map(|place| u8::from(bits[place]) << place).sum();
        Some(bits.chunks(8).map(byte).collect())
    }

    pub fn bytes_packed(&mut self, count: usize) {
        self.packed += 8 * count;
    }
}

#[cfg(test)]
mod tests {
    use super::*;

    fn mono(values: &[i16]) -> Vec<u8> {
        values.iter().flat_map(|value| value.to_le_bytes()).collect()
    }

    #[test]
    fn the_5_1_mix_by_hand() {
        assert_eq!(mix(&[40_000, 0, 0, 0, 0], Rule::Down), 7071);
        assert_eq!(mix(&[0, 0, 4, 0, 0], Rule::Down), 1);
        assert_eq!(mix(&[0, 0, -1, 0, 0], Rule::Down), -1, "-0.25 goes down to -1");
        assert_eq!(mix(&[0, 0, 0, 4, 3], Rule::Down), 0, "0.875 goes down to 0");
        // (7071 x 2 + 10000 + 5000 x 2) x -32768 / 40000 = 34142 x -0.8192 = -27969.1264
        assert_eq!(mix(&[-32768; 5], Rule::Down), -27970);
    }

    #[test]
    fn samples_come_interleaved_low_byte_first() {
        let mut sound = Sound::new(2, 50, Rule::Down);
        sound.take_block(&[0, 0, 0, 0, 0x10, 0x27, 0x00, 0x00]).unwrap();
        assert_eq!(sound.value[1], 3535, "7071 x 10000 / 20000 = 3535.5");
    }

    #[test]
    fn sample_0_enters_neither_filter_and_its_bit_is_0() {
        let mut sound = Sound::new(1, 50, Rule::Down);
        sound.take_block(&mono(&[32767, 1])).unwrap();
        assert_eq!((sound.envelope[0], sound.mean[0]), (0, 0));
        assert_eq!((sound.envelope[1], sound.mean[1]), (8, 1));
        assert_eq!(sound.bits, [false]);
    }

    #[test]
    fn bits_are_kept_at_multiples_of_d_and_fill_from_bit_0() {
        let mut sound = Sound::new(1, 50, Rule::Down);
        sound.take_block(&mono(&[1000; 50])).unwrap();
        assert_eq!(sound.bits.len(), 1, "sample 50 has not come");
        sound.take_block(&mono(&[1000; 301])).unwrap();
        assert_eq!(sound.bits.len(), 8);
        assert_eq!(sound.oldest_bytes(1), Some(vec![0xFE]));
        assert_eq!(sound.oldest_bytes(2), None);
    }

    #[test]
    fn a_refused_block_changes_nothing() {
        let mut sound = Sound::new(5, 52, Rule::Down);
        assert_eq!(sound.take_block(&[0; 11]), Err(8));
        assert_eq!(sound.take_block(&vec![0; 10 * (52 * 256 + 1)]), Err(9));
        assert!(sound.value.is_empty() && sound.bits.is_empty());
        assert_eq!(sound.instants_that_fit(), 52 * 256);
        assert_eq!(sound.take_block(&vec![0; 10 * 52 * 256]), Ok(()));
        assert_eq!(sound.take_block(&[]), Ok(()));
    }
}
