// make/floats.rs: 32-bit floats of every class, and instants of them that mix to a value asked for.

use super::random::Random;
use super::sums::{sums_of_mix, SAMPLES};
use crate::audio::{mix, weighted_sum, Rule};
use crate::float::{above, below, bits_of_ratio, Float};

const MINUS: u32 = 0x8000_0000;
const ONE: u32 = 0x3F80_0000;
const INFINITY: u32 = 0x7F80_0000;
const LARGEST: u32 = 0x7F7F_FFFF;

fn signed(random: &mut Random, bits: u32) -> u32 {
    bits | random.pick(&[0, MINUS])
}

/// Quiet and signalling, of both signs, with payloads least, largest and odd.
pub fn nan(random: &mut Random) -> u32 {
    let payload = match random.below(4) {
        0 => random.pick(&[0x0040_0000, 0x007F_FFFF, 0x0040_0001]),
        1 => random.pick(&[0x0000_0001, 0x003F_FFFF, 0x0020_0000]),
        2 => 0x0040_0000 + random.below(0x0040_0000) as u32,
        _ => 1 + random.below(0x003F_FFFF) as u32,
    };
    signed(random, INFINITY + payload)
}

fn tiny(random: &mut Random) -> u32 {
    match random.below(3) {
        0 => random.pick(&[1, 2, 0x0040_0000, 0x007F_FFFF, 0x0080_0000]),
        1 => 1 + random.below(0x007F_FFFF) as u32,
        // Normal, and below 1/32768.
        _ => 0x0080_0000 + random.below(0x3780_0000) as u32,
    }
}

/// Of size 1 and above, infinity included.
fn large(random: &mut Random) -> u32 {
    match random.below(6) {
        0 => ONE,
        1 => above(ONE),
        2 => INFINITY,
        // 2, 65536 and the like: what wraps to 0 in 16, 32 or 64 bits.
        3 => ONE + (random.pick(&[1, 2, 15, 16, 17, 31, 48, 63, 64, 127]) << 23),
        4 => random.pick(&[LARGEST, LARGEST - 1, 0x4B00_0000, 0x4700_0001]),
        _ => ONE + random.below((INFINITY - ONE) as usize) as u32,
    }
}

/// A sample somewhere, the ends and the middle more often than others.
fn some_sample(random: &mut Random) -> i64 {
    match random.below(4) {
        0 => random.between(-9, 9),
        1 => random.pick(&[-32_768, -32_767, -32_766, 32_765, 32_766, 32_767, -16_384, 16_384]),
        _ => random.between(-32_768, 32_767),
    }
}

/// Any class of value but a NaN.
pub fn any(random: &mut Random) -> u32 {
    let bits = match random.below(10) {
        0 => signed(random, 0),
        1 => tiny(random) | random.pick(&[0, MINUS, MINUS]),
        2 => {
            let size = random.pick(&[ONE, INFINITY, below(ONE), above(ONE)]);
            signed(random, size)
        }
        3 => {
            let size = large(random);
            signed(random, size)
        }
        4..=6 => {
            let sample = some_sample(random);
            of_sample(random, sample)
        }
        // Halves of a step: -1 + 1/65536 and the like.
        7 => bits_of_ratio(2 * some_sample(random) + 1, 16),
        8 => random.next() as u32,
        _ => bits_of_ratio(random.between(-(1 << 23), 1 << 23), 23),
    };
    if Float::of_bits(bits) == Float::Nan {
        return 0;
    }
    bits
}

/// A float with this sample: k/32768 itself, its upper neighbour, the lower neighbour of the next one, or between.
pub fn of_sample(random: &mut Random, sample: i64) -> u32 {
    match (sample, random.below(7)) {
        (32_767, 1..=3) => large(random),
        (-32_768, 1..=3) => large(random) | MINUS,
        (0, 1 | 2) => tiny(random),
        (0, 3) => MINUS,
        (-1, 1..=3) => tiny(random) | MINUS,
        (_, 0 | 1) => bits_of_ratio(sample, 15),
        (_, 2) => above(bits_of_ratio(sample, 15)),
        (_, 3 | 4) => below(bits_of_ratio(sample + 1, 15)),
        (_, 5) => bits_of_ratio(2 * sample + 1, 16),
        _ => bits_of_ratio(256 * sample + random.between(0, 255), 23),
    }
}

pub fn sample_of(bits: u32) -> i64 {
    Float::of_bits(bits).sample().expect("no NaN")
}

/// An instant of any classes.
pub fn any_instant(random: &mut Random, kind: usize) -> Vec<u32> {
    (0..kind).map(|_| any(random)).collect()
}

pub fn mix_of(instant: &[u32], rule: Rule) -> i64 {
    let samples: Vec<i64> = instant.iter().map(|&bits| sample_of(bits)).collect();
    mix(&samples, rule)
}

/// The weight of each place of a kind in the sum, and what the sum is divided by.
fn weights(kind: usize) -> (Vec<i64>, i64) {
    let of_one = |place: usize| {
        let samples: Vec<i64> = (0..kind).map(|other| i64::from(other == place)).collect();
        weighted_sum(&samples)
    };
    ((0..kind).map(|place| of_one(place).0).collect(), of_one(0).1)
}

/// An instant that mixes to `mixed`: any classes in all places but one, which makes up for them.
pub fn instant_of_mix(random: &mut Random, kind: usize, rule: Rule, mixed: i64) -> Vec<u32> {
    let (weights, denominator) = weights(kind);
    let sums = sums_of_mix(rule, denominator, mixed);
    for _ in 0..30 {
        let mut instant = any_instant(random, kind);
        if kind == 5 && random.chance(50) {
            against_c(random, &mut instant);
        }
        let open = random.below(kind);
        let others = (0..kind).filter(|&place| place != open);
        let sum: i64 = others.map(|place| weights[place] * sample_of(instant[place])).sum();
        let least = -(sum - sums.start()).div_euclid(weights[open]);
        let most = (sums.end() - sum).div_euclid(weights[open]);
        let between = random.between(least, most.max(least));
        let sample = random.pick(&[least, most, between]);
        if least <= most && SAMPLES.contains(&sample) {
            instant[open] = of_sample(random, sample);
            return instant;
        }
    }
    let whole: i64 = weights.iter().sum();
    let alike = (denominator * mixed).div_euclid(whole).clamp(*SAMPLES.start(), *SAMPLES.end());
    (0..kind).map(|_| of_sample(random, alike)).collect()
}

/// Surround values that make up for whatever C is, and R for L, so that C and L may lie at an end.
fn against_c(random: &mut Random, instant: &mut [u32]) {
    for (place, against) in [(1, 0), (3, 2), (4, 2)] {
        let sample = random.between(-3, 3) - sample_of(instant[against]);
        instant[place] = of_sample(random, sample.clamp(*SAMPLES.start(), *SAMPLES.end()));
    }
}

#[cfg(test)]
mod tests {
    use super::*;

    #[test]
    fn floats_of_a_sample_have_it() {
        let mut random = Random::new("test", 1);
        for sample in (-32_768..=32_767).step_by(89).chain([-32_768, -1, 0, 1, 32_767]) {
            for _ in 0..30 {
                assert_eq!(sample_of(of_sample(&mut random, sample)), sample);
            }
        }
        assert!((0..99).all(|_| Float::of_bits(nan(&mut random)) == Float::Nan));
    }

    #[test]
    fn instants_mix_to_what_was_asked_for() {
        let mut random = Random::new("test", 2);
        for mixed in [-9000, -700, -3, -2, -1, 0, 1, 2, 3, 50, 9000] {
            for (kind, rule) in [1, 2, 5].into_iter().flat_map(|kind| [(kind, Rule::Down), (kind, Rule::TowardsZero)]) {
                let mut hits = || mix_of(&instant_of_mix(&mut random, kind, rule, mixed), rule) == mixed;
                let hit = (0..20).filter(|_| hits()).count();
                assert!(hit >= 19, "{hit} of 20 for {mixed}, kind {kind}, {rule:?}");
            }
        }
    }
}
