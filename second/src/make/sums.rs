// make/sums.rs: samples whose weighted sum lies where the two mixing rules part or meet (02, A9).

use std::ops::RangeInclusive;

use super::random::Random;
use crate::audio::{pseudo_absolute, Rule};

pub const SAMPLES: RangeInclusive<i64> = -32_768..=32_767;

/// The sums that a rule rounds to a mix.
pub fn sums_of_mix(rule: Rule, denominator: i64, mixed: i64) -> RangeInclusive<i64> {
    let up_to_the_next = denominator * mixed..=denominator * (mixed + 1) - 1;
    let down_to_the_next = denominator * (mixed - 1) + 1..=denominator * mixed;
    match (rule, mixed.signum()) {
        (Rule::TowardsZero, -1) => down_to_the_next,
        (Rule::TowardsZero, 0) => *down_to_the_next.start()..=*up_to_the_next.end(),
        _ => up_to_the_next,
    }
}

/// One of these sums: mostly an end or next to it, so a whole multiple or next to one; around 0 where that is within.
fn telling(random: &mut Random, sums: &RangeInclusive<i64>) -> i64 {
    let inwards = random.pick(&[0, 0, 0, 1, 2]);
    let sum = match random.below(6) {
        0 | 1 => sums.start() + inwards,
        2 | 3 => sums.end() - inwards,
        4 if sums.contains(&0) => random.between(-2, 2),
        _ => random.between(*sums.start(), *sums.end()),
    };
    sum.clamp(*sums.start(), *sums.end())
}

/// Two samples that add up to so much.
fn two_of(random: &mut Random, sum: i64) -> [i64; 2] {
    let (least, most) = (*SAMPLES.start(), *SAMPLES.end());
    let first = random.between((sum - most).max(least), (sum - least).min(most));
    [first, sum - first]
}

/// L, R, C, Ls and Rs of just this weighted sum, where there are such. All weights but those of L and R are multiples
/// of 5,000, so L + R makes the remainder.
fn five_of(random: &mut Random, sum: i64) -> Option<Vec<i64>> {
    let remainder = (0..5000).find(|front| (sum - 7071 * front) % 5000 == 0)?;
    let rest_of = |front: i64| (sum - 7071 * front) / 5000;
    let fronts: Vec<i64> = (-13..13).map(|step| remainder + 5000 * step).collect();
    let possible: Vec<i64> = fronts.into_iter().filter(|&front| rest_of(front).abs() <= 4 * 32_767).collect();
    if possible.is_empty() {
        return None;
    }
    let front = random.pick(&possible);
    // 2 C + Ls + Rs
    let rest = rest_of(front);
    let least = (rest - 2 * SAMPLES.end() + 1).div_euclid(2);
    let most = (rest - 2 * SAMPLES.start()).div_euclid(2);
    let c = random.between(least.max(*SAMPLES.start()), most.min(*SAMPLES.end()));
    let ([l, r], [ls, rs]) = (two_of(random, front), two_of(random, rest - 2 * c));
    Some(vec![l, r, c, ls, rs])
}

/// Samples of a kind that a rule mixes to `mixed`, the sum lying at an end of those that do, as near as the kind can.
pub fn samples_of_mix(random: &mut Random, kind: usize, rule: Rule, mixed: i64) -> Option<Vec<i64>> {
    match kind {
        1 => Some(vec![mixed]),
        2 => {
            let sums = sums_of_mix(rule, 20_000, mixed);
            let nearest = (telling(random, &sums) + 3535).div_euclid(7071);
            let both = nearest.clamp(-(-sums.start()).div_euclid(7071), sums.end().div_euclid(7071));
            (2 * SAMPLES.start()..=2 * SAMPLES.end()).contains(&both).then(|| two_of(random, both).to_vec())
        }
        _ => {
            let sum = telling(random, &sums_of_mix(rule, 40_000, mixed));
            five_of(random, sum)
        }
    }
}

/// L and R whose weighted sum is a whole multiple of 20,000 or at most 2 beside one, of a value a(i) not above `most`.
/// They lie 20,000 apart for each remainder: only loud ones but those of L + R = 0.
pub fn stereo_at_a_multiple(random: &mut Random, rule: Rule, most: i64) -> Option<Vec<i64>> {
    let beside = random.pick(&[-2, -1, -1, 0, 0, 0, 0, 1, 1, 2]);
    let remainder = (0..20_000).find(|both| (7071 * both - beside) % 20_000 == 0)?;
    let value = |both: i64| pseudo_absolute(rule.rounded(7071 * both, 20_000));
    let sums: Vec<i64> = (-3..3).map(|step| remainder + 20_000 * step).filter(|&both| value(both) <= most).collect();
    (!sums.is_empty()).then(|| {
        let both = random.pick(&sums);
        two_of(random, both).to_vec()
    })
}

#[cfg(test)]
mod tests {
    use super::*;
    use crate::audio::{mix, weighted_sum};

    #[test]
    fn samples_mix_to_what_was_asked_for() {
        let mut random = Random::new("test", 3);
        for mixed in [-20_000, -700, -3, -2, -1, 0, 1, 2, 700, 20_000] {
            for (kind, rule) in [1, 2, 5].into_iter().flat_map(|kind| [(kind, Rule::Down), (kind, Rule::TowardsZero)]) {
                for _ in 0..50 {
                    let samples = samples_of_mix(&mut random, kind, rule, mixed).unwrap();
                    assert!(samples.iter().all(|sample| SAMPLES.contains(sample)), "{samples:?}");
                    assert_eq!(mix(&samples, rule), mixed, "{samples:?} {rule:?}");
                }
            }
        }
    }

    /// Every remainder from -2 to 2 by 40,000 comes, and in stereo by 20,000, on both sides of zero.
    #[test]
    fn sums_come_at_and_beside_whole_multiples() {
        let mut random = Random::new("test", 4);
        let five = |random: &mut Random| samples_of_mix(random, 5, Rule::TowardsZero, -3);
        let two = |random: &mut Random| stereo_at_a_multiple(random, Rule::TowardsZero, 23_000);
        for (make, beside_most) in [(five as fn(&mut Random) -> _, 0), (two, 2)] {
            let sums: Vec<(i64, i64)> = (0..600).map(|_| weighted_sum(&make(&mut random).unwrap())).collect();
            assert!(sums.iter().any(|(sum, denominator)| *sum < 0 && sum % denominator == 0));
            for beside in -2..=beside_most {
                let found = |(sum, denominator): &(i64, i64)| *sum < 0 && (sum - beside) % denominator == 0;
                assert!(sums.iter().any(found), "{beside}");
            }
        }
    }
}
