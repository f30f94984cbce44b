// exact.rs: holds every stored filter value and every bit to the exact filters, in whole numbers over powers of 1024
// and of 8192 (01, Audio: "The exact values of demand 3").

use crate::audio::Sound;
use crate::big::Big;
use crate::session::Session;

/// How far a stored value may lie above its exact one: each step's floor adds less than 1, and the filter forgets.
const ENVELOPE_SLACK: u64 = 1023;
const MEAN_SLACK: u64 = 8191;

/// What has been held to the exact values.
#[derive(Debug, Default, Clone, Copy, PartialEq, Eq)]
pub struct Tally {
    pub samples: usize,
    /// Bits that the exact values settle as 1, as 0, and those they leave open.
    pub ones: usize,
    pub zeros: usize,
    pub open: usize,
}

/// A filter's exact value: `numerator` over 2^(`step_bits` x i) after sample i.
struct Exact {
    numerator: Big,
    step_bits: usize,
    gain: u64,
    denominator_bits: usize,
}

impl Exact {
    fn new(step_bits: usize, gain: u64) -> Exact {
        Exact { numerator: Big::default(), step_bits, gain, denominator_bits: 0 }
    }

    /// x(i) = gain a(i) + x(i-1) - x(i-1)/2^step, brought over the denominator of sample i.
    fn enter(&mut self, a: u64) {
        self.denominator_bits += self.step_bits;
        let kept = self.numerator.times((1 << self.step_bits) - 1);
        self.numerator = Big::from(self.gain * a).shifted(self.denominator_bits).plus(&kept);
    }

    fn raised(&self, by: u64) -> Big {
        self.numerator.plus(&Big::from(by).shifted(self.denominator_bits))
    }

    /// Never below the exact value nor more than the slack above it.
    fn bounds(&self, stored: i64, slack: u64) -> bool {
        let stored = Big::from(stored as u64).shifted(self.denominator_bits);
        stored >= self.numerator && stored <= self.raised(slack)
    }
}

/// What the exact values say of a bit, if anything.
fn settled_bit(envelope: &Exact, mean: &Exact) -> Option<bool> {
    let to_mean = mean.denominator_bits - envelope.denominator_bits;
    if envelope.numerator.shifted(to_mean) > mean.raised(MEAN_SLACK) {
        return Some(true);
    }
    if mean.numerator >= envelope.raised(ENVELOPE_SLACK).shifted(to_mean) {
        return Some(false);
    }
    None
}

/// Checks the whole history of one fingerprint.
pub fn examine(sound: &Sound, tally: &mut Tally) -> Result<(), String> {
    let mut envelope = Exact::new(10, 8);
    let mut mean = Exact::new(13, 1);
    for i in 0..sound.value.len() {
        if i > 0 {
            envelope.enter(sound.value[i] as u64);
            mean.enter(sound.value[i] as u64);
        }
        if !envelope.bounds(sound.envelope[i], ENVELOPE_SLACK) {
            return Err(format!("sample {i}: stored envelope {} is out of bounds", sound.envelope[i]));
        }
        if !mean.bounds(sound.mean[i], MEAN_SLACK) {
            return Err(format!("sample {i}: stored mean {} is out of bounds", sound.mean[i]));
        }
        if i % sound.decimator == 0 {
            examine_bit(i, sound.bits[i / sound.decimator], settled_bit(&envelope, &mean), tally)?;
        }
        tally.samples += 1;
    }
    Ok(())
}

fn examine_bit(i: usize, bit: bool, settled: Option<bool>, tally: &mut Tally) -> Result<(), String> {
    match settled {
        Some(value) if value != bit => return Err(format!("sample {i}: bit {bit} against the exact values")),
        Some(true) => tally.ones += 1,
        Some(false) => tally.zeros += 1,
        None => tally.open += 1,
    }
    Ok(())
}

/// Checks every fingerprint of a session, before the session or its sound is given up.
pub fn examine_session(session: &Session, tally: &mut Tally) -> Result<(), String> {
    let Some(running) = &session.0 else { return Ok(()) };
    for (k, sound) in running.sounds.iter().enumerate() {
        examine(sound, tally).map_err(|fault| format!("fingerprint {k}, {fault}"))?;
    }
    Ok(())
}

#[cfg(test)]
mod tests {
    use super::*;
    use crate::audio::Rule;

    fn loud_then_silent() -> Sound {
        let mut sound = Sound::new(1, 50, Rule::Down);
        let block = |value: i16, count: usize| value.to_le_bytes().repeat(count);
        sound.take_block(&block(3, 700)).unwrap();
        sound.take_block(&block(-32768, 1500)).unwrap();
        sound.take_block(&block(0, 4000)).unwrap();
        sound
    }

    #[test]
    fn good_history_passes_and_settles_bits_both_ways() {
        let mut tally = Tally::default();
        assert_eq!(examine(&loud_then_silent(), &mut tally), Ok(()));
        assert_eq!(tally.samples, 6200);
        assert!(tally.ones > 10 && tally.zeros > 10, "{tally:?}");
    }

    #[test]
    fn each_fault_is_found() {
        let faults: [fn(&mut Sound); 6] = [
            |sound| sound.envelope[6000] += 1024,
            |sound| sound.envelope[1] -= 1,
            |sound| sound.mean[6000] += 8192,
            |sound| sound.mean[6000] = 0,
            |sound| sound.bits[30] = false,
            |sound| sound.bits[120] = true,
        ];
        for (number, fault) in faults.iter().enumerate() {
            let mut sound = loud_then_silent();
            fault(&mut sound);
            assert!(examine(&sound, &mut Tally::default()).is_err(), "fault {number}");
        }
    }

    /// a = 0, 1000, 0: exact envelope 8000 then 8000 x 1023/1024, exact mean 1000 then 1000 x 8191/8192.
    #[test]
    fn two_steps_by_hand() {
        let (mut envelope, mut mean) = (Exact::new(10, 8), Exact::new(13, 1));
        for a in [1000, 0] {
            envelope.enter(a);
            mean.enter(a);
        }
        assert_eq!(envelope.numerator, Big::from(8000 * 1023 * 1024));
        assert_eq!(mean.numerator, Big::from(1000 * 8191 * 8192));
    }
}
