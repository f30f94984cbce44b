// make/sound.rs: sound with loud starts and stops, extremes and silence, and sound that keeps envelope and mean close.

use super::random::Random;

/// How samples go for a while.
#[derive(Clone, Copy)]
enum Mood {
    Silence,
    /// A value and its one's complement have the same pseudo absolute value: a steady level.
    Steady(i16),
    Noise(i64),
    Extremes,
}

/// What moods a source has.
#[derive(Clone, Copy)]
enum Temper {
    /// Anything after anything.
    Stormy,
    /// Noise around one level, after a burst that lifts the mean to where that level keeps it: from then on
    /// envelope and mean lie close together, and the bits hang on every detail of mix and filters.
    Poised(i64),
}

/// A source of samples for one fingerprint; its mood changes after runs of random length.
pub struct Source {
    temper: Temper,
    mood: Mood,
    left: usize,
}

impl Source {
    pub fn new(random: &mut Random) -> Source {
        let level = random.pick(&[2, 3, 4, 6, 10, 40, 300, 4000]);
        if random.chance(55) {
            return Source { temper: Temper::Stormy, mood: Mood::Silence, left: 0 };
        }
        // 1,024 samples at eight times the level add what 8,192 at the level would.
        Source { temper: Temper::Poised(level), mood: Mood::Noise(8 * level), left: 900 + random.below(250) }
    }

    fn change(&mut self, random: &mut Random) {
        match self.temper {
            Temper::Stormy => self.change_stormy(random),
            Temper::Poised(level) => {
                self.left = 100 + random.below(1500);
                self.mood = Mood::Noise((level + random.between(-level / 4, level / 4)).max(1));
            }
        }
    }

    fn change_stormy(&mut self, random: &mut Random) {
        let most = random.pick(&[1, 7, 60, 300, 1000, 3000]);
        self.left = 1 + random.below(most);
        self.mood = match random.below(8) {
            0..=2 => Mood::Silence,
            3 => Mood::Steady(i16::from(random.byte()) * random.below(120) as i16),
            4 => Mood::Noise(random.pick(&[1, 3, 200])),
            5 | 6 => Mood::Noise(random.pick(&[2000, 12_000, 32_767])),
            _ => Mood::Extremes,
        };
        // After a stop the envelope needs some 2,500 samples to fall below the mean: short silence alone gives no 0.
        if matches!(self.mood, Mood::Silence) && random.chance(50) {
            self.left += 2000 + random.below(3000);
        }
    }

    /// The next sample; one mood serves all channels of an instant.
    fn sample(&self, random: &mut Random) -> i16 {
        match self.mood {
            Mood::Silence => 0,
            Mood::Steady(level) => random.pick(&[level, !level]),
            Mood::Noise(most) => random.between(-most, most) as i16,
            Mood::Extremes => random.pick(&[-32768, 32767, -32768, 32767, 0, -1]),
        }
    }

    /// The next instant's samples, one for each channel.
    pub fn instant(&mut self, random: &mut Random, channels: usize) -> Vec<i16> {
        if self.left == 0 {
            self.change(random);
        }
        self.left -= 1;
        (0..channels).map(|_| self.sample(random)).collect()
    }

    /// A block of so many instants of so many bytes each.
    pub fn block(&mut self, random: &mut Random, instants: usize, instant_size: usize) -> Vec<u8> {
        let mut block = Vec::with_capacity(instants * instant_size);
        for _ in 0..instants {
            let samples = self.instant(random, instant_size / 2);
            block.extend(samples.into_iter().flat_map(i16::to_le_bytes));
        }
        block
    }
}
