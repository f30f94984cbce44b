// make/instants.rs: instants in floating point (02, A3), aimed so that the kept bits hang on single steps of a sample.

use super::floats::{any_instant, instant_of_mix, mix_of, nan, of_sample, sample_of};
use super::random::Random;
use super::script::{pairs, Script};
use crate::audio::{pseudo_absolute, Sound};
use crate::container::ID_SIZE;

/// What a block's payload has room for.
const MOST_BLOCK: usize = 65_534;
const KINDS: [usize; 3] = [1, 2, 5];

/// The largest value a(i) that every kind can be asked for: 5.1 and stereo mix to less than mono.
const MOST_VALUE: i64 = 23_000;

pub fn record(script: &mut Script, fingerprint: u8, instant: &[u32]) {
    let values: Vec<u8> = instant.iter().flat_map(|bits| bits.to_le_bytes()).collect();
    script.record(0x16, &[fingerprint, instant.len() as u8], &values);
}

/// An instant of any kind, now and then with a NaN in any of its places, or in all.
fn any_kind(random: &mut Random) -> Vec<u32> {
    let kind = random.pick(&KINDS);
    let instant = any_instant(random, kind);
    with_nan(random, instant, 50)
}

fn with_nan(random: &mut Random, mut instant: Vec<u32>, per_cent: usize) -> Vec<u32> {
    if random.chance(per_cent) {
        let place = random.below(instant.len());
        instant[place] = nan(random);
    }
    if random.chance(per_cent / 10) {
        instant.fill_with(|| nan(random));
    }
    instant
}

/// An instant on an empty session, for a fingerprint that is not there either.
pub fn on_empty(script: &mut Script) {
    let instant = any_kind(&mut script.random);
    let fingerprint = script.random.pick(&[0, 0, 0, 1, 31, 32, 255]);
    record(script, fingerprint, &instant);
}

/// An instant that is refused: no such fingerprint, another kind, or a NaN; two of these at once as well.
pub fn refused(script: &mut Script) {
    let Some(running) = script.running() else { return };
    let mixes: Vec<usize> = running.sounds.iter().map(|sound| usize::from(sound.mix_type)).collect();
    let random = &mut script.random;
    let k = random.below(mixes.len());
    let (fingerprint, instant) = match random.below(5) {
        0 => (random.pick(&[mixes.len(), mixes.len() + 1, 255]), any_kind(random)),
        1 | 2 => {
            let others: Vec<usize> = KINDS.into_iter().filter(|&kind| kind != mixes[k]).collect();
            let kind = random.pick(&others);
            let instant = any_instant(random, kind);
            (k, with_nan(random, instant, 25))
        }
        _ => {
            let instant = any_instant(random, mixes[k]);
            (k, with_nan(random, instant, 100))
        }
    };
    record(script, fingerprint as u8, &instant);
}

/// No instant: a kind that is none, or too few or too many bytes for the kind.
pub fn malformed(script: &mut Script) {
    let random = &mut script.random;
    let kind = random.pick(&KINDS);
    let (kind, size) = match random.below(5) {
        0 | 4 => {
            let none = random.pick(&[0, 3, 4, 6, 7, 128, 255]);
            (none, 4 * random.pick(&[none, none, none, 5]))
        }
        1 => (kind, 4 * kind + random.pick(&[1, 2, 3, 4, 12])),
        2 => (kind, 4 * kind - random.pick(&[1, 2, 3, 4])),
        _ => (kind, 4 * random.pick(&[0, 3, 4, 6])),
    };
    script.record(0x16, &[0, kind as u8], &vec![0; size]);
}

/// The next sample's value a(i), and how large it may be without harm to the next kept bit.
pub struct Aim {
    value: i64,
    pub most: i64,
}

impl Aim {
    /// The value aimed at, or any that does no harm.
    pub fn drawn(&self, random: &mut Random) -> i64 {
        if self.most > self.value && random.chance(30) {
            random.between(0, self.most.min(MOST_VALUE))
        } else {
            self.value
        }
    }
}

/// How a stretch of sound is made.
#[derive(Clone, Copy)]
pub struct Manner {
    /// The next instant, from what the fingerprint's filters hold.
    pub choose: fn(&mut Random, &Sound) -> Vec<u32>,
    /// The samples of an instant whose value a(i) is 0.
    pub silent: fn(&mut Random, &Sound) -> Vec<i64>,
    /// To which the mean is lifted in stereo and 5.1, in 8,192ths.
    pub levels: [i64; 4],
    /// How often, out of 100, a block of whole numbers comes in place of an instant.
    pub blocks: usize,
}

const AIMED: Manner = Manner { choose: aimed, silent: quiet, levels: [2, 3, 40, 1000], blocks: 2 };

fn quiet(random: &mut Random, sound: &Sound) -> Vec<i64> {
    vec![random.pick(&[0, -1]); usize::from(sound.mix_type)]
}

/// Without sound the difference of envelope and mean falls by `fall` at each sample, and a value adds seven times
/// itself: what is asked for brings the difference to around 0.
pub fn aim(random: &mut Random, sound: &Sound) -> Aim {
    let (e, m) = (sound.envelope.last().copied().unwrap_or(0), sound.mean.last().copied().unwrap_or(0));
    let to_kept = (sound.decimator - sound.value.len() % sound.decimator) % sound.decimator;
    let fall = e / 1024 - m / 8192;
    let wanted = fall - (e - m);
    let value = (wanted + random.between(-8, 8)) / 7;
    let most = if to_kept == 0 { 0 } else { (wanted + fall * (to_kept as i64 - 1)) / 7 };
    Aim { value: value.clamp(0, MOST_VALUE), most }
}

/// An instant that keeps envelope and mean together, by any classes of value that allow it.
pub fn aimed(random: &mut Random, sound: &Sound) -> Vec<u32> {
    let kind = usize::from(sound.mix_type);
    let aim = aim(random, sound);
    let free = any_instant(random, kind);
    if random.chance(50) && pseudo_absolute(mix_of(&free, sound.rule)) <= aim.most {
        return free;
    }
    let value = aim.drawn(random);
    let mixed = random.pick(&[value, -value - 1]);
    instant_of_mix(random, kind, sound.rule, mixed)
}

/// So many instants, some as blocks of whole numbers, with refused ones between.
pub fn stretch(script: &mut Script, k: usize, instants: usize, manner: Manner) {
    let mut left = instants;
    while left > 0 {
        let in_block = if script.random.chance(manner.blocks) { left.min(script.random.below(30)) } else { 0 };
        if in_block > 0 {
            blocks(script, k, in_block, manner);
        } else {
            let Script { random, desk, .. } = script;
            let Some(running) = &desk.session.0 else { return };
            let instant = (manner.choose)(random, &running.sounds[k]);
            record(script, k as u8, &instant);
        }
        left -= in_block.max(1);
        if script.random.chance(3) {
            refused(script);
        }
    }
}

/// The samples of so many instants as whole numbers.
fn blocks(script: &mut Script, k: usize, instants: usize, manner: Manner) {
    let Script { random, desk, .. } = script;
    let Some(running) = &desk.session.0 else { return };
    let mut trial = running.sounds[k].clone();
    let mut block = Vec::new();
    for _ in 0..instants {
        let instant = (manner.choose)(random, &trial);
        let samples: Vec<u8> = lent(&instant.iter().map(|&bits| sample_of(bits)).collect::<Vec<_>>());
        // A block that overfills is refused whole; what it would have held does not matter then.
        let _ = trial.take_block(&samples);
        block.extend(samples);
    }
    let size = trial.instant_size();
    block.chunks(MOST_BLOCK / size * size).for_each(|block| script.record(0x12, &[k as u8], block));
}

/// A loud sample 0, which enters no filter, and silence after it: the bits stay 0.
fn loud_start(script: &mut Script, k: usize) {
    let Some(running) = script.running() else { return };
    let (kind, rule, decimator) = (usize::from(running.sounds[k].mix_type), running.rule, running.rate.decimator);
    let mixed = script.random.pick(&[20_000, -20_000, 1000, 2, -23_000]);
    let first = instant_of_mix(&mut script.random, kind, rule, mixed);
    record(script, k as u8, &first);
    for _ in 0..decimator + script.random.below(2 * decimator) {
        let silence = script.random.pick(&[0, -1]);
        let instant = instant_of_mix(&mut script.random, kind, rule, silence);
        record(script, k as u8, &instant);
    }
}

/// The samples of instants that lift the mean to 8,192 times a level, all channels alike, and then silence until the
/// envelope has come down to it: from there on both can be held together.
fn lifting(random: &mut Random, sound: &Sound, manner: Manner) -> Vec<Vec<i64>> {
    // Only a high level leaves room for loud values in mono; other kinds cancel them.
    let level = random.pick(if sound.mix_type == 1 { &[3, 40, 4000, 4000] } else { &manner.levels });
    let loudness = random.between(20_000, 32_767);
    let mut trial = sound.clone();
    let mut instants = Vec::new();
    let mut enter = |samples: Vec<i64>| {
        trial.take_block(&lent(&samples)).expect("room in the bit store");
        instants.push(samples);
        (trial.envelope[trial.value.len() - 1], trial.mean[trial.value.len() - 1])
    };
    enter((manner.silent)(random, sound));
    while enter(vec![random.pick(&[loudness, -loudness]); usize::from(sound.mix_type)]).1 < 10_000 * level {}
    loop {
        let (envelope, mean) = enter((manner.silent)(random, sound));
        if envelope <= mean {
            return instants;
        }
    }
}

/// Samples as a block has them.
fn lent(samples: &[i64]) -> Vec<u8> {
    samples.iter().flat_map(|&sample| (sample as i16).to_le_bytes()).collect()
}

/// The lifting as one block, or (seldom, since it takes more room) as instants.
pub fn lift(script: &mut Script, k: usize, manner: Manner) {
    let Script { random, desk, .. } = script;
    let Some(running) = &desk.session.0 else { return };
    let sound = &running.sounds[k];
    if sound.instants_that_fit() < 5500 {
        return;
    }
    let instants = lifting(random, sound, manner);
    let block: Vec<u8> = instants.iter().flat_map(|samples| lent(samples)).collect();
    if random.chance(4) || block.len() > MOST_BLOCK {
        for samples in instants {
            let instant: Vec<u32> = samples.iter().map(|&sample| of_sample(&mut script.random, sample)).collect();
            record(script, k as u8, &instant);
        }
    } else {
        script.record(0x12, &[k as u8], &block);
    }
}

/// What the cadence asks for, for one fingerprint: a start where there is none yet, and aimed instants.
fn fill(script: &mut Script, k: usize) {
    let fresh = script.running().is_some_and(|running| running.sounds[k].value.is_empty());
    if fresh && script.random.chance(35) {
        loud_start(script, k);
    } else if fresh {
        let first = script.random.below(2);
        stretch(script, k, first, AIMED);
    }
    let unlifted = script.running().is_some_and(|running| running.sounds[k].mean.last().is_none_or(|&mean| mean < 9));
    if unlifted && script.random.chance(85) {
        lift(script, k, AIMED);
    }
    let wanted = wanted(script, k);
    if wanted > 0 {
        let extra = script.random.below(4 * script.running().map_or(1, |running| running.rate.decimator));
        stretch(script, k, wanted + extra, AIMED);
    }
}

/// How many further instants of a fingerprint make the bits that the container due asks for.
pub fn wanted(script: &Script, k: usize) -> usize {
    let Some(running) = script.running() else { return 0 };
    let missing = (8 * running.bytes_due()).saturating_sub(running.sounds[k].held_bits());
    missing * running.rate.decimator
}

/// One bit store filled to short of the brim by blocks, then by instants to the brim and past it.
fn over_the_brim(script: &mut Script, k: usize) {
    let Some(running) = script.running() else { return };
    let (fit, decimator) = (running.sounds[k].instants_that_fit(), running.rate.decimator);
    let by_instants = script.random.pick(&[0, 1, 2, decimator, decimator + 3]).min(fit);
    blocks(script, k, fit - by_instants, AIMED);
    stretch(script, k, by_instants, AIMED);
    past_the_brim(script, k);
}

/// Calls on a full bit store: 14 comes before 9.
pub fn past_the_brim(script: &mut Script, k: usize) {
    let Some(running) = script.running() else { return };
    let kind = usize::from(running.sounds[k].mix_type);
    for _ in 0..3 + script.random.below(4) {
        let random = &mut script.random;
        let instant = match random.below(4) {
            0 => any_kind(random),
            1 => with_nan(random, vec![0; kind], 100),
            _ => any_instant(random, kind),
        };
        record(script, k as u8, &instant);
    }
    let more = script.random.below(2);
    script.sound(k, more);
}

/// A few instants as a source of blocks would have them, some refused: for feeds that hold other calls too.
pub fn some(script: &mut Script, k: usize) {
    let Some(running) = script.running() else { return };
    let kind = usize::from(running.sounds[k].mix_type);
    let count = script.random.pick(&[1, 2, 7, 53]);
    for _ in 0..count {
        if script.random.chance(15) {
            refused(script);
        }
        let instant = match script.random.below(4) {
            0 => any_instant(&mut script.random, kind),
            _ => script.source_instant(k, kind),
        };
        record(script, k as u8, &instant);
    }
}

/// The brim reached by instants alone, one mono fingerprint: some 12,751 of them.
fn by_instants_alone(script: &mut Script) {
    script.setup(2, 7, &[1]);
    while script.running().is_some_and(|running| running.sounds[0].instants_that_fit() > 0) {
        let instant = script.source_instant(0, 1);
        record(script, 0, &instant);
    }
    past_the_brim(script, 0);
    script.rest_of_frame();
    script.pack(300, 0);
}

/// A full bit store packed until it is empty, so that the bits kept after its refusals are seen.
fn full_and_empty(script: &mut Script, kind: usize) {
    let rate = script.random.pick(&[2, 3]);
    script.setup(2, rate, &[kind as u8]);
    lift(script, 0, AIMED);
    over_the_brim(script, 0);
    let packs = script.packs + 256 / 40 + 2;
    while script.packs < packs {
        fill(script, 0);
        script.rest_of_frame();
        script.pack(300, 0);
    }
}

fn setup(script: &mut Script, seed: u64) {
    let small: Vec<(u8, u8)> = pairs().into_iter().filter(|&(format, _)| format <= 2).collect();
    let many_bytes: Vec<(u8, u8)> = small.iter().copied().filter(|(_, rate)| [2, 3, 5, 6, 7].contains(rate)).collect();
    let pair = if script.random.chance(75) { script.random.pick(&many_bytes) } else { script.random.pick(&small) };
    let first = KINDS[(seed % 3) as usize] as u8;
    let more = script.random.pick(&[0, 0, 0, 1, 1, 2]);
    let mut mixes = vec![first];
    mixes.extend((0..more).map(|_| script.random.pick(&[1, 2, 5])));
    script.setup(pair.0, pair.1, &mixes);
}

/// A setup refused for its rule (02, A9), and calls that tell that no session is left.
fn refused_setup(script: &mut Script) {
    script.setup_by_no_rule(2, 3, &[1]);
    script.record(0x12, &[0], &[0; 2]);
    record(script, 0, &[0]);
}

/// One frame and its container, with sound by instants before, and restarts and full bit stores now and then.
fn round(script: &mut Script) {
    let count = script.running().map_or(0, |running| running.sounds.len());
    (0..script.random.below(4)).for_each(|_| refused(script));
    (0..count).for_each(|k| fill(script, k));
    match script.random.below(24) {
        0 | 1 => script.record(0x15, &[], &[]),
        2 => script.record(0x14, &[], &[]),
        3 | 4 => {
            let k = script.random.below(count);
            over_the_brim(script, k);
        }
        _ => {}
    }
    script.rest_of_frame();
    let id_size = if script.random.chance(10) { ID_SIZE } else { 0 };
    script.pack(300, id_size);
}

/// Instants of every class of value and every kind, with packs that show their bits.
pub fn instants(random: Random, seed: u64) -> Vec<u8> {
    let mut script = Script::new(random);
    if script.random.chance(40) {
        (0..1 + script.random.below(4)).for_each(|_| on_empty(&mut script));
    }
    if seed % 50 == 25 {
        by_instants_alone(&mut script);
    }
    if seed % 12 == 7 {
        full_and_empty(&mut script, KINDS[(seed / 12 % 3) as usize]);
        return script.feed;
    }
    setup(&mut script, seed);
    let packs = script.packs + 3 + script.random.below(2);
    while script.packs < packs && script.feed.len() < 500_000 {
        round(&mut script);
    }
    if script.random.chance(15) {
        over_the_brim(&mut script, 0);
    }
    if script.random.chance(10) {
        malformed(&mut script);
        refused(&mut script);
    } else if script.without_rule(30) {
        refused_setup(&mut script);
    }
    script.feed
}
