// make/rules.rs: sound on which the two mixing rules part (02, A9), aimed so that the kept bits hang on single steps.

use super::floats::of_sample;
use super::instants::{aim, aimed, lift, refused, stretch, wanted, Manner};
use super::random::Random;
use super::script::Script;
use super::sessions::empty_session_calls;
use super::sums::{samples_of_mix, stereo_at_a_multiple};
use crate::audio::Sound;

/// A feed of this size gets no further frame, which alone takes some 41 KB.
const ENOUGH_BYTES: usize = 240_000;

fn floats(random: &mut Random, samples: &[i64]) -> Vec<u32> {
    samples.iter().map(|&sample| of_sample(random, sample)).collect()
}

/// Samples of the value 0, as near as can be to where it ends, or to 0.
fn silent(random: &mut Random, sound: &Sound) -> Vec<i64> {
    let mixed = random.pick(&[0, 0, -1]);
    samples_of_mix(random, usize::from(sound.mix_type), sound.rule, mixed).expect("small sums are there in every kind")
}

fn silent_instant(random: &mut Random, sound: &Sound) -> Vec<u32> {
    let samples = silent(random, sound);
    floats(random, &samples)
}

/// The least value that is heard, its sum next to one that is not.
fn audible_instant(random: &mut Random, sound: &Sound) -> Vec<u32> {
    let mixed = random.pick(&[1, -2, -2]);
    let samples = samples_of_mix(random, usize::from(sound.mix_type), sound.rule, mixed);
    floats(random, &samples.expect("small sums are there in every kind"))
}

/// An instant that keeps envelope and mean together, its sum where another begins to be rounded otherwise.
fn at_an_end(random: &mut Random, sound: &Sound) -> Vec<u32> {
    if random.chance(15) {
        return aimed(random, sound);
    }
    let (kind, aim) = (usize::from(sound.mix_type), aim(random, sound));
    let value = aim.drawn(random);
    let mixed = random.pick(&[value, -value - 1, -value - 1]);
    let samples = if kind == 2 && random.chance(40) {
        stereo_at_a_multiple(random, sound.rule, aim.most)
    } else {
        samples_of_mix(random, kind, sound.rule, mixed)
    };
    match samples {
        Some(samples) => floats(random, &samples),
        None => aimed(random, sound),
    }
}

const MEETING: Manner = Manner { choose: at_an_end, silent, levels: [2, 40, 1000, 1000], blocks: 11 };
const BRINK: Manner = Manner { choose: silent_instant, blocks: 24, ..MEETING };
const AUDIBLE: Manner = Manner { choose: audible_instant, blocks: 50, ..MEETING };

/// Format, rate and mix types of a session.
struct Plan {
    format: u8,
    rate: u8,
    mixes: Vec<u8>,
}

impl Plan {
    /// Five bytes a frame, four at times: the bits of the lifting fill the first container.
    fn of_meeting(random: &mut Random) -> Plan {
        let (format, rate) = random.pick(&[(2, 3), (2, 3), (2, 2), (2, 5), (1, 5)]);
        let mixes: &[u8] = random.pick(&[&[2], &[2], &[5], &[5], &[1, 2], &[2, 1]]);
        Plan { format, rate, mixes: mixes.to_vec() }
    }

    /// Few bytes a frame: a container is soon full.
    fn of_brink(random: &mut Random) -> Plan {
        let rate = random.pick(&[4, 8, 9, 10, 11]);
        let mixes: &[u8] = random.pick(&[&[2, 5], &[5, 2], &[2, 5, 1], &[5, 2, 2], &[2, 2]]);
        Plan { format: 2, rate, mixes: mixes.to_vec() }
    }
}

fn setup(script: &mut Script, plan: &Plan, rule: u8) {
    script.setup_by_rule(plan.format, plan.rate, rule, &plan.mixes);
}

/// Nothing of the session before is left.
fn refused_setup(script: &mut Script, plan: &Plan) {
    script.setup_by_no_rule(plan.format, plan.rate, &plan.mixes);
    empty_session_calls(script);
}

/// Calls that leave the rule as it is.
fn beside(script: &mut Script) {
    (0..script.random.below(3)).for_each(|_| refused(script));
    if script.random.chance(30) {
        script.record(0x14, &[], &[]);
    }
}

fn pack(script: &mut Script) {
    beside(script);
    script.rest_of_frame();
    if script.random.chance(50) {
        let (room, id_size) = script.random.pick(&[(4, 0), (300, 19)]);
        script.pack(room, id_size);
    }
    script.pack(300, 0);
}

/// Envelope and mean brought to where they meet, and held there from the first container on.
fn meeting(script: &mut Script, count: usize) {
    (0..count).for_each(|k| lift(script, k, MEETING));
    for _ in 0..2 {
        for k in 0..count {
            let wanted = wanted(script, k);
            stretch(script, k, wanted, MEETING);
        }
        pack(script);
    }
}

/// Nothing is heard, though a single step would be; in the second frame an instant that is, by a single step.
fn brink(script: &mut Script, count: usize) {
    silence(script, count, false);
    pack(script);
    if script.random.chance(60) {
        script.record(0x15, &[], &[]);
    }
    broken_silence(script, count);
}

fn broken_silence(script: &mut Script, count: usize) {
    silence(script, count, true);
    pack(script);
}

/// One frame more, by restart or by a setup of whatever rule.
fn one_more(script: &mut Script, plan: &Plan) {
    match script.random.below(4) {
        0 | 1 => script.record(0x15, &[], &[]),
        _ => script.setup(2, 11, &plan.mixes),
    }
    broken_silence(script, plan.mixes.len());
}

fn silence(script: &mut Script, count: usize, broken: bool) {
    for k in 0..count {
        let wanted = wanted(script, k);
        let after = if broken { 1 + script.random.below(1 + wanted / 3) } else { 0 };
        beside(script);
        stretch(script, k, wanted.saturating_sub(after), BRINK);
        if broken {
            stretch(script, k, 1, AUDIBLE);
            stretch(script, k, after, BRINK);
        }
    }
}

/// A session's plan, and the calls on so many fingerprints.
type Part = (fn(&mut Random) -> Plan, fn(&mut Script, usize));

/// A session under one rule, and the same calls once more under the other.
pub fn rules(random: Random, seed: u64) -> Vec<u8> {
    let mut script = Script::new(random);
    let (plan, calls): Part = if seed % 2 == 0 { (Plan::of_meeting, meeting) } else { (Plan::of_brink, brink) };
    let plan = plan(&mut script.random);
    let first_rule = script.random.pick(&[1, 2, 2]);
    if script.random.chance(30) {
        refused_setup(&mut script, &plan);
    }
    setup(&mut script, &plan, first_rule);
    let from = script.feed.len();
    calls(&mut script, plan.mixes.len());
    let to = script.feed.len();
    if script.random.chance(40) {
        refused_setup(&mut script, &plan);
    }
    setup(&mut script, &plan, 3 - first_rule);
    script.again(from..to);
    if script.feed.len() < ENOUGH_BYTES {
        one_more(&mut script, &plan);
    }
    if script.random.chance(40) {
        refused_setup(&mut script, &plan);
    }
    script.feed
}
