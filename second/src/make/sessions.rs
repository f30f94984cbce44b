// make/sessions.rs: feeds of session calls: setups, lines, sound, packs and restarts, in and out of order.

use super::broken::aside;
use super::random::Random;
use super::script::{pairs, Script};
use super::{instants, recordings, streams};
use crate::container::ID_SIZE;
use crate::formats::{Rate, FORMATS};

/// A feed of few packs stops at this size all the same.
const MOST_BYTES: usize = 1_500_000;

/// Mix types: few fingerprints as a rule, now and then very many.
fn mix_types(random: &mut Random) -> Vec<u8> {
    let count = match random.below(10) {
        0..=3 => 1,
        4..=7 => 2 + random.below(3),
        8 => 5 + random.below(8),
        _ => random.pick(&[31, 32]),
    };
    let mono_mostly = count > 4;
    (0..count).map(|_| if mono_mostly && random.chance(90) { 1 } else { random.pick(&[1, 2, 5]) }).collect()
}

/// A setup that is refused, wrong in one way; now and then for its rule, by itself or beside that.
fn refused_setup(script: &mut Script) {
    let (without_rule, alone) = (script.without_rule(25), script.without_rule(80));
    let random = &mut script.random;
    let mut mixes = mix_types(random);
    let (mut format, mut rate) = random.pick(&pairs());
    let right = (format, rate, mixes.clone());
    match random.below(6) {
        0 => format = random.pick(&[8, 9, 255]),
        1 => rate = random.pick(&[0, 1, 12, 13, 14, 15, 0x52, 255]),
        2 => (format, rate) = random.pick(&[(0, 5), (1, 6), (3, 8), (3, 4), (0, 7), (1, 11), (3, 3)]),
        3 => mixes.clear(),
        4 => mixes.resize(33 + random.below(3), 1),
        _ => {
            let place = random.below(mixes.len());
            mixes[place] = random.pick(&[0, 3, 4, 6, 7, 9, 0x12, 255]);
        }
    }
    if without_rule {
        let (format, rate, mixes) = if alone { right } else { (format, rate, mixes) };
        script.setup_by_no_rule(format, rate, &mixes);
    } else {
        script.setup(format, rate, &mixes);
    }
}

/// Calls on an empty session, some of which other numbers would fit too.
pub fn empty_session_calls(script: &mut Script) {
    for _ in 0..1 + script.random.below(5) {
        match script.random.below(6) {
            0 => script.record(0x14, &[], &[]),
            1 => script.record(0x15, &[], &[]),
            2 => any_line(script),
            3 => {
                let block = script.noise(3);
                script.record(0x12, &[0], &block);
            }
            4 => instants::on_empty(script),
            _ => {
                let id_size = script.random.pick(&[0, 1, ID_SIZE]);
                script.pack(0, id_size);
            }
        }
    }
}

/// A line of any number and length; number and length go wrong each by itself, so that both may be wrong at once.
fn any_line(script: &mut Script) {
    let format = script.format();
    let random = &mut script.random;
    let field = random.below(format.fields_per_frame());
    let monitored = format.monitored_line(field, random.below(16));
    let any = 1 + random.below(usize::from(format.lines)) as u16;
    let number = match random.below(8) {
        0 | 1 => any,
        2 => random.pick(&[0, 0xFFFF, format.lines + 1]),
        3 => random.pick(&[1, format.lines, monitored + 1, monitored - 1]),
        4 => format.v_start[0],
        _ => monitored,
    };
    let width = 2 * format.width;
    let other_width = 2 * random.pick(&[720, 1280, 1920, 2048, 3840, 4096]);
    let size = match random.below(10) {
        0 => random.pick(&[0, 1, 2, width - 1, width - 2, width + 1, width + 2]),
        1 => other_width,
        _ => width,
    };
    let line = script.noise(size);
    script.line(number, &line);
}

/// Sound for a fingerprint, by blocks and by instants, with odd lengths and fingerprints that are not there.
fn any_sound(script: &mut Script) {
    let Some(running) = script.running() else { return };
    let count = running.sounds.len();
    let sizes: Vec<usize> = running.sounds.iter().map(|sound| sound.instant_size()).collect();
    let k = script.random.below(count);
    match script.random.below(10) {
        0 => {
            let (k, size) = (script.random.pick(&[count as u8, count as u8 + 1, 255]), script.random.below(12));
            let block = script.noise(size);
            script.record(0x12, &[k], &block);
        }
        1 => {
            let odd = 1 + script.random.below(sizes[k] - 1);
            let size = script.random.below(40) * sizes[k] + odd;
            let block = script.noise(size);
            script.record(0x12, &[k as u8], &block);
        }
        2 => script.sound(k, 0),
        3 | 4 => instants::some(script, k),
        _ => {
            let instants = script.random.pick(&[1, 2, 49, 50, 51, 52, 53, 200, 800]);
            script.sound(k, instants);
        }
    }
}

/// Blocks around the size that fills one bit store, and then one more.
fn brim(script: &mut Script) {
    let drawn = script.random.below(1 << 20);
    let Some(running) = script.running() else { return };
    let k = drawn % running.sounds.len();
    let (fit, decimator) = (running.sounds[k].instants_that_fit(), running.rate.decimator);
    let size = running.sounds[k].instant_size();
    let short_of_full = fit.saturating_sub(decimator - 1).max(1);
    if fit * size > 65_534 {
        return script.sound(k, fit / 2);
    }
    match script.random.below(4) {
        0 => script.sound(k, fit + 1),
        1 => {
            let over = script.random.below(decimator);
            script.sound(k, fit + over);
        }
        2 => {
            script.sound(k, short_of_full);
            script.sound(k, decimator);
            script.sound(k, decimator - 1);
        }
        _ => script.sound(k, fit),
    }
    if script.random.chance(50) {
        instants::past_the_brim(script, k);
    }
    let more = script.random.pick(&[1, decimator, 2 * decimator]);
    script.sound(k, more);
}

/// What the cadence asks for, for every fingerprint, or for all but one.
pub fn sound_of_a_frame(script: &mut Script) {
    let Some(running) = script.running() else { return };
    let bits = 8 * running.bytes_due();
    let decimator = running.rate.decimator;
    let wanting: Vec<usize> = running.sounds.iter().map(|sound| bits.saturating_sub(sound.held_bits())).collect();
    let left_out = if script.random.chance(15) { script.random.below(wanting.len()) } else { usize::MAX };
    let extra = script.random.below(2 * decimator);
    for (k, bits) in wanting.into_iter().enumerate() {
        let instants =
            if k == left_out { (bits * decimator).saturating_sub(2 * decimator) } else { bits * decimator + extra };
        script.sound(k, instants);
    }
}

/// A pack of the container due, into a room that may be too short, with an ID that may be too short or too long.
fn any_pack(script: &mut Script, short_per_cent: usize) {
    let id_size = script.id_size();
    if script.random.chance(10) {
        let wrong = script.random.pick(&[1, 2, 19, 21, 40]);
        let room = script.random.pick(&[0, 4, 300]);
        script.pack(room, wrong);
    }
    let size = script.container_size(id_size);
    let room = script.room_near(size, short_per_cent);
    script.pack(room, id_size);
    if room < size && script.random.chance(80) {
        script.pack(size, id_size);
    }
}

/// How often, out of 100, each turn of a session comes; what is left over are rare turns.
struct Turns {
    frame: usize,
    some_lines: usize,
    any_line: usize,
    frame_sound: usize,
    any_sound: usize,
    brim: usize,
    pack: usize,
}

fn turn(script: &mut Script, turns: &Turns) {
    let mut drawn = script.random.below(100);
    let mut is = |share: usize| {
        let this = drawn < share;
        drawn = drawn.saturating_sub(share);
        this
    };
    if is(turns.frame) {
        script.rest_of_frame();
    } else if is(turns.some_lines) {
        some_lines(script);
    } else if is(turns.any_line) {
        any_line(script);
    } else if is(turns.frame_sound) {
        sound_of_a_frame(script);
    } else if is(turns.any_sound) {
        any_sound(script);
    } else if is(turns.brim) {
        brim(script);
    } else if is(turns.pack) {
        any_pack(script, 25);
    } else {
        rare_turn(script);
    }
}

/// A few of the lines expected, and at times the next frame's first one while a frame is ready.
fn some_lines(script: &mut Script) {
    for _ in 0..1 + script.random.below(20) {
        let ready = script.running().is_some_and(|running| running.picture.ready().is_some());
        script.expected_line();
        if ready {
            break;
        }
    }
}

/// Restarts and setups.
fn rare_turn(script: &mut Script) {
    match script.random.below(10) {
        0..=3 => script.record(0x14, &[], &[]),
        4..=6 => script.record(0x15, &[], &[]),
        7 | 8 => listed_setup(script, None),
        _ => {
            refused_setup(script);
            empty_session_calls(script);
            listed_setup(script, None);
        }
    }
}

/// A setup with listed mix types, of a pair of format and rate, or of any listed pair where none is asked for.
fn listed_setup(script: &mut Script, pair: Option<(u8, u8)>) {
    let (format, rate) = pair.unwrap_or_else(|| script.random.pick(&pairs()));
    let mixes = mix_types(&mut script.random);
    script.setup(format, rate, &mixes);
}

/// Sessions of every pair of format and rate, the pair going round with the seed.
pub fn session(random: Random, seed: u64) -> Vec<u8> {
    let turns = Turns { frame: 24, some_lines: 6, any_line: 12, frame_sound: 20, any_sound: 9, brim: 2, pack: 24 };
    let pairs = pairs();
    run_session(random, pairs[(seed % pairs.len() as u64) as usize], &turns, 7)
}

/// As `session`, with many lines out of order and hardly any sound.
pub fn picture(random: Random, seed: u64) -> Vec<u8> {
    let turns = Turns { frame: 36, some_lines: 14, any_line: 20, frame_sound: 1, any_sound: 0, brim: 0, pack: 27 };
    let pairs = pairs();
    run_session(random, pairs[(seed % pairs.len() as u64) as usize], &turns, 10)
}

/// As `session`, with much sound and the formats of short lines, any rate.
pub fn sound(random: Random, seed: u64) -> Vec<u8> {
    let turns = Turns { frame: 20, some_lines: 0, any_line: 1, frame_sound: 28, any_sound: 16, brim: 10, pack: 24 };
    let small: Vec<(u8, u8)> = pairs().into_iter().filter(|&(format, _)| format <= 2).collect();
    run_session(random, small[(seed % small.len() as u64) as usize], &turns, 10)
}

/// A session with calls on containers, packets and single lines between its own.
pub fn mixed(random: Random, seed: u64) -> Vec<u8> {
    let turns = Turns { frame: 24, some_lines: 4, any_line: 10, frame_sound: 20, any_sound: 9, brim: 2, pack: 26 };
    let pairs = pairs();
    let mut script = Script::new(random);
    listed_setup(&mut script, Some(pairs[(seed % pairs.len() as u64) as usize]));
    while script.packs < 4 && script.feed.len() < MOST_BYTES {
        turn(&mut script, &turns);
        (0..script.random.below(4)).for_each(|_| aside(&mut script));
        (0..script.streams.below(3)).for_each(|_| streams::one(&mut script));
        (0..script.recordings.below(2)).for_each(|_| recordings::one(&mut script));
    }
    script.feed
}

fn run_session(random: Random, pair: (u8, u8), turns: &Turns, packs: usize) -> Vec<u8> {
    let mut script = Script::new(random);
    if script.random.chance(30) {
        empty_session_calls(&mut script);
    }
    listed_setup(&mut script, Some(pair));
    while script.packs < packs && script.feed.len() < MOST_BYTES {
        turn(&mut script, turns);
    }
    script.feed
}

/// Every rule number (02, A9), each with a call that tells whether there is a session.
fn every_rule(script: &mut Script) {
    let (format, rate) = script.random.pick(&pairs());
    for rule in 0..=255 {
        script.record(0x17, &[format, rate, rule], &[2]);
        script.record(0x12, &[0], &[]);
    }
}

/// Every format and rate code, listed or not, with mix types listed or not; each followed by a few small calls.
pub fn setup(random: Random, _seed: u64) -> Vec<u8> {
    let mut script = Script::new(random);
    empty_session_calls(&mut script);
    for format in 0..=FORMATS.len() as u8 {
        for rate in 0..=12 {
            if script.random.chance(15) {
                refused_setup(&mut script);
            } else {
                listed_setup(&mut script, Some((format, rate)));
            }
            small_call(&mut script);
        }
    }
    every_rule(&mut script);
    script.feed
}

fn small_call(script: &mut Script) {
    match script.random.below(6) {
        0 => any_line(script),
        1 => any_sound(script),
        2 => script.pack(5, 0),
        3 => script.record(0x14, &[], &[]),
        4 => script.record(0x15, &[], &[]),
        _ => empty_session_calls(script),
    }
}

/// A run of packs so long that the counter goes from 255 to 0 and the cadence goes round several times.
pub fn long(random: Random, seed: u64) -> Vec<u8> {
    let mut script = Script::new(random);
    let wide: Vec<(u8, u8)> = pairs().into_iter().filter(|&(format, _)| format < 5 && format != 2).collect();
    let rate = 2 + (seed % 10) as u8;
    let pair = if script.random.chance(75) { (2, rate) } else { script.random.pick(&wide) };
    let mixes: &[u8] = script.random.pick(&[&[1], &[1, 1], &[2], &[1, 2], &[5]]);
    script.setup(pair.0, pair.1, mixes);
    let frames = 262 + script.random.below(40);
    let without_sound = 100 + script.random.below(60);
    for frame in 0..frames {
        if frame == without_sound {
            script.record(if seed % 2 == 0 { 0x15 } else { 0x14 }, &[], &[]);
        }
        if !(without_sound..without_sound + 3).contains(&frame) {
            sound_in_pace(&mut script, frame as u64);
        }
        script.rest_of_frame();
        let id_size = if script.random.chance(5) { ID_SIZE } else { 0 };
        script.pack(255, id_size);
    }
    script.feed
}

/// The samples of one frame's time at 48 kHz.
fn sound_in_pace(script: &mut Script, frame: u64) {
    let Some(running) = script.running() else { return };
    let Rate { frames, seconds, .. } = running.rate;
    let until = |frame: u64| frame * 48_000 * seconds / frames;
    let instants = (until(frame + 1) - until(frame)) as usize;
    (0..running.sounds.len()).for_each(|k| script.sound(k, instants));
}
