// make/contents.rs: flat contents for Write, as a reading gives them or wrong in one place (01: number 29).

use super::containers::{self, Wanted};
use super::counts;
use super::random::Random;
use super::script::Script;
use crate::container::{Contents, VideoValues};
use crate::feed::FLAT_SIZE;

/// Where things lie in flat contents (FEED).
const RATE: usize = 1;
const ID_PRESENT: usize = 2;
const ID: usize = 3;
const VIDEO_COUNT: usize = 23;
const VIDEO: usize = 24;
const AUDIO_COUNT: usize = 26;
const AUDIO: usize = 27;
const PLACE_SIZE: usize = 8;

pub fn flat(contents: &Contents) -> Vec<u8> {
    let mut flat = vec![contents.counter, contents.rate, u8::from(contents.id_present)];
    flat.extend(contents.id);
    flat.extend(match contents.video {
        VideoValues::None => [0, 0, 0],
        VideoValues::One(value) => [1, value, 0],
        VideoValues::Two(field_1, field_2) => [2, field_1, field_2],
    });
    flat.push(contents.audio_count);
    for place in &contents.audio {
        flat.extend([place.id, place.mix_type, place.count]);
        flat.extend(place.bytes);
    }
    assert_eq!(flat.len(), FLAT_SIZE);
    flat
}

/// Damage to rate, ID and video that still makes a record the feed allows.
fn damage_head(random: &mut Random, flat: &mut [u8]) {
    match random.below(6) {
        0 => flat[RATE] = random.pick(&[0, 1, 12, 15, 16, 0x25, 0x52, 255]),
        1 => flat[RATE] = random.pick(&[2, 3, 4, 8, 9, 10, 11]),
        2 => flat[ID + random.below(20)] = random.byte(),
        3 => flat[ID_PRESENT] ^= 1,
        4 if flat[VIDEO_COUNT] > 0 => {
            let value = VIDEO + random.below(usize::from(flat[VIDEO_COUNT]));
            flat[value] = random.pick(&[240, 241, 242, 255]);
        }
        _ => {
            let count = random.below(3);
            flat[VIDEO_COUNT] = count as u8;
            flat[VIDEO + count..AUDIO_COUNT].fill(0);
        }
    }
}

/// Damage to a fingerprint that counts, to one that does not, or to their number.
fn damage_audio(random: &mut Random, flat: &mut [u8]) {
    let count = usize::from(flat[AUDIO_COUNT]);
    let place = AUDIO + PLACE_SIZE * random.below(count.clamp(1, 32));
    match random.below(8) {
        0 => flat[AUDIO_COUNT] = random.pick(&[0, 32, 33, 34, 64, 255]),
        1 => flat[AUDIO_COUNT] = flat[AUDIO_COUNT].wrapping_add(random.pick(&[1, 255])),
        2 => flat[place] = random.pick(&[31, 32, 33, 255]),
        3 => flat[place + 1] = random.pick(&[0, 3, 4, 6, 7, 8, 9, 10, 13, 255]),
        // 32 more are the same five bits
        4 => flat[place + 2] = random.pick(&[0, 1, 5, 6, 7, 32, 255, flat[place + 2].wrapping_add(32)]),
        5 => flat[place + 7] = random.pick(&[0, 1, 128]),
        6 => flat[place + 3 + random.below(5)] = random.byte(),
        _ => flat[AUDIO + random.below(256)] = random.pick(&[0, 1, 2, 255]),
    }
}

/// Damage to four of ten.
pub fn damage_some(random: &mut Random, flat: &mut [u8]) {
    match random.below(10) {
        0..=5 => {}
        6 | 7 => damage_head(random, flat),
        8 => damage_audio(random, flat),
        _ => {
            damage_audio(random, flat);
            damage_head(random, flat);
        }
    }
}

fn any(random: &mut Random) -> Vec<u8> {
    if random.chance(3) {
        return vec![0; FLAT_SIZE];
    }
    if random.chance(25) {
        return flat(&counts::damaged_contents(random));
    }
    let mut flat = flat(&containers::contents(random, Wanted::default()));
    damage_some(random, &mut flat);
    flat
}

/// Write of contents whole and damaged.
pub fn write(random: Random, _seed: u64) -> Vec<u8> {
    let mut script = Script::new(random);
    for _ in 0..120 {
        one(&mut script);
    }
    script.feed
}

pub fn one(script: &mut Script) {
    let whole = containers::contents(&mut script.random, Wanted::default());
    let (size, flat) = if script.random.chance(50) {
        (containers::written(&whole).len(), flat(&whole))
    } else {
        (20, any(&mut script.random))
    };
    let room = script.room_near(size, 30);
    script.with_room(0x25, room, &flat);
}
