// make/containers.rs: containers whole and damaged, the damage mended so that the later refusals are reached.

use super::counts;
use super::random::Random;
use super::script::Script;
use crate::container::{self, AudioPlace, Contents, VideoValues, ID_SIZE};
use crate::feed::MOST_ROOM;
use crate::formats::Rate;

/// The byte counts of a rate's cadence, smallest first: one or two.
pub fn allowed_counts(rate: u8) -> Vec<usize> {
    let rate = Rate::coded(rate).expect("a listed rate");
    (1..=5).filter(|&count| rate.cadence_has(count)).collect()
}

/// 25, 29.97 and 30 (01, What a caller is told: 26).
pub fn has_two_fields(rate: u8) -> bool {
    (5..=7).contains(&rate)
}

/// A fingerprint of so many bytes.
pub fn audio_place(random: &mut Random, count: usize) -> AudioPlace {
    let mut bytes = [0; 5];
    bytes[..count].copy_from_slice(&random.bytes(count));
    AudioPlace { id: random.below(32) as u8, mix_type: random.pick(&[1, 2, 5]), count: count as u8, bytes }
}

fn audio_number(random: &mut Random) -> usize {
    match random.below(8) {
        0 => random.pick(&[31, 32]),
        1 => 5 + random.below(27),
        _ => 1 + random.below(4),
    }
}

/// Which parts contents shall have at the least.
#[derive(Clone, Copy, Default)]
pub struct Wanted {
    pub id: bool,
    pub video: bool,
    pub audio: bool,
}

/// Contents as a reading gives them, without audio.
pub fn without_audio(random: &mut Random, rate: u8, wanted: Wanted) -> Contents {
    let mut contents = Contents::bare(random.byte(), rate);
    if wanted.id || random.chance(30) {
        contents.id_present = true;
        contents.id.copy_from_slice(&random.bytes(ID_SIZE));
    }
    if wanted.video || random.chance(60) {
        let mut value = || random.pick(&[0, 1, 239, 240]).max(random.below(241) as u8 * (random.below(2) as u8));
        let (field_1, field_2) = (value(), value());
        let two = has_two_fields(rate) && random.chance(70);
        contents.video = if two { VideoValues::Two(field_1, field_2) } else { VideoValues::One(field_1) };
    }
    contents
}

/// Contents as a reading gives them: one count of the rate's cadence for all fingerprints (02, A2).
pub fn contents(random: &mut Random, wanted: Wanted) -> Contents {
    let rate = if random.chance(30) { random.pick(&[5, 6, 7]) } else { 2 + random.below(10) as u8 };
    let mut contents = without_audio(random, rate, wanted);
    if wanted.audio || random.chance(60) {
        let number = audio_number(random);
        let count = random.pick(&allowed_counts(rate));
        contents.audio_count = number as u8;
        contents.audio[..number].fill_with(|| audio_place(random, count));
    }
    contents
}

/// The container of contents as a reading gives them.
pub fn written(contents: &Contents) -> Vec<u8> {
    container::write(contents, MOST_ROOM).expect("contents that a reading gives")
}

/// A container and where its parts begin; a part that is absent begins where the next one does.
struct Made {
    bytes: Vec<u8>,
    video_at: usize,
    audio_at: usize,
    places: Vec<usize>,
}

fn made(random: &mut Random, wanted: Wanted) -> Made {
    let contents = contents(random, wanted);
    let bytes = written(&contents);
    let video_at = if contents.id_present { 4 + 1 + ID_SIZE } else { 4 };
    let audio_at = video_at
        + match contents.video {
            VideoValues::None => 0,
            VideoValues::One(_) => 2,
            VideoValues::Two(..) => 3,
        };
    let mut places = Vec::new();
    let mut at = audio_at + 1;
    for place in contents.audio.iter().take(usize::from(contents.audio_count)) {
        places.push(at);
        at += 2 + usize::from(place.count);
    }
    Made { bytes, video_at, audio_at, places }
}

/// Cuts a container's body at a place and gives it a new checksum and Length.
fn cut(bytes: &mut Vec<u8>, at: usize) {
    bytes.truncate(at.max(4));
    container::mend(bytes, true);
}

/// 20 to 23: size, version, Length, checksum; sometimes with the later ones mended, sometimes not.
fn damage_frame(random: &mut Random) -> Vec<u8> {
    let mut bytes = made(random, Wanted::default()).bytes;
    match random.below(5) {
        0 => bytes.truncate(random.below(5)),
        1 => bytes[0] = random.pick(&[1, 2, 16, 128, 255]),
        2 => bytes[2] = bytes[2].wrapping_add(random.pick(&[1, 255, 3, 253, 128])),
        3 => {
            let more = 1 + random.below(3);
            bytes.extend(random.bytes(more));
        }
        _ => {
            let last = bytes.len() - 1;
            bytes[last] = bytes[last].wrapping_add(random.pick(&[1, 255, 128]));
            return bytes;
        }
    }
    if random.chance(70) {
        container::mend_checksum(&mut bytes);
    }
    bytes
}

/// 24: a rate code that is not listed, or bit 3.
fn damage_rate(random: &mut Random) -> Vec<u8> {
    let mut bytes = made(random, Wanted::default()).bytes;
    let code = random.pick(&[0, 1, 12, 13, 14, 15]);
    bytes[3] = if random.chance(50) { bytes[3] % 16 + 16 * code } else { bytes[3] | 0x08 };
    container::mend_checksum(&mut bytes);
    bytes
}

/// 25: a first byte that is not 00h, or too few bytes.
fn damage_id(random: &mut Random) -> Vec<u8> {
    let wanted = Wanted { id: true, ..Wanted::default() };
    let mut bytes = made(random, wanted).bytes;
    if random.chance(50) {
        bytes[4] = random.pick(&[1, 0x14, 8, 0x80, 0x09]);
        container::mend_checksum(&mut bytes);
    } else {
        let at = 4 + random.pick(&[0, 1, 10, ID_SIZE - 1, ID_SIZE]);
        cut(&mut bytes, at);
    }
    bytes
}

/// 26: header, values above 240, two fields at a rate that has none, too few bytes.
fn damage_video(random: &mut Random) -> Vec<u8> {
    let wanted = Wanted { video: true, ..Wanted::default() };
    let Made { mut bytes, video_at, audio_at, .. } = made(random, wanted);
    match random.below(5) {
        0 => bytes[video_at] = random.pick(&[0x01, 0x19, 0x08, 0x0A, 0x10, 0x12, 0x29, 0x91, 0x89]),
        1 => {
            let value = video_at + 1 + random.below(audio_at - video_at - 1);
            bytes[value] = 241 + random.below(15) as u8;
        }
        2 => {
            let code = random.pick(&[2, 3, 4, 8, 9, 10, 11]);
            bytes[3] = bytes[3] % 16 + 16 * code;
            bytes[video_at] = 0x11;
        }
        3 => bytes[video_at] ^= 0x18,
        _ => {
            let at = video_at + random.below(audio_at - video_at);
            cut(&mut bytes, at);
        }
    }
    container::mend_checksum(&mut bytes);
    bytes
}

/// 27: header, mix type, low bits of the count's byte, a count of 0 or above 5, too few bytes; counts of 1 to 5 that
/// break 02's A2 are in counts.rs.
fn damage_audio(random: &mut Random) -> Vec<u8> {
    let wanted = Wanted { audio: true, ..Wanted::default() };
    let Made { mut bytes, audio_at, places, .. } = made(random, wanted);
    let place = random.pick(&places);
    match random.below(6) {
        0 => bytes[audio_at] ^= random.pick(&[1, 2, 4]),
        1 => bytes[audio_at] = bytes[audio_at].wrapping_add(8),
        2 => bytes[place] = bytes[place] / 8 * 8 + random.pick(&[0, 3, 4, 6, 7]),
        3 => bytes[place + 1] += 1 + random.below(7) as u8,
        4 => bytes[place + 1] = 8 * random.pick(&[0, 6, 7, 8, 16, 31]),
        _ => {
            let at = audio_at + random.below(bytes.len() - 1 - audio_at);
            cut(&mut bytes, at);
        }
    }
    container::mend_checksum(&mut bytes);
    bytes
}

/// 28: bytes after the last part, by adding some, by dropping the last part's flag or by a smaller count.
fn damage_end(random: &mut Random) -> Vec<u8> {
    let wanted = Wanted { audio: true, ..Wanted::default() };
    let Made { mut bytes, audio_at, places, .. } = made(random, wanted);
    match random.below(3) {
        0 => {
            bytes.pop();
            let more = random.pick(&[1, 1, 2, 7, 300 - bytes.len().min(299)]);
            bytes.extend(random.bytes(more));
            container::mend(&mut bytes, true);
        }
        1 => bytes[3] &= 0xFE,
        _ if places.len() > 1 => bytes[audio_at] -= 8,
        _ => bytes[3] &= 0xFE,
    }
    container::mend_checksum(&mut bytes);
    bytes
}

/// Damage without aim: a byte, the flags, a cut or the whole body; mended.
fn damage_anywhere(random: &mut Random) -> Vec<u8> {
    let mut bytes = made(random, Wanted::default()).bytes;
    match random.below(5) {
        0 => {
            let place = random.below(bytes.len());
            bytes[place] = random.byte();
        }
        1 => {
            let place = 3 + random.below(bytes.len() - 3);
            bytes[place] ^= 1 << random.below(8);
        }
        2 => bytes[3] ^= 1 + random.below(7) as u8,
        3 => {
            let at = 4 + random.below(bytes.len() - 4);
            cut(&mut bytes, at);
        }
        _ => {
            let size = random.pick(&[0, 3, 20, 60, 250, 251, 252, 253, 254, 255]);
            bytes.truncate(4);
            bytes.extend(random.bytes(size));
            container::mend(&mut bytes, false);
        }
    }
    if random.chance(80) {
        container::mend_checksum(&mut bytes);
    }
    bytes
}

/// A container that is whole, as a third of them are, or damaged in one of the ways above.
pub fn any(random: &mut Random) -> Vec<u8> {
    match random.below(14) {
        0..=4 => made(random, Wanted::default()).bytes,
        5 => damage_frame(random),
        6 => damage_rate(random),
        7 => damage_id(random),
        8 => damage_video(random),
        9 => damage_audio(random),
        10 => damage_end(random),
        11 => damage_frame(random),
        12 => counts::damaged(random),
        _ => damage_anywhere(random),
    }
}

/// A container that is refused with this number.
pub fn refused_with(random: &mut Random, number: u8) -> Vec<u8> {
    loop {
        let container = any(random);
        if container::read(&container) == Err(number) {
            return container;
        }
    }
}

/// Reading, and reading and writing again.
pub fn container(random: Random, _seed: u64) -> Vec<u8> {
    let mut script = Script::new(random);
    for _ in 0..120 {
        one(&mut script);
    }
    script.feed
}

pub fn one(script: &mut Script) {
    let bytes = any(&mut script.random);
    if script.random.chance(50) {
        return script.record(0x21, &[], &bytes);
    }
    let room = script.room_near(bytes.len(), 25);
    script.with_room(0x22, room, &bytes);
}

/// A container's bytes and nothing else, now and then longer than 300: for 01's small program, no feed.
pub fn bytes(mut random: Random, _seed: u64) -> Vec<u8> {
    let mut bytes = any(&mut random);
    if random.chance(5) {
        bytes.extend(random.bytes(300));
    }
    bytes
}
