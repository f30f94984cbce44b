// make/largest.rs: sessions and contents whose containers are the largest or near it: 254 bytes (02, A7), or the most
// that another rate's counts allow (02, A2).

use super::containers::{self, allowed_counts, has_two_fields, Wanted};
use super::random::Random;
use super::script::{pairs, Script};
use super::sessions::sound_of_a_frame;
use super::{contents, counts, streams};
use crate::container::{AudioPlace, Contents, VideoValues, ID_SIZE, MOST_FINGERPRINTS};
use crate::feed::MOST_ROOM;
use crate::formats::{FORMATS, RATES};
use crate::packet::{bytes_of_words, words_around};

const LARGEST: usize = 254;
/// A feed of this size gets no further frame: with 32 fingerprints one may take 600 KB.
const ENOUGH_BYTES: usize = 1_200_000;
/// Of the rates that have two fields the only one whose cadence has 5 bytes: 25 Hz.
pub const FIVE_BYTES: u8 = 5;

/// An interlaced session of very many fingerprints.
fn setup(script: &mut Script) {
    let random = &mut script.random;
    let five_bytes = random.chance(80);
    let wanted = |&(format, rate): &(u8, u8)| {
        FORMATS[usize::from(format)].fields_per_frame() == 2 && (rate == FIVE_BYTES) == five_bytes
    };
    let (format, rate) = random.pick(&pairs().into_iter().filter(wanted).collect::<Vec<_>>());
    let count = if random.chance(75) { MOST_FINGERPRINTS } else { 28 + random.below(5) };
    let mixes: Vec<u8> = (0..count).map(|_| random.pick(&[1, 1, 1, 2, 5])).collect();
    script.setup(format, rate, &mixes);
}

/// A room around what will be written, or around the largest container.
fn room(random: &mut Random, size: usize) -> usize {
    random.pick(&[size, size, size - 1, size - 1, size + 1, LARGEST - 1, LARGEST, LARGEST + 1, 0, MOST_ROOM])
}

fn id_size(random: &mut Random) -> usize {
    match random.below(10) {
        0 => 0,
        1 => random.pick(&[1, ID_SIZE - 1, ID_SIZE + 1, 40]),
        _ => ID_SIZE,
    }
}

/// Packs the ready frame, refused as often as room or ID's length want it, and gives the container that comes out.
fn pack(script: &mut Script) -> Vec<u8> {
    loop {
        let size = id_size(&mut script.random);
        let id = script.noise(size);
        let due = script.container_due(&id);
        let room = room(&mut script.random, due.as_ref().map_or(LARGEST, Vec::len));
        script.with_room(0x13, room, &id);
        if let Some(container) = due.filter(|container| container.len() <= room) {
            return container;
        }
    }
}

/// The container read, written again, wrapped and unwrapped in both packets, with just the room for it and one byte
/// less.
fn there_and_back(script: &mut Script, container: &[u8]) {
    let packet = bytes_of_words(&words_around(container));
    script.record(0x21, &[], container);
    for (tag, given, size) in
        [(0x22, container, container.len()), (0x23, container, packet.len()), (0x24, &packet, container.len())]
    {
        script.with_room(tag, size - 1, given);
        script.with_room(tag, size, given);
    }
    streams::there_and_back(script, container);
}

/// The largest contents of a rate: 254 bytes at 25 Hz.
fn largest_contents(random: &mut Random, rate: u8) -> Contents {
    let mut contents = containers::without_audio(random, rate, Wanted { id: true, ..Wanted::default() });
    let (field_1, field_2) = (random.below(241) as u8, random.below(241) as u8);
    contents.video = if has_two_fields(rate) { VideoValues::Two(field_1, field_2) } else { VideoValues::One(field_1) };
    let count = *allowed_counts(rate).last().expect("a cadence has a count");
    counts::with_counts(random, &contents, &[count; MOST_FINGERPRINTS])
}

pub fn container_of_rate(random: &mut Random, rate: u8) -> Vec<u8> {
    containers::written(&largest_contents(random, rate))
}

/// The largest container of a rate at every call that takes one, with just the room for it and one byte less.
pub fn largest_of_rate(script: &mut Script, rate: u8) {
    let contents = largest_contents(&mut script.random, rate);
    let container = containers::written(&contents);
    there_and_back(script, &container);
    let flat = contents::flat(&contents);
    script.with_room(0x25, container.len() - 1, &flat);
    script.with_room(0x25, container.len(), &flat);
}

/// The largest contents of a rate, mostly of 25 Hz, or with one part smaller.
fn large_contents(random: &mut Random) -> Contents {
    let rate = if random.chance(60) { FIVE_BYTES } else { 2 + random.below(10) as u8 };
    let mut contents = largest_contents(random, rate);
    match random.below(10) {
        0 => (contents.id_present, contents.id) = (false, [0; ID_SIZE]),
        1 => contents.video = random.pick(&[VideoValues::None, VideoValues::One(240)]),
        2 => {
            let count = 28 + random.below(4);
            contents.audio_count = count as u8;
            contents.audio[count..].fill(AudioPlace::default());
        }
        3 => contents = counts::with_counts(random, &contents, &[allowed_counts(rate)[0]; MOST_FINGERPRINTS]),
        _ => {}
    }
    contents
}

fn write(script: &mut Script) {
    let random = &mut script.random;
    let mut contents = large_contents(random);
    let room = room(random, containers::written(&contents).len());
    if random.chance(15) {
        let faulty = counts::faulty(random, contents.rate, usize::from(contents.audio_count));
        contents = counts::with_counts(random, &contents, &faulty);
    }
    let mut flat = contents::flat(&contents);
    contents::damage_some(random, &mut flat);
    script.with_room(0x25, room, &flat);
}

/// The second frame is the first with video; its container is the largest where the first had audio.
pub fn largest(random: Random, _seed: u64) -> Vec<u8> {
    let mut script = Script::new(random);
    setup(&mut script);
    let frames = 4 + script.random.below(2);
    while script.packs < frames && script.feed.len() < ENOUGH_BYTES {
        sound_of_a_frame(&mut script);
        script.rest_of_frame();
        let container = pack(&mut script);
        there_and_back(&mut script, &container);
        (0..2 + script.random.below(3)).for_each(|_| write(&mut script));
    }
    RATES.iter().for_each(|rate| largest_of_rate(&mut script, rate.code));
    script.feed
}
