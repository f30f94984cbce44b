// make/broken.rs: feeds with a malformed record, and the calls that touch no session.

use super::random::Random;
use super::script::{pairs, Script};
use super::{containers, contents, instants, lines, packets, recordings, streams};
use crate::feed::FLAT_SIZE;

/// A call that touches no session.
pub fn aside(script: &mut Script) {
    match script.random.below(5) {
        0 => lines::one(script),
        1 => packets::one(script),
        2 => contents::one(script),
        _ => containers::one(script),
    }
}

/// A payload too short for its fixed part, or too long for it.
fn wrong_size(script: &mut Script) {
    let tags =
        [(0x10, 2), (0x11, 2), (0x12, 1), (0x13, 2), (0x16, 2), (0x17, 3), (0x20, 3), (0x22, 2), (0x23, 2), (0x24, 2)];
    match script.random.below(5) {
        0 => {
            let size = 1 + script.random.below(3);
            let tag = script.random.pick(&[0x14, 0x15]);
            script.record(tag, &vec![0; size], &[]);
        }
        1 => {
            let size = script.random.pick(&[0, 1, 2, 1 + FLAT_SIZE, 3 + FLAT_SIZE, 400]);
            script.record(0x25, &vec![0; size], &[]);
        }
        _ => {
            let (tag, fixed) = script.random.pick(&tags);
            let size = script.random.below(fixed);
            script.record(tag, &vec![0; size], &[]);
        }
    }
}

/// What would be a setup, but for the rule that is not there: format and rate alone, or less.
fn setup_cut_short(script: &mut Script) {
    let (format, rate) = script.random.pick(&pairs());
    let size = script.random.pick(&[0, 1, 2, 2]);
    script.record(0x17, &[format, rate][..size], &[]);
}

/// Flat contents that are no contents: ID present above 1, three video values, a video place used beyond the count.
fn wrong_flat(script: &mut Script) {
    let mut flat = contents::flat(&containers::contents(&mut script.random, Default::default()));
    match script.random.below(4) {
        0 => flat[2] = script.random.pick(&[2, 3, 255]),
        1 => flat[23] = script.random.pick(&[3, 4, 255]),
        2 => (flat[23], flat[25]) = (script.random.pick(&[0, 1]), 1),
        _ => (flat[23], flat[24]) = (0, 240),
    }
    script.with_room(0x25, 300, &flat);
}

fn bad_record(script: &mut Script) {
    match script.random.below(8) {
        0 => wrong_size(script),
        1 => wrong_flat(script),
        2 => setup_cut_short(script),
        3 => {
            let tag = script.random.pick(&[0x00, 0x0F, 0x18, 0x1F, 0x29, 0x30, 0xFF]);
            let payload = script.noise(9);
            script.record(tag, &[], &payload);
        }
        4 => {
            let room = script.random.pick(&[4097, 5000, 65_535]);
            let tag = script.random.pick(&[0x13, 0x22, 0x23, 0x24]);
            script.with_room(tag, room, &[0; 8]);
        }
        5 | 6 => instants::malformed(script),
        _ => {
            let format = script.random.below(9) as u8;
            script.record(0x20, &[format, 0x10, 0x01], &[]);
        }
    }
}

fn good_record(script: &mut Script) {
    if script.random.chance(20) {
        instants::on_empty(script);
    } else {
        aside(script);
    }
}

/// A few good records, one that is malformed or cut short, and good ones after it that must not be answered.
pub fn broken(random: Random, _seed: u64) -> Vec<u8> {
    let mut script = Script::new(random);
    let before = script.random.below(6);
    (0..before).for_each(|_| good_record(&mut script));
    if script.random.chance(30) {
        good_record(&mut script);
        let size = script.feed.len();
        let lost = 1 + script.random.below(6.min(size - 1));
        script.feed.truncate(size - lost);
    } else {
        if script.streams.chance(40) {
            streams::one(&mut script);
        }
        if script.recordings.chance(40) {
            recordings::one(&mut script);
        }
        let from = script.feed.len();
        bad_record(&mut script);
        // In place of the other, so that what is drawn after it stays what it was.
        if script.streams.chance(20) {
            script.feed.truncate(from);
            streams::malformed(&mut script);
        }
        if script.recordings.chance(12) {
            script.feed.truncate(from);
            recordings::malformed(&mut script);
        }
        good_record(&mut script);
    }
    script.feed
}
