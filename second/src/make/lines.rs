// make/lines.rs: single lines for line sampling by itself.

use super::picture::line_of_row;
use super::random::Random;
use super::script::Script;
use crate::feed::MOST_ROOM;
use crate::formats::FORMATS;

/// A line of a format: made for a row, noise, or all samples alike.
fn line(random: &mut Random, format: usize) -> Vec<u8> {
    let format = &FORMATS[format];
    match random.below(6) {
        0 => random.bytes(2 * format.width),
        1 => random.pick(&[[0, 0], [0xFF, 0xFF], [0xFF, 0x03], [0x03, 0xFC], [0xFC, 0x03]]).repeat(format.width),
        _ => {
            let row = std::array::from_fn(|_| random.byte());
            line_of_row(random, format, &row)
        }
    }
}

/// Lines of every length, with and without room for their 60 bytes.
pub fn sample(random: Random, _seed: u64) -> Vec<u8> {
    let mut script = Script::new(random);
    for _ in 0..60 {
        one(&mut script);
    }
    script.feed
}

pub fn one(script: &mut Script) {
    let random = &mut script.random;
    let width_of = random.below(FORMATS.len());
    let mut line = line(random, width_of);
    match random.below(12) {
        0 => line.truncate(line.len() - 1 - random.below(2)),
        1 => line.extend([0; 2]),
        2 => line.truncate(random.below(3)),
        _ => {}
    }
    let format = match random.below(10) {
        0 => random.pick(&[8, 9, 128, 255]),
        1 => random.below(8) as u8,
        _ => width_of as u8,
    };
    let room = random.pick(&[60, 60, 60, 61, 64, MOST_ROOM, 59, 0, 1]);
    let [high, low] = (room as u16).to_be_bytes();
    script.record(0x20, &[format, high, low], &line);
}
