// make/packets.rs: packets whole and damaged, parity and checksum mended where a later refusal is aimed at.

use super::containers;
use super::random::Random;
use super::script::Script;
use crate::feed::MOST_ROOM;
use crate::packet::{self, bytes_of_words, checksum_word, word_of, words_around};

/// A packet's words around a container that may itself be damaged; the count word reaches 255 bytes.
fn whole(random: &mut Random) -> Vec<u16> {
    let mut container = containers::any(random);
    container.truncate(255);
    words_around(&container)
}

fn mend_checksum(words: &mut [u16]) {
    let last = words.len() - 1;
    words[last] = checksum_word(&words[3..last]);
}

/// 32 and 33: the first five words.
fn damage_head(random: &mut Random, words: &mut [u16]) {
    let place = random.below(5);
    words[place] = match place {
        0 => random.pick(&[0x001, 0x200, 0x3FF, 0x100]),
        1 | 2 => random.pick(&[0x3FE, 0x000, 0x1FF, 0x3FC]),
        _ => match random.below(4) {
            0 => words[place] ^ 0x200,
            1 => words[place] ^ 0x300,
            _ => word_of(random.pick(&[0x00, 0x40, 0x42, 0x0B, 0x41, 0x61, 0x80, 0xFF, 0x45])),
        },
    };
    mend_checksum(words);
}

/// 34: the count word's parity, or a count that does not fit the number of words.
fn damage_count(random: &mut Random, words: &mut Vec<u16>) {
    match random.below(4) {
        0 => words[5] ^= random.pick(&[0x100, 0x200, 0x300]),
        1 => words[5] = word_of(((words[5] % 256) as u8).wrapping_add(random.pick(&[1, 255, 7, 128]))),
        2 => words.insert(6, word_of(random.byte())),
        _ => {
            let last = words.len() - 1;
            words.remove(last.min(6));
        }
    }
    if words.len() > 6 {
        mend_checksum(words);
    }
}

/// 35: a user word's parity; bit 9 alone leaves the sum as it is.
fn damage_user_word(random: &mut Random, words: &mut [u16]) {
    let user_words = words.len() - 7;
    if user_words > 0 {
        words[6 + random.below(user_words)] ^= random.pick(&[0x100, 0x200, 0x300]);
    }
    if random.chance(80) {
        mend_checksum(words);
    }
}

/// 36: any bit of the checksum word, or a byte exchanged under an old checksum.
fn damage_checksum(random: &mut Random, words: &mut [u16]) {
    let last = words.len() - 1;
    if random.chance(70) || last < 7 {
        words[last] ^= random.pick(&[0x200, 0x100, 0x300, 0x001, 0x002, 0x080]);
    } else {
        let place = 6 + random.below(last - 6);
        words[place] = word_of(random.byte());
    }
}

/// 30 and 31: odd sizes, words above 3FFh, too few words.
fn damage_size(random: &mut Random, words: &[u16]) -> Vec<u8> {
    let mut bytes = bytes_of_words(words);
    match random.below(4) {
        0 => {
            bytes.pop();
        }
        1 => bytes.push(random.byte() % 4),
        2 => {
            let place = 2 * random.below(words.len()) + 1;
            bytes[place] |= 4 << random.below(6);
        }
        _ => bytes.truncate(2 * random.below(7)),
    }
    bytes
}

/// A packet's bytes, whole in half of the cases.
fn any(random: &mut Random) -> Vec<u8> {
    let words = whole(random);
    maybe_damaged(random, words)
}

fn maybe_damaged(random: &mut Random, mut words: Vec<u16>) -> Vec<u8> {
    match random.below(14) {
        0..=6 => {}
        7 | 8 => return damage_size(random, &words),
        9 => damage_head(random, &mut words),
        10 => damage_count(random, &mut words),
        11 => damage_user_word(random, &mut words),
        12 => damage_checksum(random, &mut words),
        _ => {
            let place = random.below(words.len());
            words[place] ^= 1 << random.below(10);
        }
    }
    bytes_of_words(&words)
}

/// A packet around a container of at most 255 bytes that is refused with this number, one of 30 to 36.
pub fn refused_around(random: &mut Random, container: &[u8], number: u8) -> Vec<u8> {
    loop {
        let packet = maybe_damaged(random, words_around(container));
        if packet::read(&packet, MOST_ROOM) == Err(number) {
            return packet;
        }
    }
}

/// Wrapping and unwrapping.
pub fn packet(random: Random, _seed: u64) -> Vec<u8> {
    let mut script = Script::new(random);
    for _ in 0..150 {
        one(&mut script);
    }
    script.feed
}

pub fn one(script: &mut Script) {
    if script.random.chance(35) {
        let container = containers::any(&mut script.random);
        let room = script.room_near(2 * (container.len() + 7), 25);
        return script.with_room(0x23, room, &container);
    }
    let packet = any(&mut script.random);
    let room = script.room_near((packet.len() / 2).saturating_sub(7), 25);
    script.with_room(0x24, room, &packet);
}
