// make/streams.rs: transport packets whole and damaged (02, A5), their CRC mended where a later refusal is aimed at.

use super::containers;
use super::largest::{self, FIVE_BYTES};
use super::random::Random;
use super::script::Script;
use crate::feed::MOST_ROOM;
use crate::formats::RATES;
use crate::transport::{packet_around, register_after, sealed, BYTES_AROUND, CRC_SIZE, POLYNOMIAL, START_CODE};

/// What a record's payload has room for beside its own room.
const MOST_BYTES: usize = 65_533;

/// A CRC of 32 bits as some other paper has it: polynomial, the register's start, lowest bit first or highest.
fn another_crc(polynomial: u32, start: u32, lowest_first: bool, bytes: &[u8]) -> u32 {
    let mut register = start;
    for &byte in bytes {
        let byte = if lowest_first { byte.reverse_bits() } else { byte };
        register ^= u32::from(byte) << 24;
        for _ in 0..8 {
            register = register << 1 ^ if register >> 31 == 1 { polynomial } else { 0 };
        }
    }
    register
}

/// What has to be added to the right CRC for the register to end at this value: where it comes from by 32 steps back,
/// in each of which the lowest bit tells whether the polynomial went in.
fn added_to_end_at(end: u32) -> u32 {
    let back = |register: u32| match register % 2 {
        0 => register >> 1,
        _ => (register ^ POLYNOMIAL) >> 1 | 0x8000_0000,
    };
    (0..32).fold(end, |register, _| back(register))
}

/// Wrong ends of the register: one bit alone, one byte, either half, all ones.
fn wrong_ends(random: &mut Random) -> Vec<u32> {
    let (byte, half) = (1 + random.below(255) as u32, 1 + random.below(65_535) as u32);
    vec![1 << random.below(32), byte, byte << 24, half, half << 16, u32::MAX]
}

/// CRCs that do not leave the register at zero behind these bytes, the last of which are the container's: of another
/// order of bytes or bits, complemented, started otherwise, of fewer bytes or more, of another polynomial, next to the
/// right one.
fn wrong_crcs(random: &mut Random, before: &[u8], container: usize) -> Vec<u32> {
    let right = register_after(before);
    let over_container = register_after(&before[before.len() - container..]);
    let mirrored = another_crc(POLYNOMIAL, u32::MAX, true, before);
    let mut crcs = vec![
        right.swap_bytes(),
        right.rotate_left(16),
        right >> 8 & 0x00FF_00FF | right << 8 & 0xFF00_FF00,
        right.reverse_bits(),
        !right,
        another_crc(POLYNOMIAL, 0, false, before),
        !another_crc(POLYNOMIAL, 0, false, before),
        mirrored,
        mirrored.reverse_bits(),
        !mirrored.reverse_bits(),
        (!mirrored.reverse_bits()).swap_bytes(),
        another_crc(POLYNOMIAL ^ 2 << random.below(30), u32::MAX, false, before),
        another_crc(0x1EDC_6F41, u32::MAX, false, before),
        over_container,
        !over_container,
        register_after(&before[before.len().min(4)..]),
        register_after(&before[before.len().min(3)..]),
        register_after(&before[..before.len() - container]),
        register_after(&[before, &[0; CRC_SIZE]].concat()),
        register_after(&[before, &[0xFF; CRC_SIZE]].concat()),
        0,
        u32::MAX,
        right ^ 1 << random.below(32),
        random.next() as u32,
    ];
    crcs.extend([0, 8, 16, 24].map(|place| right ^ (1 + random.below(255) as u32) << place));
    crcs.extend(wrong_ends(random).into_iter().map(|end| right ^ added_to_end_at(end)));
    crcs.into_iter().map(|crc| if crc == right { !crc } else { crc }).collect()
}

/// Lengths that are not the one that counts the container and the CRC: off by one, by the CRC, by the field itself, by
/// the whole head, by 256, with one byte right, with the bytes exchanged.
fn wrong_lengths(random: &mut Random, right: u16) -> Vec<u16> {
    let mut lengths = random.lengths_near(right, &[1, 2, 4, 6, 10, 255, 256, 512], &[1, 2, 4, 6, 255, 256]);
    lengths.push(u16::MAX);
    lengths.into_iter().map(|length| if length == right { right + 1 } else { length }).collect()
}

/// Start codes with one byte wrong, each in turn; with the ID of another stream; of the right bytes in a wrong order;
/// of three bytes and of five, as 001's 0x0000001 may be read.
fn wrong_start_codes(random: &mut Random) -> Vec<Vec<u8>> {
    let mut codes = Vec::new();
    for place in 0..4 {
        for change in [1 << random.below(8), 1 + random.below(255) as u8] {
            let mut code = START_CODE;
            code[place] ^= change;
            codes.push(code.to_vec());
        }
    }
    let id = random.pick(&[0xBC, 0xBD, 0xBE, 0xC0, 0xE0, 0xF0, 0xFF, 0x3F, 0x9F]);
    codes.push(vec![0, 0, 1, id]);
    codes.push(vec![0, 0, 1, 0xBE]);
    codes.extend([[0, 1, 0, 0xBF], [1, 0, 0, 0xBF], [0, 0, 0xBF, 1], [0xBF, 1, 0, 0], [0, 0, 0, 1]].map(Vec::from));
    codes.extend([vec![0, 1, 0xBF], vec![0, 0, 0, 1, 0xBF]]);
    codes
}

/// Which parts of a packet are wrong; the CRC is right for all that stands before it, or wrong by itself.
#[derive(Clone, Copy, Default)]
struct Wrong {
    start_code: bool,
    length: bool,
    crc: bool,
}

fn right_length(container: &[u8]) -> u16 {
    (container.len() + CRC_SIZE) as u16
}

fn with_crc(before: &[u8], crc: u32) -> Vec<u8> {
    [before, &crc.to_be_bytes()].concat()
}

/// 41, 42, 43, or the container's own number under a packet that is whole.
fn damaged(random: &mut Random, container: &[u8], wrong: Wrong) -> Vec<u8> {
    let (mut start_code, mut length) = (START_CODE.to_vec(), right_length(container));
    if wrong.start_code {
        let codes = wrong_start_codes(random);
        start_code = codes[random.below(codes.len())].clone();
    }
    if wrong.length {
        let lengths = wrong_lengths(random, length);
        length = random.pick(&lengths);
    }
    let packet = sealed(&start_code, length, container);
    if !wrong.crc {
        return packet;
    }
    let before = &packet[..packet.len() - CRC_SIZE];
    // What is left where head or length are damaged on the way.
    let left = register_after(&packet_around(container)[..container.len() + 6]);
    let crcs = wrong_crcs(random, before, container.len());
    let crc = if random.chance(15) && left != register_after(before) { left } else { random.pick(&crcs) };
    with_crc(before, crc)
}

/// Bytes lost from the end or added there, the length as it was (42), counting them (43), or with the CRC mended too.
fn resized(random: &mut Random, container: &[u8]) -> Vec<u8> {
    let packet = packet_around(container);
    let less = (1 + random.below(6)).min(container.len());
    let more = random.pick(&[1, 2, 3, 4, 5, 10, 256]);
    let added = if random.chance(50) { vec![0; more] } else { random.bytes(more) };
    let with_length = |length: u16, bytes: &[u8]| [&START_CODE, &length.to_be_bytes()[..], bytes].concat();
    let (shorter, longer) = (right_length(container) - less as u16, right_length(container) + more as u16);
    let (cut, stretched) = (&container[..container.len() - less], [container, &added].concat());
    match random.below(10) {
        0 => packet[..packet.len() - less].to_vec(),
        1 => with_length(shorter, &packet[6..packet.len() - less]),
        2 => sealed(&START_CODE, right_length(container), cut),
        3 => packet_around(cut),
        4 => [&packet[..], &added].concat(),
        5 => with_length(longer, &[&packet[6..], &added].concat()),
        6 => sealed(&START_CODE, right_length(container), &stretched),
        7 => packet_around(&stretched),
        // A register at zero stays there over zeros.
        8 => [&packet[..], &vec![0; more]].concat(),
        _ => [&sealed(&START_CODE, longer, container)[..], &vec![0; more]].concat(),
    }
}

/// A packet of few bytes, whole (20 from 10 bytes on) or wrong in start code, length or CRC.
fn small(random: &mut Random, size: usize) -> Vec<u8> {
    let whole = packet_around(&random.bytes(size.saturating_sub(BYTES_AROUND)));
    let mut bytes = match random.below(6) {
        0 => random.bytes(size),
        1 => vec![random.pick(&[0x00, 0xFF]); size],
        2 => packet_around(&containers::any(random))[..size.min(10)].to_vec(),
        3 => [&START_CODE[..], &(size.saturating_sub(6) as u16).to_be_bytes(), &[0; 16]].concat(),
        _ => whole,
    };
    bytes.resize(size, 0);
    if random.chance(20) && size > 0 {
        bytes[random.below(size)] ^= 1 << random.below(8);
    }
    bytes
}

/// A packet around a container that may itself be damaged, whole in a third of the cases.
fn any_packet(random: &mut Random) -> Vec<u8> {
    let container = containers::any(random);
    let wrong = match random.below(20) {
        0..=6 => Wrong::default(),
        7 | 8 => Wrong { start_code: true, ..Wrong::default() },
        9 | 10 => Wrong { length: true, ..Wrong::default() },
        11..=13 => Wrong { crc: true, ..Wrong::default() },
        14 => Wrong { start_code: random.chance(50), length: random.chance(70), crc: true },
        15 => Wrong { start_code: true, length: true, crc: random.chance(30) },
        16 | 17 => return resized(random, &container),
        18 => {
            let size = random.below(16);
            return small(random, size);
        }
        _ => {
            let mut packet = packet_around(&container);
            let place = random.below(packet.len());
            packet[place] ^= 1 + random.below(255) as u8;
            return packet;
        }
    };
    damaged(random, &container, wrong)
}

/// Enough, just enough, one less or none.
fn room(random: &mut Random, size: usize) -> usize {
    let size = size.min(MOST_ROOM - 1);
    random.pick(&[size, size, size, size.saturating_sub(1), size.saturating_sub(1), size + 1, 300, MOST_ROOM, 0])
}

/// Wrapping, with a room around what will be written.
pub fn wrap(script: &mut Script, container: &[u8]) {
    let room = room(&mut script.streams, container.len() + BYTES_AROUND);
    script.with_room(0x26, room, container);
}

/// Unwrapping, with a room around the container's size.
pub fn unwrap(script: &mut Script, packet: &[u8]) {
    let room = room(&mut script.streams, packet.len().saturating_sub(BYTES_AROUND));
    script.with_room(0x27, room, packet);
}

/// The container wrapped and unwrapped; now and then the CRC is wrong, which comes first (43).
pub fn wrap_and_unwrap(script: &mut Script, container: &[u8]) {
    let wrong = Wrong { crc: script.streams.chance(10), ..Wrong::default() };
    let packet = damaged(&mut script.streams, container, wrong);
    wrap(script, container);
    unwrap(script, &packet);
}

/// The container wrapped and unwrapped, with just the room for it and one byte less.
pub fn there_and_back(script: &mut Script, container: &[u8]) {
    let packet = packet_around(container);
    for (tag, given, size) in [(0x26, container, packet.len()), (0x27, &packet, container.len())] {
        script.with_room(tag, size - 1, given);
        script.with_room(tag, size, given);
    }
}

/// One record, drawn from the source of its own.
pub fn one(script: &mut Script) {
    if script.streams.chance(35) {
        let container = containers::any(&mut script.streams);
        return wrap(script, &container);
    }
    let packet = any_packet(&mut script.streams);
    unwrap(script, &packet);
}

/// A record that is none: no room, half a room, a room above 4,096, the first tag behind theirs that is none; what follows would be taken.
pub fn malformed(script: &mut Script) {
    let random = &mut script.streams;
    let container = containers::written(&containers::contents(random, Default::default()));
    let (tag, given) = if random.chance(50) { (0x26, container) } else { (0x27, packet_around(&container)) };
    match random.below(5) {
        0 => script.record(tag, &[], &[]),
        1 => {
            let half = random.pick(&[0, 1, 0x10]);
            script.record(tag, &[half], &[]);
        }
        2 => script.with_room(0x29, MOST_ROOM, &given),
        _ => {
            let room = random.pick(&[4097, 4098, 4352, 5000, 65_535]);
            script.with_room(tag, room, &given);
        }
    }
}

/// Each of 20 to 28 at both calls, before 12; in packets that are whole and behind each fault that comes first.
fn refused_containers(script: &mut Script) {
    for number in 20..=28 {
        let container = containers::refused_with(&mut script.streams, number);
        let rooms = [0, container.len() + BYTES_AROUND];
        rooms.into_iter().for_each(|room| script.with_room(0x26, room, &container));
        let faults = [
            Wrong::default(),
            Wrong::default(),
            Wrong { crc: true, ..Wrong::default() },
            Wrong { length: true, ..Wrong::default() },
            Wrong { start_code: true, ..Wrong::default() },
        ];
        for (wrong, room) in faults.into_iter().zip([0, container.len(), MOST_ROOM, MOST_ROOM, MOST_ROOM]) {
            let packet = damaged(&mut script.streams, &container, wrong);
            script.with_room(0x27, room, &packet);
        }
    }
}

/// Every wrong start code, length and CRC of the lists above, around one container that is accepted.
fn every_damage(script: &mut Script) {
    let random = &mut script.streams;
    let container = containers::written(&containers::contents(random, Default::default()));
    let length = right_length(&container);
    let before = &packet_around(&container)[..container.len() + 6];
    let mut packets: Vec<Vec<u8>> =
        wrong_start_codes(random).iter().map(|code| sealed(code, length, &container)).collect();
    packets.extend(wrong_lengths(random, length).iter().map(|&length| sealed(&START_CODE, length, &container)));
    packets.extend(wrong_crcs(random, before, container.len()).iter().map(|&crc| with_crc(before, crc)));
    packets.iter().for_each(|packet| unwrap(script, packet));
}

/// A payload near the longest, or one whose container is near the largest room.
fn long(script: &mut Script) {
    let random = &mut script.streams;
    let any = 300 + random.below(65_000);
    let size = random.pick(&[MOST_BYTES, MOST_BYTES, MOST_BYTES - 1, MOST_ROOM + 10, MOST_ROOM + 11, any]);
    let container = containers::written(&containers::contents(random, Default::default()));
    let mut bytes = [container.clone(), random.bytes(size)].concat();
    bytes.truncate(size - BYTES_AROUND);
    match random.below(5) {
        0 => {
            bytes.resize(size, 0);
            wrap(script, &bytes);
        }
        1 => unwrap(script, &packet_around(&bytes)),
        2 => {
            let mut packet = packet_around(&container);
            packet.resize(size, 0);
            unwrap(script, &packet);
        }
        3 => {
            let length = right_length(&bytes) ^ 1 << random.below(16);
            unwrap(script, &sealed(&START_CODE, length, &bytes));
        }
        _ => {
            let mut packet = packet_around(&bytes);
            packet[6 + random.below(size - 6)] ^= 1 << random.below(8);
            unwrap(script, &packet);
        }
    }
}

/// Packets of 0 to 15 bytes; from 10 on one that is whole beside, its container of fewer than 5 but for the last.
fn small_ones(script: &mut Script) {
    for size in 0..=15 {
        let packet = small(&mut script.streams, size);
        unwrap(script, &packet);
        if size >= BYTES_AROUND {
            let bytes = script.streams.bytes(size - BYTES_AROUND);
            unwrap(script, &packet_around(&bytes));
        }
    }
}

/// The largest container, that of any rate, and one with more bytes behind than a Length reaches (22).
fn large_ones(script: &mut Script) {
    let any_rate = script.streams.pick(&RATES.map(|rate| rate.code));
    let mut container = largest::container_of_rate(&mut script.streams, any_rate);
    there_and_back(script, &container);
    container = largest::container_of_rate(&mut script.streams, FIVE_BYTES);
    there_and_back(script, &container);
    let more = 1 + script.streams.below(300);
    container.extend(script.streams.bytes(more));
    wrap(script, &container);
    unwrap(script, &packet_around(&container));
}

/// Containers wrapped, packets unwrapped: every refusal, every damage aimed at, and then any of them.
pub fn transport(random: Random, _seed: u64) -> Vec<u8> {
    let mut script = Script::new(random);
    refused_containers(&mut script);
    every_damage(&mut script);
    small_ones(&mut script);
    for _ in 0..4 {
        let container = containers::written(&containers::contents(&mut script.streams, Default::default()));
        there_and_back(&mut script, &container);
    }
    large_ones(&mut script);
    (0..200).for_each(|_| one(&mut script));
    if script.streams.chance(20) {
        long(&mut script);
    }
    script.feed
}

#[cfg(test)]
mod tests {
    use super::*;
    use crate::feed;
    use std::collections::BTreeSet;

    /// The number that each record of a feed is answered with.
    fn answers(feed: &[u8]) -> Vec<(u8, u8)> {
        let lines = feed::printed(feed);
        let numbers = lines.lines().map(|line| line.split(' ').nth(1).expect("a number").parse().expect("a number"));
        feed::records(feed).into_iter().map(|(tag, _)| tag).zip(numbers).collect()
    }

    #[test]
    fn each_feed_has_every_number_of_both_calls() {
        for seed in 1..=20 {
            let met: BTreeSet<_> = answers(&transport(Random::new("transport", seed), seed)).into_iter().collect();
            let common = [0, 12].into_iter().chain(20..=28);
            let wanted = common.flat_map(|number| [(0x26, number), (0x27, number)]);
            let wanted: BTreeSet<_> = wanted.chain((40..=43).map(|number| (0x27, number))).collect();
            assert_eq!(met, wanted, "seed {seed}");
        }
    }

    /// Where one thing alone is wrong, its own number comes.
    #[test]
    fn each_damage_has_its_number() {
        let mut random = Random::new("each", 1);
        for _ in 0..300 {
            let container = containers::written(&containers::contents(&mut random, Default::default()));
            for (number, start_code, length, crc) in
                [(41, true, false, false), (42, false, true, false), (43, false, false, true)]
            {
                let packet = damaged(&mut random, &container, Wrong { start_code, length, crc });
                assert_eq!(crate::transport::read(&packet, MOST_ROOM), Err(number));
                assert_eq!(register_after(&packet) == 0, !crc);
            }
        }
    }

    #[test]
    fn the_register_ends_where_it_is_wanted() {
        let before = &packet_around(b"123456789")[..15];
        let mut random = Random::new("ends", 1);
        for end in [0, 1, u32::MAX].into_iter().chain((0..100).flat_map(|_| wrong_ends(&mut random))) {
            let crc = register_after(before) ^ added_to_end_at(end);
            assert_eq!(register_after(&with_crc(before, crc)), end);
        }
    }

    /// This file's CRC is the program's where it has the same places to start and to go back in.
    #[test]
    fn another_crc_with_the_right_figures_is_the_right_one() {
        assert_eq!(another_crc(0x04C1_1DB7, u32::MAX, false, b"123456789"), 0x0376_E6E7);
        let ethernet = !another_crc(0x04C1_1DB7, u32::MAX, true, b"123456789").reverse_bits();
        assert_eq!(ethernet, 0xCBF4_3926, "the Ethernet's known answer");
    }
}
