// make/recordings.rs: recordings whole, cut and overwritten, for Mend (02, A8) and for the program `mend`.

use super::containers;
use super::fields::{self, field};
use super::largest::{self, FIVE_BYTES};
use super::random::Random;
use super::script::Script;
use crate::container::{self, AudioPlace, Contents, VideoValues};
use crate::feed::MOST_ROOM;
use crate::recording::{self, BYTES_BEFORE, MOST_BYTES, TAG};

/// What a record's payload has room for beside its own room.
const MOST_OF_A_RECORD: usize = 65_533;

/// A few pieces joined; now and then its front or its end is lost, a part in the middle lost or overwritten.
fn any(random: &mut Random, pieces: usize) -> Vec<u8> {
    let mut bytes: Vec<u8> = (0..pieces).flat_map(|_| fields::piece(random)).collect();
    let (one, other) = (random.below(bytes.len() + 1), random.below(bytes.len() + 1));
    let (from, to) = (one.min(other), one.max(other).min(one.min(other) + 12));
    match random.below(12) {
        0 => bytes.truncate(one),
        1 => bytes = bytes.split_off(one),
        2 => drop(bytes.drain(from..to)),
        3 => {
            let over = fields::garbage(random, to - from);
            bytes[from..to].copy_from_slice(&over);
        }
        _ => {}
    }
    bytes
}

/// How many bytes are kept of a recording; as many as it has where it is refused.
fn kept_size(bytes: &[u8]) -> usize {
    recording::mend(bytes, usize::MAX).map_or(bytes.len(), |output| output.len())
}

/// A record whose room does not refuse it, if a room may be as large.
fn show(script: &mut Script, bytes: &[u8]) {
    let size = kept_size(bytes);
    let room = script.recordings.pick(&[size, size, size + 1, bytes.len(), MOST_ROOM]);
    script.with_room(0x28, room.min(MOST_ROOM), bytes);
}

/// A record with a room that is enough, just enough, one less or none.
fn mend(script: &mut Script, bytes: &[u8]) {
    let (size, random) = (kept_size(bytes), &mut script.recordings);
    let less = size.saturating_sub(1);
    let any = random.below(size.max(1));
    let room = random.pick(&[size, size, size, size + 1, less, less, bytes.len(), MOST_ROOM, MOST_ROOM, 0, any]);
    script.with_room(0x28, room.min(MOST_ROOM), bytes);
}

/// One record, drawn from the source of its own.
pub fn one(script: &mut Script) {
    let pieces = script.recordings.pick(&[1, 1, 2, 2, 3, 3, 4, 6]);
    let bytes = any(&mut script.recordings, pieces);
    mend(script, &bytes);
}

/// A record that is none: no room, half a room, a room above 4,096; what follows would be taken.
pub fn malformed(script: &mut Script) {
    let random = &mut script.recordings;
    let bytes = field(&fields::small(random));
    match random.below(4) {
        0 => script.record(0x28, &[], &[]),
        1 => {
            let half = random.pick(&[0, 1, 0x10]);
            script.record(0x28, &[half], &[]);
        }
        _ => {
            let room = random.pick(&[4097, 4098, 4352, 5000, 65_535]);
            script.with_room(0x28, room, &bytes);
        }
    }
}

fn small_fields(random: &mut Random, number: usize) -> Vec<u8> {
    (0..number).flat_map(|_| field(&fields::small(random))).collect()
}

/// Three fields, whole and with every number of bytes lost from the end and from the front.
fn every_cut(script: &mut Script) {
    let bytes = small_fields(&mut script.recordings, 3);
    for at in 0..=bytes.len() {
        show(script, &bytes[..at]);
        show(script, &bytes[at..]);
    }
}

/// Two fields, of which every byte is overwritten once, alone and with the checksum behind it mended.
fn every_byte(script: &mut Script) {
    let containers = [fields::small(&mut script.recordings), fields::small(&mut script.recordings)];
    for number in 0..2 {
        let fields = containers.each_ref().map(|container| field(container));
        for place in 0..fields[number].len() {
            let other = 1 + script.recordings.below(255) as u8;
            let value = script.recordings.pick(&[0x00, 0x01, 0xFF, other]);
            let mut changed = fields.clone();
            changed[number][place] = if changed[number][place] == value { value ^ other } else { value };
            show(script, &changed.concat());
            if place >= BYTES_BEFORE {
                container::mend_checksum(&mut changed[number][BYTES_BEFORE..]);
                show(script, &changed.concat());
            }
        }
    }
}

/// Every wrong head of the list, at the recording's end and before a whole field, which its length may reach into;
/// heads that belong to nothing.
fn every_head(script: &mut Script) {
    let random = &mut script.recordings;
    let (container, before) = (fields::small(random), field(&fields::smallest(random)));
    let next = field(&fields::smallest(random));
    for wrong in fields::with_wrong_heads(random, &container) {
        show(script, &[&before[..], &wrong].concat());
        show(script, &[&wrong[..], &next].concat());
    }
    for stray in fields::stray_heads(&mut script.recordings) {
        show(script, &stray);
    }
}

/// Each of 20 to 28 in a field, alone (50 as a rule) and between whole ones.
fn refused_containers(script: &mut Script) {
    for number in 20..=28 {
        let refused = field(&containers::refused_with(&mut script.recordings, number));
        let whole = [0, 1].map(|_| field(&fields::small(&mut script.recordings)));
        mend(script, &refused);
        show(script, &[&whole[0][..], &refused, &whole[1]].concat());
    }
}

/// A field within another one's ID and over its fingerprints, the outer one accepted, and refused.
fn inner_fields(script: &mut Script) {
    let random = &mut script.recordings;
    let inner = field(&fields::small(random));
    for container in [fields::holding(random, &inner), fields::over_fingerprints(random)] {
        let mut refused = container.clone();
        fields::refuse(&mut script.recordings, &mut refused);
        let behind = small_fields(&mut script.recordings, 1);
        show(script, &field(&container));
        show(script, &[field(&refused), behind].concat());
    }
    for _ in 0..3 {
        let bytes = fields::nested(&mut script.recordings);
        show(script, &bytes);
    }
}

/// Chains of overlapping fields, whole and without their first byte, where every second one is kept that was not before.
fn overlapping_fields(script: &mut Script) {
    for links in 2..=5 {
        let chain = fields::chain(&mut script.recordings, links);
        show(script, &chain);
        show(script, &chain[1..]);
    }
}

/// No byte, one, and fewer than a field has: the front of one, zeros, tags.
fn few_bytes(script: &mut Script) {
    let whole = field(&fields::smallest(&mut script.recordings));
    for size in 0..=whole.len() {
        let value = script.recordings.byte();
        for bytes in [whole[..size].to_vec(), vec![0; size], vec![TAG; size], vec![value; size]] {
            mend(script, &bytes);
        }
    }
}

/// A whole recording and one with bytes lost, with every room near what is kept.
fn every_room(script: &mut Script) {
    let whole = small_fields(&mut script.recordings, 2);
    let damaged = [&whole[..], &fields::garbage(&mut script.recordings, 5), &whole[..7], &whole].concat();
    for bytes in [whole, damaged] {
        let size = kept_size(&bytes);
        for room in [0, size / 2, size - 1, size, size + 1, MOST_ROOM] {
            script.with_room(0x28, room, &bytes);
        }
    }
}

/// The largest container, alone and with what is more than a container's Length reaches; many of the smallest.
fn large_ones(script: &mut Script) {
    let random = &mut script.recordings;
    let largest = largest::container_of_rate(random, FIVE_BYTES);
    let more = 1 + random.below(300);
    let longer = [&largest[..], &random.bytes(more)].concat();
    let many: Vec<u8> = (0..30 + random.below(40)).flat_map(|_| field(&fields::smallest(random))).collect();
    mend(script, &field(&largest));
    mend(script, &field(&longer));
    show(script, &many);
    show(script, &many[1..]);
    show(script, &many[..8].repeat(20));
}

/// A field of 15 or 17 bytes, 7 more than a multiple of 8 or 1 more: 60 Hz, a value and a fingerprint, or two of them.
fn odd_field(random: &mut Random, size: usize) -> Vec<u8> {
    let mut contents = Contents::bare(random.byte(), 11);
    let fingerprints = if size == 15 { 1 } else { 2 };
    contents.audio_count = fingerprints as u8;
    contents.audio[..fingerprints].fill(AudioPlace { id: 3, mix_type: 1, count: 2, bytes: [7, 9, 0, 0, 0] });
    if size == 15 {
        contents.video = VideoValues::One(random.below(241) as u8);
    }
    field(&containers::written(&contents))
}

/// What is kept has 4,095, 4,096 or 4,097 bytes: the largest room there is, and one more.
fn at_the_largest_room(script: &mut Script) {
    let random = &mut script.recordings;
    let mut fields: Vec<Vec<u8>> = (0..510).map(|_| field(&fields::smallest(random))).collect();
    match random.below(3) {
        0 => fields.push(odd_field(random, 15)),
        1 => fields.extend([0, 1].map(|_| field(&fields::smallest(random)))),
        _ => fields.push(odd_field(random, 17)),
    }
    if random.chance(50) {
        let place = random.below(fields.len());
        fields.insert(place, vec![0; 3]);
    }
    let rooms = random.pick(&[[MOST_ROOM, MOST_ROOM - 1], [MOST_ROOM, 0]]);
    rooms.into_iter().for_each(|room| script.with_room(0x28, room, &fields.concat()));
}

/// Near fields, one each six bytes: the size is what Length says, as far as the recording goes, and the sum is not 0
/// but by chance.
fn near_fields(random: &mut Random, size: usize) -> Vec<u8> {
    let length = random.pick(&[258u16, 254, 250, 6]);
    let each = [&fields::tagged(TAG, length, &[0x00, 0xA7]), &[(length - 3) as u8][..]].concat();
    each.into_iter().cycle().take(size).collect()
}

/// A head each four bytes, whose length reaches just to the end or one byte further, as far as lengths do.
fn heads_to_the_end(random: &mut Random, size: usize) -> Vec<u8> {
    let past = random.below(2);
    let head = |place: usize| {
        let length = (size + past).saturating_sub(place + BYTES_BEFORE).min(65_535) as u16;
        fields::tagged(TAG, length, &[0x00])
    };
    (0..size).step_by(4).flat_map(head).take(size).collect()
}

/// Without a field, but by chance.
fn barren(random: &mut Random, size: usize) -> Vec<u8> {
    match random.below(4) {
        0 => vec![random.pick(&[0x00, 0x01, 0xFF]); size],
        1 => near_fields(random, size),
        2 => heads_to_the_end(random, size),
        _ => fields::garbage(random, size),
    }
}

/// Of one sort throughout: barren but for a field at the front, at the end or between, or full of fields.
fn long(random: &mut Random, size: usize) -> Vec<u8> {
    let same = |one: Vec<u8>| one.into_iter().cycle().take(size).collect();
    let mut bytes: Vec<u8> = match random.below(10) {
        0..=3 => barren(random, size),
        4 | 5 => same(field(&fields::smallest(random))),
        6 => same(field(&largest::container_of_rate(random, FIVE_BYTES))),
        7 => same(fields::within(random)),
        _ => {
            let mut bytes = Vec::new();
            while bytes.len() < size {
                bytes.extend(fields::piece(random));
            }
            bytes
        }
    };
    bytes.truncate(size);
    if random.chance(50) {
        let whole = field(&fields::small(random));
        let last = size - whole.len();
        let between = random.below(last);
        let at = random.pick(&[0, 1, last, last, last - 1, between]);
        bytes[at..at + whole.len()].copy_from_slice(&whole);
    }
    bytes
}

/// Recordings to mend: every cut, every wrong head and refusal, fields within and over one another, then any of them.
pub fn mending(random: Random, seed: u64) -> Vec<u8> {
    let mut script = Script::new(random);
    every_cut(&mut script);
    every_byte(&mut script);
    every_head(&mut script);
    refused_containers(&mut script);
    inner_fields(&mut script);
    overlapping_fields(&mut script);
    few_bytes(&mut script);
    every_room(&mut script);
    large_ones(&mut script);
    (0..80).for_each(|_| one(&mut script));
    if seed % 4 == 1 {
        at_the_largest_room(&mut script);
    }
    if seed % 10 == 3 {
        let size = script.recordings.pick(&[MOST_OF_A_RECORD, MOST_OF_A_RECORD, MOST_OF_A_RECORD - 1, 40_000]);
        let bytes = long(&mut script.recordings, size);
        show(&mut script, &bytes);
    }
    script.feed
}

/// A recording without an acceptable field as a rule: no byte, few, one field that is refused or cut; or with one alone
/// at its end.
fn poor(random: &mut Random) -> Vec<u8> {
    let whole = field(&fields::small(random));
    match random.below(8) {
        0 => whole[..random.below(whole.len())].to_vec(),
        1 => whole[1 + random.below(whole.len() - 1)..].to_vec(),
        2 => fields::overwritten(random, &whole),
        3 => field(&containers::any(random)),
        4 => Vec::new(),
        5 => {
            let size = 1 + random.below(3);
            fields::garbage(random, size)
        }
        6 => {
            let size = random.below(600);
            barren(random, size)
        }
        _ => {
            let size = random.below(40);
            [barren(random, size), field(&fields::smallest(random))].concat()
        }
    }
}

/// A recording and nothing else: for the program `mend`, no feed. One in eight is as long as may be, one in eight
/// longer (51), whether or not there is a field in it.
pub fn recording(mut random: Random, seed: u64) -> Vec<u8> {
    let random = &mut random;
    match seed % 8 {
        0 => {
            let size = random.pick(&[MOST_BYTES, MOST_BYTES, MOST_BYTES, MOST_BYTES - 1]);
            long(random, size)
        }
        4 => {
            let size = MOST_BYTES + random.pick(&[1, 1, 1, 2, 300, MOST_BYTES, MOST_BYTES + 8]);
            if random.chance(30) {
                barren(random, size)
            } else {
                long(random, size)
            }
        }
        1 => poor(random),
        2 => {
            let whole = field(&fields::small(random));
            let cuts = (0..whole.len()).flat_map(|at| [&whole[..at], &whole[at..]].concat());
            cuts.chain(fields::piece(random)).collect()
        }
        _ => {
            let pieces = 1 + random.below(30);
            let mut bytes = any(random, pieces);
            if random.chance(30) {
                bytes.extend(fields::ending(random));
            }
            bytes
        }
    }
}

#[cfg(test)]
mod tests {
    use super::*;
    use crate::feed;
    use std::collections::BTreeSet;

    /// 51 does not come: no payload is as long.
    #[test]
    fn each_feed_has_every_number_of_the_call() {
        for seed in 1..=20 {
            let lines = feed::printed(&mending(Random::new("mending", seed), seed));
            let met: BTreeSet<&str> = lines.lines().map(|line| line.split(' ').nth(1).expect("a number")).collect();
            assert_eq!(met, ["0", "12", "50"].into(), "seed {seed}");
        }
    }

    /// Sizes at the limit with fields and without, so that 51 before 50 shows, and every number in 200 recordings.
    #[test]
    fn the_recordings_at_the_limit() {
        let mut met = BTreeSet::new();
        for seed in 1..=200 {
            let mut bytes = recording(Random::new("recording", seed), seed);
            let size = bytes.len();
            let told = recording::mend(&bytes, usize::MAX).err();
            bytes.truncate(MOST_BYTES);
            met.insert((size.clamp(MOST_BYTES - 2, MOST_BYTES + 2), told, recording::mend(&bytes, usize::MAX).is_ok()));
        }
        let few = [(MOST_BYTES - 2, None, true), (MOST_BYTES - 2, Some(50), false)];
        let many = [(MOST_BYTES, None, true), (MOST_BYTES, Some(50), false)];
        let more = [1, 2].map(|more| [true, false].map(|fields| (MOST_BYTES + more, Some(51), fields)));
        for wanted in few.into_iter().chain(many).chain(more.concat()) {
            assert!(met.contains(&wanted), "{wanted:?}");
        }
    }

    /// 15 and 17 bytes beside 8 make 4,095, 4,096 and 4,097.
    #[test]
    fn fields_at_the_largest_room() {
        let mut random = Random::new("odd", 1);
        for size in [15, 17] {
            let field = odd_field(&mut random, size);
            assert_eq!((field.len(), recording::mend(&field, size)), (size, Ok(field.clone())));
        }
        assert_eq!([510 * 8 + 15, 510 * 8 + 16, 510 * 8 + 17], [4095, 4096, 4097]);
    }
}
