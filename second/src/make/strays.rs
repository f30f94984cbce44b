// make/strays.rs: feeds of `receive` with a malformed record (FEED).

use super::arrivals::any_call;
use super::datagrams::Stream;
use super::random::Random;

/// Tags that `receive` does not have: those of `card`, of fields and of other programs, those next to its own, and its
/// own with one bit more or less.
const TAGS: [u8; 42] = [
    0x10, 0x11, 0x12, 0x13, 0x14, 0x15, 0x16, 0x17, 0x20, 0x21, 0x22, 0x23, 0x24, 0x25, 0x26, 0x27, 0x28, 0x00, 0x01,
    0x02, 0x03, 0x29, 0x2A, 0x2B, 0x2F, 0x34, 0x35, 0x36, 0x37, 0x38, 0x3B, 0x40, 0x46, 0x70, 0x71, 0x72, 0x73, 0xB0,
    0xB1, 0xB2, 0xB3, 0xFF,
];

/// Payloads shorter or longer than their rows say, and rooms above 4,096.
const WRONG: [(u8, &[u8]); 17] = [
    (0x30, &[]),
    (0x30, &[0, 0]),
    (0x30, &[5, 0, 0]),
    (0x30, &[0, 0, 2, 0x50, 0xAE]),
    (0x32, &[]),
    (0x32, &[0]),
    (0x32, &[0x10]),
    (0x32, &[0, 5, 0]),
    (0x32, &[0x10, 0, 0]),
    (0x32, &[0, 0, 0, 5]),
    (0x32, &[0x10, 0x01]),
    (0x32, &[0x10, 0x02]),
    (0x32, &[0x11, 0x00]),
    (0x32, &[0xFF, 0xFF]),
    (0x33, &[0]),
    (0x33, &[0x33]),
    (0x33, &[0, 5]),
];

/// Another tag, with a payload that would do for one of the four: as a rule for the nearest, or the one with the same
/// two lowest bits.
fn unknown_tag(stream: &mut Stream, tag: u8) {
    let container = stream.whole(0);
    let payloads: [&[u8]; 4] = [&[9], &container, &[0x10, 0], &[]];
    let like = match tag {
        0x2F => 0,
        0x34 => 3,
        _ => usize::from(tag % 4),
    };
    let any = stream.random.below(4);
    let payload = payloads[if stream.random.chance(75) { like } else { any }];
    stream.record(tag, payload);
}

/// A record of any tag, cut within its first three bytes, before its last one or anywhere.
fn cut_short(stream: &mut Stream) {
    let from = stream.feed.len();
    let container = stream.whole(0);
    let whole: [(u8, &[u8]); 4] = [(0x30, &[9]), (0x31, &container), (0x32, &[0x10, 0]), (0x33, &[])];
    let (tag, payload) = stream.random.pick(&whole);
    stream.record(tag, payload);
    let most = payload.len() + 2;
    let kept = match stream.random.below(3) {
        0 => 1 + stream.random.below(3),
        1 => most,
        _ => 1 + stream.random.below(most),
    };
    stream.feed.truncate(from + kept.min(most));
}

/// A container that would be taken in, with bytes behind it that make it longer than any container.
fn long_arrival(stream: &mut Stream) {
    let size = stream.random.pick(&[255, 258, 259, 300, 4097, 65_535, 65_535]);
    let mut bytes = stream.whole(0);
    bytes.resize(size, 0);
    stream.arrive(&bytes);
}

/// A few good records, then one that is malformed, with good ones behind it that must not be answered, or is cut short.
pub fn strays(random: Random, seed: u64) -> Vec<u8> {
    let mut stream = Stream::new(random);
    (0..stream.random.below(40)).for_each(|_| any_call(&mut stream));
    if seed % 10 == 3 {
        long_arrival(&mut stream);
    }
    let (turn, sort) = ((seed / 4) as usize, (seed % 4) as usize);
    match sort {
        0 => unknown_tag(&mut stream, TAGS[turn % TAGS.len()]),
        1 | 2 => {
            let (tag, payload) = WRONG[(2 * turn + sort) % WRONG.len()];
            stream.record(tag, payload);
        }
        _ => {
            cut_short(&mut stream);
            return stream.feed;
        }
    }
    (0..3).for_each(|_| any_call(&mut stream));
    stream.feed
}
