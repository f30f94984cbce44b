// make/fields.rs: fields of a recording (02, A8): whole, wrong in one thing, one within another, one over the next.

use super::containers::{self, allowed_counts, Wanted};
use super::counts;
use super::largest::{self, FIVE_BYTES};
use super::random::Random;
use crate::container::{self, AudioPlace, Contents, ID_SIZE, MOST_FINGERPRINTS};
use crate::formats::RATES;
use crate::recording::{BYTES_BEFORE, TAG};

/// The most bytes that a field may have in common with the next one: all of its ID but the byte that makes up the sum,
/// and the checksum.
const MOST_SHARED: usize = ID_SIZE;

/// A tag, a length and bytes behind them, whether they fit or not.
pub fn tagged(tag: u8, length: u16, bytes: &[u8]) -> Vec<u8> {
    [&[tag], &length.to_be_bytes()[..], bytes].concat()
}

/// A field around bytes that need be no container.
pub fn field(bytes: &[u8]) -> Vec<u8> {
    let length = u16::try_from(bytes.len()).expect("no more bytes than a length reaches");
    tagged(TAG, length, bytes)
}

fn any_rate(random: &mut Random) -> u8 {
    random.pick(&RATES.map(|rate| rate.code))
}

/// A container of 5 bytes, the smallest that is accepted.
pub fn smallest(random: &mut Random) -> Vec<u8> {
    let rate = any_rate(random);
    containers::written(&Contents::bare(random.byte(), rate))
}

/// A container whose field an ID has room for: 5 to 16 bytes.
pub fn small(random: &mut Random) -> Vec<u8> {
    let rate = any_rate(random);
    let mut contents = containers::without_audio(random, rate, Wanted::default());
    (contents.id_present, contents.id) = (false, [0; ID_SIZE]);
    if random.chance(30) {
        let count = random.pick(&allowed_counts(rate));
        contents = counts::with_counts(random, &contents, &[count]);
    }
    containers::written(&contents)
}

/// A container that is accepted, mostly of few bytes, now and then of 254.
pub fn accepted(random: &mut Random) -> Vec<u8> {
    match random.below(40) {
        0..=11 => smallest(random),
        12..=29 => small(random),
        30 => largest::container_of_rate(random, FIVE_BYTES),
        _ => containers::written(&containers::contents(random, Wanted::default())),
    }
}

/// A field around this container but for its tag or its length: of other records and other programs; off by one, by
/// the length's own bytes, by the whole head, by 256; with one byte overwritten, with both exchanged; of nothing, of
/// all that a length reaches.
pub fn with_wrong_heads(random: &mut Random, container: &[u8]) -> Vec<Vec<u8>> {
    let right = container.len() as u16;
    let tags = [0x00, 0x02, 0x03, 0x10, 0x11, 0x21, 0x80, 0x81, 0xFF, TAG ^ 1 << random.below(8), random.byte()];
    let mut lengths = random.lengths_near(right, &[1, 2, 3, 255, 256, 512], &[1, 2, 3, 256]);
    lengths.extend([0x8000 | right, u16::MAX - 2, u16::MAX]);
    let of_tags = tags.into_iter().filter(|tag| *tag != TAG).map(|tag| tagged(tag, right, container));
    let of_lengths = lengths.into_iter().filter(|length| *length != right).map(|length| tagged(TAG, length, container));
    of_tags.chain(of_lengths).collect()
}

/// One byte overwritten: tag, either byte of the length or one of the container's; there the checksum is mended in half
/// of the cases.
pub fn overwritten(random: &mut Random, field: &[u8]) -> Vec<u8> {
    let place = match random.below(8) {
        0 => 0,
        1 => 1,
        2 => 2,
        3 => field.len() - 1,
        _ => random.below(field.len()),
    };
    let mut bytes = field.to_vec();
    let was = bytes[place];
    let (one_bit, any) = (was ^ 1 << random.below(8), random.byte());
    bytes[place] = random.pick(&[0x00, 0x01, 0x02, 0xFF, one_bit, was.wrapping_add(1), was.wrapping_sub(1), any]);
    if place >= BYTES_BEFORE && random.chance(50) {
        container::mend_checksum(&mut bytes[BYTES_BEFORE..]);
    }
    bytes
}

/// A field that has lost its end or its front.
fn cut(random: &mut Random, field: &[u8]) -> Vec<u8> {
    let at = 1 + random.below(field.len() - 1);
    if random.chance(50) { &field[..at] } else { &field[at..] }.to_vec()
}

/// Bytes that are no fields: of one value, of any, or of those that heads and small containers are made of.
pub fn garbage(random: &mut Random, size: usize) -> Vec<u8> {
    match random.below(7) {
        0 => vec![0x00; size],
        1 => vec![0x01; size],
        2 => vec![random.pick(&[0xFF, 0xA5, 0x05]); size],
        3 => [0x01, 0x00, 0x05].into_iter().cycle().take(size).collect(),
        4 => random.bytes(size),
        _ => (0..size).map(|_| random.pick(&[0x00, 0x00, 0x01, 0x01, 0x02, 0x05, 0x50, 0xAE])).collect(),
    }
}

/// An accepted container whose ID holds these bytes, a whole field as a rule.
pub fn holding(random: &mut Random, inner: &[u8]) -> Vec<u8> {
    let mut contents = containers::contents(random, Wanted { id: true, ..Wanted::default() });
    let at = random.below(ID_SIZE - inner.len() + 1);
    contents.id[at..at + inner.len()].copy_from_slice(inner);
    containers::written(&contents)
}

/// An accepted container over seven of whose fingerprints an acceptable field lies. With four bytes to a fingerprint
/// the two in front of the next come where the inner container has its counter and its Length (20h: 32), in its ID
/// twice, at its video (09h, 20h: one value of 32) and in its one fingerprint.
pub fn over_fingerprints(random: &mut Random) -> Vec<u8> {
    let (rate, inner_rate) = (random.pick(&[2, 5, 6, 7]), random.pick(&[2, 5, 6, 7]));
    let number = 7 + random.below(MOST_FINGERPRINTS - 6);
    let first = random.below(number - 6);
    let before = containers::without_audio(random, rate, Wanted::default());
    let mut contents = counts::with_counts(random, &before, &vec![4; number]);
    contents.audio[first + 5] = AudioPlace { id: 1, mix_type: 1, ..contents.audio[first + 5] };
    let mut bytes = containers::written(&contents);
    let at = bytes.len() - 1 - 6 * (number - first) + 2;
    let fixed = [0x01, 0x00, 35, 0x00];
    bytes[at..at + 4].copy_from_slice(&fixed);
    bytes[at + 6..at + 8].copy_from_slice(&[16 * inner_rate + 7, 0x00]);
    bytes[at + 30..at + 33].copy_from_slice(&[0x02, 8 * random.below(32) as u8 + 1, 4 * 8]);
    container::mend_checksum(&mut bytes[at + 3..at + 38]);
    container::mend_checksum(&mut bytes);
    bytes
}

/// A container, refused by a byte that is not of its ID or of its fingerprints: 21 to 25 and 28.
pub fn refuse(random: &mut Random, container: &mut Vec<u8>) {
    let last = container.len() - 1;
    match random.below(6) {
        0 => container[0] = random.pick(&[1, 0x80, 0xFF]),
        1 => container[2] = container[2].wrapping_add(random.pick(&[1, 255, 3])),
        2 => container[3] = random.pick(&[container[3] | 0x08, container[3] % 16]),
        3 if container[3] & 4 != 0 => container[4] = random.pick(&[1, 0x14, 0x80]),
        4 if last < 254 => {
            container[last] = random.byte();
            container::mend(container, true);
        }
        _ => {
            container[last] = container[last].wrapping_add(random.pick(&[1, 255, 128]));
            return;
        }
    }
    container::mend_checksum(container);
}

/// A field that is accepted and whose last bytes are the first of these. Its ID is its last part; the ID's first byte
/// makes up the sum.
pub fn ending_in(random: &mut Random, first: &[u8]) -> Vec<u8> {
    let rate = any_rate(random);
    let mut contents = Contents::bare(random.byte(), rate);
    contents.id_present = true;
    contents.id.copy_from_slice(&random.bytes(ID_SIZE));
    let mut bytes = containers::written(&contents);
    let end = bytes.len();
    bytes[end - first.len()..].copy_from_slice(first);
    bytes[5] = 0;
    bytes[5] = container::sum(&bytes).wrapping_neg();
    field(&bytes)
}

/// So many fields, each ending in the first bytes of the next, or in all of the last one: the first is kept, the second
/// lost, and the third kept unless the first reaches as far.
pub fn chain(random: &mut Random, links: usize) -> Vec<u8> {
    let mut bytes = field(&accepted(random));
    for _ in 1..links {
        let shared = 1 + random.below(bytes.len().min(MOST_SHARED));
        let first = ending_in(random, &bytes[..shared]);
        bytes = [&first[..], &bytes[shared..]].concat();
    }
    bytes
}

/// A field within a field, and so on, where a container should be: all but the innermost are refused (21, 22).
pub fn nested(random: &mut Random) -> Vec<u8> {
    let mut bytes = field(&small(random));
    for _ in 0..1 + random.below(3) {
        let size = random.below(3);
        let before = if random.chance(70) { vec![] } else { vec![0; size] };
        bytes = field(&[before, bytes].concat());
    }
    bytes
}

/// A whole field within another, which is accepted, or refused so that the inner one is kept.
pub fn within(random: &mut Random) -> Vec<u8> {
    let mut container = if random.chance(20) {
        over_fingerprints(random)
    } else {
        let inner = field(&small(random));
        holding(random, &inner)
    };
    if random.chance(60) {
        refuse(random, &mut container);
    }
    field(&container)
}

/// A tag or a head alone, or the front of one, before a whole field: what stands there may be a field's head too, and
/// may reach to the recording's end or past it.
pub fn stray_heads(random: &mut Random) -> Vec<Vec<u8>> {
    let whole = field(&small(random));
    let strays: [&[u8]; 9] =
        [&[1], &[1, 1], &[1, 1, 1], &[1, 0], &[1, 0, 0], &[1, 0, 5], &[1, 0, 1], &[1, 0, 9], &[1, 0, 1, 0]];
    strays.iter().map(|stray| [stray, &whole[..]].concat()).collect()
}

/// What a recording may end in: a length that reaches past the end, or a field that is cut there.
pub fn ending(random: &mut Random) -> Vec<u8> {
    let container = small(random);
    if random.chance(30) {
        return field(&container)[..1 + random.below(container.len() + BYTES_BEFORE - 1)].to_vec();
    }
    let right = container.len() as u16;
    let far = random.below(usize::from(u16::MAX - right)) as u16;
    let past = random.pick(&[right + 1, right + 1, right + 256, u16::MAX, u16::MAX - 2, right + 1 + far]);
    tagged(TAG, past, &container)
}

/// What a recording is made of: a third are whole fields.
pub fn piece(random: &mut Random) -> Vec<u8> {
    let whole = field(&accepted(random));
    match random.below(16) {
        0 => whole.repeat(2),
        1..=4 => whole,
        5 => {
            let container = small(random);
            let fields = with_wrong_heads(random, &container);
            fields[random.below(fields.len())].clone()
        }
        6 | 7 => field(&containers::any(random)),
        8 | 9 => overwritten(random, &whole),
        10 => cut(random, &whole),
        11 => {
            if random.chance(40) {
                let strays = stray_heads(random);
                return strays[random.below(strays.len())].clone();
            }
            let any = random.below(40);
            let size = random.pick(&[1, 2, 3, 4, 5, 8, any]);
            garbage(random, size)
        }
        12 | 13 => within(random),
        14 => {
            let links = 2 + random.below(4);
            chain(random, links)
        }
        _ => nested(random),
    }
}

#[cfg(test)]
mod tests {
    use super::*;
    use crate::recording::{mend, report};

    /// Whether the field that these bytes are mended to is kept alone.
    fn keeps(bytes: &[u8], field: &[u8]) -> bool {
        mend(bytes, usize::MAX).as_deref() == Ok(field)
    }

    #[test]
    fn a_field_within_another_is_kept_where_the_outer_one_is_refused() {
        let mut random = Random::new("within", 1);
        for _ in 0..300 {
            let inner = field(&small(&mut random));
            let over = over_fingerprints(&mut random);
            let at = (0..over.len()).find(|&at| over[at..].starts_with(&[0x01, 0x00, 35, 0x00])).unwrap();
            for (mut outer, inner) in [(holding(&mut random, &inner), &inner[..]), (over.clone(), &over[at..at + 38])] {
                assert!(keeps(inner, inner));
                assert!(keeps(&field(&outer), &field(&outer)));
                refuse(&mut random, &mut outer);
                let output = mend(&field(&outer), usize::MAX).unwrap();
                assert!(output.windows(inner.len()).any(|part| part == inner), "{outer:02X?}");
                assert!(output.len() < outer.len());
            }
        }
    }

    #[test]
    fn each_field_of_a_chain_is_acceptable_and_not_all_are_kept() {
        let mut random = Random::new("chain", 1);
        for links in (2..=5).cycle().take(300) {
            let bytes = chain(&mut random, links);
            let starts_one = |place: &usize| {
                let told = report(&bytes[*place..]);
                !told.starts_with("dropped 0 ") && !told.starts_with("refused")
            };
            assert!((0..bytes.len()).filter(starts_one).count() >= links, "{bytes:02X?}");
            let kept: usize = report(&bytes).trim_end().rsplit(' ').next().unwrap().parse().unwrap();
            assert!(kept <= links.div_ceil(2), "{bytes:02X?}");
        }
    }

    #[test]
    fn a_wrong_head_is_no_fields() {
        let mut random = Random::new("heads", 1);
        for _ in 0..100 {
            let container = small(&mut random);
            for wrong in with_wrong_heads(&mut random, &container) {
                assert_eq!(mend(&wrong, usize::MAX), Err(50), "{wrong:02X?}");
            }
        }
    }
}
