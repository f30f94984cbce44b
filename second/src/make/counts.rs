// make/counts.rs: fingerprints whose byte counts obey 02's A2 or break it, at every rate.

use super::containers::{self, allowed_counts, audio_place, has_two_fields, Wanted};
use super::random::Random;
use super::script::Script;
use super::{contents, largest, streams};
use crate::container::{self, Contents, VideoValues, ID_SIZE};
use crate::feed::MOST_ROOM;
use crate::formats::RATES;
use crate::packet::{bytes_of_words, words_around};

/// Bytes that a Length has room for beside the other parts.
const MOST_AUDIO: usize = 224;

/// 1 to 5, as other rates have them.
fn forbidden_counts(rate: u8) -> Vec<usize> {
    let allowed = allowed_counts(rate);
    (1..=5).filter(|count| !allowed.contains(count)).collect()
}

/// So many fingerprints of one count, or as many as a container can hold.
fn equal(number: usize, count: usize) -> Vec<usize> {
    vec![count; number.min(MOST_AUDIO / (2 + count))]
}

/// Two fingerprints or more: all of one count but one (the first, one in the middle, the last), or but those from a
/// place on.
fn unequal(random: &mut Random, number: usize, (count, other): (usize, usize)) -> Vec<usize> {
    let mut counts = vec![count; number];
    match random.below(6) {
        0 => counts[0] = other,
        1 => counts[number / 2] = other,
        2 | 3 => counts[number - 1] = other,
        4 => counts[random.below(number)] = other,
        _ => counts[1 + random.below(number - 1)..].fill(other),
    }
    counts
}

/// A count that the rate does not have beside one that it has, or beside another that it does not have.
fn with_a_forbidden_one(random: &mut Random, rate: u8) -> (usize, usize) {
    let (allowed, forbidden) = (allowed_counts(rate), forbidden_counts(rate));
    let (one, other) = (random.pick(&allowed), random.pick(&forbidden));
    match random.below(5) {
        0 | 1 => (one, other),
        2 | 3 => (other, one),
        _ => (forbidden[0], forbidden[forbidden.len() - 1]),
    }
}

/// Counts of so many fingerprints that break the rule: unequal where that is possible, or equal and not of the rate.
pub fn faulty(random: &mut Random, rate: u8, number: usize) -> Vec<usize> {
    let allowed = allowed_counts(rate);
    match random.below(5) {
        0 | 1 if number > 1 && allowed.len() > 1 => {
            let pair = if random.chance(50) { (allowed[0], allowed[1]) } else { (allowed[1], allowed[0]) };
            unequal(random, number, pair)
        }
        2 if number > 1 => {
            let pair = with_a_forbidden_one(random, rate);
            unequal(random, number, pair)
        }
        _ => equal(number, random.pick(&forbidden_counts(rate))),
    }
}

/// The contents, with fingerprints of these counts in place of its own and nothing else wrong.
pub fn with_counts(random: &mut Random, contents: &Contents, counts: &[usize]) -> Contents {
    let mut changed = contents.clone();
    changed.audio = Default::default();
    changed.audio_count = counts.len() as u8;
    for (place, &count) in changed.audio.iter_mut().zip(counts) {
        *place = audio_place(random, (count % 32).min(5));
        place.count = count as u8;
    }
    changed
}

/// The container of contents without audio, with fingerprints of these counts added, each with as many bytes as it
/// says.
fn laid_out(random: &mut Random, before: &Contents, counts: &[usize]) -> Vec<u8> {
    let mut bytes = containers::written(before);
    bytes.pop();
    bytes[3] |= 1;
    bytes.push((counts.len() as u8 - 1) * 8 + 2);
    for &count in counts {
        let place = audio_place(random, 1);
        bytes.extend([8 * place.id + place.mix_type, 8 * count as u8]);
        bytes.extend(random.bytes(count));
    }
    container::mend(&mut bytes, true);
    bytes
}

/// A fault before the audio part (25, 26), or bytes left over after it (28).
fn add_another_fault(random: &mut Random, before: &Contents, bytes: &mut Vec<u8>) {
    let video_at = if before.id_present { 4 + 1 + ID_SIZE } else { 4 };
    match random.below(4) {
        0 if before.id_present => bytes[4] = random.pick(&[1, 9, 0x80]),
        1 if before.video != VideoValues::None => bytes[video_at + 1] = 241 + random.below(15) as u8,
        2 if before.video != VideoValues::None => bytes[video_at] ^= random.pick(&[1, 0x02, 0x40]),
        _ if bytes.len() < 250 => {
            bytes.pop();
            let more = 1 + random.below(3);
            bytes.extend(random.bytes(more));
            container::mend(bytes, true);
        }
        _ => {}
    }
    container::mend_checksum(bytes);
}

/// The rates that do not have this count; of those that may have the video, if there are any.
fn other_rates(video: VideoValues, count: usize) -> Vec<u8> {
    let all: Vec<u8> = RATES.iter().filter(|rate| !rate.cadence_has(count)).map(|rate| rate.code).collect();
    let of_two_fields: Vec<u8> = all.iter().copied().filter(|&code| has_two_fields(code)).collect();
    match video {
        VideoValues::Two(..) if !of_two_fields.is_empty() => of_two_fields,
        _ => all,
    }
}

/// Contents that are whole but for the rate code, which is one whose cadence does not have the count.
fn of_another_rate(random: &mut Random) -> (Contents, u8) {
    let contents = containers::contents(random, Wanted { audio: true, ..Wanted::default() });
    let rates = other_rates(contents.video, usize::from(contents.audio[0].count));
    let rate = random.pick(&rates);
    (contents, rate)
}

fn drawn_number(random: &mut Random) -> usize {
    random.pick(&[1, 2, 2, 3, 31, 32, 32])
}

/// 27: a container whose counts break the rule; some have a fault before the audio part or bytes left over as well.
pub fn damaged(random: &mut Random) -> Vec<u8> {
    if random.chance(25) {
        let (contents, rate) = of_another_rate(random);
        let mut bytes = containers::written(&contents);
        bytes[3] = bytes[3] % 16 + 16 * rate;
        container::mend_checksum(&mut bytes);
        return bytes;
    }
    let (rate, number) = (2 + random.below(10) as u8, drawn_number(random));
    let before = containers::without_audio(random, rate, Wanted::default());
    let counts = faulty(random, rate, number);
    let mut bytes = laid_out(random, &before, &counts);
    if random.chance(35) {
        add_another_fault(random, &before, &mut bytes);
    }
    bytes
}

/// 29: contents whose counts break the rule.
pub fn damaged_contents(random: &mut Random) -> Contents {
    if random.chance(25) {
        let (mut contents, rate) = of_another_rate(random);
        contents.rate = rate;
        return contents;
    }
    let (rate, number) = (2 + random.below(10) as u8, drawn_number(random));
    let before = containers::without_audio(random, rate, Wanted::default());
    let counts = faulty(random, rate, number);
    with_counts(random, &before, &counts)
}

/// A count that no rate has; some have the lowest three bits of one that this rate has.
fn no_rates(random: &mut Random, allowed: usize) -> usize {
    random.pick(&[0, 6, 7, 31, 8 + allowed, 16 + allowed, 24 + allowed])
}

/// A rate's cases: each count that it has, each of 1 to 5 that it has not, unequal counts of both sorts.
fn cases(random: &mut Random, rate: u8) -> Vec<Vec<usize>> {
    let (allowed, forbidden) = (allowed_counts(rate), forbidden_counts(rate));
    let mut cases = Vec::new();
    for &count in &allowed {
        cases.push(equal(random.pick(&[1, 2, 3]), count));
        cases.push(equal(random.pick(&[31, 32]), count));
    }
    for &count in &forbidden {
        cases.push(equal(random.pick(&[1, 2, 3, 31, 32]), count));
    }
    if random.chance(40) {
        let count = no_rates(random, allowed[0]);
        cases.push(equal(random.pick(&[1, 2, 3, 31, 32]), count));
    }
    for number in [2, random.pick(&[3, 31]), 32] {
        if let [one, other] = allowed[..] {
            cases.push(unequal(random, number, (one, other)));
            cases.push(unequal(random, number, (other, one)));
        }
        let pair = with_a_forbidden_one(random, rate);
        cases.push(unequal(random, number, pair));
    }
    cases
}

/// Enough, just enough, one less or none.
fn room(random: &mut Random, size: usize) -> usize {
    random.pick(&[size, size, size - 1, size - 1, size + 1, MOST_ROOM, 0])
}

/// A packet around the container; now and then its checksum is wrong, which comes first (36).
fn packet_around(random: &mut Random, container: &[u8]) -> Vec<u8> {
    let mut words = words_around(container);
    if random.chance(10) {
        let last = words.len() - 1;
        words[last] ^= random.pick(&[0x200, 0x001, 0x080]);
    }
    bytes_of_words(&words)
}

/// Fingerprints of these counts, read, written again, wrapped and unwrapped in both packets, and written.
fn through_all_calls(script: &mut Script, rate: u8, counts: &[usize]) {
    let random = &mut script.random;
    let before = containers::without_audio(random, rate, Wanted::default());
    let flat = contents::flat(&with_counts(random, &before, counts));
    let mut container = laid_out(random, &before, counts);
    let size = container.len();
    if random.chance(20) {
        add_another_fault(random, &before, &mut container);
    }
    let packet = packet_around(random, &container);
    let wrapped = 2 * (container.len() + 7);
    let calls = [(0x22, &container, container.len()), (0x23, &container, wrapped), (0x24, &packet, container.len())];
    script.record(0x21, &[], &container);
    for (tag, given, size) in calls.into_iter().chain([(0x25, &flat, size)]) {
        let room = room(&mut script.random, size);
        script.with_room(tag, room, given);
    }
    streams::wrap_and_unwrap(script, &container);
}

/// Counts whose lowest five bits, all that a container has room for, are one of the rate's.
fn beyond_five_bits(script: &mut Script, rate: u8) {
    let random = &mut script.random;
    let before = containers::without_audio(random, rate, Wanted::default());
    let count = random.pick(&allowed_counts(rate)) + random.pick(&[32, 64, 128]);
    let number = random.pick(&[1, 2, 32]);
    let flat = contents::flat(&with_counts(random, &before, &vec![count; number]));
    script.with_room(0x25, MOST_ROOM, &flat);
}

/// Every rate in turn.
pub fn counts(random: Random, _seed: u64) -> Vec<u8> {
    let mut script = Script::new(random);
    for rate in RATES.iter().map(|rate| rate.code) {
        for counts in cases(&mut script.random, rate) {
            through_all_calls(&mut script, rate, &counts);
        }
        beyond_five_bits(&mut script, rate);
        largest::largest_of_rate(&mut script, rate);
    }
    script.feed
}

#[cfg(test)]
mod tests {
    use super::*;
    use crate::feed::Desk;
    use std::collections::BTreeSet;

    /// Nothing but the counts is wrong: with a count of the rate in every place the same contents are taken.
    #[test]
    fn faulty_counts_are_the_only_fault() {
        let mut random = Random::new("faulty", 1);
        for (rate, number) in
            RATES.iter().flat_map(|rate| [1, 2, 32].map(|number| (rate.code, number))).cycle().take(3000)
        {
            let before = containers::without_audio(&mut random, rate, Wanted::default());
            let counts = faulty(&mut random, rate, number);
            let bad = with_counts(&mut random, &before, &counts);
            assert_eq!(container::write(&bad, MOST_ROOM), Err(29));
            assert_eq!(container::read(&laid_out(&mut random, &before, &counts)), Err(27));
            let counts = equal(number, random.pick(&allowed_counts(rate)));
            let good = with_counts(&mut random, &before, &counts);
            assert!(container::write(&good, MOST_ROOM).is_ok());
            assert!(container::read(&laid_out(&mut random, &before, &counts)).is_ok());
        }
    }

    /// A feed's records: tag, payload.
    fn records(feed: &[u8]) -> Vec<(u8, &[u8])> {
        let (mut records, mut at) = (Vec::new(), 0);
        while at < feed.len() {
            let end = at + 3 + usize::from(feed[at + 1]) * 256 + usize::from(feed[at + 2]);
            records.push((feed[at], &feed[at + 3..end]));
            at = end;
        }
        records
    }

    #[test]
    fn each_feed_has_every_count_of_1_to_5_at_every_rate() {
        let feed = counts(Random::new("counts", 1), 1);
        let written = records(&feed).into_iter().filter(|(tag, _)| *tag == 0x25);
        let met: BTreeSet<_> = written.map(|(_, payload)| (payload[2 + 1], payload[2 + 27 + 2])).collect();
        let all = RATES.iter().flat_map(|rate| (1..=5).map(move |count| (rate.code, count)));
        assert!(all.into_iter().all(|pair| met.contains(&pair)), "{met:?}");
    }

    /// 24h has the rate in the low byte of the packet's tenth word, 27h in its tenth byte.
    #[test]
    fn each_feed_is_accepted_and_refused_at_every_rate_and_call() {
        let feed = counts(Random::new("counts", 1), 1);
        let mut met = BTreeSet::new();
        for (tag, payload) in records(&feed) {
            let told = Desk::default().call(tag, payload).ok().expect("no bad record");
            let rate = match tag {
                0x21 => payload[3] / 16,
                0x22 | 0x23 | 0x26 => payload[2 + 3] / 16,
                0x24 => payload[2 + 2 * 9] / 16,
                0x27 => payload[2 + 9] / 16,
                _ => payload[2 + 1],
            };
            let number = if told.starts_with("ok") { "0" } else { told.split(' ').nth(1).expect("a number") };
            met.insert((tag, rate, number.to_string()));
        }
        for (tag, rate) in (0x21..=0x27).flat_map(|tag| RATES.iter().map(move |rate| (tag, rate.code))) {
            let refused = if tag == 0x25 { "29" } else { "27" };
            for number in ["0", refused].into_iter().chain((tag > 0x21).then_some("12")) {
                assert!(met.contains(&(tag, rate, number.to_string())), "{tag:x} rate {rate} number {number}");
            }
        }
    }
}
