// two_rules.rs: tests of 02's A9: both mixing rules, and the session that keeps its own.

use crate::audio::{mix, pseudo_absolute, weighted_sum, Rule};
use crate::container;
use crate::feed::{self, record, records, Desk};
use crate::float::{bits_of_ratio, Float};
use crate::make;
use crate::session::{setup, Session};
use Rule::{Down, TowardsZero};

/// L = R = -2: the value is 1 under rule 1 and 0 under rule 2.
const TELLING: [u8; 4] = [0xFE, 0xFF, 0xFE, 0xFF];

/// The whole multiple of the denominator next below or at the sum, by its place.
fn is_down(mixed: i64, sum: i64, denominator: i64) -> bool {
    mixed * denominator <= sum && sum < (mixed + 1) * denominator
}

/// On zero's side of the quotient, by less than 1.
fn is_towards_zero(mixed: i64, sum: i64, denominator: i64) -> bool {
    let (size, to_multiple) = (sum.abs(), sum.abs() - mixed.abs() * denominator);
    let same_side = mixed == 0 || (mixed < 0) == (sum < 0);
    same_side && mixed.abs() * denominator <= size && to_multiple < denominator
}

/// How many whole denominators a size holds, one after the other, with the sum's sign.
fn by_steps(sum: i64, denominator: i64) -> i64 {
    let (mut left, mut steps) = (sum.abs(), 0);
    while left >= denominator {
        left -= denominator;
        steps += 1;
    }
    if sum < 0 {
        -steps
    } else {
        steps
    }
}

/// What the two mixes of one sum have to be, and the values a(i) after them.
fn check(sum: i64, denominator: i64) {
    let (down, towards_zero) = (Down.rounded(sum, denominator), TowardsZero.rounded(sum, denominator));
    assert!(is_down(down, sum, denominator), "{sum} over {denominator}: {down}");
    assert!(is_towards_zero(towards_zero, sum, denominator), "{sum} over {denominator}: {towards_zero}");
    let whole = sum % denominator == 0;
    let apart = i64::from(sum < 0 && !whole);
    assert_eq!(towards_zero - down, apart, "{sum} over {denominator}");
    let values = (pseudo_absolute(down), pseudo_absolute(towards_zero));
    let size = sum.abs() / denominator;
    let expected = match (sum < 0, whole, size) {
        (false, ..) => (size, size),
        (true, true, _) => (size - 1, size - 1),
        (true, false, 0) => (0, 0),
        (true, false, _) => (size, size - 1),
    };
    assert_eq!(values, expected, "{sum} over {denominator}");
}

#[test]
fn all_small_sums_and_those_around_every_multiple() {
    for denominator in [20_000, 40_000] {
        (-120_000..=120_000).for_each(|sum| check(sum, denominator));
        for multiple in -32_768..=32_768 {
            (-3..=3).for_each(|beside| check(multiple * denominator + beside, denominator));
        }
        for sum in (-200_000..=200_000).step_by(37).chain([-999_999_999, 999_999_999]) {
            assert_eq!(TowardsZero.rounded(sum, denominator), by_steps(sum, denominator));
        }
    }
}

/// Every L + R there is.
#[test]
fn every_stereo_mix() {
    for both in -65_536..=65_534 {
        let l = both.clamp(-32_768, 32_767);
        let samples = [l, both - l];
        assert_eq!(weighted_sum(&samples), (7071 * both, 20_000));
        assert!(is_down(mix(&samples, Down), 7071 * both, 20_000));
        assert!(is_towards_zero(mix(&samples, TowardsZero), 7071 * both, 20_000));
        check(7071 * both, 20_000);
    }
}

/// Samples whose sum is a whole multiple of 40,000 or at most 2 beside one: L makes what lies beside, C and Ls the rest.
#[test]
fn mixes_of_5_1_around_multiples() {
    for beside in -2..=2 {
        let l = (0..5000).find(|l| (7071 * l - beside) % 5000 == 0).unwrap();
        for multiple in -7000..=7000 {
            let sum = 40_000 * multiple + beside;
            let rest: i64 = (sum - 7071 * l) / 5000;
            let samples = [l, 0, rest.div_euclid(2), rest.rem_euclid(2), 0];
            assert!((-32_768..=32_767).contains(&samples[2]));
            assert_eq!(weighted_sum(&samples), (sum, 40_000));
            let below = multiple - i64::from(beside < 0);
            let to_zero = if multiple < 0 { multiple + i64::from(beside > 0) } else { below.max(0) };
            assert_eq!((mix(&samples, Down), mix(&samples, TowardsZero)), (below, to_zero), "{multiple} {beside}");
        }
    }
}

/// Each of the five places at small samples and at the ends.
#[test]
fn wide_5_1_mixes() {
    let picks = [-32_768, -32_767, -20_000, -9, -2, -1, 0, 1, 3, 20_000, 32_767];
    for place in 0..picks.len().pow(5) {
        let samples: [i64; 5] = std::array::from_fn(|at| picks[place / picks.len().pow(at as u32) % picks.len()]);
        let [l, r, c, ls, rs] = samples;
        let sum = 7071 * (l + r) + 10_000 * c + 5000 * (ls + rs);
        assert!(is_down(mix(&samples, Down), sum, 40_000), "{samples:?}");
        assert!(is_towards_zero(mix(&samples, TowardsZero), sum, 40_000), "{samples:?}");
    }
    assert_eq!((mix(&[-32_768; 5], Down), mix(&[-32_768; 5], TowardsZero)), (-27_970, -27_969), "-27969.1264");
    assert_eq!((mix(&[32_767; 5], Down), mix(&[32_767; 5], TowardsZero)), (27_968, 27_968), "27968.27");
}

#[test]
fn mono_has_no_quotient() {
    for sample in -32_768..=32_767 {
        assert_eq!((mix(&[sample], Down), mix(&[sample], TowardsZero)), (sample, sample));
    }
}

#[test]
fn by_hand_around_zero() {
    // L + R, the mix by rule 1 and by rule 2, and the values after them.
    for (both, down, towards_zero, values) in [
        (-6, -3, -2, (2, 1)),
        (-5, -2, -1, (1, 0)),
        (-3, -2, -1, (1, 0)),
        (-2, -1, 0, (0, 0)),
        (-1, -1, 0, (0, 0)),
        (0, 0, 0, (0, 0)),
        (2, 0, 0, (0, 0)),
        (3, 1, 1, (1, 1)),
        (-20_000, -7071, -7071, (7070, 7070)),
        (-20_001, -7072, -7071, (7071, 7070)),
        (-19_999, -7071, -7070, (7070, 7069)),
        (20_001, 7071, 7071, (7071, 7071)),
    ] {
        let mixes = (mix(&[both, 0], Down), mix(&[both, 0], TowardsZero));
        assert_eq!(mixes, (down, towards_zero), "{both}");
        assert_eq!((pseudo_absolute(mixes.0), pseudo_absolute(mixes.1)), values, "{both}");
    }
}

#[test]
fn setup_takes_rules_1_and_2_only() {
    for rule in 0..=255 {
        let answer = setup(2, 5, rule, &[1, 2]).map(|session| session.0.unwrap().rule).map_err(|number| (rule, number));
        let expected = match rule {
            1 => Ok(Down),
            2 => Ok(TowardsZero),
            _ => Err((rule, 1)),
        };
        assert_eq!(answer, expected);
    }
    assert_eq!(setup(2, 5, 2, &[]).err(), Some(1));
    assert_eq!(setup(0, 5, 2, &[1]).err(), Some(1));
    assert_eq!(setup(2, 12, 2, &[3]).err(), Some(1));
}

/// The value of L = R = -2, heard as a block and as an instant: the session's rule as its sound shows it.
fn values_now(session: &mut Session) -> Vec<i64> {
    let minus_2 = Float::of_bits(bits_of_ratio(-2, 15));
    assert_eq!(session.sound(0, &TELLING), Ok(()));
    assert_eq!(session.instant(0, &[minus_2.clone(), minus_2]), Ok(()));
    let values = &session.0.as_ref().unwrap().sounds[0].value;
    values[values.len() - 2..].to_vec()
}

fn lines_of_a_frame(session: &mut Session) {
    (0..16).for_each(|row| assert!(session.line(117 + 32 * row, &[0; 2560]).is_ok()));
}

#[test]
fn a_session_keeps_its_rule() {
    for (rule, value) in [(1, 1), (2, 0)] {
        let mut session = setup(2, 11, rule, &[2, 5]).unwrap();
        assert_eq!(values_now(&mut session), [value; 2]);
        session.audio_restart();
        assert_eq!(values_now(&mut session), [value; 2], "audio restart");
        session.video_restart();
        assert_eq!(values_now(&mut session), [value; 2], "video restart");
        assert_eq!((session.sound(2, &[]), session.sound(0, &[0])), (Err(7), Err(8)));
        assert_eq!(session.instant(0, &[Float::Nan, Float::Nan]), Err(14));
        assert_eq!((session.line(0, &[]), session.pack(&[], 255)), (Err(2), Err(10)));
        assert_eq!(values_now(&mut session), [value; 2], "refused calls");
        for with_audio in [false, true] {
            lines_of_a_frame(&mut session);
            assert_eq!(session.pack(&[], 0), Err(12));
            assert_eq!(values_now(&mut session), [value; 2], "refused pack");
            assert_eq!(session.pack(&[], 255).unwrap()[3] % 2, u8::from(with_audio));
            assert_eq!(values_now(&mut session), [value; 2], "pack");
            session.sound(0, &[0; 4 * 800]).unwrap();
            session.sound(1, &[0; 10 * 800]).unwrap();
        }
        session.audio_restart();
        session.video_restart();
        assert_eq!(values_now(&mut session), [value; 2], "both restarts");
    }
}

fn lines(feed: &[u8]) -> Vec<String> {
    feed::printed(feed).lines().map(str::to_string).collect()
}

/// The feed with every listed setup made by a record of this tag and rule.
fn with_setups(feed: &[u8], setup: fn(&[u8], &[u8]) -> Vec<u8>) -> Vec<u8> {
    let changed = |(tag, payload): (u8, Vec<u8>)| match (tag, &payload[..]) {
        (0x10, [format, rate, mixes @ ..]) | (0x17, [format, rate, 1 | 2, mixes @ ..]) => {
            setup(&[*format, *rate], mixes)
        }
        _ => record(tag, &payload),
    };
    records(feed).into_iter().flat_map(changed).collect()
}

fn by_10h(pair: &[u8], mixes: &[u8]) -> Vec<u8> {
    record(0x10, &[pair, mixes].concat())
}

fn by_rule_1(pair: &[u8], mixes: &[u8]) -> Vec<u8> {
    record(0x17, &[pair, &[1], mixes].concat())
}

fn by_rule_2(pair: &[u8], mixes: &[u8]) -> Vec<u8> {
    record(0x17, &[pair, &[2], mixes].concat())
}

const KINDS: [&str; 5] = ["rules", "instants", "sound", "session", "setup"];

/// "10h stays: rule 1" (FEED, A9).
#[test]
fn rule_1_prints_what_10h_prints() {
    for (kind, seed) in KINDS.into_iter().flat_map(|kind| [(kind, 3), (kind, 4)]) {
        let feed = make::feed(kind, seed).unwrap();
        let by_10h = lines(&with_setups(&feed, by_10h));
        assert_eq!(lines(&with_setups(&feed, by_rule_1)), by_10h, "{kind} {seed}");
    }
}

/// A printed pack without the bytes that sound makes and the checksum over them; any other line as it is.
fn without_audio_bytes(line: &str) -> String {
    let Some(hex) = line.strip_prefix("pack 0 ") else { return line.to_string() };
    let byte = |at: usize| u8::from_str_radix(&hex[at..at + 2], 16).unwrap();
    let bytes: Vec<u8> = (0..hex.len()).step_by(2).map(byte).collect();
    let mut contents = container::read(&bytes).unwrap();
    contents.audio.iter_mut().for_each(|place| place.bytes = [0; 5]);
    format!("pack of {} bytes, {contents:?}", bytes.len())
}

#[test]
fn the_rules_differ_in_audio_bytes_alone() {
    let mut lines_apart = 0;
    for (kind, seed) in KINDS.into_iter().flat_map(|kind| [(kind, 1), (kind, 2), (kind, 3)]) {
        let feed = make::feed(kind, seed).unwrap();
        let (first, second) = (lines(&with_setups(&feed, by_rule_1)), lines(&with_setups(&feed, by_rule_2)));
        assert_eq!(first.len(), second.len());
        for (one, two) in first.iter().zip(&second) {
            assert_eq!(without_audio_bytes(one), without_audio_bytes(two), "{kind} {seed}");
            lines_apart += usize::from(one != two);
        }
    }
    assert!(lines_apart > 20, "{lines_apart}");
}

/// The values of fingerprint 0 after these records.
fn values_after(records: &[Vec<u8>]) -> Vec<i64> {
    let desk = feed::run(&mut &records.concat()[..], &mut std::io::sink(), true).unwrap();
    assert_eq!(desk.fault, None);
    desk.session.0.map_or(Vec::new(), |running| running.sounds[0].value.clone())
}

#[test]
fn every_setup_says_its_rule_anew() {
    let telling = record(0x12, &[&[0][..], &TELLING].concat());
    let setups = [(by_10h(&[2, 5], &[2]), 1), (by_rule_1(&[2, 5], &[2]), 1), (by_rule_2(&[2, 5], &[2]), 0)];
    for (before, _) in &setups {
        for (after, value) in &setups {
            let records = [before.clone(), telling.clone(), after.clone(), telling.clone()];
            assert_eq!(values_after(&records), [*value]);
        }
    }
}

#[test]
fn a_setup_refused_for_its_rule_leaves_an_empty_session() {
    let line = record(0x11, &[&[0, 117][..], &[0; 2560]].concat());
    let calls = [record(0x12, &[0]), record(0x16, &[0, 1, 0, 0, 0, 0]), line, record(0x13, &[0, 255])].concat();
    for refused in [0, 3, 4, 128, 255] {
        let feed = [by_rule_2(&[2, 5], &[1]), record(0x17, &[2, 5, refused, 1]), calls.clone()].concat();
        assert_eq!(lines(&feed), ["setup 0", "setup 1", "sound 1", "instant 1", "line 1", "pack 1"]);
        let mended = [feed, by_rule_2(&[2, 5], &[1]), calls.clone()].concat();
        assert_eq!(lines(&mended)[6..], ["setup 0", "sound 0", "instant 0", "line 0", "pack 10"]);
    }
}

/// Format, rate, rule, then the mix types: no two of the three may be exchanged.
#[test]
fn the_order_of_the_bytes_of_17h() {
    let answer = |payload: &[u8]| lines(&record(0x17, payload)).remove(0);
    assert_eq!(answer(&[2, 3, 1, 5]), "setup 0");
    assert_eq!(answer(&[2, 1, 3, 5]), "setup 1");
    assert_eq!(answer(&[3, 5, 2, 1]), "setup 0");
    assert_eq!(answer(&[5, 2, 3, 1]), "setup 1");
    assert_eq!(answer(&[2, 3, 1]), "setup 1", "no fingerprint");
    assert_eq!(answer(&[&[2, 3, 2][..], &[1; 32]].concat()), "setup 0");
    assert_eq!(answer(&[&[2, 3, 2][..], &[1; 33]].concat()), "setup 1");
}

/// "The mix follows on the integers" (02, A3): the sample of a value is its floor under both rules.
#[test]
fn the_floor_of_a_float_is_of_no_rule() {
    // -1.5 and -0.5 steps: samples -2 and -1.
    for (halves, sample) in [(-3, -2), (-1, -1), (1, 0), (3, 1)] {
        for rule in [1, 2] {
            let mut session = setup(2, 5, rule, &[1, 2]).unwrap();
            let value = Float::of_bits(bits_of_ratio(halves, 16));
            session.instant(1, &[value.clone(), value.clone()]).unwrap();
            session.instant(0, &[value]).unwrap();
            let running = session.0.unwrap();
            assert_eq!(running.sounds[0].value, [pseudo_absolute(sample)]);
            assert_eq!(running.sounds[1].value, [pseudo_absolute(mix(&[sample, sample], running.rule))]);
        }
    }
}

/// "Demand 3 starts from its samples" (02, A9): the exact filters go over the values of the session's own rule.
#[test]
fn the_exact_filters_start_from_the_rules_samples() {
    let loud: Vec<u8> = [-20_001i16, 0].iter().flat_map(|sample| sample.to_le_bytes()).collect();
    let block = record(0x12, &[&[0][..], &loud.repeat(900), &TELLING.repeat(2000)].concat());
    for (setup, value) in [(by_rule_1(&[2, 5], &[2]), 7071 + 2000), (by_rule_2(&[2, 5], &[2]), 7070)] {
        let values = values_after(&[setup, block.clone()]);
        assert_eq!(values[0] + values[900..].iter().sum::<i64>(), value);
    }
    let feed = make::feed("rules", 2).unwrap();
    let desk = feed::run(&mut &feed[..], &mut std::io::sink(), true).unwrap();
    assert_eq!(desk.fault, None);
    assert!(desk.exact.unwrap().samples > 4000);
}

/// How many setups of a feed come by 10h, by 17h with rule 1, with rule 2, and with another.
fn setups_of(feed: &[u8]) -> [usize; 4] {
    let mut counts = [0; 4];
    for (tag, payload) in records(feed) {
        match (tag, &payload[..]) {
            (0x10, _) => counts[0] += 1,
            (0x17, [_, _, rule @ (1 | 2), ..]) => counts[usize::from(*rule)] += 1,
            (0x17, _) => counts[3] += 1,
            _ => {}
        }
    }
    counts
}

#[test]
fn random_feeds_have_setups_of_every_rule() {
    for kind in KINDS {
        let mut counts = [0; 4];
        for seed in 1..=12 {
            let feed = make::feed(kind, seed).unwrap();
            setups_of(&feed).iter().zip(&mut counts).for_each(|(found, count)| *count += found);
        }
        assert!(counts.iter().all(|&count| count > 0), "{kind}: {counts:?}");
    }
}

/// Where a sum lies: below -1 and not whole, between -1 and 0, whole below 0, 0, above 0; next below or above a
/// multiple that is not 0.
fn classes(sum: i64, denominator: i64) -> Vec<&'static str> {
    let place = match (sum, sum % denominator) {
        (0, _) => "zero",
        (1.., _) => "positive",
        (_, 0) => "whole below zero",
        _ if sum > -denominator => "between -1 and 0",
        _ => "negative, not whole",
    };
    let beside = match (sum.abs() >= denominator - 2, sum.rem_euclid(denominator)) {
        (true, 1) => Some("next above a multiple"),
        (true, rest) if rest == denominator - 1 => Some("next below a multiple"),
        _ => None,
    };
    [Some(place), beside].into_iter().flatten().collect()
}

/// Over the blocks of a few feeds: stereo and 5.1, under both rules.
#[test]
fn the_kind_rules_has_every_class_of_sum() {
    let mut found = std::collections::BTreeSet::new();
    for seed in 1..=30 {
        let feed = make::feed("rules", seed).unwrap();
        assert!(feed.len() < 360_000, "{seed}: {}", feed.len());
        let mut desk = Desk::default();
        for (tag, payload) in records(&feed) {
            if let (0x12, [k, block @ ..], Some(running)) = (tag, &payload[..], &desk.session.0) {
                let Some(sound) = running.sounds.get(usize::from(*k)) else { continue };
                for instant in block.chunks_exact(sound.instant_size()) {
                    let pairs = instant.chunks(2).map(|pair| i64::from(i16::from_le_bytes([pair[0], pair[1]])));
                    let (sum, denominator) = weighted_sum(&pairs.collect::<Vec<_>>());
                    let classes = classes(sum, denominator).into_iter();
                    found.extend(classes.map(|class| (sound.mix_type, running.rule == Down, class)));
                }
            }
            let _ = desk.call(tag, &payload);
        }
    }
    let of_kinds = found.iter().filter(|(mix_type, ..)| *mix_type != 1).count();
    assert_eq!(of_kinds, 2 * 2 * 7, "{found:?}");
}
