// make/faults_tests.rs: that the files of `judge` hold what their kinds promise.

use std::collections::BTreeSet;

use super::feed as made;
use super::truck::starts;
use crate::container::Contents;
use crate::feed::records;
use crate::formats::{Rate, RATES};
use crate::judging::{judged, report, Fault, Judged};

/// The packets of every file of `truck` that is not refused.
fn trucks() -> impl Iterator<Item = Vec<Judged>> {
    (1..=200).filter_map(|seed| judged(&made("truck", seed).unwrap()).ok())
}

fn accepted(packets: &[Judged]) -> impl Iterator<Item = (&Contents, &[Fault])> {
    packets.iter().filter_map(|packet| Some((packet.reading.as_ref().ok()?, &packet.faults[..])))
}

/// Every number, every fault, and every set of faults that one packet can have: another rate and the last fault do not
/// come together.
#[test]
fn every_set_of_faults_comes() {
    let met: BTreeSet<Vec<Fault>> = trucks().flatten().map(|packet| packet.faults).collect();
    let refused = (30..=36).chain(20..=28).map(|number| vec![Fault::Refused(number)]);
    let sets = (0..16).map(|set| {
        let all = [Fault::Counter, Fault::Rate, Fault::Count, Fault::Cadence];
        (0..4).filter(|place| set >> place & 1 == 1).map(|place| all[place]).collect::<Vec<_>>()
    });
    let possible = sets.filter(|set| !(set.contains(&Fault::Rate) && set.contains(&Fault::Cadence)));
    assert_eq!(met, refused.chain(possible).collect());
}

#[test]
fn files_of_every_size_that_counts() {
    let sizes: Vec<usize> = (1..=200).map(|seed| records(&made("truck", seed).unwrap()).len()).collect();
    for (size, times) in [(1, 3), (2, 3), (3, 3), (499, 5), (500, 30), (501, 5)] {
        assert!(sizes.iter().filter(|&&other| other == size).count() >= times, "{size}");
    }
    assert!(sizes.iter().all(|size| (1..=501).contains(size)));
    let longest: Vec<usize> =
        (1..=200).flat_map(|seed| records(&made("truck", seed).unwrap())).map(|(_, packet)| packet.len()).collect();
    for size in [0, 1, 65_534, 65_535] {
        assert!(longest.contains(&size), "{size}");
    }
}

/// One file in four is made to have no fault: it has none, but for those of 501 packets.
#[test]
fn files_without_a_fault() {
    let clean: Vec<Vec<Judged>> = (1..=50)
        .map(|k| 4 * k)
        .filter_map(|seed| {
            let file = made("truck", seed).unwrap();
            let expected = if seed % 25 == 20 { "refused 82\n" } else { "clean\n" };
            assert_eq!(report(&file), expected, "seed {seed}");
            judged(&file).ok()
        })
        .collect();
    let says = |packets: &[Judged], find: fn(&Contents) -> bool| accepted(packets).any(|(contents, _)| find(contents));
    assert!(clean.iter().any(|packets| packets.len() == 500));
    assert!(clean.iter().any(|packets| says(packets, |contents| contents.id_present)));
    assert!(clean.iter().any(|packets| !says(packets, |contents| contents.audio_count > 0)));
    assert!(clean.iter().any(|packets| {
        says(packets, |contents| contents.counter == 255) && says(packets, |contents| contents.audio_count == 0)
    }));
    let rates: BTreeSet<u8> = clean.iter().flat_map(|packets| accepted(packets).map(|(one, _)| one.rate)).collect();
    assert_eq!(rates, RATES.iter().map(|rate| rate.code).collect());
}

/// The byte counts of each fitting of a file, with the rate's code, and how many came before the last fault, if it
/// ended so.
fn fittings(packets: &[Judged]) -> Vec<(u8, Vec<usize>, bool)> {
    let mut fittings: Vec<(u8, Vec<usize>, bool)> = Vec::new();
    for (contents, faults) in accepted(packets) {
        let cadence = faults.contains(&Fault::Cadence);
        if cadence {
            fittings.last_mut().unwrap().2 = true;
        }
        if fittings.is_empty() || cadence || faults.contains(&Fault::Rate) {
            fittings.push((contents.rate, Vec::new(), false));
        }
        if contents.audio_count > 0 {
            fittings.last_mut().unwrap().1.push(usize::from(contents.audio[0].count));
        }
    }
    fittings
}

/// Each starting position of each rate is the only one that fits some packets, a row of them or more.
#[test]
fn every_starting_position_comes() {
    let mut met = BTreeSet::new();
    for (code, counts, _) in trucks().flat_map(|packets| fittings(&packets)) {
        let rate = Rate::coded(code).unwrap();
        let fits = |start: &usize| counts.iter().enumerate().all(|(k, &count)| rate.bytes_due(start + k) == count);
        if counts.len() >= rate.positions().len() {
            met.extend(rate.positions().filter(fits).map(|start| (code, start)));
        }
    }
    assert_eq!(met, starts().into_iter().collect());
}

/// At each rate with two counts the last position drops out early and late, behind a whole row too.
#[test]
fn the_last_position_drops_out_early_and_late() {
    let all: Vec<_> = trucks().flat_map(|packets| fittings(&packets)).filter(|(_, _, faulty)| *faulty).collect();
    for rate in RATES.iter().filter(|rate| rate.positions().len() > 1) {
        let row = rate.positions().len();
        let lengths: Vec<usize> = all.iter().filter(|(code, ..)| *code == rate.code).map(|one| one.1.len()).collect();
        assert!(lengths.len() >= 20, "code {}: {lengths:?}", rate.code);
        assert!(lengths.iter().any(|&length| length <= row / 2), "code {}: {lengths:?}", rate.code);
        assert!(lengths.iter().any(|&length| length >= row), "code {}: {lengths:?}", rate.code);
    }
    assert!(all.iter().all(|(code, ..)| Rate::coded(*code).unwrap().positions().len() > 1));
}

/// What the packets of a file meet when they are compared, in words.
#[derive(Default)]
struct Watch {
    counter: Option<u8>,
    rates: Vec<u8>,
    /// What lies between the packet at hand and the previous one with audio.
    silent: bool,
    refused: bool,
    other_rate: bool,
    met: BTreeSet<&'static str>,
}

impl Watch {
    fn refused(&mut self) {
        self.met.insert(if self.counter.is_none() { "refused first" } else { "refused later" });
        self.refused = true;
    }

    fn accepted(&mut self, contents: &Contents, faults: &[Fault]) {
        let wrong = faults.contains(&Fault::Counter);
        if self.refused && self.counter.is_some() {
            self.met.insert(if wrong { "wrong over a refused one" } else { "right over a refused one" });
        }
        if self.counter == Some(255) && !wrong {
            self.met.insert("right over the wrap");
        }
        if faults.contains(&Fault::Rate) {
            self.other_rate = true;
            self.met.insert(if contents.audio_count > 0 { "rate with audio" } else { "rate without audio" });
        }
        (self.counter, self.silent) = (Some(contents.counter), self.silent || contents.audio_count == 0);
        self.rates.push(contents.rate);
        if let [.., first, other, last] = self.rates[..] {
            if first == last && first != other {
                self.met.insert("rate changed back");
            }
        }
        if contents.audio_count > 0 {
            self.with_audio(faults.contains(&Fault::Count));
        }
    }

    fn with_audio(&mut self, other_number: bool) {
        let ways = [
            (self.silent, "number over silence"),
            (self.refused, "number over a refused one"),
            (self.other_rate, "number over another rate"),
            (!(self.silent || self.refused || self.other_rate), "number alone"),
        ];
        self.met.extend(ways.iter().filter(|(there, _)| *there && other_number).map(|(_, way)| way));
        (self.silent, self.refused, self.other_rate) = (false, false, false);
    }
}

/// Counters right and wrong over a refused packet, and right over the wrap; numbers over all that may lie between; rates
/// changed by either sort of packet, and back; refused packets before the first accepted one.
#[test]
fn every_way_to_look_back_comes() {
    let mut met = BTreeSet::new();
    for packets in trucks() {
        let mut watch = Watch::default();
        for packet in &packets {
            match &packet.reading {
                Err(_) => watch.refused(),
                Ok(contents) => watch.accepted(contents, &packet.faults),
            }
        }
        met.extend(watch.met);
    }
    assert_eq!(met.len(), 12, "{met:?}");
}

/// Every way in which a file is refused, by the bytes from the first field on that is not whole or not the right one.
#[test]
fn every_way_to_be_refused_comes() {
    let mut met = BTreeSet::new();
    for file in (1..=200).map(|seed| made("cut", seed).unwrap()) {
        let right = records(&file).into_iter().take(500).take_while(|(tag, _)| *tag == 0x02);
        let fields: Vec<usize> = right.map(|(_, packet)| 3 + packet.len()).collect();
        let rest = &file[fields.iter().sum::<usize>()..];
        let shape = match rest {
            [] if fields.is_empty() => "empty",
            [] => "whole",
            [_] => "tag",
            [_, _] => "half a length",
            [_, _, _] if rest[1..] != [0, 0] => "head",
            [_, high, low, packet @ ..] => match packet.len() as i64 - 256 * i64::from(*high) - i64::from(*low) {
                0.. => "field",
                -1 => "one byte less",
                _ => "cut",
            },
        };
        let tag = rest.first().map_or("no", |&tag| if tag == 0x02 { "right" } else { "other" });
        let number = [0, 1, 499, 500]
            .into_iter()
            .find(|&number| number == fields.len())
            .map_or("some".to_string(), |number| number.to_string());
        met.insert(format!("{number} fields, {tag} tag, {shape}"));
    }
    let shapes = ["tag", "half a length", "head", "one byte less", "cut", "field"];
    for shape in shapes {
        for (number, tag) in [("some", "right"), ("some", "other"), ("500", "right"), ("500", "other")] {
            let possible = shape != "field" || (number, tag) != ("some", "right");
            assert!(
                !possible || met.contains(&format!("{number} fields, {tag} tag, {shape}")),
                "{number} {tag} {shape}"
            );
        }
    }
    assert!(met.contains("0 fields, no tag, empty") && met.contains("0 fields, right tag, tag"));
    assert!(met.contains("0 fields, other tag, tag") && met.iter().any(|way| way.starts_with("499 fields, other tag")));
    assert!(met.iter().any(|way| way.starts_with("499 fields, right tag") && !way.ends_with("field")));
}
