// make/arrivals_tests.rs: that the feeds of `receive` hold what their kinds promise.

use std::collections::BTreeSet;

use super::feed as made;
use crate::feed::{record, records};
use crate::receiver::{printed, Receiver};

/// What the calls of a feed meet, in words.
#[derive(Default)]
struct Watch {
    receiver: Receiver,
    fresh_ones: usize,
    /// What became of each container that was passed, the last one last.
    fates: Vec<&'static str>,
    too_short: bool,
    met: BTreeSet<String>,
}

impl Watch {
    fn meet(&mut self, what: impl Into<String>) {
        self.met.insert(what.into());
    }

    fn holds_any(&self) -> bool {
        (0..8).any(|d| self.receiver.beside_expected(d).is_some())
    }

    fn fresh(&mut self, expected: u8) {
        let same = if expected == self.receiver.expected_counter() { "the same" } else { "another" };
        let held = if self.holds_any() { "some" } else { "none" };
        self.meet(format!("fresh, {held} held, {same} expected"));
        self.fresh_ones += 1;
        self.receiver = Receiver::fresh(expected);
        self.fates.clear();
    }

    /// What became of the container that was expected so many moves ago.
    fn fate(&self, moves: usize) -> &'static str {
        self.fates.len().checked_sub(moves).map_or("before", |place| self.fates[place])
    }

    fn arrive(&mut self, bytes: &[u8]) {
        let expected = self.receiver.expected_counter();
        let d = bytes.get(1).map_or(256, |counter| usize::from(counter.wrapping_sub(expected)));
        let there = self.receiver.beside_expected(d as i64).map(<[u8]>::to_vec);
        let before = self.receiver.beside_expected(d as i64 - 256).map(<[u8]>::to_vec);
        let where_to = match d {
            256 => "without a counter",
            128.. => "late",
            8.. => "too far",
            _ if there.is_some() => "held",
            _ => "free",
        };
        let number = self.receiver.arrive(bytes).err().unwrap_or(0);
        self.meet(format!("arrive {number} {where_to}"));
        if !(20..=28).contains(&number) {
            self.meet(format!("d {d}"));
            self.whole_arrival(number, d, bytes, there.or(before));
        }
        if number == 0 && bytes[1] < expected {
            self.meet("held over the wrap");
        }
        if (0..8).all(|d| self.receiver.beside_expected(d).is_some()) {
            self.meet("eight held");
        }
    }

    /// `older` came under the same counter: what is held, or what was passed 256 numbers before.
    fn whole_arrival(&mut self, number: u8, d: usize, bytes: &[u8], older: Option<Vec<u8>>) {
        let same = older.as_deref().map_or("new", |older| if older == bytes { "same bytes" } else { "other bytes" });
        match number {
            70 => self.meet(format!("late, {}, {same}", self.fate(256 - d))),
            0 if self.fates.len() >= 256 - d => {
                self.meet(format!("come round, {}, {same}", self.fate(256 - d)));
                self.meet(format!("come round, d {d}"));
            }
            _ => self.meet(format!("{number}, {same}")),
        }
    }

    fn ask(&mut self, room: usize) {
        let size = self.receiver.beside_expected(0).map(<[u8]>::len);
        let before = if self.too_short { " after 12" } else { "" };
        self.too_short = false;
        match (self.receiver.next(room), size) {
            (Ok(_), Some(size)) => {
                let enough = if room == size { "just" } else { "more" };
                self.meet(format!("handed out, {enough} the room{before}"));
                self.meet(format!("handed out, {size} bytes"));
                self.pass("handed out");
            }
            (Err(12), Some(size)) => {
                self.meet(if room == 0 { "12, no room" } else { "12" });
                self.meet(format!("12, {} too few", size - room));
                self.too_short = true;
            }
            _ => {
                self.meet(format!("73, room {room}"));
                for moves in [1, 8, 256] {
                    self.meet(format!("73, {} {moves} before", self.fate(moves)));
                }
            }
        }
    }

    fn give_up(&mut self) {
        let held = self.receiver.beside_expected(0).is_some();
        self.receiver.give_up();
        self.pass(if held { "given up" } else { "never came" });
    }

    fn pass(&mut self, fate: &'static str) {
        self.fates.push(fate);
        self.meet(format!("passed, {fate}"));
        if self.receiver.expected_counter() == 0 {
            self.meet(format!("from 255 to 0, {fate}"));
        }
    }

    fn watch(&mut self, feed: &[u8]) {
        for (tag, payload) in records(feed) {
            if self.fresh_ones == 0 {
                self.meet(format!("{tag:02X} before any 30"));
            }
            match (tag, &payload[..]) {
                (0x30, &[expected]) => self.fresh(expected),
                (0x31, bytes) => self.arrive(bytes),
                (0x32, &[high, low]) => self.ask(usize::from(u16::from_be_bytes([high, low]))),
                _ => self.give_up(),
            }
        }
    }
}

fn met(seeds: std::ops::RangeInclusive<u64>) -> BTreeSet<String> {
    let mut met = BTreeSet::new();
    for seed in seeds {
        let mut watch = Watch::default();
        watch.watch(&made("arrivals", seed).unwrap());
        met.extend(watch.met);
    }
    met
}

#[test]
fn each_feed_has_every_distance_and_every_number() {
    for seed in 1..=20 {
        let met = met(seed..=seed);
        let distances = (0..256).map(|d| format!("d {d}"));
        let places = ["late", "too far", "held", "free"];
        let damaged = (21..=28).flat_map(|number| places.map(|place| format!("arrive {number} {place}")));
        let others = ["arrive 0 free", "arrive 70 late", "arrive 71 too far", "arrive 72 held", "eight held", "12"];
        let asked = ["73, room 0", "73, room 4096", "12, no room", "12, 1 too few", "handed out, just the room"];
        let sizes = ["handed out, 5 bytes", "handed out, 254 bytes"];
        let fates = ["passed, handed out", "passed, given up", "passed, never came"];
        let fixed = others.iter().chain(&asked).chain(&sizes).chain(&fates).map(|what| what.to_string());
        for wanted in distances.chain(damaged).chain(fixed) {
            assert!(met.contains(&wanted), "seed {seed}: {wanted}");
        }
        assert!(met.iter().any(|what| what.starts_with("arrive 20 ")));
    }
}

#[test]
fn every_edge_comes_in_twenty_feeds() {
    let met = met(1..=20);
    let fates = ["handed out", "given up", "never came"];
    let of_fates = fates.iter().flat_map(|fate| {
        let same =
            ["same bytes", "other bytes", "new"].into_iter().filter(|same| (*same == "new") == (*fate == "never came"));
        let late = same.clone().map(move |same| format!("late, {fate}, {same}"));
        let round = same.map(move |same| format!("come round, {fate}, {same}"));
        let absent = [1, 8, 256].map(|moves| format!("73, {fate} {moves} before"));
        late.chain(round).chain(absent).chain([format!("from 255 to 0, {fate}")])
    });
    let cut = ["late", "too far", "held", "free", "without a counter"].map(|place| format!("arrive 20 {place}"));
    let round = (0..8).map(|d| format!("come round, d {d}"));
    let held = ["some", "none"].into_iter();
    let fresh =
        held.flat_map(|held| ["the same", "another"].map(|same| format!("fresh, {held} held, {same} expected")));
    let first = ["30", "31", "32", "33"].map(|tag| format!("{tag} before any 30"));
    let others = ["72, same bytes", "72, other bytes", "held over the wrap", "late, before, new"];
    let rooms = ["just", "more"].map(|room| format!("handed out, {room} the room after 12"));
    let fixed = others.map(str::to_string).into_iter().chain(rooms).chain(cut).chain(first);
    for wanted in of_fates.chain(round).chain(fresh).chain(fixed) {
        assert!(met.contains(&wanted), "{wanted}");
    }
}
/// The malformed record of a feed of `strays`, all of it that is there: the one behind those that are answered.
fn malformed(seed: u64) -> Vec<u8> {
    let feed = made("strays", seed).unwrap();
    let lines = printed(&feed);
    let answered = lines.lines().position(|line| line == "bad record").expect("a bad record");
    assert_eq!(lines.lines().count(), answered + 1, "nothing is answered behind it");
    let whole = records(&feed);
    let size = |(_, payload): &(u8, Vec<u8>)| 3 + payload.len();
    let from: usize = whole[..answered].iter().map(size).sum();
    let to = whole.get(answered).map_or(feed.len(), |bad| from + size(bad));
    feed[from..to].to_vec()
}

#[test]
fn strays_have_every_malformed_record() {
    let all: BTreeSet<Vec<u8>> = (1..=200).map(malformed).collect();
    let sizes: [(u8, &[u8]); 9] = [
        (0x30, &[]),
        (0x30, &[0, 0]),
        (0x32, &[]),
        (0x32, &[0]),
        (0x32, &[0, 5, 0]),
        (0x32, &[0x10, 0x01]),
        (0x32, &[0xFF, 0xFF]),
        (0x33, &[0]),
        (0x33, &[0, 5]),
    ];
    let cuts: [&[u8]; 11] = [
        &[0x30],
        &[0x30, 0],
        &[0x30, 0, 1],
        &[0x31],
        &[0x31, 0],
        &[0x32],
        &[0x32, 0],
        &[0x32, 0, 2],
        &[0x32, 0, 2, 0x10],
        &[0x33],
        &[0x33, 0],
    ];
    let wanted = sizes.iter().map(|(tag, payload)| record(*tag, payload)).chain(cuts.iter().map(|cut| cut.to_vec()));
    for wanted in wanted {
        assert!(all.contains(&wanted), "{wanted:02X?}");
    }
    let tags: BTreeSet<u8> = all.iter().map(|bad| bad[0]).collect();
    for tag in (0x10..=0x17).chain(0x20..=0x28).chain([0x00, 0x01, 0x2F, 0x34, 0xFF]) {
        assert!(tags.contains(&tag), "{tag:02X}");
    }
    let cut_arrivals = all.iter().filter(|bad| bad[0] == 0x31);
    let lost: BTreeSet<usize> =
        cut_arrivals.filter(|bad| bad.len() > 3).map(|bad| 3 + usize::from(bad[2]) - bad.len()).collect();
    assert!(lost.contains(&1) && lost.len() > 4, "{lost:?}");
}
