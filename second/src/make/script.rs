// make/script.rs: a feed in the making, with a session of its own that tells what the next call will meet.

use std::ops::Range;

use super::floats;
use super::picture::{self, Motion};
use super::random::Random;
use super::sound::Source;
use crate::container::{ID_SIZE, MOST_FINGERPRINTS};
use crate::feed::{self, Desk, MOST_ROOM};
use crate::formats::{Format, FORMATS, RATES, ROWS_PER_FIELD};
use crate::session::Running;

const MOST_PAYLOAD: usize = 65_535;

pub struct Script {
    pub feed: Vec<u8>,
    pub random: Random,
    /// For the rules of setups alone, so that all else of a feed is what it was without them (02, A9).
    rules: Random,
    /// For the records of transport packets alone, likewise (02, A5).
    pub streams: Random,
    /// For the records of recordings alone, likewise (02, A8).
    pub recordings: Random,
    /// Packs that were not refused.
    pub packs: usize,
    pub desk: Desk,
    /// One for each fingerprint, new with every setup and audio restart, as the filters are.
    sources: Vec<Source>,
    motion: Motion,
}

/// Every pair of format and rate that setup takes.
pub fn pairs() -> Vec<(u8, u8)> {
    let all = (0..FORMATS.len()).flat_map(|format| RATES.iter().map(move |rate| (format, rate.code)));
    let taken = all.filter(|&(format, code)| FORMATS[format].takes_rate(code));
    taken.map(|(format, code)| (format as u8, code)).collect()
}

impl Script {
    pub fn new(mut random: Random) -> Script {
        let (rules, streams, recordings) = (random.apart(), random.further_apart(), random.furthest_apart());
        let motion = Motion::lively(&mut random, 50);
        Script {
            feed: Vec::new(),
            random,
            rules,
            streams,
            recordings,
            packs: 0,
            desk: Desk::default(),
            sources: Vec::new(),
            motion,
        }
    }

    pub fn running(&self) -> Option<&Running> {
        self.desk.session.0.as_ref()
    }

    /// Adds a record and makes its call on the script's own session.
    pub fn record(&mut self, tag: u8, fixed: &[u8], rest: &[u8]) {
        let payload = [fixed, rest].concat();
        self.feed.extend(feed::record(tag, &payload));
        if (0x10..0x20).contains(&tag) {
            let told = self.desk.call(tag, &payload);
            self.packs += usize::from(told.is_ok_and(|line| line.starts_with("pack 0")));
        }
        if [0x10, 0x15, 0x17].contains(&tag) {
            self.sources = (0..MOST_FINGERPRINTS).map(|_| Source::new(&mut self.random)).collect();
        }
    }

    pub fn with_room(&mut self, tag: u8, room: usize, rest: &[u8]) {
        self.record(tag, &(room as u16).to_be_bytes(), rest);
    }

    /// A setup of either rule, now and then after one that is refused for its rule.
    pub fn setup(&mut self, format: u8, rate: u8, mix_types: &[u8]) {
        if self.without_rule(12) {
            let before = self.random.clone();
            self.setup_by_no_rule(format, rate, mix_types);
            let calls: [(u8, &[u8]); 3] = [(0x12, &[0]), (0x13, &[0, 0]), (0x16, &[0, 1, 0, 0, 0, 0])];
            let (tag, payload) = self.rules.pick(&calls);
            self.record(tag, payload, &[]);
            self.random = before;
        }
        let rule = self.rules.pick(&[1, 2]);
        self.setup_by_rule(format, rate, rule, mix_types);
    }

    /// Rule 1 comes by either record (FEED, A9: "10h stays: rule 1").
    pub fn setup_by_rule(&mut self, format: u8, rate: u8, rule: u8, mix_types: &[u8]) {
        if rule == 1 && self.rules.chance(50) {
            self.record(0x10, &[format, rate], mix_types);
        } else {
            self.record(0x17, &[format, rate, rule], mix_types);
        }
    }

    /// A setup that the rule's number alone may have refused.
    pub fn setup_by_no_rule(&mut self, format: u8, rate: u8, mix_types: &[u8]) {
        let any = 3 + self.rules.below(253) as u8;
        let none = self.rules.pick(&[0, 0, 3, 3, 255, 255, 4, 12, 0x11, 0x12, 0x81, 0x82, any]);
        self.setup_by_rule(format, rate, none, mix_types);
    }

    /// Whether a setup is to be refused for its rule.
    pub fn without_rule(&mut self, per_cent: usize) -> bool {
        self.rules.chance(per_cent)
    }

    /// The records between two places of the feed once more.
    pub fn again(&mut self, records: Range<usize>) {
        for (tag, payload) in feed::records(&self.feed[records]) {
            self.record(tag, &payload, &[]);
        }
    }

    pub fn line(&mut self, number: u16, line: &[u8]) {
        self.record(0x11, &number.to_be_bytes(), line);
    }

    /// The line that the session waits for.
    pub fn expected_line(&mut self) {
        let Some(running) = &self.desk.session.0 else { return };
        let rows = running.picture.rows();
        if rows.len() % ROWS_PER_FIELD == 0 {
            self.motion = Motion::new(&mut self.random, rows);
        }
        let number = running.picture.expected_line(running.format);
        let line = picture::next_line(&mut self.random, self.motion, running.format, rows);
        self.line(number, &line);
    }

    /// The lines that are left of the frame at hand.
    pub fn rest_of_frame(&mut self) {
        while self.running().is_some_and(|running| running.picture.ready().is_none()) {
            self.expected_line();
        }
    }

    /// So many instants for one fingerprint, in as many blocks as payloads need.
    pub fn sound(&mut self, fingerprint: usize, instants: usize) {
        let Some(running) = self.running() else { return };
        let size = running.sounds[fingerprint].instant_size();
        let mut left = instants;
        loop {
            let now = left.min((MOST_PAYLOAD - 1) / size);
            let block = self.sources[fingerprint].block(&mut self.random, now, size);
            self.record(0x12, &[fingerprint as u8], &block);
            left -= now;
            if left == 0 {
                break;
            }
        }
    }

    /// The next instant of a fingerprint's source, as floats of those samples.
    pub fn source_instant(&mut self, fingerprint: usize, channels: usize) -> Vec<u32> {
        let samples = self.sources[fingerprint].instant(&mut self.random, channels);
        samples.into_iter().map(|sample| floats::of_sample(&mut self.random, i64::from(sample))).collect()
    }

    pub fn noise(&mut self, count: usize) -> Vec<u8> {
        self.random.bytes(count)
    }

    /// The format at hand, or any for an empty session.
    pub fn format(&mut self) -> &'static Format {
        match self.running() {
            Some(running) => running.format,
            None => &FORMATS[self.random.below(FORMATS.len())],
        }
    }

    /// The container due now, with an ID of these bytes.
    pub fn container_due(&self, id: &[u8]) -> Option<Vec<u8>> {
        self.desk.session.clone().pack(id, MOST_ROOM).ok()
    }

    /// How long the container due now would be, with an ID of so many bytes.
    pub fn container_size(&self, id_size: usize) -> usize {
        self.container_due(&vec![0; id_size]).map_or(5, |container| container.len())
    }

    pub fn pack(&mut self, room: usize, id_size: usize) {
        let id = self.random.bytes(id_size);
        self.with_room(0x13, room, &id);
    }

    /// A room around the size of what will be written, now and then too short.
    pub fn room_near(&mut self, size: usize, short_per_cent: usize) -> usize {
        if self.random.chance(short_per_cent) {
            return match self.random.below(3) {
                0 => self.random.below(size.max(1)),
                1 => 0,
                _ => size.saturating_sub(1),
            };
        }
        self.random.pick(&[size, size + 1, size.max(255), 300, MOST_ROOM]).max(size)
    }

    pub fn id_size(&mut self) -> usize {
        if self.random.chance(35) {
            ID_SIZE
        } else {
            0
        }
    }
}
