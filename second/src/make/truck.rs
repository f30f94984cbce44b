// make/truck.rs: a visiting truck's file in the making: its packets, right and wrong, and what the next one has to say
// (02, A13).

use super::containers::{self, allowed_counts, Wanted};
use super::counts;
use super::datagrams::with_counter;
use super::fields::tagged;
use super::packets;
use super::random::Random;
use crate::container::{VideoValues, ID_SIZE};
use crate::formats::{Rate, RATES};
use crate::judging::TAG;
use crate::packet::{bytes_of_words, words_around};

/// What a packet says that is compared; no fingerprint means no audio.
#[derive(Clone, Copy)]
pub struct Says {
    pub counter: u8,
    pub rate: u8,
    pub fingerprints: usize,
    pub bytes: usize,
}

/// How often a part is there, in per cent.
#[derive(Clone, Copy)]
pub struct Parts {
    pub id: usize,
    pub video: usize,
    pub audio: usize,
}

/// Each starting position of each rate once, with the rate's code.
pub fn starts() -> Vec<(u8, usize)> {
    RATES.iter().flat_map(|rate| rate.positions().map(|position| (rate.code, position))).collect()
}

/// With even turns each of the starts in turn, of which the long cadences have the most; with odd ones any rate.
fn start_of(random: &mut Random, turn: usize) -> (u8, usize) {
    let all = starts();
    if turn % 2 == 0 {
        return all[turn / 2 % all.len()];
    }
    let rate = random.pick(&RATES.each_ref());
    (rate.code, random.below(rate.positions().len()))
}

pub fn field(packet: &[u8]) -> Vec<u8> {
    tagged(TAG, u16::try_from(packet.len()).expect("no more bytes than a length reaches"), packet)
}

pub struct Truck {
    pub random: Random,
    pub fields: Vec<Vec<u8>>,
    pub parts: Parts,
    /// What the next packet says where nothing is wrong: its counter, its rate, how many fingerprints, and where in the
    /// cadence they stand.
    pub counter: u8,
    pub rate: &'static Rate,
    pub fingerprints: usize,
    pub position: usize,
    /// Where in the cadence the next packet with audio may stand, by those since the fitting last began.
    possible: Vec<usize>,
    /// What was sent last.
    last: Says,
    /// Which of the starts comes next.
    turn: usize,
}

impl Truck {
    pub fn new(mut random: Random, turn: usize) -> Truck {
        let counter = random.byte();
        let counter = random.pick(&[0, 1, 200, 250, 254, 255, counter, counter]);
        let parts = Parts {
            id: random.pick(&[0, 0, 0, 10, 100]),
            video: random.pick(&[0, 50, 100, 100]),
            audio: random.pick(&[100, 100, 100, 90, 50]),
        };
        let fingerprints = random.pick(&[1, 1, 1, 1, 2, 2, 3, 5]);
        let (rate, position) = start_of(&mut random, turn);
        let rate = Rate::coded(rate).expect("a listed rate");
        let possible = rate.positions().collect();
        let last = Says { counter, rate: rate.code, fingerprints: 0, bytes: 0 };
        Truck { random, fields: Vec::new(), parts, counter, rate, fingerprints, position, possible, last, turn }
    }

    /// What the next packet says where nothing is wrong and it has audio.
    pub fn due(&self) -> Says {
        let bytes = self.rate.bytes_due(self.position);
        Says { counter: self.counter, rate: self.rate.code, fingerprints: self.fingerprints, bytes }
    }

    pub fn silent(&self) -> Says {
        Says { fingerprints: 0, ..self.due() }
    }

    pub fn container(&mut self, says: Says) -> Vec<u8> {
        let random = &mut self.random;
        let (id, video) = (random.chance(self.parts.id), random.chance(self.parts.video));
        let mut contents = containers::without_audio(random, says.rate, Wanted { id, video, audio: false });
        contents.counter = says.counter;
        if !id {
            (contents.id_present, contents.id) = (false, [0; ID_SIZE]);
        }
        if !video {
            contents.video = VideoValues::None;
        }
        containers::written(&counts::with_counts(random, &contents, &vec![says.bytes; says.fingerprints]))
    }

    /// A packet that is accepted; those behind it go on from its counter and its number of fingerprints. Where in the
    /// cadence they go on is the caller's.
    pub fn send(&mut self, says: Says) {
        let container = self.container(says);
        self.fields.push(field(&bytes_of_words(&words_around(&container))));
        self.last = says;
        self.counter = says.counter.wrapping_add(1);
        if says.fingerprints > 0 {
            self.fingerprints = says.fingerprints;
            self.take_in(says.bytes);
        }
    }

    /// The last accepted packet once more, if nothing was sent behind it.
    pub fn send_again(&mut self) {
        if let Some(field) = self.fields.last().cloned() {
            self.fields.push(field);
            if self.last.fingerprints > 0 {
                self.take_in(self.last.bytes);
            }
        }
    }

    /// From now on this rate, from this position on.
    pub fn switch(&mut self, (rate, position): (u8, usize)) {
        self.rate = Rate::coded(rate).expect("a listed rate");
        self.position = position;
        self.possible = self.rate.positions().collect();
    }

    /// The possible positions behind a packet with so many bytes; where none is left the fitting begins anew with it.
    fn take_in(&mut self, bytes: usize) {
        if !self.may_have(bytes) {
            self.possible = self.rate.positions().collect();
        }
        let rate = self.rate;
        self.possible.retain(|&position| rate.bytes_due(position) == bytes);
        self.possible.iter_mut().for_each(|position| *position = (*position + 1) % rate.positions().len());
    }

    pub fn may_have(&self, bytes: usize) -> bool {
        self.possible.iter().any(|&position| self.rate.bytes_due(position) == bytes)
    }

    /// A position that fits all since the fitting last began.
    pub fn any_possible(&mut self) -> usize {
        self.random.pick(&self.possible)
    }

    pub fn allowed(&self) -> Vec<usize> {
        allowed_counts(self.rate.code)
    }

    /// The next packet with nothing wrong, its audio there as it should be.
    pub fn go_on(&mut self, audio: bool) {
        if audio {
            self.send(self.due());
            self.position = (self.position + 1) % self.rate.positions().len();
        } else {
            self.send(self.silent());
        }
    }

    /// So many with nothing wrong, with audio as often as this file has it.
    pub fn run(&mut self, number: usize) {
        for _ in 0..number {
            let audio = self.random.chance(self.parts.audio);
            self.go_on(audio);
        }
    }

    /// A rate other than this one and a position of it: every second time the one whose turn it is.
    pub fn next_start(&mut self) -> (u8, usize) {
        loop {
            // Half of it has no common factor with the number of starts: each has its turn.
            self.turn += 25;
            let (rate, position) = start_of(&mut self.random, self.turn);
            if rate != self.rate.code {
                return (rate, position);
            }
        }
    }

    /// A packet refused with one of 30 to 36 or 20 to 28, which says this if it says anything.
    pub fn refused(&mut self, number: u8, says: Says) {
        let packet = if number >= 30 {
            let container = self.container(says);
            packets::refused_around(&mut self.random, &container, number)
        } else {
            bytes_of_words(&words_around(&self.refused_container(number, says.counter)))
        };
        self.fields.push(field(&packet));
    }

    /// No longer than a packet's count reaches.
    fn refused_container(&mut self, number: u8, counter: u8) -> Vec<u8> {
        loop {
            let container = containers::refused_with(&mut self.random, number);
            if container.len() <= 255 {
                return with_counter(&container, counter);
            }
        }
    }
}
