// make/datagrams.rs: a feed of `receive` in the making, and what arrives in it: containers by counter, whole and
// damaged (02, A12).

use super::containers;
use super::fields;
use super::random::Random;
use crate::feed::{self, MOST_ROOM};
use crate::receiver::Receiver;

/// "A receiver holds up to eight."
pub const PLACES: usize = 8;

/// The same bytes with another counter; the last one makes up for it, so that a sum that was right stays right, and a
/// wrong one wrong.
pub fn with_counter(container: &[u8], counter: u8) -> Vec<u8> {
    let mut bytes = container.to_vec();
    if let Some(was) = bytes.get_mut(1) {
        let less = was.wrapping_sub(counter);
        *was = counter;
        if let [_, _, _, _, .., last] = &mut bytes[..] {
            *last = last.wrapping_add(less);
        }
    }
    bytes
}

/// The numbers below a bound, each once, in any order.
pub fn shuffled(random: &mut Random, bound: usize) -> Vec<usize> {
    let mut numbers: Vec<usize> = (0..bound).collect();
    for place in (1..bound).rev() {
        numbers.swap(place, random.below(place + 1));
    }
    numbers
}

/// Mostly one of the eight places; the edges of late and too far, those just passed, any.
pub fn distance(random: &mut Random) -> usize {
    let (place, passed, any) = (random.below(PLACES), 256 - 1 - random.below(PLACES), random.below(256));
    random.pick(&[place, place, place, place, place, 0, 8, 127, 128, 255, passed, any])
}

/// A feed of `receive`, with a receiver of its own that tells what the next call will meet.
pub struct Stream {
    pub feed: Vec<u8>,
    pub random: Random,
    receiver: Receiver,
}

impl Stream {
    pub fn new(random: Random) -> Stream {
        Stream { feed: Vec::new(), random, receiver: Receiver::default() }
    }

    /// Adds a record and makes its call, if it is one.
    pub fn record(&mut self, tag: u8, payload: &[u8]) {
        self.feed.extend(feed::record(tag, payload));
        self.receiver.call(tag, payload).ok();
    }

    pub fn fresh(&mut self, expected: u8) {
        self.record(0x30, &[expected]);
    }

    pub fn arrive(&mut self, container: &[u8]) {
        self.record(0x31, container);
    }

    pub fn ask(&mut self, room: usize) {
        self.record(0x32, &(room as u16).to_be_bytes());
    }

    pub fn give_up(&mut self) {
        self.record(0x33, &[]);
    }

    /// The counter whose d this is.
    pub fn counter_at(&self, d: usize) -> u8 {
        self.receiver.expected_counter().wrapping_add(d as u8)
    }

    /// What was taken in for this d and is held or, with a d of 128 or more, has been passed.
    fn taken_in(&self, d: usize) -> Option<&[u8]> {
        self.receiver.beside_expected(if d < 128 { d as i64 } else { d as i64 - 256 })
    }

    pub fn holds(&self, d: usize) -> bool {
        d < PLACES && self.taken_in(d).is_some()
    }

    /// The size of the expected container, or of the smallest where it is not there.
    pub fn size_due(&self) -> usize {
        self.taken_in(0).map_or(5, <[u8]>::len)
    }

    /// A container that is accepted, mostly of few bytes.
    pub fn whole(&mut self, d: usize) -> Vec<u8> {
        with_counter(&fields::accepted(&mut self.random), self.counter_at(d))
    }

    /// A container of 5 to 16 bytes.
    pub fn small(&mut self, d: usize) -> Vec<u8> {
        with_counter(&fields::small(&mut self.random), self.counter_at(d))
    }

    /// The container that was taken in for this d once more, or a new one.
    pub fn again(&mut self, d: usize) -> Vec<u8> {
        match self.taken_in(d) {
            Some(container) => container.to_vec(),
            None => self.whole(d),
        }
    }

    pub fn whole_comes(&mut self, d: usize) {
        let container = self.whole(d);
        self.arrive(&container);
    }

    pub fn small_comes(&mut self, d: usize) {
        let container = self.small(d);
        self.arrive(&container);
    }

    pub fn again_comes(&mut self, d: usize) {
        let container = self.again(d);
        self.arrive(&container);
    }

    /// A container refused with one of 20 to 28 whose counter, if it has one, is that of this d.
    pub fn damaged_comes(&mut self, number: u8, d: usize) {
        let container = containers::refused_with(&mut self.random, number);
        self.arrive(&with_counter(&container, self.counter_at(d)));
    }

    /// Asks with a room that is enough, just enough, one less, less or none.
    pub fn ask_near(&mut self) {
        let size = self.size_due();
        let less = self.random.below(size);
        let room =
            self.random.pick(&[size, size, size, size + 1, 254.max(size), MOST_ROOM, size - 1, size - 1, 0, less]);
        self.ask(room);
    }

    /// Moves on by one: asks where the expected one is there, as a rule, or gives it up.
    pub fn move_on(&mut self) {
        if self.holds(0) && self.random.chance(65) {
            let room = self.random.pick(&[self.size_due(), MOST_ROOM]);
            self.ask(room);
        } else {
            self.give_up();
        }
    }

    /// Moves on past the eight places, asking first with any room.
    pub fn drain(&mut self) {
        for _ in 0..PLACES {
            let before = self.counter_at(0);
            self.ask_near();
            if self.counter_at(0) == before {
                self.move_on();
            }
        }
    }
}
