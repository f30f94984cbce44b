// receiver.rs: datagrams out of order: what a receiver takes in, hands out and gives up (02, A12), and what `receive`
// prints of it.

use std::io::{self, Read, Write};

use crate::container;
use crate::feed::{self, BadRecord, Payload};

/// "A receiver holds up to eight."
const MOST_HELD: i64 = 8;

/// Containers have numbers without end: where the counter goes from 255 to 0 the number goes on. So "a counter that has
/// come round again is a new container".
#[derive(Clone)]
enum Event {
    TakenIn { number: i64, container: Vec<u8> },
    HandedOut,
    GivenUp,
}

/// All that a receiver has done since it was fresh. Nothing is ever taken out: a number that has been passed is of no
/// more use to any call, which is what "frees its room" comes to.
#[derive(Clone)]
pub struct Receiver {
    first: u8,
    history: Vec<Event>,
}

impl Receiver {
    pub fn fresh(expected: u8) -> Receiver {
        Receiver { first: expected, history: Vec::new() }
    }

    /// The expected container's number: all before it, from the first on, were handed out or given up.
    fn expected(&self) -> i64 {
        let passed = self.history.iter().filter(|event| matches!(event, Event::HandedOut | Event::GivenUp));
        i64::from(self.first) + passed.count() as i64
    }

    /// The number that an arriving counter stands for: one of 256 in a row, of which the 128 with "d of 128 or more
    /// (late)" lie before the expected one.
    fn number(&self, counter: u8) -> i64 {
        let expected = self.expected();
        let has_counter = |number: &i64| number.rem_euclid(256) == i64::from(counter);
        (expected - 128..expected + 128).find(has_counter).expect("256 numbers in a row have every counter")
    }

    fn taken_in(&self, number: i64) -> Option<&[u8]> {
        self.history.iter().find_map(|event| match event {
            Event::TakenIn { number: taken, container } if *taken == number => Some(&container[..]),
            _ => None,
        })
    }

    /// What was taken in with a number that is greater than the expected one by so much: held, or below 0 passed.
    pub fn beside_expected(&self, more: i64) -> Option<&[u8]> {
        self.taken_in(self.expected() + more)
    }

    pub fn expected_counter(&self) -> u8 {
        self.expected().rem_euclid(256) as u8
    }

    /// Arrival: 20 to 28; 70; 71; 72.
    pub fn arrive(&mut self, container: &[u8]) -> Result<(), u8> {
        let number = self.number(container::read(container)?.counter);
        if number < self.expected() {
            return Err(70);
        }
        if number >= self.expected() + MOST_HELD {
            return Err(71);
        }
        if self.taken_in(number).is_some() {
            return Err(72);
        }
        self.history.push(Event::TakenIn { number, container: container.to_vec() });
        Ok(())
    }

    /// Asking for the next: 73; 12, "which leaves it held".
    pub fn next(&mut self, room: usize) -> Result<Vec<u8>, u8> {
        let container = self.taken_in(self.expected()).ok_or(73)?.to_vec();
        if container.len() > room {
            return Err(12);
        }
        self.history.push(Event::HandedOut);
        Ok(container)
    }

    /// "Giving up is never refused."
    pub fn give_up(&mut self) {
        self.history.push(Event::GivenUp);
    }

    /// One record's call and its printed line (FEED).
    pub fn call(&mut self, tag: u8, payload: &[u8]) -> Result<String, BadRecord> {
        let mut part = Payload(payload);
        match tag {
            0x30 => {
                let expected = part.byte()?;
                part.nothing_more()?;
                *self = Receiver::fresh(expected);
                Ok("receiver".to_string())
            }
            0x31 => Ok(format!("arrive {}", self.arrive(payload).err().unwrap_or(0))),
            0x32 => {
                let room = part.room()?;
                part.nothing_more()?;
                Ok(feed::written("next", self.next(room)))
            }
            0x33 => {
                part.nothing_more()?;
                self.give_up();
                Ok("give up".to_string())
            }
            _ => Err(BadRecord),
        }
    }
}

/// "Before the first 30h the receiver is a fresh one that expects 0" (FEED).
impl Default for Receiver {
    fn default() -> Receiver {
        Receiver::fresh(0)
    }
}

/// The program `receive`.
pub fn run(input: &mut impl Read, output: &mut impl Write) -> io::Result<()> {
    let mut receiver = Receiver::default();
    feed::answer_each(input, output, |tag, payload| receiver.call(tag, payload))
}

#[cfg(test)]
pub fn printed(feed: &[u8]) -> String {
    let mut output = Vec::new();
    run(&mut &feed[..], &mut output).unwrap();
    String::from_utf8(output).unwrap()
}
