// receiver_tests.rs: tests of datagrams out of order (02, A12): by hand, beside a receiver of eight places, and by what
// every receiver obeys.

use crate::container;
use crate::feed::{self, record, records};
use crate::make;
use crate::receiver::{printed, Receiver};
use crate::transport_tests::containers;

/// 01's smallest container under a counter: 02h + 50h + AEh = 100h.
fn bare(counter: u8) -> Vec<u8> {
    vec![0x00, counter, 0x02, 0x50, 0xAEu8.wrapping_sub(counter)]
}

/// 01's container with video under a counter: 04h + 52h + 09h + F0h + B1h = 200h.
fn video(counter: u8) -> Vec<u8> {
    vec![0x00, counter, 0x04, 0x52, 0x09, 0xF0, 0xB1u8.wrapping_sub(counter)]
}

fn fresh(expected: u8) -> Vec<u8> {
    record(0x30, &[expected])
}

fn arrive(container: &[u8]) -> Vec<u8> {
    record(0x31, container)
}

fn ask(room: u16) -> Vec<u8> {
    record(0x32, &room.to_be_bytes())
}

fn give_up() -> Vec<u8> {
    record(0x33, &[])
}

/// What `receive` prints of these records, which stand each beside its line.
fn prints(told: &[(Vec<u8>, &str)]) {
    let feed: Vec<u8> = told.iter().flat_map(|(record, _)| record.clone()).collect();
    let lines = printed(&feed);
    assert_eq!(lines.lines().collect::<Vec<_>>(), told.iter().map(|(_, line)| *line).collect::<Vec<_>>());
    assert!(lines.is_empty() || lines.ends_with('\n'));
}

/// A12's numbers of an arrival where nothing is held, in its own words: "the arriving counter minus the expected one,
/// modulo 256".
fn number_by_rule(expected: u8, counter: u8) -> Option<u8> {
    match (256 + i32::from(counter) - i32::from(expected)) % 256 {
        0..=7 => None,
        8..=127 => Some(71),
        _ => Some(70),
    }
}

/// What is held at the eight places: each is asked for, or given up where it is not there.
fn held(receiver: &Receiver) -> Vec<Option<Vec<u8>>> {
    let mut receiver = receiver.clone();
    let mut next = || {
        let container = receiver.next(4096).ok();
        if container.is_none() {
            receiver.give_up();
        }
        container
    };
    (0..8).map(|_| next()).collect()
}

/// That is all a receiver is: two that are alike in it answer alike.
fn state(receiver: &Receiver) -> (u8, Vec<Option<Vec<u8>>>) {
    (receiver.expected_counter(), held(receiver))
}

/// FEED: "Before the first 30h the receiver is a fresh one that expects 0."
#[test]
fn before_the_first_fresh_receiver_by_hand() {
    prints(&[
        (ask(4096), "next 73"),
        (ask(0), "next 73"),
        (arrive(&[0x00, 0xFF, 0x02, 0x50, 0xAF]), "arrive 70"),
        (arrive(&[0x00, 0x80, 0x02, 0x50, 0x2E]), "arrive 70"),
        (arrive(&[0x00, 0x7F, 0x02, 0x50, 0x2F]), "arrive 71"),
        (arrive(&[0x00, 0x08, 0x02, 0x50, 0xA6]), "arrive 71"),
        (arrive(&[0x00, 0x07, 0x02, 0x50, 0xA7]), "arrive 0"),
        (arrive(&[0x00, 0x00, 0x02, 0x50, 0xAE]), "arrive 0"),
        (arrive(&[0x00, 0x00, 0x02, 0x50, 0xAE]), "arrive 72"),
        (ask(4), "next 12"),
        (ask(5), "next 0 00000250ae"),
        (ask(5), "next 73"),
        (arrive(&[0x00, 0x00, 0x02, 0x50, 0xAE]), "arrive 70"),
        (arrive(&[0x00, 0x08, 0x02, 0x50, 0xA6]), "arrive 0"),
        (arrive(&[0x00, 0x09, 0x02, 0x50, 0xA5]), "arrive 71"),
        (give_up(), "give up"),
        (arrive(&[0x00, 0x09, 0x02, 0x50, 0xA5]), "arrive 0"),
    ]);
    prints(&[(give_up(), "give up"), (arrive(&bare(0)), "arrive 70"), (arrive(&bare(8)), "arrive 0")]);
    prints(&[(arrive(&video(0)), "arrive 0"), (ask(7), "next 0 0000045209f0b1")]);
    prints(&[]);
}

/// 254 is expected, so that the eight places are 254, 255, 0 to 5.
#[test]
fn over_the_wrap_by_hand() {
    prints(&[
        (fresh(0xFE), "receiver"),
        (arrive(&[0x00, 0xFD, 0x02, 0x50, 0xB1]), "arrive 70"),
        (arrive(&[0x00, 0x06, 0x02, 0x50, 0xA8]), "arrive 71"),
        (arrive(&[0x00, 0x7D, 0x02, 0x50, 0x31]), "arrive 71"),
        (arrive(&[0x00, 0x7E, 0x02, 0x50, 0x30]), "arrive 70"),
        (arrive(&[0x00, 0x05, 0x02, 0x50, 0xA9]), "arrive 0"),
        (arrive(&[0x00, 0x00, 0x02, 0x50, 0xAE]), "arrive 0"),
        (arrive(&[0x00, 0xFE, 0x02, 0x50, 0xB0]), "arrive 0"),
        (ask(5), "next 0 00fe0250b0"),
        (ask(5), "next 73"),
        (arrive(&[0x00, 0x06, 0x02, 0x50, 0xA8]), "arrive 0"),
        (give_up(), "give up"),
        (arrive(&[0x00, 0xFF, 0x02, 0x50, 0xAF]), "arrive 70"),
        (ask(5), "next 0 00000250ae"),
        (arrive(&[0x00, 0x00, 0x02, 0x50, 0xAE]), "arrive 70"),
        (arrive(&[0x00, 0x01, 0x02, 0x50, 0xAD]), "arrive 0"),
        (arrive(&[0x00, 0x81, 0x02, 0x50, 0x2D]), "arrive 70"),
        (arrive(&[0x00, 0x80, 0x02, 0x50, 0x2E]), "arrive 71"),
        (ask(5), "next 0 00010250ad"),
        (fresh(0xFF), "receiver"),
        (arrive(&[0x00, 0xFF, 0x02, 0x50, 0xAF]), "arrive 0"),
        (ask(5), "next 0 00ff0250af"),
        (arrive(&[0x00, 0x00, 0x02, 0x50, 0xAE]), "arrive 0"),
        (ask(4096), "next 0 00000250ae"),
    ]);
}

/// "12, which leaves it held": the same container at the next room that is enough; 73 at any room where nothing is.
#[test]
fn rooms_by_hand() {
    prints(&[
        (fresh(7), "receiver"),
        (ask(0), "next 73"),
        (ask(4096), "next 73"),
        (arrive(&[0x00, 0x07, 0x04, 0x52, 0x09, 0xF0, 0xAA]), "arrive 0"),
        (ask(0), "next 12"),
        (ask(6), "next 12"),
        (arrive(&[0x00, 0x07, 0x04, 0x52, 0x09, 0xF0, 0xAA]), "arrive 72"),
        (arrive(&[0x00, 0x0F, 0x02, 0x50, 0x9F]), "arrive 71"),
        (ask(7), "next 0 0007045209f0aa"),
        (ask(7), "next 73"),
        (ask(0), "next 73"),
        (arrive(&[0x00, 0x08, 0x02, 0x50, 0xA6]), "arrive 0"),
        (ask(4), "next 12"),
        (give_up(), "give up"),
        (ask(5), "next 73"),
        (arrive(&[0x00, 0x09, 0x02, 0x50, 0xA5]), "arrive 0"),
        (ask(4096), "next 0 00090250a5"),
    ]);
}

/// "Giving it up only moves on by one, freeing a held one": a held one is gone, one that never came is late now, and
/// those behind stay.
#[test]
fn given_up_by_hand() {
    prints(&[
        (fresh(0x20), "receiver"),
        (arrive(&[0x00, 0x20, 0x02, 0x50, 0x8E]), "arrive 0"),
        (arrive(&[0x00, 0x22, 0x02, 0x50, 0x8C]), "arrive 0"),
        (give_up(), "give up"),
        (ask(5), "next 73"),
        (arrive(&[0x00, 0x20, 0x02, 0x50, 0x8E]), "arrive 70"),
        (give_up(), "give up"),
        (arrive(&[0x00, 0x21, 0x02, 0x50, 0x8D]), "arrive 70"),
        (arrive(&[0x00, 0x22, 0x02, 0x50, 0x8C]), "arrive 72"),
        (ask(5), "next 0 002202508c"),
        (arrive(&[0x00, 0x28, 0x02, 0x50, 0x86]), "arrive 0"),
        (give_up(), "give up"),
        (give_up(), "give up"),
        (give_up(), "give up"),
        (give_up(), "give up"),
        (give_up(), "give up"),
        (ask(5), "next 0 0028025086"),
    ]);
}

/// A fresh receiver knows nothing of the one before, whichever counter it expects.
#[test]
fn fresh_receivers_by_hand() {
    prints(&[
        (arrive(&[0x00, 0x00, 0x02, 0x50, 0xAE]), "arrive 0"),
        (arrive(&[0x00, 0x01, 0x02, 0x50, 0xAD]), "arrive 0"),
        (fresh(0), "receiver"),
        (ask(5), "next 73"),
        (arrive(&[0x00, 0x00, 0x04, 0x52, 0x09, 0xF0, 0xB1]), "arrive 0"),
        (fresh(1), "receiver"),
        (fresh(0xFF), "receiver"),
        (ask(5), "next 73"),
        (arrive(&[0x00, 0x06, 0x02, 0x50, 0xA8]), "arrive 0"),
        (arrive(&[0x00, 0x07, 0x02, 0x50, 0xA7]), "arrive 71"),
        (give_up(), "give up"),
        (ask(5), "next 73"),
        (arrive(&[0x00, 0x07, 0x02, 0x50, 0xA7]), "arrive 0"),
    ]);
}

/// All 65,536 pairs of an expected and an arriving counter: the answer, the answer to another container under the same
/// counter, and what is held then.
#[test]
fn every_counter_at_every_expected_one() {
    for (expected, counter) in (0..=255).flat_map(|expected| (0..=255).map(move |counter| (expected, counter))) {
        let mut receiver = Receiver::fresh(expected);
        let number = number_by_rule(expected, counter);
        assert_eq!(receiver.arrive(&bare(counter)).err(), number, "{counter} at {expected}");
        assert_eq!(receiver.arrive(&video(counter)).err(), number.or(Some(72)), "{counter} at {expected}");
        let mut places = vec![None; 8];
        if number.is_none() {
            places[usize::from(counter.wrapping_sub(expected))] = Some(bare(counter));
        }
        assert_eq!(state(&receiver), (expected, places));
    }
}

/// The same over 600 moves of one receiver: by asking, by giving up what is held, by giving up what never came.
#[test]
fn every_counter_at_every_move() {
    let mut receiver = Receiver::fresh(250);
    for moves in 0..600 {
        let expected = ((250 + moves) % 256) as u8;
        assert_eq!(state(&receiver), (expected, vec![None; 8]));
        for counter in 0..=255 {
            match number_by_rule(expected, counter) {
                None => assert_eq!(receiver.clone().arrive(&bare(counter)), Ok(())),
                refused => assert_eq!(receiver.arrive(&bare(counter)).err(), refused, "{counter} after {moves}"),
            }
        }
        if moves % 3 < 2 {
            assert_eq!(receiver.arrive(&video(expected)), Ok(()));
        }
        match moves % 3 {
            0 => assert_eq!(receiver.next(7), Ok(video(expected))),
            _ => receiver.give_up(),
        }
    }
}

/// The same container under another counter, its sum as it was.
fn under(container: &[u8], counter: u8) -> Vec<u8> {
    let mut bytes = container.to_vec();
    if bytes.len() > 4 {
        let last = bytes.len() - 1;
        bytes[last] = bytes[last].wrapping_add(bytes[1]).wrapping_sub(counter);
        bytes[1] = counter;
    }
    bytes
}

/// "20 to 28, then 70 .., 71 .., 72": under every counter, late, too far, held or free, a refused container has its own
/// number and takes no place.
#[test]
fn the_containers_own_numbers_come_first() {
    for (number, container) in containers() {
        for expected in [0, 100, 250, 255] {
            let mut receiver = Receiver::fresh(expected);
            let other = expected.wrapping_add(3);
            assert_eq!((receiver.arrive(&bare(expected)), receiver.arrive(&bare(other))), (Ok(()), Ok(())));
            let before = state(&receiver);
            for counter in 0..=255 {
                let is_held = [expected, other].contains(&counter);
                let by_counter = number_by_rule(expected, counter).or(is_held.then_some(72));
                let mut receiver = receiver.clone();
                assert_eq!(receiver.arrive(&under(&container, counter)).err(), number.or(by_counter));
                assert_eq!(state(&receiver) == before, number.or(by_counter).is_some());
            }
        }
    }
}

/// 73 before 12, and neither moves anything, however often.
#[test]
fn the_numbers_of_asking_in_their_order() {
    let accepted = containers().into_iter().filter(|(number, _)| number.is_none());
    for (container, expected) in accepted.flat_map(|(_, bytes)| [0, 77, 255].map(|expected| (bytes.clone(), expected)))
    {
        let (container, size) = (under(&container, expected), container.len());
        let mut receiver = Receiver::fresh(expected);
        for room in [0, size - 1, size, 4096] {
            assert_eq!(receiver.next(room), Err(73));
        }
        assert_eq!(state(&receiver), (expected, vec![None; 8]));
        assert_eq!(receiver.arrive(&container), Ok(()));
        for room in (0..size).chain((0..size).rev()) {
            assert_eq!(receiver.next(room), Err(12));
        }
        assert_eq!(held(&receiver)[0], Some(container.clone()));
        for room in [size, size + 1, 4096, usize::MAX] {
            assert_eq!(receiver.clone().next(room), Ok(container.clone()));
        }
    }
}

/// "A receiver holds up to eight": in 32 orders, over the wrap and not; no ninth until one is handed out or given up,
/// and then one alone.
#[test]
fn eight_are_held_and_no_ninth() {
    for (step, from) in [1, 3, 5, 7].into_iter().flat_map(|step| (0..8).map(move |from| (step, from))) {
        for expected in [0u8, 100, 250, 255] {
            let mut receiver = Receiver::fresh(expected);
            for d in (0..8).map(|k| (from + step * k) % 8) {
                assert_eq!(receiver.arrive(&bare(expected.wrapping_add(d))), Ok(()));
            }
            let all: Vec<_> = (0..8).map(|d| Some(bare(expected.wrapping_add(d)))).collect();
            for d in 0..=255 {
                let number = if d < 8 { 72 } else { number_by_rule(0, d).unwrap() };
                assert_eq!(receiver.arrive(&video(expected.wrapping_add(d))), Err(number));
            }
            assert_eq!(held(&receiver), all);
            if from % 2 == 0 {
                receiver.give_up();
            } else {
                assert_eq!(receiver.next(5), Ok(bare(expected)));
            }
            assert_eq!(receiver.arrive(&bare(expected.wrapping_add(9))), Err(71));
            assert_eq!(receiver.arrive(&bare(expected)), Err(70));
            assert_eq!(receiver.arrive(&bare(expected.wrapping_add(8))), Ok(()));
            assert_eq!(receiver.arrive(&bare(expected.wrapping_add(8))), Err(72));
            assert_eq!(held(&receiver)[..7], all[1..]);
        }
    }
}

/// "A counter that has come round again is a new container": one that was handed out, given up or never came, after
/// every number of moves. It is late up to 128 moves, then too far ahead, then one of the eight.
#[test]
fn a_counter_that_has_come_round_again() {
    for (first, fate) in [0, 7, 200, 255].into_iter().flat_map(|first| (0..3).map(move |fate| (first, fate))) {
        let mut receiver = Receiver::fresh(first);
        if fate < 2 {
            assert_eq!(receiver.arrive(&bare(first)), Ok(()));
        }
        match fate {
            0 => assert_eq!(receiver.next(5), Ok(bare(first))),
            _ => receiver.give_up(),
        }
        for moves in 1..=600 {
            let number = match moves % 256 {
                1..=128 => Some(70),
                129..=248 => Some(71),
                _ => None,
            };
            assert_eq!(receiver.next(4096), Err(73), "{moves} moves");
            for container in [bare(first), video(first)] {
                let mut receiver = receiver.clone();
                assert_eq!(receiver.arrive(&container).err(), number, "{moves} moves");
                if moves % 256 == 0 {
                    assert_eq!(receiver.next(7), Ok(container));
                }
            }
            receiver.give_up();
        }
    }
}

/// A receiver in the way that is nearest: a place for each d, all of them shifted by a move.
#[derive(Clone, Default)]
struct EightPlaces {
    expected: u8,
    places: [Option<Vec<u8>>; 8],
}

impl EightPlaces {
    fn arrive(&mut self, bytes: &[u8]) -> u8 {
        let counter = match container::read(bytes) {
            Ok(contents) => contents.counter,
            Err(number) => return number,
        };
        match counter.wrapping_sub(self.expected) {
            128..=255 => 70,
            8..=127 => 71,
            d if self.places[usize::from(d)].is_some() => 72,
            d => {
                self.places[usize::from(d)] = Some(bytes.to_vec());
                0
            }
        }
    }

    fn next(&mut self, room: usize) -> Result<Vec<u8>, u8> {
        match self.places[0].clone() {
            None => Err(73),
            Some(container) if container.len() > room => Err(12),
            Some(container) => {
                self.give_up();
                Ok(container)
            }
        }
    }

    fn give_up(&mut self) {
        self.places[0] = None;
        self.places.rotate_left(1);
        self.expected = self.expected.wrapping_add(1);
    }
}

#[derive(Clone)]
enum Call {
    Arrive(Vec<u8>),
    Next(usize),
    GiveUp,
}

/// Makes a call on both receivers, which have to answer alike.
fn on_both(call: &Call, receiver: &mut Receiver, beside: &mut EightPlaces) {
    match call {
        Call::Arrive(bytes) => assert_eq!(receiver.arrive(bytes).err().unwrap_or(0), beside.arrive(bytes)),
        Call::Next(room) => assert_eq!(receiver.next(*room), beside.next(*room)),
        Call::GiveUp => {
            receiver.give_up();
            beside.give_up();
        }
    }
}

fn try_all(calls: &[Call], deep: usize, receiver: &Receiver, beside: &EightPlaces) {
    if deep == 0 {
        return assert_eq!(state(receiver), (beside.expected, beside.places.to_vec()));
    }
    for call in calls {
        let (mut receiver, mut beside) = (receiver.clone(), beside.clone());
        on_both(call, &mut receiver, &mut beside);
        try_all(calls, deep - 1, &receiver, &beside);
    }
}

/// Every sequence of five out of ten calls, where 254 is expected first.
#[test]
fn every_short_sequence_beside_eight_places() {
    let arrivals = [bare(254), video(254), bare(255), bare(5), bare(6), bare(253)].map(Call::Arrive);
    let calls = [&arrivals[..], &[Call::Next(4), Call::Next(5), Call::Next(7), Call::GiveUp]].concat();
    let beside = EightPlaces { expected: 254, ..EightPlaces::default() };
    try_all(&calls, 5, &Receiver::fresh(254), &beside);
}

#[test]
fn made_feeds_beside_eight_places() {
    for seed in 1..=60 {
        let (mut receiver, mut beside) = (Receiver::fresh(0), EightPlaces::default());
        for (tag, payload) in records(&make::feed("arrivals", seed).unwrap()) {
            match (tag, &payload[..]) {
                (0x30, &[expected]) => {
                    (receiver, beside) =
                        (Receiver::fresh(expected), EightPlaces { expected, ..EightPlaces::default() });
                }
                (0x31, bytes) => on_both(&Call::Arrive(bytes.to_vec()), &mut receiver, &mut beside),
                (0x32, &[high, low]) => {
                    let room = usize::from(u16::from_be_bytes([high, low]));
                    on_both(&Call::Next(room), &mut receiver, &mut beside);
                }
                _ => on_both(&Call::GiveUp, &mut receiver, &mut beside),
            }
        }
        assert_eq!(state(&receiver), (beside.expected, beside.places.to_vec()));
    }
}

/// What became of the containers of one receiver, by its printed lines alone.
#[derive(Default)]
struct Ledger {
    first: u8,
    held: Vec<Vec<u8>>,
    taken_in: usize,
    handed_out: usize,
    /// Those that were held when they were given up.
    given_up: usize,
    moves: usize,
}

impl Ledger {
    /// The held container whose turn it is, no more held: its counter is the first expected one plus the number of
    /// those handed out and given up before it, modulo 256.
    fn passed(&mut self) -> Option<Vec<u8>> {
        let turn = ((usize::from(self.first) + self.moves) % 256) as u8;
        self.moves += 1;
        let place = self.held.iter().position(|container| container[1] == turn)?;
        Some(self.held.remove(place))
    }

    /// "Every container handed out was accepted, and each that was taken in is handed out, given up or still held."
    fn enter(&mut self, (tag, payload): &(u8, Vec<u8>), line: &str) {
        let words: Vec<&str> = line.split(' ').collect();
        match (tag, &words[..]) {
            (0x30, ["receiver"]) => *self = Ledger { first: payload[0], ..Ledger::default() },
            (0x31, ["arrive", "0"]) => {
                assert!(container::read(payload).is_ok(), "what is taken in is accepted");
                assert!(self.held.iter().all(|container| container[1] != payload[1]), "one container for a counter");
                self.held.push(payload.clone());
                self.taken_in += 1;
            }
            (0x32, ["next", "0", hex]) => {
                let handed_out = self.passed().expect("what is handed out was taken in and not passed yet");
                assert_eq!(handed_out.iter().map(|byte| format!("{byte:02x}")).collect::<String>(), *hex);
                self.handed_out += 1;
            }
            (0x33, ["give", "up"]) => self.given_up += usize::from(self.passed().is_some()),
            (0x31, ["arrive", _]) | (0x32, ["next", _]) => {}
            _ => panic!("{tag:02X} {line}"),
        }
        assert!(self.held.len() <= 8);
        assert_eq!(self.taken_in, self.handed_out + self.given_up + self.held.len(), "one of the three, once");
    }
}

/// Every line of a feed, and that what is held at its end by the lines is what comes out then.
fn obeys(feed: &[u8]) {
    let (mut ledger, mut receiver) = (Ledger::default(), Receiver::fresh(0));
    for (record, line) in records(feed).iter().zip(printed(feed).lines()) {
        ledger.enter(record, line);
        receiver.call(record.0, &record.1).ok();
    }
    let mut still: Vec<Vec<u8>> = held(&receiver).into_iter().flatten().collect();
    still.sort();
    ledger.held.sort();
    assert_eq!(still, ledger.held);
}

#[test]
fn made_feeds_obey() {
    for seed in 1..=60 {
        let feed = make::feed("arrivals", seed).unwrap();
        assert_eq!(records(&feed).len(), printed(&feed).lines().count());
        obeys(&feed);
    }
}

/// FEED: another tag, a payload shorter or longer than its row says, a room above 4,096. What comes after is not
/// answered.
#[test]
fn bad_records_stop_the_program() {
    let good = [arrive(&bare(0)), ask(5)].concat();
    let lines = "arrive 0\nnext 0 00000250ae\n";
    let wrong: [(u8, &[u8]); 14] = [
        (0x30, &[]),
        (0x30, &[0, 0]),
        (0x30, &[0, 0, 0]),
        (0x30, &[0, 0, 2, 0x50, 0xAE]),
        (0x32, &[]),
        (0x32, &[5]),
        (0x32, &[0]),
        (0x32, &[0, 5, 0]),
        (0x32, &[0x10, 0x01]),
        (0x32, &[0x11, 0x00]),
        (0x32, &[0xFF, 0xFF]),
        (0x33, &[0]),
        (0x33, &[0, 0]),
        (0x33, &[0, 0, 2, 0x50, 0xAE]),
    ];
    let sizes = wrong.iter().map(|(tag, payload)| record(*tag, payload));
    let others = (0..=255).filter(|tag| !(0x30..=0x33).contains(tag));
    let tags = others.flat_map(|tag| [&[][..], &[0], &[0, 5], &bare(0)].map(|payload| record(tag, payload)));
    for bad in sizes.chain(tags) {
        assert_eq!(printed(&[&bad[..], &good].concat()), "bad record\n");
        assert_eq!(printed(&[&good[..], &bad, &good].concat()), format!("{lines}bad record\n"), "{bad:02X?}");
    }
    prints(&[(ask(4096), "next 73"), (arrive(&[]), "arrive 20"), (arrive(&[0; 65_535]), "arrive 22")]);
}

/// Each record cut at each place, alone and behind whole ones; a container that is whole in a record that is not.
#[test]
fn records_cut_short_stop_the_program() {
    for whole in [fresh(1), arrive(&bare(0)), ask(5), give_up()] {
        for cut in 1..whole.len() {
            assert_eq!(printed(&whole[..cut]), "bad record\n");
            assert_eq!(printed(&[&ask(0)[..], &give_up(), &whole[..cut]].concat()), "next 73\ngive up\nbad record\n");
        }
    }
    assert_eq!(printed(&[&[0x31, 0x00, 0x06][..], &bare(0)].concat()), "bad record\n");
    assert_eq!(printed(&[&[0x31, 0x01, 0x05][..], &bare(0)].concat()), "bad record\n");
}

/// The records of `receive` are none of `card`'s.
#[test]
fn the_card_knows_no_receiver() {
    for record in [fresh(0), arrive(&bare(0)), ask(5), give_up()] {
        assert_eq!(feed::printed(&record), "bad record\n");
    }
}
