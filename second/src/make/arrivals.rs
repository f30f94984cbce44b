// make/arrivals.rs: feeds of `receive`: containers that come early, late, twice, damaged or never (02, A12).

use super::containers::{self, allowed_counts, Wanted};
use super::datagrams::{distance, shuffled, with_counter, Stream, PLACES};
use super::random::Random;
use super::{counts, fields, largest};
use crate::feed::MOST_ROOM;
use crate::formats::RATES;

/// Where a receiver starts: at the ends of the counters, around their middle, where eight reach over 255, anywhere.
fn start(random: &mut Random) -> u8 {
    let (over, any) = (248 + random.below(PLACES) as u8, random.byte());
    random.pick(&[0, 1, 127, 128, 247, 255, over, over, over, any, any, any])
}

/// A fresh receiver as a rule; or the one before goes on.
fn begin(stream: &mut Stream) {
    if stream.random.chance(75) {
        let expected = start(&mut stream.random);
        stream.fresh(expected);
    }
}

/// Any call on the receiver at hand; now and then a fresh one takes its place.
pub fn any_call(stream: &mut Stream) {
    let d = distance(&mut stream.random);
    match stream.random.below(60) {
        0..=20 => stream.whole_comes(d),
        21..=26 => stream.again_comes(d),
        27..=29 => {
            let number = 20 + stream.random.below(9) as u8;
            stream.damaged_comes(number, d);
        }
        30..=50 => stream.ask_near(),
        51 => {
            let expected = start(&mut stream.random);
            stream.fresh(expected);
        }
        _ => stream.give_up(),
    }
}

/// Every d once, in any order, some of the eight places held before.
fn every_distance(stream: &mut Stream) {
    begin(stream);
    for d in 0..PLACES {
        if stream.random.chance(40) {
            stream.whole_comes(d);
        }
    }
    for d in shuffled(&mut stream.random, 256) {
        stream.small_comes(d);
    }
    stream.drain();
}

/// Each of 20 to 28 with a counter that is late, too far, held and free; what is held and what is free shows then.
fn every_damage(stream: &mut Stream) {
    begin(stream);
    let places = shuffled(&mut stream.random, PLACES);
    let (held, free) = places.split_at(1 + stream.random.below(PLACES - 2));
    held.iter().for_each(|&d| stream.whole_comes(d));
    for number in 20..=28 {
        let (late, far) = (128 + stream.random.below(128), 8 + stream.random.below(120));
        let late = stream.random.pick(&[128, 129, 255, late]);
        let far = stream.random.pick(&[8, 127, far]);
        for d in [late, far, stream.random.pick(held), stream.random.pick(free)] {
            stream.damaged_comes(number, d);
        }
    }
    stream.drain();
}

/// For the smallest container, the largest and any other: nothing there at any room; each room that is too short, a
/// repeat between; a room that is enough, once and again.
fn rooms(stream: &mut Stream) {
    begin(stream);
    let random = &mut stream.random;
    let largest = largest::container_of_rate(random, largest::FIVE_BYTES);
    for container in [fields::smallest(random), largest, fields::accepted(random)] {
        while stream.holds(0) {
            stream.move_on();
        }
        let container = with_counter(&container, stream.counter_at(0));
        let size = container.len();
        [0, size - 1, size, MOST_ROOM].into_iter().for_each(|room| stream.ask(room));
        stream.arrive(&container);
        let less = stream.random.below(size);
        [size - 1, 0, less].into_iter().for_each(|room| stream.ask(room));
        stream.arrive(&container);
        stream.ask(size - 1);
        let enough = stream.random.pick(&[size, size, size + 1, 255, MOST_ROOM]);
        stream.ask(enough);
        stream.ask(enough);
    }
}

/// Eight held, with the bytes that came first whatever comes under their counters; then each move frees one place more.
fn eight_held(stream: &mut Stream) {
    begin(stream);
    for d in shuffled(&mut stream.random, PLACES) {
        stream.whole_comes(d);
    }
    for d in [8, 9, 127, 128, 129, 255].into_iter().chain(shuffled(&mut stream.random, PLACES)) {
        let (same, other) = (stream.again(d), stream.small(d));
        stream.arrive(&same);
        stream.arrive(&other);
    }
    for _ in 0..PLACES + stream.random.below(PLACES) {
        stream.move_on();
        for d in [7, 8, 255, 0] {
            if stream.random.chance(50) {
                stream.again_comes(d);
            }
        }
    }
    stream.drain();
}

/// The expected one comes or not, right away once more or not, is handed out or given up, and comes again; so do those
/// before it.
fn repeats(stream: &mut Stream) {
    begin(stream);
    for _ in 0..12 {
        let (container, other) = (stream.again(0), stream.small(0));
        if stream.random.chance(75) {
            stream.arrive(&container);
        }
        if stream.random.chance(40) {
            let second = if stream.random.chance(50) { &container } else { &other };
            stream.arrive(second);
        }
        if stream.random.chance(30) {
            stream.ask_near();
        }
        stream.move_on();
        stream.arrive(&container);
        let d = 256 - 1 - stream.random.below(4);
        stream.again_comes(d);
        stream.ask(MOST_ROOM);
    }
}

/// Whether an old container comes again after so many moves since it was expected: where d changes from late to too far
/// and to a place, where eight places have been gone through, and now and then elsewhere.
fn comes_again(random: &mut Random, moves: usize) -> bool {
    let edge = [8, 16, 128, 129, 248].contains(&moves);
    random.chance(if edge || moves > 248 { 12 } else { 1 })
}

/// Asks with a room that says nothing of what is there.
fn ask_blindly(stream: &mut Stream) {
    let room = stream.random.pick(&[0, 4, 5, 254, MOST_ROOM]);
    stream.ask(room);
}

/// Eight that came or not, handed out or given up; 256 moves later their counters are expected again, and nothing is
/// there until a container comes, of the same bytes or of others.
fn come_round(stream: &mut Stream) {
    begin(stream);
    let old: Vec<Vec<u8>> = (0..PLACES).map(|d| stream.again(d)).collect();
    for container in &old {
        if stream.random.chance(75) {
            stream.arrive(container);
        }
    }
    for moved in 1..=256 {
        stream.move_on();
        for (d, container) in old.iter().enumerate().filter(|(d, _)| *d < moved) {
            if comes_again(&mut stream.random, moved - d) {
                stream.arrive(container);
            }
        }
        if stream.random.chance(8) {
            ask_blindly(stream);
        }
    }
    for container in &old {
        let other = stream.small(0);
        stream.ask(MOST_ROOM);
        let came = if stream.random.chance(50) { container } else { &other };
        stream.arrive(came);
        stream.ask_near();
        stream.move_on();
    }
}

/// A fresh receiver while some are held, that expects the same counter, one of theirs, one just before or behind, or
/// any; then all of them come again.
fn fresh_between(stream: &mut Stream) {
    begin(stream);
    let eight: Vec<Vec<u8>> = (0..PLACES).map(|d| stream.whole(d)).collect();
    for container in &eight {
        if stream.random.chance(70) {
            stream.arrive(container);
        }
    }
    let (place, any) = (stream.random.below(PLACES), stream.random.below(256));
    let d = stream.random.pick(&[0, 0, place, 8, 255, 248, any]);
    let expected = stream.counter_at(d);
    stream.fresh(expected);
    ask_blindly(stream);
    for k in shuffled(&mut stream.random, PLACES) {
        stream.arrive(&eight[k]);
    }
    stream.drain();
}

/// What a network does to datagrams, in per cent of them, and how long it delays them at the most.
struct Weather {
    lost: usize,
    twice: usize,
    delayed: usize,
    damaged: usize,
    longest_delay: usize,
}

impl Weather {
    fn any(random: &mut Random) -> Weather {
        Weather {
            lost: random.pick(&[0, 1, 5, 20]),
            twice: random.pick(&[0, 2, 10, 40]),
            delayed: random.pick(&[2, 10, 40, 70]),
            damaged: random.pick(&[0, 1, 5]),
            longest_delay: random.pick(&[1, 3, 7, 9, 14, 140]),
        }
    }

    /// The datagrams in the order in which they arrive.
    fn carried(&self, random: &mut Random, sent: &[Vec<u8>]) -> Vec<Vec<u8>> {
        let mut arrivals: Vec<(usize, Vec<u8>)> = Vec::new();
        for (time, container) in sent.iter().enumerate() {
            let copies = if random.chance(self.lost) { 0 } else { 1 + usize::from(random.chance(self.twice)) };
            for _ in 0..copies {
                let delay = if random.chance(self.delayed) { random.below(self.longest_delay + 1) } else { 0 };
                let mut bytes = container.clone();
                if random.chance(self.damaged) {
                    let place = random.below(bytes.len());
                    bytes[place] ^= 1 << random.below(8);
                }
                arrivals.push((time + delay, bytes));
            }
        }
        arrivals.sort_by_key(|(time, _)| *time);
        arrivals.into_iter().map(|(_, bytes)| bytes).collect()
    }
}

/// One sender's containers: one rate, the counter growing by one.
fn sent(random: &mut Random, first: u8, number: usize) -> Vec<Vec<u8>> {
    let rate = random.pick(&RATES.map(|rate| rate.code));
    let fingerprints = random.pick(&[0, 1, 1, 2]);
    let container = |k: usize| {
        let contents = containers::without_audio(random, rate, Wanted { video: true, ..Wanted::default() });
        let count = random.pick(&allowed_counts(rate));
        let contents = counts::with_counts(random, &contents, &vec![count; fingerprints]);
        with_counter(&containers::written(&contents), first.wrapping_add(k as u8))
    };
    (0..number).map(container).collect()
}

/// A sender's stream through a network: after each arrival the receiver asks, once or until nothing is there, and gives
/// up what nothing came of for a while.
fn network(stream: &mut Stream) {
    begin(stream);
    let random = &mut stream.random;
    let (ahead, number) = (random.pick(&[0, 0, 0, 1, 3, 255]), 60 + random.below(240));
    let (weather, patience, once) = (Weather::any(random), 1 + random.below(12), random.chance(30));
    let first = stream.counter_at(ahead);
    let sent = sent(&mut stream.random, first, number);
    let mut waited = 0;
    for container in weather.carried(&mut stream.random, &sent) {
        let before = stream.counter_at(0);
        stream.arrive(&container);
        if once {
            stream.ask(MOST_ROOM);
        } else {
            stream.ask_near();
            while stream.holds(0) {
                stream.ask_near();
            }
        }
        waited = if stream.counter_at(0) == before { waited + 1 } else { 0 };
        if waited > patience {
            let lost = (0..PLACES).find(|&d| stream.holds(d)).unwrap_or(PLACES);
            (0..lost).for_each(|_| stream.give_up());
            waited = 0;
        }
    }
}

/// Calls before the first 30h; every d, every damage, every room; then all that may come of one counter.
pub fn arrivals(random: Random, _seed: u64) -> Vec<u8> {
    let mut stream = Stream::new(random);
    (0..stream.random.below(12)).for_each(|_| any_call(&mut stream));
    every_distance(&mut stream);
    every_damage(&mut stream);
    rooms(&mut stream);
    eight_held(&mut stream);
    repeats(&mut stream);
    (0..2).for_each(|_| come_round(&mut stream));
    (0..3).for_each(|_| fresh_between(&mut stream));
    (0..2).for_each(|_| network(&mut stream));
    begin(&mut stream);
    (0..300).for_each(|_| any_call(&mut stream));
    stream.feed
}
