// make/faults.rs: files of `judge`: what a visiting truck sends, with each fault, with several and with none (02, A13).

use super::containers::allowed_counts;
use super::datagrams::shuffled;
use super::random::Random;
use super::truck::{field, starts, Says, Truck};
use crate::container::MOST_FINGERPRINTS;
use crate::judging::MOST_PACKETS;
use crate::packet::{bytes_of_words, words_around};

/// Every number that a packet may be refused with.
pub const REFUSALS: [u8; 16] = [30, 31, 32, 33, 34, 35, 36, 20, 21, 22, 23, 24, 25, 26, 27, 28];

/// More bytes than any packet has, up to all that a length reaches.
const LONG_SIZES: [usize; 5] = [65_535, 65_534, 65_280, 32_768, 1024];

/// Packets that a tour has at the most, and some.
const MOST_OF_A_TOUR: usize = 200;

/// A number of fingerprints other than this one: next to it, the ends, any.
fn other_number(truck: &mut Truck) -> usize {
    let (number, any) = (truck.fingerprints, 1 + truck.random.below(MOST_FINGERPRINTS));
    let near = [number + 1, number.saturating_sub(1), 1, 2, any, 31, 32];
    let others: Vec<usize> =
        near.into_iter().filter(|&other| other != number && (1..=MOST_FINGERPRINTS).contains(&other)).collect();
    truck.random.pick(&others)
}

/// A counter that is not the one due: one or more lost, those before once more, any.
fn other_counter(truck: &mut Truck) -> u8 {
    let any = 1 + truck.random.below(255) as u8;
    truck.counter.wrapping_add(truck.random.pick(&[1, 1, 2, 254, 255, 255, 127, 128, any]))
}

/// What is due, but for one thing or several.
fn other(truck: &mut Truck) -> Says {
    let mut says = if truck.random.chance(80) { truck.due() } else { truck.silent() };
    if truck.random.chance(60) {
        says.counter = other_counter(truck);
    }
    if says.fingerprints > 0 && truck.random.chance(50) {
        says.fingerprints = other_number(truck);
    }
    if truck.random.chance(40) {
        says.rate = truck.next_start().0;
    }
    says.bytes = truck.random.pick(&allowed_counts(says.rate));
    says
}

/// Packets that never came, their sound with them or not.
fn lost(truck: &mut Truck) {
    let number = truck.random.pick(&[1, 1, 1, 2, 3, 40, 127, 255]);
    truck.counter = truck.counter.wrapping_add(number);
    if truck.random.chance(60) {
        truck.position += usize::from(number);
    }
    let audio = truck.random.chance(80);
    truck.go_on(audio);
}

/// The last packet once more, or twice.
fn doubled(truck: &mut Truck) {
    let audio = truck.random.chance(80);
    truck.go_on(audio);
    (0..1 + truck.random.below(2)).for_each(|_| truck.send_again());
}

/// Two packets in each other's place, or one that comes before others.
fn exchanged(truck: &mut Truck) {
    let (first, early) = (truck.counter, 1 + truck.random.below(3) as u8);
    for counter in [early].into_iter().chain(0..early) {
        truck.counter = first.wrapping_add(counter);
        let audio = truck.random.chance(truck.parts.audio);
        truck.go_on(audio);
    }
    truck.counter = first.wrapping_add(early + 1);
}

/// Another rate, by a packet with audio or by one without; then a row of it or less.
fn new_rate(truck: &mut Truck) {
    let start = truck.next_start();
    truck.switch(start);
    if truck.random.chance(50) {
        (0..1 + truck.random.below(2)).for_each(|_| truck.go_on(false));
    }
    let row = truck.rate.positions().len();
    let length = truck.random.pick(&[row, row + 1, 2 * row, 3, 1]);
    (0..length).for_each(|_| truck.go_on(true));
}

/// A rate changed and changed back, one packet later or some, with audio there or not; the old one goes on where it was
/// or elsewhere.
fn there_and_back(truck: &mut Truck) {
    let row = truck.rate.positions().len();
    (0..truck.random.below(row + 3)).for_each(|_| truck.go_on(true));
    let (rate, position) = (truck.rate.code, truck.position);
    let start = truck.next_start();
    truck.switch(start);
    let audio = truck.random.chance(40);
    (0..truck.random.pick(&[1, 1, 2, 3])).for_each(|_| truck.go_on(audio));
    let elsewhere = truck.random.below(row);
    let onward = truck.random.pick(&[position, elsewhere, elsewhere]);
    truck.switch((rate, onward));
    if truck.random.chance(30) {
        truck.go_on(false);
    }
    let length = truck.random.pick(&[1, 3, row, row + 3]);
    (0..length).for_each(|_| truck.go_on(true));
}

/// Another number of fingerprints, at once, behind packets without audio, behind a refused one; back again or not.
fn new_number(truck: &mut Truck) {
    let (before, number) = (truck.fingerprints, other_number(truck));
    (0..truck.random.below(3)).for_each(|_| truck.go_on(false));
    if truck.random.chance(30) {
        let says = Says { fingerprints: number, ..truck.due() };
        truck.refused(36, says);
    }
    if truck.random.chance(20) {
        let start = truck.next_start();
        truck.switch(start);
    }
    truck.fingerprints = number;
    (0..1 + truck.random.below(2)).for_each(|_| truck.go_on(true));
    (0..truck.random.below(3)).for_each(|_| truck.go_on(false));
    if truck.random.chance(80) || number > 8 {
        truck.fingerprints = before;
        truck.go_on(true);
    }
}

/// A rate that has two byte counts, as the turn has it, where this one has one.
fn to_two_counts(truck: &mut Truck) {
    while truck.allowed().len() == 1 {
        let start = truck.next_start();
        truck.switch(start);
    }
}

/// A row or less with nothing wrong, then byte counts at which no position is left, where the rate has such; from there
/// on as the cadence was, one further, as the fault itself would have it, or from frame 1.
fn off_cadence(truck: &mut Truck) {
    to_two_counts(truck);
    let row = truck.rate.positions().len();
    for _ in 0..truck.random.below(row + row / 2 + 2) {
        let audio = truck.random.chance(95);
        truck.go_on(audio);
    }
    let allowed = truck.allowed();
    let wrong = allowed.iter().copied().find(|&bytes| !truck.may_have(bytes));
    let any = truck.random.pick(&allowed);
    let bytes = wrong.unwrap_or(any);
    truck.send(Says { bytes, ..truck.due() });
    let (here, possible) = (truck.position, truck.any_possible());
    truck.position = truck.random.pick(&[here, here + 1, possible, possible, 0]);
    (0..truck.random.below(row + 2)).for_each(|_| truck.go_on(true));
}

/// Byte counts at random, each mostly one that still fits: positions drop out one after the other.
fn wander(truck: &mut Truck) {
    to_two_counts(truck);
    let row = truck.rate.positions().len();
    for _ in 0..truck.random.below(2 * row + 8) {
        let allowed = truck.allowed();
        let fitting: Vec<usize> = allowed.iter().copied().filter(|&bytes| truck.may_have(bytes)).collect();
        let bytes = if truck.random.chance(93) { truck.random.pick(&fitting) } else { truck.random.pick(&allowed) };
        let counter_lost = truck.random.chance(2);
        truck.counter = truck.counter.wrapping_add(u8::from(counter_lost));
        truck.send(Says { bytes, ..truck.due() });
    }
    truck.position = truck.any_possible();
}

/// Refused packets, which say what is due or something else; then what was due before, or what is due behind them.
fn refused(truck: &mut Truck) {
    let says = if truck.random.chance(50) { truck.due() } else { other(truck) };
    for _ in 0..truck.random.pick(&[1, 1, 1, 2, 3]) {
        let number = truck.random.pick(&REFUSALS);
        truck.refused(number, says);
    }
    if truck.random.chance(35) {
        truck.counter = says.counter.wrapping_add(1);
        truck.position += 1;
    }
    let audio = truck.random.chance(80);
    truck.go_on(audio);
}

/// Each number once, in any order, with packets that are accepted between or not.
fn every_refusal(truck: &mut Truck) {
    for place in shuffled(&mut truck.random, REFUSALS.len()) {
        let says = other(truck);
        truck.refused(REFUSALS[place], says);
        (0..truck.random.below(2)).for_each(|_| truck.run(1));
    }
}

/// Fields that hold nothing, or little, or what is no packet.
fn scraps(truck: &mut Truck) {
    let size = truck.random.pick(&[0, 0, 1, 2, 11, 12, 13, 14, 15, 40]);
    let bytes = match truck.random.below(3) {
        0 => vec![0; size],
        1 => truck.random.bytes(size),
        _ => {
            let container = truck.container(truck.due());
            let mut packet = bytes_of_words(&words_around(&container));
            packet.truncate(size);
            packet
        }
    };
    truck.fields.push(field(&bytes));
    truck.run(1);
}

/// A field that is longer than any packet, up to all that a length reaches: a packet with more behind it, nothing but
/// zeros, the right words in front.
fn long_field(truck: &mut Truck, size: usize) {
    let container = truck.container(truck.due());
    let packet = bytes_of_words(&words_around(&container));
    let from = truck.random.pick(&[packet.len(), packet.len(), 12, 0]);
    let mut bytes = packet[..from.min(packet.len())].to_vec();
    bytes.resize(size, 0);
    truck.fields.push(field(&bytes));
    truck.run(2);
}

/// Several faults in one packet: counter, rate and number; counter, number and cadence; any two of them.
fn several(truck: &mut Truck) {
    let row = truck.rate.positions().len();
    (0..truck.random.below(row + 2)).for_each(|_| truck.go_on(true));
    let with_rate = truck.random.chance(40);
    if with_rate {
        let start = truck.next_start();
        truck.switch(start);
    }
    let due = truck.due();
    let wrong = truck.allowed().into_iter().find(|&bytes| !truck.may_have(bytes));
    let counter = if truck.random.chance(80) { other_counter(truck) } else { due.counter };
    let fingerprints = if truck.random.chance(80) { other_number(truck) } else { due.fingerprints };
    let bytes = if truck.random.chance(90) { wrong.unwrap_or(due.bytes) } else { due.bytes };
    let before = truck.fingerprints;
    truck.send(Says { counter, fingerprints, bytes, ..due });
    truck.position = truck.any_possible();
    if truck.fingerprints > 8 {
        truck.fingerprints = before;
    }
}

/// The truck's audio restarted, or all of it set up anew.
fn restarted(truck: &mut Truck) {
    if truck.random.chance(40) {
        truck.counter = 0;
    }
    truck.position = 0;
    let length = truck.random.below(truck.rate.positions().len() + 4);
    truck.run(length);
}

const INCIDENTS: [fn(&mut Truck); 14] = [
    lost,
    doubled,
    exchanged,
    new_rate,
    new_rate,
    there_and_back,
    new_number,
    off_cadence,
    off_cadence,
    wander,
    refused,
    scraps,
    several,
    restarted,
];

fn incident(truck: &mut Truck) {
    let happens = truck.random.pick(&INCIDENTS);
    happens(truck);
    let length = truck.random.pick(&[0, 0, 1, 1, 2, 3, 6]);
    truck.run(length);
}

/// One rate throughout and nothing wrong.
fn good(truck: &mut Truck, size: usize) {
    truck.parts.audio = truck.random.pick(&[100, 100, 100, 90, 50, 10, 0]);
    truck.run(size);
}

/// Nothing wrong but for one incident.
fn nearly_good(truck: &mut Truck, size: usize) {
    let before = truck.random.below(size);
    truck.run(before);
    incident(truck);
    let more = size.saturating_sub(truck.fields.len());
    truck.run(more);
}

/// A row and one more from each of three starts, of different rates: 41 tours have every start.
fn tour(truck: &mut Truck, turn: usize) {
    for third in 0..3 {
        truck.switch(starts()[(turn + 41 * third) % starts().len()]);
        (0..truck.rate.positions().len() + 1).for_each(|_| truck.go_on(true));
    }
}

/// A tour, or every refusal, and then anything.
fn many_incidents(truck: &mut Truck, size: usize, seed: u64) {
    let turn = (seed / 4) as usize;
    if seed % 4 == 2 {
        tour(truck, turn);
    } else {
        every_refusal(truck);
    }
    if turn % 10 == 1 {
        long_field(truck, LONG_SIZES[turn / 10 % LONG_SIZES.len()]);
    }
    while truck.fields.len() < size {
        incident(truck);
    }
}

/// How many packets: 500 in every fifth file, one more and one less in one of 25 each.
fn size(random: &mut Random, seed: u64) -> usize {
    match seed % 25 {
        0 | 5 | 10 | 15 | 21 => MOST_PACKETS,
        20 if seed % 4 != 2 => MOST_PACKETS + 1,
        12 => MOST_PACKETS - 1,
        _ => random.pick(&[1, 2, 3, 8, 20, 45, 90, 90, 150, 150, 250]),
    }
}

/// One file in four has nothing wrong with it, one in four has one incident, the others any.
pub fn truck(random: Random, seed: u64) -> Vec<u8> {
    let mut truck = Truck::new(random, (seed / 4) as usize);
    let mut size = size(&mut truck.random, seed);
    match seed % 4 {
        0 => good(&mut truck, size),
        1 => nearly_good(&mut truck, size),
        _ => {
            size = size.max(MOST_OF_A_TOUR);
            many_incidents(&mut truck, size, seed);
        }
    }
    truck.fields.truncate(size);
    truck.fields.concat()
}
