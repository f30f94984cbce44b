// judging_tests.rs: tests of judging other makers' feeds (02, A13): by hand, and beside a judge of another make.

use crate::container;
use crate::feed::{self, records};
use crate::formats::{RATES, TABLE_13};
use crate::judging::{judged, report, Fault};
use crate::make;
use crate::packet::{bytes_of_words, words_around};
use crate::session::{self, Session};
use crate::transport_tests::containers;

/// 01's smallest container in its packet, in a field: words 000h, 3FFh, 3FFh, 241h, 10Bh, 205h, 200h, 200h, 102h, 250h,
/// 1AEh, 251h (01, Figures to check against).
const BARE: [u8; 27] = [
    0x02, 0x00, 0x18, 0x00, 0x00, 0xFF, 0x03, 0xFF, 0x03, 0x41, 0x02, 0x0B, 0x01, 0x05, 0x02, 0x00, 0x02, 0x00, 0x02,
    0x02, 0x01, 0x50, 0x02, 0xAE, 0x01, 0x51, 0x02,
];

fn field(packet: &[u8]) -> Vec<u8> {
    [&[0x02, (packet.len() / 256) as u8, (packet.len() % 256) as u8], packet].concat()
}

fn wrapped(container: &[u8]) -> Vec<u8> {
    field(&bytes_of_words(&words_around(container)))
}

/// A packet's field; no fingerprint means no audio.
fn packet(counter: usize, rate: u8, fingerprints: usize, bytes: usize) -> Vec<u8> {
    let mut container = vec![0, (counter % 256) as u8, 0, 16 * rate + u8::from(fingerprints > 0)];
    if fingerprints > 0 {
        container.push((fingerprints as u8 - 1) * 8 + 2);
        (0..fingerprints)
            .for_each(|k| container.extend([&[8 * k as u8 + 1, 8 * bytes as u8], &vec![7; bytes][..]].concat()));
    }
    container::mend(&mut container, true);
    wrapped(&container)
}

/// A packet whose checksum is wrong (36), whatever else it says.
fn broken(mut field: Vec<u8>) -> Vec<u8> {
    let last = field.len() - 1;
    field[last] ^= 0x02;
    field
}

/// A fingerprint in each packet, with these byte counts; counters from 0 on. 0 means no audio.
fn with_bytes(rate: u8, counts: &[usize]) -> Vec<u8> {
    let one = |(counter, &bytes): (usize, &usize)| packet(counter, rate, usize::from(bytes > 0), bytes);
    counts.iter().enumerate().flat_map(one).collect()
}

/// A file, and its lines by hand; none means `clean`.
fn says(file: &[Vec<u8>], lines: &[&str]) {
    let expected = if lines.is_empty() { "clean\n".to_string() } else { lines.join("\n") + "\n" };
    assert_eq!(report(&file.concat()), expected);
}

/// The packets, from 1, that have the last fault.
fn cadence_faults(file: &[u8]) -> Vec<usize> {
    let packets = judged(file).unwrap();
    (1..=packets.len()).filter(|number| packets[number - 1].faults.contains(&Fault::Cadence)).collect()
}

#[test]
fn a_packet_of_the_papers_is_clean() {
    assert_eq!(wrapped(&[0x00, 0x00, 0x02, 0x50, 0xAE]), BARE);
    assert_eq!(report(&BARE), "clean\n");
    assert_eq!(report(&[BARE, BARE].concat()), "packet 2 counter\n");
    for (number, container) in containers().into_iter().filter(|(_, container)| container.len() <= 255) {
        let expected = number.map_or("clean\n".to_string(), |number| format!("packet 1 refused {number}\n"));
        assert_eq!(report(&wrapped(&container)), expected);
    }
}

/// Nothing stands before the first accepted packet, so it differs from nothing, be it behind refused ones.
#[test]
fn the_first_accepted_packet_is_compared_with_nothing() {
    for (counter, rate) in (0..=255).flat_map(|counter| RATES.iter().map(move |rate| (counter, rate))) {
        for (fingerprints, bytes) in [(0, 0), (1, rate.bytes_due(0)), (32, rate.bytes_due(0))] {
            let first = packet(counter, rate.code, fingerprints, bytes);
            says(&[first.clone()], &[]);
            says(&[broken(packet(9, 5, 2, 4)), field(&[]), first], &["packet 1 refused 36", "packet 2 refused 31"]);
        }
    }
}

/// "A counter that is not the previous accepted one plus 1 modulo 256."
#[test]
fn every_pair_of_counters() {
    for (before, counter) in (0..256).flat_map(|before| (0..256).map(move |counter| (before, counter))) {
        let lines: &[&str] = if counter == (before + 1) % 256 { &[] } else { &["packet 2 counter"] };
        says(&[packet(before, 7, 0, 0), packet(counter, 7, 0, 0)], lines);
    }
}

/// One fault for packets lost, one for each that comes twice; the counter goes on from what came last.
#[test]
fn lost_doubled_and_late_packets() {
    let of = |counters: &[usize]| counters.iter().map(|&counter| packet(counter, 11, 0, 0)).collect::<Vec<_>>();
    says(&of(&[254, 255, 0, 1]), &[]);
    says(&of(&[1, 2, 4, 5]), &["packet 3 counter"]);
    says(&of(&[1, 2, 2, 3]), &["packet 3 counter"]);
    says(&of(&[1, 2, 2, 2, 3]), &["packet 3 counter", "packet 4 counter"]);
    says(&of(&[1, 3, 2, 4]), &["packet 2 counter", "packet 3 counter", "packet 4 counter"]);
    says(&of(&[255, 255, 0, 0]), &["packet 2 counter", "packet 4 counter"]);
    says(&of(&[0, 255, 0]), &["packet 2 counter"]);
}

/// One packet for each of 30 to 36 and 20 to 28.
fn refused_packets() -> Vec<(u8, Vec<u8>)> {
    let words = words_around(&[0x00, 0x00, 0x02, 0x50, 0xAE]);
    let changed = |place: usize, word: u16| {
        let mut words = words.clone();
        words[place] = word;
        field(&bytes_of_words(&words))
    };
    let mut refused = vec![
        (30, field(&bytes_of_words(&words)[1..])),
        (30, changed(11, 0x651)),
        (30, field(&[0])),
        (31, field(&bytes_of_words(&words[..6]))),
        (31, field(&[])),
        (32, changed(0, 1)),
        (33, changed(4, 0x20B)),
        (34, changed(5, 0x206)),
        (35, changed(6, 0x100)),
        (36, changed(11, 0x051)),
    ];
    let inside = containers().into_iter().filter(|(_, container)| container.len() <= 255);
    refused.extend(inside.filter_map(|(number, container)| Some((number?, wrapped(&container)))));
    refused
}

/// "No later packet is compared with it": right counters around each refused packet, and those that it would make
/// right.
#[test]
fn refused_packets_are_passed_over() {
    let mut met: Vec<u8> = Vec::new();
    for (number, refused) in refused_packets() {
        let second = format!("packet 2 refused {number}");
        let third = format!("packet 3 refused {number}");
        says(&[packet(9, 5, 0, 0), refused.clone(), packet(10, 5, 0, 0)], &[&second]);
        says(&[packet(9, 5, 0, 0), refused.clone(), packet(11, 5, 0, 0)], &[&second, "packet 3 counter"]);
        says(&[packet(254, 5, 0, 0), refused.clone(), packet(1, 5, 0, 0)], &[&second, "packet 3 counter"]);
        let twice = [packet(9, 5, 0, 0), refused.clone(), refused, packet(10, 6, 0, 0)];
        says(&twice, &[&second, &third, "packet 4 rate"]);
        met.push(number);
    }
    met.dedup();
    assert_eq!(met, [30, 31, 32, 33, 34, 35, 36, 20, 21, 22, 23, 24, 25, 26, 27, 28]);
}

/// What a refused packet says of counter, rate, number of fingerprints and bytes is compared with nothing either.
#[test]
fn what_a_refused_packet_says_counts_for_nothing() {
    let other = broken(packet(200, 9, 7, 3));
    says(&[packet(0, 5, 1, 4), other.clone(), packet(1, 5, 1, 5)], &["packet 2 refused 36"]);
    says(&[packet(0, 5, 1, 4), other.clone(), packet(1, 5, 1, 4)], &["packet 2 refused 36", "packet 3 cadence"]);
    let like_it = ["packet 2 refused 36", "packet 3 counter", "packet 3 rate", "packet 3 count"];
    says(&[packet(0, 5, 1, 4), other.clone(), packet(201, 9, 7, 2)], &like_it);
    let due = broken(packet(1, 5, 1, 5));
    says(
        &[packet(0, 5, 1, 5), due.clone(), due, packet(1, 5, 1, 5), packet(2, 5, 1, 5), packet(3, 5, 1, 5)],
        &["packet 2 refused 36", "packet 3 refused 36"],
    );
}

/// Every pair of rates, each by a packet with audio and by one without, behind one with audio and one without.
#[test]
fn every_pair_of_rates() {
    for (before, after) in RATES.iter().flat_map(|before| RATES.iter().map(move |after| (before, after))) {
        for (first, second) in [(0, 0), (0, 1), (1, 0), (1, 1)] {
            let lines: &[&str] = if before.code == after.code { &[] } else { &["packet 2 rate"] };
            let file = [
                packet(0, before.code, first, before.bytes_due(0)),
                packet(1, after.code, second, after.bytes_due(first)),
            ];
            says(&file, lines);
        }
    }
}

/// A rate is compared with the previous accepted one, not with the first: one fault for a change, two for one that is
/// taken back.
#[test]
fn a_rate_changed_and_changed_back() {
    let silent = |counter, rate| packet(counter, rate, 0, 0);
    says(&[silent(0, 5), silent(1, 9), silent(2, 9)], &["packet 2 rate"]);
    says(&[silent(0, 5), silent(1, 9), silent(2, 5), silent(3, 5)], &["packet 2 rate", "packet 3 rate"]);
    says(&[silent(0, 5), broken(silent(1, 9)), silent(1, 5)], &["packet 2 refused 36"]);
    says(&[silent(0, 5), field(&[]), silent(1, 9)], &["packet 2 refused 31", "packet 3 rate"]);
}

/// The number is compared with that of the previous accepted packet with audio, however far back.
#[test]
fn numbers_of_fingerprints() {
    let of = |numbers: &[usize]| -> Vec<Vec<u8>> {
        numbers.iter().enumerate().map(|(counter, &number)| packet(counter, 11, number, 2)).collect()
    };
    says(&of(&[1, 1, 1]), &[]);
    says(&of(&[1, 2, 2, 1]), &["packet 2 count", "packet 4 count"]);
    says(&of(&[3, 0, 0, 3]), &[]);
    says(&of(&[3, 0, 0, 4]), &["packet 4 count"]);
    says(&of(&[0, 0, 32, 0, 31, 0, 32]), &["packet 5 count", "packet 7 count"]);
    says(&of(&[0, 5, 0, 0, 0, 0]), &[]);
    for (before, number) in (1..=32).flat_map(|before| (1..=32).map(move |number| (before, number))) {
        let lines: &[&str] = if before == number { &[] } else { &["packet 3 count"] };
        says(&of(&[before, 0, number]), lines);
    }
}

/// Over another rate, and over packets without audio of another rate, too.
#[test]
fn numbers_of_fingerprints_over_another_rate() {
    says(&[packet(0, 5, 2, 4), packet(1, 9, 2, 2)], &["packet 2 rate"]);
    says(&[packet(0, 5, 2, 4), packet(1, 9, 1, 2)], &["packet 2 rate", "packet 2 count"]);
    let over = [packet(0, 5, 2, 4), packet(1, 9, 0, 0), packet(2, 9, 3, 2), packet(3, 5, 0, 0), packet(4, 5, 3, 4)];
    says(&over, &["packet 2 rate", "packet 3 count", "packet 4 rate"]);
}

/// "Faults of one packet come in the order given here."
#[test]
fn several_faults_of_one_packet() {
    says(&[packet(0, 5, 1, 4), packet(5, 9, 2, 2)], &["packet 2 counter", "packet 2 rate", "packet 2 count"]);
    says(&[packet(0, 5, 1, 4), packet(5, 5, 2, 4)], &["packet 2 counter", "packet 2 count", "packet 2 cadence"]);
    says(&[packet(0, 5, 1, 4), packet(0, 5, 1, 4)], &["packet 2 counter", "packet 2 cadence"]);
    says(&[packet(0, 5, 1, 4), packet(1, 5, 9, 4)], &["packet 2 count", "packet 2 cadence"]);
    says(&[packet(0, 5, 1, 4), packet(0, 9, 0, 0)], &["packet 2 counter", "packet 2 rate"]);
    let two = [packet(0, 5, 1, 4), packet(5, 9, 2, 2), packet(6, 9, 2, 2), broken(BARE.to_vec()), packet(7, 9, 1, 2)];
    let lines = ["packet 2 counter", "packet 2 rate", "packet 2 count", "packet 4 refused 36", "packet 5 count"];
    says(&two, &[&lines[..], &["packet 5 cadence"]].concat());
}

/// So many of one number, of the next, and so on.
fn runs(runs: &[(usize, usize)]) -> Vec<usize> {
    runs.iter().flat_map(|&(times, bytes)| vec![bytes; times]).collect()
}

/// Rate, byte counts, and the packets with the last fault.
type ByHand = (u8, Vec<usize>, &'static [usize]);

fn say(by_hand: &[ByHand]) {
    for (rate, counts, faulty) in by_hand {
        let lines: Vec<String> = faulty.iter().map(|number| format!("packet {number} cadence")).collect();
        let lines: Vec<&str> = lines.iter().map(String::as_str).collect();
        says(&[with_bytes(*rate, counts)], &lines);
    }
}

/// Worked out by hand from 01's table: the rates with rows of five frames or fewer.
#[test]
fn short_cadences_by_hand() {
    say(&[
        // 4, 5, 5, 5, 5
        (5, vec![4, 5, 5, 5, 5, 4, 5], &[]),
        (5, vec![5, 5, 4, 5, 5, 5, 5, 4], &[]),
        (5, vec![5, 4, 5, 5, 5, 5, 4, 5, 5, 5, 5, 4], &[]),
        (5, vec![4, 4], &[2]),
        (5, vec![4, 4, 4], &[2, 3]),
        (5, vec![4, 5, 4], &[3]),
        // Anew with the faulty packet itself: it is the 4 that the next four are behind.
        (5, vec![4, 5, 4, 5, 5, 5, 5, 4], &[3]),
        (5, vec![4, 5, 4, 5, 5, 5, 4], &[3, 7]),
        (5, runs(&[(13, 5)]), &[5, 9, 13]),
        (5, runs(&[(1, 4), (9, 5)]), &[6, 10]),
        (5, runs(&[(1, 4), (8, 5), (1, 4)]), &[6]),
        // 2, 3
        (8, vec![2, 3, 2, 3], &[]),
        (8, vec![3, 2, 3, 2], &[]),
        (8, vec![2, 2, 3, 2], &[2]),
        (8, vec![2, 2, 2, 3, 3, 2], &[2, 3, 5]),
        // 2, 2, 3, 2, 3
        (9, vec![3, 2, 3, 2, 2, 3], &[]),
        (9, vec![2, 2, 3, 2, 3, 2, 2], &[]),
        (9, vec![3, 3], &[2]),
        (9, vec![2, 2, 2], &[3]),
        (9, vec![2, 3, 2, 3, 2, 3, 2, 3, 2, 2], &[6]),
        (9, vec![2, 2, 3, 2, 2], &[5]),
        (9, vec![3, 2, 2, 3, 2, 2], &[6]),
    ]);
}

/// The rates with long rows.
#[test]
fn long_cadences_by_hand() {
    say(&[
        // the same six times, then 2, 3
        (4, vec![2, 3, 2, 3, 2, 3], &[]),
        (4, vec![2, 3, 2, 3, 2, 3, 2, 3], &[8]),
        (4, [2, 2, 3, 2, 3].repeat(7), &[32]),
        // 1 at 1, 14 and 27 of 40
        (10, runs(&[(14, 2)]), &[14]),
        (10, runs(&[(1, 1), (11, 2), (1, 1)]), &[13]),
        (10, runs(&[(1, 1), (13, 2), (1, 1), (12, 2), (1, 1), (12, 2), (1, 1)]), &[]),
        (10, runs(&[(1, 1), (13, 2), (1, 1), (13, 2)]), &[28]),
        (10, runs(&[(1, 1), (12, 2), (1, 1), (12, 2), (1, 1), (12, 2), (1, 1)]), &[40]),
        // 4 at 1, 6 and 11 of 16
        (2, runs(&[(6, 5)]), &[6]),
        (2, runs(&[(1, 4), (4, 5), (1, 4), (4, 5), (1, 4), (4, 5), (1, 4)]), &[16]),
        // 3 at 1, 7 and 14 of 20
        (6, runs(&[(1, 3), (5, 4), (1, 3), (5, 4), (1, 3)]), &[13]),
        (6, runs(&[(1, 3), (6, 4), (1, 3), (6, 4), (1, 3), (6, 4)]), &[21]),
    ]);
}

/// The bytes of a row from a position on, as Table 13 has them.
fn from_position(row: &[usize], position: usize, number: usize) -> Vec<usize> {
    row.iter().copied().cycle().skip(position).take(number).collect()
}

/// Three rows from every position of every cadence, packets without audio between or not.
#[test]
fn every_starting_position_fits() {
    for (code, row) in TABLE_13 {
        for position in 0..row.len() {
            let counts = from_position(row, position, 3 * row.len());
            says(&[with_bytes(code, &counts)], &[]);
            let spread: Vec<usize> =
                counts.iter().enumerate().flat_map(|(k, &bytes)| [&vec![0; k % 3][..], &[bytes]].concat()).collect();
            says(&[with_bytes(code, &spread)], &[]);
        }
    }
}

/// At 24, 30 and 60 a cadence has one count alone, which A2 asks for already.
#[test]
fn a_cadence_of_one_count_has_no_fault() {
    for (code, bytes) in [(3, 5), (7, 4), (11, 2)] {
        says(&[with_bytes(code, &[bytes; 500])], &[]);
        let other = packet(1, code, 1, bytes - 1);
        says(&[packet(0, code, 1, bytes), other, packet(1, code, 1, bytes)], &["packet 2 refused 27"]);
    }
}

/// Two rows from each position with the byte count at one place exchanged for the rate's other one: the first fault is
/// where no part of the endless row is like what came so far.
#[test]
fn one_count_exchanged_at_every_place() {
    for (code, row) in TABLE_13 {
        let endless = from_position(row, 0, 4 * row.len());
        let allowed: Vec<usize> = (1..=5).filter(|bytes| row.contains(bytes)).collect();
        for (position, place) in
            (0..row.len()).flat_map(|position| (0..2 * row.len()).map(move |place| (position, place)))
        {
            let mut counts = from_position(row, position, 2 * row.len());
            let Some(&other) = allowed.iter().find(|&&bytes| bytes != counts[place]) else { continue };
            counts[place] = other;
            let first =
                (1..=counts.len()).find(|&length| endless.windows(length).all(|part| part != &counts[..length]));
            assert_eq!(cadence_faults(&with_bytes(code, &counts)).first().copied(), first, "{code} {position} {place}");
        }
    }
}

/// "The fitting begins anew with that packet, and also with one whose rate differs", with audio or without.
#[test]
fn the_fitting_begins_anew_with_another_rate() {
    let rates = ["packet 2 rate", "packet 3 rate"];
    says(&[packet(0, 5, 1, 4), packet(1, 9, 0, 0), packet(2, 5, 1, 4)], &rates);
    says(&[packet(0, 5, 1, 4), packet(1, 9, 1, 2), packet(2, 5, 1, 4)], &rates);
    says(&[packet(0, 5, 1, 4), packet(1, 9, 0, 0), packet(2, 5, 0, 0), packet(3, 5, 1, 4)], &rates);
    says(
        &[packet(0, 5, 1, 4), broken(packet(1, 9, 0, 0)), packet(1, 5, 1, 4)],
        &["packet 2 refused 36", "packet 3 cadence"],
    );
    // The packet with the other rate is the first of its fitting: two of 3 bytes do not follow each other at 50 Hz.
    says(&[packet(0, 5, 1, 4), packet(1, 9, 1, 3), packet(2, 9, 1, 3)], &["packet 2 rate", "packet 3 cadence"]);
    says(
        &[packet(0, 5, 1, 4), packet(1, 9, 0, 0), packet(2, 9, 1, 3), packet(3, 9, 1, 3)],
        &["packet 2 rate", "packet 4 cadence"],
    );
    // 2, 3, 2 at 48 Hz does not go on at 50 Hz: 3, 2, 2 fits, and 2, 3, 2, 3, 2, 2 would not at 48.
    let across = [
        packet(0, 8, 1, 2),
        packet(1, 8, 1, 3),
        packet(2, 8, 1, 2),
        packet(3, 9, 1, 3),
        packet(4, 9, 1, 2),
        packet(5, 9, 1, 2),
    ];
    says(&across, &["packet 4 rate"]);
}

/// Another number of fingerprints, a lost packet or a refused one does not begin the fitting anew.
#[test]
fn nothing_else_begins_the_fitting_anew() {
    says(&[packet(0, 5, 1, 4), packet(1, 5, 2, 5), packet(2, 5, 2, 4)], &["packet 2 count", "packet 3 cadence"]);
    says(&[packet(0, 5, 1, 4), packet(9, 5, 1, 5), packet(10, 5, 1, 4)], &["packet 2 counter", "packet 3 cadence"]);
    says(
        &[packet(0, 5, 1, 4), field(&[]), packet(1, 5, 0, 0), packet(2, 5, 1, 4)],
        &["packet 2 refused 31", "packet 4 cadence"],
    );
}

/// Fields of packets with nothing wrong, or of nothing.
fn many(number: usize, empty: bool) -> Vec<u8> {
    (0..number).flat_map(|counter| if empty { field(&[]) } else { packet(counter, 11, 1, 2) }).collect()
}

fn refused_31(number: usize) -> String {
    (1..=number).map(|packet| format!("packet {packet} refused 31\n")).collect()
}

/// "Up to 500 packets": refused ones count too.
#[test]
fn the_number_of_packets() {
    for number in [1, 2, 499, 500] {
        assert_eq!(report(&many(number, false)), "clean\n");
        assert_eq!(report(&many(number, true)), refused_31(number));
    }
    for number in [501, 502, 1000, 1001] {
        assert_eq!(report(&many(number, false)), "refused 82\n");
        assert_eq!(report(&many(number, true)), "refused 82\n");
    }
    let last = [&many(499, false)[..], &packet(7, 10, 2, 1)].concat();
    assert_eq!(report(&last), "packet 500 counter\npacket 500 rate\npacket 500 count\n");
}

/// "At one place 82 before 81 before 80": every byte behind 500 whole fields, behind 499, and as the file's first.
#[test]
fn every_byte_behind_whole_fields() {
    for byte in 0..=255 {
        let other = if byte == 0x02 { "refused 80\n" } else { "refused 81\n" };
        for behind in [vec![byte], vec![byte, 0], vec![byte, 0, 5, 1], [&[byte], &BARE[1..26]].concat()] {
            assert_eq!(report(&behind), other);
            for empty in [false, true] {
                assert_eq!(report(&[many(500, empty), behind.clone()].concat()), "refused 82\n");
                assert_eq!(report(&[many(499, empty), behind.clone()].concat()), other);
            }
        }
        for whole in [vec![byte, 0, 0], [&[byte], &BARE[1..]].concat(), [&[byte], &BARE[1..], &BARE].concat()] {
            assert_eq!(report(&[many(500, true), whole.clone()].concat()), "refused 82\n");
            assert_eq!(report(&whole) == "refused 81\n", byte != 0x02);
        }
    }
}

/// Cut at every place: 80 but where a field ends, and there the lines of those before.
#[test]
fn every_cut_of_three_fields() {
    let fields = [BARE.to_vec(), broken(packet(1, 5, 1, 4)), packet(2, 9, 1, 2)];
    let lines =
        ["refused 80\n", "clean\n", "packet 2 refused 36\n", "packet 2 refused 36\npacket 3 counter\npacket 3 rate\n"];
    let whole = fields.concat();
    let ends: Vec<usize> = (0..=3).map(|number| fields[..number].concat().len()).collect();
    for cut in 0..=whole.len() {
        let expected = ends.iter().position(|&end| end == cut).map_or("refused 80\n", |number| lines[number]);
        assert_eq!(report(&whole[..cut]), expected, "cut at {cut}");
    }
}

/// Another tag at each of three fields, the file whole and cut at every place behind it; no line is printed beside the
/// refusal.
#[test]
fn another_tag_at_every_field() {
    let fields = [BARE.to_vec(), broken(packet(1, 5, 1, 4)), packet(2, 9, 1, 2)];
    for (number, tag) in
        (0..3).flat_map(|number| (0..=255).map(move |tag| (number, tag))).filter(|(_, tag)| *tag != 0x02)
    {
        let mut changed = fields.clone();
        changed[number][0] = tag;
        let (whole, before) = (changed.concat(), fields[..number].concat().len());
        for cut in before + 1..=whole.len() {
            assert_eq!(report(&whole[..cut]), "refused 81\n", "tag {tag:02X} of field {number}, cut at {cut}");
        }
        for cut in 1..before {
            let whole_so_far = [fields[0].len(), fields[..2].concat().len()].contains(&cut);
            assert_eq!(report(&whole[..cut]) == "refused 80\n", !whole_so_far);
        }
    }
}

/// "Whichever fault comes first in the file."
#[test]
fn the_first_fault_of_a_file() {
    let stray = [&[0x01], &BARE[1..]].concat();
    for number in [0, 1, 499] {
        assert_eq!(report(&[many(number, true), stray.clone(), many(600, true)].concat()), "refused 81\n");
        assert_eq!(report(&[many(number, true), stray.clone(), vec![0x02]].concat()), "refused 81\n");
    }
    assert_eq!(report(&[many(500, true), stray.clone(), vec![0x02]].concat()), "refused 82\n");
    assert_eq!(report(&[many(501, true), stray, vec![0x02]].concat()), "refused 82\n");
    // A length that takes the next field in leaves no tag to be wrong.
    assert_eq!(report(&[&[0x02, 0x00, 0x03][..], &[0x01, 0x00, 0x00]].concat()), "packet 1 refused 30\n");
    assert_eq!(report(&[&[0x02, 0x00, 0x02][..], &[0x01, 0x00, 0x00]].concat()), "refused 81\n");
    assert_eq!(report(&[&[0x02, 0x00, 0x04][..], &[0x01, 0x00, 0x00]].concat()), "refused 80\n");
}

/// Fields longer than any packet: 30 by an odd size or a word above 3FFh, 32 by zeros, 34 by words behind a whole packet.
#[test]
fn long_fields() {
    let behind_a_packet = |size: usize| {
        let mut bytes = BARE[3..].to_vec();
        bytes.resize(size, 0);
        report(&field(&bytes))
    };
    assert_eq!(behind_a_packet(65_535), "packet 1 refused 30\n");
    assert_eq!(behind_a_packet(65_534), "packet 1 refused 34\n");
    assert_eq!(behind_a_packet(25), "packet 1 refused 30\n");
    assert_eq!(behind_a_packet(26), "packet 1 refused 34\n");
    assert_eq!(report(&field(&vec![0; 65_534])), "packet 1 refused 32\n");
    assert_eq!(report(&field(&vec![4; 65_534])), "packet 1 refused 30\n");
    assert_eq!(report(&[&[0x02, 0xFF, 0xFF][..], &vec![0; 65_534]].concat()), "refused 80\n");
}

/// A judge that keeps no packet: the last counter, rate and number, and a set of positions that each packet shifts.
#[derive(Default)]
struct Shifting {
    last: Option<(u8, u8)>,
    number: Option<u8>,
    possible: Vec<usize>,
}

impl Shifting {
    /// The words of an accepted packet's lines.
    fn take(&mut self, contents: &container::Contents) -> Vec<&'static str> {
        let row = TABLE_13.iter().find(|(code, _)| *code == contents.rate).unwrap().1;
        let mut words = Vec::new();
        let (counter, rate) = self.last.unwrap_or((contents.counter.wrapping_sub(1), contents.rate));
        if contents.counter.wrapping_sub(counter) != 1 {
            words.push("counter");
        }
        if rate != contents.rate {
            words.push("rate");
        }
        if rate != contents.rate || self.last.is_none() {
            self.possible = (0..row.len()).collect();
        }
        self.last = Some((contents.counter, contents.rate));
        if contents.audio_count > 0 {
            if self.number.replace(contents.audio_count).is_some_and(|number| number != contents.audio_count) {
                words.push("count");
            }
            if !self.shift(row, usize::from(contents.audio[0].count)) {
                words.push("cadence");
                self.possible = (0..row.len()).collect();
                assert!(self.shift(row, usize::from(contents.audio[0].count)), "one count alone fits (02, A2)");
            }
        }
        words
    }

    /// Keeps the positions that have so many bytes, each moved on by one; whether any is left.
    fn shift(&mut self, row: &[usize], bytes: usize) -> bool {
        let left = self.possible.iter().filter(|&&position| row[position] == bytes);
        self.possible = left.map(|position| (position + 1) % row.len()).collect();
        !self.possible.is_empty()
    }
}

/// The number that a file is refused with, by the places at which its fields start.
fn refusal(file: &[u8]) -> Option<u8> {
    let (mut place, mut number) = (0, 0);
    while place < file.len() {
        if number >= 500 {
            return Some(82);
        }
        if file[place] != 2 {
            return Some(81);
        }
        let head = file.get(place..place + 3);
        place += head.map_or(file.len() + 1, |head| 3 + usize::from(u16::from_be_bytes([head[1], head[2]])));
        number += 1;
    }
    (place > file.len() || number == 0).then_some(80)
}

fn by_shifting(file: &[u8]) -> String {
    if let Some(number) = refusal(file) {
        return format!("refused {number}\n");
    }
    let (mut judge, mut lines) = (Shifting::default(), String::new());
    for (place, (_, packet)) in records(file).iter().enumerate() {
        let read = crate::packet::read(packet, 255).and_then(|container| container::read(&container));
        let words = match read {
            Err(number) => vec![format!("refused {number}")],
            Ok(contents) => judge.take(&contents).into_iter().map(String::from).collect(),
        };
        words.iter().for_each(|word| lines += &format!("packet {} {word}\n", place + 1));
    }
    if lines.is_empty() {
        "clean\n".to_string()
    } else {
        lines
    }
}

#[test]
fn made_files_beside_shifted_positions() {
    for (kind, seed) in ["truck", "cut"].into_iter().flat_map(|kind| (1..=200).map(move |seed| (kind, seed))) {
        let file = make::feed(kind, seed).unwrap();
        assert_eq!(report(&file), by_shifting(&file), "{kind} {seed}");
    }
}

/// Every sequence of nine byte counts at the rates with short rows, and of six packets with audio or without at two rates.
#[test]
fn every_short_sequence_beside_shifted_positions() {
    for (code, few, number) in [(5, [4, 5], 512), (8, [2, 3], 512), (9, [2, 3], 512), (4, [2, 3], 512)] {
        for bits in 0..number {
            let counts: Vec<usize> = (0..9).map(|place| few[bits >> place & 1]).collect();
            let file = with_bytes(code, &counts);
            assert_eq!(report(&file), by_shifting(&file), "{code} {counts:?}");
        }
    }
    let choices = [(5, 0, 0), (5, 1, 4), (5, 1, 5), (5, 2, 5), (8, 0, 0), (8, 1, 2), (8, 1, 3)];
    for code in 0..7usize.pow(5) {
        let one = |place: u32| {
            let (rate, fingerprints, bytes) = choices[code / 7usize.pow(place) % 7];
            packet(place as usize, rate, fingerprints, bytes)
        };
        let file: Vec<u8> = (0..5).flat_map(one).collect();
        assert_eq!(report(&file), by_shifting(&file), "{code}");
    }
}

/// Every length of 16 bits, at the end of a file and with fields behind.
#[test]
fn every_length_beside_places() {
    for length in 0..=0xFFFF_u16 {
        let last = [&[0x02], &length.to_be_bytes()[..], &BARE[3..]].concat();
        for file in [last.clone(), [&last[..], &BARE, &[0x02, 0x00, 0x00]].concat()] {
            assert_eq!(report(&file), by_shifting(&file), "length {length}");
        }
    }
}

/// The lines of the first packets do not hang on those that follow.
#[test]
fn a_shorter_file_has_the_first_lines() {
    for seed in (1..=60).filter(|seed| seed % 4 > 1 && seed % 25 != 20) {
        let fields: Vec<Vec<u8>> = records(&make::feed("truck", seed).unwrap())
            .into_iter()
            .map(|(tag, packet)| feed::record(tag, &packet))
            .collect();
        let whole = judged(&fields.concat()).unwrap();
        for number in
            [1, 2, 3, fields.len() / 2, fields.len()].into_iter().filter(|&number| (1..=fields.len()).contains(&number))
        {
            let part = judged(&fields[..number].concat()).unwrap();
            assert!(part.iter().zip(&whole).all(|(one, other)| one.faults == other.faults));
        }
    }
}

/// Takes the lines of a frame, all of them black.
fn run_frame(session: &mut Session) {
    while session.0.as_ref().unwrap().picture.ready().is_none() {
        let running = session.0.as_ref().unwrap();
        let (line, width) = (running.picture.expected_line(running.format), running.format.width);
        session.line(line, &vec![0; 2 * width]).unwrap();
    }
}

/// As many instants of silence as make this many bits for a fingerprint of each mix type.
fn play(session: &mut Session, mix_types: &[u8], decimator: usize, bits: usize) {
    for (k, &mix_type) in mix_types.iter().enumerate() {
        session.sound(k as u8, &vec![0; 2 * usize::from(mix_type) * decimator * bits]).unwrap();
    }
}

/// What one run packs at a rate: 90 frames, two rows of the longest cadence and more. Each third frame of some comes
/// before its sound; some runs have restarts of video and refused packs between.
fn packed(code: u8, mix_types: &[u8], late: bool, interrupted: bool) -> Vec<Vec<u8>> {
    let rate = RATES.iter().find(|rate| rate.code == code).unwrap();
    let (mut session, mut with_audio, mut containers) = (session::setup(2, code, 1, mix_types).unwrap(), 0, Vec::new());
    for frame in 0..90 {
        if !late || frame % 3 != 2 {
            play(&mut session, mix_types, rate.decimator, 8 * rate.bytes_due(with_audio));
            with_audio += 1;
        }
        if interrupted && frame % 4 == 1 {
            session.video_restart();
            assert_eq!(session.pack(&[], 4096), Err(10));
        }
        run_frame(&mut session);
        if interrupted {
            assert_eq!((session.pack(&[7; 3], 4096), session.pack(&[], 4)), (Err(11), Err(12)));
        }
        containers.push(session.pack(if frame % 7 == 0 { &[9; 20] } else { &[] }, 4096).unwrap());
    }
    containers
}

/// "It reports `clean` exactly when none of these holds": what a session packs in one run has no fault.
#[test]
fn what_a_session_packs_is_clean_at_every_rate() {
    for (rate, mix_types) in RATES.iter().zip([&[1][..], &[1, 2], &[5]].into_iter().cycle()) {
        for (late, interrupted) in [(false, false), (true, false), (false, true), (true, true)] {
            let containers = packed(rate.code, mix_types, late, interrupted);
            let with_audio = containers.iter().filter(|container| container[3] % 2 == 1).count();
            assert_eq!((containers.len(), with_audio), (90, if late { 60 } else { 90 }));
            let file: Vec<u8> = containers.iter().flat_map(|container| wrapped(container)).collect();
            assert_eq!(report(&file), "clean\n", "code {}", rate.code);
        }
    }
}

/// Over the counter's wrap too.
#[test]
fn what_a_long_session_packs_is_clean() {
    let (mut session, mut file) = (session::setup(2, 9, 1, &[1]).unwrap(), Vec::new());
    for frame in 0..300 {
        play(&mut session, &[1], 50, 8 * [2, 2, 3, 2, 3][frame % 5]);
        run_frame(&mut session);
        file.extend(wrapped(&session.pack(&[], 255).unwrap()));
    }
    assert_eq!(report(&file), "clean\n");
}

/// An audio restart sets the cadence to frame 1, which a judge sees where that does not follow; a setup anew sets the
/// counter to 0 too.
#[test]
fn an_audio_restart_is_seen_by_its_cadence() {
    let mut session = session::setup(2, 5, 1, &[1]).unwrap();
    let mut file = Vec::new();
    for bytes in [4, 5, 5, 4, 5, 5, 5, 5, 4] {
        if file.len() == 3 {
            session.audio_restart();
        }
        play(&mut session, &[1], 50, 8 * bytes);
        run_frame(&mut session);
        file.push(wrapped(&session.pack(&[], 255).unwrap()));
    }
    says(&file, &["packet 4 cadence"]);
    let second: Vec<Vec<u8>> = packed(5, &[1], false, false).iter().map(|container| wrapped(container)).collect();
    says(&[&second[..5], &second[..5]].concat(), &["packet 6 counter"]);
    says(&[&second[..4], &second[..5]].concat(), &["packet 5 counter", "packet 5 cadence"]);
}
