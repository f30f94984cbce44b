// transport_tests.rs: tests of the transport packet (02, A5), its CRC worked out in other ways than the program's.

use crate::container;
use crate::feed::{printed, record};
use crate::transport::{packet_around, read, register_after, sealed, write, START_CODE};

const BARE: [u8; 5] = [0x00, 0x00, 0x02, 0x50, 0xAE];
const VIDEO: [u8; 7] = [0x00, 0x07, 0x04, 0x52, 0x09, 0xF0, 0xAA];
const AUDIO: [u8; 10] = [0x00, 0x00, 0x07, 0xB1, 0x02, 0x01, 0x10, 0xFF, 0x01, 0x35];

/// 000, Tables 14 and 15, with 01's Length, as in packet.rs.
const TABLE_14: [u8; 24] = [
    0x00, 0x2B, 0x15, 0x63, 0x11, 0x01, 0x02, 0x12, 0x05, 0x18, 0x11, 0x22, 0x33, 0x0A, 0x18, 0x44, 0x55, 0x66, 0x11,
    0x18, 0x77, 0x88, 0x99, 0xD2,
];
const TABLE_15: [u8; 16] =
    [0x00, 0xD4, 0x0D, 0x93, 0x09, 0x03, 0x0A, 0x05, 0x10, 0x11, 0x22, 0x0A, 0x10, 0x33, 0x44, 0x9D];

/// The polynomial's powers of x.
const POWERS: [usize; 15] = [32, 26, 23, 22, 16, 12, 11, 10, 8, 7, 5, 4, 2, 1, 0];

/// The CRC by long division, as one does it on paper: the message's bits, highest power first, those of the first four
/// bytes inverted for the ones in the register, 32 zeros behind; the divisor goes under every one that is left, and the
/// remainder stands in the last 32 places.
fn by_long_division(message: &[u8]) -> u32 {
    let mut bits: Vec<bool> =
        message.iter().flat_map(|byte| (0..8).map(move |place| byte << place & 0x80 != 0)).collect();
    let count = bits.len();
    bits.extend([false; 32]);
    bits[..32].iter_mut().for_each(|bit| *bit = !*bit);
    for place in 0..count {
        if bits[place] {
            POWERS.iter().for_each(|power| bits[place + 32 - power] ^= true);
        }
    }
    bits[count..].iter().fold(0, |sum, bit| 2 * sum + u32::from(*bit))
}

/// The CRC by the way of the Ethernet: all mirrored, lowest bit first, a table of the 256 bytes, mirrored back.
fn by_mirrored_table(message: &[u8]) -> u32 {
    let divisor = POWERS[1..].iter().fold(0, |sum, power| sum | 0x8000_0000u32 >> power);
    let table: Vec<u32> = (0..256)
        .map(|byte| (0..8).fold(byte, |rest, _| if rest % 2 == 1 { (rest / 2) ^ divisor } else { rest / 2 }))
        .collect();
    let ended = message.iter().fold(u32::MAX, |rest, byte| {
        let place = (rest % 256) ^ u32::from(byte.reverse_bits());
        (rest / 256) ^ table[place as usize]
    });
    ended.reverse_bits()
}

fn crc_three_ways(message: &[u8]) -> u32 {
    let crc = by_long_division(message);
    assert_eq!(by_mirrored_table(message), crc);
    assert_eq!(register_after(message), crc);
    crc
}

#[test]
fn the_known_answer() {
    assert_eq!(POWERS[1..].iter().map(|power| 1u32 << power).sum::<u32>(), 0x04C1_1DB7);
    assert_eq!(crc_three_ways(b"123456789"), 0x0376_E6E7);
    assert_eq!(register_after(&[]), 0xFFFF_FFFF, "all ones at the start");
    assert_eq!(register_after(&[0xFF; 4]), 0, "each one meets a one");
}

/// Every byte at every place of four, and runs of equal bytes up to the longest packet.
#[test]
fn the_register_as_in_the_other_ways() {
    for (place, byte) in (0..4).flat_map(|place| (0..=255).map(move |byte| (place, byte))) {
        let mut message = [0; 4];
        message[place] = byte;
        crc_three_ways(&message);
    }
    for (size, byte) in [4, 5, 10, 264].into_iter().flat_map(|size| [0x00, 0x01, 0x80, 0xFF].map(|byte| (size, byte))) {
        crc_three_ways(&vec![byte; size]);
    }
    crc_three_ways(&[0xA7; 65_541]);
}

/// Packets with the CRC in figures: from zlib's CRC-32 over the packet with the bits of each byte mirrored, its answer
/// inverted and mirrored.
#[test]
fn packets_by_hand() {
    let by_hand: [(&[u8], u8, u32); 5] = [
        (&BARE, 0x09, 0xBE9D_FC84),
        (&VIDEO, 0x0B, 0x320E_C664),
        (&AUDIO, 0x0E, 0x8EF2_E31E),
        (&TABLE_14, 0x1C, 0xBAFA_6DBE),
        (&TABLE_15, 0x14, 0x6FF1_119B),
    ];
    for (container, length, crc) in by_hand {
        let before = [&[0x00, 0x00, 0x01, 0xBF, 0x00, length], container].concat();
        assert_eq!(crc_three_ways(&before), crc);
        let packet = [&before[..], &crc.to_be_bytes()].concat();
        assert_eq!(packet.len(), container.len() + 10);
        assert_eq!(register_after(&packet), 0, "the check");
        assert_eq!(write(container, packet.len()), Ok(packet.clone()));
        assert_eq!(read(&packet, container.len()), Ok(container.to_vec()));
    }
}

/// The bare container's packet byte for byte, so that no sum or constant of this file stands in between.
#[test]
fn the_bare_containers_packet() {
    let packet = [0x00, 0x00, 0x01, 0xBF, 0x00, 0x09, 0x00, 0x00, 0x02, 0x50, 0xAE, 0xBE, 0x9D, 0xFC, 0x84];
    assert_eq!(write(&BARE, 15), Ok(packet.to_vec()));
    assert_eq!(read(&packet, 5), Ok(BARE.to_vec()));
}

/// Solves for the four bytes that leave zero: each of their 32 bits changes the register by a column of its own, and as
/// no column is a sum of others there is one solution and no second.
#[test]
fn one_ending_alone_leaves_the_register_at_zero() {
    for container in [&BARE[..], &VIDEO, &AUDIO, &largest()] {
        let packet = packet_around(container);
        let before = &packet[..packet.len() - 4];
        let ended_by = |ending: u32| register_after(&[before, &ending.to_be_bytes()].concat());
        let without = ended_by(0);
        let mut solved: Vec<(u32, u32)> = Vec::new();
        for bit in (0..32).map(|place| 1u32 << place) {
            let reduced = reduce((ended_by(bit) ^ without, bit), &solved);
            assert_ne!(reduced.0, 0, "a column that is a sum of others");
            solved.push(reduced);
        }
        let (left, ending) = reduce((without, 0), &solved);
        assert_eq!((left, ended_by(ending)), (0, 0));
        assert_eq!(ending.to_be_bytes(), packet[packet.len() - 4..]);
    }
}

/// Takes from a column, and from the bits that make it, those found before that have its highest bits.
fn reduce(column: (u32, u32), solved: &[(u32, u32)]) -> (u32, u32) {
    let mut sorted = solved.to_vec();
    sorted.sort_unstable_by(|one, other| other.cmp(one));
    sorted.iter().fold(column, |(left, bits), (known, known_bits)| {
        if left.leading_zeros() == known.leading_zeros() {
            (left ^ known, bits ^ known_bits)
        } else {
            (left, bits)
        }
    })
}

/// 254 bytes (02, A7): an ID, two fields, 32 fingerprints of 5 bytes at 25 Hz.
fn largest() -> Vec<u8> {
    let mut body = vec![0, 255, 0, 0x57];
    body.extend([0; 21]);
    body.extend([0x11, 240, 239, 31 * 8 + 2]);
    (0..32).for_each(|id| body.extend([8 * id + 5, 5 * 8, id, 2 * id, 255, 0, 7 * id]));
    container::mend(&mut body, true);
    assert_eq!((body.len(), container::read(&body).err()), (254, None));
    body
}

/// A container for each of 20 to 28, and one that is accepted.
pub fn containers() -> Vec<(Option<u8>, Vec<u8>)> {
    let mended = |body: &[u8]| {
        let mut bytes = body.to_vec();
        container::mend(&mut bytes, true);
        bytes
    };
    let all = vec![
        (Some(20), vec![]),
        (Some(20), vec![0, 0, 1, 0xFF]),
        (Some(21), vec![1, 0, 2, 0x50, 0xAD]),
        (Some(22), vec![0, 0, 3, 0x50, 0xAD]),
        (Some(22), vec![0; 300]),
        (Some(23), vec![0, 0, 2, 0x50, 0xAF]),
        (Some(24), mended(&[0, 0, 0, 0xC0])),
        (Some(25), mended(&[0, 0, 0, 0x54])),
        (Some(26), mended(&[0, 0, 0, 0x52, 0x09, 241])),
        (Some(27), mended(&[0, 0, 0, 0xB1, 0x02, 0x01, 0x28, 1, 2, 3, 4, 5])),
        (Some(28), mended(&[0, 0, 0, 0x50, 0])),
        (None, BARE.to_vec()),
        (None, VIDEO.to_vec()),
        (None, AUDIO.to_vec()),
        (None, largest()),
    ];
    assert!(all.iter().all(|(number, bytes)| container::read(bytes).err() == *number));
    all
}

/// "20 to 28 and 12": a refused container is refused with its own number whatever the room, by both calls.
#[test]
fn containers_refused_under_a_right_crc() {
    for (number, bytes) in containers() {
        let packet = packet_around(&bytes);
        for room in [0, bytes.len().saturating_sub(1), bytes.len(), bytes.len() + 1, 4096] {
            let expected = if bytes.len() > room { Err(12) } else { Ok(bytes.clone()) };
            assert_eq!(read(&packet, room), number.map_or(expected, Err));
            let expected = if bytes.len() + 10 > room + 10 { Err(12) } else { Ok(packet.clone()) };
            assert_eq!(write(&bytes, room + 10), number.map_or(expected, Err));
        }
        assert_eq!(write(&bytes, 0), Err(number.unwrap_or(12)));
    }
}

/// "An accepted packet rewrites to itself, and a written one reads back."
#[test]
fn there_and_back() {
    for (_, bytes) in containers().into_iter().filter(|(number, _)| number.is_none()) {
        let packet = write(&bytes, 4096).unwrap();
        assert_eq!(read(&packet, 4096), Ok(bytes.clone()));
        assert_eq!(write(&read(&packet, 4096).unwrap(), packet.len()), Ok(packet));
    }
}

/// Another byte in a packet is met by its place: all bursts of up to 32 bits change the register's end.
#[test]
fn every_byte_changed_to_every_other_value() {
    for container in [&BARE[..], &VIDEO, &AUDIO, &TABLE_14, &largest()] {
        let packet = packet_around(container);
        for (place, change) in (0..packet.len()).flat_map(|place| (1..=255).map(move |change| (place, change))) {
            let mut changed = packet.clone();
            changed[place] ^= change;
            let number = match place {
                0..=3 => 41,
                4 | 5 => 42,
                _ => 43,
            };
            assert_eq!(read(&changed, 4096), Err(number), "place {place}");
            assert_eq!(read(&changed, 0), Err(number), "before 12");
        }
    }
}

/// Fewer than 10 bytes give 40, whatever they are; from 10 on the other numbers come, and 10 to 14 bytes that are whole
/// hold a container of fewer than 5 (20).
#[test]
fn sizes_of_0_to_15() {
    let packet = packet_around(&BARE);
    for size in 0..=15 {
        let cut = match size {
            0..=9 => Err(40),
            15 => Ok(BARE.to_vec()),
            _ => Err(42),
        };
        assert_eq!(read(&packet[..size], 5), cut);
        let short = |number| Err(if size < 10 { 40 } else { number });
        assert_eq!(read(&vec![0xFF; size], 5), short(41));
        assert_eq!(read(&vec![0x00; size], 0), short(41));
        let length = (size as u16).saturating_sub(6);
        let with_length = [&START_CODE[..], &length.to_be_bytes(), &[0; 9]].concat();
        assert_eq!(read(&with_length[..size], 0), short(43));
    }
    for size in 10..=14 {
        let whole = packet_around(&[0, 0, 2, 0x50][..size - 10]);
        assert_eq!((whole.len(), read(&whole, 0)), (size, Err(20)));
    }
    assert_eq!(read(&[0x00, 0x00, 0x01, 0xBF, 0x00, 0x04, 0x34, 0x14, 0x68, 0xA4], 0), Err(20), "an empty container");
}

/// "41 start code": each of its four bytes alone, the CRC right.
#[test]
fn other_start_codes() {
    for (place, other) in (0..4).flat_map(|place| (0..=255).map(move |other| (place, other))) {
        let mut start_code = [0x00, 0x00, 0x01, 0xBF];
        let right = start_code[place] == other;
        start_code[place] = other;
        let answer = read(&sealed(&start_code, 9, &BARE), 5);
        assert_eq!(answer, if right { Ok(BARE.to_vec()) } else { Err(41) });
    }
    for other in
        [[0x00, 0x01, 0x00, 0xBF], [0x00, 0x00, 0xBF, 0x01], [0xBF, 0x01, 0x00, 0x00], [0x00, 0x00, 0x00, 0x01]]
    {
        assert_eq!(read(&sealed(&other, 9, &BARE), 5), Err(41));
    }
    // 001, 7.2.2 prints the prefix as 0x0000001 too, with a digit more than 24 bits have.
    assert_eq!(read(&sealed(&[0x00, 0x00, 0x00, 0x01, 0xBF], 9, &BARE), 5), Err(41));
    assert_eq!(read(&sealed(&[0x00, 0x01, 0xBF], 9, &BARE), 5), Err(41));
}

/// "42 length", the CRC right: every length but one, so also those off by one or 256, with its bytes exchanged, without
/// the CRC, counting itself or the whole packet.
#[test]
fn other_lengths() {
    for (container, right) in [(&BARE[..], 9), (&VIDEO, 11), (&largest(), 258)] {
        for length in 0..=0xFFFF {
            let answer = read(&sealed(&START_CODE, length, container), 254);
            assert_eq!(answer, if length == right { Ok(container.to_vec()) } else { Err(42) }, "length {length}");
        }
    }
    assert_eq!(packet_around(&largest())[4..6], [0x01, 0x02], "high byte first");
}

/// Bytes behind a packet or lost from its end are no packet: 42, or 43 where the length counts them, or the container's
/// number where the CRC stands behind them.
#[test]
fn bytes_more_or_less() {
    let packet = packet_around(&BARE);
    for more in [1, 2, 4, 255, 256, 65_536] {
        let longer = [&packet[..], &vec![0; more]].concat();
        assert_eq!(read(&longer, 5), Err(42), "zeros leave a register of zero at zero");
        assert_eq!(register_after(&longer), 0);
    }
    for less in 1..=5 {
        assert_eq!(read(&packet[..15 - less], 5), Err(42));
        let mut counted = packet[..15 - less].to_vec();
        counted[5] -= less as u8;
        assert_eq!(read(&counted, 5), Err(43));
    }
    let mut counted = [&packet[..], &[0]].concat();
    counted[5] += 1;
    assert_eq!(read(&counted, 5), Err(43));
    assert_eq!(read(&packet_around(&[&BARE[..], &[0]].concat()), 5), Err(22));
    assert_eq!(read(&sealed(&START_CODE, 9, &[&BARE[..], &[0]].concat()), 5), Err(42));
    assert_eq!(read(&packet_around(&packet), 4096), Err(22), "a packet in a packet");
    // The CRC of the shorter packet under the longer one's length, and a zero behind it: the register ends at zero.
    let counted = [&sealed(&START_CODE, 10, &BARE)[..], &[0]].concat();
    assert_eq!((register_after(&counted), read(&counted, 5)), (0, Err(22)));
}

/// The length field reaches 65,541 bytes; what is longer is refused with 42 whatever it says.
#[test]
fn as_long_as_the_length_reaches() {
    let long = packet_around(&vec![0; 65_531]);
    assert_eq!((long.len(), &long[4..6]), (65_541, &[0xFF, 0xFF][..]));
    assert_eq!(read(&long, 4096), Err(22));
    for length in [0, 1, 0xFFFF] {
        assert_eq!(read(&sealed(&START_CODE, length, &vec![0; 65_532]), 4096), Err(42));
    }
    let as_written = [&packet_around(&BARE)[..], &vec![0; 65_536]].concat();
    assert_eq!(read(&as_written, 4096), Err(42), "65,536 bytes more");
}

/// CRCs that other papers have, each in a packet that is whole otherwise.
#[test]
fn other_crcs() {
    let packet = packet_around(&VIDEO);
    let before = &packet[..13];
    let crc = register_after(before);
    let from_zero = register_after(&[&[0xFF; 4], before].concat());
    let mirrored: Vec<u8> = before.iter().map(|byte| byte.reverse_bits()).collect();
    let others = [
        crc.swap_bytes(),
        crc.reverse_bits(),
        !crc,
        from_zero,
        by_mirrored_table(&mirrored).reverse_bits(),
        !by_mirrored_table(&mirrored).reverse_bits(),
        register_after(&VIDEO),
        register_after(&packet[4..13]),
        register_after(&packet[3..13]),
        register_after(&[before, &[0; 4]].concat()),
        register_after(&packet),
        u32::MAX,
    ];
    for other in others {
        assert_ne!(other, crc);
        assert_eq!(read(&[before, &other.to_be_bytes()].concat(), 7), Err(43), "{other:08X}");
    }
}

/// Two faults and more at once, each number before those behind it: 40, 41, 42, 43, 20 to 28, 12.
#[test]
fn the_refusals_in_their_order() {
    for (number, container) in containers().into_iter().filter(|(_, bytes)| bytes.len() < 300) {
        for faults in 0..16 {
            let [start, length, crc, room] = [1, 2, 4, 8].map(|fault| faults / fault % 2 == 1);
            let start_code = if start { [0x00, 0x00, 0x01, 0xBE] } else { START_CODE };
            let right = container.len() as u16 + 4;
            let mut packet = sealed(&start_code, right + u16::from(length), &container);
            if crc {
                *packet.last_mut().unwrap() ^= 1;
            }
            let expected = match (start, length, crc, number, room && !container.is_empty()) {
                (true, ..) => Err(41),
                (_, true, ..) => Err(42),
                (_, _, true, ..) => Err(43),
                (.., Some(number), _) => Err(number),
                (.., true) => Err(12),
                _ => Ok(container.clone()),
            };
            let room = if room { container.len().saturating_sub(1) } else { container.len() };
            assert_eq!(read(&packet, room), expected, "faults {faults:04b}");
            assert_eq!(read(&packet[..9], room), Err(40), "faults {faults:04b}");
        }
    }
}

/// FEED, A5, and the records that are none: no room, half a room, a room above 4,096, the tag behind them.
#[test]
fn the_records_and_their_lines() {
    let room = |room: u16, bytes: &[u8]| [&room.to_be_bytes()[..], bytes].concat();
    let packet = packet_around(&BARE);
    let feed = [
        record(0x26, &room(15, &BARE)),
        record(0x26, &room(14, &BARE)),
        record(0x26, &room(4096, &BARE[..4])),
        record(0x26, &room(0, &[])),
        record(0x27, &room(5, &packet)),
        record(0x27, &room(4, &packet)),
        record(0x27, &room(4096, &packet[..9])),
        record(0x27, &room(0, &[])),
        record(0x27, &room(5, &packet[1..])),
        record(0x27, &room(5, &packet[..14])),
        record(0x27, &room(5, &[&packet[..14], &[0]].concat())),
        record(0x27, &room(0, &packet_around(&[]))),
    ];
    let lines = "stream 0 000001bf000900000250aebe9dfc84\nstream 12\nstream 20\nstream 20\nunstream 0 00000250ae\n\
        unstream 12\nunstream 40\nunstream 40\nunstream 41\nunstream 42\nunstream 43\nunstream 20\n";
    assert_eq!(printed(&feed.concat()), lines);
    for tag in [0x26, 0x27] {
        for payload in [&[][..], &[0], &[0x10], &room(4097, &packet), &room(0xFFFF, &BARE)] {
            assert_eq!(printed(&[record(tag, payload), record(0x14, &[])].concat()), "bad record\n");
        }
        let long = record(tag, &room(4096, &vec![0; 65_533]));
        assert_eq!(printed(&long), if tag == 0x26 { "stream 22\n" } else { "unstream 41\n" });
    }
    assert_eq!(printed(&record(0x29, &room(300, &BARE))), "bad record\n");
}
