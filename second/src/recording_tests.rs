// recording_tests.rs: tests of mending a recording (02, A8): by hand, and by what every mending has to obey.

use std::io::{self, Cursor};
use std::ops::Range;

use crate::container;
use crate::feed::{printed, record, records};
use crate::make;
use crate::recording::{mend, report, report_on};
use crate::transport_tests::containers;

/// 01's three containers, each as a field.
const BARE: [u8; 8] = [0x01, 0x00, 0x05, 0x00, 0x00, 0x02, 0x50, 0xAE];
const VIDEO: [u8; 10] = [0x01, 0x00, 0x07, 0x00, 0x07, 0x04, 0x52, 0x09, 0xF0, 0xAA];
const AUDIO: [u8; 13] = [0x01, 0x00, 0x0A, 0x00, 0x00, 0x07, 0xB1, 0x02, 0x01, 0x10, 0xFF, 0x01, 0x35];

/// BARE within the ID of an accepted container: 17h + 54h + 06h + 8Fh = 100h.
const HOLDING: [u8; 29] = [
    0x01, 0x00, 0x1A, 0x00, 0x00, 0x17, 0x54, 0x00, 0x01, 0x00, 0x05, 0x00, 0x00, 0x02, 0x50, 0xAE, 0x00, 0x00, 0x00,
    0x00, 0x00, 0x00, 0x00, 0x00, 0x00, 0x00, 0x00, 0x00, 0x8F,
];

/// A recording of 31 bytes; its fields start at 0, 8 and 18, and no other place starts one.
fn three_fields() -> Vec<u8> {
    [&BARE[..], &VIDEO, &AUDIO].concat()
}

fn field(container: &[u8]) -> Vec<u8> {
    [&[0x01, (container.len() / 256) as u8, (container.len() % 256) as u8], container].concat()
}

/// An accepted field of 29 bytes that ends in these, at most 20: nothing but an ID, whose first byte makes up the sum.
fn ending_in(last: &[u8]) -> Vec<u8> {
    let mut container = [&[0x00, 0x00, 0x17, 0x54, 0x00], &vec![0; 21 - last.len()][..], last].concat();
    container[5] = container::sum(&container).wrapping_neg();
    field(&container)
}

/// Where the acceptable field that starts at a place ends.
fn end_at(recording: &[u8], place: usize) -> Option<usize> {
    let head = recording.get(place..place + 3)?;
    let end = place + 3 + usize::from(u16::from_be_bytes([head[1], head[2]]));
    let accepted = head[0] == 0x01 && end <= recording.len() && container::read(&recording[place + 3..end]).is_ok();
    accepted.then_some(end)
}

/// The runs and the number of fields of a report that is no refusal.
fn told(report: &str) -> (Vec<Range<usize>>, usize) {
    let (runs, kept) = report.strip_suffix('\n').unwrap().rsplit_once('\n').unwrap_or(("", report.trim_end()));
    let run = |line: &str| {
        let (start, count) = line.strip_prefix("dropped ").unwrap().split_once(' ').unwrap();
        let start: usize = start.parse().unwrap();
        start..start + count.parse::<usize>().unwrap()
    };
    (runs.lines().map(run).collect(), kept.strip_prefix("kept ").unwrap().parse().unwrap())
}

/// The fields between the runs, all of them acceptable.
fn fields_between(recording: &[u8], runs: &[Range<usize>]) -> Vec<Range<usize>> {
    let (mut fields, mut place) = (Vec::new(), 0);
    let ends = (recording.len(), recording.len());
    for (start, end) in runs.iter().map(|run| (run.start, run.end)).chain([ends]) {
        while place < start {
            let end = end_at(recording, place).expect("what is kept is an acceptable field");
            fields.push(place..end);
            place = end;
        }
        assert_eq!(place, start, "no kept field reaches into a run");
        place = end;
    }
    fields
}

/// What every mending obeys, and no other than the paper's: dropped and kept bytes make the input; the runs are as long
/// as can be; the output is acceptable fields; an acceptable field of the input is kept, unless a kept one before it
/// overlaps it; the output mends to itself; the room is that of the output.
fn obeys(recording: &[u8]) {
    let starts: Vec<usize> = (0..recording.len()).filter(|&place| end_at(recording, place).is_some()).collect();
    if starts.is_empty() {
        assert_eq!((mend(recording, 0), mend(recording, 70_000)), (Err(50), Err(50)));
        assert_eq!(report(recording), "refused 50\n");
        return;
    }
    let (runs, kept) = told(&report(recording));
    assert!(runs.iter().all(|run| !run.is_empty() && run.end <= recording.len()));
    assert!(runs.windows(2).all(|two| two[0].end < two[1].start), "a kept byte lies between two runs");
    let fields = fields_between(recording, &runs);
    assert_eq!(fields.len(), kept);
    for &start in &starts {
        let found = fields[..fields.partition_point(|field| field.start <= start)].last();
        assert!(found.is_some_and(|field| field.contains(&start)), "the field at {start} is lost for nothing");
    }
    let output: Vec<u8> = fields.into_iter().flat_map(|field| recording[field].to_vec()).collect();
    assert_eq!(mend(recording, output.len()), Ok(output.clone()));
    assert_eq!(mend(recording, output.len() - 1), Err(12));
    assert_eq!(mend(&output, output.len()), Ok(output.clone()));
    assert_eq!(report(&output), format!("kept {kept}\n"));
}

/// "A recording of one or more whole acceptable fields comes out as it went in."
#[test]
fn whole_recordings_come_out_as_they_went_in() {
    let largest = containers().pop().unwrap().1;
    assert_eq!(largest.len(), 254);
    let all = [BARE.to_vec(), VIDEO.to_vec(), AUDIO.to_vec(), HOLDING.to_vec(), field(&largest)];
    for (first, second) in all.iter().flat_map(|first| all.iter().map(move |second| (first, second))) {
        for (whole, kept) in [(first.clone(), 1), ([&first[..], second].concat(), 2), ([&second[..]; 7].concat(), 7)] {
            assert_eq!(mend(&whole, whole.len()), Ok(whole.clone()));
            assert_eq!(report(&whole), format!("kept {kept}\n"));
            obeys(&whole);
        }
    }
    assert_eq!(report(&three_fields()), "kept 3\n");
}

/// A recording's parts, the lines, the fields of the output.
type ByHand<'a> = (&'a [&'a [u8]], &'a str, &'a [&'a [u8]]);

/// Lines and outputs worked out by hand.
#[test]
fn recordings_by_hand() {
    let wrong_sum = [0x01, 0x00, 0x07, 0x00, 0x07, 0x04, 0x52, 0x09, 0xF0, 0xAB];
    let other_tag = [0x02, 0x00, 0x07, 0x00, 0x07, 0x04, 0x52, 0x09, 0xF0, 0xAA];
    let by_hand: [ByHand; 18] = [
        (&[&[0xFF, 0xFF], &BARE, &[0x00], &VIDEO], "dropped 0 2\ndropped 10 1\nkept 2\n", &[&BARE, &VIDEO]),
        (&[&BARE, &[0x01, 0x01, 0x01]], "dropped 8 3\nkept 1\n", &[&BARE]),
        (&[&other_tag, &AUDIO], "dropped 0 10\nkept 1\n", &[&AUDIO]),
        (&[&BARE, &wrong_sum, &AUDIO], "dropped 8 10\nkept 2\n", &[&BARE, &AUDIO]),
        (&[&BARE, &VIDEO[..9]], "dropped 8 9\nkept 1\n", &[&BARE]),
        (&[&BARE, &VIDEO[..2]], "dropped 8 2\nkept 1\n", &[&BARE]),
        // A field that has lost its last byte reaches into the next one, which is kept nevertheless.
        (&[&VIDEO[..9], &BARE], "dropped 0 9\nkept 1\n", &[&BARE]),
        (&[&VIDEO[1..], &BARE, &VIDEO[1..]], "dropped 0 9\ndropped 17 9\nkept 1\n", &[&BARE]),
        // 01 01 00: a length of 256. 01 00 01: a container of one byte. 01 00 05 01: version 1. 01 00 08: a field in a
        // field.
        (&[&[0x01], &BARE], "dropped 0 1\nkept 1\n", &[&BARE]),
        (&[&[0x01, 0x00], &BARE], "dropped 0 2\nkept 1\n", &[&BARE]),
        (&[&[0x01, 0x00, 0x05], &BARE], "dropped 0 3\nkept 1\n", &[&BARE]),
        (&[&[0x01, 0x00, 0x08], &BARE, &AUDIO], "dropped 0 3\nkept 2\n", &[&BARE, &AUDIO]),
        (&[&[0x01, 0x00, 0x00], &BARE], "dropped 0 3\nkept 1\n", &[&BARE]),
        // Each run by itself, whether of one byte or more.
        (
            &[&BARE, &[7], &BARE, &[7], &BARE, &[7]],
            "dropped 8 1\ndropped 17 1\ndropped 26 1\nkept 3\n",
            &[&BARE, &BARE, &BARE],
        ),
        (&[&wrong_sum, &other_tag, &[0; 80], &BARE], "dropped 0 100\nkept 1\n", &[&BARE]),
        // A length that is 1 too many, at the end and before a byte; 1 too few.
        (&[&AUDIO, &[0x01, 0x00, 0x06], &BARE[3..]], "dropped 13 8\nkept 1\n", &[&AUDIO]),
        (&[&[0x01, 0x00, 0x06], &BARE[3..], &AUDIO], "dropped 0 8\nkept 1\n", &[&AUDIO]),
        (&[&[0x01, 0x00, 0x04], &BARE[3..], &AUDIO], "dropped 0 8\nkept 1\n", &[&AUDIO]),
    ];
    for (recording, lines, output) in by_hand {
        assert_eq!(report(&recording.concat()), lines);
        assert_eq!(mend(&recording.concat(), 4096), Ok(output.concat()));
        obeys(&recording.concat());
    }
}

/// "50, given exactly when no place in the input starts an acceptable field."
#[test]
fn recordings_with_nothing_in_them() {
    let nothing: [&[u8]; 12] = [
        &[],
        &[0x00],
        &[0x01],
        &[0x01, 0x00],
        &[0x01, 0x00, 0x00],
        &[0x01, 0x00, 0x05],
        &BARE[..7],
        &BARE[1..],
        &[0x00; 500],
        &[0x01; 500],
        &[0xFF; 500],
        &[0x01, 0x05, 0x00, 0x00, 0x00, 0x02, 0x50, 0xAE],
    ];
    for recording in nothing {
        assert_eq!(report(recording), "refused 50\n");
        assert_eq!((mend(recording, 0), mend(recording, 4096)), (Err(50), Err(50)));
        obeys(recording);
    }
    for (number, container) in containers() {
        let expected = if number.is_some() { "refused 50\n" } else { "kept 1\n" };
        assert_eq!(report(&field(&container)), expected);
    }
}

/// Each of 20 to 28 between two whole fields: the whole field is dropped, byte by byte.
#[test]
fn refused_containers_between_whole_fields() {
    for (number, container) in containers() {
        let recording = [&BARE[..], &field(&container), &VIDEO].concat();
        let lines = match number {
            Some(_) => format!("dropped 8 {}\nkept 2\n", 3 + container.len()),
            None => "kept 3\n".to_string(),
        };
        assert_eq!(report(&recording), lines, "{number:?}");
        obeys(&recording);
    }
}

/// Every part of the three fields' bytes from one place to another: the fields that are whole in it, by hand.
#[test]
fn every_cut_of_three_fields() {
    let whole = three_fields();
    for (from, to) in (0..=31).flat_map(|from| (from..=31).map(move |to| (from, to))) {
        let part = &whole[from..to];
        let left: Vec<Range<usize>> =
            [0..8, 8..18, 18..31].into_iter().filter(|field| from <= field.start && field.end <= to).collect();
        obeys(part);
        let (Some(first), Some(last)) = (left.first(), left.last()) else {
            assert_eq!(report(part), "refused 50\n");
            continue;
        };
        let mut lines = String::new();
        if from < first.start {
            lines += &format!("dropped 0 {}\n", first.start - from);
        }
        if last.end < to {
            lines += &format!("dropped {} {}\n", last.end - from, to - last.end);
        }
        assert_eq!(report(part), format!("{lines}kept {}\n", left.len()));
        assert_eq!(mend(part, 31), Ok(whole[first.start..last.end].to_vec()));
    }
}

/// Every byte of four fields overwritten with every value, the checksum behind it as it was and mended.
#[test]
fn every_byte_overwritten() {
    let fields = [&BARE[..], &HOLDING, &VIDEO, &AUDIO];
    for (number, place, value) in (0..fields.len())
        .flat_map(|number| (0..fields[number].len()).map(move |place| (number, place)))
        .flat_map(|(number, place)| (0..=255).map(move |value| (number, place, value)))
    {
        let mut changed = fields.map(<[u8]>::to_vec);
        changed[number][place] = value;
        obeys(&changed.concat());
        container::mend_checksum(&mut changed[number][3..]);
        obeys(&changed.concat());
    }
}

/// A tag is 01h, and a length what the container has: every tag and every length of 16 bits, at the end of a recording
/// and with bytes behind, so that cut fields and whole ones are tried.
#[test]
fn every_tag_and_every_length() {
    for tag in 0..=255 {
        let number = mend(&[&[tag], &BARE[1..]].concat(), 8).err();
        assert_eq!(number, if tag == 0x01 { None } else { Some(50) }, "tag {tag:02X}");
    }
    for length in 0..=0xFFFF_u16 {
        for behind in [0, 1, 3, 256, 300] {
            let recording = [&[0x01], &length.to_be_bytes()[..], &VIDEO[3..], &vec![0; behind]].concat();
            let number = mend(&recording, 10).err();
            assert_eq!(number, if length == 7 { None } else { Some(50) }, "length {length}, {behind} behind");
        }
    }
}

/// A length that reaches as far as it can, in a recording that is as long, and one byte less and more.
#[test]
fn lengths_to_the_end() {
    for size in [65_535, 65_536] {
        for length in [0xFFFB, 0xFFFC, 0xFFFD, 0xFFFE, 0xFFFF_u16] {
            let mut recording = [&[0x01], &length.to_be_bytes()[..], &BARE[3..]].concat();
            recording.resize(size - 8, 0);
            recording.extend(BARE);
            assert_eq!(report(&recording), format!("dropped 0 {}\nkept 1\n", size - 8));
        }
    }
}

/// An acceptable field within one that is kept is no field of its own; where the outer one is refused it is.
#[test]
fn fields_within_fields() {
    assert_eq!(report(&HOLDING), "kept 1\n");
    for (place, other) in [(0, 0x02), (1, 0x01), (2, 0x19), (2, 0x1B), (3, 0x01), (5, 0x18), (6, 0x5C), (7, 0x01)] {
        let mut refused = HOLDING;
        refused[place] = other;
        container::mend_checksum(&mut refused[3..]);
        assert_eq!(report(&refused), "dropped 0 8\ndropped 16 13\nkept 1\n", "place {place}");
        assert_eq!(mend(&refused, 8), Ok(BARE.to_vec()));
    }
    let mut refused = HOLDING;
    refused[28] += 1;
    assert_eq!(report(&refused), "dropped 0 8\ndropped 16 13\nkept 1\n");
    assert_eq!(report(&HOLDING[..28]), "dropped 0 8\ndropped 16 12\nkept 1\n");
    assert_eq!(report(&HOLDING[1..]), "dropped 0 7\ndropped 15 13\nkept 1\n");
    let twice = field(&field(&field(&BARE)));
    assert_eq!(report(&[&twice[..], &AUDIO].concat()), "dropped 0 9\nkept 2\n");
}

/// Of fields that overlap the first is kept: by one byte, by three, by all of the second.
#[test]
fn overlapping_fields() {
    for shared in 1..=8 {
        let first = ending_in(&BARE[..shared]);
        let recording = [&first[..], &BARE[shared..]].concat();
        assert_eq!((end_at(&recording, 0), end_at(&recording, 29 - shared)), (Some(29), Some(37 - shared)));
        let lines = if shared == 8 { String::new() } else { format!("dropped 29 {}\n", 8 - shared) };
        assert_eq!(report(&recording), format!("{lines}kept 1\n"));
        assert_eq!(mend(&recording, 29), Ok(first));
        assert_eq!(report(&recording[1..]), format!("dropped 0 {}\nkept 1\n", 28 - shared));
        assert_eq!(mend(&recording[1..], 8), Ok(BARE.to_vec()));
    }
}

/// The first of three goes over the second, and the second over the third: the third is kept. By hand.
#[test]
fn the_third_of_a_chain_is_kept() {
    let first = [&[0x01, 0x00, 0x1A, 0x00, 0x00, 0x17, 0x54, 0x00, 0x7A], &[0; 17][..], &[0x01, 0x00, 0x1A]].concat();
    let second = [&[0x01, 0x00, 0x1A, 0x00, 0x00, 0x17, 0x54, 0x00, 0x94], &[0; 19][..], &[0x01]].concat();
    assert_eq!((&first, &second), (&ending_in(&second[..3]), &ending_in(&BARE[..1])));
    let chain = [&first[..], &second[3..], &BARE[1..]].concat();
    assert_eq!(report(&chain), "dropped 29 25\nkept 2\n");
    assert_eq!(mend(&chain, 37), Ok([&first[..], &BARE].concat()));
    assert_eq!(report(&chain[1..]), "dropped 0 25\ndropped 54 7\nkept 1\n");
    assert_eq!(mend(&chain[1..], 29), Ok(second));
}

/// 51 before 50 before 12, by the recording's size, by whether it has a field, and by the room.
#[test]
fn the_refusals_in_their_order() {
    let whole: Vec<u8> = BARE.iter().copied().cycle().take(65_538).collect();
    let mut one = vec![0; 65_538];
    one[65_528..65_536].copy_from_slice(&BARE);
    let nothing = vec![0; 65_538];
    for size in [65_537, 65_538] {
        for (recording, room) in
            [&whole, &one, &nothing].into_iter().flat_map(|recording| [(recording, 0), (recording, 70_000)])
        {
            assert_eq!(mend(&recording[..size], room), Err(51));
            assert_eq!(report(&recording[..size]), "refused 51\n");
        }
    }
    for room in [0, 8, 65_535, 65_536, 70_000] {
        assert_eq!(mend(&nothing[..65_536], room), Err(50));
        let expected = if room < 65_536 { Err(12) } else { Ok(whole[..65_536].to_vec()) };
        assert_eq!(mend(&whole[..65_536], room), expected);
        let expected = if room < 8 { Err(12) } else { Ok(BARE.to_vec()) };
        assert_eq!(mend(&one[..65_536], room), expected);
        assert_eq!(mend(&one[..65_535], room), Err(50));
    }
    assert_eq!(report(&whole[..65_536]), "kept 8192\n");
    assert_eq!(report(&whole[..65_535]), "dropped 65528 7\nkept 8191\n");
    assert_eq!(report(&one[..65_536]), "dropped 0 65528\nkept 1\n");
    assert_eq!(report(&nothing[..65_536]), "refused 50\n");
}

/// The program takes no more than 65,537 bytes, and of a shorter input all.
#[test]
fn the_program_reads_one_byte_more_than_may_be() {
    assert_eq!(report_on(io::repeat(0x01)).unwrap(), "refused 51\n");
    for (size, taken, lines) in [
        (0, 0, "refused 50\n"),
        (31, 31, "kept 3\n"),
        (65_536, 65_536, "dropped 31 65505\nkept 3\n"),
        (65_537, 65_537, "refused 51\n"),
        (70_000, 65_537, "refused 51\n"),
    ] {
        let mut recording = three_fields();
        recording.resize(size, 0);
        let mut input = Cursor::new(recording);
        assert_eq!(report_on(&mut input).unwrap(), lines);
        assert_eq!(input.position(), taken);
    }
}

/// FEED, A8, and the records that are none: no room, half a room, a room above 4,096.
#[test]
fn the_record_and_its_lines() {
    let room = |room: u16, bytes: &[u8]| [&room.to_be_bytes()[..], bytes].concat();
    let damaged = [&[0x01][..], &BARE, &VIDEO[1..], &VIDEO].concat();
    let feed = [
        record(0x28, &room(8, &BARE)),
        record(0x28, &room(7, &BARE)),
        record(0x28, &room(4096, &BARE)),
        record(0x28, &room(18, &damaged)),
        record(0x28, &room(17, &damaged)),
        record(0x28, &room(0, &damaged)),
        record(0x28, &room(0, &[])),
        record(0x28, &room(4096, &BARE[..7])),
        record(0x28, &room(0, &BARE[1..])),
    ];
    let lines = "mend 0 01000500000250ae\nmend 12\nmend 0 01000500000250ae\n\
        mend 0 01000500000250ae0100070007045209f0aa\nmend 12\nmend 12\nmend 50\nmend 50\nmend 50\n";
    assert_eq!(printed(&feed.concat()), lines);
    for payload in [&[][..], &[0], &[0x10], &room(4097, &BARE), &room(0xFFFF, &BARE)] {
        assert_eq!(printed(&[record(0x28, payload), record(0x14, &[])].concat()), "bad record\n");
    }
    assert_eq!(printed(&record(0x29, &room(8, &BARE))), "bad record\n");
}

/// Without its 28h a feed prints the same lines, but for theirs: no session is touched.
#[test]
fn sessions_are_not_touched() {
    let feed = make::feed("mixed", 1).unwrap();
    let others: Vec<u8> = records(&feed)
        .iter()
        .filter(|(tag, _)| *tag != 0x28)
        .flat_map(|(tag, payload)| record(*tag, payload))
        .collect();
    let lines = printed(&feed);
    let left: Vec<&str> = lines.lines().filter(|line| !line.starts_with("mend ")).collect();
    assert!(left.len() < lines.lines().count());
    assert_eq!(left, printed(&others).lines().collect::<Vec<_>>());
}

/// The longest payload, and outputs of 4,096 bytes and next to it.
#[test]
fn the_largest_records() {
    let record_of = |room: u16, bytes: &[u8]| record(0x28, &[&room.to_be_bytes()[..], bytes].concat());
    let smallest: Vec<u8> = BARE.iter().copied().cycle().take(65_533).collect();
    assert_eq!(printed(&record_of(4096, &smallest)), "mend 12\n");
    assert_eq!(printed(&record_of(4096, &vec![0; 65_533])), "mend 50\n");
    let last = [&vec![0x01; 65_523][..], &VIDEO].concat();
    assert_eq!(printed(&record_of(10, &last)), "mend 0 0100070007045209f0aa\n");
    assert_eq!(printed(&record_of(9, &last)), "mend 12\n");
    assert_eq!(printed(&record_of(4096, &smallest[..4096])).len(), "mend 0 \n".len() + 2 * 4096);
    assert_eq!(printed(&record_of(4095, &smallest[..4096])), "mend 12\n");
    assert_eq!(printed(&record_of(4096, &smallest[..4104])), "mend 12\n");
    assert_eq!(printed(&record_of(4096, &smallest[..4103])).len(), "mend 0 \n".len() + 2 * 4096);
}

/// What the two kinds of random input hold obeys the same.
#[test]
fn made_recordings() {
    for seed in 1..=64 {
        let recording = make::feed("recording", seed).unwrap();
        if recording.len() > 65_536 {
            assert_eq!(report(&recording), "refused 51\n");
        } else {
            obeys(&recording);
        }
    }
    for (tag, payload) in (1..=4).flat_map(|seed| records(&make::feed("mending", seed).unwrap())) {
        assert_eq!(tag, 0x28);
        obeys(&payload[2..]);
    }
}
