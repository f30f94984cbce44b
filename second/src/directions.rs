// directions.rs: tests of 02's A1: the signed difference of two bytes, and a field's two counts beside its fingerprint.

use crate::formats::{Format, FORMATS, PIXELS_PER_ROW};
use crate::session::{setup, Session};
use crate::video::FieldEnd::{self, Fingerprint, NotEnded, WithoutFingerprint};
use crate::video::{difference, went_brighter, went_darker};

/// 576i at 25 Hz and 720p at 50 Hz.
const INTERLACED: (u8, u8) = (1, 5);
const PROGRESSIVE: (u8, u8) = (2, 9);

/// A field of 960 bytes, all `base` but for runs of so many that lie so far from it, one after the other.
fn field(base: u8, runs: &[(usize, i16)]) -> Vec<u8> {
    let mut pixels: Vec<u8> =
        runs.iter().flat_map(|&(count, step)| vec![(i16::from(base) + step) as u8; count]).collect();
    pixels.resize(960, base);
    pixels
}

/// A line whose taps are all at their pixel's byte.
fn line_of(format: &Format, row: &[u8]) -> Vec<u8> {
    let mut line = vec![0; 2 * format.width];
    for (k, &byte) in row.iter().enumerate() {
        for tap in format.taps.0..=format.taps.1 {
            let place = 2 * ((format.h_start + k * format.h_step) as isize + tap) as usize;
            line[place..place + 2].copy_from_slice(&(4 * u16::from(byte)).to_le_bytes());
        }
    }
    line
}

/// What the field's 16th line tells; the 15 before it end nothing.
fn taken(session: &mut Session, field: &[u8]) -> FieldEnd {
    let mut ends: Vec<FieldEnd> = Vec::new();
    for row in field.chunks(PIXELS_PER_ROW) {
        let running = session.0.as_ref().unwrap();
        let (number, line) = (running.picture.expected_line(running.format), line_of(running.format, row));
        ends.push(session.line(number, &line).unwrap());
    }
    assert_eq!(ends[..15], [NotEnded; 15]);
    ends[15]
}

/// What each field tells, and each container packed on the way.
fn run(session: &mut Session, fields: &[Vec<u8>]) -> (Vec<FieldEnd>, Vec<Vec<u8>>) {
    let (mut ends, mut containers) = (Vec::new(), Vec::new());
    for field in fields {
        ends.push(taken(session, field));
        containers.extend(session.pack(&[], 255));
    }
    (ends, containers)
}

fn fresh((format, rate): (u8, u8)) -> Session {
    setup(format, rate, 1, &[1]).unwrap()
}

/// What the last of three progressive fields tells: the third against the first.
fn third(fields: [Vec<u8>; 3]) -> FieldEnd {
    run(&mut fresh(PROGRESSIVE), &fields).0[2]
}

fn told(value: u8, brighter: usize, darker: usize) -> FieldEnd {
    Fingerprint { value, brighter, darker }
}

#[test]
fn the_difference_is_current_minus_older() {
    let by_hand = [
        (0, 255, -255),
        (1, 255, -254),
        (0, 32, -32),
        (100, 132, -32),
        (223, 255, -32),
        (0, 31, -31),
        (224, 255, -31),
        (127, 128, -1),
        (0, 0, 0),
        (128, 128, 0),
        (255, 255, 0),
        (128, 127, 1),
        (31, 0, 31),
        (255, 224, 31),
        (32, 0, 32),
        (132, 100, 32),
        (255, 223, 32),
        (255, 1, 254),
        (255, 0, 255),
    ];
    for (current, older, expected) in by_hand {
        assert_eq!(difference(current, older), expected, "{current} over {older}");
    }
}

/// Every pair of bytes so far apart: there are 256 less the distance.
#[test]
fn a_change_is_32_or_more_either_way() {
    let (up, down, still) = ((true, false), (false, true), (false, false));
    let steps = [(-255, down), (-254, down), (-128, down), (-34, down), (-33, down), (-32, down), (-31, still)];
    let steps = steps.into_iter().chain([(-30, still), (-1, still), (0, still), (1, still), (30, still), (31, still)]);
    let steps = steps.chain([(32, up), (33, up), (34, up), (128, up), (254, up), (255, up)]);
    for (step, expected) in steps {
        let pairs = (0..256).filter(|older| (0..256).contains(&(older + step)));
        let mut seen = 0;
        for older in pairs {
            let difference = difference((older + step) as u8, older as u8);
            assert_eq!(i32::from(difference), step, "older {older}");
            assert_eq!((went_brighter(difference), went_darker(difference)), expected, "step {step}, older {older}");
            seen += 1;
        }
        assert_eq!(seen, 256 - step.abs());
    }
}

/// 01: "A pixel is changed if the two differ by 32 or more, either way". At distance d there are 256 - d pairs each
/// way, and 224 + 223 + .. + 1 = 25,200.
#[test]
fn over_all_pairs_the_two_ways_make_up_the_old_rule() {
    let (mut brighter, mut darker) = (0, 0);
    for (current, older) in (0..=255u8).flat_map(|current| (0..=255u8).map(move |older| (current, older))) {
        let difference = difference(current, older);
        let (up, down) = (went_brighter(difference), went_darker(difference));
        assert!(!(up && down), "{current} over {older}");
        assert_eq!(up || down, current.abs_diff(older) >= 32, "{current} over {older}");
        assert!(!up || current > older, "{current} over {older}");
        assert!(!down || current < older, "{current} over {older}");
        (brighter, darker) = (brighter + usize::from(up), darker + usize::from(down));
    }
    assert_eq!((brighter, darker), (25_200, 25_200));
}

/// 01, Figures: "3 changed give 0, 4 give 1, 960 give 240"; A1: "their sum is the count of old".
#[test]
fn the_fingerprint_is_the_sum_divided_by_4() {
    let by_hand = [
        (0, [(0, 0), (1, 0), (0, 1), (2, 1)]),
        (0, [(1, 2), (3, 0), (0, 3), (1, 1)]),
        (1, [(4, 0), (0, 4), (3, 1), (1, 3)]),
        (1, [(2, 2), (7, 0), (0, 7), (5, 2)]),
        (2, [(8, 0), (1, 7), (3, 8), (11, 0)]),
        (239, [(959, 0), (0, 959), (956, 0), (478, 479)]),
        (240, [(960, 0), (0, 960), (480, 480), (1, 959)]),
    ];
    for (value, counts) in by_hand {
        for (brighter, darker) in counts {
            let changed = field(100, &[(brighter, 32), (darker, -32)]);
            let end = third([field(100, &[]), field(0, &[]), changed]);
            assert_eq!(end, told(value, brighter, darker));
        }
    }
}

#[test]
fn differences_of_31_count_neither_way() {
    let mixed = field(100, &[(300, 31), (2, 32), (300, -31), (1, -32), (100, 1), (100, -1), (5, 155), (4, -100)]);
    assert_eq!(third([field(100, &[]), field(100, &[]), mixed]), told(3, 2 + 5, 1 + 4));
    let all = |step| third([field(100, &[]), field(100, &[]), field(100, &[(960, step)])]);
    assert_eq!([31, -31, 32, -32].map(all), [told(0, 0, 0), told(0, 0, 0), told(240, 960, 0), told(240, 0, 960)]);
    assert_eq!(third([field(0, &[]), field(9, &[]), field(255, &[])]), told(240, 960, 0));
    assert_eq!(third([field(255, &[]), field(9, &[]), field(0, &[])]), told(240, 0, 960));
}

#[test]
fn exchanged_fields_exchange_the_counts() {
    let one = field(100, &[]);
    let other = field(100, &[(5, 32), (3, -40), (7, 31), (2, -31), (40, 155)]);
    assert_eq!(third([one.clone(), one.clone(), other.clone()]), told(12, 45, 3));
    assert_eq!(third([other, one.clone(), one]), told(12, 3, 45));
}

/// 01: "A sample counts as its bits 9 to 2", and the floor of the mean comes before the comparison.
#[test]
fn the_difference_is_that_of_the_sampled_bytes() {
    let format = &FORMATS[usize::from(PROGRESSIVE.0)];
    let flat = |taps: [u16; 2]| {
        let mut line = vec![0; 2 * format.width];
        for k in 0..PIXELS_PER_ROW {
            let place = 2 * (format.h_start + k * format.h_step);
            line[place - 2..place].copy_from_slice(&taps[0].to_le_bytes());
            line[place..place + 2].copy_from_slice(&taps[1].to_le_bytes());
        }
        line
    };
    let against = |older: [u16; 2], current: [u16; 2]| {
        let mut session = fresh(PROGRESSIVE);
        let mut last = NotEnded;
        for taps in [older, [0, 0], current] {
            (0..16).for_each(|row| last = session.line(117 + 32 * row, &flat(taps)).unwrap());
            session.pack(&[], 255).unwrap();
        }
        last
    };
    // means of 0 (0 and 1 as 8-bit values) and 32: their taps differ by 31 and 32
    assert_eq!(against([0, 4], [128, 128]), told(240, 960, 0));
    assert_eq!(against([128, 128], [0, 4]), told(240, 0, 960));
    // words 127 and 0: 31 as 8-bit values, though bits 1 and 0 are set
    assert_eq!(against([0, 0], [127, 127]), told(0, 0, 0));
    assert_eq!(against([127, 127], [0, 0]), told(0, 0, 0));
    assert_eq!(against([0xFC00, 0xFC03], [128, 128]), told(240, 960, 0));
}

/// 01: "The first two fields after setup or video restart have no predecessor and give no fingerprint".
#[test]
fn no_counts_without_a_predecessor() {
    for kind in [INTERLACED, PROGRESSIVE] {
        let mut session = fresh(kind);
        let fields = [field(0, &[]), field(200, &[]), field(32, &[]), field(168, &[])];
        let expected = [WithoutFingerprint, WithoutFingerprint, told(240, 960, 0), told(240, 0, 960)];
        assert_eq!(run(&mut session, &fields).0, expected);
        session.video_restart();
        assert_eq!(run(&mut session, &fields).0, expected, "what was before the restart is forgotten");
        run(&mut session, &fields[..2]);
        session.video_restart();
        session.video_restart();
        assert_eq!(run(&mut session, &fields).0, expected);
        session.audio_restart();
        let more = [field(0, &[]), field(168, &[(9, 32)])];
        assert_eq!(run(&mut session, &more).0, [told(240, 0, 960), told(2, 9, 0)], "sound's restart is not video's");
    }
}

/// 01: "a finished field 1 included", so that the next field 1 is a first field again.
#[test]
fn a_restart_after_field_1_forgets_it() {
    let mut session = fresh(INTERLACED);
    let ends = run(&mut session, &[field(0, &[]), field(100, &[]), field(40, &[])]).0;
    assert_eq!(ends, [WithoutFingerprint, WithoutFingerprint, told(240, 960, 0)]);
    session.video_restart();
    let ends = run(&mut session, &[field(80, &[]), field(10, &[]), field(112, &[]), field(41, &[])]).0;
    assert_eq!(ends, [WithoutFingerprint, WithoutFingerprint, told(240, 960, 0), told(0, 0, 0)]);
}

/// Against the other field of the frame each count would be the other's, or 0.
#[test]
fn interlaced_fields_are_counted_against_their_own_kind() {
    let fields = [
        field(10, &[]),
        field(200, &[]),
        field(10, &[(20, 32), (7, 31)]),
        field(200, &[(12, -32), (1, 55), (30, -31)]),
        field(10, &[(10, 64), (10, 0), (7, 63)]),
        field(200, &[]),
    ];
    let counts = [told(5, 20, 0), told(3, 1, 12), told(6, 17, 10), told(3, 12, 1)];
    let ends = run(&mut fresh(INTERLACED), &fields).0;
    assert_eq!(ends, [[WithoutFingerprint; 2].to_vec(), counts.to_vec()].concat());
}

/// Each frame is like the one before it or like the one two before it, but never like both.
#[test]
fn progressive_frames_are_counted_two_back() {
    let (dark, light) = (field(40, &[]), field(40, &[(900, 100)]));
    let fields = [&dark, &light, &dark, &light, &light, &dark, &dark, &light].map(Clone::clone);
    let same = told(0, 0, 0);
    let (up, down) = (told(225, 900, 0), told(225, 0, 900));
    let ends = run(&mut fresh(PROGRESSIVE), &fields).0;
    assert_eq!(ends[..2], [WithoutFingerprint; 2]);
    assert_eq!(ends[2..], [same, same, up, down, down, up]);
}

#[test]
fn counts_are_those_of_the_field_that_ended() {
    let steps = [(0, 0), (0, 0), (1, 2), (30, 4), (0, 5), (600, 0), (0, 0), (7, 8)];
    for kind in [INTERLACED, PROGRESSIVE] {
        let mut session = fresh(kind);
        let mut two_back = vec![field(128, &[]), field(128, &[])];
        for (at, (brighter, darker)) in steps.into_iter().enumerate() {
            let mut now = two_back[at].clone();
            now[..brighter].iter_mut().for_each(|byte| *byte += 32);
            now[brighter..brighter + darker].iter_mut().for_each(|byte| *byte -= 32);
            let end = run(&mut session, &[now.clone()]).0[0];
            let value = [0, 0, 0, 8, 1, 150, 0, 3][at];
            assert_eq!(end, if at < 2 { WithoutFingerprint } else { told(value, brighter, darker) }, "field {at}");
            two_back.push(now);
        }
    }
}

/// A1: "Fingerprints and containers stay the same": what is packed tells the sums, not the ways. Of 4 to 7 changed
/// pixels it tells no more than 1.
#[test]
fn a_container_does_not_tell_the_counts() {
    for (kind, fields, video) in [(INTERLACED, 2, &[0x11, 1, 240][..]), (PROGRESSIVE, 1, &[0x09, 1])] {
        let packed = |few: [(usize, i16); 2], all: [(usize, i16); 2]| {
            let mut session = fresh(kind);
            let given = [field(128, &[]), field(128, &[]), field(128, &few), field(128, &all)];
            run(&mut session, &given[..2 + fields]).1
        };
        let first = packed([(4, 32), (0, 0)], [(960, 32), (0, 0)]);
        assert_eq!(first.last().unwrap()[4..4 + video.len()], *video);
        for few in [[(0, 32), (4, -32)], [(2, 32), (2, -32)], [(4, 32), (3, -32)], [(1, 99), (5, -99)]] {
            for all in [[(0, 32), (960, -32)], [(480, 32), (480, -32)], [(959, 32), (1, -32)]] {
                assert_eq!(packed(few, all), first);
            }
        }
    }
}

/// Lines that are refused or not monitored tell no counts, and a restart takes none from a ready frame's fingerprint.
#[test]
fn a_field_tells_its_counts_once() {
    let mut session = fresh(PROGRESSIVE);
    run(&mut session, &[field(60, &[]), field(60, &[])]);
    assert_eq!(taken(&mut session, &field(60, &[(21, 40), (23, -40)])), told(11, 21, 23));
    assert_eq!(session.line(117, &[0; 2560]), Err(5));
    assert_eq!(session.line(118, &[0; 2560]), Ok(NotEnded));
    session.video_restart();
    assert_eq!(session.pack(&[], 255).unwrap(), [0x00, 0x02, 0x04, 0x92, 0x09, 11, 0x54]);
}
