// Recordings mended by the host's own call, beside a plain Rust program that collects what is kept as it goes and copies it where it has room.
mod shared;
use shared::{container, container_number, time, Program};

// The bytes of the acceptable field at a place.
fn field(recording: &[u8], at: usize) -> Option<&[u8]> {
    let rest = &recording[at..];
    if rest[0] != 0x01 || rest.len() < 3 {
        return None;
    }
    let end = u16::from_be_bytes([rest[1], rest[2]]) as usize + 3;
    let field = rest.get(..end)?;
    (container_number(&field[3..]) == 0).then_some(field)
}

#[inline(never)]
fn mend_in_rust(recording: &[u8], out: &mut [u8]) -> (u8, usize) {
    if recording.len() > 65536 {
        return (51, 0);
    }
    let mut kept = Vec::new();
    let mut at = 0;
    while at < recording.len() {
        match field(recording, at) {
            Some(field) => {
                kept.extend_from_slice(field);
                at += field.len();
            }
            None => at += 1,
        }
    }
    if kept.is_empty() {
        return (50, 0);
    }
    if out.len() < kept.len() {
        return (12, 0);
    }
    out[..kept.len()].copy_from_slice(&kept);
    (0, kept.len())
}

extern "C" {
    fn lipsync_mend(recording: *const u8, n: usize, out: *mut u8, m: usize, written: *mut usize) -> u8;
}

fn mend_by_host(recording: &[u8], out: &mut [u8]) -> (u8, usize) {
    let mut written = 1;
    let number = unsafe { lipsync_mend(recording.as_ptr(), recording.len(), out.as_mut_ptr(), out.len(), &mut written) };
    (number, written)
}

const RUNS: usize = 51;

fn row(name: &str, given: &[u8], room: usize) {
    let calls = 1 + 60_000 / (given.len() + 20);
    let mut outs = [vec![0xa5u8; room], vec![0xa5u8; room]];
    let programs: [Program; 2] = [mend_by_host, mend_in_rust];
    let mut least = [f64::MAX; 2];
    for _ in 0..RUNS {
        for (i, program) in programs.iter().enumerate() {
            least[i] = least[i].min(time(*program, given, &mut outs[i], calls) / 1000.0);
        }
    }
    let answers = programs.map(|program| program(given, &mut vec![0xa5u8; room]));
    assert!(answers[0] == answers[1] && outs[0] == outs[1], "{}: {:?}", name, answers);
    let (number, kept) = answers[0];
    println!("|{name}|{}|{room}|{number}|{kept}|{:.2}|{:.2}|{:.2}|", given.len(), least[0], least[1], least[0] / least[1]);
}

fn field_of(container: &[u8]) -> Vec<u8> {
    [&[0x01], &(container.len() as u16).to_be_bytes()[..], container].concat()
}

const MOST: usize = 65536;

// A pattern over and over, cut at the longest recording.
fn over(pattern: &[u8]) -> Vec<u8> {
    pattern.iter().copied().cycle().take(MOST).collect()
}

// One byte in so many is overwritten.
fn damaged(mut recording: Vec<u8>, every: usize) -> Vec<u8> {
    let mut state = 1u32;
    let mut at = 0;
    while at < recording.len() {
        state = state.wrapping_mul(1664525).wrapping_add(1013904223);
        recording[at] ^= (state >> 24) as u8 | 1;
        at += 1 + (state >> 8) as usize % (2 * every);
    }
    recording
}

// An ID whose 20 bytes hold two whole fields of the smallest container.
fn field_in_id() -> Vec<u8> {
    let smallest = field_of(&container(&[0, 9, 0, 0x50], 0, 0));
    let id = [&smallest[..], &smallest, &[0; 4]].concat();
    container(&[&[0, 9, 0, 0x54, 0][..], &id].concat(), 0, 0)
}

fn main() {
    let smallest = field_of(&container(&[0, 9, 0, 0x50], 0, 0));
    let usual = field_of(&container(&[0, 9, 0, 0x53, 0x11, 52, 55], 2, 5));
    let with_id = [&[0, 9, 0, 0x57, 0][..], &[0x5a; 20], &[0x11, 52, 55]].concat();
    let largest = field_of(&container(&with_id, 32, 5));
    // a field of 254 bytes starts at every sixth byte: only the checksum, over all of them, tells that it is none
    let nested = [0x01, 0x00, 0xfe, 0x00, 0x07, 0xfb];
    println!("us a call, the least of {RUNS} runs\n\n|Recording|bytes|room|number|kept|host's call|plain Rust|ratio|\n|--|--|--|--|--|--|--|--|");
    let recordings = [
        ("01h alone", over(&[0x01])),
        ("zeros", over(&[0x00])),
        ("lengths that point just past the end", over(&[0x01, 0xff])),
        ("lengths that point far, but within", over(&[0x01, 0x00, 0xff])),
        ("fields within fields, refused by the checksum", over(&nested)),
        ("fields within an ID", over(&field_of(&field_in_id()))),
        ("the smallest containers", over(&smallest)),
        ("two fingerprints and video", over(&usual)),
        ("the largest containers", over(&largest)),
        ("the largest, one byte in 300 overwritten", damaged(over(&largest), 300)),
        ("two fingerprints and video, one byte in 100 overwritten", damaged(over(&usual), 100)),
        ("a smallest field before ten that are refused within one another", over(&[&smallest[..], &nested.repeat(10)].concat())),
        ("noise", damaged(over(&[0x01, 0x00, 0x05]), 1)),
        ("one field of two fingerprints and video", usual.clone()),
        ("one smallest field", smallest.clone()),
    ];
    for (name, recording) in &recordings {
        row(name, recording, recording.len());
    }
    // 12 is possible, so what is kept is counted first
    for (name, recording) in &recordings {
        let mut out = vec![0; recording.len()];
        let kept = mend_in_rust(recording, &mut out).1;
        if kept > 0 && kept < recording.len() {
            row(&format!("{name}, room for what is kept and no more"), recording, kept);
            row(&format!("{name}, one byte too few"), recording, kept - 1);
        }
    }
}
