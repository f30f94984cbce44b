// Transport packets written and read by the host's own calls, beside a plain Rust program whose CRC_32 goes by the byte over a table. With bench/run --before:
// ancillary packets by the host's calls, beside the same calls of an earlier commit.
#![allow(unexpected_cfgs)]
mod shared;
use shared::{container, container_number, time, Program};

const fn table() -> [u32; 256] {
    let mut table = [0; 256];
    let mut i = 0;
    while i < 256 {
        let mut entry = (i as u32) << 24;
        let mut bit = 0;
        while bit < 8 {
            entry = entry << 1 ^ if entry >> 31 == 1 { 0x04c1_1db7 } else { 0 };
            bit += 1;
        }
        table[i] = entry;
        i += 1;
    }
    table
}

static TABLE: [u32; 256] = table();

fn crc(bytes: &[u8]) -> u32 {
    bytes.iter().fold(0xffff_ffff, |reg, &byte| reg << 8 ^ TABLE[(reg >> 24) as usize ^ byte as usize])
}

#[inline(never)]
fn write_in_rust(container: &[u8], out: &mut [u8]) -> (u8, usize) {
    let number = container_number(container);
    if number != 0 {
        return (number, 0);
    }
    let n = container.len();
    if out.len() < n + 10 {
        return (12, 0);
    }
    out[..4].copy_from_slice(&[0x00, 0x00, 0x01, 0xbf]);
    out[4..6].copy_from_slice(&(n as u16 + 4).to_be_bytes());
    out[6..n + 6].copy_from_slice(container);
    let seal = crc(&out[..n + 6]).to_be_bytes();
    out[n + 6..n + 10].copy_from_slice(&seal);
    (0, n + 10)
}

#[inline(never)]
fn read_in_rust(bytes: &[u8], out: &mut [u8]) -> (u8, usize) {
    if bytes.len() < 10 {
        return (40, 0);
    }
    if bytes[..4] != [0x00, 0x00, 0x01, 0xbf] {
        return (41, 0);
    }
    if bytes.len() != u16::from_be_bytes([bytes[4], bytes[5]]) as usize + 6 {
        return (42, 0);
    }
    if crc(bytes) != 0 {
        return (43, 0);
    }
    let container = &bytes[6..bytes.len() - 4];
    let number = container_number(container);
    if number != 0 {
        return (number, 0);
    }
    if out.len() < container.len() {
        return (12, 0);
    }
    out[..container.len()].copy_from_slice(container);
    (0, container.len())
}

type Call = unsafe extern "C" fn(*const u8, usize, *mut u8, usize, *mut usize) -> u8;

extern "C" {
    fn lipsync_write_transport(container: *const u8, n: usize, out: *mut u8, m: usize, written: *mut usize) -> u8;
    fn lipsync_read_transport(bytes: *const u8, n: usize, out: *mut u8, m: usize, written: *mut usize) -> u8;
}

fn called(call: Call, bytes: &[u8], out: &mut [u8]) -> (u8, usize) {
    let mut written = 1;
    let number = unsafe { call(bytes.as_ptr(), bytes.len(), out.as_mut_ptr(), out.len(), &mut written) };
    (number, written)
}

fn write_by_host(container: &[u8], out: &mut [u8]) -> (u8, usize) {
    called(lipsync_write_transport, container, out)
}

fn read_by_host(bytes: &[u8], out: &mut [u8]) -> (u8, usize) {
    called(lipsync_read_transport, bytes, out)
}

const RUNS: usize = 101;

fn row(name: &str, ours: Program, theirs: Program, given: &[u8], number: u8) {
    let calls = 400_000 / (given.len() + 20);
    let mut outs = [[0xa5u8; 600]; 2];
    let mut least = [f64::MAX; 2];
    for _ in 0..RUNS {
        for (i, program) in [ours, theirs].iter().enumerate() {
            least[i] = least[i].min(time(*program, given, &mut outs[i], calls));
        }
    }
    let answers = [ours(given, &mut outs[0]), theirs(given, &mut outs[1])];
    assert!(answers[0] == answers[1] && outs[0] == outs[1] && answers[0].0 == number, "{}: {:?}", name, answers);
    println!("|{name}|{}|{:.0}|{:.0}|{:.2}|", given.len(), least[0], least[1], least[0] / least[1]);
}

#[cfg(before)]
mod ancillary {
    use super::{called, row, Call};

    extern "C" {
        fn lipsync_write_packet(container: *const u8, n: usize, out: *mut u8, m: usize, written: *mut usize) -> u8;
        fn lipsync_read_packet(words: *const u8, n: usize, out: *mut u8, m: usize, written: *mut usize) -> u8;
        fn before_write_packet(container: *const u8, n: usize, out: *mut u8, m: usize, written: *mut usize) -> u8;
        fn before_read_packet(words: *const u8, n: usize, out: *mut u8, m: usize, written: *mut usize) -> u8;
    }

    const CALLS: [Call; 4] = [lipsync_write_packet, before_write_packet, lipsync_read_packet, before_read_packet];

    pub fn rows(name: &str, container: &[u8]) {
        let mut packet = [0u8; 600];
        let (number, size) = called(CALLS[0], container, &mut packet);
        assert!(number == 0);
        row(&format!("Wrap, {name}"), |b, out| called(CALLS[0], b, out), |b, out| called(CALLS[1], b, out), container, 0);
        row(&format!("Unwrap, {name}"), |b, out| called(CALLS[2], b, out), |b, out| called(CALLS[3], b, out), &packet[..size], 0);
    }
}

fn main() {
    let with_id = |flags: u8| [&[0, 9, 0, flags, 0][..], &[0x5a; 20], &[0x11, 52, 55]].concat();
    let with_video = |prints| container(&[0, 9, 0, 0x53, 0x11, 52, 55], prints, 5);
    let containers = [
        ("no part", container(&[0, 9, 0, 0x50], 0, 0)),
        ("video, 1 fingerprint", with_video(1)),
        ("video, 2 fingerprints", with_video(2)),
        ("video, 4 fingerprints", with_video(4)),
        ("video, 8 fingerprints", with_video(8)),
        ("video, 16 fingerprints", with_video(16)),
        ("the largest", container(&with_id(0x57), 32, 5)),
    ];
    println!("ns a call, the least of {RUNS} runs\n\n|Call|bytes given|host's call|plain Rust|ratio|\n|--|--|--|--|--|");
    let mut packets = Vec::new();
    for (name, c) in &containers {
        let mut out = [0u8; 300];
        let (number, size) = write_in_rust(c, &mut out);
        assert!(number == 0, "{}", name);
        packets.push((name, out[..size].to_vec()));
        row(&format!("Write, {name}"), write_by_host, write_in_rust, c, 0);
    }
    for (name, packet) in &packets {
        row(&format!("Read, {name}"), read_by_host, read_in_rust, packet, 0);
    }
    for (name, packet) in &packets {
        let mut damaged = packet.clone();
        *damaged.last_mut().unwrap() ^= 1;
        row(&format!("Read, {name}, refused with 43"), read_by_host, read_in_rust, &damaged, 43);
    }
    let mut long = vec![0x5a; 65541];
    long[..6].copy_from_slice(&[0x00, 0x00, 0x01, 0xbf, 0xff, 0xff]);
    row("Read, the longest, refused with 43", read_by_host, read_in_rust, &long, 43);
    #[cfg(before)]
    {
        println!("\n|Call|bytes given|host's call|before|ratio|\n|--|--|--|--|--|");
        for (name, c) in &containers {
            ancillary::rows(name, c);
        }
    }
}
