// Line sampling by the host's own call, beside a plain Rust program, one specialised by hand and the least that any program can do; and the call Line.
#![allow(unexpected_cfgs)]
use std::hint::black_box;
use std::time::Instant;

// width, HStart, HStep, VStart f1, VStart f2 (0: none), VStep, taps before, taps after
struct Format(&'static str, usize, usize, usize, usize, usize, usize, usize, usize);
const FORMATS: [Format; 8] = [
    Format("485i", 720, 123, 8, 60, 323, 10, 0, 0),
    Format("576i", 720, 123, 8, 68, 381, 12, 0, 0),
    Format("720p", 1280, 256, 13, 117, 0, 32, 1, 0),
    Format("1080i", 1920, 399, 19, 89, 652, 24, 1, 1),
    Format("1080p", 1920, 399, 19, 178, 0, 48, 1, 1),
    Format("2048x1080p", 2048, 463, 19, 206, 0, 46, 1, 1),
    Format("3840x2160p", 3840, 798, 38, 412, 0, 92, 3, 2),
    Format("4096x2160p", 4096, 926, 38, 412, 0, 92, 3, 2),
];

fn luma(line: &[u8], s: usize) -> u32 {
    let word = u16::from_le_bytes([line[2 * s], line[2 * s + 1]]);
    (word >> 2 & 0xff) as u32
}

// Plain: as one would write it down.
#[inline(never)]
fn plain(format: u8, line: &[u8], out: &mut [u8]) -> u8 {
    let Some(f) = FORMATS.get(format as usize) else { return 1 };
    if line.len() != 2 * f.1 {
        return 2;
    }
    if out.len() < 60 {
        return 12;
    }
    for k in 0..60 {
        let x = f.2 + f.3 * k;
        let mut sum = 0;
        for s in x - f.7..=x + f.8 {
            sum += luma(line, s);
        }
        out[k] = (sum / (f.7 + 1 + f.8) as u32) as u8;
    }
    0
}

// Specialised: a loop for each number of taps, its bounds tested once for each pixel.
fn fill<const N: usize>(line: &[u8], first: usize, step: usize, out: &mut [u8; 60]) {
    for (k, byte) in out.iter_mut().enumerate() {
        let from = 2 * (first + step * k);
        let mut sum = 0;
        for word in line[from..from + 2 * N].chunks_exact(2) {
            sum += (u16::from_le_bytes([word[0], word[1]]) >> 2 & 0xff) as u32;
        }
        *byte = (sum / N as u32) as u8;
    }
}

fn fill_for(f: &Format, line: &[u8], out: &mut [u8; 60]) {
    match f.7 + 1 + f.8 {
        1 => fill::<1>(line, f.2 - f.7, f.3, out),
        2 => fill::<2>(line, f.2 - f.7, f.3, out),
        3 => fill::<3>(line, f.2 - f.7, f.3, out),
        _ => fill::<6>(line, f.2 - f.7, f.3, out),
    }
}

#[inline(never)]
fn special(format: u8, line: &[u8], out: &mut [u8]) -> u8 {
    let Some(f) = FORMATS.get(format as usize) else { return 1 };
    if line.len() != 2 * f.1 {
        return 2;
    }
    let Some(out) = out.first_chunk_mut::<60>() else { return 12 };
    fill_for(f, line, out);
    0
}

// Floor: each pixel's taps are loaded and added up as they are, with no test, no shift, no mean and no byte stored.
fn sum_of<const N: usize>(line: &[u8], first: usize, step: usize) -> u32 {
    let mut sum = 0;
    for k in 0..60 {
        for i in 0..N {
            sum += unsafe { line.as_ptr().add(2 * (first + step * k + i)).cast::<u16>().read_unaligned() } as u32;
        }
    }
    sum
}

#[inline(never)]
fn floor(format: u8, line: &[u8], _out: &mut [u8]) -> u8 {
    let Some(f) = FORMATS.get(format as usize) else { return 1 };
    let first = f.2 - f.7;
    black_box(match f.7 + 1 + f.8 {
        1 => sum_of::<1>(line, first, f.3),
        2 => sum_of::<2>(line, first, f.3),
        3 => sum_of::<3>(line, first, f.3),
        _ => sum_of::<6>(line, first, f.3),
    });
    0
}

type SampleLine = unsafe extern "C" fn(u8, *const u8, usize, *mut u8, usize, *mut usize) -> u8;

extern "C" {
    fn lipsync_sample_line(format: u8, line: *const u8, n: usize, out: *mut u8, m: usize, written: *mut usize) -> u8;
    #[cfg(before)]
    fn before_sample_line(format: u8, line: *const u8, n: usize, out: *mut u8, m: usize, written: *mut usize) -> u8;
    fn bench_lines(format: u8, numbers: *const usize, k: usize, lines: *const u8, n: usize) -> u32;
}

fn called(call: SampleLine, format: u8, line: &[u8], out: &mut [u8]) -> u8 {
    let mut written = 1;
    let number = unsafe { call(format, line.as_ptr(), line.len(), out.as_mut_ptr(), out.len(), &mut written) };
    assert!(written == if number == 0 { 60 } else { 0 });
    number
}

fn host(format: u8, line: &[u8], out: &mut [u8]) -> u8 {
    called(lipsync_sample_line, format, line, out)
}

// The same call of an earlier commit: bench/run --before.
#[cfg(before)]
fn before(format: u8, line: &[u8], out: &mut [u8]) -> u8 {
    called(before_sample_line, format, line, out)
}

// The call Line in Rust, on a picture behind a `&mut`, with the specialised sampling.
struct Picture {
    older: [u8; 960],
    newer: [u8; 960],
    filling: [u8; 960],
    row: usize,
    held: u8,
    field: u8,
    ready: bool,
}

const LINES: [usize; 8] = [525, 625, 750, 1125, 1125, 1125, 2250, 2250];

fn monitored(f: &Format, number: usize) -> bool {
    let among = |first: usize| number >= first && (number - first) % f.6 == 0 && (number - first) / f.6 < 16;
    among(f.4) || f.5 != 0 && among(f.5)
}

#[inline(never)]
fn line_in_rust(p: &mut Picture, format: u8, number: usize, line: &[u8]) -> (u8, Option<(u8, u16, u16)>) {
    let Some(f) = FORMATS.get(format as usize) else { return (1, None) };
    if line.len() != 2 * f.1 {
        return (2, None);
    }
    if number < 1 || LINES[format as usize] < number {
        return (3, None);
    }
    let due = if p.field == 1 { f.4 } else { f.5 } + f.6 * p.row;
    if number != due {
        return (if monitored(f, number) { 4 } else { 0 }, None);
    }
    if p.ready {
        return (5, None);
    }
    let row = p.row;
    fill_for(f, line, p.filling[60 * row..].first_chunk_mut::<60>().unwrap());
    if row < 15 {
        p.row += 1;
        return (0, None);
    }
    let mut told = None;
    if p.held < 2 {
        p.held += 1;
    } else {
        let (mut brighter, mut darker) = (0, 0);
        for (&current, &older) in p.filling.iter().zip(p.older.iter()) {
            let difference = current as i16 - older as i16;
            brighter += u16::from(difference >= 32);
            darker += u16::from(difference <= -32);
        }
        told = Some((((brighter + darker) / 4) as u8, brighter, darker));
    }
    p.older = p.newer;
    p.newer = p.filling;
    p.row = 0;
    p.ready = f.5 == 0 || p.field == 2;
    p.field = if p.ready { 1 } else { 2 };
    (0, told)
}

fn lines_in_rust(format: u8, numbers: &[usize], lines: &[u8]) -> u32 {
    let mut p = Picture { older: [0; 960], newer: [0; 960], filling: [0; 960], row: 0, held: 0, field: 1, ready: false };
    let mut sum = 0;
    for (i, &number) in numbers.iter().enumerate() {
        let (first, second) = lines.split_at(lines.len() / 2);
        let (_, told) = line_in_rust(&mut p, format, number, if i / 16 % 4 < 2 { first } else { second });
        sum = sum % 1000000 + told.map_or(0, |(value, brighter, darker)| value as u32 + brighter as u32 + 2 * darker as u32);
        p.ready = false;
    }
    sum
}

const RUNS: usize = 101;
const FIELDS: usize = 1000;

// ns for the 16 lines of a field
fn field_time(program: Program, format: u8, lines: &[Vec<u8>], out: &mut [u8]) -> f64 {
    let began = Instant::now();
    for _ in 0..FIELDS {
        for (i, line) in lines.iter().enumerate() {
            black_box(program(black_box(format), black_box(line), &mut out[60 * i..60 * i + 60]));
        }
    }
    began.elapsed().as_secs_f64() * 1e9 / FIELDS as f64
}

fn noise(x: &mut u32) -> u8 {
    *x ^= *x << 13;
    *x ^= *x >> 17;
    *x ^= *x << 5;
    *x as u8
}

type Program = fn(u8, &[u8], &mut [u8]) -> u8;

// The first is the one that the others are beside.
const PROGRAMS: &[(&str, Program)] = &[
    ("host's call", host),
    ("plain Rust", plain),
    ("specialised Rust", special),
    ("floor", floor),
    #[cfg(before)]
    ("host's call before", before),
];

fn sampling_head() {
    let times: String = PROGRAMS.iter().map(|(name, _)| format!("{name}|")).collect();
    let ratios: String = PROGRAMS[1..].iter().map(|(name, _)| format!("to {name}|")).collect();
    println!("|Format|{times}{ratios}\n|--|{}", "--|".repeat(2 * PROGRAMS.len() - 1));
}

fn sampling_row(format: usize, lines: &[Vec<u8>]) {
    let mut outs = [[0u8; 960]; PROGRAMS.len()];
    let mut least = [f64::MAX; PROGRAMS.len()];
    for _ in 0..RUNS {
        for (i, (_, program)) in PROGRAMS.iter().enumerate() {
            least[i] = least[i].min(field_time(*program, format as u8, lines, &mut outs[i]));
        }
    }
    for (i, (name, _)) in PROGRAMS.iter().enumerate() {
        assert!(*name == "floor" || outs[i] == outs[0], "{}", name);
    }
    let times: String = least.iter().map(|ns| format!("{ns:.0}|")).collect();
    let ratios: String = least[1..].iter().map(|ns| format!("{:.2}|", least[0] / ns)).collect();
    println!("|{}|{times}{ratios}", FORMATS[format].0);
}

fn line_row(format: usize, lines: &[Vec<u8>]) {
    let f = &FORMATS[format];
    let fields = if f.5 == 0 { vec![f.4] } else { vec![f.4, f.5] };
    let frame: Vec<usize> = fields.iter().flat_map(|v| (0..16).map(move |k| v + f.6 * k)).collect();
    let numbers: Vec<usize> = frame.iter().cycle().take(16 * FIELDS).copied().collect();
    let two = [&lines[0][..], &lines[1][..]].concat();
    let mut least = [f64::MAX; 2];
    for _ in 0..RUNS {
        let began = Instant::now();
        let p = unsafe { bench_lines(black_box(format as u8), numbers.as_ptr(), numbers.len(), two.as_ptr(), two.len()) };
        least[0] = least[0].min(began.elapsed().as_secs_f64() * 1e9 / numbers.len() as f64);
        let began = Instant::now();
        let q = lines_in_rust(black_box(format as u8), black_box(&numbers), black_box(&two));
        least[1] = least[1].min(began.elapsed().as_secs_f64() * 1e9 / numbers.len() as f64);
        assert!(p == q && p > 0);
    }
    println!("|{}|{:.0}|{:.0}|{:.2}|", f.0, least[0], least[1], least[0] / least[1]);
}

fn main() {
    let mut x = 0x12345;
    let lines: Vec<Vec<Vec<u8>>> = FORMATS.iter().map(|f| (0..16).map(|_| (0..2 * f.1).map(|_| noise(&mut x)).collect()).collect()).collect();
    println!("ns for the 16 lines of a field, the least of {RUNS} runs of {FIELDS} fields");
    sampling_head();
    (0..8).for_each(|format| sampling_row(format, &lines[format]));
    println!("\nns for one call of Line, the 16th lines with their comparison among them");
    println!("|Format|Line, Rattle|Line, Rust|ratio|");
    println!("|--|--|--|--|");
    (0..8).for_each(|format| line_row(format, &lines[format]));
    let mut out = [7u8; 61];
    assert!(host(8, &[], &mut out) == 1 && host(6, &[0; 7679], &mut out) == 2 && host(6, &[0; 7680], &mut out[..59]) == 12);
    assert!(out == [7; 61]);
    assert!(host(6, &[0; 7680], &mut out) == 0 && out[59] == 0 && out[60] == 7);
}
