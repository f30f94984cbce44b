// The session's calls: the static library of crates/bench_session against a plain Rust session behind a `&mut`, written from documents 01 and 02 (A3, A9).
use floats::{five, stereo, Floats};
use std::hint::black_box;
use std::time::Instant;

mod floats;

struct Format {
    width: usize,
    lines: usize,
    hstart: usize,
    hstep: usize,
    vstart: [usize; 2], // 0: no field 2
    vstep: usize,
    before: usize,
    taps: usize,
}

const fn format(width: usize, lines: usize, h: [usize; 2], vstart: [usize; 2], vstep: usize, before: usize, taps: usize) -> Format {
    Format { width, lines, hstart: h[0], hstep: h[1], vstart, vstep, before, taps }
}

const FORMATS: [Format; 8] = [
    format(720, 525, [123, 8], [60, 323], 10, 0, 1),
    format(720, 625, [123, 8], [68, 381], 12, 0, 1),
    format(1280, 750, [256, 13], [117, 0], 32, 1, 2),
    format(1920, 1125, [399, 19], [89, 652], 24, 1, 3),
    format(1920, 1125, [399, 19], [178, 0], 48, 1, 3),
    format(2048, 1125, [463, 19], [206, 0], 46, 1, 3),
    format(3840, 2250, [798, 38], [412, 0], 92, 3, 6),
    format(4096, 2250, [926, 38], [412, 0], 92, 3, 6),
];

impl Format {
    fn monitored(&self, number: usize) -> bool {
        let among = |first: usize| number >= first && (number - first) % self.vstep == 0 && (number - first) / self.vstep < 16;
        among(self.vstart[0]) || self.vstart[1] != 0 && among(self.vstart[1])
    }

    // A loop for each number of taps.
    fn sample(&self, line: &[u8], out: &mut [u8]) {
        let first = self.hstart - self.before;
        match self.taps {
            1 => fill::<1>(line, first, self.hstep, out),
            2 => fill::<2>(line, first, self.hstep, out),
            3 => fill::<3>(line, first, self.hstep, out),
            _ => fill::<6>(line, first, self.hstep, out),
        }
    }
}

fn fill<const N: usize>(line: &[u8], first: usize, step: usize, out: &mut [u8]) {
    for (k, byte) in out.iter_mut().enumerate() {
        let from = 2 * (first + step * k);
        let words = line[from..from + 2 * N].chunks_exact(2);
        let sum: u32 = words.map(|w| (u16::from_le_bytes([w[0], w[1]]) >> 2 & 0xff) as u32).sum();
        *byte = (sum / N as u32) as u8;
    }
}

fn interval(rate: u8) -> u8 {
    if [2, 4, 6, 10].contains(&rate) { 52 } else { 50 }
}

// (frames of the cadence, bytes at those named, those named from 1, bytes at the others)
fn cadence(rate: u8) -> (usize, usize, &'static [usize], usize) {
    match rate {
        2 => (16, 4, &[1, 6, 11], 5),
        3 => (1, 5, &[], 5),
        4 => (32, 3, &[3, 5, 8, 10, 13, 15, 18, 20, 23, 25, 28, 30, 32], 2),
        5 => (5, 4, &[1], 5),
        6 => (20, 3, &[1, 7, 14], 4),
        7 => (1, 4, &[], 4),
        8 => (2, 2, &[1], 3),
        9 => (5, 3, &[3, 5], 2),
        10 => (40, 1, &[1, 14, 27], 2),
        _ => (1, 2, &[], 2),
    }
}

struct Print {
    mix: u8,
    envelope: u32,
    mean: u32,
    wait: u8,
    started: bool,
    held: usize,
    bytes: [u8; 32],
}

fn sample(b: &[u8]) -> i32 {
    i16::from_le_bytes([b[0], b[1]]) as i32
}

fn instant_bytes(mix: u8) -> usize {
    [0, 2, 4, 0, 0, 10][mix as usize]
}

impl Print {
    fn new(mix: u8) -> Print {
        Print { mix, envelope: 0, mean: 0, wait: 0, started: false, held: 0, bytes: [0; 32] }
    }

    fn new_bits(&self, instants: usize, d: u8) -> usize {
        if instants <= self.wait as usize { 0 } else { (instants - self.wait as usize).div_ceil(d as usize) }
    }

    fn step(&mut self, d: u8, m: i32) {
        let a = if m < 0 { -m - 1 } else { m } as u32;
        if self.started {
            self.envelope = 8 * a + self.envelope - self.envelope / 1024;
            self.mean = a + self.mean - self.mean / 8192;
        }
        self.started = true;
        if self.wait == 0 {
            if self.mean < self.envelope {
                self.bytes[self.held / 8] |= 1 << (self.held % 8);
            }
            self.held += 1;
            self.wait = d - 1;
        } else {
            self.wait -= 1;
        }
    }

    fn hear(&mut self, rule: u8, d: u8, block: &[u8]) {
        match self.mix {
            1 => block.chunks_exact(2).for_each(|b| self.step(d, sample(b))),
            2 => block.chunks_exact(4).for_each(|b| self.step(d, stereo(rule, sample(b), sample(&b[2..])))),
            _ => block.chunks_exact(10).for_each(|b| self.step(d, five(rule, sample(b), sample(&b[2..]), sample(&b[4..]), sample(&b[6..]), sample(&b[8..])))),
        }
    }

    fn shed(&mut self, n: usize) {
        self.bytes.copy_within(n.., 0);
        self.bytes[32 - n..].fill(0);
        self.held -= 8 * n;
    }
}

struct Session {
    format: usize,
    rate: u8,
    rule: u8,
    prints: Vec<Print>,
    older: [u8; 960],
    newer: [u8; 960],
    filling: [u8; 960],
    row: usize,
    held: u8,
    field: usize,
    first: Option<u8>,
    ready: bool,
    shown: Vec<u8>,
    counter: u8,
    place: usize,
}

// What a line tells: the field goes on, or it ended with no fingerprint, or with this one and so many brighter and darker pixels.
#[derive(PartialEq)]
enum Told {
    Open,
    Nothing,
    Value { fingerprint: u8, brighter: u16, darker: u16 },
}

impl Session {
    // Setup, for a format, a rate, a mixing rule and mix types that the papers list.
    fn new(format: usize, rate: u8, rule: u8, mixes: &[u8]) -> Session {
        Session {
            format,
            rate,
            rule,
            prints: mixes.iter().map(|&mix| Print::new(mix)).collect(),
            older: [0; 960],
            newer: [0; 960],
            filling: [0; 960],
            row: 0,
            held: 0,
            field: 1,
            first: None,
            ready: false,
            shown: Vec::with_capacity(2),
            counter: 0,
            place: 0,
        }
    }

    #[inline(never)]
    fn line(&mut self, number: usize, line: &[u8]) -> Result<Told, u8> {
        let f = &FORMATS[self.format];
        if line.len() != 2 * f.width {
            return Err(2);
        }
        if number < 1 || f.lines < number {
            return Err(3);
        }
        if number != f.vstart[self.field - 1] + f.vstep * self.row {
            return if f.monitored(number) { Err(4) } else { Ok(Told::Open) };
        }
        if self.ready {
            return Err(5);
        }
        f.sample(line, &mut self.filling[60 * self.row..60 * self.row + 60]);
        self.row += 1;
        if self.row < 16 {
            return Ok(Told::Open);
        }
        Ok(self.end_field(f.vstart[1] != 0))
    }

    fn end_field(&mut self, two: bool) -> Told {
        let (mut told, mut value) = (Told::Nothing, None);
        if self.held < 2 {
            self.held += 1;
        } else {
            let (mut brighter, mut darker) = (0, 0);
            for (&current, &older) in self.filling.iter().zip(&self.older) {
                let difference = current as i16 - older as i16;
                brighter += u16::from(difference >= 32);
                darker += u16::from(difference <= -32);
            }
            let fingerprint = ((brighter + darker) / 4) as u8;
            (told, value) = (Told::Value { fingerprint, brighter, darker }, Some(fingerprint));
        }
        self.older = self.newer;
        self.newer = self.filling;
        self.row = 0;
        if two && self.field == 1 {
            self.field = 2;
            self.first = value;
        } else {
            self.ready = true;
            self.field = 1;
            self.shown.clear();
            match (two, self.first, value) {
                (true, Some(a), Some(b)) => self.shown.extend([a, b]),
                (false, _, Some(a)) => self.shown.push(a),
                _ => (),
            }
        }
        told
    }

    #[inline(never)]
    fn sound(&mut self, k: usize, block: &[u8]) -> Result<(), u8> {
        let d = interval(self.rate);
        let Some(p) = self.prints.get_mut(k) else { return Err(7) };
        let size = instant_bytes(p.mix);
        if block.len() % size != 0 {
            return Err(8);
        }
        if p.held + p.new_bits(block.len() / size, d) > 256 {
            return Err(9);
        }
        p.hear(self.rule, d, block);
        Ok(())
    }

    #[inline(never)]
    fn instant(&mut self, k: usize, i: Floats) -> Result<(), u8> {
        let d = interval(self.rate);
        let Some(p) = self.prints.get_mut(k) else { return Err(7) };
        if i.has_nan() || i.kind() != p.mix {
            return Err(14);
        }
        if p.held + p.new_bits(1, d) > 256 {
            return Err(9);
        }
        p.step(d, i.mixed(self.rule));
        Ok(())
    }

    #[inline(never)]
    fn pack(&mut self, id: &[u8], out: &mut [u8]) -> Result<usize, u8> {
        if !self.ready {
            return Err(10);
        }
        if id.len() != 0 && id.len() != 20 {
            return Err(11);
        }
        let (frames, few, named, else_) = cadence(self.rate);
        let due = if named.contains(&(self.place + 1)) { few } else { else_ };
        let audio = self.prints.iter().all(|p| p.held >= 8 * due);
        let mut size = 5;
        size += if id.is_empty() { 0 } else { 21 };
        size += if self.shown.is_empty() { 0 } else { 1 + self.shown.len() };
        size += if audio { 1 + self.prints.len() * (2 + due) } else { 0 };
        if out.len() < size {
            return Err(12);
        }
        self.write(id, audio, due, &mut out[..size]);
        if audio {
            self.prints.iter_mut().for_each(|p| p.shed(due));
            self.place = (self.place + 1) % frames;
        }
        self.ready = false;
        self.counter = self.counter.wrapping_add(1);
        Ok(size)
    }

    fn write(&self, id: &[u8], audio: bool, due: usize, out: &mut [u8]) {
        let flags = 4 * !id.is_empty() as u8 + 2 * !self.shown.is_empty() as u8 + audio as u8;
        let length = (out.len() - 3) as u8;
        let mut at = 0;
        let mut put = |bytes: &[u8]| {
            out[at..at + bytes.len()].copy_from_slice(bytes);
            at += bytes.len();
        };
        put(&[0, self.counter, length, self.rate << 4 | flags]);
        if !id.is_empty() {
            put(&[0]);
            put(id);
        }
        if !self.shown.is_empty() {
            put(&[if self.shown.len() == 1 { 0x09 } else { 0x11 }]);
            put(&self.shown);
        }
        if audio {
            put(&[((self.prints.len() - 1) * 8 + 2) as u8]);
            for (k, p) in self.prints.iter().enumerate() {
                put(&[k as u8 * 8 + p.mix, due as u8 * 8]);
                put(&p.bytes[..due]);
            }
        }
        let sum = out[..at].iter().fold(0u8, |s, b| s.wrapping_add(*b));
        out[at] = sum.wrapping_neg();
    }
}

const INSTANTS: usize = 1920;
const RUNS: usize = 1000;
const INSTANT_RUNS: usize = 100;
const GROWTH_RUNS: usize = 200;

// What is measured, and on what: frames of a format's monitored lines, `extra` others and `blocks` sound blocks for each fingerprint.
#[derive(Clone, Copy)]
struct Load {
    rounds: usize,
    extra: usize,
    blocks: usize,
}

struct Lent {
    format: usize,
    rate: u8,
    rule: u8,
    mixes: Vec<u8>,
    room: usize,
    even: Vec<u8>,
    odd: Vec<u8>,
    block: Vec<u8>,
}

// Frames of 32 monitored lines in which fingerprints of one mix type hear the first of these instants in turn.
struct Floating {
    rule: u8,
    mixes: Vec<u8>,
    line: Vec<u8>,
    values: Vec<f32>,
}

extern "C" {
    fn bench_session(
        rule: u8, mix: u8, rounds: usize, extra: usize, blocks: usize, even: *const u8, even_size: usize, odd: *const u8, odd_size: usize, block: *const u8,
        block_size: usize,
    ) -> u64;
    fn bench_frames(
        format: u8, rate: u8, mixes: *const u8, count: usize, rounds: usize, even: *const u8, even_size: usize, odd: *const u8, odd_size: usize,
        block: *const u8, block_size: usize,
    ) -> u64;
    fn bench_pack(
        mix: u8, rounds: usize, blocks: usize, even: *const u8, even_size: usize, odd: *const u8, odd_size: usize, block: *const u8, block_size: usize,
    ) -> u64;
    fn bench_instants(
        rule: u8, mixes: *const u8, count: usize, mix: u8, rounds: usize, line: *const u8, line_size: usize, values: *const f32, values_size: usize,
    ) -> u64;
}

// Rattle's and Rust's, for one load.
type Programs<T, W> = [fn(&T, W) -> u64; 2];

fn rattle(lent: &Lent, load: Load) -> u64 {
    let (even, odd, block) = (&lent.even, &lent.odd, &lent.block);
    unsafe {
        bench_session(
            lent.rule, lent.mixes[0], load.rounds, load.extra, load.blocks, even.as_ptr(), even.len(), odd.as_ptr(), odd.len(), block.as_ptr(), block.len(),
        )
    }
}

// One block for each fingerprint, by rule 1.
fn rattle_frames(lent: &Lent, load: Load) -> u64 {
    let (mixes, even, odd, block) = (&lent.mixes, &lent.even, &lent.odd, &lent.block);
    unsafe {
        bench_frames(
            lent.format as u8, lent.rate, mixes.as_ptr(), mixes.len(), load.rounds, even.as_ptr(), even.len(), odd.as_ptr(), odd.len(), block.as_ptr(),
            block.len(),
        )
    }
}

fn rattle_packs(lent: &Lent, load: Load) -> u64 {
    let (even, odd, block) = (&lent.even, &lent.odd, &lent.block);
    unsafe { bench_pack(lent.mixes[0], load.rounds, load.blocks, even.as_ptr(), even.len(), odd.as_ptr(), odd.len(), block.as_ptr(), block.len()) }
}

// What Pack changes is put back after each, so that the next finds the session as it was.
fn rust_packs(lent: &Lent, load: Load) -> u64 {
    let mut s = lent.begun();
    let mut out = [0u8; 32];
    filled(&mut s, &lent.even, lent, load);
    s.pack(&[], &mut out).unwrap();
    filled(&mut s, &lent.odd, lent, load);
    let (place, counter) = (s.place, s.counter);
    let prints: Vec<([u8; 32], usize)> = s.prints.iter().map(|p| (p.bytes, p.held)).collect();
    let mut total = 0u64;
    for _ in 0..load.rounds {
        let mut out = [0u8; 32];
        black_box(s.pack(&[], &mut out).unwrap());
        total = sum_in(total, &out);
        (s.ready, s.place, s.counter) = (true, place, counter);
        for (p, q) in s.prints.iter_mut().zip(&prints) {
            (p.bytes, p.held) = *q;
        }
    }
    total
}

fn sum_in(total: u64, out: &[u8]) -> u64 {
    out.iter().fold(total, |t, b| (31 * t + *b as u64) % 4294967296)
}

impl Lent {
    fn begun(&self) -> Session {
        Session::new(black_box(self.format), black_box(self.rate), black_box(self.rule), &self.mixes)
    }

    // Two fields have the first line, two the second and so on: a byte is compared with that of the second preceding field (01, Video).
    fn line(&self, frame: usize) -> &[u8] {
        let turn = if FORMATS[self.format].vstart[1] == 0 { frame / 2 } else { frame };
        if turn % 2 == 0 { &self.even } else { &self.odd }
    }
}

// The monitored lines of a frame.
fn fields(s: &mut Session, line: &[u8]) {
    let f = &FORMATS[s.format];
    for &first in f.vstart.iter().filter(|&&first| first != 0) {
        for k in 0..16 {
            black_box(s.line(first + f.vstep * k, line).unwrap());
        }
    }
}

// A frame that is ready, with its sound.
fn filled(s: &mut Session, line: &[u8], lent: &Lent, load: Load) {
    fields(s, line);
    for _ in 0..load.extra {
        black_box(s.line(1000, line).unwrap());
    }
    for _ in 0..load.blocks {
        for k in 0..lent.mixes.len() {
            black_box(s.sound(k, &lent.block).unwrap());
        }
    }
}

// Panics where a call is refused: none of those measured is.
fn rust(lent: &Lent, load: Load) -> u64 {
    let mut s = lent.begun();
    let mut total = 0u64;
    for i in 0..load.rounds {
        filled(&mut s, lent.line(i), lent, load);
        let mut out = [0u8; 254];
        black_box(s.pack(&[], &mut out[..lent.room]).unwrap());
        total = sum_in(total, &out[..lent.room]);
    }
    total
}

// The load: frames, and instants in each for each fingerprint.
fn rattle_instants(lent: &Floating, (rounds, instants): (usize, usize)) -> u64 {
    let (mixes, line) = (&lent.mixes, &lent.line);
    let values = &lent.values[..instants * mixes.len() * mixes[0] as usize];
    unsafe { bench_instants(lent.rule, mixes.as_ptr(), mixes.len(), mixes[0], rounds, line.as_ptr(), line.len(), values.as_ptr(), values.len()) }
}

fn rust_instants(lent: &Floating, (rounds, instants): (usize, usize)) -> u64 {
    let (mix, count) = (lent.mixes[0], lent.mixes.len());
    let values = &lent.values[..instants * count * mix as usize];
    let mut s = Session::new(black_box(3), black_box(5), black_box(lent.rule), &lent.mixes);
    let mut total = 0u64;
    for _ in 0..rounds {
        fields(&mut s, &lent.line);
        let mut k = 0;
        Floats::each(mix, values, |i| {
            black_box(s.instant(k, i).unwrap());
            k = if k + 1 < count { k + 1 } else { 0 };
        });
        let mut out = [0u8; 254];
        black_box(s.pack(&[], &mut out).unwrap());
        total = sum_in(total, &out);
    }
    total
}

fn row(name: &str, [a, b]: [f64; 2]) {
    println!("| {name} | {a:.0} | {b:.0} | {:.2} |", a / b);
}

// ns for each of so many calls, by which the second load exceeds the first, Rattle's and Rust's: from the least times of each, run in turn, so
// that another load on the computer meets all alike.
fn between<T, W: Copy>(runs: usize, programs: Programs<T, W>, lent: &T, less: W, more: W, calls: usize) -> [f64; 2] {
    let mut least = [[f64::MAX; 2]; 2];
    for _ in 0..runs {
        for (load, least) in [less, more].iter().zip(&mut least) {
            let mut sums = [0; 2];
            for i in 0..2 {
                let began = Instant::now();
                sums[i] = programs[i](black_box(lent), black_box(*load));
                least[i] = least[i].min(began.elapsed().as_secs_f64() * 1e9);
            }
            assert!(sums[0] == sums[1] && sums[0] > 0, "the two programs differ");
        }
    }
    [0, 1].map(|i| (least[1][i] - least[0][i]) / calls as f64)
}

// Lines and sound of noise.
fn noise(mut random: impl FnMut() -> u32, format: usize, rate: u8, rule: u8, mixes: Vec<u8>, instants: usize) -> Lent {
    let mut line = || (0..2 * FORMATS[format].width).map(|_| random() as u8).collect();
    let (even, odd) = (line(), line());
    // loud and soft stretches, so that the bits differ
    let block = (0..instants * instant_bytes(mixes[0]) / 2).flat_map(|i| ((random() >> 16) as i16 >> (i / 97 % 12)).to_le_bytes()).collect();
    Lent { format, rate, rule, mixes, room: 254, even, odd, block }
}

fn main() {
    let mut x = 0x2545f491u32;
    let mut random = || {
        x ^= x << 13;
        x ^= x >> 17;
        x ^= x << 5;
        x
    };
    calls(&mut random);
    println!();
    instants(&mut random);
    println!();
    growth(&mut random);
}

fn calls(random: &mut impl FnMut() -> u32) {
    let mut lent = |rule: u8, mix: u8| Lent { room: 32, ..noise(&mut *random, 3, 5, rule, vec![mix; 2], INSTANTS) };
    println!("| 1080i, 25 Hz, two fingerprints | Rattle, ns | Rust, ns | ratio |");
    println!("|--|--|--|--|");
    let load = |rounds, extra, blocks| Load { rounds, extra, blocks };
    let calls: Programs<Lent, Load> = [rattle, rust];
    let packs: Programs<Lent, Load> = [rattle_packs, rust_packs];
    let two = lent(1, 2);
    row("Line, not monitored", between(RUNS, calls, &two, load(1, 0, 0), load(1, 1000, 0), 1000));
    for (rule, mix, name) in floats::MIXES {
        let lent = lent(rule, mix);
        let long = load(600, 1, 1);
        assert_eq!(rattle(&lent, long), rust(&lent, long), "the two programs differ where the counter has gone round");
        // two blocks a frame have room for five frames: each is accepted, and each frame has audio with one block as with two
        row(&format!("Sound, {INSTANTS} instants, {name}"), between(RUNS, calls, &lent, load(5, 0, 1), load(5, 0, 2), 10));
    }
    row("Pack, video alone", between(RUNS, packs, &two, load(10, 0, 0), load(1010, 0, 0), 1000));
    row("Pack, video and two fingerprints", between(RUNS, packs, &two, load(10, 0, 1), load(1010, 0, 1), 1000));
    for (name, extra, blocks) in [
        ("frame: 32 lines, Pack", 0, 0),
        ("frame: 32 lines, two stereo Sound, Pack", 0, 1),
        ("frame: all 1125 lines, two stereo Sound, Pack", 1093, 1),
    ] {
        row(name, between(RUNS, calls, &two, load(2, extra, blocks), load(7, extra, blocks), 5));
    }
}

fn instants(random: &mut impl FnMut() -> u32) {
    println!("| an instant in floating point | Rattle, ns | Rust, ns | ratio | all fingerprints at 48 kHz, part of a core: Rattle | Rust |");
    println!("|--|--|--|--|--|--|");
    let line: Vec<u8> = (0..2 * FORMATS[3].width).map(|_| random() as u8).collect();
    for count in [1, 2, 32] {
        for (rule, mix, name) in floats::MIXES {
            let values = floats::values((0..2 * INSTANTS * count * mix as usize).map(|_| random()));
            instant_row(name, &Floating { rule, mixes: vec![mix; count], line: line.clone(), values });
        }
    }
}

// Twice a block's instants in a frame have room for five frames, and each frame has audio with them as with a block's.
fn instant_row(name: &str, lent: &Floating) {
    let programs: Programs<Floating, (usize, usize)> = [rattle_instants, rust_instants];
    assert_eq!(rattle_instants(lent, (5, 2 * INSTANTS)), rust_instants(lent, (5, 2 * INSTANTS)), "the two programs differ over five frames");
    let count = lent.mixes.len();
    let [a, b] = between(INSTANT_RUNS, programs, lent, (2, INSTANTS), (2, 2 * INSTANTS), 2 * INSTANTS * count);
    let part = |ns: f64| ns * 48000.0 * count as f64 / 1e7;
    println!("| {name}, {count} fingerprint{} | {a:.1} | {b:.1} | {:.2} | {:.1} % | {:.2} % |", if count == 1 { "" } else { "s" }, a / b, part(a), part(b));
}

// Each format's name and the fastest rate that it takes (01, Audio): its code, its name, and a frame's seconds as a fraction.
const FASTEST: [(&str, u8, &str, [usize; 2]); 8] = [
    ("485i", 6, "29.97", [1001, 30000]),
    ("576i", 5, "25", [1, 25]),
    ("720p", 11, "60", [1, 60]),
    ("1080i", 7, "30", [1, 30]),
    ("1080p", 11, "60", [1, 60]),
    ("2048x1080p", 11, "60", [1, 60]),
    ("3840x2160p", 11, "60", [1, 60]),
    ("4096x2160p", 11, "60", [1, 60]),
];

fn growth(random: &mut impl FnMut() -> u32) {
    println!("| Format | Rate | fingerprints | a frame in Rattle, us | in Rust, us | Ratio | Feeds one core carries |");
    println!("|--|--|--|--|--|--|--|");
    for (format, &(_, rate, _, period)) in FASTEST.iter().enumerate() {
        for count in [1, 8, 32] {
            let instants = (48000 * period[0]).div_ceil(period[1]);
            growth_row(&noise(&mut *random, format, rate, 1, vec![2; count], instants));
        }
    }
}

// A frame with video and audio. At 29.97 Hz a block of whole instants brings a little more than the cadence takes, which over so few frames stays far below
// the 256 bits that have room.
fn growth_row(lent: &Lent) {
    let (name, _, rate, period) = FASTEST[lent.format];
    let load = |rounds| Load { rounds, extra: 0, blocks: 1 };
    assert_full(lent, load(7));
    let [a, b] = between(GROWTH_RUNS, [rattle_frames, rust], lent, load(2), load(7), 5);
    let feeds = (1e9 * period[0] as f64 / period[1] as f64 / a).floor();
    println!("| {name} | {rate} | {} | {:.1} | {:.1} | {:.2} | {feeds:.0} |", lent.mixes.len(), a / 1e3, b / 1e3, a / b);
}

// Every frame after the second has audio, and video that is not 0.
fn assert_full(lent: &Lent, load: Load) {
    let mut s = lent.begun();
    for i in 0..load.rounds {
        let mut out = [0u8; 254];
        filled(&mut s, lent.line(i), lent, load);
        s.pack(&[], &mut out).unwrap();
        assert!(i < 2 || out[3] % 4 == 3 && out[5] > 0, "a frame without video or audio");
    }
}
