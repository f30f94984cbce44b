// Instants a second through one audio fingerprint, in blocks and one by one in floating point: the static library of crates/bench_audio against a plain
// Rust program of the same work.
use floats::{five, stereo, Floats};
use std::time::Instant;

mod floats;

extern "C" {
    fn bench_audio(rule: u8, mix: u8, d: u8, block: *const u8, len: usize, rounds: usize) -> u64;
    fn bench_floats(rule: u8, mix: u8, d: u8, values: *const f32, len: usize, rounds: usize) -> u64;
}

const BLOCK: usize = 1920;
const D: u8 = 50;

struct Plain {
    envelope: u32,
    mean: u32,
    wait: u8,
    started: bool,
    held: usize,
    bytes: [u8; 32],
}

fn sample(b: &[u8]) -> i32 {
    i16::from_le_bytes([b[0], b[1]]) as i32
}

impl Plain {
    fn new() -> Plain {
        Plain { envelope: 0, mean: 0, wait: 0, started: false, held: 0, bytes: [0; 32] }
    }

    fn step(&mut self, m: i32) {
        let a = if m < 0 { -m - 1 } else { m } as u32;
        if self.started {
            self.envelope = 8 * a + self.envelope - self.envelope / 1024;
            self.mean = a + self.mean - self.mean / 8192;
        }
        self.started = true;
        if self.wait == 0 {
            if self.held < 256 {
                if self.mean < self.envelope {
                    self.bytes[self.held / 8] |= 1 << (self.held % 8);
                }
                self.held += 1;
            }
            self.wait = D - 1;
        } else {
            self.wait -= 1;
        }
    }

    fn heard(&mut self, rule: u8, mix: u8, block: &[u8]) {
        match mix {
            1 => block.chunks_exact(2).for_each(|b| self.step(sample(b))),
            2 => block.chunks_exact(4).for_each(|b| self.step(stereo(rule, sample(b), sample(&b[2..])))),
            _ => block.chunks_exact(10).for_each(|b| self.step(five(rule, sample(b), sample(&b[2..]), sample(&b[4..]), sample(&b[6..]), sample(&b[8..])))),
        }
    }

    fn instant(&mut self, rule: u8, mix: u8, i: Floats) -> Result<(), u8> {
        if i.has_nan() || i.kind() != mix {
            return Err(14);
        }
        if self.wait == 0 && self.held == 256 {
            return Err(9);
        }
        self.step(i.mixed(rule));
        Ok(())
    }

    fn instants(&mut self, rule: u8, mix: u8, values: &[f32]) {
        Floats::each(mix, values, |i| self.instant(rule, mix, i).unwrap());
    }

    fn take(&mut self, n: usize) -> [u8; 5] {
        let mut out = [0u8; 5];
        if self.held < 8 * n {
            return out;
        }
        out[..n].copy_from_slice(&self.bytes[..n]);
        self.bytes.copy_within(n.., 0);
        self.bytes[32 - n..].fill(0);
        self.held -= 8 * n;
        out
    }
}

// A sum over the bytes taken in so many turns, in each of which something is heard.
fn turns(rounds: usize, hear: impl Fn(&mut Plain)) -> u64 {
    let mut f = Plain::new();
    let mut sum = 0u64;
    for _ in 0..rounds {
        hear(&mut f);
        let n = if f.held >= 40 { 5 } else { 4 };
        for b in f.take(n) {
            sum = (sum * 31 + b as u64) % 4294967296;
        }
    }
    sum
}

#[inline(never)]
fn plain(rule: u8, mix: u8, block: &[u8], rounds: usize) -> u64 {
    turns(rounds, |f| f.heard(rule, mix, block))
}

#[inline(never)]
fn plain_floats(rule: u8, mix: u8, values: &[f32], rounds: usize) -> u64 {
    turns(rounds, |f| f.instants(rule, mix, values))
}

fn noise(n: usize) -> impl Iterator<Item = u32> {
    let mut x = 0x2545f491u32;
    (0..n).map(move |_| {
        x ^= x << 13;
        x ^= x >> 17;
        x ^= x << 5;
        x
    })
}

// Loud and soft stretches, so that the bits differ.
fn samples(n: usize) -> Vec<u8> {
    noise(n).enumerate().flat_map(|(i, x)| ((x >> 16) as i16 >> (i / 97 % 12)).to_le_bytes()).collect()
}

const ROUNDS: usize = 400;
const RUNS: usize = 80;

// The least time of each of the two, run in turn, so that another load on the computer meets both alike.
fn row(name: &str, rattle: impl Fn() -> u64, rust: impl Fn() -> u64) {
    let mut least = [f64::MAX; 2];
    for _ in 0..RUNS {
        let began = Instant::now();
        let a = rattle();
        least[0] = least[0].min(began.elapsed().as_secs_f64());
        let began = Instant::now();
        let b = rust();
        least[1] = least[1].min(began.elapsed().as_secs_f64());
        assert!(a == b && a > 0, "the two programs differ");
    }
    let n = (ROUNDS * BLOCK) as f64;
    println!("| {} | {:.0} | {:.0} | {:.2} | {:.0} |", name, n / least[0] / 1e6, n / least[1] / 1e6, least[0] / least[1], n / least[0] / 48000.0);
}

fn head(first: &str) {
    println!("| {first} | Rattle, million instants/s | Rust, million instants/s | ratio of times | fingerprints at 48 kHz on one core |");
    println!("|--|--|--|--|--|");
}

fn main() {
    head("blocks");
    for (rule, mix, name) in floats::MIXES {
        let block = samples(mix as usize * BLOCK);
        row(name, || unsafe { bench_audio(rule, mix, D, block.as_ptr(), block.len(), ROUNDS) }, || plain(rule, mix, &block, ROUNDS));
    }
    println!();
    head("instants in floating point");
    for (rule, mix, name) in floats::MIXES {
        let values = floats::values(noise(mix as usize * BLOCK));
        let rattle = || unsafe { bench_floats(rule, mix, D, values.as_ptr(), values.len(), ROUNDS) };
        row(name, rattle, || plain_floats(rule, mix, &values, ROUNDS));
    }
}
