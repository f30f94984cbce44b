// The mixes by both rules, and an instant in floating point, in plain Rust: for bench/audio.rs and bench/session.rs.

// Rule and mix type of what is measured. Mono has no quotient, so one rule is enough for it.
pub const MIXES: [(u8, u8, &str); 5] =
    [(1, 1, "mono"), (1, 2, "stereo, rule 1"), (2, 2, "stereo, rule 2"), (1, 5, "5.1, rule 1"), (2, 5, "5.1, rule 2")];

// Rust's own division rounds towards zero, as rule 2 does (02, A9).
#[inline(always)]
fn quotient(rule: u8, sum: i32, d: i32) -> i32 {
    if rule == 2 { sum / d } else { sum.div_euclid(d) }
}

#[inline(always)]
pub fn stereo(rule: u8, l: i32, r: i32) -> i32 {
    quotient(rule, 7071 * (l + r), 20000)
}

#[inline(always)]
pub fn five(rule: u8, l: i32, r: i32, c: i32, ls: i32, rs: i32) -> i32 {
    quotient(rule, 7071 * (l + r) + 10000 * c + 5000 * (ls + rs), 40000)
}

// An instant in floating point, as document 02, A3, has it.
#[derive(Clone, Copy)]
pub enum Floats {
    Mono(f32),
    Stereo(f32, f32),
    Five { l: f32, r: f32, c: f32, ls: f32, rs: f32 },
}

fn sample_of(x: f32) -> i32 {
    (x * 32768.0).floor().clamp(-32768.0, 32767.0) as i32
}

impl Floats {
    pub fn kind(self) -> u8 {
        match self {
            Floats::Mono(_) => 1,
            Floats::Stereo(..) => 2,
            Floats::Five { .. } => 5,
        }
    }

    pub fn has_nan(self) -> bool {
        match self {
            Floats::Mono(x) => x.is_nan(),
            Floats::Stereo(l, r) => l.is_nan() || r.is_nan(),
            Floats::Five { l, r, c, ls, rs } => [l, r, c, ls, rs].iter().any(|x| x.is_nan()),
        }
    }

    pub fn mixed(self, rule: u8) -> i32 {
        match self {
            Floats::Mono(x) => sample_of(x),
            Floats::Stereo(l, r) => stereo(rule, sample_of(l), sample_of(r)),
            Floats::Five { l, r, c, ls, rs } => five(rule, sample_of(l), sample_of(r), sample_of(c), sample_of(ls), sample_of(rs)),
        }
    }

    // The instants of a mix type that values hold one after the other.
    pub fn each(mix: u8, values: &[f32], mut hear: impl FnMut(Floats)) {
        match mix {
            1 => values.iter().for_each(|&x| hear(Floats::Mono(x))),
            2 => values.chunks_exact(2).for_each(|v| hear(Floats::Stereo(v[0], v[1]))),
            _ => values.chunks_exact(5).for_each(|v| hear(Floats::Five { l: v[0], r: v[1], c: v[2], ls: v[3], rs: v[4] })),
        }
    }
}

// Values finer than a sample, from noise, in loud and soft stretches; the loudest are above 1 or below -1, and are held.
pub fn values(noise: impl Iterator<Item = u32>) -> Vec<f32> {
    noise.enumerate().map(|(i, x)| x as i32 as f32 / 2147483648.0 * 1.125 / (1 << (i / 97 % 12)) as f32).collect()
}
