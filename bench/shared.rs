// What the programs share that measure calls on bytes: the time of a call, and containers, a plain judge of their bytes and a maker.
use std::hint::black_box;
use std::time::Instant;

// A call on bytes with a lent buffer: its number, and how many bytes it wrote.
pub type Program = fn(&[u8], &mut [u8]) -> (u8, usize);

// ns for a call
pub fn time(program: Program, given: &[u8], out: &mut [u8], calls: usize) -> f64 {
    let began = Instant::now();
    for _ in 0..calls {
        black_box(program(black_box(given), out));
    }
    began.elapsed().as_secs_f64() * 1e9 / calls as f64
}

// The counts of bytes that occur in the cadence of a rate (01, Table 13; 02, A2).
fn occurs(rate: u8, count: usize) -> bool {
    match rate {
        2 | 5 => count == 4 || count == 5,
        3 => count == 5,
        4 | 8 | 9 => count == 2 || count == 3,
        6 => count == 3 || count == 4,
        7 => count == 4,
        10 => count == 1 || count == 2,
        11 => count == 2,
        _ => false,
    }
}

fn audio_size(rate: u8, b: &[u8]) -> Option<usize> {
    let (&head, mut rest) = b.split_first()?;
    if head % 8 != 2 {
        return None;
    }
    let mut first = None;
    for _ in 0..=head / 8 {
        let [name, counted, ..] = *rest else { return None };
        let count = (counted / 8) as usize;
        if !matches!(name % 8, 1 | 2 | 5) || counted % 8 != 0 || !occurs(rate, count) || *first.get_or_insert(count) != count {
            return None;
        }
        rest = rest.get(2 + count..)?;
    }
    Some(b.len() - rest.len())
}

fn video_size(rate: u8, b: &[u8]) -> Option<usize> {
    match *b {
        [0x09, value, ..] if value <= 240 => Some(2),
        [0x11, first, second, ..] if first <= 240 && second <= 240 && matches!(rate, 5..=7) => Some(3),
        _ => None,
    }
}

// Read container, its number alone.
pub fn container_number(s: &[u8]) -> u8 {
    if s.len() < 5 {
        return 20;
    }
    if s[0] != 0 {
        return 21;
    }
    if s.len() != s[2] as usize + 3 {
        return 22;
    }
    if s.iter().fold(0u8, |sum, &byte| sum.wrapping_add(byte)) != 0 {
        return 23;
    }
    let (rate, flags) = (s[3] >> 4, s[3] & 15);
    if !(2..=11).contains(&rate) || flags & 8 != 0 {
        return 24;
    }
    let mut rest = &s[4..s.len() - 1];
    if flags & 4 != 0 {
        if rest.len() < 21 || rest[0] != 0 {
            return 25;
        }
        rest = &rest[21..];
    }
    if flags & 2 != 0 {
        let Some(size) = video_size(rate, rest) else { return 26 };
        rest = &rest[size..];
    }
    if flags & 1 != 0 {
        let Some(size) = audio_size(rate, rest) else { return 27 };
        rest = &rest[size..];
    }
    if rest.is_empty() { 0 } else { 28 }
}

// Length and checksum are put in.
pub fn container(front: &[u8], prints: usize, count: usize) -> Vec<u8> {
    let mut c = front.to_vec();
    if prints > 0 {
        c.push(8 * (prints as u8 - 1) + 2);
    }
    for k in 0..prints {
        c.extend([8 * k as u8 + 1, 8 * count as u8]);
        c.extend((0..count).map(|i| (37 * k + 101 * i) as u8));
    }
    c[2] = c.len() as u8 - 2;
    c.push(c.iter().fold(0u8, |sum, &byte| sum.wrapping_sub(byte)));
    c
}
