// make/picture.rs: lines whose monitored pixels differ from those two fields before by amounts around 32, both ways
// or one.

use super::random::Random;
use crate::formats::{Format, ROWS_PER_FIELD};
use crate::video::Row;

/// How a field differs from the one two before it: one for a whole field.
#[derive(Clone, Copy)]
pub enum Motion {
    /// So many of 1,000 pixels change, and of those so many of 100 go brighter. With 0 and 100 all go one way, and one
    /// without room that way stays.
    Lively {
        changed: usize,
        brighter: usize,
    },
    /// Near 0 or near 255, whatever was before: between the two lie differences of 255, and after either there is room
    /// for all 960 pixels to change one way.
    Dark,
    Light,
}

impl Motion {
    pub fn lively(random: &mut Random, brighter: usize) -> Motion {
        Motion::Lively { changed: changed_of_1000(random), brighter }
    }

    /// The motion of the field that begins after these rows.
    pub fn new(random: &mut Random, rows: &[Row]) -> Motion {
        let older =
            rows.len().checked_sub(2 * ROWS_PER_FIELD).map(|from| rows[from..][..ROWS_PER_FIELD].as_flattened());
        let all = |room: fn(u8) -> bool| older.is_some_and(|pixels| pixels.iter().all(|&pixel| room(pixel)));
        let (room_above, room_below) = (all(|pixel| pixel <= 255 - 32), all(|pixel| pixel >= 32));
        match random.below(20) {
            0 => Motion::Dark,
            1 => Motion::Light,
            2..=5 if room_above => Motion::Lively { changed: 1000, brighter: 100 },
            6..=9 if room_below => Motion::Lively { changed: 1000, brighter: 0 },
            _ => {
                let brighter = random.pick(&[50, 50, 50, 50, 20, 80, 3, 97, 0, 100]);
                Motion::lively(random, brighter)
            }
        }
    }
}

/// None, all, a handful of a field's 960, nearly none, nearly all, or any share.
fn changed_of_1000(random: &mut Random) -> usize {
    match random.below(5) {
        0 => 0,
        1 => 1000,
        2 => random.pick(&[1, 2, 3, 3, 4, 5, 10, 20, 980, 990]),
        _ => 10 * random.below(101),
    }
}

fn moved(from: u8, distance: u8, up: bool) -> Option<u8> {
    if up {
        from.checked_add(distance)
    } else {
        from.checked_sub(distance)
    }
}

/// A byte at a distance from another one, on the side asked for where there is room, else on the other.
fn apart(from: u8, distance: u8, up: bool) -> u8 {
    moved(from, distance, up).or(moved(from, distance, !up)).unwrap_or(from)
}

fn changed_pixel(random: &mut Random, brighter: usize, before: u8) -> Option<u8> {
    let (distance, up) = (random.pick(&[32, 32, 32, 33, 33, 64, 100]), random.chance(brighter));
    match brighter {
        0 | 100 => moved(before, distance, up).or(moved(before, 32, up)),
        _ => Some(apart(before, distance, up)),
    }
}

fn next_pixel(random: &mut Random, motion: Motion, before: u8) -> u8 {
    let (changed, brighter) = match motion {
        Motion::Dark => return random.pick(&[0, 0, 0, 1, 15, 31]),
        Motion::Light => return random.pick(&[255, 255, 255, 254, 240, 224]),
        Motion::Lively { changed, brighter } => (changed, brighter),
    };
    let wanted = if random.below(1000) < changed { changed_pixel(random, brighter, before) } else { None };
    wanted.unwrap_or_else(|| {
        let (distance, up) = (random.pick(&[31, 31, 31, 30, 30, 1, 0]), random.chance(50));
        apart(before, distance, up)
    })
}

/// The next row's bytes, made from those of the same row two fields before; noise stands in for a field that is not
/// there.
fn next_row(random: &mut Random, motion: Motion, rows: &[Row]) -> Row {
    let before = match rows.len().checked_sub(2 * ROWS_PER_FIELD) {
        None => std::array::from_fn(|_| random.byte()),
        Some(before) => rows[before],
    };
    before.map(|pixel| next_pixel(random, motion, pixel))
}

/// So many values whose mean, rounded down, is the one given; with a remainder wherever there is room for one.
fn spread(random: &mut Random, mean: u8, count: usize) -> Vec<u8> {
    let mut values = vec![mean; count];
    if mean < 255 {
        let remainder = random.below(count);
        values[..remainder].fill(mean + 1);
    }
    for _ in 0..count {
        let (up, down) = (random.below(count), random.below(count));
        if up != down {
            let most = (255 - values[up]).min(values[down]);
            let moved = random.below(usize::from(most) + 1) as u8;
            values[up] += moved;
            values[down] -= moved;
        }
    }
    values
}

/// A line that samples to the row: garbage everywhere but in bits 9 to 2 of the taps.
pub fn line_of_row(random: &mut Random, format: &Format, row: &Row) -> Vec<u8> {
    let mut line = random.bytes(2 * format.width);
    let taps = (format.taps.1 - format.taps.0 + 1) as usize;
    for (k, &pixel) in row.iter().enumerate() {
        let first = ((format.h_start + k * format.h_step) as isize + format.taps.0) as usize;
        for (tap, value) in spread(random, pixel, taps).into_iter().enumerate() {
            let place = 2 * (first + tap);
            let garbage = u16::from_le_bytes([line[place], line[place + 1]]) & 0xFC03;
            line[place..place + 2].copy_from_slice(&(garbage | u16::from(value) << 2).to_le_bytes());
        }
    }
    line
}

pub fn next_line(random: &mut Random, motion: Motion, format: &Format, rows: &[Row]) -> Vec<u8> {
    let row = next_row(random, motion, rows);
    line_of_row(random, format, &row)
}

#[cfg(test)]
mod tests {
    use super::*;
    use crate::formats::FORMATS;
    use crate::make::script::Script;
    use crate::video::sample_row;

    /// The differences of every field of 150 frames from the third field on, worked out from the rows sampled.
    fn differences() -> Vec<Vec<i32>> {
        let mut script = Script::new(Random::new("test", 1));
        script.setup(1, 5, &[1]);
        for _ in 0..150 {
            script.rest_of_frame();
            script.pack(255, 0);
        }
        let rows = script.running().unwrap().picture.rows();
        let fields: Vec<&[u8]> = rows.chunks(ROWS_PER_FIELD).map(|rows| rows.as_flattened()).collect();
        let pairs = fields[2..].iter().zip(&fields);
        pairs.map(|(now, then)| now.iter().zip(*then).map(|(&a, &b)| i32::from(a) - i32::from(b)).collect()).collect()
    }

    #[test]
    fn fields_change_both_ways_and_one_way() {
        let differences = differences();
        for edge in [-255, -33, -32, -31, 0, 31, 32, 33, 255] {
            assert!(differences.iter().flatten().any(|&difference| difference == edge), "{edge}");
        }
        let count = |field: &[i32], least: i32, most: i32| field.iter().filter(|d| (least..=most).contains(d)).count();
        let counts: Vec<_> = differences.iter().map(|d| (count(d, 32, 255), count(d, -255, -32))).collect();
        assert!(counts.iter().any(|&(up, down)| up > down && down > 0));
        assert!(counts.iter().any(|&(up, down)| down > up && up > 0));
        assert!(counts.iter().any(|&(up, down)| up + down == 960 && up > 0 && down > 0));
        assert!(counts.iter().any(|&(up, down)| (1..4).contains(&(up + down))));
        for wanted in [(0, 0), (960, 0), (0, 960)] {
            assert!(counts.contains(&wanted), "{wanted:?}");
        }
        for remainder in 0..4 {
            assert!(counts.iter().any(|&(up, down)| up > 0 && down == 0 && up % 4 == remainder), "{remainder}");
            assert!(counts.iter().any(|&(up, down)| up == 0 && down > 0 && down % 4 == remainder), "{remainder}");
            assert!(counts.iter().any(|&(up, down)| up > 0 && down > 0 && (up + down) % 4 == remainder), "{remainder}");
        }
    }

    #[test]
    fn a_made_line_samples_to_its_row() {
        let mut random = Random::new("test", 1);
        for format in &FORMATS {
            for _ in 0..20 {
                let row: Row = std::array::from_fn(|_| random.byte());
                let line = line_of_row(&mut random, format, &row);
                assert_eq!(sample_row(format, &line), row, "{}", format.name);
            }
        }
    }
}
