// formats.rs: the eight picture formats and the ten rates that 01 lists.

use std::ops::Range;

/// Rows and pixels of a field that are looked at (000, 5.2.2).
pub const ROWS_PER_FIELD: usize = 16;
pub const PIXELS_PER_ROW: usize = 60;

/// A row of the table in 01, "Video: formats and the 960 bytes".
#[derive(Debug)]
pub struct Format {
    pub name: &'static str,
    pub width: usize,
    pub lines: u16,
    pub h_start: usize,
    pub h_step: usize,
    /// One first line for each field of a frame.
    pub v_start: &'static [u16],
    pub v_step: u16,
    /// First and last tap, counted from the pixel itself (000, Table 1).
    pub taps: (isize, isize),
}

const fn format(
    name: &'static str,
    (width, lines): (usize, u16),
    (h_start, h_step): (usize, usize),
    v_start: &'static [u16],
    v_step: u16,
    taps: (isize, isize),
) -> Format {
    Format { name, width, lines, h_start, h_step, v_start, v_step, taps }
}

/// In 01's order, so that the place is the format's number.
pub const FORMATS: [Format; 8] = [
    format("485i", (720, 525), (123, 8), &[60, 323], 10, (0, 0)),
    format("576i", (720, 625), (123, 8), &[68, 381], 12, (0, 0)),
    format("720p", (1280, 750), (256, 13), &[117], 32, (-1, 0)),
    format("1080i", (1920, 1125), (399, 19), &[89, 652], 24, (-1, 1)),
    format("1080p", (1920, 1125), (399, 19), &[178], 48, (-1, 1)),
    format("2048x1080p", (2048, 1125), (463, 19), &[206], 46, (-1, 1)),
    format("3840x2160p", (3840, 2250), (798, 38), &[412], 92, (-3, 2)),
    format("4096x2160p", (4096, 2250), (926, 38), &[412], 92, (-3, 2)),
];

impl Format {
    pub fn numbered(number: u8) -> Option<&'static Format> {
        FORMATS.get(usize::from(number))
    }

    pub fn fields_per_frame(&self) -> usize {
        self.v_start.len()
    }

    /// The line number of one of the 16 rows of a field; field 0 is field 1 of the papers.
    pub fn monitored_line(&self, field: usize, row: usize) -> u16 {
        self.v_start[field] + self.v_step * row as u16
    }

    pub fn monitors(&self, line: u16) -> bool {
        let fields = 0..self.fields_per_frame();
        fields.into_iter().any(|field| (0..ROWS_PER_FIELD).any(|row| self.monitored_line(field, row) == line))
    }

    /// 01, Audio: "485i takes code 6 only, 576i code 5 only, 1080i codes 5, 6, 7; a progressive format takes any".
    pub fn takes_rate(&self, code: u8) -> bool {
        let listed = Rate::coded(code).is_some();
        match self.name {
            "485i" => code == 6,
            "576i" => code == 5,
            "1080i" => (5..=7).contains(&code),
            _ => listed,
        }
    }
}

/// A row of the table in 01, "Audio: mix, filters, bits".
#[derive(Debug)]
pub struct Rate {
    pub code: u8,
    /// Frames per second as a fraction, for the tests and for making feeds of a natural pace.
    pub frames: u64,
    pub seconds: u64,
    pub decimator: usize,
    cadence_length: usize,
    usual_bytes: usize,
    other_bytes: usize,
    /// The frames of the cadence, counted from 1, that carry `other_bytes`.
    other_frames: &'static [usize],
}

const fn rate(
    code: u8,
    (frames, seconds): (u64, u64),
    decimator: usize,
    cadence_length: usize,
    (other_bytes, other_frames): (usize, &'static [usize]),
    usual_bytes: usize,
) -> Rate {
    Rate { code, frames, seconds, decimator, cadence_length, usual_bytes, other_bytes, other_frames }
}

const THREES_OF_47_95: &[usize] = &[3, 5, 8, 10, 13, 15, 18, 20, 23, 25, 28, 30, 32];

pub const RATES: [Rate; 10] = [
    rate(2, (24000, 1001), 52, 16, (4, &[1, 6, 11]), 5),
    rate(3, (24, 1), 50, 1, (5, &[]), 5),
    rate(4, (48000, 1001), 52, 32, (3, THREES_OF_47_95), 2),
    rate(5, (25, 1), 50, 5, (4, &[1]), 5),
    rate(6, (30000, 1001), 52, 20, (3, &[1, 7, 14]), 4),
    rate(7, (30, 1), 50, 1, (4, &[]), 4),
    rate(8, (48, 1), 50, 2, (2, &[1]), 3),
    rate(9, (50, 1), 50, 5, (3, &[3, 5]), 2),
    rate(10, (60000, 1001), 52, 40, (1, &[1, 14, 27]), 2),
    rate(11, (60, 1), 50, 1, (2, &[]), 2),
];

impl Rate {
    pub fn coded(code: u8) -> Option<&'static Rate> {
        RATES.iter().find(|rate| rate.code == code)
    }

    /// The bytes of one frame; `frames_before` counts the containers with audio since setup or audio restart,
    /// so that 0 is the cadence's frame 1 (01, Audio).
    pub fn bytes_due(&self, frames_before: usize) -> usize {
        let frame = frames_before % self.cadence_length + 1;
        if self.other_frames.contains(&frame) {
            self.other_bytes
        } else {
            self.usual_bytes
        }
    }

    /// The positions of the cadence, as `bytes_due` counts them.
    pub fn positions(&self) -> Range<usize> {
        0..self.cadence_length
    }

    /// Whether some frame of the cadence has this many bytes (02, A2: "that count occurs in the cadence").
    pub fn cadence_has(&self, bytes: usize) -> bool {
        self.positions().any(|frame| self.bytes_due(frame) == bytes)
    }
}

/// The byte counts that occur in each rate's row of 01's table (000, Table 13), written out by hand.
#[cfg(test)]
pub const COUNTS_BY_HAND: [(u8, &[usize]); 10] = [
    (2, &[4, 5]),
    (3, &[5]),
    (4, &[2, 3]),
    (5, &[4, 5]),
    (6, &[3, 4]),
    (7, &[4]),
    (8, &[2, 3]),
    (9, &[2, 3]),
    (10, &[1, 2]),
    (11, &[2]),
];

/// The columns of 000, Table 13, written out, with the rate code each belongs to.
#[cfg(test)]
pub const TABLE_13: [(u8, &[usize]); 10] = [
    (11, &[2]),
    (7, &[4]),
    (
        10,
        &[
            1, 2, 2, 2, 2, 2, 2, 2, 2, 2, 2, 2, 2, 1, 2, 2, 2, 2, 2, 2, 2, 2, 2, 2, 2, 2, 1, 2, 2, 2, 2, 2, 2, 2, 2, 2,
            2, 2, 2, 2,
        ],
    ),
    (6, &[3, 4, 4, 4, 4, 4, 3, 4, 4, 4, 4, 4, 4, 3, 4, 4, 4, 4, 4, 4]),
    (9, &[2, 2, 3, 2, 3]),
    (5, &[4, 5, 5, 5, 5]),
    (8, &[2, 3]),
    (3, &[5]),
    (4, &[2, 2, 3, 2, 3, 2, 2, 3, 2, 3, 2, 2, 3, 2, 3, 2, 2, 3, 2, 3, 2, 2, 3, 2, 3, 2, 2, 3, 2, 3, 2, 3]),
    (2, &[4, 5, 5, 5, 5, 4, 5, 5, 5, 5, 4, 5, 5, 5, 5, 5]),
];

#[cfg(test)]
mod tests {
    use super::*;

    /// HStop and VStop of 000, Table 2, per field, in 01's order of formats.
    const STOPS: [(usize, &[u16]); 8] = [
        (595, &[210, 473]),
        (595, &[248, 561]),
        (1023, &[597]),
        (1520, &[449, 1012]),
        (1520, &[898]),
        (1584, &[896]),
        (3040, &[1792]),
        (3168, &[1792]),
    ];

    #[test]
    fn the_windows_stop_where_table_2_says() {
        for (format, (h_stop, v_stops)) in FORMATS.iter().zip(STOPS) {
            assert_eq!(format.h_start + 59 * format.h_step, h_stop, "{}", format.name);
            assert_eq!(format.fields_per_frame(), v_stops.len());
            for (field, v_stop) in v_stops.iter().enumerate() {
                assert_eq!(format.monitored_line(field, 15), *v_stop, "{}", format.name);
            }
        }
    }

    #[test]
    fn every_tap_lies_in_the_line_and_every_monitored_line_in_the_picture() {
        for format in &FORMATS {
            assert!(format.h_start as isize + format.taps.0 >= 0);
            let last = (format.h_start + 59 * format.h_step) as isize + format.taps.1;
            assert!(last < format.width as isize);
            let monitored = (1..=format.lines).filter(|&line| format.monitors(line)).count();
            assert_eq!(monitored, 16 * format.fields_per_frame());
        }
    }

    /// 000, 5.2.2: the worked example for 720p.
    #[test]
    fn the_720p_example() {
        let format = &FORMATS[2];
        let pixels: Vec<usize> = (0..60).map(|k| format.h_start + k * format.h_step).collect();
        assert_eq!(pixels[..3], [256, 269, 282]);
        assert_eq!(pixels[59], 1023);
        let lines: Vec<u16> = (0..16).map(|row| format.monitored_line(0, row)).collect();
        assert_eq!(lines[..3], [117, 149, 181]);
        assert_eq!(lines[15], 597);
    }

    #[test]
    fn there_are_55_pairs_of_format_and_rate() {
        let pairs = (0..=255u8).flat_map(|format| (0..=255u8).map(move |code| (format, code)));
        let taken = pairs.filter(|&(f, code)| Format::numbered(f).is_some_and(|format| format.takes_rate(code)));
        assert_eq!(taken.count(), 1 + 1 + 3 + 5 * 10);
    }

    #[test]
    fn the_cadences_are_those_of_table_13() {
        for (code, column) in TABLE_13 {
            let rate = Rate::coded(code).unwrap();
            assert_eq!(rate.cadence_length, column.len(), "code {code}");
            for frame in 0..3 * column.len() {
                assert_eq!(rate.bytes_due(frame), column[frame % column.len()], "code {code} frame {frame}");
            }
        }
    }

    /// 02, A2. AFDataCount has five bits.
    #[test]
    fn the_counts_that_occur_in_each_cadence() {
        for (code, counts) in COUNTS_BY_HAND {
            let rate = Rate::coded(code).unwrap();
            for count in 0..=31 {
                assert_eq!(rate.cadence_has(count), counts.contains(&count), "code {code} count {count}");
            }
        }
        assert_eq!(RATES.each_ref().map(|rate| rate.code), COUNTS_BY_HAND.map(|(code, _)| code));
    }

    /// So that 01's "that many bytes (1 to 5)" still holds.
    #[test]
    fn every_count_of_a_cadence_is_1_to_5() {
        let counts = (0..=31).filter(|&count| RATES.iter().any(|rate| rate.cadence_has(count)));
        assert_eq!(counts.collect::<Vec<_>>(), [1, 2, 3, 4, 5]);
    }

    /// A cadence gives the bytes that 48,000 samples a second make: sum x 8 D = frames x 48,000 / rate (000, Table 3).
    #[test]
    fn each_cadence_sums_to_the_bits_made() {
        for rate in &RATES {
            let sum: usize = (0..rate.cadence_length).map(|frame| rate.bytes_due(frame)).sum();
            let samples_from_bytes = sum as u64 * 8 * rate.decimator as u64 * rate.frames;
            let samples_from_time = rate.cadence_length as u64 * 48_000 * rate.seconds;
            assert_eq!(samples_from_bytes, samples_from_time, "code {}", rate.code);
        }
    }

    /// 000, Table 3: bytes per x frames.
    #[test]
    fn the_bytes_of_table_3() {
        let rows = [(2, 77, 16), (6, 77, 20), (4, 77, 32), (10, 77, 40), (3, 80, 16)];
        let more = [(5, 96, 20), (7, 80, 20), (8, 80, 32), (9, 96, 40), (11, 80, 40)];
        for (code, bytes, frames) in rows.into_iter().chain(more) {
            let rate = Rate::coded(code).unwrap();
            assert_eq!((0..frames).map(|frame| rate.bytes_due(frame)).sum::<usize>(), bytes, "code {code}");
        }
    }
}
