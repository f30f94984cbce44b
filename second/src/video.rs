// video.rs: line sampling, the comparison of fields and the video side of a session (01, Video).

use crate::formats::{Format, PIXELS_PER_ROW, ROWS_PER_FIELD};

/// The 60 bytes of one monitored line.
pub type Row = [u8; PIXELS_PER_ROW];

/// What an accepted line tells: whether it ended a field, and that field's fingerprint with the two counts behind it
/// (02, A1).
#[derive(Debug, Clone, Copy, PartialEq, Eq)]
pub enum FieldEnd {
    NotEnded,
    WithoutFingerprint,
    Fingerprint { value: u8, brighter: usize, darker: usize },
}

/// A sample counts as its bits 9 to 2, bits 15 to 10 being ignored (01, Video).
fn eight_bits(line: &[u8], pixel: usize) -> u32 {
    let word = u32::from(line[2 * pixel]) + 256 * u32::from(line[2 * pixel + 1]);
    word / 4 % 256
}

/// The 60 bytes of a line of the right length. Bits are dropped before the mean, not after it (01, Slips).
pub fn sample_row(format: &Format, line: &[u8]) -> Row {
    let taps = (format.taps.1 - format.taps.0 + 1) as u32;
    std::array::from_fn(|k| {
        let pixel = (format.h_start + k * format.h_step) as isize;
        let places = pixel + format.taps.0..=pixel + format.taps.1;
        let sum: u32 = places.map(|place| eight_bits(line, place as usize)).sum();
        (sum / taps) as u8
    })
}

/// Line sampling by itself: numbers 1 (format only), 2, 12 (01, What a caller is told).
pub fn sample_line(format: u8, line: &[u8], room: usize) -> Result<Row, u8> {
    let format = Format::numbered(format).ok_or(1)?;
    if line.len() != 2 * format.width {
        return Err(2);
    }
    if room < PIXELS_PER_ROW {
        return Err(12);
    }
    Ok(sample_row(format, line))
}

/// 02, A1: "the signed difference, current minus older, from -255 to 255".
pub fn difference(current: u8, older: u8) -> i16 {
    i16::from(current) - i16::from(older)
}

/// 02, A1: "a change is still 32 or more either way". This is the one way.
pub fn went_brighter(difference: i16) -> bool {
    difference >= 32
}

/// The other way.
pub fn went_darker(difference: i16) -> bool {
    difference <= -32
}

/// 000, 5.2.3.2: the count divided by 4, as a byte of 0 to 240.
pub fn fingerprint_of_count(changed_pixels: usize) -> u8 {
    (changed_pixels / 4) as u8
}

/// The video side of a session as its whole history; all else is worked out from it.
#[derive(Debug, Clone, Default)]
pub struct Picture {
    /// Every monitored line taken since setup or the last video restart, in order.
    rows: Vec<Row>,
    /// The fingerprints of the fields of a frame that is ready and not yet packed.
    ready: Option<Vec<Option<u8>>>,
}

impl Picture {
    pub fn ready(&self) -> Option<&Vec<Option<u8>>> {
        self.ready.as_ref()
    }

    pub fn rows(&self) -> &[Row] {
        &self.rows
    }

    pub fn expected_line(&self, format: &Format) -> u16 {
        let field = self.rows.len() / ROWS_PER_FIELD % format.fields_per_frame();
        format.monitored_line(field, self.rows.len() % ROWS_PER_FIELD)
    }

    pub fn at_first_line(&self, format: &Format) -> bool {
        self.rows.len() % (ROWS_PER_FIELD * format.fields_per_frame()) == 0
    }

    /// The differences of a field counted from 0 since setup or restart: compared with the second preceding field,
    /// which the first two fields have not (01, Video; 000, 5.2.3.1).
    fn differences(&self, field: usize) -> Option<Vec<i16>> {
        let before = field.checked_sub(2)?;
        let pixels = |field: usize| self.rows[ROWS_PER_FIELD * field..].iter().take(ROWS_PER_FIELD).flatten();
        let pairs = pixels(field).zip(pixels(before));
        Some(pairs.map(|(&current, &older)| difference(current, older)).collect())
    }

    /// What a field that has ended tells: with no predecessor it has neither fingerprint nor counts.
    fn end_of(&self, field: usize) -> FieldEnd {
        let Some(differences) = self.differences(field) else { return FieldEnd::WithoutFingerprint };
        let count = |went: fn(i16) -> bool| differences.iter().filter(|&&difference| went(difference)).count();
        let (brighter, darker) = (count(went_brighter), count(went_darker));
        FieldEnd::Fingerprint { value: fingerprint_of_count(brighter + darker), brighter, darker }
    }

    /// What of a field waits to be packed: the fingerprint alone, since containers stay the same (02, A1).
    fn fingerprint(&self, field: usize) -> Option<u8> {
        match self.end_of(field) {
            FieldEnd::Fingerprint { value, .. } => Some(value),
            _ => None,
        }
    }

    /// Numbers 2 to 5 of a Line call, in order, then the line's work.
    pub fn take_line(&mut self, format: &Format, number: u16, line: &[u8]) -> Result<FieldEnd, u8> {
        if line.len() != 2 * format.width {
            return Err(2);
        }
        if number < 1 || number > format.lines {
            return Err(3);
        }
        if !format.monitors(number) {
            return Ok(FieldEnd::NotEnded);
        }
        if number != self.expected_line(format) {
            return Err(4);
        }
        if self.at_first_line(format) && self.ready.is_some() {
            return Err(5);
        }
        self.rows.push(sample_row(format, line));
        Ok(self.end_of_field(format))
    }

    /// The 16th line ends the field, and the last field makes the frame ready.
    fn end_of_field(&mut self, format: &Format) -> FieldEnd {
        if self.rows.len() % ROWS_PER_FIELD != 0 {
            return FieldEnd::NotEnded;
        }
        let fields = self.rows.len() / ROWS_PER_FIELD;
        if self.at_first_line(format) {
            let of_frame = fields - format.fields_per_frame()..fields;
            self.ready = Some(of_frame.map(|field| self.fingerprint(field)).collect());
        }
        self.end_of(fields - 1)
    }

    /// The frame has been packed: the next one may come.
    pub fn frame_packed(&mut self) {
        self.ready = None;
    }

    /// History and unfinished frame go; a ready frame stays ready (01, Video).
    pub fn restart(&mut self) {
        self.rows.clear();
    }
}

#[cfg(test)]
mod tests {
    use super::*;
    use crate::formats::FORMATS;

    fn flat_line(format: &Format, value: u8) -> Vec<u8> {
        let word = u16::from(value) * 4;
        word.to_le_bytes().repeat(format.width)
    }

    fn run_frame(picture: &mut Picture, format: &Format, value: u8) -> Vec<FieldEnd> {
        let mut told = Vec::new();
        for _ in 0..16 * format.fields_per_frame() {
            let line = picture.expected_line(format);
            let end = picture.take_line(format, line, &flat_line(format, value)).unwrap();
            if end != FieldEnd::NotEnded {
                told.push(end);
            }
        }
        told
    }

    #[test]
    fn bits_15_to_10_and_1_to_0_are_ignored() {
        let format = &FORMATS[0];
        let line = 0xFC03u16.to_le_bytes().repeat(720);
        assert_eq!(sample_row(format, &line), [0; 60]);
        let line = 0x03FCu16.to_le_bytes().repeat(720);
        assert_eq!(sample_row(format, &line), [255; 60]);
    }

    /// 720p's first pixel is the floor of the mean of pixels 255 and 256 as 8-bit values: 3/4 -> 0 and 7/4 -> 1.
    #[test]
    fn bits_are_dropped_before_the_mean() {
        let format = &FORMATS[2];
        let mut line = vec![0; 2560];
        line[2 * 255] = 3;
        line[2 * 256] = 7;
        assert_eq!(sample_row(format, &line)[0], 0, "10-bit mean 5 would give 1");
        line[2 * 255] = 4;
        assert_eq!(sample_row(format, &line)[0], 1);
        line[2 * 257] = 255;
        assert_eq!(sample_row(format, &line)[0], 1, "the next pixel is no tap of 720p");
    }

    /// 3840x2160p: three previous, current and two next (000, 5.2.1).
    #[test]
    fn the_six_taps_of_2160_lines() {
        let format = &FORMATS[6];
        for (offset, seen) in [(-4, 0), (-3, 42), (0, 42), (2, 42), (3, 0)] {
            let mut line = vec![0; 2 * 3840];
            let place = (798 + offset) as usize;
            line[2 * place..2 * place + 2].copy_from_slice(&(4 * 255u16).to_le_bytes());
            assert_eq!(sample_row(format, &line)[0], seen, "offset {offset}");
        }
    }

    #[test]
    fn interlaced_fields_are_compared_with_the_same_field() {
        let format = &FORMATS[1];
        let mut picture = Picture::default();
        assert_eq!(run_frame(&mut picture, format, 10), [FieldEnd::WithoutFingerprint; 2]);
        assert_eq!(picture.ready(), Some(&vec![None, None]));
        picture.frame_packed();
        let all = FieldEnd::Fingerprint { value: 240, brighter: 960, darker: 0 };
        assert_eq!(run_frame(&mut picture, format, 42), [all; 2]);
        assert_eq!(picture.ready(), Some(&vec![Some(240), Some(240)]));
        picture.frame_packed();
        let nothing = FieldEnd::Fingerprint { value: 0, brighter: 0, darker: 0 };
        assert_eq!(run_frame(&mut picture, format, 11), [nothing; 2]);
        assert_eq!(picture.ready(), Some(&vec![Some(0), Some(0)]));
    }

    #[test]
    fn progressive_frames_are_compared_two_back() {
        let format = &FORMATS[2];
        let mut picture = Picture::default();
        let mut told = Vec::new();
        for value in [0, 100, 31, 68, 63] {
            told.extend(run_frame(&mut picture, format, value));
            picture.frame_packed();
        }
        let none = FieldEnd::WithoutFingerprint;
        assert_eq!(told[..2], [none, none]);
        let nothing = FieldEnd::Fingerprint { value: 0, brighter: 0, darker: 0 };
        let darker = FieldEnd::Fingerprint { value: 240, brighter: 0, darker: 960 };
        let brighter = FieldEnd::Fingerprint { value: 240, brighter: 960, darker: 0 };
        assert_eq!(told[2..], [nothing, darker, brighter], "31 over 0, 68 over 100, 63 over 31");
    }

    #[test]
    fn a_restart_keeps_a_ready_frame_and_drops_a_finished_field_1() {
        let format = &FORMATS[0];
        let mut picture = Picture::default();
        run_frame(&mut picture, format, 1);
        picture.restart();
        assert_eq!(picture.take_line(format, 60, &flat_line(format, 1)), Err(5));
        assert_eq!(picture.take_line(format, 70, &flat_line(format, 1)), Err(4));
        picture.frame_packed();
        for row in 0..16 {
            picture.take_line(format, format.monitored_line(0, row), &flat_line(format, 1)).unwrap();
        }
        picture.restart();
        assert_eq!(picture.expected_line(format), 60);
        assert_eq!(picture.take_line(format, 323, &flat_line(format, 1)), Err(4));
    }
}
