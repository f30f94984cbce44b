// feed.rs: reads a feed record by record, makes its calls and gives the lines to print (FEED).

use std::io::{self, Read, Write};

use crate::container::{self, AudioPlace, Contents, VideoValues};
use crate::exact::{self, Tally};
use crate::float::Float;
use crate::session::{self, Session};
use crate::video::{self, FieldEnd};
use crate::{audio, inspect, packet, recording, transport};

pub const MOST_ROOM: usize = 4096;
pub const FLAT_SIZE: usize = 283;

/// A record that the feed's rules do not allow.
pub struct BadRecord;

/// Reads as many bytes as asked, or fewer at the end of the input.
fn read_up_to(input: &mut impl Read, count: usize) -> io::Result<Vec<u8>> {
    let mut bytes = Vec::with_capacity(count);
    input.take(count as u64).read_to_end(&mut bytes)?;
    Ok(bytes)
}

/// What comes next in a feed.
enum Next {
    Record { tag: u8, payload: Vec<u8> },
    End,
    CutShort,
}

fn next_record(input: &mut impl Read) -> io::Result<Next> {
    let head = read_up_to(input, 3)?;
    let (tag, size) = match head[..] {
        [] => return Ok(Next::End),
        [tag, high, low] => (tag, usize::from(high) * 256 + usize::from(low)),
        _ => return Ok(Next::CutShort),
    };
    let payload = read_up_to(input, size)?;
    Ok(if payload.len() < size { Next::CutShort } else { Next::Record { tag, payload } })
}

/// A record as a feed has it.
pub fn record(tag: u8, payload: &[u8]) -> Vec<u8> {
    let size = u16::try_from(payload.len()).expect("a payload has at most 65,535 bytes");
    [&[tag], &size.to_be_bytes()[..], payload].concat()
}

/// The records of a feed up to its end or to one cut short, each as tag and payload.
pub fn records(mut feed: &[u8]) -> Vec<(u8, Vec<u8>)> {
    let mut records = Vec::new();
    while let Ok(Next::Record { tag, payload }) = next_record(&mut feed) {
        records.push((tag, payload));
    }
    records
}

/// Reads the fixed part of a payload from its front.
pub struct Payload<'a>(pub &'a [u8]);

impl Payload<'_> {
    pub fn byte(&mut self) -> Result<u8, BadRecord> {
        let (&first, rest) = self.0.split_first().ok_or(BadRecord)?;
        self.0 = rest;
        Ok(first)
    }

    fn u16(&mut self) -> Result<u16, BadRecord> {
        Ok(u16::from_be_bytes([self.byte()?, self.byte()?]))
    }

    /// A float's four bytes, low byte first.
    fn float(&mut self) -> Result<Float, BadRecord> {
        let bytes = [self.byte()?, self.byte()?, self.byte()?, self.byte()?];
        Ok(Float::of_bits(u32::from_le_bytes(bytes)))
    }

    /// Kind, that many values, and nothing more (FEED, 16h).
    fn floats(&mut self) -> Result<Vec<Float>, BadRecord> {
        let kind = self.byte()?;
        audio::instant_size(kind).ok_or(BadRecord)?;
        let values = (0..kind).map(|_| self.float()).collect::<Result<_, _>>()?;
        self.nothing_more()?;
        Ok(values)
    }

    pub fn room(&mut self) -> Result<usize, BadRecord> {
        let room = usize::from(self.u16()?);
        if room > MOST_ROOM {
            return Err(BadRecord);
        }
        Ok(room)
    }

    pub fn nothing_more(&self) -> Result<(), BadRecord> {
        if self.0.is_empty() {
            Ok(())
        } else {
            Err(BadRecord)
        }
    }
}

/// A line with a number and, on success, the bytes written.
pub fn written(word: &str, answer: Result<Vec<u8>, u8>) -> String {
    match answer {
        Ok(bytes) => {
            let hex: String = bytes.iter().map(|byte| format!("{byte:02x}")).collect();
            format!("{word} 0 {hex}")
        }
        Err(number) => format!("{word} {number}"),
    }
}

/// Flat contents: which of them are no contents at all is a bad record, all others may be tried (FEED, 25h).
fn flat_contents(payload: &mut Payload) -> Result<Contents, BadRecord> {
    if payload.0.len() != FLAT_SIZE {
        return Err(BadRecord);
    }
    let mut contents = Contents::bare(payload.byte()?, payload.byte()?);
    contents.id_present = match payload.byte()? {
        0 => false,
        1 => true,
        _ => return Err(BadRecord),
    };
    for place in &mut contents.id {
        *place = payload.byte()?;
    }
    contents.video = match [payload.byte()?, payload.byte()?, payload.byte()?] {
        [0, 0, 0] => VideoValues::None,
        [1, value, 0] => VideoValues::One(value),
        [2, field_1, field_2] => VideoValues::Two(field_1, field_2),
        _ => return Err(BadRecord),
    };
    contents.audio_count = payload.byte()?;
    for place in &mut contents.audio {
        let (id, mix_type, count) = (payload.byte()?, payload.byte()?, payload.byte()?);
        *place = AudioPlace { id, mix_type, count, bytes: [0; 5] };
        for byte in &mut place.bytes {
            *byte = payload.byte()?;
        }
    }
    Ok(contents)
}

/// The feed's session and, where asked for, the exact check of its sound.
#[derive(Default)]
pub struct Desk {
    pub session: Session,
    pub exact: Option<Tally>,
    pub fault: Option<String>,
}

impl Desk {
    /// Before a session's sound is given up, its history is held to the exact values.
    fn examine_sound(&mut self) {
        if let (Some(tally), None) = (&mut self.exact, &self.fault) {
            self.fault = exact::examine_session(&self.session, tally).err();
        }
    }

    fn setup(&mut self, format: u8, rate: u8, rule: u8, mix_types: &[u8]) -> String {
        self.examine_sound();
        let answer = session::setup(format, rate, rule, mix_types);
        let number = answer.as_ref().err().copied().unwrap_or(0);
        self.session = answer.unwrap_or_default();
        format!("setup {number}")
    }

    fn line(&mut self, number: u16, line: &[u8]) -> String {
        match self.session.line(number, line) {
            Err(refusal) => format!("line {refusal}"),
            Ok(FieldEnd::NotEnded) => "line 0".to_string(),
            Ok(FieldEnd::WithoutFingerprint) => "line 0 field none".to_string(),
            Ok(FieldEnd::Fingerprint { value, brighter, darker }) => {
                format!("line 0 field {value} brighter {brighter} darker {darker}")
            }
        }
    }

    /// One record's call and its printed line. Rust works out the parts of a call from left to right.
    pub fn call(&mut self, tag: u8, payload: &[u8]) -> Result<String, BadRecord> {
        let mut part = Payload(payload);
        let line = match tag {
            // "10h stays: rule 1" (FEED, A9)
            0x10 => self.setup(part.byte()?, part.byte()?, 1, part.0),
            0x17 => self.setup(part.byte()?, part.byte()?, part.byte()?, part.0),
            0x11 => self.line(part.u16()?, part.0),
            0x12 => format!("sound {}", self.session.sound(part.byte()?, part.0).err().unwrap_or(0)),
            0x13 => {
                let room = part.room()?;
                written("pack", self.session.pack(part.0, room))
            }
            0x14 | 0x15 => self.restart(tag, &part)?,
            0x16 => format!("instant {}", self.session.instant(part.byte()?, &part.floats()?).err().unwrap_or(0)),
            0x20 => {
                let (format, room) = (part.byte()?, part.room()?);
                written("sample", video::sample_line(format, part.0, room).map(|row| row.to_vec()))
            }
            _ => by_itself(tag, &mut part)?,
        };
        Ok(line)
    }

    fn restart(&mut self, tag: u8, payload: &Payload) -> Result<String, BadRecord> {
        payload.nothing_more()?;
        if tag == 0x14 {
            self.session.video_restart();
            return Ok("video restart".to_string());
        }
        self.examine_sound();
        self.session.audio_restart();
        Ok("audio restart".to_string())
    }
}

/// The calls on containers, packets and recordings, which touch no session.
fn by_itself(tag: u8, part: &mut Payload) -> Result<String, BadRecord> {
    if tag == 0x21 {
        return Ok(inspect::line(part.0));
    }
    if !(0x22..=0x28).contains(&tag) {
        return Err(BadRecord);
    }
    let room = part.room()?;
    Ok(match tag {
        0x22 => written("rewrite", container::read(part.0).and_then(|contents| container::write(&contents, room))),
        0x23 => written("wrap", packet::write(part.0, room)),
        0x24 => written("unwrap", packet::read(part.0, room)),
        0x26 => written("stream", transport::write(part.0, room)),
        0x27 => written("unstream", transport::read(part.0, room)),
        0x28 => written("mend", recording::mend(part.0, room)),
        _ => written("write", container::write(&flat_contents(part)?, room)),
    })
}

/// Prints the line of each record's call, up to the end of the input or to a bad record.
pub fn answer_each(
    input: &mut impl Read,
    output: &mut impl Write,
    mut call: impl FnMut(u8, &[u8]) -> Result<String, BadRecord>,
) -> io::Result<()> {
    loop {
        let answer = match next_record(input)? {
            Next::End => return Ok(()),
            Next::Record { tag, payload } => call(tag, &payload),
            Next::CutShort => Err(BadRecord),
        };
        match answer {
            Ok(line) => writeln!(output, "{line}")?,
            Err(BadRecord) => return writeln!(output, "bad record"),
        }
    }
}

/// Runs a whole feed; gives the desk back as the feed left it.
pub fn run(input: &mut impl Read, output: &mut impl Write, exact: bool) -> io::Result<Desk> {
    let mut desk = Desk { exact: exact.then(Tally::default), ..Desk::default() };
    answer_each(input, output, |tag, payload| desk.call(tag, payload))?;
    desk.examine_sound();
    Ok(desk)
}

#[cfg(test)]
pub fn printed(feed: &[u8]) -> String {
    let mut output = Vec::new();
    run(&mut &feed[..], &mut output, false).unwrap();
    String::from_utf8(output).unwrap()
}

#[cfg(test)]
mod tests {
    use super::*;

    #[test]
    fn one_line_a_record() {
        let feed = [
            record(0x13, &[0, 9]),
            record(0x10, &[2, 5, 1]),
            record(0x11, &[[0, 1].to_vec(), vec![0; 2560]].concat()),
            record(0x12, &[0, 1, 2]),
            record(0x16, &[0, 1, 0, 0, 0x80, 0x3F]),
            record(0x16, &[9, 5].iter().chain(&[0xFF; 20]).copied().collect::<Vec<u8>>()),
            record(0x14, &[]),
            record(0x15, &[]),
            record(0x21, &[0, 7, 4, 0x52, 9, 0xF0, 0xAA]),
            record(0x22, &[0, 7, 0, 7, 4, 0x52, 9, 0xF0, 0xAA]),
            record(0x23, &[0, 1]),
        ];
        let lines = "pack 1\nsetup 0\nline 0\nsound 0\ninstant 0\ninstant 7\nvideo restart\naudio restart\n\
            ok seq 7 rate 5 id 0 video 1 240 audio 0\nrewrite 0 0007045209f0aa\nwrap 20\n";
        assert_eq!(printed(&feed.concat()), lines);
    }

    /// 720p's lines of one frame, all samples at a byte but the taps 255 + 13k and 256 + 13k of pixels of line 117.
    fn frame(base: u8, pixels: &[(usize, u8)]) -> Vec<u8> {
        let words = |value: u8, count| (4 * u16::from(value)).to_le_bytes().repeat(count);
        let mut first = words(base, 1280);
        for &(k, value) in pixels {
            first[2 * (255 + 13 * k)..2 * (257 + 13 * k)].copy_from_slice(&words(value, 2));
        }
        let line = |row: u16| [(117 + 32 * row).to_be_bytes().to_vec(), words(base, 1280)].concat();
        let others = (1..16).flat_map(|row| record(0x11, &line(row)));
        record(0x11, &[&[0, 117][..], &first].concat()).into_iter().chain(others).collect()
    }

    /// FEED, A1: the two counts stand behind a fingerprint; ` field none` stays, and a container says what it said.
    #[test]
    fn a_field_is_printed_with_its_counts() {
        let pack = record(0x13, &[0, 255]);
        let mut feed = record(0x10, &[2, 9, 1]);
        for (base, pixels) in [
            (100, &[][..]),
            (0, &[]),
            (100, &[(0, 132), (58, 131), (59, 255), (30, 68), (31, 69)]),
            (255, &[(7, 0)]),
            (100, &[(0, 100), (59, 132), (30, 0)]),
        ] {
            feed.extend([frame(base, pixels), pack.clone()].concat());
        }
        feed.extend([record(0x14, &[]), frame(1, &[])].concat());
        let lines = printed(&feed);
        let ends: Vec<&str> = lines.lines().filter(|line| *line != "line 0").collect();
        let expected = [
            "setup 0",
            "line 0 field none",
            "pack 0 000002906e",
            "line 0 field none",
            "pack 0 000102906d",
            "line 0 field 0 brighter 2 darker 1",
            "pack 0 0002049209005f",
            "line 0 field 239 brighter 959 darker 0",
            "pack 0 0003049209ef6f",
            "line 0 field 0 brighter 0 darker 3",
            "pack 0 0004049209005d",
            "video restart",
            "line 0 field none",
        ];
        assert_eq!(ends, expected);
        assert_eq!(lines.lines().count(), 1 + 6 * 16 + 5 + 1);
    }

    /// 02, A3: "Demand 3 reads over these samples".
    #[test]
    fn the_exact_filters_take_accepted_instants() {
        let mut feed = record(0x10, &[2, 5, 2]);
        for top in [0x3F, 0xBF, 0x7F, 0xFF] {
            feed.extend(record(0x16, &[0, 2, 0, 0, 0x80, top, 1, 0, 0, 0x80]));
            feed.extend(record(0x16, &[0, 2, 0, 0, 0x80, top, 1, 0, 0x80, 0x7F]));
        }
        let desk = run(&mut &feed[..], &mut io::sink(), true).unwrap();
        assert_eq!((desk.exact.unwrap().samples, desk.fault), (4, None));
    }

    #[test]
    fn bad_records_stop_the_feed() {
        let flat = |place: usize, value: u8| {
            let mut payload = vec![0; 285];
            payload[place] = value;
            record(0x25, &payload)
        };
        for cut_short in [&[0x14][..], &[0x14, 0], &[0x21, 0, 2, 1]] {
            assert_eq!(printed(cut_short), "bad record\n");
        }
        let bad = [
            record(0x18, &[]),
            record(0x10, &[2]),
            record(0x17, &[]),
            record(0x17, &[2]),
            record(0x17, &[2, 5]),
            record(0x11, &[0]),
            record(0x12, &[]),
            record(0x13, &[0x10, 0x01]),
            record(0x14, &[0]),
            record(0x16, &[]),
            record(0x16, &[0]),
            record(0x16, &[0, 1, 0, 0, 0]),
            record(0x16, &[0, 1, 0, 0, 0, 0, 0]),
            record(0x16, &[&[0, 5][..], &[0; 4 * 4]].concat()),
            record(0x16, &[0, 0]),
            record(0x16, &[&[0, 3][..], &[0; 4 * 3]].concat()),
            record(0x20, &[0, 0]),
            record(0x25, &[0; 284]),
            record(0x25, &[0; 286]),
            flat(2 + 2, 2),
            flat(2 + 23, 3),
            flat(2 + 24, 1),
            flat(2 + 25, 1),
        ];
        for record in bad {
            assert_eq!(printed(&[record, vec![0x14, 0, 0]].concat()[..]), "bad record\n");
        }
        assert_eq!(printed(&flat(0, 16)), "write 29\n");
    }
}
