// recording.rs: mending a recording: which of its fields are kept, and which of its bytes are dropped (02, A8).

use std::io::{self, Read};
use std::ops::Range;

use crate::container;

pub const TAG: u8 = 0x01;
/// Tag and length.
pub const BYTES_BEFORE: usize = 3;
/// "Recordings of up to 65,536 bytes."
pub const MOST_BYTES: usize = 65_536;

/// The acceptable field that starts at a place, if one does: "a whole field whose container is accepted". Its length
/// counts the container, as a record's counts the payload.
fn field_at(recording: &[u8], place: usize) -> Option<Range<usize>> {
    let [TAG, high, low, rest @ ..] = &recording[place..] else { return None };
    let length = 256 * usize::from(*high) + usize::from(*low);
    let container = rest.get(..length)?;
    container::read(container).ok()?;
    Some(place..place + BYTES_BEFORE + length)
}

/// What is left of a recording, and the place of each byte that is not.
struct Mended {
    fields: Vec<Range<usize>>,
    dropped: Vec<usize>,
}

/// "At each place, a whole field whose container is accepted is kept and passed over; otherwise one byte is dropped and
/// the next place tried."
fn walk(recording: &[u8]) -> Mended {
    let mut mended = Mended { fields: Vec::new(), dropped: Vec::new() };
    let mut place = 0;
    while place < recording.len() {
        match field_at(recording, place) {
            Some(field) => {
                place = field.end;
                mended.fields.push(field);
            }
            None => {
                mended.dropped.push(place);
                place += 1;
            }
        }
    }
    mended
}

/// Numbers 51 and 50, in order; 50 "exactly when no place in the input starts an acceptable field", whatever the walk
/// comes by.
fn mended(recording: &[u8]) -> Result<Mended, u8> {
    if recording.len() > MOST_BYTES {
        return Err(51);
    }
    if (0..recording.len()).all(|place| field_at(recording, place).is_none()) {
        return Err(50);
    }
    Ok(walk(recording))
}

/// Mend: 51; 50; 12. "The output is the kept fields joined."
pub fn mend(recording: &[u8], room: usize) -> Result<Vec<u8>, u8> {
    let fields = mended(recording)?.fields;
    let output = fields.into_iter().map(|field| &recording[field]).collect::<Vec<_>>().concat();
    if output.len() > room {
        return Err(12);
    }
    Ok(output)
}

/// Dropped places that follow one another are one run: its START, and its COUNT of bytes.
fn runs(dropped: &[usize]) -> Vec<(usize, usize)> {
    let mut runs: Vec<(usize, usize)> = Vec::new();
    for &place in dropped {
        match runs.last_mut() {
            Some((start, count)) if *start + *count == place => *count += 1,
            _ => runs.push((place, 1)),
        }
    }
    runs
}

/// What the program `mend` prints of a recording.
pub fn report(recording: &[u8]) -> String {
    match mended(recording) {
        Err(number) => format!("refused {number}\n"),
        Ok(Mended { fields, dropped }) => {
            let runs = runs(&dropped);
            let lines: String = runs.iter().map(|(start, count)| format!("dropped {start} {count}\n")).collect();
            format!("{lines}kept {}\n", fields.len())
        }
    }
}

/// The program `mend`: one byte more than a recording may have is enough to know 51 (FEED).
pub fn report_on(input: impl Read) -> io::Result<String> {
    let mut recording = Vec::new();
    input.take(MOST_BYTES as u64 + 1).read_to_end(&mut recording)?;
    Ok(report(&recording))
}
