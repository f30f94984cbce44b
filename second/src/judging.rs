// judging.rs: judging other makers' feeds: a file's packets, the faults of each, and what `judge` prints of them
// (02, A13).

use std::fs::File;
use std::io::{self, Read};
use std::path::Path;

use crate::container::{self, Contents};
use crate::formats::Rate;
use crate::packet;

pub const TAG: u8 = 0x02;
/// "Up to 500 packets."
pub const MOST_PACKETS: usize = 500;

/// The packet of the whole field at the front of these bytes, and what stands behind it. Its length counts the packet,
/// as a record's counts the payload (FEED).
fn whole_field(bytes: &[u8]) -> Option<(&[u8], &[u8])> {
    let [_, high, low, rest @ ..] = bytes else { return None };
    rest.split_at_checked(256 * usize::from(*high) + usize::from(*low))
}

/// Numbers 82, 81, 80 at each place that a field starts at, "whichever fault comes first in the file".
fn packets_of(file: &[u8]) -> Result<Vec<&[u8]>, u8> {
    if file.is_empty() {
        return Err(80);
    }
    let (mut packets, mut rest) = (Vec::new(), file);
    while let Some(&tag) = rest.first() {
        if packets.len() == MOST_PACKETS {
            return Err(82);
        }
        if tag != TAG {
            return Err(81);
        }
        let (packet, behind) = whole_field(rest).ok_or(80)?;
        packets.push(packet);
        rest = behind;
    }
    Ok(packets)
}

/// In the order in which the faults of one packet come.
#[derive(Debug, Clone, Copy, PartialEq, Eq, PartialOrd, Ord)]
pub enum Fault {
    Refused(u8),
    Counter,
    Rate,
    Count,
    Cadence,
}

/// What a packet says, or the number that it is refused with; and its faults.
pub struct Judged {
    pub reading: Result<Contents, u8>,
    pub faults: Vec<Fault>,
}

/// No room is too short: 12 is never told (FEED).
fn reading_of(packet: &[u8]) -> Result<Contents, u8> {
    container::read(&packet::read(packet, usize::MAX)?)
}

fn with_audio(contents: &Contents) -> bool {
    contents.audio_count != 0
}

/// Of all fingerprints alike (02, A2).
fn byte_count(contents: &Contents) -> usize {
    usize::from(contents.audio[0].count)
}

/// The accepted ones among packets, the last one first.
fn accepted_back(packets: &[Judged]) -> impl Iterator<Item = &Contents> {
    packets.iter().rev().filter_map(|packet| packet.reading.as_ref().ok())
}

/// The byte counts that are to fit: those of the accepted packets with audio since the fitting last began, the packet
/// at hand the last. It begins with the first packet, with each whose rate differs and with each that has the last
/// fault.
fn counts_to_fit(before: &[Judged], contents: &Contents, rate_differs: bool) -> Vec<usize> {
    let begins = |packet: &Judged| packet.faults.iter().any(|fault| matches!(fault, Fault::Rate | Fault::Cadence));
    let last_begun = before.iter().rposition(begins).unwrap_or(0);
    let from = if rate_differs { before.len() } else { last_begun };
    let since = before[from..].iter().filter_map(|packet| packet.reading.as_ref().ok());
    since.chain([contents]).filter(|contents| with_audio(contents)).map(byte_count).collect()
}

/// Whether some starting position of the cadence fits.
fn fits(rate: &Rate, counts: &[usize]) -> bool {
    let from = |start: usize| counts.iter().enumerate().all(|(after, &count)| rate.bytes_due(start + after) == count);
    rate.positions().any(from)
}

/// The faults of an accepted packet behind these.
fn faults_of(before: &[Judged], contents: &Contents) -> Vec<Fault> {
    let previous = accepted_back(before).next();
    let previous_with_audio = accepted_back(before).find(|contents| with_audio(contents));
    let rate = Rate::coded(contents.rate).expect("an accepted rate code");
    let counter_wrong = previous.is_some_and(|one| (u16::from(one.counter) + 1) % 256 != u16::from(contents.counter));
    let rate_differs = previous.is_some_and(|one| one.rate != contents.rate);
    let number_differs = previous_with_audio.is_some_and(|one| one.audio_count != contents.audio_count);
    let faults = [
        (counter_wrong, Fault::Counter),
        (rate_differs, Fault::Rate),
        (with_audio(contents) && number_differs, Fault::Count),
        (with_audio(contents) && !fits(rate, &counts_to_fit(before, contents, rate_differs)), Fault::Cadence),
    ];
    faults.into_iter().filter(|(found, _)| *found).map(|(_, fault)| fault).collect()
}

/// Every packet of a file with its faults, or the number that the file is refused with.
pub fn judged(file: &[u8]) -> Result<Vec<Judged>, u8> {
    let mut packets = Vec::new();
    for packet in packets_of(file)? {
        let reading = reading_of(packet);
        let faults = match &reading {
            Err(number) => vec![Fault::Refused(*number)],
            Ok(contents) => faults_of(&packets, contents),
        };
        packets.push(Judged { reading, faults });
    }
    Ok(packets)
}

fn line(number: usize, fault: &Fault) -> String {
    match fault {
        Fault::Refused(refusal) => format!("packet {number} refused {refusal}\n"),
        Fault::Counter => format!("packet {number} counter\n"),
        Fault::Rate => format!("packet {number} rate\n"),
        Fault::Count => format!("packet {number} count\n"),
        Fault::Cadence => format!("packet {number} cadence\n"),
    }
}

/// What the program `judge` prints of a file.
pub fn report(file: &[u8]) -> String {
    let packets = match judged(file) {
        Err(number) => return format!("refused {number}\n"),
        Ok(packets) => packets,
    };
    let of_one = |(before, packet): (usize, &Judged)| -> String {
        packet.faults.iter().map(|fault| line(before + 1, fault)).collect()
    };
    let lines: String = packets.iter().enumerate().map(of_one).collect();
    if lines.is_empty() {
        "clean\n".to_string()
    } else {
        lines
    }
}

/// The program `judge` on standard input, or on the file of this name.
pub fn report_on(name: Option<&Path>) -> io::Result<String> {
    let mut file = Vec::new();
    match name {
        None => io::stdin().lock().read_to_end(&mut file)?,
        Some(name) => File::open(name)?.read_to_end(&mut file)?,
    };
    Ok(report(&file))
}
