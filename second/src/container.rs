// container.rs: what a container says, its reading and its writing (01, The container; 000, 6).

use crate::formats::Rate;

pub const MOST_FINGERPRINTS: usize = 32;
pub const ID_SIZE: usize = 20;

#[derive(Debug, Clone, Copy, PartialEq, Eq)]
pub enum VideoValues {
    None,
    One(u8),
    Two(u8, u8),
}

#[derive(Debug, Clone, Copy, PartialEq, Eq, Default)]
pub struct AudioPlace {
    pub id: u8,
    pub mix_type: u8,
    pub count: u8,
    pub bytes: [u8; 5],
}

/// The contents of a container; absent parts and unused places are zero (01, The container).
#[derive(Debug, Clone, PartialEq, Eq)]
pub struct Contents {
    pub counter: u8,
    pub rate: u8,
    pub id_present: bool,
    pub id: [u8; ID_SIZE],
    pub video: VideoValues,
    pub audio_count: u8,
    pub audio: [AudioPlace; MOST_FINGERPRINTS],
}

impl Contents {
    pub fn bare(counter: u8, rate: u8) -> Contents {
        Contents {
            counter,
            rate,
            id_present: false,
            id: [0; ID_SIZE],
            video: VideoValues::None,
            audio_count: 0,
            audio: [AudioPlace::default(); MOST_FINGERPRINTS],
        }
    }
}

pub fn sum(bytes: &[u8]) -> u8 {
    bytes.iter().fold(0, |sum, byte| sum.wrapping_add(*byte))
}

/// The next bytes of a part, or none where too few come before the checksum.
fn take<'a>(rest: &mut &'a [u8], count: usize) -> Option<&'a [u8]> {
    if rest.len() < count {
        return None;
    }
    let (taken, left) = rest.split_at(count);
    *rest = left;
    Some(taken)
}

/// Numbers 20 to 28, in order (01, What a caller is told).
pub fn read(bytes: &[u8]) -> Result<Contents, u8> {
    if bytes.len() < 5 {
        return Err(20);
    }
    if bytes[0] != 0 {
        return Err(21);
    }
    if bytes.len() != usize::from(bytes[2]) + 3 {
        return Err(22);
    }
    if sum(bytes) != 0 {
        return Err(23);
    }
    let (rate, bit_3) = (bytes[3] / 16, bytes[3] / 8 % 2);
    if Rate::coded(rate).is_none() || bit_3 != 0 {
        return Err(24);
    }
    let (id_flag, video_flag, audio_flag) = (bytes[3] / 4 % 2, bytes[3] / 2 % 2, bytes[3] % 2);
    let mut contents = Contents::bare(bytes[1], rate);
    let mut rest = &bytes[4..bytes.len() - 1];
    if id_flag == 1 {
        contents.id = read_id(&mut rest).ok_or(25)?;
        contents.id_present = true;
    }
    if video_flag == 1 {
        contents.video = read_video(&mut rest, rate).ok_or(26)?;
    }
    if audio_flag == 1 {
        read_audio(&mut rest, &mut contents).ok_or(27)?;
    }
    if !rest.is_empty() {
        return Err(28);
    }
    Ok(contents)
}

fn read_id(rest: &mut &[u8]) -> Option<[u8; ID_SIZE]> {
    if take(rest, 1)? != [0x00] {
        return None;
    }
    take(rest, ID_SIZE)?.try_into().ok()
}

/// 11h, two fields, belongs to the interlaced rates only: 25, 29.97 and 30 (01, What a caller is told).
fn read_video(rest: &mut &[u8], rate: u8) -> Option<VideoValues> {
    let values = match take(rest, 1)? {
        [0x09] => take(rest, 1)?,
        [0x11] if [5, 6, 7].contains(&rate) => take(rest, 2)?,
        _ => return None,
    };
    if values.iter().any(|&value| value > 240) {
        return None;
    }
    match *values {
        [one] => Some(VideoValues::One(one)),
        [field_1, field_2] => Some(VideoValues::Two(field_1, field_2)),
        _ => None,
    }
}

/// "Every fingerprint of a container carries the same count" (02, A2).
fn read_audio(rest: &mut &[u8], contents: &mut Contents) -> Option<()> {
    let rate = Rate::coded(contents.rate)?;
    let header = take(rest, 1)?[0];
    if header % 8 != 2 {
        return None;
    }
    contents.audio_count = header / 8 + 1;
    for place in 0..usize::from(contents.audio_count) {
        contents.audio[place] = read_audio_place(rest, rate)?;
        if contents.audio[place].count != contents.audio[0].count {
            return None;
        }
    }
    Some(())
}

/// "And that count occurs in the cadence of the container's rate" (02, A2), so it is 1 to 5.
fn read_audio_place(rest: &mut &[u8], rate: &Rate) -> Option<AudioPlace> {
    let header = take(rest, 2)?;
    let (id, mix_type) = (header[0] / 8, header[0] % 8);
    let (count, low_bits) = (header[1] / 8, header[1] % 8);
    if ![1, 2, 5].contains(&mix_type) || low_bits != 0 || !rate.cadence_has(usize::from(count)) {
        return None;
    }
    let data = take(rest, usize::from(count))?;
    let mut bytes = [0; 5];
    bytes[..data.len()].copy_from_slice(data);
    Some(AudioPlace { id, mix_type, count, bytes })
}

/// The bytes of the layout, whatever the contents; values too large for their place lose their upper bits here.
fn lay_out(contents: &Contents) -> Vec<u8> {
    let video_flag = u8::from(contents.video != VideoValues::None);
    let audio_flag = u8::from(contents.audio_count != 0);
    let flags = 4 * u8::from(contents.id_present) + 2 * video_flag + audio_flag;
    let mut bytes = vec![0, contents.counter, 0, contents.rate.wrapping_mul(16) + flags];
    if contents.id_present {
        bytes.push(0x00);
        bytes.extend(contents.id);
    }
    match contents.video {
        VideoValues::None => {}
        VideoValues::One(value) => bytes.extend([0x09, value]),
        VideoValues::Two(field_1, field_2) => bytes.extend([0x11, field_1, field_2]),
    }
    if contents.audio_count != 0 {
        lay_out_audio(contents, &mut bytes);
    }
    mend(&mut bytes, true);
    bytes
}

fn lay_out_audio(contents: &Contents, bytes: &mut Vec<u8>) {
    bytes.push((contents.audio_count - 1).wrapping_mul(8).wrapping_add(2));
    for place in contents.audio.iter().take(usize::from(contents.audio_count)) {
        bytes.push(place.id.wrapping_mul(8).wrapping_add(place.mix_type));
        bytes.push(place.count.wrapping_mul(8));
        bytes.extend(place.bytes.iter().take(usize::from(place.count)));
    }
}

/// Sets Length and the checksum to what the other bytes ask for; `add` appends the checksum byte first.
pub fn mend(bytes: &mut Vec<u8>, add: bool) {
    if add {
        bytes.push(0);
    }
    bytes[2] = (bytes.len() - 3) as u8;
    mend_checksum(bytes);
}

/// The two's complement of the sum of the bytes before the last (000, 6.1).
pub fn mend_checksum(bytes: &mut [u8]) {
    if let Some((last, before)) = bytes.split_last_mut() {
        *last = sum(before).wrapping_neg();
    }
}

/// Numbers 29 and 12, in order. The layout is one to one, so contents that some reading gives are exactly those
/// that come back when their own layout is read.
pub fn write(contents: &Contents, room: usize) -> Result<Vec<u8>, u8> {
    let bytes = lay_out(contents);
    if read(&bytes).as_ref() != Ok(contents) {
        return Err(29);
    }
    if bytes.len() > room {
        return Err(12);
    }
    Ok(bytes)
}

#[cfg(test)]
mod tests {
    use super::*;
    use crate::formats::{COUNTS_BY_HAND, RATES};

    fn mended(body: &[u8]) -> Vec<u8> {
        let mut bytes = body.to_vec();
        mend(&mut bytes, true);
        bytes
    }

    #[test]
    fn the_refusals_in_their_order() {
        assert_eq!(read(&[1, 2, 3, 4]), Err(20));
        assert_eq!(read(&[1, 0, 9, 0x50, 0xFF]), Err(21));
        assert_eq!(read(&[0, 0, 9, 0x50, 0xFF]), Err(22));
        assert_eq!(read(&[0, 0, 2, 0x00, 0xFF]), Err(23));
        assert_eq!(read(&mended(&[0, 0, 0, 0x1C])), Err(24));
        assert_eq!(read(&mended(&[0, 0, 0, 0xC0])), Err(24));
        assert_eq!(read(&mended(&[0, 0, 0, 0x58])), Err(24));
        assert_eq!(read(&mended(&[0, 0, 0, 0x57])), Err(25));
        assert_eq!(read(&mended(&[0, 0, 0, 0x53, 0x09])), Err(26));
        assert_eq!(read(&mended(&[0, 0, 0, 0x53, 0x09, 241])), Err(26));
        assert_eq!(read(&mended(&[0, 0, 0, 0x93, 0x11, 1, 1])), Err(26));
        assert_eq!(read(&mended(&[0, 0, 0, 0x53, 0x09, 240])), Err(27));
        assert_eq!(read(&mended(&[0, 0, 0, 0x51, 0x02, 0x03, 0x20, 0, 0, 0, 0])), Err(27));
        assert_eq!(read(&mended(&[0, 0, 0, 0x51, 0x02, 0x01, 0x30, 0, 0, 0, 0, 0, 0])), Err(27));
        assert_eq!(read(&mended(&[0, 0, 0, 0x50, 0x00])), Err(28));
    }

    #[test]
    fn ids_may_come_in_any_order_and_repeat() {
        let bytes = mended(&[0, 0, 0, 0x51, 0x0A, 0xF9, 0x20, 7, 1, 2, 3, 0xF9, 0x20, 8, 4, 5, 6]);
        let contents = read(&bytes).unwrap();
        assert_eq!((contents.audio_count, contents.audio[0].id, contents.audio[1].id), (2, 31, 31));
        assert_eq!(contents.audio[1].bytes, [8, 4, 5, 6, 0]);
        assert_eq!(write(&contents, bytes.len()), Ok(bytes));
    }

    /// Every fault that contents may have, by the rules of the layout.
    #[test]
    fn contents_that_no_reading_gives() {
        let mut good = Contents::bare(9, 5);
        good.video = VideoValues::Two(240, 0);
        good.audio_count = 1;
        good.audio[0] = AudioPlace { id: 31, mix_type: 5, count: 4, bytes: [1, 2, 3, 4, 0] };
        let bytes = mended(&[0, 9, 0, 0x53, 0x11, 240, 0, 0x02, 0xFD, 0x20, 1, 2, 3, 4]);
        assert_eq!(write(&good, 14), Err(12));
        assert_eq!(write(&good, 15), Ok(bytes));
        let faults: [fn(&mut Contents); 12] = [
            |c| c.rate = 1,
            |c| c.rate = 0x15,
            |c| c.rate = 2,
            |c| c.id[19] = 1,
            |c| c.video = VideoValues::Two(0, 241),
            |c| c.audio_count = 33,
            |c| c.audio_count = 0,
            |c| c.audio[0].id = 32,
            |c| c.audio[0].mix_type = 9,
            |c| c.audio[0].count = 0,
            |c| c.audio[0].bytes[4] = 1,
            |c| c.audio[31].id = 1,
        ];
        for (number, fault) in faults.iter().enumerate() {
            let mut bad = good.clone();
            fault(&mut bad);
            assert_eq!(write(&bad, 0), Err(29), "fault {number}");
        }
    }

    /// Contents with these parts: fingerprints to this number, of so many bytes each.
    fn with_parts(rate: u8, id: bool, video: VideoValues, fingerprints: usize, size: usize) -> Contents {
        let mut contents = Contents::bare(255, rate);
        contents.id_present = id;
        contents.id.fill(if id { 255 } else { 0 });
        contents.video = video;
        contents.audio_count = fingerprints as u8;
        let mut place = AudioPlace { id: 31, mix_type: 5, count: size as u8, bytes: [0; 5] };
        place.bytes[..size].fill(255);
        contents.audio[..fingerprints].fill(place);
        contents
    }

    /// 4 + 21 + 3 + 225 + 1 bytes make 254 (02, A7).
    #[test]
    fn the_largest_container() {
        let (none, two) = (VideoValues::None, VideoValues::Two(240, 240));
        let size = |id, video, fingerprints| lay_out(&with_parts(5, id, video, fingerprints, 5)).len();
        let without_parts = size(false, none, 0);
        assert_eq!(without_parts, 4 + 1);
        assert_eq!(size(true, none, 0) - without_parts, 21);
        assert_eq!(size(false, two, 0) - without_parts, 3);
        assert_eq!(size(false, none, 32) - without_parts, 225);
        let largest = with_parts(5, true, two, 32, 5);
        assert_eq!(write(&largest, 253), Err(12));
        let bytes = write(&largest, 254).unwrap();
        assert_eq!((bytes.len(), read(&bytes)), (254, Ok(largest)));
    }

    #[test]
    fn no_contents_that_pass_29_are_longer_than_their_parts_or_254_bytes() {
        let videos = [(VideoValues::None, 0), (VideoValues::One(240), 2), (VideoValues::Two(240, 240), 3)];
        for (rate, (video, video_size)) in RATES.iter().flat_map(|rate| videos.map(|video| (rate.code, video))) {
            for (id, id_size) in [(false, 0), (true, 21)] {
                for (count, size) in (0..=32).flat_map(|count| (1..=5).map(move |size| (count, size))) {
                    let audio_size = if count == 0 { 0 } else { 1 + count * (2 + size) };
                    let parts = 4 + id_size + video_size + audio_size + 1;
                    let passes = (video_size < 3 || [5, 6, 7].contains(&rate)) && (count == 0 || allows(rate, size));
                    let written = write(&with_parts(rate, id, video, count, size), 4096).map(|bytes| bytes.len());
                    assert_eq!(written, if passes { Ok(parts) } else { Err(29) });
                    assert!(parts <= 254);
                }
            }
        }
    }

    /// By the table written out by hand.
    fn allows(rate: u8, count: usize) -> bool {
        COUNTS_BY_HAND.iter().any(|(code, counts)| *code == rate && counts.contains(&count))
    }

    /// A container whose fingerprints have these counts, each with as many bytes; no part but audio.
    fn with_counts(rate: u8, counts: &[usize]) -> Vec<u8> {
        let mut body = vec![0, 0, 0, 16 * rate + 1, (counts.len() as u8 - 1) * 8 + 2];
        for &count in counts {
            body.extend([0x01, 8 * count as u8]);
            body.extend(vec![0x5A; count]);
        }
        mended(&body)
    }

    /// Contents whose fingerprints have these counts.
    fn contents_with_counts(rate: u8, counts: &[usize]) -> Contents {
        let mut contents = with_parts(rate, false, VideoValues::None, counts.len(), 0);
        for (place, &count) in contents.audio.iter_mut().zip(counts) {
            place.count = count as u8;
            place.bytes[..count.min(5)].fill(0x5A);
        }
        contents
    }

    /// All of one count but the one at this place.
    fn all_but_one(number: usize, place: usize, count: usize, other: usize) -> Vec<usize> {
        (0..number).map(|at| if at == place { other } else { count }).collect()
    }

    /// 02, A2: "that count occurs in the cadence of the container's rate". Counts with more bytes than Length reaches
    /// are left out.
    #[test]
    fn a_reading_takes_the_counts_of_the_cadence_and_no_other() {
        for (rate, number, count) in
            RATES.iter().flat_map(|rate| [1, 2, 32].map(|number| (rate.code, number))).flat_map(|(rate, number)| {
                (0..=31usize).filter(move |count| number * (2 + count) < 250).map(move |count| (rate, number, count))
            })
        {
            let bytes = with_counts(rate, &vec![count; number]);
            let told = read(&bytes).map(|contents| contents.audio.map(|place| usize::from(place.count)));
            let mut counts = [0; 32];
            counts[..number].fill(count);
            let expected = if allows(rate, count) { Ok(counts) } else { Err(27) };
            assert_eq!(told, expected, "rate {rate}, {number} of {count}");
        }
    }

    /// 02, A2: "every fingerprint of a container carries the same count". Every place of the odd one, so neighbours and
    /// the first and last of 32 too.
    #[test]
    fn unequal_counts_are_refused_at_every_rate() {
        for (rate, number) in RATES.iter().flat_map(|rate| [2, 3, 31, 32].map(|number| (rate.code, number))) {
            for (count, other) in (1..=5).flat_map(|count| (1..=5).map(move |other| (count, other))) {
                for place in 0..number {
                    let counts = all_but_one(number, place, count, other);
                    let passes = count == other && allows(rate, count);
                    let read = read(&with_counts(rate, &counts)).err();
                    assert_eq!(read, if passes { None } else { Some(27) }, "rate {rate}: {counts:?}");
                    let written = write(&contents_with_counts(rate, &counts), 4096).err();
                    assert_eq!(written, if passes { None } else { Some(29) }, "rate {rate}: {counts:?}");
                }
            }
        }
    }

    /// So that at 24, 30 and 60 nothing is refused for unequal counts alone.
    #[test]
    fn where_the_cadence_has_one_count_unequal_counts_include_a_forbidden_one() {
        let with_one_count = COUNTS_BY_HAND.iter().filter(|(_, counts)| counts.len() == 1).map(|(code, _)| *code);
        assert_eq!(with_one_count.collect::<Vec<_>>(), [3, 7, 11]);
        for rate in [3, 7, 11] {
            let pairs = (0..=31).flat_map(|one| (0..=31).map(move |other| (one, other)));
            assert!(pairs
                .filter(|(one, other)| one != other)
                .all(|(one, other)| !(allows(rate, one) && allows(rate, other))));
        }
    }

    /// The largest container of each rate, by hand: 4 + 21 + (3 where the rate has two fields, else 2)
    /// + (1 + 32 x (2 + largest count)) + 1.
    #[test]
    fn the_largest_container_of_each_rate() {
        let by_hand =
            [(2, 253), (3, 253), (4, 189), (5, 254), (6, 222), (7, 222), (8, 189), (9, 189), (10, 157), (11, 157)];
        for ((rate, size), (code, counts)) in by_hand.into_iter().zip(COUNTS_BY_HAND) {
            let two = [5, 6, 7].contains(&rate);
            let video = if two { VideoValues::Two(240, 240) } else { VideoValues::One(240) };
            let count = counts[counts.len() - 1];
            assert_eq!((rate, size), (code, 4 + 21 + if two { 3 } else { 2 } + (1 + 32 * (2 + count)) + 1));
            let largest = with_parts(rate, true, video, 32, count);
            assert_eq!(write(&largest, size - 1), Err(12));
            let bytes = write(&largest, size).unwrap();
            assert_eq!((bytes.len(), read(&bytes)), (size, Ok(largest)));
            assert_eq!(size == 254, rate == 5, "only 25 Hz has 254 bytes");
        }
    }

    /// A container with an ID and video, whose fingerprints have these counts.
    fn with_all_parts(rate: u8, counts: &[usize]) -> Vec<u8> {
        let audio = with_counts(rate, counts);
        let mut body = vec![0, 0, 0, 16 * rate + 7];
        body.extend([0; 21]);
        body.extend([0x09, 240]);
        body.extend(&audio[4..audio.len() - 1]);
        body
    }

    /// 02, A2: "in their old places". Both new faults, each with an older fault before it and with bytes left over.
    #[test]
    fn number_27_stands_behind_26_and_before_28() {
        for (rate, allowed) in COUNTS_BY_HAND {
            let forbidden = (1..=5).find(|&count| !allows(rate, count)).unwrap();
            let faults = [vec![forbidden], vec![forbidden; 2], vec![allowed[0], allowed[allowed.len() - 1], forbidden]];
            let unequal = (allowed.len() == 2).then(|| allowed.to_vec());
            for counts in faults.into_iter().chain(unequal) {
                let body = with_all_parts(rate, &counts);
                let changed = |change: fn(&mut Vec<u8>)| {
                    let mut body = body.clone();
                    change(&mut body);
                    read(&mended(&body))
                };
                assert_eq!(changed(|_| {}), Err(27), "rate {rate}: {counts:?}");
                assert_eq!(changed(|body| body.push(0)), Err(27));
                assert_eq!(changed(|body| body[26] = 241), Err(26));
                assert_eq!(changed(|body| body[25] = 0x0A), Err(26));
                assert_eq!(changed(|body| body[4] = 1), Err(25));
                assert_eq!(changed(|body| body[3] += 8), Err(24));
            }
            let mut left_over = with_all_parts(rate, &[allowed[0]; 2]);
            assert!(read(&mended(&left_over)).is_ok());
            left_over.push(0);
            assert_eq!(read(&mended(&left_over)), Err(28));
        }
    }

    /// 02, A2, with the counts that need more than five bits, and 29 before 12.
    #[test]
    fn write_refuses_every_count_but_those_of_the_cadence() {
        for (rate, allowed) in COUNTS_BY_HAND {
            for (number, count) in [1, 2, 32].into_iter().flat_map(|number| (0..=255).map(move |count| (number, count)))
            {
                let contents = contents_with_counts(rate, &vec![count; number]);
                let refused = write(&contents, 0).unwrap_err();
                assert_eq!(refused, if allowed.contains(&count) { 12 } else { 29 }, "rate {rate}, {number} of {count}");
            }
            if let [one, other] = *allowed {
                for place in [0, 15, 31] {
                    assert_eq!(write(&contents_with_counts(rate, &all_but_one(32, place, one, other)), 0), Err(29));
                    assert_eq!(write(&contents_with_counts(rate, &all_but_one(32, place, other, one)), 0), Err(29));
                }
            }
        }
    }

    /// A container without audio carries no count, so the rule asks nothing of it.
    #[test]
    fn a_container_without_audio_is_taken_at_every_rate() {
        for rate in &RATES {
            assert!(read(&mended(&[0, 0, 0, 16 * rate.code])).is_ok());
            assert!(read(&mended(&[0, 0, 0, 16 * rate.code + 2, 0x09, 7])).is_ok());
        }
    }
}
