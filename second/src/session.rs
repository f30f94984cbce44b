// session.rs: a session from setup to packing (01, What the card's software does; What a caller is told).

use crate::audio::{self, Rule, Sound};
use crate::container::{self, AudioPlace, Contents, VideoValues, ID_SIZE, MOST_FINGERPRINTS};
use crate::float::Float;
use crate::formats::{Format, Rate};
use crate::video::{FieldEnd, Picture};

/// A session that setup accepted.
#[derive(Debug, Clone)]
pub struct Running {
    pub format: &'static Format,
    pub rate: &'static Rate,
    pub rule: Rule,
    pub picture: Picture,
    pub sounds: Vec<Sound>,
    /// Containers packed since setup: the counter is its remainder by 256.
    packed: usize,
    /// Containers packed with audio since setup or audio restart: the place in the cadence.
    packed_with_audio: usize,
}

/// None is the empty session, that of a refused setup.
#[derive(Debug, Clone, Default)]
pub struct Session(pub Option<Running>);

/// Setup: 1 where format, pairing, rule (02, A9), count or a mix type is not listed.
pub fn setup(format: u8, rate: u8, rule: u8, mix_types: &[u8]) -> Result<Session, u8> {
    let format = Format::numbered(format).ok_or(1)?;
    let rate = Rate::coded(rate).ok_or(1)?;
    let rule = Rule::numbered(rule).ok_or(1)?;
    let count_listed = (1..=MOST_FINGERPRINTS).contains(&mix_types.len());
    let mixes_listed = mix_types.iter().all(|&mix_type| audio::instant_size(mix_type).is_some());
    if !format.takes_rate(rate.code) || !count_listed || !mixes_listed {
        return Err(1);
    }
    let sounds = mix_types.iter().map(|&mix_type| Sound::new(mix_type, rate.decimator, rule)).collect();
    let picture = Picture::default();
    Ok(Session(Some(Running { format, rate, rule, picture, sounds, packed: 0, packed_with_audio: 0 })))
}

impl Session {
    pub fn line(&mut self, number: u16, line: &[u8]) -> Result<FieldEnd, u8> {
        let running = self.0.as_mut().ok_or(1)?;
        running.picture.take_line(running.format, number, line)
    }

    /// Numbers 1 and 7, which blocks and instants share.
    fn sound_numbered(&mut self, fingerprint: u8) -> Result<&mut Sound, u8> {
        let running = self.0.as_mut().ok_or(1)?;
        running.sounds.get_mut(usize::from(fingerprint)).ok_or(7)
    }

    pub fn sound(&mut self, fingerprint: u8, block: &[u8]) -> Result<(), u8> {
        self.sound_numbered(fingerprint)?.take_block(block)
    }

    /// One instant in floating point (02, A3).
    pub fn instant(&mut self, fingerprint: u8, values: &[Float]) -> Result<(), u8> {
        self.sound_numbered(fingerprint)?.take_instant(values)
    }

    pub fn pack(&mut self, id: &[u8], room: usize) -> Result<Vec<u8>, u8> {
        self.0.as_mut().ok_or(1)?.pack(id, room)
    }

    pub fn video_restart(&mut self) {
        if let Some(running) = &mut self.0 {
            running.picture.restart();
        }
    }

    /// Clears all fingerprints and sets the cadence to frame 1 (01, Audio).
    pub fn audio_restart(&mut self) {
        if let Some(running) = &mut self.0 {
            let fresh = |sound: &Sound| Sound::new(sound.mix_type, running.rate.decimator, running.rule);
            running.sounds = running.sounds.iter().map(fresh).collect();
            running.packed_with_audio = 0;
        }
    }
}

impl Running {
    pub fn bytes_due(&self) -> usize {
        self.rate.bytes_due(self.packed_with_audio)
    }

    /// Present exactly when the frame gave a fingerprint for each of its fields (01, The container).
    fn video_of(fields: &[Option<u8>]) -> VideoValues {
        match *fields {
            [Some(frame)] => VideoValues::One(frame),
            [Some(field_1), Some(field_2)] => VideoValues::Two(field_1, field_2),
            _ => VideoValues::None,
        }
    }

    /// Present exactly when every fingerprint holds the whole bytes that the cadence asks for.
    fn audio_due(&self) -> Option<Vec<AudioPlace>> {
        let places = self.sounds.iter().enumerate().map(|(k, sound)| {
            let data = sound.oldest_bytes(self.bytes_due())?;
            let mut bytes = [0; 5];
            bytes[..data.len()].copy_from_slice(&data);
            Some(AudioPlace { id: k as u8, mix_type: sound.mix_type, count: data.len() as u8, bytes })
        });
        places.collect()
    }

    fn contents(&self, fields: &[Option<u8>], id: &[u8], audio: &Option<Vec<AudioPlace>>) -> Contents {
        let mut contents = Contents::bare((self.packed % 256) as u8, self.rate.code);
        contents.video = Self::video_of(fields);
        if let Ok(id) = <[u8; ID_SIZE]>::try_from(id) {
            contents.id_present = true;
            contents.id = id;
        }
        if let Some(places) = audio {
            contents.audio_count = places.len() as u8;
            contents.audio[..places.len()].copy_from_slice(places);
        }
        contents
    }

    /// Numbers 10, 11, 12, in order; a refusal leaves the session as it was.
    fn pack(&mut self, id: &[u8], room: usize) -> Result<Vec<u8>, u8> {
        let fields = self.picture.ready().ok_or(10)?;
        if !id.is_empty() && id.len() != ID_SIZE {
            return Err(11);
        }
        let audio = self.audio_due();
        let container = container::write(&self.contents(fields, id, &audio), room)?;
        if audio.is_some() {
            let due = self.bytes_due();
            self.sounds.iter_mut().for_each(|sound| sound.bytes_packed(due));
            self.packed_with_audio += 1;
        }
        self.picture.frame_packed();
        self.packed += 1;
        Ok(container)
    }
}

#[cfg(test)]
mod tests {
    use super::*;
    use crate::float::bits_of_ratio;
    use crate::formats::RATES;

    const NAN: u32 = 0x7F80_0001;

    fn floats(bits: &[u32]) -> Vec<Float> {
        bits.iter().map(|&bits| Float::of_bits(bits)).collect()
    }

    fn ready_session(format: u8, rate: u8, rule: u8, mix_types: &[u8]) -> Session {
        let mut session = setup(format, rate, rule, mix_types).unwrap();
        run_frame(&mut session);
        session
    }

    fn run_frame(session: &mut Session) {
        while session.0.as_ref().unwrap().picture.ready().is_none() {
            let running = session.0.as_ref().unwrap();
            let line = running.picture.expected_line(running.format);
            session.line(line, &vec![0; 2 * session.0.as_ref().unwrap().format.width]).unwrap();
        }
    }

    #[test]
    fn an_empty_session_answers_1_first() {
        let mut session = Session::default();
        session.video_restart();
        session.audio_restart();
        assert_eq!(session.line(0, &[]), Err(1));
        assert_eq!(session.sound(99, &[1]), Err(1));
        assert_eq!(session.instant(99, &floats(&[NAN])), Err(1));
        assert_eq!(session.instant(0, &floats(&[0])), Err(1));
        assert_eq!(session.pack(&[1], 0), Err(1));
    }

    #[test]
    fn setup_takes_listed_values_only() {
        assert!(setup(2, 2, 1, &[1; 32]).is_ok());
        for (format, rate, mixes) in [(8, 5, &[1][..]), (0, 5, &[1]), (3, 8, &[1]), (2, 1, &[1]), (2, 12, &[1])] {
            assert_eq!(setup(format, rate, 1, mixes).err(), Some(1));
        }
        for mixes in [&[][..], &[1; 33], &[0], &[1, 3], &[6]] {
            assert_eq!(setup(2, 5, 1, mixes).err(), Some(1));
        }
    }

    #[test]
    fn pack_answers_in_order_and_a_refusal_keeps_the_frame() {
        let mut session = setup(2, 11, 1, &[1]).unwrap();
        assert_eq!(session.pack(&[1], 0), Err(10));
        run_frame(&mut session);
        assert_eq!(session.pack(&[1], 0), Err(11));
        assert_eq!(session.pack(&[], 4), Err(12));
        assert_eq!(session.pack(&[], 5), Ok(vec![0, 0, 2, 0xB0, 0x4E]));
        assert_eq!(session.pack(&[], 5), Err(10));
    }

    #[test]
    fn the_cadence_moves_with_audio_only() {
        let mut session = ready_session(2, 5, 1, &[1, 1]);
        session.sound(0, &vec![0; 2 * 50 * 40]).unwrap();
        session.sound(1, &vec![0; 2 * 50 * 31]).unwrap();
        assert_eq!(session.pack(&[], 255).unwrap().len(), 5, "31 bits are no four bytes");
        assert_eq!(session.0.as_ref().unwrap().bytes_due(), 4);
        session.sound(1, &[0; 2]).unwrap();
        run_frame(&mut session);
        assert_eq!(session.pack(&[], 255).unwrap()[3..8], [0x51, 0x0A, 0x01, 0x20, 0]);
        let running = session.0.as_ref().unwrap();
        assert_eq!(running.bytes_due(), 5);
        assert_eq!((running.sounds[0].held_bits(), running.sounds[1].held_bits()), (8, 0));
    }

    /// 02, A2 adds no number to Pack: what a session packs has one count of the cadence, and is read. 41 frames are one
    /// more than the longest cadence.
    #[test]
    fn what_is_packed_is_read_at_every_frame_of_every_cadence() {
        for rate in &RATES {
            let mut session = setup(2, rate.code, 1, &[1, 2]).unwrap();
            for frame in 0..41 {
                let due = rate.bytes_due(frame);
                session.sound(0, &vec![0; 2 * rate.decimator * 8 * due]).unwrap();
                session.sound(1, &vec![0; 4 * rate.decimator * 8 * due]).unwrap();
                run_frame(&mut session);
                let contents = container::read(&session.pack(&[], 255).unwrap()).unwrap();
                let counts = contents.audio[..2].iter().map(|place| usize::from(place.count));
                assert_eq!((contents.audio_count, counts.collect()), (2, vec![due, due]), "code {}", rate.code);
            }
        }
    }

    /// Two video values from the second frame on, where the cadence of 25 Hz asks for 5 bytes (02, A7).
    #[test]
    fn a_session_packs_the_largest_container() {
        for format in [1, 3] {
            let mut session = ready_session(format, 5, 1, &[1; 32]);
            (0..32).for_each(|k| session.sound(k, &vec![0; 2 * 50 * 8 * (4 + 5)]).unwrap());
            assert_eq!(session.pack(&[7; 20], 4096).unwrap().len(), 4 + 21 + (1 + 32 * (2 + 4)) + 1);
            run_frame(&mut session);
            assert_eq!(session.pack(&[7; 20], 253), Err(12));
            let container = session.pack(&[7; 20], 254).unwrap();
            assert_eq!((container.len(), container[1], container[3]), (254, 1, 0x57));
            let contents = container::read(&container).unwrap();
            assert_eq!((contents.video, contents.audio_count), (VideoValues::Two(0, 0), 32));
            assert!(contents.audio.iter().all(|place| place.count == 5));
        }
    }

    #[test]
    fn the_counter_goes_from_255_to_0_and_outlives_restarts() {
        let mut session = ready_session(2, 3, 1, &[5]);
        for count in 0..300 {
            let container = session.pack(&[7; 20], 4096).unwrap();
            assert_eq!(usize::from(container[1]), count % 256);
            assert_eq!(container[4..25], [&[0][..], &[7; 20]].concat());
            session.video_restart();
            session.audio_restart();
            run_frame(&mut session);
        }
    }

    #[test]
    fn an_instant_answers_in_order_and_a_refusal_changes_nothing() {
        let mut session = setup(2, 11, 1, &[1, 2, 5]).unwrap();
        session.sound(0, &vec![0; 2 * (50 * 256)]).unwrap();
        assert_eq!(session.instant(3, &floats(&[NAN])), Err(7), "7 before 14");
        assert_eq!(session.instant(0, &floats(&[NAN])), Err(14), "14 before 9");
        assert_eq!(session.instant(0, &floats(&[0, 0])), Err(14), "14 before 9, by the kind");
        assert_eq!(session.instant(0, &floats(&[0])), Err(9));
        for (k, mix_type) in [1, 2, 5].into_iter().enumerate() {
            for kind in [1, 2, 5].into_iter().filter(|&kind| kind != mix_type) {
                assert_eq!(session.instant(k as u8, &floats(&vec![0; kind])), Err(14));
            }
            for place in 0..mix_type {
                let mut values = vec![0x3F00_0000; mix_type];
                values[place] = NAN;
                assert_eq!(session.instant(k as u8, &floats(&values)), Err(14));
            }
        }
        let sizes: Vec<usize> = session.0.as_ref().unwrap().sounds.iter().map(|sound| sound.value.len()).collect();
        assert_eq!(sizes, [50 * 256, 0, 0]);
    }

    #[test]
    fn instants_are_counted_as_samples_of_blocks_are() {
        let mut session = setup(2, 11, 1, &[1]).unwrap();
        session.sound(0, &vec![0; 2 * 50 * 255]).unwrap();
        for instant in 0..50 {
            assert_eq!(session.instant(0, &floats(&[0])), Ok(()), "instant {instant}; the first makes bit 256");
        }
        assert_eq!(session.instant(0, &floats(&[0])), Err(9));
        assert_eq!(session.sound(0, &[0; 2]), Err(9));
        assert_eq!(session.0.as_ref().unwrap().sounds[0].held_bits(), 256);
    }

    /// Samples of a loud start and a long quiet after it, all different within an instant.
    fn samples(channels: usize) -> Vec<i16> {
        let noise = |at: usize| ((at * at * 31 + at * 7919) % 65_536) as u16 as i16;
        let loud = (0..1000 * channels).map(noise);
        loud.chain((0..3000 * channels).map(|at| noise(at) / 4096)).collect()
    }

    /// Under both rules (02, A9).
    #[test]
    fn an_instant_of_k_over_32768_is_the_block_of_that_instant() {
        for (mix_type, rule) in [(1, 1), (2, 1), (5, 1), (1, 2), (2, 2), (5, 2)] {
            let (mut by_blocks, mut by_instants) =
                (ready_session(2, 3, rule, &[mix_type]), ready_session(2, 3, rule, &[mix_type]));
            for instant in samples(usize::from(mix_type)).chunks(usize::from(mix_type)) {
                let block: Vec<u8> = instant.iter().flat_map(|sample| sample.to_le_bytes()).collect();
                let bits: Vec<u32> = instant.iter().map(|&sample| bits_of_ratio(i64::from(sample), 15)).collect();
                assert_eq!((by_blocks.sound(0, &block), by_instants.instant(0, &floats(&bits))), (Ok(()), Ok(())));
            }
            for _ in 0..2 {
                let container = by_blocks.pack(&[], 255).unwrap();
                assert_eq!(container.len(), 13, "five bytes of audio");
                assert_eq!(by_instants.pack(&[], 255), Ok(container));
                run_frame(&mut by_blocks);
                run_frame(&mut by_instants);
            }
        }
    }
}
