// figures.rs: tests of every figure in 01, "Figures to check against", and of 000's note on the pseudo absolute value.

use crate::audio::{mix, pseudo_absolute, Rule, Sound};
use crate::container::{self, AudioPlace, VideoValues};
use crate::video::{difference, fingerprint_of_count, went_brighter, went_darker};
use crate::{inspect, packet, session};

#[test]
fn difference_31_is_unchanged_and_32_changed() {
    let changed = |current, older| {
        let difference = difference(current, older);
        went_brighter(difference) || went_darker(difference)
    };
    assert!(!changed(31, 0) && !changed(0, 31) && !changed(255, 224));
    assert!(changed(32, 0) && changed(0, 32) && changed(223, 255));
}

#[test]
fn counts_of_changed_pixels() {
    assert_eq!([3, 4, 960].map(fingerprint_of_count), [0, 1, 240]);
}

/// Also 000, 5.3.2: 1000 gives 1000.
#[test]
fn pseudo_absolute_values() {
    assert_eq!([-1000, -32768, 1000].map(pseudo_absolute), [999, 32767, 1000]);
}

/// Also 02, A9: "L = R = -2 mixes to -1 under rule 2".
#[test]
fn stereo_mixes() {
    assert_eq!(mix(&[-2, -2], Rule::Down), -2);
    assert_eq!(mix(&[-2, -2], Rule::TowardsZero), -1);
    assert_eq!(mix(&[-32768, -32768], Rule::Down), -23171);
    assert_eq!(mix(&[-32768, -32768], Rule::TowardsZero), -23170, "-23170.2528");
}

#[test]
fn two_steps_of_the_filters() {
    let mut sound = Sound::new(1, 50, Rule::Down);
    let block: Vec<u8> = [0i16, 1000, 0].iter().flat_map(|sample| sample.to_le_bytes()).collect();
    sound.take_block(&block).unwrap();
    assert_eq!(sound.value[1..], [1000, 0]);
    assert_eq!(sound.envelope[1..], [8000, 7993]);
    assert_eq!(sound.mean[1..], [1000, 1000]);
}

#[test]
fn the_bare_container_and_its_packet() {
    let bytes = [0x00, 0x00, 0x02, 0x50, 0xAE];
    let contents = container::read(&bytes).unwrap();
    assert_eq!((contents.counter, contents.rate, contents.video), (0, 5, VideoValues::None));
    let words = [0x000, 0x3FF, 0x3FF, 0x241, 0x10B, 0x205, 0x200, 0x200, 0x102, 0x250, 0x1AE, 0x251];
    assert_eq!(packet::write(&bytes, 24), Ok(packet::bytes_of_words(&words)));
}

#[test]
fn the_video_container() {
    let bytes = [0x00, 0x07, 0x04, 0x52, 0x09, 0xF0, 0xAA];
    let contents = container::read(&bytes).unwrap();
    assert_eq!((contents.rate, contents.video), (5, VideoValues::One(240)));
    assert_eq!(inspect::line(&bytes), "ok seq 7 rate 5 id 0 video 1 240 audio 0");
    assert_eq!(inspect::line(&[]), "refused 20");
}

#[test]
fn the_audio_container() {
    let mut bytes = [0x00, 0x00, 0x07, 0xB1, 0x02, 0x01, 0x10, 0xFF, 0x01, 0x35];
    let contents = container::read(&bytes).unwrap();
    let place = AudioPlace { id: 0, mix_type: 1, count: 2, bytes: [0xFF, 0x01, 0, 0, 0] };
    assert_eq!((contents.rate, contents.audio_count, contents.audio[0]), (11, 1, place));
    bytes[9] = 0x36;
    assert_eq!(container::read(&bytes), Err(23));
}

#[test]
fn full_bit_store() {
    let mut session = session::setup(2, 11, 1, &[1]).unwrap();
    session.sound(0, &vec![0; 2 * (50 * 255 + 1)]).unwrap();
    assert_eq!(session.0.as_ref().unwrap().sounds[0].held_bits(), 256);
    assert_eq!(session.sound(0, &[0; 2 * 50]), Err(9), "the 50th sample is kept");
    assert_eq!(session.sound(0, &[0; 2 * 49]), Ok(()), "none of these is kept");
    assert_eq!(session.sound(0, &[0; 2]), Err(9));
}
