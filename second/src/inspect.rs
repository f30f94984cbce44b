// inspect.rs: the one line that 01's small program prints of a container.

use crate::container::{self, VideoValues};

/// Of a longer input the first 300 bytes are taken (01, Figures to check against).
pub const MOST_INPUT: usize = 300;

/// Counter, rate code, ID present or not, number of video values then the values, number of audio fingerprints.
pub fn line(bytes: &[u8]) -> String {
    match container::read(bytes) {
        Err(number) => format!("refused {number}"),
        Ok(contents) => {
            let video = match contents.video {
                VideoValues::None => "0".to_string(),
                VideoValues::One(value) => format!("1 {value}"),
                VideoValues::Two(field_1, field_2) => format!("2 {field_1} {field_2}"),
            };
            let id = u8::from(contents.id_present);
            let (counter, rate, audio) = (contents.counter, contents.rate, contents.audio_count);
            format!("ok seq {counter} rate {rate} id {id} video {video} audio {audio}")
        }
    }
}
