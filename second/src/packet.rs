// packet.rs: the ancillary packet around a container (01, The packet; 001, 5.1).

use crate::container;

const FLAG_WORDS: [u16; 3] = [0x000, 0x3FF, 0x3FF];
const DATA_ID_WORDS: [u16; 2] = [0x241, 0x10B];
/// Flag, data IDs, count and checksum.
const WORDS_AROUND: usize = 7;

/// Sets bit 9 to the complement of bit 8 of a word of nine bits.
fn with_bit_9(nine_bits: u16) -> u16 {
    if nine_bits & 0x100 == 0 {
        nine_bits + 0x200
    } else {
        nine_bits
    }
}

/// Bit 8 makes the number of ones in bits 8-0 even (01, The packet).
pub fn word_of(byte: u8) -> u16 {
    let ones: u16 = (0..8).map(|place| u16::from(byte) >> place & 1).sum();
    with_bit_9(u16::from(byte) + 0x100 * (ones % 2))
}

fn byte_of(word: u16) -> u8 {
    (word % 256) as u8
}

/// `words` run from the fourth word to the last user word.
pub fn checksum_word(words: &[u16]) -> u16 {
    let sum: u32 = words.iter().map(|word| u32::from(word % 512)).sum();
    with_bit_9((sum % 512) as u16)
}

/// A packet's words; the number of bytes is at most 255, the count word's reach.
pub fn words_around(container: &[u8]) -> Vec<u16> {
    let mut words = FLAG_WORDS.to_vec();
    words.extend(DATA_ID_WORDS);
    words.push(word_of(container.len() as u8));
    words.extend(container.iter().map(|&byte| word_of(byte)));
    words.push(checksum_word(&words[3..]));
    words
}

/// Words are lent as two bytes, low byte first.
pub fn bytes_of_words(words: &[u16]) -> Vec<u8> {
    words.iter().flat_map(|word| word.to_le_bytes()).collect()
}

/// Write packet: 20 to 28; 12.
pub fn write(container: &[u8], room: usize) -> Result<Vec<u8>, u8> {
    container::read(container)?;
    let packet = bytes_of_words(&words_around(container));
    if packet.len() > room {
        return Err(12);
    }
    Ok(packet)
}

/// Read packet: 30 to 36; 20 to 28; 12.
pub fn read(packet: &[u8], room: usize) -> Result<Vec<u8>, u8> {
    if packet.len() % 2 != 0 {
        return Err(30);
    }
    let words: Vec<u16> = packet.chunks(2).map(|pair| u16::from_le_bytes([pair[0], pair[1]])).collect();
    if words.iter().any(|&word| word > 0x3FF) {
        return Err(30);
    }
    let container = container_in(&words)?;
    container::read(&container)?;
    if container.len() > room {
        return Err(12);
    }
    Ok(container)
}

/// Numbers 31 to 36, in order.
fn container_in(words: &[u16]) -> Result<Vec<u8>, u8> {
    if words.len() < WORDS_AROUND {
        return Err(31);
    }
    if words[..3] != FLAG_WORDS {
        return Err(32);
    }
    if words[3..5] != DATA_ID_WORDS {
        return Err(33);
    }
    let count = byte_of(words[5]);
    if words[5] != word_of(count) || words.len() != usize::from(count) + WORDS_AROUND {
        return Err(34);
    }
    let (checksum, before) = words.split_last().expect("seven words or more");
    let user_words = &before[6..];
    if user_words.iter().any(|&word| word != word_of(byte_of(word))) {
        return Err(35);
    }
    if *checksum != checksum_word(&before[3..]) {
        return Err(36);
    }
    Ok(user_words.iter().map(|&word| byte_of(word)).collect())
}

#[cfg(test)]
mod tests {
    use super::*;

    /// Packets worked out by hand: for each byte its ones counted, for the checksum the nine-bit words added up.
    fn check(container: &[u8], count_word: u16, user_words: &[u16], checksum: u16) {
        let mut words = vec![0x000, 0x3FF, 0x3FF, 0x241, 0x10B, count_word];
        words.extend(user_words);
        words.push(checksum);
        let packet = bytes_of_words(&words);
        assert_eq!(write(container, packet.len()), Ok(packet.clone()));
        assert_eq!(write(container, packet.len() - 1), Err(12));
        assert_eq!(read(&packet, container.len()), Ok(container.to_vec()));
        assert_eq!(read(&packet, container.len() - 1), Err(12));
    }

    /// 041+10B+107+000+107+104+152+009+0F0+0AA = 753h; 753h mod 200h = 153h.
    #[test]
    fn by_hand_the_video_container() {
        let words = [0x200, 0x107, 0x104, 0x152, 0x209, 0x2F0, 0x2AA];
        check(&[0x00, 0x07, 0x04, 0x52, 0x09, 0xF0, 0xAA], 0x107, &words, 0x153);
    }

    /// 041+10B+00A+000+000+107+0B1+102+101+110+0FF+101+035 = 856h; 856h mod 200h = 056h, bit 9 set.
    #[test]
    fn by_hand_the_audio_container() {
        let container = [0x00, 0x00, 0x07, 0xB1, 0x02, 0x01, 0x10, 0xFF, 0x01, 0x35];
        let words = [0x200, 0x200, 0x107, 0x2B1, 0x102, 0x101, 0x110, 0x2FF, 0x101, 0x235];
        check(&container, 0x20A, &words, 0x256);
    }

    /// 000, Table 14, with Length 15h (01's house reading) and data chosen here. The container's bytes add up to 500h,
    /// three of them (15h, 01h, 02h) have odd parity: 500h+300h+041+10B+018 = 964h; 964h mod 200h = 164h.
    #[test]
    fn by_hand_table_14() {
        let container = [
            0x00, 0x2B, 0x15, 0x63, 0x11, 0x01, 0x02, 0x12, 0x05, 0x18, 0x11, 0x22, 0x33, 0x0A, 0x18, 0x44, 0x55, 0x66,
            0x11, 0x18, 0x77, 0x88, 0x99, 0xD2,
        ];
        let words = [
            0x200, 0x22B, 0x115, 0x263, 0x211, 0x101, 0x102, 0x212, 0x205, 0x218, 0x211, 0x222, 0x233, 0x20A, 0x218,
            0x244, 0x255, 0x266, 0x211, 0x218, 0x277, 0x288, 0x299, 0x2D2,
        ];
        check(&container, 0x218, &words, 0x164);
        let contents = container::read(&container).unwrap();
        assert_eq!((contents.counter, contents.rate, contents.audio_count), (43, 6, 3));
        let places: Vec<_> = contents.audio[..3].iter().map(|place| (place.id, place.mix_type, place.count)).collect();
        assert_eq!(places, [(0, 5, 3), (1, 2, 3), (2, 1, 3)]);
    }

    /// 000, Table 15, with Length 0Dh. The bytes add up to 300h, four (0Dh, 10h, 10h, 9Dh) have odd parity:
    /// 300h+400h+041+10B+110 = 95Ch; 95Ch mod 200h = 15Ch.
    #[test]
    fn by_hand_table_15() {
        let container =
            [0x00, 0xD4, 0x0D, 0x93, 0x09, 0x03, 0x0A, 0x05, 0x10, 0x11, 0x22, 0x0A, 0x10, 0x33, 0x44, 0x9D];
        let words = [
            0x200, 0x2D4, 0x10D, 0x293, 0x209, 0x203, 0x20A, 0x205, 0x110, 0x211, 0x222, 0x20A, 0x110, 0x233, 0x244,
            0x19D,
        ];
        check(&container, 0x110, &words, 0x15C);
        assert_eq!(container::read(&container).unwrap().counter, 212);
    }

    /// One word of the figure's packet changed at a time.
    #[test]
    fn the_refusals_in_their_order() {
        let good = [0, 0x3FF, 0x3FF, 0x241, 0x10B, 0x205, 0x200, 0x200, 0x102, 0x250, 0x1AE, 0x251];
        let changed = |place: usize, word: u16| {
            let mut words = good;
            words[place] = word;
            read(&bytes_of_words(&words), 5)
        };
        assert!(read(&bytes_of_words(&good), 5).is_ok());
        assert_eq!(read(&bytes_of_words(&good)[1..], 5), Err(30));
        assert_eq!(changed(11, 0x651), Err(30));
        assert_eq!(read(&bytes_of_words(&good[..6]), 5), Err(31));
        assert_eq!(read(&[], 5), Err(31));
        assert_eq!(changed(0, 1), Err(32));
        assert_eq!(changed(3, 0x141), Err(33));
        assert_eq!(changed(4, 0x20B), Err(33));
        assert_eq!(changed(5, 0x005), Err(34));
        assert_eq!(changed(5, 0x206), Err(34));
        assert_eq!(changed(6, 0x100), Err(35));
        assert_eq!(changed(6, 0x000), Err(35));
        assert_eq!(changed(11, 0x051), Err(36));
        assert_eq!(read(&bytes_of_words(&words_around(&[])), 5), Err(20));
        assert_eq!(read(&bytes_of_words(&words_around(&[0, 0, 2, 0x50, 0xAF])), 0), Err(23));
    }
}
