// transport.rs: the packet that carries a container in an MPEG-2 transport stream (02, A5; 001, 7.2).

use crate::container;

/// packet_start_code_prefix and stream_id, private_stream_2 (001, 7.2.2).
pub const START_CODE: [u8; 4] = [0x00, 0x00, 0x01, 0xBF];
/// Start code and length.
pub const BYTES_BEFORE: usize = 6;
pub const CRC_SIZE: usize = 4;
pub const BYTES_AROUND: usize = BYTES_BEFORE + CRC_SIZE;
/// The powers of x below the 32nd, which is the bit that leaves the register.
pub const POLYNOMIAL: u32 = 0x04C1_1DB7;

/// The register of ISO/IEC 13818-1, Annex A, after these bytes: all ones before the first, each byte's highest bit
/// first. The bit that leaves the register is added to the one that comes, and the sum goes back in at the polynomial's
/// places.
pub fn register_after(bytes: &[u8]) -> u32 {
    let mut register = u32::MAX;
    for byte in bytes {
        for place in (0..8).rev() {
            let (comes, leaves) = (byte >> place & 1 == 1, register >> 31 == 1);
            register <<= 1;
            if comes != leaves {
                register ^= POLYNOMIAL;
            }
        }
    }
    register
}

/// A start code, a length field and bytes behind them, with the CRC that leaves the register at zero: the register's
/// own four bytes, highest first, since each bit that comes then meets its like and nothing goes back in.
pub fn sealed(start_code: &[u8], length: u16, bytes: &[u8]) -> Vec<u8> {
    let mut packet = [start_code, &length.to_be_bytes(), bytes].concat();
    packet.extend(register_after(&packet).to_be_bytes());
    packet
}

/// A packet around bytes that need be no container, at most as many as the length field reaches. It counts all that
/// follows it, the CRC too (001, 7.2.2, PES_packet_length).
pub fn packet_around(bytes: &[u8]) -> Vec<u8> {
    let length = u16::try_from(bytes.len() + CRC_SIZE).expect("no more bytes than a length field reaches");
    sealed(&START_CODE, length, bytes)
}

/// Write transport packet: 20 to 28; 12.
pub fn write(container: &[u8], room: usize) -> Result<Vec<u8>, u8> {
    container::read(container)?;
    let packet = packet_around(container);
    if packet.len() > room {
        return Err(12);
    }
    Ok(packet)
}

/// Read transport packet: 40 to 43; 20 to 28; 12.
pub fn read(packet: &[u8], room: usize) -> Result<Vec<u8>, u8> {
    let container = container_in(packet)?;
    container::read(container)?;
    if container.len() > room {
        return Err(12);
    }
    Ok(container.to_vec())
}

/// Numbers 40 to 43, in order.
fn container_in(packet: &[u8]) -> Result<&[u8], u8> {
    if packet.len() < BYTES_AROUND {
        return Err(40);
    }
    if packet[..4] != START_CODE {
        return Err(41);
    }
    let length = 256 * usize::from(packet[4]) + usize::from(packet[5]);
    if packet.len() - BYTES_BEFORE != length {
        return Err(42);
    }
    if register_after(packet) != 0 {
        return Err(43);
    }
    Ok(&packet[BYTES_BEFORE..packet.len() - CRC_SIZE])
}
