//! Packets laid out by hand.

#![allow(dead_code)]

/// Octets from hexadecimal with spaces.
pub fn hex(text: &str) -> Vec<u8> {
    text.split_whitespace().map(|octet| u8::from_str_radix(octet, 16).unwrap()).collect()
}

/// The first octets: the type, the width bits for descriptors of `width` octets, and the Id.
fn start(kind: u8, width: usize, id: u32) -> Vec<u8> {
    let width_bits = [(2, 0x00), (4, 0x40), (8, 0x80), (16, 0xC0)].iter().find(|pair| pair.0 == width).unwrap().1;
    [&[0x40 | kind, width_bits, 0, 0][..], &id.to_be_bytes()].concat()
}

/// METADATA without checksum, with the size in 64 bits (property bit 8), times 0 and the path `a`.
pub fn metadata(id: u32, width: usize, size: u64) -> Vec<u8> {
    [start(2, width, id), hex("00 80"), size.to_be_bytes().to_vec(), vec![0; 8], b"a\0".to_vec()].concat()
}

/// METADATA with a checksum of this type and as many words put in.
pub fn with_checksum(metadata: &[u8], kind: u8, words: usize) -> Vec<u8> {
    let mut packet = [&metadata[..8], &vec![0x5C; 4 * words], &metadata[8..]].concat();
    packet[3] = 16 * words as u8 + kind;
    packet
}

/// DATA without timestamp, with `len` octets of payload.
pub fn data(id: u32, width: usize, offset: u64, len: usize) -> Vec<u8> {
    [&start(3, width, id)[..], &u128::from(offset).to_be_bytes()[16 - width..], &vec![0x61; len]].concat()
}

/// DATA with this timestamp (bit 12) put in.
pub fn stamped(data: &[u8], timestamp: [u8; 16]) -> Vec<u8> {
    let mut packet = [&data[..8], &timestamp, &data[8..]].concat();
    packet[1] |= 0x08;
    packet
}

/// The same with end of data (bit 16).
pub fn last_data(id: u32, width: usize, offset: u64, len: usize) -> Vec<u8> {
    let mut packet = data(id, width, offset, len);
    packet[2] |= 0x80;
    packet
}
