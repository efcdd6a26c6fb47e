//! Writing BEACON, METADATA, DATA and failure STATUS: "they refuse what the reader would, with the same number in the same
//! order, but 21 before all and 2 then 20 last". A packet is first made whole aside, then copied into the buffer.

use crate::layout::*;
use crate::refusal::Refusal;

/// What the BEACON writer takes: "bits 8 to 31" as `flags`, and the free space in KiB.
#[derive(Clone, Copy, Debug)]
pub struct BeaconFields<'a> {
    pub flags: u64,
    pub free_space: u64,
    pub endpoint: &'a [u8],
}

/// What the METADATA writer takes: "bits 8 to 31" as `flags`, and the path without its closing zero octet.
#[derive(Clone, Copy, Debug)]
pub struct MetadataFields<'a> {
    pub flags: u64,
    pub id: u64,
    pub checksum: &'a [u8],
    pub properties: u64,
    pub size: u64,
    pub mtime: u64,
    pub ctime: u64,
    pub path: &'a [u8],
}

/// What the DATA writer takes.
#[derive(Clone, Copy, Debug)]
pub struct DataFields<'a> {
    pub flags: u64,
    pub id: u64,
    pub timestamp: &'a [u8],
    pub offset: u64,
    pub payload: &'a [u8],
}

/// Writes BEACON and answers its size: "the writer's refusals are as for DATA". The order: 21, 26, 2, 20. No writer gives 5:
/// its numbers are below 2^64, and "Writers put eight zero octets first."
pub fn write_beacon(fields: &BeaconFields, out: &mut [u8]) -> Result<usize, Refusal> {
    // "a field to be written exceeds its bits": a free space that isn't there has no bits, and holds only 0.
    let width = free_octets(fields.flags);
    if exceeds(fields.flags, 24) || u128::from(fields.free_space) > largest(width) {
        return Err(Refusal::Field);
    }
    if send(fields.flags).is_none() || receive(fields.flags).is_none() || last_flags_octet(fields.flags) != 0 {
        return Err(Refusal::Beacon);
    }

    let mut packet = first_word(BEACON, fields.flags);
    push(&mut packet, fields.free_space, width);
    packet.extend_from_slice(fields.endpoint);
    copy_out(&packet, out)
}

/// Writes METADATA and answers its size. The order: 21, 6, 7, 1 (checksum), 6 (properties), 8, 9, 2, 20.
pub fn write_metadata(fields: &MetadataFields, out: &mut [u8]) -> Result<usize, Refusal> {
    // "a field to be written exceeds its bits"; "Checksum and timestamp come to them as octets: more than the flags
    // say is 21".
    if exceeds(fields.flags, 24)
        || exceeds(fields.id, 32)
        || exceeds(fields.properties, 16)
        || u128::from(fields.size) > largest(entry_width(fields.properties))
        || exceeds(fields.mtime, 32)
        || exceeds(fields.ctime, 32)
        || fields.checksum.len() > checksum_octets(fields.flags)
    {
        return Err(Refusal::Field);
    }
    if !is_file(fields.flags) {
        return Err(Refusal::Kind);
    }
    if !checksum_pair_allowed(fields.flags) {
        return Err(Refusal::ChecksumPair);
    }
    // "fewer is 1"
    if fields.checksum.len() < checksum_octets(fields.flags) {
        return Err(Refusal::Truncated);
    }
    if !properties_of_file(fields.properties) {
        return Err(Refusal::Kind);
    }
    // "path empty, over 1,023 octets"; "A path that holds a zero octet is 8."
    if fields.path.is_empty() || fields.path.len() > MAX_PATH || fields.path.contains(&0) {
        return Err(Refusal::Path);
    }
    if u128::from(fields.size) > largest(packet_width(fields.flags)) {
        return Err(Refusal::Size);
    }

    let mut packet = first_octets(METADATA, fields.flags, fields.id);
    packet.extend_from_slice(fields.checksum);
    push(&mut packet, fields.properties, 2);
    push(&mut packet, fields.size, entry_width(fields.properties));
    push(&mut packet, fields.mtime, 4);
    push(&mut packet, fields.ctime, 4);
    packet.extend_from_slice(fields.path);
    packet.push(0);
    copy_out(&packet, out)
}

/// Writes DATA and answers its size. The order: 21, 6, 1 (timestamp), 10, 2, 20.
pub fn write_data(fields: &DataFields, out: &mut [u8]) -> Result<usize, Refusal> {
    let width = packet_width(fields.flags);
    // "(128 where width bits are 11)"
    if exceeds(fields.flags, 24)
        || exceeds(fields.id, 32)
        || u128::from(fields.offset) > largest(width)
        || fields.timestamp.len() > timestamp_octets(fields.flags)
    {
        return Err(Refusal::Field);
    }
    if !is_file(fields.flags) {
        return Err(Refusal::Kind);
    }
    if fields.timestamp.len() < timestamp_octets(fields.flags) {
        return Err(Refusal::Truncated);
    }
    if fields.payload.is_empty() {
        return Err(Refusal::NoPayload);
    }

    let mut packet = first_octets(DATA, fields.flags, fields.id);
    packet.extend_from_slice(fields.timestamp);
    push(&mut packet, fields.offset, width);
    packet.extend_from_slice(fields.payload);
    copy_out(&packet, out)
}

/// "A failure STATUS is 8 octets, flags 0 apart from the code." "The failure writer: 21, then 20."
pub fn write_failure(id: u64, status: u64, out: &mut [u8]) -> Result<usize, Refusal> {
    if exceeds(id, 32) || exceeds(status, 8) || status == 0 {
        return Err(Refusal::Field);
    }
    copy_out(&first_octets(STATUS, status, id), out)
}

fn exceeds(value: u64, bits: u32) -> bool {
    value >= 1 << bits
}

/// The first word, of bits 0 1, the type and bits 8 to 31.
fn first_word(kind: u64, flags: u64) -> Vec<u8> {
    let mut packet = Vec::new();
    push(&mut packet, (0b01 << 6) + kind, 1);
    push(&mut packet, flags, 3);
    packet
}

/// The first word and the Id.
pub(crate) fn first_octets(kind: u64, flags: u64, id: u64) -> Vec<u8> {
    let mut packet = first_word(kind, flags);
    push(&mut packet, id, 4);
    packet
}

/// A number in up to 16 octets: "All numbers are big-endian." "Writers put eight zero octets first."
pub(crate) fn push(packet: &mut Vec<u8>, value: u64, octets: usize) {
    let value = u128::from(value);
    assert!(value <= largest(octets));
    packet.extend_from_slice(&value.to_be_bytes()[16 - octets..]);
}

/// "2 then 20 last". "Octets after those stay unchanged, as for every writer."
pub(crate) fn copy_out(packet: &[u8], out: &mut [u8]) -> Result<usize, Refusal> {
    if packet.len() > MAX_PACKET {
        return Err(Refusal::TooLong);
    }
    if packet.len() > out.len() {
        return Err(Refusal::Buffer);
    }
    out[..packet.len()].copy_from_slice(packet);
    Ok(packet.len())
}
