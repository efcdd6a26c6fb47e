//! The files of a pass: Ids, widths and lengths, with packets for them and tables in which they are open.

use std::collections::BTreeSet;

use paper::layout::Timestamp;
use paper::received::Received;
use paper::table::{Table, Transfer};

use crate::packets::{
    allowed_pair, last, with_entry_width, with_width, Data, Ending, Metadata, Start, Upper, CRC32C, TIMESTAMP,
};
use crate::rng::Rng;

pub const END_OF_DATA: u32 = 1 << (31 - 16);

#[derive(Clone, Copy, Debug)]
pub struct File {
    pub id: u32,
    /// Width bits: 0 to 3.
    pub code: u32,
    pub length: u64,
}

/// `count` files with an Id each. The Ids are close together, far apart, or at the ends of the range.
pub fn files(rng: &mut Rng, count: usize) -> Vec<File> {
    let base = rng.number(32) as u32;
    let mut ids = vec![];
    while ids.len() < count {
        let id = match rng.below(4) {
            0 => rng.number(32) as u32,
            1 => base.wrapping_add(rng.below(40) as u32),
            2 => base ^ 1 << rng.below(32),
            _ => rng.below(40) as u32,
        };
        if !ids.contains(&id) {
            ids.push(id);
        }
    }
    ids.into_iter().map(|id| file(rng, id)).collect()
}

/// Any width, and a length that it allows.
pub fn file(rng: &mut Rng, id: u32) -> File {
    let code = rng.below(4) as u32;
    File { id, code, length: length(rng, code) }
}

fn length(rng: &mut Rng, code: u32) -> u64 {
    let most = last(2 << code);
    match rng.below(20) {
        0 => 0,
        1 => 1,
        2..=6 => rng.between(2, 40),
        7..=11 => rng.between(100, 400),
        12..=13 => rng.between(1_000, 65_535),
        14 => 0xFFFF,
        15 => most.min(0xFFFF_FFFF),
        16 => most - rng.below(3),
        17 => rng.between(0, most),
        _ => most,
    }
}

/// METADATA that opens the file, so its checksum is no CRC-32c; else what the table doesn't keep is random.
pub fn opening(rng: &mut Rng, file: File) -> Metadata {
    let mut packet = Metadata::valid(rng);
    while packet.start.flags & 0xFF == CRC32C {
        let pair = allowed_pair(rng);
        packet.set_pair(pair, rng);
    }
    packet.start.id = file.id;
    packet.start.flags = with_width(packet.start.flags, file.code);
    let narrowest = (0..3).find(|&code| file.length <= last(2 << code)).expect("64 bits are enough");
    packet.properties = with_entry_width(packet.properties, rng.between(narrowest, 3) as u32);
    packet.size = file.length;
    packet
}

/// METADATA of the file with a CRC-32c: it opens nothing new.
pub fn old_opening(rng: &mut Rng, file: File) -> Metadata {
    let mut packet = opening(rng, file);
    packet.set_pair(CRC32C, rng);
    packet
}

/// DATA with `len` octets; one in four has a timestamp, and flags without a rule are random.
pub fn recording(rng: &mut Rng, id: u32, code: u32, offset: u64, len: usize, end_of_data: bool) -> Data {
    let flags = with_width(rng.any() as u32 & 0x0007_7FFF, code);
    let flags = flags | if end_of_data { END_OF_DATA } else { 0 };
    let payload = vec![rng.any() as u8; len];
    let start = Start { first: 0x43, flags, id };
    let packet = Data { start, timestamp: vec![], offset, payload, upper: Upper::default(), ending: Ending::Whole };
    match rng.one_in(4) {
        true => stamped(packet, timestamp(rng)),
        false => packet,
    }
}

/// The same with this timestamp, and without one.
pub fn stamped(mut packet: Data, timestamp: Timestamp) -> Data {
    packet.start.flags |= TIMESTAMP;
    packet.timestamp = timestamp.to_vec();
    packet
}

pub fn bare(mut packet: Data) -> Data {
    packet.start.flags &= !TIMESTAMP;
    packet.timestamp.clear();
    packet
}

/// Any sixteen octets: all zero, few that aren't, or random.
pub fn timestamp(rng: &mut Rng) -> Timestamp {
    let octets = match rng.below(6) {
        0 => 0,
        1 => 1 << rng.below(128),
        2 => u128::MAX,
        3 => u128::from(rng.any()) << rng.pick(&[0, 64]),
        _ => u128::from(rng.any()) << 64 | u128::from(rng.any()),
    };
    octets.to_be_bytes()
}

/// One that a transfer keeps, or none.
pub fn kept(rng: &mut Rng) -> Option<Timestamp> {
    rng.one_in(2).then(|| timestamp(rng))
}

/// The most octets of payload that a packet holds, of any width and with a timestamp.
pub const MOST_PAYLOAD: u64 = 65_535 - 8 - 16 - 16;

/// A table with some of the files open, at most 16, and something received of each.
pub fn table(rng: &mut Rng, files: &[File]) -> Table {
    let some = rng.pick(&[1, 2, 4]);
    let mut table = Table::default();
    for &file in files {
        if table.transfers.len() < 16 && (some == 1 || rng.one_in(some)) {
            table.transfers.insert(u64::from(file.id), transfer(rng, file));
        }
    }
    table
}

fn transfer(rng: &mut Rng, file: File) -> Transfer {
    let most = file.length.div_ceil(2).min(64) as usize;
    let runs = match rng.below(6) {
        0 => 0,
        1 => 1,
        2 => most.saturating_sub(1),
        3 => rng.place(0, most),
        _ => most,
    };
    let received = received(rng, file.length, runs.min(most));
    Transfer { width: 2 << file.code, length: file.length, received, timestamp: kept(rng) }
}

/// `count` runs below `length`: close together at some place, or anywhere.
pub fn received(rng: &mut Rng, length: u64, count: usize) -> Received {
    let points = 2 * count as u64;
    let mut received = Received::default();
    if points == 0 {
        return received;
    }
    // The starts and stops are rising numbers in a window of the numbers up to `length`.
    let wide = match rng.below(4) {
        0 => points - 1,
        1 => (4 * points).min(length),
        2 => (1_000 * points).min(length),
        _ => length,
    };
    let low = match rng.below(4) {
        0 => 0,
        1 => length - wide,
        _ => rng.between(0, length - wide),
    };
    let mut chosen = BTreeSet::new();
    if wide < 2 * points {
        chosen.extend((0..points).map(|point| low + point));
    }
    while (chosen.len() as u64) < points {
        chosen.insert(rng.between(low, low + wide));
    }
    let chosen: Vec<u64> = chosen.into_iter().collect();
    for run in chosen.chunks_exact(2) {
        received.add(run[0], run[1]);
    }
    received
}
