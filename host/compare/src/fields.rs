//! Fields to be written: made valid, and open to be spoiled, with the faults of each writer.

use paper::write::{BeaconFields, DataFields, MetadataFields};

use crate::faults::Fault;
use crate::packets::*;
use crate::rng::Rng;

/// The lent buffer's length, seen from the size of the packet to be written.
#[derive(Clone, Copy)]
pub enum Room {
    Exact,
    Less(usize),
    More(usize),
    Nothing,
}

pub const ROOMS: [Room; 7] =
    [Room::Exact, Room::Exact, Room::More(1), Room::More(20), Room::Less(1), Room::Less(9), Room::Nothing];

impl Room {
    pub fn octets(self, size: usize) -> usize {
        match self {
            Room::Exact => size,
            Room::Less(missing) => size.saturating_sub(missing),
            Room::More(extra) => size + extra,
            Room::Nothing => 0,
        }
    }
}

#[derive(Clone)]
pub struct BeaconArgs {
    pub flags: u64,
    pub free_space: u64,
    pub endpoint: Vec<u8>,
    pub room: Room,
}

#[derive(Clone)]
pub struct MetadataArgs {
    pub flags: u64,
    pub id: u64,
    pub checksum: Vec<u8>,
    pub properties: u64,
    pub size: u64,
    pub mtime: u64,
    pub ctime: u64,
    pub path: Vec<u8>,
    pub room: Room,
}

#[derive(Clone)]
pub struct DataArgs {
    pub flags: u64,
    pub id: u64,
    pub timestamp: Vec<u8>,
    pub offset: u64,
    pub payload: Vec<u8>,
    pub room: Room,
}

impl BeaconArgs {
    pub fn valid(rng: &mut Rng) -> BeaconArgs {
        let packet = Beacon::valid(rng);
        BeaconArgs {
            flags: u64::from(packet.flags),
            free_space: packet.free_space,
            endpoint: packet.endpoint,
            room: Room::Exact,
        }
    }

    pub fn fields(&self) -> BeaconFields<'_> {
        BeaconFields { flags: self.flags, free_space: self.free_space, endpoint: &self.endpoint }
    }

    pub fn out_len(&self) -> usize {
        self.room.octets(4 + free_width(self.flags as u32) + self.endpoint.len())
    }

    /// These pairs of sending and receiving.
    pub fn set_pairs(&mut self, send: u32, receive: u32) {
        self.flags = reset(self.flags, u64::from(SEND | RECEIVE), u64::from(with_pairs(0, send, receive)));
    }

    /// Free space of width bits `code`, or none.
    pub fn set_free(&mut self, code: Option<u32>) {
        let mask = u64::from(FREE | FREE_WIDTH);
        self.flags = match code {
            Some(code) => reset(self.flags, mask, u64::from(with_free(0, code))),
            None => reset(self.flags, u64::from(FREE), 0),
        };
    }
}

impl MetadataArgs {
    pub fn valid(rng: &mut Rng) -> MetadataArgs {
        let packet = Metadata::valid(rng);
        MetadataArgs {
            flags: u64::from(packet.start.flags),
            id: u64::from(packet.start.id),
            checksum: packet.checksum,
            properties: u64::from(packet.properties),
            size: packet.size,
            mtime: u64::from(packet.mtime),
            ctime: u64::from(packet.ctime),
            path: packet.path,
            room: Room::Exact,
        }
    }

    pub fn fields(&self) -> MetadataFields<'_> {
        MetadataFields {
            flags: self.flags,
            id: self.id,
            checksum: &self.checksum,
            properties: self.properties,
            size: self.size,
            mtime: self.mtime,
            ctime: self.ctime,
            path: &self.path,
        }
    }

    pub fn out_len(&self) -> usize {
        let entry = entry_width(self.properties as u16);
        self.room.octets(8 + self.checksum.len() + 2 + entry + 8 + self.path.len() + 1)
    }

    pub fn set_width(&mut self, code: u32) {
        self.flags = reset(self.flags, u64::from(WIDTH), u64::from(with_width(0, code)));
    }

    pub fn set_entry_width(&mut self, code: u32) {
        self.properties = reset(self.properties, u64::from(ENTRY_WIDTH), u64::from(with_entry_width(0, code)));
    }

    /// The pair, with a checksum of its length.
    pub fn set_pair(&mut self, pair: u32, rng: &mut Rng) {
        self.flags = reset(self.flags, 0xFF, u64::from(pair));
        self.checksum = rng.octets(4 * (pair as usize / 16));
    }
}

impl DataArgs {
    pub fn valid(rng: &mut Rng) -> DataArgs {
        let packet = Data::valid(rng);
        DataArgs {
            flags: u64::from(packet.start.flags),
            id: u64::from(packet.start.id),
            timestamp: packet.timestamp,
            offset: packet.offset,
            payload: packet.payload,
            room: Room::Exact,
        }
    }

    pub fn fields(&self) -> DataFields<'_> {
        DataFields {
            flags: self.flags,
            id: self.id,
            timestamp: &self.timestamp,
            offset: self.offset,
            payload: &self.payload,
        }
    }

    pub fn out_len(&self) -> usize {
        self.room.octets(8 + self.timestamp.len() + width(self.flags as u32) + self.payload.len())
    }

    pub fn set_width(&mut self, code: u32) {
        self.flags = reset(self.flags, u64::from(WIDTH), u64::from(with_width(0, code)));
    }

    /// Bit 12, with a timestamp of its length.
    pub fn set_timestamp(&mut self, there: bool, rng: &mut Rng) {
        let bit = u64::from(TIMESTAMP);
        self.flags = reset(self.flags, bit, if there { bit } else { 0 });
        self.timestamp = rng.octets(if there { 16 } else { 0 });
    }
}

fn reset(number: u64, mask: u64, bits: u64) -> u64 {
    (number & !mask) | bits
}

/// `number` with bits set at and above bit `bits`: it no longer fits.
fn overflow(number: &mut u64, bits: u32, rng: &mut Rng) {
    match rng.below(2) {
        0 => *number |= rng.too_large(bits) & !((1 << bits) - 1),
        _ => *number = rng.too_large(bits),
    }
}

pub const BEACON: &[Fault<BeaconArgs>] = &[
    (21, |f, rng| {
        f.set_free(Some(rng.below(2) as u32));
        f.free_space = rng.too_large(8 * free_width(f.flags as u32) as u32);
    }),
    (21, |f, rng| {
        f.set_free(None);
        f.free_space = rng.pick(&[1, 1, 7, 1 << 16, u64::MAX]);
    }),
    (26, |f, rng| f.set_pairs(NO_PAIRING, rng.pick(&PAIRINGS))),
    (26, |f, rng| f.set_pairs(rng.pick(&PAIRINGS), NO_PAIRING)),
    (26, |f, rng| f.flags |= rng.between(1, 255)),
    (2, |f, rng| {
        let room = 65_535 - 4 - free_width(f.flags as u32);
        let len = rng.pick(&[room + 1, room + 1, room + 2, 70_000]);
        f.endpoint = rng.octets(len);
    }),
    (20, |f, rng| f.room = rng.pick(&[Room::Less(1), Room::Less(4), Room::Nothing])),
    (21, |f, rng| overflow(&mut f.flags, 24, rng)),
];

pub const METADATA: &[Fault<MetadataArgs>] = &[
    (9, |f, rng| {
        let code = rng.below(2) as u32;
        f.set_width(code);
        f.set_entry_width(rng.between(u64::from(code) + 1, 3) as u32);
        let (own, entry) = (last(width(f.flags as u32)), last(entry_width(f.properties as u16)));
        f.size = rng.pick(&[own + 1, entry]);
    }),
    (21, |f, rng| {
        f.set_entry_width(rng.below(2) as u32);
        f.size = rng.too_large(8 * entry_width(f.properties as u16) as u32);
    }),
    (6, |f, rng| f.flags |= rng.between(1, 3) << (31 - 11)),
    (7, |f, rng| {
        let pair = refused_pair(rng);
        f.set_pair(pair, rng);
    }),
    (1, |f, rng| {
        if f.checksum.is_empty() {
            f.set_pair(rng.pick(&[0x11, 0x42, 0x53, 0x1F, 0xF4]), rng);
        }
        let len = rng.pick(&[0, f.checksum.len() / 2, f.checksum.len() - 1]);
        f.checksum.truncate(len);
    }),
    (21, |f, rng| {
        let len = rng.pick(&[1, 1, 4, 61]);
        f.checksum.resize(4 * (f.flags as usize % 256 / 16) + len, 7);
    }),
    (6, |f, rng| f.properties |= u64::from(rng.pick(&NOT_A_FILE))),
    (8, |f, _| f.path.clear()),
    (8, |f, rng| {
        let len = rng.pick(&[1_024, 1_024, 1_025, 3_000, 65_536]);
        f.path = path(rng, len);
    }),
    (8, |f, rng| {
        let at = rng.place(0, f.path.len());
        f.path.insert(at, 0);
    }),
    (20, |f, rng| f.room = rng.pick(&[Room::Less(1), Room::Less(8), Room::Nothing])),
    (21, |f, rng| overflow(&mut f.flags, 24, rng)),
    (21, |f, rng| overflow(&mut f.id, 32, rng)),
    (21, |f, rng| overflow(&mut f.properties, 16, rng)),
    (21, |f, rng| overflow(&mut f.mtime, 32, rng)),
    (21, |f, rng| overflow(&mut f.ctime, 32, rng)),
];

pub const DATA: &[Fault<DataArgs>] = &[
    (21, |f, rng| {
        f.set_width(rng.below(2) as u32);
        f.offset = rng.too_large(8 * width(f.flags as u32) as u32);
    }),
    (6, |f, rng| f.flags |= rng.between(1, 3) << (31 - 11)),
    (1, |f, rng| {
        f.set_timestamp(true, rng);
        f.timestamp.truncate(rng.pick(&[0, 1, 8, 15]));
    }),
    (21, |f, rng| {
        let len = rng.pick(&[1, 1, 16, 40]);
        f.timestamp.resize(stamp_len(f.flags as u32) + len, 7);
    }),
    (10, |f, _| f.payload.clear()),
    (2, |f, rng| {
        let room = 65_535 - 8 - stamp_len(f.flags as u32) - width(f.flags as u32);
        let len = rng.pick(&[room + 1, room + 1, room + 2, 70_000]);
        f.payload = rng.octets(len);
    }),
    (20, |f, rng| f.room = rng.pick(&[Room::Less(1), Room::Less(8), Room::Nothing])),
    (21, |f, rng| overflow(&mut f.flags, 24, rng)),
    (21, |f, rng| overflow(&mut f.id, 32, rng)),
];
