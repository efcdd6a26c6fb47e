//! Packets to be read: made valid field by field, laid out here (not by either codec), and open to be spoiled.

use crate::rng::Rng;

/// How a packet ends: as laid out, cut to a length, or filled up to one.
#[derive(Clone, Copy)]
pub enum Ending {
    Whole,
    Cut(usize),
    Filled(usize),
}

/// What the upper eight octets of one descriptor of 128 bits hold, the descriptors counted from the packet's first. Where the
/// descriptors are narrower, it isn't looked at.
#[derive(Clone, Copy, Default)]
pub struct Upper {
    pub descriptor: usize,
    pub octets: u64,
}

/// The first word and the Id. Every field is as wide as in the packet.
#[derive(Clone)]
pub struct Start {
    /// Bits 0 to 7: the version and the type.
    pub first: u8,
    /// Bits 8 to 31.
    pub flags: u32,
    pub id: u32,
}

#[derive(Clone)]
pub struct Beacon {
    /// Bits 0 to 7: the version and the type.
    pub first: u8,
    /// Bits 8 to 31.
    pub flags: u32,
    /// Written in as many octets as the flags say, so in none where they say none.
    pub free_space: u64,
    pub endpoint: Vec<u8>,
    pub upper: Upper,
    pub ending: Ending,
}

#[derive(Clone)]
pub struct Metadata {
    pub start: Start,
    pub checksum: Vec<u8>,
    pub properties: u16,
    pub size: u64,
    pub mtime: u32,
    pub ctime: u32,
    pub path: Vec<u8>,
    /// What follows the path: one zero octet.
    pub close: Vec<u8>,
    pub upper: Upper,
    pub ending: Ending,
}

#[derive(Clone)]
pub struct Data {
    pub start: Start,
    pub timestamp: Vec<u8>,
    pub offset: u64,
    pub payload: Vec<u8>,
    pub upper: Upper,
    pub ending: Ending,
}

#[derive(Clone)]
pub struct Status {
    pub start: Start,
    pub timestamp: Vec<u8>,
    pub progress: u64,
    pub in_response_to: u64,
    pub holes: Vec<(u64, u64)>,
    /// What follows the holes: nothing.
    pub extra: Vec<u8>,
    pub upper: Upper,
    pub ending: Ending,
}

pub const TIMESTAMP: u32 = 1 << (31 - 12);
pub const INCOMPLETE: u32 = 1 << (31 - 14);
pub const UNASKED: u32 = 1 << (31 - 15);
pub const KIND: u32 = 3 << (31 - 11);
pub const WIDTH: u32 = 3 << (31 - 9);
pub const ENTRY_WIDTH: u16 = 3 << (15 - 9);
/// Property bits 6, 7 and 10.
pub const NOT_A_FILE: [u16; 3] = [1 << (15 - 6), 1 << (15 - 7), 1 << (15 - 10)];

/// BEACON: the two bits of sending, of receiving, the bit of the free space, and the two of its width.
pub const SEND: u32 = 3 << (31 - 13);
pub const RECEIVE: u32 = 3 << (31 - 15);
pub const FREE: u32 = 1 << (31 - 17);
pub const FREE_WIDTH: u32 = 3 << (31 - 19);
/// The pairings with a name, and the one without.
pub const PAIRINGS: [u32; 3] = [0b00, 0b10, 0b11];
pub const NO_PAIRING: u32 = 0b01;

/// `flags` with these pairs of sending and receiving.
pub fn with_pairs(flags: u32, send: u32, receive: u32) -> u32 {
    (flags & !SEND & !RECEIVE) | send << (31 - 13) | receive << (31 - 15)
}

/// `flags` with free space of width bits `code`.
pub fn with_free(flags: u32, code: u32) -> u32 {
    (flags & !FREE_WIDTH) | FREE | code << (31 - 19)
}

/// Octets of the free space.
pub fn free_width(flags: u32) -> usize {
    match flags & FREE {
        0 => 0,
        _ => 2 << ((flags & FREE_WIDTH) >> (31 - 19)),
    }
}

/// `flags` with width bits `code`: 0 to 3.
pub fn with_width(flags: u32, code: u32) -> u32 {
    (flags & !WIDTH) | (code << (31 - 9))
}

/// `properties` with width bits `code`.
pub fn with_entry_width(properties: u16, code: u32) -> u16 {
    (properties & !ENTRY_WIDTH) | ((code as u16) << (15 - 9))
}

/// Octets of the packet's descriptors.
pub fn width(flags: u32) -> usize {
    2 << ((flags & WIDTH) >> (31 - 9))
}

/// Octets of the entry's size.
pub fn entry_width(properties: u16) -> usize {
    2 << ((properties & ENTRY_WIDTH) >> (15 - 9))
}

/// Bits of the numbers in `octets` octets, of those below 2^64.
pub fn number_bits(octets: usize) -> u32 {
    8 * octets.min(8) as u32
}

/// The largest number in `octets` octets, of those below 2^64.
pub fn last(octets: usize) -> u64 {
    match octets {
        2 => 0xFFFF,
        4 => 0xFFFF_FFFF,
        _ => u64::MAX,
    }
}

/// The pair of a CRC-32c, as bits 24 to 31: it reads and writes, and opens nothing new.
pub const CRC32C: u32 = 0x11;

/// Any pair of checksum type and words that is allowed, as bits 24 to 31.
pub fn allowed_pair(rng: &mut Rng) -> u32 {
    match rng.below(3) {
        0 => rng.pick(&[0x00, 0x11, 0x42, 0x53]),
        1 => 0x00,
        _ => (rng.between(1, 15) * 16 + rng.between(4, 15)) as u32,
    }
}

/// All of them.
pub fn allowed_pairs() -> impl Iterator<Item = u32> {
    let later = (4..16).flat_map(|kind| (1..16).map(move |words| 16 * words + kind));
    [0x00, CRC32C, 0x42, 0x53].into_iter().chain(later)
}

/// Any pair that isn't.
pub fn refused_pair(rng: &mut Rng) -> u32 {
    loop {
        let pair = match rng.below(2) {
            0 => rng.below(256) as u32,
            _ => (rng.below(16) * 16 + rng.below(5)) as u32,
        };
        let (words, kind) = (pair / 16, pair % 16);
        let allowed = [0x00, 0x11, 0x42, 0x53].contains(&pair) || (kind > 3 && words > 0);
        if !allowed {
            return pair;
        }
    }
}

/// Octets that aren't zero.
pub fn path(rng: &mut Rng, len: usize) -> Vec<u8> {
    (0..len).map(|_| rng.between(1, 255) as u8).collect()
}

/// A length for a path that is allowed.
pub fn path_len(rng: &mut Rng) -> usize {
    match rng.below(40) {
        0 => 1_023,
        1 => 1_022,
        2 => rng.place(1, 1_023),
        3..=7 => 1,
        _ => rng.place(1, 30),
    }
}

/// A length for a payload of a packet whose other fields take `taken` octets.
pub fn payload_len(rng: &mut Rng, taken: usize) -> usize {
    match rng.below(200) {
        0 => 65_535 - taken - rng.place(0, 2),
        1 => rng.place(1, 9_000),
        2..=30 => 1,
        _ => rng.place(1, 60),
    }
}

/// Width bits and flags without a rule at random, kind 00, and bits 24 to 31 as given.
fn start(rng: &mut Rng, kind: u8, low: u32) -> Start {
    let flags = rng.any() as u32 & 0x00FF_FF00 & !KIND | low;
    let code = rng.below(4) as u32;
    Start { first: 0x40 | kind, flags: with_width(flags, code), id: rng.number(32) as u32 }
}

impl Beacon {
    pub fn valid(rng: &mut Rng) -> Beacon {
        let any = rng.any() as u32 & 0x00FF_FF00;
        let mut flags = with_pairs(any, rng.pick(&PAIRINGS), rng.pick(&PAIRINGS));
        if flags & FREE != 0 {
            flags = with_free(flags, rng.below(4) as u32);
        }
        let free_space = match free_width(flags) {
            0 => 0,
            octets => rng.number(number_bits(octets)),
        };
        let len = match rng.below(200) {
            0 => 65_535 - 4 - free_width(flags) - rng.place(0, 2),
            1 => rng.place(0, 9_000),
            2..=60 => 0,
            _ => rng.place(1, 60),
        };
        let endpoint = rng.octets(len);
        Beacon { first: 0x40, flags, free_space, endpoint, upper: Upper::default(), ending: Ending::Whole }
    }

    pub fn octets(&self, rng: &mut Rng) -> Vec<u8> {
        let mut octets = vec![self.first];
        put(&mut octets, u64::from(self.flags), 3);
        put(&mut octets, self.free_space, free_width(self.flags));
        self.upper.set(&mut octets, 4, free_width(self.flags));
        octets.extend(&self.endpoint);
        end(octets, self.ending, rng)
    }
}

impl Metadata {
    pub fn valid(rng: &mut Rng) -> Metadata {
        let pair = allowed_pair(rng);
        let start = start(rng, 2, pair);
        let any = rng.any() as u16 & !NOT_A_FILE[0] & !NOT_A_FILE[1] & !NOT_A_FILE[2];
        let properties = with_entry_width(any, rng.below(4) as u32);
        let size_octets = width(start.flags).min(entry_width(properties));
        let len = path_len(rng);
        Metadata {
            start,
            checksum: rng.octets(4 * (pair as usize / 16)),
            properties,
            size: rng.number(number_bits(size_octets)),
            mtime: rng.number(32) as u32,
            ctime: rng.number(32) as u32,
            path: path(rng, len),
            close: vec![0],
            upper: Upper::default(),
            ending: Ending::Whole,
        }
    }

    /// The pair, with a checksum of its length.
    pub fn set_pair(&mut self, pair: u32, rng: &mut Rng) {
        self.start.flags = self.start.flags & 0x00FF_FF00 | pair;
        self.checksum = rng.octets(4 * (pair as usize / 16));
    }

    pub fn octets(&self, rng: &mut Rng) -> Vec<u8> {
        let mut octets = self.start.octets();
        octets.extend(&self.checksum);
        put(&mut octets, u64::from(self.properties), 2);
        let size_at = octets.len();
        put(&mut octets, self.size, entry_width(self.properties));
        self.upper.set(&mut octets, size_at, entry_width(self.properties));
        put(&mut octets, u64::from(self.mtime), 4);
        put(&mut octets, u64::from(self.ctime), 4);
        octets.extend(&self.path);
        octets.extend(&self.close);
        end(octets, self.ending, rng)
    }
}

impl Data {
    pub fn valid(rng: &mut Rng) -> Data {
        let low = rng.below(256) as u32;
        let start = start(rng, 3, low);
        let stamp = stamp_len(start.flags);
        let taken = 8 + stamp + width(start.flags);
        let len = payload_len(rng, taken);
        Data {
            timestamp: rng.octets(stamp),
            offset: rng.number(number_bits(width(start.flags))),
            payload: rng.octets(len),
            start,
            upper: Upper::default(),
            ending: Ending::Whole,
        }
    }

    pub fn octets(&self, rng: &mut Rng) -> Vec<u8> {
        let mut octets = self.start.octets();
        octets.extend(&self.timestamp);
        let offset_at = octets.len();
        put(&mut octets, self.offset, width(self.start.flags));
        self.upper.set(&mut octets, offset_at, width(self.start.flags));
        octets.extend(&self.payload);
        end(octets, self.ending, rng)
    }
}

impl Status {
    /// A success STATUS with some holes or none.
    pub fn valid(rng: &mut Rng) -> Status {
        let start = start(rng, 4, 0);
        let most = (65_535 - 24 - 16) / (2 * width(start.flags));
        let count = match rng.below(400) {
            0 => most,
            1 => rng.place(0, most),
            2..=100 => 0,
            _ => rng.place(1, 9),
        };
        Status::with_holes(rng, start, count)
    }

    pub fn with_holes(rng: &mut Rng, start: Start, count: usize) -> Status {
        let holes = rising_holes(rng, width(start.flags), count);
        Status::listing(rng, start, holes)
    }

    /// A success STATUS of width bits `code` that lists these holes.
    pub fn of_holes(rng: &mut Rng, code: u32, holes: Vec<(u64, u64)>) -> Status {
        let mut start = start(rng, 4, 0);
        start.flags = with_width(start.flags, code);
        Status::listing(rng, start, holes)
    }

    fn listing(rng: &mut Rng, start: Start, holes: Vec<(u64, u64)>) -> Status {
        let mut status = Status {
            timestamp: rng.octets(stamp_len(start.flags)),
            progress: 0,
            in_response_to: 0,
            holes,
            extra: vec![],
            upper: Upper::default(),
            ending: Ending::Whole,
            start,
        };
        status.set_bounds(rng);
        status
    }

    /// Progress and In-Response-To that allow the holes.
    fn set_bounds(&mut self, rng: &mut Rng) {
        let last = last(width(self.start.flags));
        let incomplete = self.start.flags & INCOMPLETE != 0;
        let (low, high) = match (self.holes.first(), self.holes.last()) {
            (Some(&(low, _)), Some(&(_, high))) => (low, high),
            _ => {
                let low = rng.number(number_bits(width(self.start.flags)));
                (low, low)
            }
        };
        let free = incomplete || !self.holes.is_empty();
        self.in_response_to = match rng.below(3) {
            0 if free => last,
            1 if free => rng.between(high, last),
            _ => high,
        };
        self.progress = match rng.below(3) {
            0 if incomplete => 0,
            1 if incomplete => rng.between(0, low),
            _ => low,
        };
        if self.may_point_to_last() && self.progress > 0 && rng.one_in(2) {
            self.in_response_to = self.progress - 1;
        }
    }

    /// No holes, bit 14 clear and bit 15 set: In-Response-To may be one less than Progress.
    fn may_point_to_last(&self) -> bool {
        self.holes.is_empty() && self.start.flags & (INCOMPLETE | UNASKED) == UNASKED
    }

    /// A failure STATUS: any flags, a code that isn't 0, and anything after the Id.
    pub fn failure(rng: &mut Rng) -> Vec<u8> {
        let mut start = start(rng, 4, 0);
        start.flags = (rng.any() as u32 & 0x00FF_FF00) | rng.between(1, 255) as u32;
        let len = rng.pick(&[0, 0, 1, 2, 4, 7, 12, 16, 24, 33]);
        let mut octets = start.octets();
        octets.extend(rng.octets(len));
        octets
    }

    pub fn octets(&self, rng: &mut Rng) -> Vec<u8> {
        let octets_each = width(self.start.flags);
        let mut octets = self.start.octets();
        octets.extend(&self.timestamp);
        let progress_at = octets.len();
        put(&mut octets, self.progress, octets_each);
        put(&mut octets, self.in_response_to, octets_each);
        for &(start, end) in &self.holes {
            put(&mut octets, start, octets_each);
            put(&mut octets, end, octets_each);
        }
        octets.extend(&self.extra);
        self.upper.set(&mut octets, progress_at, octets_each);
        end(octets, self.ending, rng)
    }
}

impl Upper {
    /// Sets them in a packet whose first descriptor stands at `first`, if it has such a descriptor and that is whole.
    fn set(self, octets: &mut [u8], first: usize, width: usize) {
        let at = first + 16 * self.descriptor;
        if width == 16 && octets.len() >= at + 16 && self.octets != 0 {
            octets[at..at + 8].copy_from_slice(&self.octets.to_be_bytes());
        }
    }
}

impl Start {
    pub fn octets(&self) -> Vec<u8> {
        let mut octets = vec![self.first];
        put(&mut octets, u64::from(self.flags), 3);
        put(&mut octets, u64::from(self.id), 4);
        octets
    }
}

pub fn stamp_len(flags: u32) -> usize {
    match flags & TIMESTAMP {
        0 => 0,
        _ => 16,
    }
}

/// Holes apart from one another, often by a single offset, up to the last offset now and then.
fn rising_holes(rng: &mut Rng, octets: usize, count: usize) -> Vec<(u64, u64)> {
    if count == 0 {
        return vec![];
    }
    let last = last(octets);
    let step = last / (2 * count as u64);
    let mut at = match rng.below(3) {
        0 => 0,
        _ => rng.below(step),
    };
    let mut holes = vec![];
    for _ in 0..count {
        let start = at;
        let end = start + gap(rng, step);
        holes.push((start, end));
        at = end.saturating_add(gap(rng, step));
    }
    if rng.one_in(4) {
        holes[count - 1].1 = last;
    }
    holes
}

fn gap(rng: &mut Rng, step: u64) -> u64 {
    match rng.below(2) {
        0 => 1,
        _ => rng.between(1, step),
    }
}

/// `value` in `octets` octets, big-endian; what doesn't fit is lost, and zeros fill more than 8.
fn put(octets: &mut Vec<u8>, value: u64, count: usize) {
    let all = u128::from(value).to_be_bytes();
    octets.extend(&all[16 - count..]);
}

fn end(mut octets: Vec<u8>, ending: Ending, rng: &mut Rng) -> Vec<u8> {
    match ending {
        Ending::Whole => {}
        Ending::Cut(len) => octets.truncate(len),
        Ending::Filled(len) => {
            let missing = len.saturating_sub(octets.len());
            octets.extend(rng.octets(missing));
        }
    }
    octets
}
