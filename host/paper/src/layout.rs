//! "Packet layouts": where the bits lie in the first word and in the properties of a directory entry, and the limits.
//! The bits of BEACON are section 4.1's.

/// "A packet has at most 65,535 octets."
pub const MAX_PACKET: usize = 65_535;
/// "The path is 1 to 1,023 octets"
pub const MAX_PATH: usize = 1_023;
/// "16 octets of timestamp if bit 12 is set"
pub const TIMESTAMP_OCTETS: usize = 16;
/// As it came.
pub type Timestamp = [u8; TIMESTAMP_OCTETS];

/// "BEACON (type 0)" of document 02, and document 01's "the type: METADATA 2, DATA 3, STATUS 4".
pub const BEACON: u64 = 0;
pub const METADATA: u64 = 2;
pub const DATA: u64 = 3;
pub const STATUS: u64 = 4;

/// Bits `first` to `last` of a number of `total` bits, of which bit 0 is the highest.
fn bits(number: u64, total: u32, first: u32, last: u32) -> u64 {
    let below = total - 1 - last;
    let count = last - first + 1;
    (number >> below) % (1 << count)
}

/// Bits `first` to `last` of a packet's first word: "Bit 0 is the highest bit of the first octet."
pub fn word_bits(word: u64, first: u32, last: u32) -> u64 {
    bits(word, 32, first, last)
}

/// Bits `first` to `last` of the 16 bits of properties.
fn property_bits(properties: u64, first: u32, last: u32) -> u64 {
    bits(properties, 16, first, last)
}

/// Octets of a descriptor: "00 is 16, 01 is 32, 10 is 64 bits. 11 (128 bits)".
fn descriptor_octets(width_bits: u64) -> usize {
    match width_bits {
        0b00 => 2,
        0b01 => 4,
        0b10 => 8,
        0b11 => 16,
        _ => unreachable!("width bits are two"),
    }
}

/// The two bits of a width, the other way.
pub fn width_bits(octets: usize) -> u64 {
    match octets {
        2 => 0b00,
        4 => 0b01,
        8 => 0b10,
        16 => 0b11,
        _ => unreachable!("no transfer has another width"),
    }
}

/// The packet's own descriptor width, in octets: "Bits 8 and 9 give the descriptor width".
pub fn packet_width(word: u64) -> usize {
    descriptor_octets(word_bits(word, 8, 9))
}

/// The width of the size in a directory entry, in octets: property "bits 8 and 9 give the width".
pub fn entry_width(properties: u64) -> usize {
    descriptor_octets(property_bits(properties, 8, 9))
}

/// The largest number in `octets` octets.
pub fn largest(octets: usize) -> u128 {
    match octets {
        16 => u128::MAX,
        _ => (1u128 << (8 * octets)) - 1,
    }
}

/// "Bits 10 and 11 of METADATA and DATA: 00 is a file, the one kind taken."
pub fn is_file(word: u64) -> bool {
    word_bits(word, 10, 11) == 0b00
}

/// "Property bits 6, 7 and 10 (special, directory, bundle) must be 0"
pub fn properties_of_file(properties: u64) -> bool {
    property_bits(properties, 6, 7) == 0b00 && property_bits(properties, 10, 10) == 0
}

/// "bits 28 to 31 give the checksum type"
fn checksum_type(word: u64) -> u64 {
    word_bits(word, 28, 31)
}

/// "bits 24 to 27 give its length in 32-bit words"
fn checksum_words(word: u64) -> u64 {
    word_bits(word, 24, 27)
}

/// "CRC-32c" is "checksum type 1".
pub fn checksum_is_crc32c(word: u64) -> bool {
    checksum_type(word) == 1
}

/// The checksum's length in octets.
pub fn checksum_octets(word: u64) -> usize {
    4 * checksum_words(word) as usize
}

/// "Allowed pairs (type, words): (0,0), (1,1), (2,4), (3,5), and types 4 to 15 with 1 to 15 words."
pub fn checksum_pair_allowed(word: u64) -> bool {
    let pair = (checksum_type(word), checksum_words(word));
    matches!(pair, (0, 0) | (1, 1) | (2, 4) | (3, 5) | (4..=15, 1..=15))
}

/// Octets of the timestamp in DATA and STATUS: "16 octets of timestamp if bit 12 is set".
pub fn timestamp_octets(word: u64) -> usize {
    match word_bits(word, 12, 12) {
        1 => TIMESTAMP_OCTETS,
        _ => 0,
    }
}

/// DATA: status-wanted is bit 15 of section 4.4.
pub fn status_wanted(word: u64) -> bool {
    word_bits(word, 15, 15) == 1
}

/// DATA: end-of-data is bit 16 of section 4.4.
pub fn end_of_data(word: u64) -> bool {
    word_bits(word, 16, 16) == 1
}

/// STATUS: "Bit 14 says that the hole list isn't complete".
pub fn list_incomplete(word: u64) -> bool {
    word_bits(word, 14, 14) == 1
}

/// STATUS: bit 15 says "that the STATUS was sent unasked".
pub fn sent_unasked(word: u64) -> bool {
    word_bits(word, 15, 15) == 1
}

/// STATUS: "bits 24 to 31 are the status code".
pub fn status_code(word: u64) -> u64 {
    word_bits(word, 24, 31)
}

/// Octets that every packet has: the first word and the Id. "in every operation a packet of type 0 that begins 0 1 needs
/// four octets, not eight"
pub fn needed_octets(packet: &[u8]) -> usize {
    match packet.first() {
        Some(0b01_000000) => 4,
        _ => 8,
    }
}

/// BEACON: the widest descriptors that the node supports, in octets: bits 8 and 9. "All four largest widths are taken."
pub fn largest_width(word: u64) -> usize {
    descriptor_octets(word_bits(word, 8, 9))
}

/// BEACON: bit 10.
pub fn bundles(word: u64) -> bool {
    word_bits(word, 10, 10) == 1
}

/// BEACON: bit 11.
pub fn streams(word: u64) -> bool {
    word_bits(word, 11, 11) == 1
}

/// BEACON: "each of the two is one of three named states (cannot, can but not now, can and will)".
#[derive(Clone, Copy, Debug, PartialEq, Eq)]
pub enum Willingness {
    Cannot,
    NotNow,
    Willing,
}

/// A pair of capability and willingness; none where it is "the fourth pairing, 0 1".
fn willingness(pair: u64) -> Option<Willingness> {
    match pair {
        0b00 => Some(Willingness::Cannot),
        0b10 => Some(Willingness::NotNow),
        0b11 => Some(Willingness::Willing),
        _ => None,
    }
}

/// BEACON: bits 12 and 13, sending.
pub fn send(word: u64) -> Option<Willingness> {
    willingness(word_bits(word, 12, 13))
}

/// BEACON: bits 14 and 15, receiving.
pub fn receive(word: u64) -> Option<Willingness> {
    willingness(word_bits(word, 14, 15))
}

/// BEACON: bits 24 to 31, "a last flags octet that isn't 0".
pub fn last_flags_octet(word: u64) -> u64 {
    word_bits(word, 24, 31)
}

/// BEACON: octets of the free space, by bits 18 and 19. Where bit 17 is clear there is none: a field of no octets.
pub fn free_octets(word: u64) -> usize {
    match word_bits(word, 17, 17) {
        1 => descriptor_octets(word_bits(word, 18, 19)),
        _ => 0,
    }
}

/// The flags of a success STATUS that is written: "All other flags are 0, apart from the width", and "bit 12 set" where it carries
/// a timestamp.
pub fn status_flags(width: usize, stamped: bool, list_incomplete: bool, unasked: bool) -> u64 {
    let bit = |bit: u32, set: bool| u64::from(set) << (31 - bit);
    (width_bits(width) << (31 - 9)) + bit(12, stamped) + bit(14, list_incomplete) + bit(15, unasked)
}
