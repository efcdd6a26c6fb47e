//! Reading BEACON, METADATA, DATA and STATUS. Fields are taken from left to right, so that the order of the refusals is the
//! order of the lines.

use std::ops::Range;

use crate::layout::*;
use crate::refusal::Refusal;

/// A packet that was accepted. Parts of it are ranges of places in it.
#[derive(Clone, Debug, PartialEq, Eq)]
pub enum Packet {
    Beacon(Beacon),
    Metadata(Metadata),
    Data(Data),
    Success(Success),
    Failure(Failure),
}

/// What every packet but BEACON has. "Bits 8 to 31 are kept as read, so a reader loses none".
#[derive(Clone, Copy, Debug, PartialEq, Eq)]
pub struct Header {
    pub flags: u64,
    pub id: u64,
}

/// "The flags become named fields"; "flags without a name are kept as read". A BEACON has no Id.
#[derive(Clone, Debug, PartialEq, Eq)]
pub struct Beacon {
    pub flags: u64,
    /// Octets of a descriptor.
    pub largest_width: usize,
    pub bundles: bool,
    pub streams: bool,
    pub send: Willingness,
    pub receive: Willingness,
    /// "the optional free space"
    pub free_space: Option<FreeSpace>,
    /// "The endpoint identifier is the rest of the packet and may hold any octets."
    pub endpoint: Range<usize>,
}

#[derive(Clone, Copy, Debug, PartialEq, Eq)]
pub struct FreeSpace {
    /// Octets of the field.
    pub width: usize,
    /// Section 4.1: "in KILOBYTES (KiB, multiples of 1024 octets)", "rounded down to the nearest KiB".
    pub kib: u64,
}

#[derive(Clone, Debug, PartialEq, Eq)]
pub struct Metadata {
    pub header: Header,
    /// Octets of the packet's own descriptors; the size may stand in another width.
    pub width: usize,
    pub checksum: Range<usize>,
    pub properties: u64,
    pub size: u64,
    pub mtime: u64,
    pub ctime: u64,
    /// Without the zero octet that closes it.
    pub path: Range<usize>,
}

#[derive(Clone, Debug, PartialEq, Eq)]
pub struct Data {
    pub header: Header,
    pub width: usize,
    pub timestamp: Range<usize>,
    pub offset: u64,
    pub payload: Range<usize>,
}

impl Data {
    /// The timestamp of the packet that this was read from; none where bit 12 is clear.
    pub fn timestamp_in(&self, packet: &[u8]) -> Option<Timestamp> {
        packet[self.timestamp.clone()].try_into().ok()
    }
}

/// A STATUS with code 0.
#[derive(Clone, Debug, PartialEq, Eq)]
pub struct Success {
    pub header: Header,
    pub width: usize,
    pub timestamp: Range<usize>,
    pub progress: u64,
    pub in_response_to: u64,
    /// The place right after In-Response-To.
    pub holes_at: usize,
    pub holes: Vec<Hole>,
}

/// "A hole's end [...] is the first offset **after** what it closes."
#[derive(Clone, Copy, Debug, PartialEq, Eq)]
pub struct Hole {
    pub start: u64,
    pub end: u64,
}

/// A STATUS with another code: "reading stops after the Id and the rest is ignored".
#[derive(Clone, Debug, PartialEq, Eq)]
pub struct Failure {
    pub header: Header,
    pub status: u64,
}

/// Plain reading: every one of the four types is taken.
pub fn read(packet: &[u8]) -> Result<Packet, Refusal> {
    read_types(packet, &[BEACON, METADATA, DATA, STATUS])
}

/// Hole `index` of a success STATUS: the reader's refusals with 4 for any other type, then 11 for a failure STATUS,
/// then 19 for an index that the list doesn't have.
pub fn read_hole(packet: &[u8], index: u64) -> Result<Hole, Refusal> {
    match read_types(packet, &[STATUS])? {
        Packet::Success(status) => match usize::try_from(index) {
            Ok(index) if index < status.holes.len() => Ok(status.holes[index]),
            _ => Err(Refusal::Index),
        },
        _ => Err(Refusal::HoleList),
    }
}

/// Reading by an operation that takes the types `taken`. "Order in reading: 2, 1 (first 8 octets), 3, 4; a failure
/// STATUS is then accepted; then [...] kind, checksum pair; then 1 for the fields that follow." 5 is no more judged by the
/// width bits, but at each descriptor.
pub fn read_types(packet: &[u8], taken: &[u64]) -> Result<Packet, Refusal> {
    if packet.len() > MAX_PACKET {
        return Err(Refusal::TooLong);
    }
    if packet.len() < needed_octets(packet) {
        return Err(Refusal::Truncated);
    }
    let mut fields = Fields { packet, at: 0 };
    let word = fields.number(4)?;
    // "Bits 0 and 1 are 0 1. Bits 2 to 7 are the type".
    if word_bits(word, 0, 1) != 0b01 {
        return Err(Refusal::Version);
    }
    let kind = word_bits(word, 2, 7);
    if !taken.contains(&kind) {
        return Err(Refusal::Type);
    }
    if kind == BEACON {
        return beacon(word, fields).map(Packet::Beacon);
    }
    // "Every packet begins with a 32-bit word and a 32-bit Id."
    let id = fields.number(4)?;
    let header = Header { flags: word_bits(word, 8, 31), id };
    match kind {
        METADATA => metadata(word, header, fields).map(Packet::Metadata),
        DATA => data(word, header, fields).map(Packet::Data),
        // "If the code isn't 0, reading stops after the Id and the rest is ignored."
        STATUS if status_code(word) != 0 => Ok(Packet::Failure(Failure { header, status: status_code(word) })),
        STATUS => success(word, header, fields).map(Packet::Success),
        _ => Err(Refusal::Type),
    }
}

/// The first word, the free space if bit 17 is set, then the endpoint to the end. The order: 26, "both next after 4", then 1
/// and 5 for the free space: "Take width 11 wherever the upper eight octets of a descriptor, the free space of One included,
/// are zero."
fn beacon(word: u64, mut fields: Fields) -> Result<Beacon, Refusal> {
    let (Some(send), Some(receive), 0) = (send(word), receive(word), last_flags_octet(word)) else {
        return Err(Refusal::Beacon);
    };
    let free_space = free_space(free_octets(word), &mut fields)?;
    Ok(Beacon {
        flags: word_bits(word, 8, 31),
        largest_width: largest_width(word),
        bundles: bundles(word),
        streams: streams(word),
        send,
        receive,
        free_space,
        endpoint: fields.rest(),
    })
}

/// The free space, of so many octets: 1, then 5.
fn free_space(width: usize, fields: &mut Fields) -> Result<Option<FreeSpace>, Refusal> {
    if width == 0 {
        return Ok(None);
    }
    let kib = fields.descriptor(width)?;
    Ok(Some(FreeSpace { width, kib }))
}

/// "After the Id: the checksum, then a directory entry to the packet's end." The order: 6, 7, "1 for checksum and
/// properties, 6", 1 and 5 for the size, 1 for the times, "the path (1 or 8), 9". No descriptor stands in the packet's own
/// width, so its width bits 11 are simply taken.
fn metadata(word: u64, header: Header, mut fields: Fields) -> Result<Metadata, Refusal> {
    let width = packet_width(word);
    if !is_file(word) {
        return Err(Refusal::Kind);
    }
    if !checksum_pair_allowed(word) {
        return Err(Refusal::ChecksumPair);
    }
    let checksum = fields.octets(checksum_octets(word))?;
    // "16 bits of properties, the size at the entry's own width, Mtime 32 bits, Ctime 32 bits, path"
    let properties = fields.number(2)?;
    if !properties_of_file(properties) {
        return Err(Refusal::Kind);
    }
    let size = fields.descriptor(entry_width(properties))?;
    let mtime = fields.number(4)?;
    let ctime = fields.number(4)?;
    let path = path(fields)?;
    // "it must not exceed 2^w - 1, where w is the packet's own descriptor width"
    if u128::from(size) > largest(width) {
        return Err(Refusal::Size);
    }
    Ok(Metadata { header, width, checksum, properties, size, mtime, ctime, path })
}

/// "The path is 1 to 1,023 octets, then one zero octet, which ends the packet."
fn path(fields: Fields) -> Result<Range<usize>, Refusal> {
    let rest = fields.rest();
    let octets = &fields.packet[rest.clone()];
    match octets.iter().position(|&octet| octet == 0) {
        // "a path has no zero octet in fewer than 1,024 octets"
        None if octets.len() < 1_024 => Err(Refusal::Truncated),
        // "over 1,023 octets"
        None => Err(Refusal::Path),
        Some(len) if len > MAX_PATH => Err(Refusal::Path),
        // "empty"
        Some(0) => Err(Refusal::Path),
        // "followed by octets"
        Some(len) if len + 1 < octets.len() => Err(Refusal::Path),
        Some(len) => Ok(rest.start..rest.start + len),
    }
}

/// "after the Id, 16 octets of timestamp if bit 12 is set, an offset of width w, then the payload to the end". The
/// order: 6, 1 (timestamp), 1 and 5 (offset); "DATA ends with 10".
fn data(word: u64, header: Header, mut fields: Fields) -> Result<Data, Refusal> {
    let width = packet_width(word);
    if !is_file(word) {
        return Err(Refusal::Kind);
    }
    let timestamp = fields.octets(timestamp_octets(word))?;
    let offset = fields.descriptor(width)?;
    let payload = fields.rest();
    if payload.is_empty() {
        return Err(Refusal::NoPayload);
    }
    Ok(Data { header, width, timestamp, offset, payload })
}

/// "16 octets of timestamp if bit 12 is set, Progress, In-Response-To, then holes as pairs of start and end, all of
/// width w". The order: 1 (timestamp), 1 and 5 (Progress), 1 and 5 (In-Response-To), 5 (the hole list); "STATUS with 11".
fn success(word: u64, header: Header, mut fields: Fields) -> Result<Success, Refusal> {
    let width = packet_width(word);
    let timestamp = fields.octets(timestamp_octets(word))?;
    let progress = fields.descriptor(width)?;
    let in_response_to = fields.descriptor(width)?;
    let rest = fields.rest();
    let holes = whole_pairs(&fields.packet[rest.clone()], width)?;
    // Document 02: "The reader also takes In-Response-To equal to Progress - 1 when there are no holes, bit 14 is clear
    // and bit 15 is set."
    let last_octet = holes.is_empty() && !list_incomplete(word) && sent_unasked(word);
    let points_to_last = last_octet && progress.checked_sub(1) == Some(in_response_to);
    if !points_to_last && !hole_list_allowed(&holes, progress, in_response_to, list_incomplete(word)) {
        return Err(Refusal::HoleList);
    }
    Ok(Success { header, width, timestamp, progress, in_response_to, holes_at: rest.start, holes })
}

/// "accepts a hole list only if: it is whole pairs". 5 comes before that, for every descriptor that is whole, a start without
/// its end too: "tested for each descriptor once its octets are there, [...] before 9, 10 and 11".
fn whole_pairs(octets: &[u8], width: usize) -> Result<Vec<Hole>, Refusal> {
    let offsets = octets.chunks_exact(width).map(descriptor).collect::<Result<Vec<u64>, Refusal>>()?;
    if octets.len() % (2 * width) != 0 {
        return Err(Refusal::HoleList);
    }
    Ok(offsets.chunks(2).map(|pair| Hole { start: pair[0], end: pair[1] }).collect())
}

/// The rest of "Reading a success STATUS", one line for each of its conditions.
fn hole_list_allowed(holes: &[Hole], progress: u64, in_response_to: u64, incomplete: bool) -> bool {
    // "Progress is at most In-Response-To"
    let ordered = progress <= in_response_to;
    // "each start is less than its end"
    let none_empty = holes.iter().all(|hole| hole.start < hole.end);
    // "each start is greater than the end before it"
    let apart = holes.windows(2).all(|two| two[1].start > two[0].end);
    // "none starts below Progress or ends above In-Response-To"
    let inside = holes.iter().all(|hole| hole.start >= progress && hole.end <= in_response_to);
    // "With bit 14 clear, the first start equals Progress, and if there are no holes Progress equals In-Response-To."
    let from_progress = match holes.first() {
        Some(first) => first.start == progress,
        None => progress == in_response_to,
    };
    ordered && none_empty && apart && inside && (incomplete || from_progress)
}

/// The fields of a packet, taken one after the other.
struct Fields<'a> {
    packet: &'a [u8],
    at: usize,
}

impl Fields<'_> {
    /// The next `count` octets, or "packet ends inside a field".
    fn octets(&mut self, count: usize) -> Result<Range<usize>, Refusal> {
        let start = self.at;
        if self.packet.len() - start < count {
            return Err(Refusal::Truncated);
        }
        self.at += count;
        Ok(start..self.at)
    }

    /// The next number, of `count` octets.
    fn number(&mut self, count: usize) -> Result<u64, Refusal> {
        let range = self.octets(count)?;
        Ok(number(&self.packet[range]))
    }

    /// The next descriptor, of `width` octets: 1, then 5 "once its octets are there".
    fn descriptor(&mut self, width: usize) -> Result<u64, Refusal> {
        let range = self.octets(width)?;
        descriptor(&self.packet[range])
    }

    /// All that is left.
    fn rest(&self) -> Range<usize> {
        self.at..self.packet.len()
    }
}

/// The number of a whole descriptor: "Take width 11 wherever the upper eight octets of a descriptor [...] are zero."
fn descriptor(octets: &[u8]) -> Result<u64, Refusal> {
    let (upper, lower) = octets.split_at(octets.len().saturating_sub(8));
    match upper.iter().all(|&octet| octet == 0) {
        true => Ok(number(lower)),
        false => Err(Refusal::Width),
    }
}

/// "All numbers are big-endian."
fn number(octets: &[u8]) -> u64 {
    assert!(octets.len() <= 8);
    octets.iter().fold(0, |high, &low| high * 256 + u64::from(low))
}
