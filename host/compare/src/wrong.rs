//! Codecs that are wrong in one way each, made of the paper's answers. The comparison must find every one of them.

use paper::write::{BeaconFields, DataFields, MetadataFields};

use crate::answer::{Hole, Packet, Written};
use crate::codec::{Codec, Paper};
use crate::wrong_width::{wide_descriptors, with_upper_cleared};

wrong! {
    /// 4 before 3.
    TypeBeforeVersion,
    /// 9 before the path's 1 and 8.
    SizeBeforePath,
    /// 11 for a failure STATUS with octets after the Id.
    FailureReadOn,
    /// 20 before 2.
    BufferBeforeLength,
    /// A path of 1,023 octets is refused.
    ShorterPaths,
    /// A path of 1,024 octets is written.
    LongerPaths,
    /// A size of 2^w - 1 is refused.
    SmallerSizes,
    /// A packet of 65,536 octets is read.
    LongerPackets,
    /// A CRC-32c is not read.
    OldChecksumNotRead,
    /// A CRC-32c is not written.
    OldChecksumNotWritten,
    /// An offset over its width is written without its highest bits.
    OffsetCut,
    /// Bit 14 clear makes no difference to the hole list.
    BitFourteenIgnored,
    /// Holes may touch.
    TouchingHoles,
    /// A hole's end is its last offset.
    HoleEndInside,
    /// In-Response-To one less than Progress is refused.
    LastOctetRefused,
    /// It is taken with bit 15 clear.
    LastOctetAsked,
    /// It is taken with bit 14 set.
    LastOctetPartial,
    /// It is taken with holes.
    LastOctetWithHoles,
    /// The largest number is taken for one less than 0.
    LastOctetWraps,
    /// The index is taken modulo 2^60.
    IndexWraps,
    /// A flag without a rule is lost.
    FlagLost,
    /// The payload's place is one too high.
    PayloadPlace,
    /// 10 has the code 0.
    OtherCode,
    /// A refusal leaves a field that isn't 0.
    RefusalWithField,
    /// The packet's last octet is another.
    LastOctet,
    /// The octet after the packet is cleared.
    OctetAfter,
    /// A buffer that is too small is written to.
    BufferTouched,

    // BEACON.
    /// The pairing 0 1 is "not now".
    PairingTaken,
    /// The last flags octet is not looked at.
    LastFlagsTaken,
    /// 5 before 26.
    FreeWidthBeforeFlags,
    /// Sending and receiving are swapped.
    Swapped,
    /// Willingness is the two bits as a number.
    PairAsNumber,
    /// Free space is read where bit 17 is clear.
    FreeAlwaysRead,
    /// Free space is told in octets.
    FreeInOctets,
    /// Bits 18 and 19 are tested where bit 17 is clear.
    FreeWidthTested,
    /// Bits 18 and 19 are lost where bit 17 is clear.
    FreeWidthLost,
    /// The largest width 128 is refused.
    LargestRefused,
    /// A BEACON of four octets is refused.
    FourRefused,
    /// A BEACON of four to seven octets is refused.
    SevenRefused,
    /// Three octets are a BEACON.
    ThreeTaken,
    /// A packet of four octets that begins otherwise is judged on.
    FourOfAnyTaken,
    /// A BEACON of four octets is 1 where a hole is asked for.
    HoleOfBeaconCut,
    /// A BEACON is given an Id.
    BeaconWithId,
    /// The endpoint ends at a zero octet.
    EndpointClosed,
    /// The writer takes free space that isn't 0 where bit 17 is clear, and leaves it out.
    FreeLeftOut,
    /// The writer loses bit 16.
    BitSixteenLost,
    /// The writer gives 26 before 21.
    WriterFlagsFirst,
    /// The writer refuses an empty endpoint.
    NoEndpointRefused,

    // Descriptors of 128 bits.
    /// The upper eight octets are not looked at.
    UpperIgnored,
    /// The highest octet is not looked at.
    HighestIgnored,
    /// The lowest of the upper eight octets is not looked at.
    EighthIgnored,
    /// The upper octets of DATA's offset are not looked at.
    OffsetUpperIgnored,
    /// Those of the size.
    SizeUpperIgnored,
    /// Those of Progress.
    ProgressUpperIgnored,
    /// Those of In-Response-To.
    ResponseUpperIgnored,
    /// Those of a hole's start.
    StartUpperIgnored,
    /// Those of a hole's end.
    EndUpperIgnored,
    /// Those of a start without its end.
    LoneStartIgnored,
    /// Those of the free space.
    FreeUpperIgnored,
    /// Those of a hole, where one is asked for.
    HoleUpperIgnored,
    /// 10 before 5.
    PayloadBeforeUpper,
    /// 1 for the times before the size's 5.
    TimesBeforeUpper,
    /// The path before the size's 5.
    PathBeforeUpper,
    /// 9 before 5.
    SizeBeforeUpper,
    /// 1 for In-Response-To before the 5 of Progress.
    ResponseBeforeUpper,
    /// 11 before 5.
    ListBeforeUpper,
    /// 5 before all of the descriptor's octets are there.
    UpperBeforeWhole,
    /// 5 by the width bits of DATA alone.
    DataWidthRefused,
    /// 5 by those of STATUS.
    StatusWidthRefused,
    /// 5 by those of METADATA, which has no descriptor of that width.
    MetadataWidthRefused,
    /// 5 by those of a directory entry.
    EntryWidthRefused,
    /// 5 by those of the free space.
    FreeWidthRefused,
    /// 2^w - 1 wraps to 0 at width 128 where a size is judged.
    LargestSizeWraps,
    /// The same where an offset is to be written.
    LargestOffsetWraps,
    /// Writers leave the upper eight octets as they were.
    UpperLeft,
    /// The DATA writer refuses width 128.
    WriterDataRefused,
    /// The METADATA writer refuses it.
    WriterMetadataRefused,
    /// The METADATA writer refuses a size of 128 bits.
    WriterEntryRefused,
    /// The BEACON writer refuses a free space of 128 bits.
    WriterFreeRefused,
}

pub fn refused(number: u64, code: u64) -> Packet {
    Packet { number, code, ..Packet::default() }
}

/// Property bits 8 and 9 as octets of a size.
fn entry_octets(low: u8) -> usize {
    2 << (low >> 6)
}

/// Whether the pair of METADATA is that of a CRC-32c.
pub fn is_crc32c(packet: &[u8]) -> bool {
    packet.get(3) == Some(&0x11)
}

/// METADATA with a CRC-32c, without it.
pub fn without_checksum(packet: &[u8]) -> Vec<u8> {
    [&packet[..3], &[0x00], &packet[4..8], &packet[12..]].concat()
}

/// The METADATA packet with `a` for its path, if its fields before that are there.
fn with_short_path(packet: &[u8]) -> Option<Vec<u8>> {
    let properties_at = 8 + 4 * usize::from(packet[3] >> 4);
    let path_at = properties_at + 2 + entry_octets(*packet.get(properties_at + 1)?) + 8;
    Some([packet.get(..path_at)?, b"a\0"].concat())
}

/// The octets of a descriptor of a success STATUS, and where its holes stand.
fn status_places(packet: &[u8]) -> (usize, usize) {
    let width = 2 << (packet[1] >> 6);
    (width, 8 + if packet[1] & 8 != 0 { 16 } else { 0 } + 2 * width)
}

/// A success STATUS that is refused for its hole list, read with `flags` of its second octet exchanged for `others`, where it
/// then is taken with In-Response-To one less than Progress.
fn last_octet_with(packet: &[u8], flags: u8, others: u8) -> Option<Packet> {
    let mut exchanged = packet.to_vec();
    exchanged[1] = exchanged[1] & !flags | others;
    let read = Paper.read(&exchanged);
    let taken = read.number == 0 && read.in_response_to < read.progress;
    taken.then(|| Packet {
        flags: read.flags & !(u64::from(flags | others) << 16) | u64::from(packet[1] & flags) << 16,
        ..read
    })
}

/// The same without its holes, which are counted all the same.
fn last_octet_before_holes(packet: &[u8]) -> Option<Packet> {
    let (width, at) = status_places(packet);
    let read = Paper.read(packet.get(..at)?);
    let taken = read.number == 0 && read.in_response_to < read.progress && (packet.len() - at) % (2 * width) == 0;
    taken.then(|| Packet { hole_count: ((packet.len() - at) / (2 * width)) as u64, ..read })
}

/// Progress 0 with the largest In-Response-To, read as Progress 1 with In-Response-To 0.
fn last_octet_wrapped(packet: &[u8]) -> Option<Packet> {
    let (width, at) = status_places(packet);
    let from = at - 2 * width;
    let fields = packet.get(from..at)?;
    let low = width.min(8); // of 128 bits the upper eight octets are zero
    let (upper, lower) = fields[width..].split_at(width - low);
    let zero = |octets: &[u8]| octets.iter().all(|&octet| octet == 0);
    let wraps = zero(&fields[..width]) && zero(upper) && lower.iter().all(|&octet| octet == 0xFF);
    let mut next = packet.to_vec();
    next[from + width..at].fill(0);
    next[from + width - 1] = 1;
    let read = Paper.read(&next);
    let taken = wraps && read.number == 0 && read.in_response_to < read.progress;
    taken.then(|| Packet { progress: 0, in_response_to: u64::MAX >> (64 - 8 * low), ..read })
}

/// The packet with each end that is the next start lowered by one: the holes then don't touch.
fn with_touching_holes_apart(packet: &[u8]) -> Vec<u8> {
    let (width, at) = status_places(packet);
    let mut apart = packet.to_vec();
    for end in (at + width..).step_by(2 * width).take_while(|end| end + 2 * width <= packet.len()) {
        if packet[end..end + width] == packet[end + width..end + 2 * width] && packet[end + width - 1] > 0 {
            apart[end + width - 1] -= 1;
        }
    }
    apart
}

impl Codec for Wrong {
    fn read(&self, packet: &[u8]) -> Packet {
        let right = Paper.read(packet);
        let wrong = |applies: bool, answer: Packet| if applies { answer } else { right };
        match self {
            Wrong::TypeBeforeVersion => {
                wrong(right.number == 3 && ![0, 2, 3, 4].contains(&(packet[0] & 0x3F)), refused(4, 0x0A))
            }
            Wrong::SizeBeforePath if packet.first() == Some(&0x42) && matches!(right.number, 1 | 8) => {
                let size = packet.get(..8).and_then(|_| with_short_path(packet)).map(|short| Paper.read(&short));
                wrong(size.is_some_and(|read| read.number == 9), refused(9, 0x09))
            }
            Wrong::FailureReadOn => wrong(right.status != 0 && packet.len() > 8, refused(11, 0)),
            Wrong::ShorterPaths => wrong(right.path_len == 1_023, refused(8, 0x01)),
            Wrong::OldChecksumNotRead => wrong(right.kind == 2 && is_crc32c(packet), refused(23, 0x01)),
            Wrong::SmallerSizes => {
                let last = u64::MAX >> (64 - 8 * right.width.clamp(1, 8));
                wrong(right.number == 0 && right.kind == 2 && right.size == last, refused(9, 0x09))
            }
            Wrong::LongerPackets if packet.len() == 65_536 => {
                let mut read = Paper.read(&packet[..65_535]);
                read.payload_len += u64::from(read.kind == 3);
                read
            }
            Wrong::BitFourteenIgnored if right.number == 11 => {
                let mut set = packet.to_vec();
                set[1] |= 2;
                let read = Paper.read(&set);
                wrong(read.number == 0, Packet { flags: read.flags & !0x020000, ..read })
            }
            Wrong::LastOctetRefused => wrong(right.in_response_to < right.progress, refused(11, 0)),
            Wrong::LastOctetAsked if right.number == 11 => last_octet_with(packet, 0, 1).unwrap_or(right),
            Wrong::LastOctetPartial if right.number == 11 => last_octet_with(packet, 2, 0).unwrap_or(right),
            Wrong::LastOctetWithHoles if right.number == 11 => last_octet_before_holes(packet).unwrap_or(right),
            Wrong::LastOctetWraps if right.number == 11 => last_octet_wrapped(packet).unwrap_or(right),
            Wrong::TouchingHoles if right.number == 11 => Paper.read(&with_touching_holes_apart(packet)),
            Wrong::FlagLost => Packet { flags: right.flags & !(1 << (31 - 13)), ..right },
            Wrong::PayloadPlace => wrong(right.payload_at != 0, Packet { payload_at: right.payload_at + 1, ..right }),
            Wrong::OtherCode => wrong(right.number == 10, refused(10, 0)),
            Wrong::RefusalWithField => wrong(right.number == 11, Packet { kind: 4, ..right }),
            _ if self.of_width() => self.read_wide(packet, right),
            _ if packet.first() == Some(&0x40) => self.read_beacon(packet, right),
            Wrong::FourOfAnyTaken => {
                wrong(right.number == 1 && (4..8).contains(&packet.len()) && packet[0] >> 6 != 1, refused(3, 0))
            }
            _ => right,
        }
    }

    fn read_hole(&self, packet: &[u8], index: u64) -> Hole {
        let right = Paper.read_hole(packet, index);
        match self {
            Wrong::HoleEndInside if right.number == 0 => Hole { end: right.end - 1, ..right },
            Wrong::IndexWraps => Paper.read_hole(packet, index % (1 << 60)),
            Wrong::HoleUpperIgnored if right.number == 5 => Paper.read_hole(&with_upper_cleared(packet), index),
            Wrong::HoleOfBeaconCut if right.number == 4 && packet.len() < 8 => Hole { number: 1, ..Hole::default() },
            _ => right,
        }
    }

    fn write_beacon(&self, fields: &BeaconFields, out: &mut [u8]) -> Written {
        let before = out.to_vec();
        let right = Paper.write_beacon(fields, out);
        let refused = |number, code| Written { number, code, size: 0 };
        match self {
            Wrong::FreeLeftOut if right.number == 21 && fields.flags & 0x4000 == 0 => {
                Paper.write_beacon(&BeaconFields { free_space: 0, ..*fields }, out)
            }
            Wrong::BitSixteenLost if right.number == 0 => {
                out[2] &= 0x7F;
                right
            }
            Wrong::WriterFreeRefused if matches!(right.number, 0 | 2 | 20) && fields.flags & 0x7000 == 0x7000 => {
                out.copy_from_slice(&before);
                refused(5, 0x09)
            }
            Wrong::WriterFlagsFirst if right.number == 21 && fields.flags & 0xFF != 0 => refused(26, 0),
            Wrong::NoEndpointRefused if right.number == 0 && fields.endpoint.is_empty() => {
                out.copy_from_slice(&before);
                refused(1, 0)
            }
            _ => self.spoil(right, &before, out),
        }
    }

    fn write_metadata(&self, fields: &MetadataFields, out: &mut [u8]) -> Written {
        let before = out.to_vec();
        let right = Paper.write_metadata(fields, out);
        let (own, entry) = (fields.flags >> 22 == 3, fields.properties >> 6 & 3 == 3);
        match self {
            Wrong::WriterMetadataRefused if own && !matches!(right.number, 21) => {
                out.copy_from_slice(&before);
                Written { number: 5, code: 0x09, size: 0 }
            }
            Wrong::WriterEntryRefused if entry && matches!(right.number, 0 | 8 | 9 | 20) => {
                out.copy_from_slice(&before);
                Written { number: 5, code: 0x09, size: 0 }
            }
            Wrong::OldChecksumNotWritten if right.number == 0 && fields.flags & 0xFF == 0x11 => {
                out.copy_from_slice(&before);
                Written { number: 23, code: 0x01, size: 0 }
            }
            Wrong::LongerPaths if right.number == 8 && fields.path.len() == 1_024 => {
                let mut written = Paper.write_metadata(&MetadataFields { path: &fields.path[..1_023], ..*fields }, out);
                written.size += u64::from(written.number == 0);
                written
            }
            _ => self.spoil(right, &before, out),
        }
    }

    fn write_data(&self, fields: &DataFields, out: &mut [u8]) -> Written {
        let before = out.to_vec();
        let right = Paper.write_data(fields, out);
        let wide = fields.flags >> 22 == 3;
        match self {
            Wrong::WriterDataRefused if wide && right.number != 21 => {
                out.copy_from_slice(&before);
                Written { number: 5, code: 0x09, size: 0 }
            }
            Wrong::LargestOffsetWraps if wide && fields.offset > 0 => {
                out.copy_from_slice(&before);
                Written { number: 21, code: 0, size: 0 }
            }
            Wrong::BufferBeforeLength if right.number == 2 && out.len() < 65_536 => {
                Written { number: 20, code: 0, size: 0 }
            }
            Wrong::OffsetCut if right.number == 21 => {
                let bits = 16 << (fields.flags >> 22 & 3).min(2);
                Paper.write_data(&DataFields { offset: fields.offset & (u64::MAX >> (64 - bits)), ..*fields }, out)
            }
            _ => self.spoil(right, &before, out),
        }
    }

    fn write_failure(&self, id: u64, status: u64, out: &mut [u8]) -> Written {
        let before = out.to_vec();
        let right = Paper.write_failure(id, status, out);
        self.spoil(right, &before, out)
    }
}

impl Wrong {
    /// The wrong readers of packets that begin with a BEACON's first octet.
    fn read_beacon(self, packet: &[u8], right: Packet) -> Packet {
        let wrong = |applies: bool, answer: Packet| if applies { answer } else { right };
        let with = |at: usize, octet: u8| {
            let mut other = packet.to_vec();
            other[at] = octet;
            Paper.read(&other)
        };
        let taken = right.number == 0;
        match self {
            Wrong::PairingTaken if right.number == 26 => {
                let pairs = |bits: u8, pair: u8| if packet[1] & 3 * bits == bits { 2 * bits } else { packet[1] & pair };
                let read = with(1, packet[1] & 0xF0 | pairs(4, 12) | pairs(1, 3));
                wrong(read.number == 0, Packet { flags: u64::from(packet[1]) << 16 | read.flags & 0xFFFF, ..read })
            }
            Wrong::LastFlagsTaken if right.number == 26 => {
                let read = with(3, 0);
                wrong(read.number == 0, Packet { flags: read.flags | u64::from(packet[3]), ..read })
            }
            Wrong::FreeWidthBeforeFlags if right.number == 26 => {
                let named = [&[packet[0], packet[1] & 0xF0, packet[2], 0], &packet[4..]].concat();
                wrong(Paper.read(&named).number == 5, refused(5, 0x09))
            }
            Wrong::Swapped => Packet { send: right.receive, receive: right.send, ..right },
            Wrong::PairAsNumber => {
                let pair = |state: u64| state + u64::from(state > 0);
                Packet { send: pair(right.send), receive: pair(right.receive), ..right }
            }
            Wrong::FreeAlwaysRead if taken && right.free_width == 0 => {
                let read = with(2, packet[2] | 0x40);
                Packet { flags: right.flags, ..read }
            }
            Wrong::FreeInOctets => Packet { free_space: right.free_space.wrapping_mul(1_024), ..right },
            Wrong::FreeWidthTested => wrong(taken && packet[2] & 0x70 == 0x30, refused(5, 0x09)),
            Wrong::FreeWidthLost if right.free_width == 0 => Packet { flags: right.flags & !0x3000, ..right },
            Wrong::LargestRefused => wrong(taken && packet[1] >> 6 == 3, refused(5, 0x09)),
            Wrong::FourRefused => wrong(taken && packet.len() == 4, refused(1, 0)),
            Wrong::SevenRefused => wrong(packet.len() < 8, refused(1, 0)),
            Wrong::ThreeTaken if packet.len() == 3 => Paper.read(&[packet, &[0]].concat()),
            Wrong::BeaconWithId if taken && packet.len() >= 8 => {
                let id = u32::from_be_bytes([packet[4], packet[5], packet[6], packet[7]]);
                Packet { id: id.into(), ..right }
            }
            Wrong::EndpointClosed if taken => {
                let endpoint = &packet[right.endpoint_at as usize..];
                let len = endpoint.iter().position(|&octet| octet == 0).unwrap_or(endpoint.len());
                Packet { endpoint_len: len as u64, ..right }
            }
            _ => right,
        }
    }

    /// The wrong writers that differ in octets alone.
    fn spoil(self, right: Written, before: &[u8], out: &mut [u8]) -> Written {
        let size = right.size as usize;
        match self {
            Wrong::UpperLeft => {
                for at in wide_descriptors(&out[..size]) {
                    out[at..at + 8].copy_from_slice(&before[at..at + 8]);
                }
            }
            Wrong::LastOctet if right.number == 0 => out[size - 1] ^= 1,
            Wrong::OctetAfter if right.number == 0 && out.len() > size => out[size] = 0,
            Wrong::BufferTouched if right.number == 20 && !out.is_empty() => out[0] = 0x44,
            _ => {}
        }
        right
    }
}
