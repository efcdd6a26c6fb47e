//! Reading, each limit from both sides: the part of a run that doesn't depend on chance but for what fills the
//! packets.

use crate::check::{Check, Step};
use crate::faults::{self, Fault};
use crate::packets::*;
use crate::rng::Rng;

/// All of it.
pub fn run(check: &mut Check) -> Step {
    first_words(check)?;
    short_packets(check)?;
    beacon_flags(check)?;
    beacon_free_space(check)?;
    beacon_endpoints(check)?;
    metadata_pairs(check)?;
    metadata_properties(check)?;
    metadata_sizes(check)?;
    metadata_paths(check)?;
    data(check)?;
    status(check)?;
    last_octets(check)?;
    full_hole_lists(check)?;
    failure(check)?;
    truncated(check)?;
    combined(check, faults::BEACON, Beacon::valid, Beacon::octets)?;
    combined(check, faults::METADATA, Metadata::valid, Metadata::octets)?;
    combined(check, faults::DATA, Data::valid, Data::octets)?;
    combined(check, faults::STATUS, Status::valid, Status::octets)?;
    combined(check, faults::HOLES, Status::valid, Status::octets)
}

/// Reads, and asks for holes: of any type of packet, and around the ends of the list and of the numbers.
pub fn read_all(check: &mut Check, packet: &[u8]) -> Step {
    let read = check.read(packet)?;
    let count = read.hole_count;
    let indexes = [
        0,
        count / 2,
        count.saturating_sub(1),
        count,
        count + 1,
        1 << 32,
        1 << 60,
        1 << 61,
        1 << 62,
        1 << 63,
        u64::MAX,
    ];
    match (read.number, read.kind) {
        (0, 4) => check.read_holes(packet, &read, &indexes),
        _ => check.read_holes(packet, &read, &[0, u64::MAX]),
    }
}

/// Every value of each octet of the first word, in packets of each type.
fn first_words(check: &mut Check) -> Step {
    for round in 0..8 {
        for place in 0..4 {
            for value in 0..=255 {
                for kind in 0..4 {
                    let rng = &mut check.rng;
                    let mut packet = match kind {
                        0 => Metadata::valid(rng).octets(rng),
                        1 => Data::valid(rng).octets(rng),
                        2 => Status::valid(rng).octets(rng),
                        _ => Beacon::valid(rng).octets(rng),
                    };
                    packet[place] = value;
                    check.read(&packet)?;
                    if round == 0 || kind == 2 {
                        check.read_hole(&packet, 0)?;
                    }
                }
            }
        }
    }
    Ok(())
}

/// Lengths 0 to 12 at every first octet: all zeros after it, and the flags of a BEACON.
fn short_packets(check: &mut Check) -> Step {
    for first in 0..=255 {
        for len in 0..=12 {
            for round in 0..4 {
                let mut packet = match round {
                    0 => vec![0; 12],
                    _ => Beacon::valid(&mut check.rng).octets(&mut check.rng),
                };
                packet.resize(12, 0);
                packet[0] = first;
                check.read(&packet[..len])?;
                check.read_hole(&packet[..len], 0)?;
            }
        }
    }
    Ok(())
}

/// Every 16 pairings with all bits 8 to 11 and 16 to 19, of a whole BEACON and of four octets; and each last flags octet.
fn beacon_flags(check: &mut Check) -> Step {
    for bits in 0..=0xFFF {
        let rng = &mut check.rng;
        let flags = bits << (31 - 19) | (rng.below(16) as u32) << (31 - 23);
        let mut packet = Beacon { flags, ..Beacon::valid(rng) };
        packet.endpoint.truncate(20);
        let octets = packet.octets(rng);
        check.read(&octets)?;
        check.read(&octets[..4])?;
    }
    for last in 0..=255 {
        for (send, receive) in (0..16).map(|pairs| (pairs / 4, pairs % 4)) {
            let rng = &mut check.rng;
            let mut packet = Beacon::valid(rng);
            packet.flags = with_pairs(packet.flags, send, receive) | last;
            packet.endpoint.truncate(20);
            let octets = packet.octets(rng);
            let named = PAIRINGS.contains(&send) && PAIRINGS.contains(&receive) && last == 0;
            match named {
                true => drop(check.read_valid(&octets)?),
                false => check.read_refused(&octets, 26)?,
            }
        }
    }
    Ok(())
}

/// Each width of free space: numbers at its ends, the packet cut at every place in it, and none at all.
fn beacon_free_space(check: &mut Check) -> Step {
    for code in [Some(0), Some(1), Some(2), Some(3), None] {
        for free_space in [0, 1, 0xFFFE, 0xFFFF, 0x1_0000, 0xFFFF_FFFF, 0x1_0000_0000, u64::MAX - 1, u64::MAX] {
            for len in [0, 1, 2, 3, 4, 8, 16, 300] {
                let rng = &mut check.rng;
                let mut packet = Beacon { free_space, endpoint: rng.octets(len), ..Beacon::valid(rng) };
                packet.flags = match code {
                    Some(code) => with_free(packet.flags, code),
                    None => packet.flags & !FREE,
                };
                let octets = packet.octets(rng);
                for cut in (0..octets.len().min(24)).chain([octets.len()]) {
                    check.read(&octets[..cut])?;
                }
            }
        }
    }
    Ok(())
}

/// Endpoints up to the largest packet and past it, with each width of free space.
fn beacon_endpoints(check: &mut Check) -> Step {
    for code in [Some(0), Some(1), Some(2), Some(3), None] {
        for total in [20, 21, 1_000, 65_533, 65_534, 65_535, 65_536, 65_537, 131_080] {
            let rng = &mut check.rng;
            let mut packet = Beacon::valid(rng);
            packet.flags = match code {
                Some(code) => with_free(packet.flags, code),
                None => packet.flags & !FREE,
            };
            packet.endpoint = rng.octets(total - 4 - free_width(packet.flags));
            let octets = packet.octets(rng);
            match (total > 65_535, code) {
                (true, _) => check.read_refused(&octets, 2)?,
                _ => drop(check.read_valid(&octets)?),
            }
            check.read_hole(&octets, 0)?;
        }
    }
    Ok(())
}

/// Every pair of checksum type and words, at every pair of widths.
fn metadata_pairs(check: &mut Check) -> Step {
    for pair in 0..=255 {
        for codes in 0..16 {
            let rng = &mut check.rng;
            let mut packet = Metadata::valid(rng);
            packet.start.flags = with_width(packet.start.flags, codes / 4);
            packet.properties = with_entry_width(packet.properties, codes % 4);
            packet.set_pair(pair, rng);
            packet.path.truncate(20);
            let octets = packet.octets(rng);
            check.read(&octets)?;
        }
    }
    Ok(())
}

/// All 65,536 properties.
fn metadata_properties(check: &mut Check) -> Step {
    for properties in 0..=u16::MAX {
        let rng = &mut check.rng;
        let mut packet = Metadata::valid(rng);
        packet.properties = properties;
        packet.path.truncate(20);
        let octets = packet.octets(rng);
        check.read(&octets)?;
    }
    Ok(())
}

/// Sizes around each width's last number.
fn metadata_sizes(check: &mut Check) -> Step {
    let around = |bits: u32| [(1u64 << bits) - 2, (1 << bits) - 1, 1 << bits, (1 << bits) + 1];
    let sizes = [&[0, 1, u64::MAX - 1, u64::MAX][..], &around(16), &around(32), &around(63)].concat();
    for codes in 0..16 {
        for &size in &sizes {
            let rng = &mut check.rng;
            let mut packet = Metadata::valid(rng);
            packet.start.flags = with_width(packet.start.flags, codes / 4);
            packet.properties = with_entry_width(packet.properties, codes % 4);
            packet.size = size;
            let octets = packet.octets(rng);
            check.read(&octets)?;
        }
    }
    Ok(())
}

/// Paths around 0 and 1,023 octets: closed or not, with a zero octet inside, with octets after it.
fn metadata_paths(check: &mut Check) -> Step {
    let closes: [&[u8]; 7] = [&[], &[0], &[0, 0], &[0, 1], &[0, 1, 0], &[0; 30], &[0, 65, 66, 67, 0, 68]];
    for len in [0, 1, 2, 3, 1_021, 1_022, 1_023, 1_024, 1_025, 1_026, 2_048] {
        for close in closes {
            for zero in [None, Some(0), Some(1), Some(1_021), Some(1_022), Some(1_023), Some(1_024), Some(1_025)] {
                let rng = &mut check.rng;
                let mut packet = Metadata::valid(rng);
                packet.path = path(rng, len);
                packet.close = close.to_vec();
                if let Some(at) = zero.filter(|&at| at < len) {
                    packet.path[at] = 0;
                }
                let octets = packet.octets(rng);
                check.read(&octets)?;
                // The same with a size above the packet's own width: 9 comes after the path.
                let rng = &mut check.rng;
                let (_, too_large) = faults::METADATA[0];
                too_large(&mut packet, rng);
                let octets = packet.octets(rng);
                check.read(&octets)?;
            }
        }
    }
    Ok(())
}

/// Each width, with and without timestamp: short payloads, the longest packets, offsets at their ends.
fn data(check: &mut Check) -> Step {
    for codes in 0..8 {
        let taken = |packet: &Data| 8 + packet.timestamp.len() + width(packet.start.flags);
        let base = |rng: &mut Rng| {
            let mut packet = Data::valid(rng);
            packet.start.flags = with_width(packet.start.flags, codes % 4) & !TIMESTAMP;
            if codes >= 4 {
                packet.start.flags |= TIMESTAMP;
            }
            packet.timestamp = rng.octets(stamp_len(packet.start.flags));
            packet
        };
        for len in [0, 1, 2, 3, 17, 300] {
            for offset in [0, 1, 0xFFFE, 0xFFFF, 0x1_0000, 0xFFFF_FFFF, 0x1_0000_0000, u64::MAX - 1, u64::MAX] {
                let rng = &mut check.rng;
                let mut packet = base(rng);
                packet.offset = offset;
                packet.payload = rng.octets(len);
                let octets = packet.octets(rng);
                check.read(&octets)?;
            }
        }
        for total in [65_534, 65_535, 65_536, 65_537, 65_551, 131_080] {
            let rng = &mut check.rng;
            let mut packet = base(rng);
            packet.payload = rng.octets(total - taken(&packet));
            let octets = packet.octets(rng);
            check.read(&octets)?;
            check.read_hole(&octets, 0)?;
        }
    }
    Ok(())
}

/// Few holes: each width, with and without timestamp, each way to be wrong, and bit 14 both ways.
fn status(check: &mut Check) -> Step {
    for codes in 0..8 {
        for count in 0..5 {
            for _ in 0..20 {
                let rng = &mut check.rng;
                let mut start = Status::valid(rng).start;
                start.flags = with_width(start.flags, codes % 4) & !TIMESTAMP;
                if codes >= 4 {
                    start.flags |= TIMESTAMP;
                }
                let mut packet = Status::with_holes(rng, start, count);
                let octets = packet.octets(rng);
                read_all(check, &octets)?;
                packet.start.flags ^= INCOMPLETE;
                let octets = packet.octets(&mut check.rng);
                read_all(check, &octets)?;
                for &(_, fault) in faults::HOLES {
                    let mut broken = packet.clone();
                    fault(&mut broken, &mut check.rng);
                    let octets = broken.octets(&mut check.rng);
                    read_all(check, &octets)?;
                }
            }
        }
    }
    Ok(())
}

/// Progress and In-Response-To close to each other and to the ends of their numbers: each width, bits 14 and 15 both ways,
/// with a hole and without.
fn last_octets(check: &mut Check) -> Step {
    for codes in 0..4 * 4 * 2 {
        let start = |rng: &mut Rng| {
            let mut start = Status::valid(rng).start;
            start.flags = with_width(start.flags, codes % 4) & !(INCOMPLETE | UNASKED);
            start.flags |= [0, INCOMPLETE, UNASKED, INCOMPLETE | UNASKED][codes as usize / 4 % 4];
            start
        };
        let last = last(2 << (codes % 4));
        let numbers = [0, 1, 2, 3, 4, 0xFF, 0x100, 0x101, last - 2, last - 1, last];
        for progress in numbers {
            for in_response_to in numbers {
                let start = start(&mut check.rng);
                let mut packet = Status::with_holes(&mut check.rng, start, codes as usize / 16);
                packet.progress = progress;
                packet.in_response_to = in_response_to;
                let octets = packet.octets(&mut check.rng);
                read_all(check, &octets)?;
            }
        }
    }
    Ok(())
}

/// Lists that fill a packet of 65,535 octets as far as whole pairs can, then octets up to and past that limit.
fn full_hole_lists(check: &mut Check) -> Step {
    for codes in 0..8 {
        let rng = &mut check.rng;
        let mut start = Status::valid(rng).start;
        start.flags = with_width(start.flags, codes % 4) & !TIMESTAMP;
        if codes >= 4 {
            start.flags |= TIMESTAMP;
        }
        let pair = 2 * width(start.flags);
        let most = (65_535 - 8 - stamp_len(start.flags) - pair) / pair;
        for count in [most - 1, most, most + 1] {
            let packet = Status::with_holes(&mut check.rng, start.clone(), count);
            let octets = packet.octets(&mut check.rng);
            read_all(check, &octets)?;
            for total in [65_534, 65_535, 65_536, 65_537] {
                let mut longer = packet.clone();
                longer.ending = Ending::Filled(total);
                let octets = longer.octets(&mut check.rng);
                read_all(check, &octets)?;
            }
            // Wrong at the first pair, at the last, and in between.
            for at in [1, count / 2, count - 1] {
                let mut touching = packet.clone();
                touching.holes[at].0 = touching.holes[at - 1].1;
                let octets = touching.octets(&mut check.rng);
                check.read(&octets)?;
                check.read_hole(&octets, 0)?;
            }
        }
    }
    Ok(())
}

/// Every failure code with anything after it.
fn failure(check: &mut Check) -> Step {
    for code in 1..=255 {
        for len in [8, 9, 10, 12, 16, 19, 24, 40, 1_000] {
            let rng = &mut check.rng;
            let mut octets = Status::failure(rng);
            octets[3] = code;
            octets.resize(len, rng.below(256) as u8);
            check.read_valid(&octets)?;
            check.read_hole(&octets, 0)?;
        }
        for len in [65_535, 65_536] {
            let mut octets = Status::failure(&mut check.rng);
            octets[3] = code;
            octets.resize(len, 1);
            check.read(&octets)?;
        }
        for len in 0..8 {
            let mut octets = Status::failure(&mut check.rng);
            octets[3] = code;
            check.read_refused(&octets[..len], 1)?;
            octets.truncate(len);
            check.read_hole(&octets, 0)?;
        }
    }
    Ok(())
}

/// Every beginning of a packet, the longest METADATA included.
fn truncated(check: &mut Check) -> Step {
    for round in 0..60 {
        let rng = &mut check.rng;
        let mut metadata = Metadata::valid(rng);
        metadata.path.truncate(40);
        if round == 0 {
            metadata.path = path(rng, 1_023);
        }
        let mut data = Data::valid(rng);
        data.payload.truncate(40);
        let mut status = Status::valid(rng);
        if status.holes.len() > 20 {
            status = Status::with_holes(rng, status.start, 20);
        }
        let mut beacon = Beacon::valid(rng);
        beacon.endpoint.truncate(40);
        for packet in [metadata.octets(rng), data.octets(rng), status.octets(rng), beacon.octets(rng)] {
            for len in 0..=packet.len() {
                check.read(&packet[..len])?;
                check.read_hole(&packet[..len], 0)?;
            }
        }
    }
    Ok(())
}

/// No fault, each alone with the refusal expected, and every two and three of them.
fn combined<T: Clone>(
    check: &mut Check,
    faults: &[Fault<T>],
    valid: fn(&mut Rng) -> T,
    octets: fn(&T, &mut Rng) -> Vec<u8>,
) -> Step {
    for _ in 0..200 {
        let packet = valid(&mut check.rng);
        let good = octets(&packet, &mut check.rng);
        check.read_valid(&good)?;
        for &(number, fault) in faults {
            let mut packet = packet.clone();
            fault(&mut packet, &mut check.rng);
            let bad = octets(&packet, &mut check.rng);
            // A fault may make the longest packets longer still.
            let number = if bad.len() > 65_535 { 2 } else { number };
            check.read_refused(&bad, number)?;
        }
    }
    for _ in 0..4 {
        for first in 0..faults.len() {
            for second in first..faults.len() {
                for third in second..faults.len() {
                    let mut packet = valid(&mut check.rng);
                    for at in [first, second, third] {
                        faults[at].1(&mut packet, &mut check.rng);
                    }
                    let bad = octets(&packet, &mut check.rng);
                    check.read(&bad)?;
                    check.read_hole(&bad, 0)?;
                }
            }
        }
    }
    Ok(())
}
