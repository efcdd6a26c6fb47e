//! Reading descriptors of 128 bits: each of the upper eight octets of each descriptor set in turn, the packet cut at each
//! octet, and every other fault present too.

use crate::check::{require, Check, Step};
use crate::faults::{self, Fault};
use crate::packets::*;
use crate::rng::Rng;

/// All of it.
pub fn run(check: &mut Check) -> Step {
    data(check)?;
    metadata(check)?;
    size_too_large(check)?;
    status(check)?;
    beacon(check)?;
    with_faults(check, faults::DATA, &[10], data_of, Data::octets)?;
    with_faults(check, faults::METADATA, &[8], metadata_of, Metadata::octets)?;
    with_faults(check, faults::BEACON, &[], beacon_of, Beacon::octets)?;
    with_faults(check, faults::STATUS, &[11], status_of, Status::octets)?;
    with_faults(check, faults::HOLES, &[11], status_of, Status::octets)
}

/// Each of the upper eight octets, with the lowest bit set, the highest, or any.
fn uppers(rng: &mut Rng, descriptor: usize) -> Vec<Upper> {
    let any = rng.between(1, 255);
    let octets = (0..8).flat_map(|place| [0x01, 0x80, any].map(|octet| octet << (8 * place)));
    octets.map(|octets| Upper { descriptor, octets }).collect()
}

/// Every beginning of a packet whose descriptor at `at` is to be refused: with 5 from its last octet on, and never before.
fn cut(check: &mut Check, packet: &[u8], at: usize) -> Step {
    for len in 0..=packet.len() {
        let number = check.read(&packet[..len])?.number;
        if packet[0] == 0x44 {
            check.read_hole(&packet[..len], 0)?;
        }
        require((number == 5) == (len >= at + 16), || {
            format!("refusal {number} for {len} octets, descriptor at {at}")
        })?;
    }
    Ok(())
}

fn data(check: &mut Check) -> Step {
    for stamped in [false, true] {
        for upper in uppers(&mut check.rng, 0) {
            let mut packet = data_of(&mut check.rng, upper);
            packet.start.flags &= !TIMESTAMP;
            packet.start.flags |= if stamped { TIMESTAMP } else { 0 };
            packet.timestamp = check.rng.octets(stamp_len(packet.start.flags));
            let at = 8 + packet.timestamp.len();
            let octets = packet.octets(&mut check.rng);
            cut(check, &octets, at)?;
            packet.upper = Upper::default();
            let octets = packet.octets(&mut check.rng);
            check.read_valid(&octets)?;
        }
    }
    Ok(())
}

/// At each width of the packet's own: none of them is the size's.
fn metadata(check: &mut Check) -> Step {
    for code in 0..4 {
        for upper in uppers(&mut check.rng, 0) {
            let mut packet = metadata_of(&mut check.rng, upper);
            packet.start.flags = with_width(packet.start.flags, code);
            packet.size &= last(2 << code);
            let at = 8 + packet.checksum.len() + 2;
            let octets = packet.octets(&mut check.rng);
            cut(check, &octets, at)?;
            packet.upper = Upper::default();
            let octets = packet.octets(&mut check.rng);
            check.read_valid(&octets)?;
        }
    }
    Ok(())
}

/// A size over the packet's own width: 9, but 5 where its upper octets aren't zero.
fn size_too_large(check: &mut Check) -> Step {
    for code in 0..2 {
        for upper in uppers(&mut check.rng, 0) {
            let mut packet = metadata_of(&mut check.rng, upper);
            packet.start.flags = with_width(packet.start.flags, code);
            packet.size = check.rng.too_large(number_bits(2 << code));
            let octets = packet.octets(&mut check.rng);
            check.read_refused(&octets, 5)?;
            packet.upper = Upper::default();
            let octets = packet.octets(&mut check.rng);
            check.read_refused(&octets, 9)?;
        }
    }
    Ok(())
}

/// Lists of no hole up to three, and then a start without its end.
fn status(check: &mut Check) -> Step {
    for (holes, lone) in (0..4).flat_map(|holes| [(holes, false), (holes, true)]) {
        let descriptors = 2 + 2 * holes + usize::from(lone);
        for descriptor in 0..descriptors {
            for upper in uppers(&mut check.rng, descriptor) {
                let rng = &mut check.rng;
                let mut packet = status_of(rng, upper);
                packet = Status { upper, ..Status::with_holes(rng, packet.start, holes) };
                if lone {
                    packet.extra = [vec![0; 8], rng.octets(8)].concat();
                }
                let at = 8 + packet.timestamp.len() + 16 * descriptor;
                let octets = packet.octets(rng);
                cut(check, &octets, at)?;
            }
        }
    }
    Ok(())
}

fn beacon(check: &mut Check) -> Step {
    for upper in uppers(&mut check.rng, 0) {
        let mut packet = beacon_of(&mut check.rng, upper);
        let octets = packet.octets(&mut check.rng);
        cut(check, &octets, 4)?;
        packet.upper = Upper::default();
        let octets = packet.octets(&mut check.rng);
        check.read_valid(&octets)?;
    }
    Ok(())
}

/// A short DATA packet of 128 bits, with these upper octets.
fn data_of(rng: &mut Rng, upper: Upper) -> Data {
    let mut packet = Data { upper, ..Data::valid(rng) };
    packet.start.flags = with_width(packet.start.flags, 3);
    packet.payload.truncate(20);
    packet
}

fn metadata_of(rng: &mut Rng, upper: Upper) -> Metadata {
    let mut packet = Metadata { upper, ..Metadata::valid(rng) };
    packet.properties = with_entry_width(packet.properties, 3);
    packet.path.truncate(20);
    packet
}

fn status_of(rng: &mut Rng, upper: Upper) -> Status {
    let mut start = Status::valid(rng).start;
    start.flags = with_width(start.flags, 3);
    let holes = rng.place(upper.descriptor / 2, upper.descriptor / 2 + 3);
    Status { upper, ..Status::with_holes(rng, start, holes) }
}

fn beacon_of(rng: &mut Rng, upper: Upper) -> Beacon {
    let mut packet = Beacon { upper, ..Beacon::valid(rng) };
    packet.flags = with_free(packet.flags, 3);
    packet.endpoint.truncate(20);
    packet
}

/// Each fault in a packet whose descriptor is to be refused too: 5 where the fault is one of those `later`, and where it is
/// earlier the fault's own number. A packet that ends early is either's, and 9 has its own widths.
fn with_faults<T>(
    check: &mut Check,
    faults: &[Fault<T>],
    later: &[u64],
    packet: fn(&mut Rng, Upper) -> T,
    octets: fn(&T, &mut Rng) -> Vec<u8>,
) -> Step {
    for &(number, fault) in faults.iter().filter(|(number, _)| ![5, 9].contains(number)) {
        for upper in uppers(&mut check.rng, 0) {
            let rng = &mut check.rng;
            let mut packet = packet(rng, upper);
            fault(&mut packet, rng);
            let bad = octets(&packet, rng);
            match number {
                1 => drop(check.read(&bad)?),
                _ if later.contains(&number) => check.read_refused(&bad, 5)?,
                _ => check.read_refused(&bad, number)?,
            }
            check.read_hole(&bad, 0)?;
        }
    }
    Ok(())
}
