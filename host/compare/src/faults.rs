//! Faults to put into valid packets, each with the refusal that it brings when it is the only one. Several in one
//! packet try the order of the refusals.

use crate::packets::*;
use crate::rng::Rng;

/// The refusal's number, and what spoils the packet.
pub type Fault<T> = (u64, fn(&mut T, &mut Rng));

fn version(first: &mut u8, rng: &mut Rng) {
    *first = (*first & 0x3F) | rng.pick(&[0x00, 0x80, 0xC0]);
}

/// A type that no operation takes.
fn other_type(first: &mut u8, rng: &mut Rng) {
    let kind = match rng.below(3) {
        0 => 1,
        _ => rng.between(5, 63),
    };
    *first = (*first & 0xC0) | kind as u8;
}

/// Upper eight octets of which one isn't zero, or several: of the descriptor with this number.
pub fn upper(rng: &mut Rng, descriptor: usize) -> Upper {
    let octets = match rng.below(4) {
        0 => rng.between(1, u64::MAX),
        1 => rng.pick(&[1, 1 << 63, u64::MAX]),
        _ => rng.between(1, 255) << (8 * rng.below(8)),
    };
    Upper { descriptor, octets }
}

fn other_kind(start: &mut Start, rng: &mut Rng) {
    start.flags = (start.flags & !KIND) | (rng.between(1, 3) as u32) << (31 - 11);
}

fn cut(rng: &mut Rng, first: usize, last: usize) -> Ending {
    Ending::Cut(rng.place(first, last))
}

fn too_long(rng: &mut Rng) -> Ending {
    Ending::Filled(rng.pick(&[65_536, 65_536, 65_537, 70_000]))
}

/// Where the path starts.
pub fn path_at(packet: &Metadata) -> usize {
    8 + packet.checksum.len() + 2 + entry_width(packet.properties) + 8
}

/// Another version or type needs eight octets to be told.
fn eight_octets(packet: &mut Beacon) {
    packet.endpoint.resize(packet.endpoint.len().max(8), 7);
}

pub const BEACON: &[Fault<Beacon>] = &[
    (26, |p, rng| p.flags = with_pairs(p.flags, NO_PAIRING, rng.pick(&PAIRINGS))),
    (26, |p, rng| p.flags = with_pairs(p.flags, rng.pick(&PAIRINGS), NO_PAIRING)),
    (26, |p, rng| p.flags |= rng.between(1, 255) as u32),
    (5, |p, rng| {
        p.flags = with_free(p.flags, 3);
        p.upper = upper(rng, 0);
    }),
    (1, |p, rng| p.ending = cut(rng, 0, 3)),
    (1, |p, rng| {
        p.flags = with_free(p.flags, rng.below(4) as u32);
        p.ending = cut(rng, 4, 4 + free_width(p.flags) - 1);
    }),
    (3, |p, rng| {
        version(&mut p.first, rng);
        eight_octets(p);
    }),
    (4, |p, rng| {
        other_type(&mut p.first, rng);
        eight_octets(p);
    }),
    (2, |p, rng| p.ending = too_long(rng)),
];

pub const METADATA: &[Fault<Metadata>] = &[
    (9, |p, rng| {
        // The entry is wider than the packet's own width.
        let code = rng.below(2) as u32;
        p.start.flags = with_width(p.start.flags, code);
        p.properties = with_entry_width(p.properties, rng.between(u64::from(code) + 1, 3) as u32);
        let (own, entry) = (last(width(p.start.flags)), last(entry_width(p.properties)));
        p.size = rng.pick(&[own + 1, entry]);
    }),
    (3, |p, rng| version(&mut p.start.first, rng)),
    (4, |p, rng| other_type(&mut p.start.first, rng)),
    (6, |p, rng| other_kind(&mut p.start, rng)),
    (7, |p, rng| {
        let pair = refused_pair(rng);
        p.start.flags = (p.start.flags & 0x00FF_FF00) | pair;
        if rng.one_in(2) {
            p.checksum = rng.octets(4 * (pair as usize / 16));
        }
    }),
    (6, |p, rng| p.properties |= rng.pick(&NOT_A_FILE)),
    (5, |p, rng| {
        p.properties = with_entry_width(p.properties, 3);
        p.upper = upper(rng, 0);
    }),
    (1, |p, _| p.close.clear()),
    (8, |p, _| p.path.clear()),
    (8, |p, rng| {
        let len = rng.pick(&[1_024, 1_024, 1_025, 1_100, 3_000]);
        p.path = path(rng, len);
    }),
    (8, |p, rng| {
        let len = rng.pick(&[1_024, 1_024, 1_025, 1_100, 3_000]);
        p.path = path(rng, len);
        p.close.clear();
    }),
    (8, |p, rng| {
        let at = rng.place(0, p.path.len());
        p.path.insert(at, 0);
    }),
    (8, |p, rng| {
        let len = rng.pick(&[1, 1, 2, 4, 50]);
        p.close = vec![0];
        p.close.extend(rng.octets(len));
    }),
    (1, |p, rng| p.ending = cut(rng, 0, 7)),
    (1, |p, rng| p.ending = cut(rng, 8, 8 + p.checksum.len() + 1)),
    (1, |p, rng| p.ending = cut(rng, 8 + p.checksum.len() + 2, path_at(p) - 1)),
    (1, |p, rng| p.ending = cut(rng, path_at(p), path_at(p) + p.path.len())),
    (2, |p, rng| p.ending = too_long(rng)),
];

pub const DATA: &[Fault<Data>] = &[
    (3, |p, rng| version(&mut p.start.first, rng)),
    (4, |p, rng| other_type(&mut p.start.first, rng)),
    (6, |p, rng| other_kind(&mut p.start, rng)),
    (5, |p, rng| {
        p.start.flags = with_width(p.start.flags, 3);
        p.upper = upper(rng, 0);
    }),
    (10, |p, _| p.payload.clear()),
    (1, |p, rng| p.ending = cut(rng, 0, 7)),
    (1, |p, rng| p.ending = cut(rng, 8, 8 + p.timestamp.len() + width(p.start.flags) - 1)),
    (2, |p, rng| p.ending = too_long(rng)),
];

pub const STATUS: &[Fault<Status>] = &[
    (11, |p, rng| {
        let (_, fault) = rng.pick(HOLES);
        fault(p, rng)
    }),
    (3, |p, rng| version(&mut p.start.first, rng)),
    (4, |p, rng| other_type(&mut p.start.first, rng)),
    // Progress, In-Response-To, and any descriptor.
    (5, |p, rng| {
        p.start.flags = with_width(p.start.flags, 3);
        p.upper = upper(rng, 0);
    }),
    (5, |p, rng| {
        p.start.flags = with_width(p.start.flags, 3);
        p.upper = upper(rng, 1);
    }),
    (5, |p, rng| {
        p.start.flags = with_width(p.start.flags, 3);
        let descriptor = rng.place(0, 1 + 2 * p.holes.len());
        p.upper = upper(rng, descriptor);
    }),
    (1, |p, rng| p.ending = cut(rng, 0, 7)),
    (1, |p, rng| p.ending = cut(rng, 8, 8 + p.timestamp.len() + 2 * width(p.start.flags) - 1)),
    (2, |p, rng| p.ending = too_long(rng)),
];

/// Each way in which a hole list can be wrong.
pub const HOLES: &[Fault<Status>] = &[
    // Not whole pairs.
    (11, |p, rng| {
        let len = rng.place(1, 2 * width(p.start.flags) - 1);
        p.extra = half_pair(rng, len);
    }),
    // A start without an end.
    (11, |p, rng| p.extra = half_pair(rng, width(p.start.flags))),
    // Two holes touch.
    (11, |p, rng| {
        let at = two_holes(p, rng);
        p.holes[at].0 = p.holes[at - 1].1;
    }),
    // Two holes overlap.
    (11, |p, rng| {
        let at = two_holes(p, rng);
        p.holes[at].0 = p.holes[at - 1].1.saturating_sub(1);
    }),
    // A hole twice.
    (11, |p, rng| {
        let at = two_holes(p, rng);
        p.holes[at] = p.holes[at - 1];
    }),
    // The higher hole first.
    (11, |p, rng| {
        let at = two_holes(p, rng);
        p.holes.swap(at - 1, at);
    }),
    // A start that is its end.
    (11, |p, rng| {
        let at = two_holes(p, rng);
        p.holes[at].1 = p.holes[at].0;
    }),
    // A start above its end.
    (11, |p, rng| {
        let at = two_holes(p, rng);
        p.holes[at] = (p.holes[at].1, p.holes[at].0);
    }),
    // The first hole starts below Progress.
    (11, |p, rng| {
        two_holes(p, rng);
        p.progress = p.holes[0].0.saturating_add(1);
    }),
    // The last hole ends above In-Response-To.
    (11, |p, rng| {
        two_holes(p, rng);
        p.in_response_to = p.holes[p.holes.len() - 1].1.saturating_sub(1);
    }),
    // The first hole starts above Progress, bit 14 clear.
    (11, |p, rng| {
        two_holes(p, rng);
        p.holes[0].0 = p.holes[0].0.max(1);
        p.holes[0].1 = p.holes[0].1.max(2);
        p.progress = p.holes[0].0 - 1;
        p.start.flags &= !INCOMPLETE;
    }),
    // No hole and Progress below In-Response-To, bit 14 clear.
    (11, |p, rng| {
        p.holes.clear();
        p.in_response_to = rng.between(1, last(width(p.start.flags)));
        p.progress = rng.pick(&[0, p.in_response_to - 1, p.in_response_to / 2]);
        p.start.flags &= !INCOMPLETE;
    }),
    // No hole and Progress more than one above In-Response-To.
    (11, |p, rng| {
        p.holes.clear();
        p.progress = rng.between(2, last(width(p.start.flags)));
        p.in_response_to = rng.pick(&[0, p.progress - 2, (p.progress - 2) / 2]);
    }),
    // Progress one above In-Response-To, with bit 15 clear, with bit 14 set, with both.
    (11, |p, rng| {
        p.holes.clear();
        one_less(p, rng);
        p.start.flags = p.start.flags & !(INCOMPLETE | UNASKED) | rng.pick(&[0, INCOMPLETE, INCOMPLETE | UNASKED]);
    }),
    // Progress one above In-Response-To, bit 15 set and bit 14 clear, with holes.
    (11, |p, rng| {
        two_holes(p, rng);
        one_less(p, rng);
        p.start.flags = p.start.flags & !INCOMPLETE | UNASKED;
    }),
    // Progress 0 and the largest In-Response-To, bit 15 set and bit 14 clear: nothing is one less than 0.
    (11, |p, _| {
        p.holes.clear();
        p.progress = 0;
        p.in_response_to = last(width(p.start.flags));
        p.start.flags = p.start.flags & !INCOMPLETE | UNASKED;
    }),
];

/// Any Progress but 0, and In-Response-To one less.
fn one_less(p: &mut Status, rng: &mut Rng) {
    p.progress = rng.between(1, last(width(p.start.flags)));
    p.in_response_to = p.progress - 1;
}

/// Octets of which none makes a descriptor of 128 bits that is refused.
fn half_pair(rng: &mut Rng, len: usize) -> Vec<u8> {
    let mut octets = rng.octets(len);
    if len >= 16 {
        octets[..8].fill(0);
    }
    octets
}

/// Makes the list one of two holes or more, and picks one that isn't the first.
fn two_holes(p: &mut Status, rng: &mut Rng) -> usize {
    if p.holes.len() < 2 {
        let count = rng.place(2, 6);
        *p = Status { upper: p.upper, ..Status::with_holes(rng, p.start.clone(), count) };
    }
    rng.place(1, p.holes.len() - 1)
}
