//! The random part of a run: valid, spoiled and senseless packets and fields, until enough calls are made.

use crate::answer::Packet;
use crate::check::{Check, Step};
use crate::faults::{self, Fault};
use crate::fields::{self, BeaconArgs, DataArgs, MetadataArgs, Room};
use crate::packets::*;
use crate::rng::Rng;

/// One case, of some calls.
pub fn case(check: &mut Check) -> Step {
    match check.rng.below(64) {
        0..=11 => {
            let packet = valid_packet(&mut check.rng);
            let read = check.read_valid(&packet)?;
            holes(check, &packet, &read)
        }
        12 => truncated(check),
        13..=22 => {
            let mut packet = valid_packet(&mut check.rng);
            flip(&mut packet, &mut check.rng);
            read(check, &packet)
        }
        23..=26 => {
            let mut packet = valid_packet(&mut check.rng);
            extend(&mut packet, &mut check.rng);
            read(check, &packet)
        }
        27..=38 => {
            let packet = spoiled_packet(&mut check.rng);
            read(check, &packet)
        }
        39..=42 => {
            let packet = senseless_packet(&mut check.rng);
            read(check, &packet)
        }
        43..=50 => metadata(check),
        51..=58 => data(check),
        59..=62 => beacon(check),
        _ => failure(check),
    }
}

pub fn valid_packet(rng: &mut Rng) -> Vec<u8> {
    match rng.below(12) {
        0..=2 => Metadata::valid(rng).octets(rng),
        3..=5 => Data::valid(rng).octets(rng),
        6 | 7 => Beacon::valid(rng).octets(rng),
        8 => Status::failure(rng),
        _ => Status::valid(rng).octets(rng),
    }
}

fn read(check: &mut Check, packet: &[u8]) -> Step {
    let read = check.read(packet)?;
    holes(check, packet, &read)
}

/// One hole or the place after the last, of any packet.
fn holes(check: &mut Check, packet: &[u8], read: &Packet) -> Step {
    let rng = &mut check.rng;
    let index = match rng.below(6) {
        0 => 0,
        1 => read.hole_count.saturating_sub(1),
        2 => read.hole_count,
        3 => rng.between(0, read.hole_count),
        4 => u64::MAX,
        _ => rng.number(64),
    };
    check.read_holes(packet, read, &[index])
}

/// Every beginning of a short packet; of a long one those around its fields, its end and some others.
fn truncated(check: &mut Check) -> Step {
    let packet = valid_packet(&mut check.rng);
    for len in 0..packet.len() {
        let near = len < 60 || packet.len() - len < 20;
        if near || check.rng.one_in(packet.len() as u64 / 8) {
            check.read(&packet[..len])?;
            if packet[0] == 0x44 {
                check.read_hole(&packet[..len], 0)?;
            }
        }
    }
    Ok(())
}

/// One to three bits, mostly in the first octets.
pub fn flip(packet: &mut [u8], rng: &mut Rng) {
    for _ in 0..rng.between(1, 3) {
        let last = match rng.below(3) {
            0 => packet.len() - 1,
            1 => packet.len().min(40) - 1,
            _ => packet.len().min(8) - 1,
        };
        let at = rng.place(0, last);
        packet[at] ^= 1 << rng.below(8);
    }
}

pub fn extend(packet: &mut Vec<u8>, rng: &mut Rng) {
    let len = match rng.below(40) {
        0 => 65_534 + rng.place(0, 3) - packet.len().min(65_534),
        _ => rng.place(1, 40),
    };
    match rng.below(3) {
        0 => packet.resize(packet.len() + len, 0),
        _ => packet.extend(rng.octets(len)),
    }
}

/// One to three faults, in the order of their list. A packet over 65,535 octets, the last of each list, is rare.
pub fn spoil<T>(item: &mut T, faults: &[Fault<T>], rng: &mut Rng) {
    let mut places: Vec<usize> = (0..rng.between(1, 3)).map(|_| rng.place(0, faults.len() - 1)).collect();
    places.sort();
    for at in places {
        if faults[at].0 != 2 || rng.one_in(20) {
            faults[at].1(item, rng);
        }
    }
}

pub fn spoiled_packet(rng: &mut Rng) -> Vec<u8> {
    match rng.below(5) {
        0 => {
            let mut packet = Metadata::valid(rng);
            spoil(&mut packet, faults::METADATA, rng);
            packet.octets(rng)
        }
        1 => {
            let mut packet = Data::valid(rng);
            spoil(&mut packet, faults::DATA, rng);
            packet.octets(rng)
        }
        2 => {
            let mut packet = Status::valid(rng);
            spoil(&mut packet, faults::STATUS, rng);
            packet.octets(rng)
        }
        3 => {
            let mut packet = Beacon::valid(rng);
            spoil(&mut packet, faults::BEACON, rng);
            packet.octets(rng)
        }
        _ => {
            let mut packet = Status::valid(rng);
            spoil(&mut packet, faults::HOLES, rng);
            packet.octets(rng)
        }
    }
}

/// Random octets behind a first word that is likely to be taken.
pub fn senseless_packet(rng: &mut Rng) -> Vec<u8> {
    let len = match rng.below(100) {
        0 => rng.place(60_000, 66_000),
        _ => rng.place(0, 70),
    };
    let mut packet = rng.octets(len);
    let flags = [rng.any() as u8, rng.any() as u8, 0, 0];
    let first = rng.pick(&[0x40, 0x42, 0x43, 0x44]);
    for (octet, value) in packet.iter_mut().zip([first, rng.pick(&flags) & 0xCF, 0, rng.pick(&flags)]) {
        if !rng.one_in(8) {
            *octet = value;
        }
    }
    packet
}

fn room(rng: &mut Rng) -> Room {
    match rng.below(8) {
        0 => Room::Less(1),
        1 => Room::Less(rng.place(1, 40)),
        2 => Room::Nothing,
        3 => Room::More(1),
        4 => Room::More(rng.place(1, 100)),
        _ => Room::Exact,
    }
}

fn beacon(check: &mut Check) -> Step {
    let rng = &mut check.rng;
    let mut args = BeaconArgs::valid(rng);
    args.room = room(rng);
    match rng.below(8) {
        0..=2 => {}
        3..=6 => spoil(&mut args, fields::BEACON, rng),
        _ => {
            args.flags = rng.number(64);
            args.free_space = rng.number(64);
        }
    }
    check.write_beacon(&args.fields(), args.out_len())?;
    Ok(())
}

fn metadata(check: &mut Check) -> Step {
    let rng = &mut check.rng;
    let mut args = MetadataArgs::valid(rng);
    args.room = room(rng);
    match rng.below(8) {
        0..=2 => {}
        3..=6 => spoil(&mut args, fields::METADATA, rng),
        _ => {
            args.flags = rng.number(64);
            args.id = rng.number(64);
            args.properties = rng.number(64);
            args.size = rng.number(64);
        }
    }
    check.write_metadata(&args.fields(), args.out_len())?;
    Ok(())
}

fn data(check: &mut Check) -> Step {
    let rng = &mut check.rng;
    let mut args = DataArgs::valid(rng);
    args.room = room(rng);
    match rng.below(8) {
        0..=2 => {}
        3..=6 => spoil(&mut args, fields::DATA, rng),
        _ => {
            args.flags = rng.number(64);
            args.id = rng.number(64);
            args.offset = rng.number(64);
        }
    }
    check.write_data(&args.fields(), args.out_len())?;
    Ok(())
}

fn failure(check: &mut Check) -> Step {
    let rng = &mut check.rng;
    let id = match rng.below(4) {
        0 => rng.number(64),
        _ => rng.number(32),
    };
    let status = match rng.below(4) {
        0 => rng.number(64),
        _ => rng.number(8),
    };
    let out_len = rng.pick(&[0, 1, 7, 8, 8, 8, 9, 30]);
    check.write_failure(id, status, out_len)?;
    Ok(())
}
