//! Random passes: openings, recordings, closings, STATUS and listings in any mix, with damaged packets and areas
//! between them.

use paper::table::Table;

use crate::check::{Check, Step, Stop};
use crate::faults;
use crate::packets::Ending;
use crate::random::{extend, flip, senseless_packet, spoil, valid_packet};
use crate::receiver::files::{file, files, old_opening, opening, recording, table, File};
use crate::receiver::held::Held;
use crate::receiver::words::OCTETS;
use crate::receiver::{aim, damage, orders};
use crate::rng::Rng;

/// One case, of some or many calls.
pub fn case(check: &mut Check) -> Step {
    match check.rng.below(10) {
        0 => orders::trial(check),
        _ => pass(check),
    }
}

/// A pass on an area made fresh, or on one that holds a table already, which may be empty.
fn pass(check: &mut Check) -> Step {
    let count = check.rng.pick(&[1, 1, 2, 3, 5, 16, 17, 17]);
    let files = files(&mut check.rng, count);
    let mut held = match check.rng.one_in(2) {
        true => {
            let table = table(&mut check.rng, &files);
            Held::holding(table, &mut check.rng)
        }
        false => empty(check)?,
    };
    for _ in 0..check.rng.between(5, 150) {
        step(check, &mut held, &files)?;
    }
    Ok(())
}

/// An area with nothing open: made fresh, or with anything in the places that nothing uses.
pub fn empty(check: &mut Check) -> Result<Held, Stop> {
    if check.rng.one_in(2) {
        return Ok(Held::holding(Table::default(), &mut check.rng));
    }
    let mut held = Held::random(&mut check.rng);
    check.fresh(&mut held)?;
    Ok(held)
}

fn step(check: &mut Check, held: &mut Held, files: &[File]) -> Step {
    let rng = &mut check.rng;
    let table = held.table.as_ref().expect("it holds one");
    match rng.below(100) {
        0..=18 => {
            let packet = opening_packet(rng, files);
            check.open(held, &packet)?;
        }
        19 => {
            // As many as there are.
            let mut files = files.to_vec();
            shuffle(&mut files, rng);
            for file in files {
                let packet = opening(&mut check.rng, file).octets(&mut check.rng);
                check.open(held, &packet)?;
            }
        }
        20..=61 => {
            let packet = recording_packet(rng, table, files);
            check.record(held, &packet)?;
        }
        62..=63 => {
            for packet in scattered(rng, table, files) {
                check.record(held, &packet)?;
            }
        }
        64..=67 => {
            let id = aim::id(rng, table, files);
            check.close(held, id)?;
        }
        68..=81 => {
            let id = aim::id(rng, table, files);
            let (ask, room) = aim::status(rng, table, id);
            check.write_status(held, ask, room)?;
        }
        82..=85 => {
            let index = aim::index(rng, table);
            check.transfer(held, index)?;
        }
        86..=91 => {
            let packet = damaged_packet(rng, table, files);
            match check.rng.one_in(2) {
                true => drop(check.open(held, &packet)?),
                false => drop(check.record(held, &packet)?),
            }
        }
        92..=98 => {
            let mut damaged = held.changed(rng, damage::any);
            for _ in 0..check.rng.between(1, 3) {
                any_call(check, &mut damaged, files)?;
            }
        }
        _ if rng.one_in(10) => drop(check.fresh(held)?),
        _ => {
            let mut short = held.changed(rng, |area, rng| area.truncate(rng.place(0, OCTETS - 1)));
            check.fresh(&mut short)?;
        }
    }
    Ok(())
}

/// A call of any function but `saratoga_fresh`, on an area of any content.
pub fn any_call(check: &mut Check, held: &mut Held, files: &[File]) -> Step {
    let rng = &mut check.rng;
    let none = Table::default();
    let table = held.table.as_ref().unwrap_or(&none);
    match rng.below(6) {
        0 => {
            let packet = match rng.below(3) {
                0 => damaged_packet(rng, table, files),
                _ => opening_packet(rng, files),
            };
            check.open(held, &packet)?;
        }
        1 | 2 => {
            let packet = match rng.below(3) {
                0 => damaged_packet(rng, table, files),
                _ => recording_packet(rng, table, files),
            };
            check.record(held, &packet)?;
        }
        3 => {
            let id = aim::id(rng, table, files);
            check.close(held, id)?;
        }
        4 => {
            let id = aim::id(rng, table, files);
            let (ask, room) = aim::status(rng, table, id);
            check.write_status(held, ask, room)?;
        }
        _ => {
            let index = aim::index(rng, table);
            check.transfer(held, index)?;
        }
    }
    Ok(())
}

/// METADATA for one of the files: as planned, or now and then with another width or length, or with a CRC-32c.
pub fn opening_packet(rng: &mut Rng, files: &[File]) -> Vec<u8> {
    opening_of(rng, files).octets(rng)
}

fn opening_of(rng: &mut Rng, files: &[File]) -> crate::packets::Metadata {
    let planned = rng.pick(files);
    let other = match rng.below(24) {
        0 => file(rng, planned.id),
        1 => File { code: planned.code.max(rng.between(1, 3) as u32), ..planned },
        2 => File { code: rng.pick(&[2, 3]), length: planned.length.saturating_add(1), ..planned },
        3 => File { length: planned.length.saturating_sub(1), ..planned },
        _ => planned,
    };
    match rng.one_in(16) {
        true => old_opening(rng, other),
        false => opening(rng, other),
    }
}

/// DATA for one of the files, aimed at its transfer if it is open.
pub fn recording_packet(rng: &mut Rng, table: &Table, files: &[File]) -> Vec<u8> {
    recording_of(rng, table, files).octets(rng)
}

fn recording_of(rng: &mut Rng, table: &Table, files: &[File]) -> crate::packets::Data {
    let open: Vec<u64> = table.transfers.keys().copied().collect();
    if open.is_empty() || rng.one_in(20) {
        let id = rng.pick(files).id;
        let (code, offset) = (rng.below(4) as u32, rng.number(64));
        return recording(rng, id, code, offset, 1, false);
    }
    let id = rng.pick(&open);
    let transfer = &table.transfers[&id];
    let (offset, len) = aim::packet(rng, transfer);
    let end_of_data = aim::end_of_data(rng, transfer.length, offset, len);
    let code = match rng.below(30) {
        0 => rng.below(4) as u32,
        _ => transfer.width.ilog2() - 1,
    };
    recording(rng, id as u32, code, offset, len, end_of_data)
}

/// Packets that stand apart in one transfer, in any order, some of them twice: up to 64 runs and more.
pub fn scattered(rng: &mut Rng, table: &Table, files: &[File]) -> Vec<Vec<u8>> {
    let long = table.transfers.iter().filter(|(_, transfer)| transfer.length >= 140);
    let long: Vec<u64> = long.map(|(&id, _)| id).collect();
    if long.is_empty() {
        return vec![opening_packet(rng, files)];
    }
    let id = rng.pick(&long);
    let transfer = &table.transfers[&id];
    let gap = match rng.below(3) {
        0 => 2,
        1 => transfer.length / 70,
        _ => rng.between(2, transfer.length / 70),
    };
    let base = rng.between(0, transfer.length - 70 * gap);
    let mut places: Vec<u64> = (0..70).map(|place| base + place * gap).collect();
    shuffle(&mut places, rng);
    places.truncate(rng.pick(&[10, 40, 64, 66, 70]));
    let code = transfer.width.ilog2() - 1;
    places.iter().map(|&offset| recording(rng, id as u32, code, offset, 1, false).octets(rng)).collect()
}

pub fn shuffle<T>(list: &mut [T], rng: &mut Rng) {
    for at in (1..list.len()).rev() {
        list.swap(at, rng.place(0, at));
    }
}

/// A packet for one of the files, damaged as the packets' comparison does it; or another.
pub fn damaged_packet(rng: &mut Rng, table: &Table, files: &[File]) -> Vec<u8> {
    let mut octets = match rng.below(10) {
        0..=2 => {
            let mut packet = opening_of(rng, files);
            spoil(&mut packet, faults::METADATA, rng);
            return packet.octets(rng);
        }
        3..=5 => {
            let mut packet = recording_of(rng, table, files);
            spoil(&mut packet, faults::DATA, rng);
            return packet.octets(rng);
        }
        6 => {
            let mut packet = recording_of(rng, table, files);
            packet.ending = Ending::Cut(rng.place(0, 40));
            return packet.octets(rng);
        }
        7 => return valid_packet(rng),
        8 => return senseless_packet(rng),
        _ if rng.one_in(2) => opening_packet(rng, files),
        _ => recording_packet(rng, table, files),
    };
    match rng.below(3) {
        0 => extend(&mut octets, rng),
        _ => flip(&mut octets, rng),
    }
    octets
}
