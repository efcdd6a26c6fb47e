//! Transfers of each width beside one another, and descriptors of 128 bits in the packets that open and record.

use paper::table::Table;

use crate::check::{require, Check, Step};
use crate::faults::{self, upper};
use crate::packets::{with_entry_width, with_width};
use crate::receiver::files::{opening, recording, timestamp, File};
use crate::receiver::held::Held;
use crate::receiver::limits::one;
use crate::receiver::{words, Ask};

/// All of it.
pub fn run(check: &mut Check) -> Step {
    mixed(check)?;
    widths_in_areas(check)?;
    longest_status(check)?;
    upper_octets(check)
}

/// Four transfers, one of each width: a packet of each width to each, opened again at each, and the STATUS of each.
fn mixed(check: &mut Check) -> Step {
    for round in 0..20 {
        let mut table = Table::default();
        for id in 0..4u32 {
            let runs = [(3 * u64::from(id), 20), (30, 31)];
            table.transfers.extend(one(id, 2 << id, 300 + round, &runs).transfers);
        }
        let mut held = Held::holding(table, &mut check.rng);
        for (id, code) in (0..16).map(|both| (both / 4, both % 4)) {
            let packet = recording(&mut check.rng, id, code, 40 + 2 * round, 1, false).octets(&mut check.rng);
            check.try_record(&held, &packet)?;
            let number = check.record(&mut held, &packet)?.number;
            require(number == if id == code { 0 } else { 13 }, || format!("DATA of {code} for {id}: {number}"))?;
            let packet = opening(&mut check.rng, File { id, code, length: 300 + round }).octets(&mut check.rng);
            let number = check.open(&mut held, &packet)?.number;
            require(number == if id == code { 0 } else { 18 }, || format!("METADATA of {code} for {id}: {number}"))?;
            for room in [71, 72, 8 + 6 * (2 << id), 24 + 6 * (2 << id), 2_104] {
                check.write_status(&held, Ask { id: id.into(), skip: 0, unasked: 0 }, room)?;
            }
            check.transfer(&held, id.into())?;
            check.find(&held, id.into())?;
        }
    }
    Ok(())
}

/// Every number up to 40 as a width, for each function: 22 but where it is 2, 4, 8 or 16.
fn widths_in_areas(check: &mut Check) -> Step {
    for (width, length) in (0..=40).flat_map(|width| [(width, 300), (width, u64::MAX)]) {
        let held = Held::holding(one(9, 8, length, &[(1, 2)]), &mut check.rng);
        let mut held = held.changed(&mut check.rng, |area, _| words::set(area, words::width(0), width));
        let table = [2, 4, 8, 16].contains(&width) && (width >= 8 || length == 300);
        let number = check.find(&held, 9)?.number;
        require(number == if table { 0 } else { 22 }, || format!("width {width} in an area: {number}"))?;
        let code = (width.max(2).ilog2() - 1).min(3);
        let packet = recording(&mut check.rng, 9, code, 7, 1, false).octets(&mut check.rng);
        check.try_record(&held, &packet)?;
        check.transfer(&held, 0)?;
        check.transfer_hole(&held, 9, 0)?;
        check.write_status(&held, Ask { id: 9, skip: 0, unasked: 0 }, 100)?;
        check.record(&mut held, &packet)?;
        let packet = opening(&mut check.rng, File { id: 9, code, length }).octets(&mut check.rng);
        check.open(&mut held, &packet)?;
        check.close(&mut held, 9)?;
    }
    Ok(())
}

/// 64 holes at each width, with and without a timestamp: the longest STATUS of all has 2,104 octets.
fn longest_status(check: &mut Check) -> Step {
    for (width, stamp) in [2, 4, 8, 16].into_iter().flat_map(|width| [(width, 0), (width, 16)]) {
        let runs: Vec<_> = (0..64).map(|run| (3 * run + 1, 3 * run + 2)).collect();
        let mut table = one(9, width, 200, &runs);
        let kept = (stamp > 0).then(|| timestamp(&mut check.rng));
        table.transfers.get_mut(&9).expect("it is open").timestamp = kept;
        let held = Held::holding(table, &mut check.rng);
        let longest = 8 + stamp + 2 * width + 2 * width * 64;
        for room in [longest - 1, longest, longest + 1, 2_103, 2_104] {
            let written = check.write_status(&held, Ask { id: 9, skip: 0, unasked: 0 }, room)?;
            let want = if room < longest { longest - 2 * width } else { longest };
            require(written.size as usize == want, || format!("{} octets into {room}, not {want}", written.size))?;
        }
    }
    Ok(())
}

/// Upper octets that aren't zero, each in turn, alone and with every fault: in METADATA to be opened, and in DATA to be
/// recorded, whatever is open.
fn upper_octets(check: &mut Check) -> Step {
    for place in 0..8 * 8 {
        let rng = &mut check.rng;
        let held = Held::holding(one(9, rng.pick(&[8, 16]), 300, &[(3, 5)]), rng);
        let mut packet = opening(rng, File { id: 9, code: 3, length: 300 });
        packet.properties = with_entry_width(packet.properties, 3);
        packet.upper.octets = 1 << place;
        let packet = packet.octets(rng);
        let number = check.open(&mut held.clone(), &packet)?.number;
        require(number == 5, || format!("opening with upper octets: {number}"))?;
        let mut packet = recording(&mut check.rng, 9, 3, 17, 1, false);
        packet.upper.octets = 1 << place;
        let packet = packet.octets(&mut check.rng);
        check.try_record(&held, &packet)?;
        let number = check.record(&mut held.clone(), &packet)?.number;
        require(number == 5, || format!("recording with upper octets: {number}"))?;
    }
    for _ in 0..20 {
        for &(_, fault) in faults::METADATA {
            let rng = &mut check.rng;
            let mut held = Held::holding(one(9, 16, 300, &[]), rng);
            let mut packet = opening(rng, File { id: 9, code: 3, length: 300 });
            packet.properties = with_entry_width(packet.properties, 3);
            fault(&mut packet, rng);
            packet.upper = upper(rng, 0);
            let packet = packet.octets(rng);
            check.open(&mut held, &packet)?;
        }
        for &(_, fault) in faults::DATA {
            let rng = &mut check.rng;
            let mut held = Held::holding(one(9, 16, 300, &[]), rng);
            let mut packet = recording(rng, 9, 3, 17, 10, false);
            packet.start.flags = with_width(packet.start.flags, 3);
            fault(&mut packet, rng);
            packet.upper = upper(rng, 0);
            let packet = packet.octets(rng);
            check.try_record(&held, &packet)?;
            check.record(&mut held, &packet)?;
        }
    }
    Ok(())
}
