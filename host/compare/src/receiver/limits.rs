//! The receiver's limits from both sides: the part of a run that doesn't depend on chance but for what fills packets
//! and areas.

use paper::received::Received;
use paper::table::{Table, Transfer};

use crate::check::{require, Check, Step};
use crate::faults;
use crate::packets::{allowed_pairs, last, with_entry_width, with_width, Beacon, Ending, CRC32C};
use crate::receiver::files::{opening, recording, timestamp, File};
use crate::receiver::held::{fill_unused, Held};
use crate::receiver::pass::empty;
use crate::receiver::{words, Ask};
use crate::rng::Rng;

/// All of it.
pub fn run(check: &mut Check) -> Step {
    lengths(check)?;
    full_table(check)?;
    small_sets(check)?;
    many_runs(check)?;
    ends_of_numbers(check)?;
    statuses(check)?;
    packet_faults(check)?;
    short_packets(check)?;
    checksums(check)?;
    opening_order(check)?;
    recording_order(check)
}

/// A table with one transfer.
pub fn one(id: u32, width: usize, length: u64, runs: &[(u64, u64)]) -> Table {
    let mut received = Received::default();
    for &(start, stop) in runs {
        received.add(start, stop);
    }
    Table { transfers: [(u64::from(id), Transfer { received, ..Transfer::new(width, length) })].into() }
}

/// Every length at a limit, at each width: opened, opened again, opened otherwise, recorded to and closed.
fn lengths(check: &mut Check) -> Step {
    let lengths = [0, 1, 2, 0xFFFE, 0xFFFF, 0x1_0000, 0xFFFF_FFFE, 0xFFFF_FFFF, 0x1_0000_0000, u64::MAX - 1, u64::MAX];
    for code in 0..4 {
        for length in lengths {
            let mut held = empty(check)?;
            let file = File { id: 7, code, length };
            let fits = length <= last(2 << code);
            let packet = opening(&mut check.rng, file).octets(&mut check.rng);
            let number = check.open(&mut held, &packet)?.number;
            require(number == if fits { 0 } else { 9 }, || format!("length {length} at width bits {code}: {number}"))?;
            let packet = opening(&mut check.rng, file).octets(&mut check.rng);
            check.open(&mut held, &packet)?;
            for other in 0..4 {
                for length in lengths {
                    let file = File { id: 7, code: other, length };
                    let packet = opening(&mut check.rng, file).octets(&mut check.rng);
                    check.open(&mut held, &packet)?;
                }
            }
            for offset in [0, length.saturating_sub(2), length.saturating_sub(1), length, length.saturating_add(1)] {
                let packet = recording(&mut check.rng, 7, code, offset, 1, false).octets(&mut check.rng);
                check.record(&mut held, &packet)?;
            }
            let ask = Ask { id: 7, skip: 0, unasked: 0 };
            check.write_status(&held, ask, 100)?;
            check.close(&mut held, 7)?;
            check.close(&mut held, 7)?;
        }
    }
    Ok(())
}

/// Up to 17 Ids; each closed in turn, and its place used again.
fn full_table(check: &mut Check) -> Step {
    for closed in 0..16u32 {
        let mut held = empty(check)?;
        for id in 0..17u32 {
            // In an order that isn't rising.
            let id = id * 5 % 17;
            let file = File { id, code: id % 4, length: 10 };
            let packet = opening(&mut check.rng, file).octets(&mut check.rng);
            check.open(&mut held, &packet)?;
            let packet = recording(&mut check.rng, id, id % 4, u64::from(id % 10), 1, false).octets(&mut check.rng);
            check.record(&mut held, &packet)?;
        }
        list(check, &held)?;
        check.close(&mut held, u64::from(closed) + (1 << 32))?;
        check.close(&mut held, u64::from(closed))?;
        list(check, &held)?;
        for id in [closed, 40, 16, 12, closed] {
            let packet = opening(&mut check.rng, File { id, code: 0, length: 10 }).octets(&mut check.rng);
            check.open(&mut held, &packet)?;
            check.write_status(&held, Ask { id: u64::from(id), skip: 0, unasked: 1 }, 64)?;
        }
        list(check, &held)?;
        for id in (0..=16).chain([40]) {
            check.close(&mut held, id)?;
        }
        list(check, &held)?;
    }
    Ok(())
}

fn list(check: &mut Check, held: &Held) -> Step {
    for index in (0..18).chain([1 << 32, u64::MAX]) {
        check.transfer(held, index)?;
        check.find(held, index)?;
    }
    Ok(())
}

/// Every set of received offsets in a file of 5 octets, and every packet for it.
fn small_sets(check: &mut Check) -> Step {
    for set in 0..32u64 {
        let runs: Vec<_> = (0..5).filter(|&offset| set >> offset & 1 == 1).map(|offset| (offset, offset + 1)).collect();
        let held = Held::holding(one(9, 2, 5, &runs), &mut check.rng);
        for offset in 0..7 {
            for len in 1..7 {
                for end_of_data in [false, true] {
                    let packet = recording(&mut check.rng, 9, 0, offset, len, end_of_data).octets(&mut check.rng);
                    check.try_record(&held, &packet)?;
                    check.record(&mut held.clone(), &packet)?;
                }
            }
        }
        for skip in 0..4 {
            check.transfer_hole(&held, 9, skip)?;
            for room in 0..26 {
                check.write_status(&held, Ask { id: 9, skip, unasked: 0 }, room)?;
            }
        }
        check.transfer(&held, 0)?;
        check.find(&held, 9)?;
    }
    Ok(())
}

/// 62 to 64 runs with gaps of 1, 2 or 3 octets, from offset 0 or not, and every short packet for them.
fn many_runs(check: &mut Check) -> Step {
    for (count, gap, base) in [(64, 1, 0), (64, 2, 1), (64, 3, 2), (63, 2, 0), (62, 1, 3)] {
        let runs: Vec<_> = (0..count).map(|run| base + run * (gap + 1)).map(|start| (start, start + 1)).collect();
        let held = Held::holding(one(9, 4, 300, &runs), &mut check.rng);
        for offset in 0..300 {
            for len in 1..5 {
                let packet = recording(&mut check.rng, 9, 1, offset, len, false).octets(&mut check.rng);
                check.try_record(&held, &packet)?;
                check.record(&mut held.clone(), &packet)?;
            }
        }
        for len in [100, 200, 299, 300] {
            let packet = recording(&mut check.rng, 9, 1, 0, len, len == 300).octets(&mut check.rng);
            check.record(&mut held.clone(), &packet)?;
        }
    }
    Ok(())
}

/// Offsets and payloads at the ends of each width, where a sum could wrap.
fn ends_of_numbers(check: &mut Check) -> Step {
    for code in 0..4 {
        let most = last(2 << code);
        for length in [most, most - 1, most - 2, 1 << 15] {
            let runs = [(length - 1, length)];
            for held in [one(9, 2 << code, length, &[]), one(9, 2 << code, length, &runs)] {
                let held = Held::holding(held, &mut check.rng);
                for back in 0..4 {
                    for from in [length, most] {
                        for len in [1, 2, 3, 4, 60_000, 65_000] {
                            for end_of_data in [false, true] {
                                let offset = from - back;
                                let packet = recording(&mut check.rng, 9, code, offset, len, end_of_data);
                                let packet = packet.octets(&mut check.rng);
                                check.record(&mut held.clone(), &packet)?;
                            }
                        }
                    }
                }
            }
        }
    }
    Ok(())
}

/// Every k and every room at a limit, at each width, with and without a timestamp, for transfers with no hole up to 64.
fn statuses(check: &mut Check) -> Step {
    for (code, stamp) in (0..4).flat_map(|code| [(code, 0), (code, 16)]) {
        let d = 2usize << code;
        for holes in [0, 1, 2, 3, 63, 64] {
            let runs: Vec<_> = (0..holes).map(|hole| (3 * hole + 1, 3 * hole + 2)).collect();
            let complete = [(0, 200)];
            let mut held = match (holes, check.rng.one_in(2)) {
                (0, true) => one(9, d, 200, &complete),
                (0, false) => one(9, d, 200, &[(0, 7)]),
                _ => one(9, d, 200, &runs),
            };
            let kept = (stamp > 0).then(|| timestamp(&mut check.rng));
            held.transfers.get_mut(&9).expect("it is open").timestamp = kept;
            let held = Held::holding(held, &mut check.rng);
            for skip in (0..=holes + 2).chain([1 << 32, 1 << 62, u64::MAX]) {
                if holes > 10 && skip > 3 && skip < holes - 2 && !check.rng.one_in(8) {
                    continue;
                }
                for written in 0..=holes as usize + 1 {
                    let size = 8 + stamp + 2 * d + 2 * d * written;
                    for room in [size - 1, size] {
                        let unasked = check.rng.pick(&[0, 1, 2, u64::MAX]);
                        check.write_status(&held, Ask { id: 9, skip, unasked }, room)?;
                    }
                }
                for room in [0, 1, 7, 8, 9, 8 + 2 * d - 1, 8 + 2 * d, 8 + 4 * d, 24 + 2 * d - 1, 24 + 2 * d, 24 + 4 * d]
                {
                    check.write_status(&held, Ask { id: 9, skip, unasked: 0 }, room)?;
                }
                check.write_status(&held, Ask { id: 10, skip, unasked: 0 }, 100)?;
                check.write_status(&held, Ask { id: 9 + (1 << 32), skip, unasked: 0 }, 100)?;
            }
        }
    }
    Ok(())
}

/// Each fault of a packet alone, with the number that it brings.
fn packet_faults(check: &mut Check) -> Step {
    for &(number, fault) in faults::METADATA {
        for _ in 0..20 {
            let rng = &mut check.rng;
            let mut packet = opening(rng, File { id: 9, code: 1, length: 300 });
            fault(&mut packet, rng);
            let packet = packet.octets(rng);
            let mut held = Held::holding(one(8, 2, 5, &[]), rng);
            let got = check.open(&mut held, &packet)?.number;
            require(got == number, || format!("opening: refusal {number} is expected, not {got}"))?;
        }
    }
    for &(number, fault) in faults::DATA {
        for _ in 0..20 {
            let rng = &mut check.rng;
            let mut packet = recording(rng, 9, 1, 17, 10, false);
            fault(&mut packet, rng);
            let packet = packet.octets(rng);
            let mut held = Held::holding(one(9, 4, 300, &[]), rng);
            check.try_record(&held, &packet)?;
            let got = check.record(&mut held, &packet)?.number;
            require(got == number, || format!("recording: refusal {number} is expected, not {got}"))?;
        }
    }
    Ok(())
}

/// Lengths 0 to 12 at every first octet, a BEACON's among them: all zeros after it, and the flags of a BEACON. A whole
/// BEACON is refused with 4.
fn short_packets(check: &mut Check) -> Step {
    let mut held = Held::holding(one(9, 4, 300, &[(3, 5)]), &mut check.rng);
    for first in 0..=255 {
        for len in 0..=12 {
            for flags in [false, true] {
                let mut packet = match flags {
                    false => vec![0; 12],
                    true => Beacon::valid(&mut check.rng).octets(&mut check.rng),
                };
                packet.resize(12, 0);
                packet[0] = first;
                let packet = &packet[..len];
                let opened = check.open(&mut held, packet)?.number;
                check.try_record(&held, packet)?;
                let recorded = check.record(&mut held, packet)?.number;
                let number = if len < 4 { 1 } else { 4 };
                require(first != 0x40 || (opened, recorded) == (number, number), || {
                    format!("a BEACON of {len} octets: refusal {number} is expected, not {opened} and {recorded}")
                })?;
            }
        }
    }
    Ok(())
}

/// A table with Id 9 open, of 5 octets at 16 bits, and with others: 16 are open where it is full.
fn nine_and_others(full: bool) -> Table {
    let mut table = one(9, 2, 5, &[(1, 2)]);
    let others = if full { 15 } else { 3 };
    let other = table.transfers[&9].clone();
    table.transfers.extend((100..100 + others).map(|id| (id, other.clone())));
    table
}

/// Every pair of checksum type and words that is read, with room and with 16 open: type 1 opens nothing new, and says nothing
/// of an Id that is open.
fn checksums(check: &mut Check) -> Step {
    for (pair, full) in allowed_pairs().flat_map(|pair| [(pair, false), (pair, true)]) {
        for (id, code, length) in [(10, 0, 5), (9, 0, 5), (9, 0, 6), (9, 1, 5)] {
            let rng = &mut check.rng;
            let mut held = Held::holding(nine_and_others(full), rng);
            let mut packet = opening(rng, File { id, code, length });
            packet.set_pair(pair, rng);
            let packet = packet.octets(rng);
            let number = check.open(&mut held, &packet)?.number;
            let want = match (id, code, length) {
                (9, 0, 5) => 0,
                (9, ..) => 18,
                _ if pair == CRC32C => 23,
                _ if full => 17,
                _ => 0,
            };
            require(number == want, || format!("opening Id {id} with the checksum pair {pair:#x}: {number}"))?;
        }
    }
    Ok(())
}

/// All faults of opening together in each choice of them, with room and with 16 open: 22, the reader's, 18, 23, 17.
fn opening_order(check: &mut Check) -> Step {
    for (choice, full) in (0..64u32).flat_map(|choice| [(choice, false), (choice, true)]) {
        let rng = &mut check.rng;
        let is = |bit: u32| choice >> bit & 1 != 0;
        let (id, length) = (if is(1) { 10 } else { 9 }, if is(0) { 6 } else { 5 });
        let mut packet = opening(rng, File { id, code: 0, length });
        if is(2) {
            packet.close.clear();
        }
        if is(4) {
            packet.properties = with_entry_width(packet.properties, 3);
            packet.upper = faults::upper(rng, 0);
        }
        if is(5) {
            packet.set_pair(CRC32C, rng);
        }
        let packet = packet.octets(rng);
        let mut held = damaged_if(is(3), Held::holding(nine_and_others(full), rng), rng);
        let number = check.open(&mut held, &packet)?.number;
        let faults =
            [(22, is(3)), (5, is(4)), (1, is(2)), (18, !is(1) && is(0)), (23, is(1) && is(5)), (17, is(1) && full)];
        let want = faults.iter().find(|(_, there)| *there).map_or(0, |&(number, _)| number);
        require(number == want, || format!("opening with the faults {choice:#b}: {want} is expected, not {number}"))?;
    }
    Ok(())
}

/// All faults of recording together in each choice of them: 22, the reader's, 12, 13, 14, 15, 16.
fn recording_order(check: &mut Check) -> Step {
    let runs: Vec<_> = (0..64).map(|run| (10 * run, 10 * run + 5)).collect();
    for choice in 0..1_024u32 {
        let rng = &mut check.rng;
        let is = |bit: u32| choice >> bit & 1 != 0;
        let held = Held::holding(one(9, 2, 3_000, if is(8) { &runs[..3] } else { &runs }), rng);
        let mut held = damaged_if(is(0), held, rng);
        let (id, code) = (if is(1) { 10 } else { 9 }, if is(2) { 1 } else { 0 });
        let offset = if is(3) { 2_999 } else { 2_000 };
        let mut packet = recording(rng, id, code, offset, 2, is(4));
        if is(5) {
            packet.payload.clear();
        }
        if is(6) {
            packet.start.flags |= 1 << (31 - 11);
        }
        if is(7) {
            packet.ending = Ending::Cut(9);
        }
        if is(9) {
            packet.start.flags = with_width(packet.start.flags, 3);
            packet.upper = faults::upper(rng, 0);
        }
        let packet = packet.octets(rng);
        check.try_record(&held, &packet)?;
        check.record(&mut held, &packet)?;
    }
    Ok(())
}

/// The area with 17 open, if so chosen; else with other octets in the places that nothing uses.
fn damaged_if(chosen: bool, held: Held, rng: &mut Rng) -> Held {
    match chosen {
        true => held.changed(rng, |area, _| words::set(area, words::COUNT, 17)),
        false => held.changed(rng, |area, rng| fill_unused(area, rng)),
    }
}
