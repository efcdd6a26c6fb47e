//! The timestamp that a transfer keeps: each rule from both sides, with every octet of the area and of STATUS compared.

use paper::layout::Timestamp;
use paper::table::Transfer;

use crate::check::{require, Check, Step};
use crate::faults;
use crate::receiver::files::{bare, opening, recording, stamped, timestamp, File};
use crate::receiver::held::{fill_unused, Held};
use crate::receiver::limits::one;
use crate::receiver::{words, Ask};

/// All of it.
pub fn run(check: &mut Check) -> Step {
    renewed(check)?;
    refused(check)?;
    left(check)?;
    forgotten(check)?;
    words_judged(check)
}

/// A transfer with Id 9 between two others, each with a timestamp or without one by the bits of `kept`.
fn three(check: &mut Check, code: u32, kept: u32) -> Held {
    let mut table = one(9, 2 << code, 300, &[(3, 5), (8, 9)]);
    for id in [7, 12] {
        table.transfers.insert(id, Transfer::new(4, 100));
    }
    for (bit, transfer) in table.transfers.values_mut().enumerate() {
        transfer.timestamp = (kept >> bit & 1 == 1).then(|| timestamp(&mut check.rng));
    }
    Held::holding(table, &mut check.rng)
}

/// The STATUS of Id 9 in rooms at its limits, with and without a timestamp counted; and the transfer as it is listed.
fn told(check: &mut Check, held: &Held) -> Step {
    let open = &held.table.as_ref().expect("it holds one").transfers[&9];
    let (d, holes, kept) = (open.width, open.received.holes().len(), open.timestamp.is_some());
    let bare = [8 + 2 * d, 8 + 4 * d, 8 + 2 * d * (1 + holes)];
    for room in bare.into_iter().flat_map(|bare| [bare - 1, bare, bare + 15, bare + 16]).chain([2_104]) {
        check.write_status(held, Ask { id: 9, skip: 0, unasked: 0 }, room)?;
    }
    let found = check.find(held, 9)?.stamped;
    require(found == u64::from(kept), || format!("a transfer is found with stamped {found}"))?;
    for index in 0..4 {
        check.transfer(held, index)?;
    }
    Ok(())
}

/// Recorded to Id 9 at this offset, with this timestamp.
fn record(check: &mut Check, held: &mut Held, code: u32, offset: u64, stamp: Option<Timestamp>) -> Step {
    let data = recording(&mut check.rng, 9, code, offset, 1, false);
    let packet = match stamp {
        Some(octets) => stamped(data, octets),
        None => bare(data),
    };
    let packet = packet.octets(&mut check.rng);
    check.try_record(held, &packet)?;
    let number = check.record(held, &packet)?.number;
    require(number == 0, || format!("recording with a timestamp: {number}"))
}

/// Zero octets, all others, and each single bit: kept first, kept over another, by a repeat, and left by DATA without one.
fn renewed(check: &mut Check) -> Step {
    let bits = (0..128).map(|bit| 1u128 << bit);
    for (round, number) in [0, u128::MAX, 1 << 64].into_iter().chain(bits).enumerate() {
        let (octets, code) = (number.to_be_bytes(), (round % 4) as u32);
        let mut held = three(check, code, (round / 4 % 8) as u32);
        let other = timestamp(&mut check.rng);
        for (offset, stamp) in [(20, None), (20, Some(octets)), (22, None), (22, Some(other)), (3, Some(octets))] {
            record(check, &mut held, code, offset, stamp)?;
            let kept = held.table.as_ref().expect("it holds one").transfers[&9].timestamp;
            require(stamp.is_none() || kept == stamp, || "the paper keeps another".to_string())?;
        }
        told(check, &held)?;
        for stamp in [Some([0; 16]), None] {
            record(check, &mut held, code, 3, stamp)?;
            told(check, &held)?;
        }
    }
    Ok(())
}

/// DATA with a timestamp that is refused, in each way, where one is kept and where none is.
fn refused(check: &mut Check) -> Step {
    for kept in 0..8 {
        for &(number, fault) in faults::DATA {
            let mut held = three(check, 1, kept);
            let rng = &mut check.rng;
            let octets = timestamp(rng);
            let mut packet = stamped(recording(rng, 9, 1, 17, 10, false), octets);
            fault(&mut packet, rng);
            let packet = packet.octets(rng);
            let got = check.record(&mut held, &packet)?.number;
            require(got == number, || format!("recording with a timestamp: refusal {number} is expected, not {got}"))?;
        }
        let ways = [(12, 8, 1, 17, false), (13, 9, 2, 17, false), (14, 9, 1, 300, false), (15, 9, 1, 17, true)];
        for (number, id, code, offset, end_of_data) in ways {
            let mut held = three(check, 1, kept);
            let rng = &mut check.rng;
            let octets = timestamp(rng);
            let packet = stamped(recording(rng, id, code, offset, 1, end_of_data), octets).octets(rng);
            let got = check.record(&mut held, &packet)?.number;
            require(got == number, || format!("recording with a timestamp: refusal {number} is expected, not {got}"))?;
            told(check, &held)?;
        }
        let runs: Vec<_> = (0..64).map(|run| (3 * run, 3 * run + 1)).collect();
        let mut table = one(9, 4, 300, &runs);
        table.transfers.get_mut(&9).expect("it is open").timestamp = (kept & 1 == 1).then(|| timestamp(&mut check.rng));
        let mut held = Held::holding(table, &mut check.rng);
        let octets = timestamp(&mut check.rng);
        let packet = stamped(recording(&mut check.rng, 9, 1, 250, 1, false), octets).octets(&mut check.rng);
        let got = check.record(&mut held, &packet)?.number;
        require(got == 16, || format!("recording with a timestamp and 64 runs: {got}"))?;
        told(check, &held)?;
    }
    Ok(())
}

/// Calls that leave every timestamp: "already open", 18, opening and closing others, and recording to others.
fn left(check: &mut Check) -> Step {
    for (kept, code) in (0..8).flat_map(|kept| (0..4).map(move |code| (kept, code))) {
        let mut held = three(check, code, kept);
        for (id, length) in [(9, 300), (9, 301), (8, 50), (10, 50), (3, 50), (40, 50)] {
            let packet = opening(&mut check.rng, File { id, code, length }).octets(&mut check.rng);
            check.open(&mut held, &packet)?;
            told(check, &held)?;
        }
        for id in [3, 8, 10, 40] {
            let octets = timestamp(&mut check.rng);
            let packet = stamped(recording(&mut check.rng, id, code, 3, 1, false), octets).octets(&mut check.rng);
            check.record(&mut held, &packet)?;
        }
        for id in [3, 12, 8, 7, 40, 10] {
            check.close(&mut held, id)?;
            told(check, &held)?;
        }
    }
    Ok(())
}

/// Closed and opened again, at once and after others, in areas with anything in the places that nothing uses: none is kept.
fn forgotten(check: &mut Check) -> Step {
    for (kept, between) in (0..8).flat_map(|kept| [false, true].map(|between| (kept, between))) {
        let mut held = three(check, 2, kept | 2);
        check.close(&mut held, 9)?;
        if between {
            check.close(&mut held, 7)?;
            held = held.changed(&mut check.rng, |area, rng| fill_unused(area, rng));
            let packet = opening(&mut check.rng, File { id: 10, code: 0, length: 9 }).octets(&mut check.rng);
            check.open(&mut held, &packet)?;
        }
        let packet = opening(&mut check.rng, File { id: 9, code: 2, length: 300 }).octets(&mut check.rng);
        check.open(&mut held, &packet)?;
        let found = check.find(&held, 9)?.stamped;
        require(found == 0, || format!("opened again, a transfer is found with stamped {found}"))?;
        told(check, &held)?;
        record(check, &mut held, 2, 4, None)?;
        told(check, &held)?;
    }
    Ok(())
}

/// Numbers for whether a timestamp is kept, at each place: 22 but for 0 and 1.
fn words_judged(check: &mut Check) -> Step {
    let large = [255, 256, 257, 1 << 32, 1 + (1 << 32), 1 << 56, 1 << 63, u64::MAX];
    for number in (0..=40).chain(large) {
        for place in 0..3 {
            let held = three(check, 1, 5);
            let mut held = held.changed(&mut check.rng, |area, _| words::set(area, words::stamped(place), number));
            let got = check.find(&held, 9)?.number;
            require((got == 22) == (number > 1), || format!("{number} for whether a timestamp is kept: {got}"))?;
            check.write_status(&held, Ask { id: 9, skip: 0, unasked: 0 }, 100)?;
            check.transfer(&held, place as u64)?;
            check.transfer_hole(&held, 9, 0)?;
            let packet = recording(&mut check.rng, 9, 1, 7, 1, false).octets(&mut check.rng);
            check.try_record(&held, &packet)?;
            check.record(&mut held, &packet)?;
            let packet = opening(&mut check.rng, File { id: 5, code: 1, length: 9 }).octets(&mut check.rng);
            check.open(&mut held, &packet)?;
            check.close(&mut held, 7)?;
        }
    }
    Ok(())
}
