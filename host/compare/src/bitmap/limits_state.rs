//! Marks and transfers that don't go together, from both sides of each limit, and the order in which that is told.

use crate::answer::Bitmap;
use crate::bitmap::held::{set, Marked};
use crate::bitmap::limits::transfer;
use crate::check::{require, Check, Step};
use crate::faults;
use crate::packets::{with_width, Ending, CRC32C};
use crate::receiver::files::{opening, recording, File};

/// All of it.
pub fn run(check: &mut Check) -> Step {
    areas(check)?;
    ids(check)?;
    opening_order(check)?;
    status_order(check)?;
    recording_order(check)?;
    widths_and_lengths(check)?;
    marks_above(check)?;
    numbers_of_runs(check)
}

/// Areas of each length around enough, with a transfer that is right or wrong.
fn areas(check: &mut Check) -> Step {
    for len in [0, 1, 2, 8, 4_096, 8_184, 8_190, 8_191, 8_192, 8_193, 8_200] {
        for width in [2, 3] {
            let rng = &mut check.rng;
            let mut marked = Marked::of(transfer(width, 300), &vec![0; len], rng);
            let (metadata, data) =
                (opening(rng, File { id: 9, code: 0, length: 300 }), recording(rng, 9, 0, 3, 5, false));
            let (metadata, data) = (metadata.octets(rng), data.octets(rng));
            check.bitmap_record(&mut marked, &data)?;
            check.bitmap_record(&mut marked, &data[..7])?;
            check.bitmap_status(&marked, 0, 0, 100)?;
            check.bitmap_status(&marked, 9, 0, 0)?;
            check.bitmap_open(&mut marked, &data)?;
            check.bitmap_open(&mut marked, &metadata)?;
        }
    }
    Ok(())
}

/// Ids of the packet and of the transfer: equal, different in one bit, and over 32 bits.
fn ids(check: &mut Check) -> Step {
    for id in (0..64).map(|bit| 9 ^ 1 << bit).chain([9, 0, u64::from(u32::MAX), 1 << 32, u64::MAX]) {
        let mut marked = Marked::with_runs(Bitmap::new(id, 2, 300), [(2, 4)], &mut check.rng);
        let packet = recording(&mut check.rng, 9, 0, 3, 5, false).octets(&mut check.rng);
        let number = check.bitmap_record(&mut marked, &packet)?.recorded.number;
        require(number == if id == 9 { 0 } else { 12 }, || format!("DATA of Id 9 for Id {id:#x}: {number}"))?;
        let number = check.bitmap_status(&marked, 0, 0, 100)?.number;
        require(number == if id >> 32 == 0 { 0 } else { 12 }, || format!("STATUS of Id {id:#x}: {number}"))?;
    }
    Ok(())
}

/// All faults of opening together in each choice of them: 20, the reader's, 9, 23.
fn opening_order(check: &mut Check) -> Step {
    for choice in 0..64u32 {
        let is = |bit: u32| choice >> bit & 1 != 0;
        let rng = &mut check.rng;
        let mut packet = opening(rng, File { id: 9, code: 3, length: if is(1) { 65_536 } else { 65_535 } });
        if is(2) {
            packet.close.clear();
        }
        if is(3) {
            packet.start.flags |= 1 << (31 - 11);
        }
        if is(4) {
            packet.start.first = 0x43;
        }
        if is(5) {
            packet.set_pair(CRC32C, rng);
        }
        let packet = packet.octets(rng);
        let mut marked = Marked::of(transfer(2, 5), &vec![0xFF; if is(0) { 8_191 } else { 8_192 }], rng);
        let number = check.bitmap_open(&mut marked, &packet)?.number;
        let faults = [(20, is(0)), (4, is(4)), (6, is(3)), (1, is(2)), (9, is(1)), (23, is(5))];
        let want = faults.iter().find(|(_, there)| *there).map_or(0, |&(number, _)| number);
        require(number == want, || format!("opening with the faults {choice:#b}: {want} is expected, not {number}"))?;
    }
    Ok(())
}

/// All faults of STATUS together in each choice of them: 20, 22, 12, 19, 20.
fn status_order(check: &mut Check) -> Step {
    for choice in 0..32u32 {
        let is = |bit: u32| choice >> bit & 1 != 0;
        let rng = &mut check.rng;
        let marked = Marked::with_runs(transfer(4, 300), [(2, 4), (9, 11)], rng);
        let marked = marked.changed(rng, |transfer, octets, _| {
            if is(0) {
                octets.truncate(8_191);
            }
            if is(1) {
                transfer.length = 10;
            }
            if is(2) {
                transfer.id += 1 << 32;
            }
        });
        check.bitmap_status(&marked, if is(3) { 2 } else { 1 }, 0, if is(4) { 15 } else { 100 })?;
    }
    Ok(())
}

/// All faults of recording together in each choice of them: 20, 22, the reader's, 12, 13, 14, 15, 16.
fn recording_order(check: &mut Check) -> Step {
    for choice in 0..2_048u32 {
        let is = |bit: u32| choice >> bit & 1 != 0;
        let rng = &mut check.rng;
        let runs = (0..if is(10) { 3 } else { 64 }).map(|run| (10 * run, 10 * run + 5));
        let marked = Marked::with_runs(transfer(2, 3_000), runs, rng);
        let wrong = rng.below(4);
        let mut marked = marked.changed(rng, |transfer, octets, _| {
            match (is(1), wrong) {
                (false, _) => {}
                (true, 0) => transfer.width = 3,
                (true, 1) => transfer.length = 65_536,
                (true, 2) => set(octets, [3_000]),
                (true, _) => set(octets, (1_000..1_200).step_by(2)),
            }
            if is(0) {
                octets.truncate(8_191);
            }
        });
        let (id, code) = (if is(2) { 10 } else { 9 }, if is(3) { 1 } else { 0 });
        let offset = if is(4) { 2_999 } else { 2_000 };
        let mut packet = recording(rng, id, code, offset, 2, is(5));
        if is(6) {
            packet.payload.clear();
        }
        if is(7) {
            packet.start.flags |= 1 << (31 - 11);
        }
        if is(8) {
            packet.ending = Ending::Cut(9);
        }
        if is(9) {
            packet.start.flags = with_width(packet.start.flags, 3);
            packet.upper = faults::upper(rng, 0);
        }
        let packet = packet.octets(rng);
        check.bitmap_record(&mut marked, &packet)?;
    }
    Ok(())
}

/// Recording and STATUS on this state: both 22 or neither.
fn judged(check: &mut Check, marked: &Marked, refused: bool, what: &str) -> Step {
    let code = (marked.transfer.width.clamp(2, 16).ilog2() - 1).min(3);
    let packet = recording(&mut check.rng, 9, code, 0, 1, false).octets(&mut check.rng);
    let recorded = check.bitmap_record(&mut marked.clone(), &packet)?.recorded.number;
    let written = check.bitmap_status(marked, 0, 0, 2_110)?.number;
    let as_wanted = |number: u64| (number == 22) == refused;
    require(as_wanted(recorded) && as_wanted(written), || format!("{what}: {recorded} and {written}"))
}

/// Every number up to 40 as a width, and some larger; and lengths around the longest.
fn widths_and_lengths(check: &mut Check) -> Step {
    for width in (0..=40).chain([64, 128, 2 + (1 << 32), 4 + (1 << 63), u64::MAX]) {
        for length in [0, 1, 300, 65_534, 65_535, 65_536, 65_537, 1 << 32, 300 + (1 << 32), u64::MAX] {
            let marked = Marked::with_runs(transfer(width, length), [], &mut check.rng);
            let taken = [2, 4, 8, 16].contains(&width) && length <= 65_535;
            judged(check, &marked, !taken, &format!("width {width}, length {length}"))?;
        }
    }
    Ok(())
}

/// Single marks below, at and above each length, and with others below it.
fn marks_above(check: &mut Check) -> Step {
    for length in [0, 1, 5, 7, 8, 9, 63, 64, 65, 3_000, 65_527, 65_528, 65_529, 65_534, 65_535] {
        let above = [0, 1, 2, 7, 8, 9, 63, 64, 65].map(|by| length + by);
        for mark in above.into_iter().chain([65_527, 65_528, 65_534, 65_535]).filter(|&mark| mark < 65_536) {
            for below in [false, true] {
                let runs = (below && length > 2).then(|| (0, length - 1));
                let marked = Marked::with_runs(transfer(4, length), runs, &mut check.rng);
                let marked = marked.changed(&mut check.rng, |_, octets, _| set(octets, [mark]));
                judged(check, &marked, mark >= length, &format!("mark {mark} of a transfer of {length}"))?;
            }
        }
        for back in (1..=length).take(10) {
            let marked = Marked::with_runs(transfer(4, length), [(length - back, length)], &mut check.rng);
            judged(check, &marked, false, &format!("marks up to the last of {length}"))?;
        }
    }
    Ok(())
}

/// 63 to 66 runs and many more, one mark apart or more, at the start, inside and up to the last octet.
fn numbers_of_runs(check: &mut Check) -> Step {
    for count in [63, 64, 65, 66, 1_000] {
        for gap in [2, 3, 8, 9, 16, 64] {
            let last = 65_534 - (count - 1) * gap;
            for from in [0, 1, 7, 8, 300, last - 7, last - 1, last] {
                let runs = (0..count).map(|run| from + run * gap).map(|start| (start, start + 1));
                let marked = Marked::with_runs(transfer(8, 65_535), runs, &mut check.rng);
                judged(check, &marked, count > 64, &format!("{count} runs from {from} on, each {gap} after the last"))?;
            }
        }
    }
    Ok(())
}
