//! The limits of opening, recording and STATUS with marks from both sides; nothing is wrong with marks or transfers here.

use crate::answer::Bitmap;
use crate::bitmap::held::Marked;
use crate::check::{require, Check, Step};
use crate::faults;
use crate::packets::{allowed_pairs, last, with_entry_width, Beacon, Metadata, CRC32C};
use crate::receiver::files::{self, opening, recording, timestamp, File};

/// All of it.
pub fn run(check: &mut Check) -> Step {
    packet_faults(check)?;
    lengths(check)?;
    checksums(check)?;
    openings_anew(check)?;
    places(check)?;
    small_sets(check)?;
    many_runs(check)?;
    last_octets(check)?;
    ends_of_numbers(check)?;
    statuses(check)?;
    timestamps(check)
}

/// A transfer with Id 9.
pub fn transfer(width: u64, length: u64) -> Bitmap {
    Bitmap::new(9, width, length)
}

/// Each fault of a packet alone, with the number that it brings; and a BEACON, cut at each length.
fn packet_faults(check: &mut Check) -> Step {
    for &(number, fault) in faults::METADATA {
        for _ in 0..10 {
            let rng = &mut check.rng;
            let mut packet = opening(rng, File { id: 9, code: 1, length: 300 });
            fault(&mut packet, rng);
            let packet = packet.octets(rng);
            let mut marked = Marked::with_runs(transfer(4, 300), [(3, 5)], rng);
            let got = check.bitmap_open(&mut marked, &packet)?.number;
            require(got == number, || format!("opening with marks: refusal {number} is expected, not {got}"))?;
            longer(check, fault, number)?;
        }
    }
    for &(number, fault) in faults::DATA {
        for _ in 0..10 {
            let rng = &mut check.rng;
            let mut packet = recording(rng, 9, 1, 17, 10, false);
            fault(&mut packet, rng);
            let packet = packet.octets(rng);
            let mut marked = Marked::with_runs(transfer(4, 300), [(3, 5)], rng);
            let got = check.bitmap_record(&mut marked, &packet)?.recorded.number;
            require(got == number, || format!("recording with marks: refusal {number} is expected, not {got}"))?;
        }
    }
    let mut marked = Marked::with_runs(transfer(4, 300), [(3, 5)], &mut check.rng);
    for len in 0..=12 {
        let mut packet = Beacon::valid(&mut check.rng).octets(&mut check.rng);
        packet.resize(len, 0);
        check.bitmap_record(&mut marked, &packet)?;
        check.bitmap_open(&mut marked, &packet)?;
    }
    Ok(())
}

/// The same fault in METADATA of a file that is too long: the reader's refusals come before that 9.
fn longer(check: &mut Check, fault: fn(&mut Metadata, &mut crate::rng::Rng), number: u64) -> Step {
    let rng = &mut check.rng;
    let mut packet = opening(rng, File { id: 9, code: 3, length: 65_536 });
    packet.properties = with_entry_width(packet.properties, 2);
    fault(&mut packet, rng);
    let packet = packet.octets(rng);
    let mut marked = Marked::random(rng);
    let got = check.bitmap_open(&mut marked, &packet)?.number;
    require(got == number, || format!("opening a long file with marks: refusal {number} is expected, not {got}"))
}

/// Every length at a limit, at each width and in each size of the entry: opened, recorded to, and told of.
fn lengths(check: &mut Check) -> Step {
    let lengths = [0, 1, 2, 7, 8, 9, 64, 0xFFF7, 0xFFF8, 0xFFFE, 0xFFFF, 0x1_0000, 0xFFFF_FFFF, 1 << 32, u64::MAX];
    for (code, length) in (0..4).flat_map(|code| lengths.map(|length| (code, length))) {
        let mut marked = Marked::random(&mut check.rng);
        let packet = opening(&mut check.rng, File { id: 9, code, length }).octets(&mut check.rng);
        let number = check.bitmap_open(&mut marked, &packet)?.number;
        require(number == if length <= 65_535 { 0 } else { 9 }, || format!("opening with length {length}: {number}"))?;
        for offset in [0, length.saturating_sub(2), length.saturating_sub(1), length, length.saturating_add(1)] {
            for end_of_data in [false, true] {
                let packet = recording(&mut check.rng, 9, code, offset, 1, end_of_data).octets(&mut check.rng);
                check.bitmap_record(&mut marked, &packet)?;
            }
            check.bitmap_status(&marked, 0, 0, 100)?;
        }
        if (1..=65_535).contains(&length) {
            for (offset, len) in [(0, length.min(60_000)), (length.min(60_000), length.saturating_sub(60_000))] {
                let packet = recording(&mut check.rng, 9, code, offset, len.max(1) as usize, false);
                let packet = packet.octets(&mut check.rng);
                check.bitmap_record(&mut marked, &packet)?;
            }
            check.bitmap_status(&marked, 0, 0, 100)?;
        }
    }
    Ok(())
}

/// Every pair of checksum type and words that is read, over marks of the same transfer and of one with the Id and another length:
/// type 1 is refused, and no other, and 9 comes before it.
fn checksums(check: &mut Check) -> Step {
    for (pair, length) in allowed_pairs().flat_map(|pair| [0, 300, 301, 65_535, 65_536].map(|length| (pair, length))) {
        let rng = &mut check.rng;
        let mut marked = Marked::with_runs(transfer(4, 300), [(3, 5)], rng);
        let mut packet = opening(rng, File { id: 9, code: 1, length });
        packet.set_pair(pair, rng);
        let packet = packet.octets(rng);
        let number = check.bitmap_open(&mut marked, &packet)?.number;
        let want = match pair {
            _ if length > 65_535 => 9,
            CRC32C => 23,
            _ => 0,
        };
        require(number == want, || format!("opening length {length} with the checksum pair {pair:#x}: {number}"))?;
    }
    Ok(())
}

/// Opening over marks of each kind, some of which no recording takes: it always starts anew. Refused, it leaves them.
fn openings_anew(check: &mut Check) -> Step {
    for octet in [0x00, 0x01, 0x80, 0xAA, 0xFF] {
        for len in [8_192, 8_193, 8_292] {
            for length in [0, 1, 100, 60_000, 65_535, 65_536] {
                let rng = &mut check.rng;
                let mut marked = Marked::of(transfer(3, u64::MAX), &vec![octet; len], rng);
                let code = rng.between(1, 3) as u32;
                let packet = opening(rng, File { id: 9, code, length }).octets(rng);
                check.bitmap_open(&mut marked, &packet)?;
                check.bitmap_open(&mut marked, &packet[..packet.len() - 1])?;
            }
        }
    }
    Ok(())
}

/// Single marks and short stretches at each place of the first octets, around each border of words far inside, and at the end;
/// then the same again.
fn places(check: &mut Check) -> Step {
    for base in [0, 8, 56, 64, 1_000, 4_096, 32_760, 65_460, 65_504] {
        for (by, len) in (0..20).flat_map(|by| [1, 2, 7, 8, 9, 16, 65].map(|len| (by, len))) {
            let mut marked = Marked::with_runs(transfer(4, 65_535), [(base + 3, base + 5)], &mut check.rng);
            let packet = recording(&mut check.rng, 9, 1, base + by, len, false).octets(&mut check.rng);
            check.bitmap_record(&mut marked, &packet)?;
            check.bitmap_record(&mut marked, &packet)?;
            check.bitmap_status(&marked, 0, 0, 60)?;
        }
    }
    Ok(())
}

/// Every set of marks in a file of 5 octets, and every packet for it.
fn small_sets(check: &mut Check) -> Step {
    for set in 0..32u64 {
        let runs = (0..5).filter(|&offset| set >> offset & 1 == 1).map(|offset| (offset, offset + 1));
        let marked = Marked::with_runs(transfer(2, 5), runs, &mut check.rng);
        for (offset, len) in (0..7).flat_map(|offset| (1..7).map(move |len| (offset, len))) {
            let end_of_data = check.rng.one_in(2);
            let packet = recording(&mut check.rng, 9, 0, offset, len, end_of_data).octets(&mut check.rng);
            check.bitmap_record(&mut marked.clone(), &packet)?;
        }
        for (skip, room) in (0..4).flat_map(|skip| (6..26).map(move |room| (skip, room))) {
            check.bitmap_status(&marked, skip, 0, room)?;
        }
    }
    Ok(())
}

/// 62 to 64 runs with gaps of 1, 2 or 7 octets, from offset 0 or not, up to the last octet or not, and short packets for them.
fn many_runs(check: &mut Check) -> Step {
    for (count, gap, base) in [(64, 1, 0), (64, 2, 65_535 - 190), (63, 7, 5), (62, 1, 3), (64, 7, 65_535 - 505)] {
        let runs = (0..count).map(|run| base + run * (gap + 1)).map(|start| (start, start + 1));
        let marked = Marked::with_runs(transfer(4, 65_535), runs, &mut check.rng);
        let offsets = [0, 1, 2, 3].into_iter().chain(base.saturating_sub(3)..base + 20);
        for offset in offsets.chain(base + count * (gap + 1) - 20..(base + count * (gap + 1) + 4).min(65_534)) {
            for len in [1, 2, 3, 8] {
                let packet = recording(&mut check.rng, 9, 1, offset, len, false).octets(&mut check.rng);
                check.bitmap_record(&mut marked.clone(), &packet)?;
            }
        }
        for len in [100, 505, 600, 60_000] {
            let packet = recording(&mut check.rng, 9, 1, base.min(5_535), len, false).octets(&mut check.rng);
            check.bitmap_record(&mut marked.clone(), &packet)?;
        }
    }
    Ok(())
}

/// Runs in the last two octets of the marks, of the longest file: recorded, and held already.
fn last_octets(check: &mut Check) -> Step {
    for (start, stop) in (65_519..65_535).flat_map(|start| [(start, start + 1), (start, 65_535)]) {
        let len = (stop - start) as usize;
        let mut held = Marked::with_runs(transfer(2, 65_535), [(start, stop)], &mut check.rng);
        let mut new = Marked::with_runs(transfer(2, 65_535), [], &mut check.rng);
        let packet = recording(&mut check.rng, 9, 0, start, len, stop == 65_535).octets(&mut check.rng);
        check.bitmap_record(&mut new, &packet)?;
        for marked in [&mut held, &mut new] {
            check.bitmap_status(marked, 0, 0, 99)?;
            check.bitmap_record(marked, &packet)?;
            let packet = recording(&mut check.rng, 9, 0, 65_517, 2, false).octets(&mut check.rng);
            check.bitmap_record(marked, &packet)?;
            check.bitmap_status(marked, 0, 0, 99)?;
        }
    }
    Ok(())
}

/// Offsets and payloads at the ends of each width, where a sum could wrap.
fn ends_of_numbers(check: &mut Check) -> Step {
    for code in 0..4 {
        for length in [65_535, 65_534, 65_528, 1_000] {
            let marked = Marked::with_runs(transfer(2 << code, length), [(length - 1, length)], &mut check.rng);
            for (from, back) in [length, last(2 << code)].into_iter().flat_map(|from| (0..4).map(move |by| (from, by)))
            {
                for len in [1, 2, 3, 4, 65_000] {
                    let end_of_data = check.rng.one_in(2);
                    let packet = recording(&mut check.rng, 9, code, from - back, len, end_of_data);
                    let packet = packet.octets(&mut check.rng);
                    check.bitmap_record(&mut marked.clone(), &packet)?;
                }
            }
        }
    }
    Ok(())
}

/// Every k and the rooms at a limit, at each width, with and without a timestamp, for transfers with no hole up to 64.
fn statuses(check: &mut Check) -> Step {
    for (code, stamp) in (0..4).flat_map(|code| [(code, 0), (code, 16)]) {
        let d = 2usize << code;
        for holes in [0, 1, 2, 3, 63, 64] {
            let runs: Vec<_> = match holes {
                0 => vec![(0, check.rng.pick(&[7, 200]))],
                _ => (0..holes).map(|hole| (3 * hole + 1, 3 * hole + 2)).collect(),
            };
            let kept = (stamp > 0).then(|| timestamp(&mut check.rng));
            let marked = Marked::with_runs(transfer(d as u64, 200).keeping(kept), runs, &mut check.rng);
            for skip in (0..=holes + 2).chain([1 << 32, 1 << 62, u64::MAX]) {
                if holes > 10 && skip > 2 && skip < holes - 1 && !check.rng.one_in(16) {
                    continue;
                }
                let left = holes.saturating_sub(skip) as usize;
                for written in [0, 1, 2, left / 2, left.saturating_sub(1), left, left + 1] {
                    let size = 8 + stamp + 2 * d + 2 * d * written;
                    for room in [size - 1, size] {
                        let unasked = check.rng.pick(&[0, 1, 2, u64::MAX]);
                        check.bitmap_status(&marked, skip, unasked, room)?;
                    }
                }
                for room in [0, 7, 8, 9, 8 + 2 * d, 24 + 2 * d - 1, 24 + 2 * d, 24 + 4 * d - 1] {
                    check.bitmap_status(&marked, skip, 0, room)?;
                }
            }
        }
    }
    Ok(())
}

/// Timestamps in the record: each number for yes with halves of each kind, and DATA with one, without one, again and refused.
fn timestamps(check: &mut Check) -> Step {
    let numbers = [0, 1, 2, 3, 255, 256, 1 << 32, 1 + (1 << 32), 1 << 63, u64::MAX];
    let halves = [0, 1, 0x0102_0304_0506_0708, 1 << 63, u64::MAX];
    for (is, (high, low)) in numbers.into_iter().flat_map(|is| halves.map(|high| (is, (high, halves[2] ^ high)))) {
        for code in 0..4 {
            let transfer = Bitmap { stamped: is, stamp_high: high, stamp_low: low, ..transfer(2 << code, 300) };
            let marked = Marked::with_runs(transfer, [(3, 5)], &mut check.rng);
            for (offset, stamped) in [(3, false), (3, true), (20, false), (20, true), (300, true)] {
                let mut marked = marked.clone();
                let rng = &mut check.rng;
                let octets = timestamp(rng);
                let packet = recording(rng, 9, code, offset, 1, false);
                let packet = if stamped { files::stamped(packet, octets) } else { files::bare(packet) };
                let packet = packet.octets(rng);
                let recorded = check.bitmap_record(&mut marked, &packet)?;
                let kept = recorded.recorded.number == 0 && (stamped || is != 0);
                require(recorded.transfer.stamped == u64::from(kept), || {
                    format!("handed back with stamped {:#x}", recorded.transfer.stamped)
                })?;
                for room in [8 + 4 * (2 << code), 24 + 4 * (2 << code), 100] {
                    check.bitmap_status(&marked, 0, 0, room)?;
                }
            }
        }
    }
    for bit in 0..128 {
        let mut marked = Marked::with_runs(transfer(2, 300), [(3, 5)], &mut check.rng);
        let packet = recording(&mut check.rng, 9, 0, 4, 1, false);
        let packet = files::stamped(packet, (1u128 << bit).to_be_bytes()).octets(&mut check.rng);
        check.bitmap_record(&mut marked, &packet)?;
        check.bitmap_status(&marked, 0, 0, 100)?;
    }
    Ok(())
}
