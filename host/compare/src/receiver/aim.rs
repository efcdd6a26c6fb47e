//! Where to aim a packet so that it matters: at, beside, between and over the runs of a transfer, at the file's ends
//! and past them; and what to ask a STATUS for.

use paper::table::{Table, Transfer};

use crate::receiver::files::{File, MOST_PAYLOAD};
use crate::receiver::Ask;
use crate::rng::Rng;

/// An offset and a payload's length, for a transfer as it stands.
pub fn packet(rng: &mut Rng, transfer: &Transfer) -> (u64, usize) {
    let runs: Vec<(u64, u64)> = transfer.received.runs().collect();
    let most = transfer.length.clamp(1, MOST_PAYLOAD);
    let len = payload_len(rng).min(most);
    let length = transfer.length;
    if runs.is_empty() || rng.one_in(4) {
        let offset = match rng.below(6) {
            0 => 0,
            1 => length.saturating_sub(len),
            2 => length.saturating_sub(len).saturating_add(rng.between(1, 3)),
            3 => rng.number(64),
            _ => rng.between(0, length.saturating_sub(len)),
        };
        return (offset, len as usize);
    }
    let at = rng.place(0, runs.len() - 1);
    let (start, stop) = runs[at];
    let (offset, end) = match rng.below(12) {
        // Right after it, one apart, and right before it, one apart.
        0 | 1 => (stop, stop.saturating_add(len)),
        2 => (stop.saturating_add(1), stop.saturating_add(1 + len)),
        3 => (start.saturating_sub(len), start),
        4 => (start.saturating_sub(len + 1), start.saturating_sub(1)),
        // It again, within it, and over its ends.
        5 => (start, stop),
        6 => {
            let offset = rng.between(start, stop - 1);
            (offset, rng.between(offset + 1, stop))
        }
        7 => (start.saturating_sub(1), stop.saturating_add(1)),
        // To the next run: the gap itself, less than it, and more.
        8 => (stop, runs.get(at + 1).map_or(length, |next| next.0)),
        9 => (stop.saturating_add(1), runs.get(at + 1).map_or(length, |next| next.0.saturating_sub(1))),
        10 => (stop - 1, runs.get(at + 1).map_or(length, |next| next.0.saturating_add(1))),
        // Over several runs.
        _ => {
            let (_, end) = runs[rng.place(at, runs.len() - 1)];
            (start.saturating_sub(rng.below(3)), end.saturating_add(rng.below(3)))
        }
    };
    let wanted = end.saturating_sub(offset).clamp(1, MOST_PAYLOAD);
    (offset, wanted as usize)
}

fn payload_len(rng: &mut Rng) -> u64 {
    match rng.below(60) {
        0 => rng.between(1, MOST_PAYLOAD),
        1..=3 => rng.between(100, 2_000),
        4..=14 => rng.between(3, 60),
        15..=24 => 2,
        _ => 1,
    }
}

/// Whether to set end of data: rightly half of the time, wrongly now and then.
pub fn end_of_data(rng: &mut Rng, length: u64, offset: u64, len: usize) -> bool {
    match offset.checked_add(len as u64) == Some(length) {
        true => rng.one_in(2),
        false => rng.one_in(12),
    }
}

/// An Id that is open, or now and then one that isn't, or one over 32 bits.
pub fn id(rng: &mut Rng, table: &Table, files: &[File]) -> u64 {
    let open: Vec<u64> = table.transfers.keys().copied().collect();
    match rng.below(20) {
        0 => rng.number(64),
        1 => u64::from(rng.pick(files).id) + (1 << 32),
        2 => u64::from(rng.pick(files).id),
        _ if open.is_empty() => u64::from(rng.pick(files).id),
        _ => rng.pick(&open),
    }
}

/// A STATUS to ask for, with room around what matters.
pub fn status(rng: &mut Rng, table: &Table, id: u64) -> (Ask, usize) {
    let (holes, d, stamp) = table.transfers.get(&id).map_or((0, 2, 0), |transfer| {
        (transfer.received.holes().len(), transfer.width, if transfer.timestamp.is_some() { 16 } else { 0 })
    });
    let skip = match rng.below(12) {
        0..=4 => 0,
        5 => holes.saturating_sub(1) as u64,
        6 => holes as u64,
        7 => holes as u64 + 1,
        8 => 1,
        9 => rng.number(64),
        _ => rng.between(0, holes as u64),
    };
    let left = holes.saturating_sub(skip.min(64) as usize);
    let bare = |written: usize| 8 + 2 * d + 2 * d * written;
    let size = |written: usize| stamp + bare(written);
    let room = match rng.below(12) {
        0 => rng.pick(&[0, 1, 7, 8]),
        1 => size(0) - 1,
        2 => size(0),
        3 => size(1) - 1,
        4 => size(1),
        5 => size(left),
        6 => size(left) - 1,
        7 => size(left.saturating_sub(1)),
        8 => rng.place(0, size(left) + 40),
        // As if there were no timestamp, and as if there were one.
        9 => bare(rng.pick(&[0, 1, left])) + rng.pick(&[0, 15, 16]),
        10 => bare(rng.pick(&[0, 1, left])) - 1 + rng.pick(&[0, 16]),
        _ => 2_104 + rng.place(0, 40),
    };
    let unasked = rng.pick(&[0, 0, 0, 1, 1, 2, 1 << 32, u64::MAX]);
    (Ask { id, skip, unasked }, room)
}

/// An index for listing.
pub fn index(rng: &mut Rng, table: &Table) -> u64 {
    let count = table.transfers.len() as u64;
    match rng.below(8) {
        0 => count,
        1 => rng.number(64),
        2 => rng.pick(&[16, 17, 1 << 32, 1 << 60, 1 << 61]),
        _ => rng.between(0, count),
    }
}
