//! Random pairs of areas: tables with some of the same files, received in parts that overlap, touch and interleave, with equal keys
//! and others, and damaged areas between them.

use std::mem::swap;

use paper::received::Received;
use paper::table::{Table, Transfer, MAX_RUNS};

use crate::check::{Check, Step};
use crate::merge::laws;
use crate::receiver::files::{file, files, kept, received, File};
use crate::receiver::held::Held;
use crate::receiver::pass::recording_packet;
use crate::receiver::{aim, damage};
use crate::rng::Rng;

/// One case, of some or many calls.
pub fn case(check: &mut Check) -> Step {
    match check.rng.one_in(5) {
        true => laws::trial(check),
        false => pair(check),
    }
}

/// Two areas, merged in either direction a few times, with packets recorded between.
fn pair(check: &mut Check) -> Step {
    let count = check.rng.pick(&[1, 1, 2, 3, 5, 16]);
    let files = files(&mut check.rng, count);
    let (one, other) = tables(&mut check.rng, &files);
    let mut first = Held::holding(one, &mut check.rng);
    let mut second = Held::holding(other, &mut check.rng);
    for _ in 0..check.rng.between(1, 10) {
        let rng = &mut check.rng;
        let table = first.table.as_ref().expect("it holds one");
        let id = aim::id(rng, table, &files);
        match rng.below(16) {
            0 | 1 => {
                let mut damaged = first.changed(rng, damage::any);
                check.merge(&mut damaged, &mut second, id)?;
            }
            2 | 3 => {
                let mut damaged = second.changed(rng, damage::any);
                check.merge(&mut first, &mut damaged, id)?;
            }
            4 => {
                let (mut first, mut second) = (first.changed(rng, damage::any), second.changed(rng, damage::any));
                check.merge(&mut first, &mut second, id)?;
            }
            5 => {
                let packet = recording_packet(rng, table, &files);
                check.record(&mut first, &packet)?;
            }
            6 => swap(&mut first, &mut second),
            7 => {
                let (ask, room) = aim::status(rng, table, id);
                check.write_status(&first, ask, room)?;
            }
            _ => drop(check.merge(&mut first, &mut second, id)?),
        }
    }
    Ok(())
}

/// Two tables with most of these files open, now and then under another key in the second.
pub fn tables(rng: &mut Rng, files: &[File]) -> (Table, Table) {
    let (mut one, mut other) = (Table::default(), Table::default());
    for &planned in files {
        let (of_one, of_other) = sets(rng, planned.length);
        let id = u64::from(planned.id);
        if !rng.one_in(12) {
            one.transfers.insert(id, transfer(rng, planned, of_one));
        }
        match rng.below(24) {
            0 => {}
            1 => drop(other.transfers.insert(id, otherwise(rng, planned))),
            2 | 3 => {
                let key = other_key(rng, planned);
                let fits = of_other.edge() <= key.length;
                let of_other = if fits { of_other } else { received(rng, key.length, 0) };
                other.transfers.insert(id, transfer(rng, key, of_other));
            }
            _ => drop(other.transfers.insert(id, transfer(rng, planned, of_other))),
        }
    }
    (one, other)
}

fn transfer(rng: &mut Rng, file: File, received: Received) -> Transfer {
    Transfer { width: 2 << file.code, length: file.length, received, timestamp: kept(rng) }
}

/// Another file under the Id.
fn otherwise(rng: &mut Rng, planned: File) -> Transfer {
    let file = file(rng, planned.id);
    let (_, received) = sets(rng, file.length);
    transfer(rng, file, received)
}

/// A key that differs by a little: the width, the length, or both.
fn other_key(rng: &mut Rng, planned: File) -> File {
    let wider = File { code: planned.code + 1, ..planned };
    let shorter = File { length: planned.length.saturating_sub(1), ..planned };
    match rng.below(3) {
        0 if planned.code < 3 => wider,
        1 if planned.code < 3 => File { length: planned.length.saturating_add(1), ..wider },
        _ => shorter,
    }
}

/// Two sets whose joined set has any number of runs, up to 128: each of its runs is in one of them, in both, or in parts in both.
pub fn sets(rng: &mut Rng, length: u64) -> (Received, Received) {
    let most = length.div_ceil(2).min(2 * MAX_RUNS as u64) as usize;
    let some = rng.place(0, most);
    let count = rng.pick(&[0, 1, 2, 3, 10, 30, 58, 63, 64, 64, 64, 65, 65, 66, 100, 128, some]).min(most);
    let mut sides = [Received::default(), Received::default()];
    let way = rng.below(9);
    for (start, stop) in received(rng, length, count).runs() {
        let parted = if way == 8 { rng.below(8) } else { way };
        for (side, start, stop) in parts(rng, parted, start, stop) {
            let mut more = sides[side].clone();
            more.add(start, stop);
            if more.run_count() <= MAX_RUNS {
                sides[side] = more;
            }
        }
    }
    if rng.one_in(2) {
        sides.swap(0, 1);
    }
    sides.into()
}

/// One run of the joined set, in parts of either side.
fn parts(rng: &mut Rng, way: u64, start: u64, stop: u64) -> Vec<(usize, u64, u64)> {
    let side = rng.place(0, 1);
    let middle = rng.between(start, stop);
    let whole = (side, start, stop);
    let cut = |side, from, to| (from < to).then_some((side, from, to));
    match way {
        // On one side, on both, and on the second alone where the first has few.
        0 | 1 => vec![whole],
        2 => vec![(0, start, stop), (1, start, stop)],
        // In two that touch, and in two that overlap.
        3 => [cut(side, start, middle), cut(1 - side, middle, stop)].into_iter().flatten().collect(),
        4 => {
            let (low, high) = (rng.between(start, middle), rng.between(middle, stop));
            [cut(side, start, high), cut(1 - side, low, stop)].into_iter().flatten().collect()
        }
        // Whole on one side, and in pieces on the other; in turns; and both in pieces.
        5 => [whole].into_iter().chain(pieces(rng, start, stop, 2).map(|(from, to)| (1 - side, from, to))).collect(),
        6 => pieces(rng, start, stop, 1).enumerate().map(|(at, (from, to))| (at % 2, from, to)).collect(),
        _ => pieces(rng, start, stop, 1).map(|(from, to)| (from as usize % 2, from, to)).collect(),
    }
}

/// Pieces of one to three octets, or of a like part of a long run: all of them, or each second one.
fn pieces(rng: &mut Rng, start: u64, stop: u64, every: usize) -> impl Iterator<Item = (u64, u64)> {
    let size = rng.between(1, 3).max((stop - start) / 50);
    let count = (stop - start).div_ceil(size).min(100);
    let piece = move |at: u64| (start + at * size, stop.min((start + at * size).saturating_add(size)));
    (0..count).map(piece).step_by(every)
}
