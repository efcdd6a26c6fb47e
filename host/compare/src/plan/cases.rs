//! The random part of a run: plans of valid STATUS packets and lists bent from them, and refusals.

use crate::answer::Piece;
use crate::check::{require, Check, Step};
use crate::packets::{last, Status};
use crate::plan::bend::Job;
use crate::random::{flip, spoiled_packet, valid_packet};
use crate::rng::Rng;

/// One case, of some calls.
pub fn case(check: &mut Check) -> Step {
    match check.rng.below(20) {
        0 | 1 => refusals(check),
        2 | 3 => long_holes(check),
        _ => {
            let job = short_holes(&mut check.rng);
            plans(check, &job)?;
            bent_lists(check, &job)
        }
    }
}

/// A largest payload: an end of its range, small, or any.
fn largest(rng: &mut Rng) -> u64 {
    match rng.below(8) {
        0 => 1,
        1 => 65_000,
        2 => rng.pick(&[64_999, 1_000, 1_024]),
        3 => rng.between(1, 65_000),
        _ => rng.between(1, 12),
    }
}

/// A STATUS with holes of a few pieces each, at the low end of its numbers, at their high end, or between.
fn short_holes(rng: &mut Rng) -> Job {
    let code = rng.below(4) as u32;
    let top = last(2 << code);
    let largest = largest(rng);
    let count = match rng.below(60) {
        0 => 64,
        1 => rng.place(10, 300),
        _ => rng.place(0, 6),
    };
    let mut holes: Vec<(u64, u64)> = vec![];
    let mut next = rng.below(3);
    for _ in 0..count {
        let pieces = rng.between(1, 4);
        let length = match rng.below(4) {
            0 => pieces * largest,
            1 => pieces * largest + 1,
            2 => (pieces * largest - 1).max(1),
            _ => rng.between(1, pieces * largest),
        };
        if next >= top || length > top - next {
            break;
        }
        holes.push((next, next + length));
        next = (next + length).saturating_add(if rng.one_in(2) { 1 } else { rng.between(1, 2 * largest) });
    }
    let end = holes.last().map_or(0, |hole| hole.1);
    let up = match rng.below(4) {
        0 => 0,
        1 => top - end,
        2 => (top - end).saturating_sub(1),
        _ => rng.between(0, top - end),
    };
    holes.iter_mut().for_each(|hole| *hole = (hole.0 + up, hole.1 + up));
    let packet = Status::of_holes(rng, code, holes.clone()).octets(rng);
    Job { packet, holes, largest }
}

/// Plans into more and fewer records; each passes the check.
fn plans(check: &mut Check, job: &Job) -> Step {
    let count = check.plan_count(&job.packet, job.largest)?.count as usize;
    let room = check.rng.pick(&[count, count, count + 1, count + 7, count.saturating_sub(1), count / 2, 0]);
    let (planned, plan) = check.plan(&job.packet, job.largest, room)?;
    let enough = room >= count;
    require((planned.number, plan.len()) == if enough { (0, count) } else { (20, 0) }, || {
        format!("{planned:?} from {room} records where {count} are needed")
    })?;
    if enough {
        passes(check, job, &plan)?;
    }
    Ok(())
}

/// "Its plans always pass", and so do good lists.
fn passes(check: &mut Check, job: &Job, list: &[Piece]) -> Step {
    let checked = check.check_plan(&job.packet, job.largest, list)?;
    require(checked.passes == 1, || format!("{checked:?} of a good list"))
}

/// A good list, and what is bent from it, once or more.
fn bent_lists(check: &mut Check, job: &Job) -> Step {
    let good = job.good_list(&mut check.rng);
    passes(check, job, &good)?;
    for _ in 0..6 {
        let mut list = good.clone();
        for _ in 0..check.rng.pick(&[1, 1, 1, 2, 3]) {
            job.bend(&mut list, &mut check.rng);
        }
        let largest = match check.rng.below(12) {
            0 => (job.largest - 1).max(1),
            1 => (job.largest + 1).min(65_000),
            _ => job.largest,
        };
        check.check_plan(&job.packet, largest, &list)?;
    }
    Ok(())
}

/// Holes of any length: the count, too few records, and lists that can't be long enough.
fn long_holes(check: &mut Check) -> Step {
    let rng = &mut check.rng;
    let status = Status::valid(rng);
    let job = Job { packet: status.octets(rng), holes: status.holes, largest: largest(rng) };
    let count = check.plan_count(&job.packet, job.largest)?.count;
    let most = count.min(70_000) as usize;
    let room = check.rng.pick(&[0, 1, most.min(9), most, most, most + 3]);
    check.plan(&job.packet, job.largest, room)?;
    let mut list = vec![];
    for _ in 0..4 {
        job.bend(&mut list, &mut check.rng);
        check.check_plan(&job.packet, job.largest, &list)?;
    }
    Ok(())
}

/// Packets of every kind, valid and spoiled, with any largest payload.
fn refusals(check: &mut Check) -> Step {
    let rng = &mut check.rng;
    let packet = match rng.below(4) {
        0 => valid_packet(rng),
        1 => Status::failure(rng),
        2 => {
            let mut packet = Status::valid(rng).octets(rng);
            flip(&mut packet, rng);
            packet
        }
        _ => spoiled_packet(rng),
    };
    let largest = match rng.below(4) {
        0 => rng.pick(&[0, 65_001, 65_002, 1 << 16, 1 << 32, (1 << 32) + 1, (1 << 63) + 9, u64::MAX]),
        1 => rng.any(),
        _ => largest(rng),
    };
    let job = Job { packet, holes: vec![], largest: 1 };
    let mut list = vec![];
    for _ in 0..rng.below(4) {
        job.bend(&mut list, rng);
    }
    let room = rng.place(0, 9);
    check.plan_count(&job.packet, largest)?;
    check.plan(&job.packet, largest, room)?;
    check.check_plan(&job.packet, largest, &list)?;
    Ok(())
}
