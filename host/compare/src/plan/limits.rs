//! The limits of plans from both sides, and every list of a small world.

use crate::answer::Piece;
use crate::check::{require, Check, Step};
use crate::faults;
use crate::packets::{last, Beacon, Data, Metadata, Status};

/// All of it.
pub fn run(check: &mut Check) -> Step {
    payloads(check)?;
    refusal_order(check)?;
    rooms(check)?;
    no_holes(check)?;
    ends_of_numbers(check)?;
    longest_lists(check)?;
    small_world(check)
}

fn pieces(pairs: &[(u64, u64)]) -> Vec<Piece> {
    pairs.iter().map(|&(offset, length)| Piece { offset, length }).collect()
}

/// A STATUS that lists these holes, in width bits `code`.
fn status(check: &mut Check, code: u32, holes: &[(u64, u64)]) -> Vec<u8> {
    Status::of_holes(&mut check.rng, code, holes.to_vec()).octets(&mut check.rng)
}

/// Every largest payload around an end of its range.
fn payloads(check: &mut Check) -> Step {
    let ends = [0, 1, 65_000, 65_535, 1 << 16, 1 << 32, 1 << 63, u64::MAX];
    let near = ends.into_iter().flat_map(|end| (0..5).map(move |by| u64::wrapping_add(end, by).wrapping_sub(2)));
    for (largest, code) in near.flat_map(|largest| (1..4).map(move |code| (largest, code))) {
        let packet = status(check, code, &[(7, 130_007), (130_010, 130_011)]);
        let allowed = (1..=65_000).contains(&largest);
        let number = check.plan_count(&packet, largest)?.number;
        require(number == if allowed { 0 } else { 21 }, || format!("largest {largest}: {number}"))?;
        check.plan(&packet, largest, 9)?;
        check.plan(&packet, largest, 0)?;
        check.plan(&packet, largest, 130_001)?;
        for length in [64_999, 65_000, 65_001] {
            let list =
                pieces(&[(7, 65_000), (65_007, length), (65_007 + length, 130_000 - 65_000 - length.min(65_000))]);
            check.check_plan(&packet, largest, &list)?;
            check.check_plan(&packet, largest, &pieces(&[(7, 65_000), (65_007, 65_000), (130_010, 1)]))?;
        }
    }
    Ok(())
}

/// Each fault of a STATUS, each other type and a failure STATUS, before 21 and 20.
fn refusal_order(check: &mut Check) -> Step {
    for round in 0..30 {
        let rng = &mut check.rng;
        let mut packets = vec![
            Status::failure(rng),
            Data::valid(rng).octets(rng),
            Metadata::valid(rng).octets(rng),
            Beacon::valid(rng).octets(rng),
            Status::valid(rng).octets(rng),
        ];
        for &(_, fault) in faults::STATUS {
            let mut packet = Status::valid(rng);
            fault(&mut packet, rng);
            packets.push(packet.octets(rng));
        }
        for packet in packets {
            for largest in [0, 1 + round, 65_000, 65_001, u64::MAX] {
                check.plan_count(&packet, largest)?;
                check.plan(&packet, largest, 0)?;
                check.plan(&packet, largest, round as usize)?;
                check.check_plan(&packet, largest, &[])?;
                check.check_plan(&packet, largest, &pieces(&[(0, 0)]))?;
            }
        }
    }
    Ok(())
}

/// From no record to more than enough, for holes that are and aren't whole pieces.
fn rooms(check: &mut Check) -> Step {
    let lists: [&[(u64, u64)]; 6] =
        [&[(0, 1)], &[(3, 9)], &[(3, 10)], &[(0, 2), (3, 4)], &[(5, 9), (11, 12), (20, 26)], &[(1, 40)]];
    for (holes, code) in lists.into_iter().flat_map(|holes| (0..4).map(move |code| (holes, code))) {
        let packet = status(check, code, holes);
        for largest in 1..=8 {
            let count = check.plan_count(&packet, largest)?.count as usize;
            for room in 0..count + 4 {
                let (planned, plan) = check.plan(&packet, largest, room)?;
                require(planned.number == if room < count { 20 } else { 0 }, || {
                    format!("{planned:?} from {room} records")
                })?;
                check.check_plan(&packet, largest, &plan)?;
                check.check_plan(&packet, largest + 1, &plan)?;
                check.check_plan(&packet, largest.max(2) - 1, &plan)?;
            }
        }
    }
    Ok(())
}

/// Without holes the empty plan passes and no other, whatever Progress and In-Response-To are.
fn no_holes(check: &mut Check) -> Step {
    for _ in 0..200 {
        let code = check.rng.below(4) as u32;
        let packet = status(check, code, &[]);
        let checked = check.check_plan(&packet, 5, &[])?;
        require(checked.passes == 1, || format!("{checked:?} of the empty plan"))?;
        for list in [pieces(&[(0, 0)]), pieces(&[(0, 1)]), pieces(&[(0, 0), (1, 0)]), pieces(&[(u64::MAX, 1)])] {
            let checked = check.check_plan(&packet, 5, &list)?;
            require(checked.passes == 0, || format!("{checked:?} of {list:?}"))?;
        }
        check.plan(&packet, 1, 0)?;
        check.plan(&packet, 65_000, 3)?;
    }
    Ok(())
}

/// Holes up to 2^64 - 1: lists of one and two pieces with offsets and lengths from all around.
fn ends_of_numbers(check: &mut Check) -> Step {
    let top = u64::MAX;
    let numbers = [0, 1, 2, 3, 4, 5, 1 << 63, top - 5, top - 4, top - 3, top - 2, top - 1, top];
    let every: Vec<(u64, u64)> = numbers.iter().flat_map(|&offset| numbers.map(|length| (offset, length))).collect();
    for holes in [&[(top - 4, top)][..], &[(0, 2), (top - 3, top)], &[(1, 3)]] {
        let packet = status(check, 2 + (holes[0].0 % 2) as u32, holes);
        for &one in &every {
            check.check_plan(&packet, 4, &pieces(&[one]))?;
            for &two in &every {
                check.check_plan(&packet, 4, &pieces(&[one, two]))?;
            }
        }
    }
    for holes in [&[(0, top)][..], &[(1, top)], &[(0, top - 9), (top - 1, top)], &[(0, 1), (2, top)]] {
        let packet = status(check, 2, holes);
        for largest in [1, 2, 3, 64_999, 65_000] {
            check.plan_count(&packet, largest)?;
            for room in [0, 1, 5] {
                let number = check.plan(&packet, largest, room)?.0.number;
                require(number == 20, || format!("a plan of {holes:?} in {room} records: {number}"))?;
            }
        }
    }
    Ok(())
}

/// As many holes as a packet has room for, at each width: the plan, and lists that differ from it at one end.
fn longest_lists(check: &mut Check) -> Step {
    for code in 0..4 {
        let width = 2 << code;
        let count = (65_535 - 24 - 2 * width) / (2 * width);
        let spacing = (last(width) - 5) / count as u64;
        let holes: Vec<_> = (0..count as u64).map(|hole| (2 + spacing * hole, 2 + spacing * hole + 2)).collect();
        let packet = status(check, code, &holes);
        for largest in [1, 2, 65_000] {
            let needed = check.plan_count(&packet, largest)?.count as usize;
            check.plan(&packet, largest, needed - 1)?;
            let plan = check.plan(&packet, largest, needed)?.1;
            check.check_plan(&packet, largest, &plan)?;
            check.check_plan(&packet, largest, &plan[1..])?;
            check.check_plan(&packet, largest, &plan[..needed - 1])?;
            check.check_plan(&packet, largest, &[&plan[..], &plan[needed - 1..]].concat())?;
        }
    }
    Ok(())
}

/// Every list of up to three pieces, of up to three octets from offset 0 to 4, for every set of holes below offset 4.
fn small_world(check: &mut Check) -> Step {
    let every: Vec<Piece> = (0..20).map(|both| Piece { offset: both / 4, length: both % 4 }).collect();
    let mut lists: Vec<Vec<Piece>> = vec![vec![]];
    let mut longer = lists.clone();
    for _ in 0..3 {
        longer = longer.iter().flat_map(|list| every.iter().map(move |&next| [&list[..], &[next]].concat())).collect();
        lists.extend(longer.clone());
    }
    for missing in 0..16u64 {
        let is = |offset: u64| missing >> offset & 1 == 1;
        let starts = (0..4).filter(|&offset| is(offset) && (offset == 0 || !is(offset - 1)));
        let holes: Vec<_> = starts.map(|start| (start, (start..).find(|&end| !is(end)).expect("all end"))).collect();
        for largest in 1..4 {
            let code = check.rng.below(4) as u32;
            let packet = status(check, code, &holes);
            for list in &lists {
                check.check_plan(&packet, largest, list)?;
            }
        }
    }
    Ok(())
}
