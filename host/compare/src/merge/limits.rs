//! The limits of merging from both sides: small sets whole, the room for runs, keys, timestamps, and the order of refusals.

use paper::received::Received;
use paper::table::{Table, Transfer};

use crate::check::{require, Check, Step};
use crate::merge::laws;
use crate::receiver::files::{kept, timestamp};
use crate::receiver::held::Held;
use crate::receiver::limits::one;
use crate::receiver::{words, Ask};

/// All of it.
pub fn run(check: &mut Check) -> Step {
    small_sets(check)?;
    room(check)?;
    room_on_the_way(check)?;
    places(check)?;
    keys(check)?;
    ids(check)?;
    stamps(check)?;
    ends_of_numbers(check)?;
    order(check)?;
    grouping_refused(check)
}

/// Merges Id 9 of two tables, and looks at what the first then holds.
fn merged(check: &mut Check, first: Table, second: Table, want: u64) -> Step {
    let mut first = Held::holding(first, &mut check.rng);
    let mut second = Held::holding(second, &mut check.rng);
    let number = check.merge(&mut first, &mut second, 9)?.number;
    require(number == want, || {
        let [first, second] = [&first, &second].map(|held| words::describe(held.want.octets()));
        format!("merging: {want} is expected, not {number}\n{first}\n{second}")
    })?;
    check.find(&first, 9)?;
    check.write_status(&first, Ask { id: 9, skip: 0, unasked: 0 }, 2_104)?;
    Ok(())
}

/// Every pair of sets of six offsets, in a file of as many or one more: what touches, overlaps, lies inside and stands apart.
fn small_sets(check: &mut Check) -> Step {
    let runs = |bits: u64| -> Vec<(u64, u64)> {
        (0..6).filter(|offset| bits >> offset & 1 == 1).map(|offset| (offset, offset + 1)).collect()
    };
    for (first, second) in (0..64).flat_map(|first| (0..64).map(move |second| (first, second))) {
        let length = 6 + check.rng.below(2);
        let tables = [first, second].map(|bits| one(9, 2, length, &runs(bits)));
        let [first, second] = tables.map(|table| Held::holding(table, &mut check.rng));
        check.merge(&mut first.clone(), &mut second.clone(), 9)?;
    }
    Ok(())
}

/// `count` runs of one octet, four apart.
fn apart(first: u64, count: u64) -> Vec<(u64, u64)> {
    (0..count).map(|run| (first + 4 * run, first + 4 * run + 1)).collect()
}

/// Runs of both that stand apart, in turns, and one after the other: accepted up to 64.
fn room(check: &mut Check) -> Step {
    let counts = [0, 1, 2, 31, 32, 33, 62, 63, 64];
    for (first, second) in counts.into_iter().flat_map(|first| counts.map(|second| (first, second))) {
        let want = if first + second > 64 { 16 } else { 0 };
        for start in [2, 400] {
            let tables = [apart(0, first), apart(start, second)].map(|runs| one(9, 4, 1_000, &runs));
            let [first, second] = tables;
            merged(check, first, second, want)?;
        }
        // As many that both have, and what fills every gap.
        let both = [apart(0, first.max(second)), apart(0, second)].map(|runs| one(9, 4, 1_000, &runs));
        let [one_side, other] = both;
        merged(check, one_side, other, 0)?;
        let gaps: Vec<_> = (0..second).map(|run| (4 * run + 1, 4 * run + 4)).collect();
        merged(check, one(9, 4, 1_000, &apart(0, first)), one(9, 4, 1_000, &gaps), 0)?;
    }
    Ok(())
}

/// More than 64 runs before the last of a side is looked at, and 64 or fewer in the end; and 65 in the end.
fn room_on_the_way(check: &mut Check) -> Step {
    for (alone, extra) in [(1, 0), (20, 0), (38, 0), (39, 0), (39, 1), (40, 0), (63, 0)] {
        // 64 runs on one side, of which the last ones lie in one run of the other, which also has `alone` others between the first.
        let own: u64 = 64 - (64 - alone).min(25);
        let covered = apart(1_000, 64 - own);
        let whole = if covered.is_empty() { vec![] } else { vec![(999, 2_000)] };
        let all = [apart(0, own), covered].concat();
        let between = [apart(2, alone), apart(3_000, extra), whole.clone()].concat();
        let joined = own + alone + extra + whole.len() as u64;
        let want = if joined > 64 { 16 } else { 0 };
        let sides = || [&all, &between].map(|runs| one(9, 8, 4_000, runs));
        let [first, second] = sides();
        merged(check, first, second, want)?;
        let [second, first] = sides();
        merged(check, first, second, want)?;
    }
    // 64 and 63 that touch become one, from either side; what comes last joins all.
    for last in [0, 1] {
        let even: Vec<_> = (0..64).map(|run| (2 * run, 2 * run + 1)).collect();
        let odd: Vec<_> = (0..63 + last).map(|run| (2 * run + 1, 2 * run + 2)).collect();
        merged(check, one(9, 2, 200, &even), one(9, 2, 200, &odd), 0)?;
        merged(check, one(9, 2, 200, &odd), one(9, 2, 200, &even), 0)?;
    }
    Ok(())
}

/// At each place of both tables, beside transfers with 64 runs, of which no octet may change.
fn places(check: &mut Check) -> Step {
    for (of_first, of_second) in (0..16).flat_map(|first| (0..16).map(move |second| (first, second))) {
        let rng = &mut check.rng;
        let mut sides = [(of_first, 0, 64), (of_second, 2, rng.pick(&[0, 1, 30, 64]))].map(|(place, start, count)| {
            let mut table = Table::default();
            for at in 0..16 {
                let id = 100 + at - place;
                let runs: Vec<_> = if at == place { apart(start, count) } else { apart(rng.below(3), 64) };
                let mut received = Received::default();
                runs.iter().for_each(|&(start, stop)| received.add(start, stop));
                let transfer = Transfer { received, timestamp: kept(rng), ..Transfer::new(4, 300) };
                table.transfers.insert(id, transfer);
            }
            Held::holding(table, rng)
        });
        let [first, second] = &mut sides;
        check.merge(first, second, 100)?;
        // One run that covers all of them: one is left.
        let mut whole = Held::holding(one(100, 4, 300, &[(0, 299)]), &mut check.rng);
        check.merge(first, &mut whole, 100)?;
        check.merge(second, first, 100)?;
        for index in 0..16 {
            check.transfer(first, index)?;
        }
    }
    Ok(())
}

/// Each pair of widths and of lengths.
fn keys(check: &mut Check) -> Step {
    let lengths = [0, 1, 299, 300, 301, 65_535];
    for (one_width, other_width) in [2, 4, 8, 16].into_iter().flat_map(|one| [2, 4, 8, 16].map(|other| (one, other))) {
        for (length, other_length) in lengths.into_iter().flat_map(|one| lengths.map(|other| (one, other))) {
            let want = match (one_width == other_width, length == other_length) {
                (false, _) => 13,
                (true, false) => 18,
                (true, true) => 0,
            };
            let run = |length: u64| if length > 0 { vec![(0, length.min(40))] } else { vec![] };
            let first = one(9, one_width, length, &run(length));
            merged(check, first, one(9, other_width, other_length, &run(other_length)), want)?;
        }
    }
    Ok(())
}

/// An Id that is open in both, in one of them, in none; and numbers over 32 bits.
fn ids(check: &mut Check) -> Step {
    for (in_first, in_second) in [(false, false), (false, true), (true, false), (true, true)] {
        for id in [0, 9, u32::MAX] {
            let [mut first, mut second] = [in_first, in_second].map(|open| {
                let mut table = one(7, 4, 100, &[(3, 9)]);
                table.transfers.append(&mut one(12, 4, 100, &[(30, 40)]).transfers);
                if open {
                    table.transfers.append(&mut one(id, 4, 100, &[(check.rng.below(50), 60)]).transfers);
                }
                Held::holding(table, &mut check.rng)
            });
            let id = u64::from(id);
            for other in [id | 1 << 32, id | 1 << 63, id ^ 1, u64::MAX, 8, 13] {
                check.merge(&mut first, &mut second, other)?;
            }
            let number = check.merge(&mut first, &mut second, id)?.number;
            let want = if in_first && in_second { 0 } else { 12 };
            require(number == want, || {
                format!("an Id open in the first: {in_first}, in the second: {in_second}: {number}")
            })?;
        }
    }
    Ok(())
}

/// A timestamp in the first, in the second, in both, in none; zeros too. The first's stays.
fn stamps(check: &mut Check) -> Step {
    for (first, second) in (0..3).flat_map(|first| (0..3).map(move |second| (first, second))) {
        for runs in [&[(0, 4)][..], &[], &[(2, 3), (90, 100)]] {
            let rng = &mut check.rng;
            let mut stamped = |kind: u64, runs: &[(u64, u64)]| {
                let mut table = one(9, 2, 100, runs);
                let octets = if kind == 2 { [0; 16] } else { timestamp(rng) };
                table.transfers.get_mut(&9).expect("it is open").timestamp = (kind > 0).then_some(octets);
                table
            };
            let (first, second) = (stamped(first, &[(2, 3)]), stamped(second, runs));
            merged(check, first, second, 0)?;
        }
    }
    Ok(())
}

/// Runs at both ends of the longest files of each width, that touch and stand one apart there.
fn ends_of_numbers(check: &mut Check) -> Step {
    for (width, most) in [(2, 0xFFFF), (4, 0xFFFF_FFFF), (8, u64::MAX), (16, u64::MAX)] {
        let runs = [
            vec![],
            vec![(0, most)],
            vec![(0, 1)],
            vec![(1, most)],
            vec![(0, most - 1)],
            vec![(most - 1, most)],
            vec![(most - 2, most - 1)],
            vec![(0, 1), (most - 1, most)],
            vec![(1, most - 1)],
            vec![(2, most - 2)],
        ];
        for (first, second) in runs.iter().flat_map(|first| runs.iter().map(move |second| (first, second))) {
            merged(check, one(9, width, most, first), one(9, width, most, second), 0)?;
        }
    }
    Ok(())
}

/// Every set of faults together: the first in the order decides.
fn order(check: &mut Check) -> Step {
    for faults in 0..1 << 7 {
        let has = |bit: u32| faults >> bit & 1 == 1;
        let width = if has(4) { 8 } else { 4 };
        let length = if has(5) { 301 } else { 300 };
        let runs = if has(6) { apart(2, 64) } else { vec![] };
        let first = one(if has(2) { 10 } else { 9 }, 4, 300, &apart(0, 64));
        let second = one(if has(3) { 11 } else { 9 }, width, length, &runs);
        let [mut first, mut second] = [(first, has(0)), (second, has(1))].map(|(table, damaged)| {
            let held = Held::holding(table, &mut check.rng);
            match (damaged, check.rng.one_in(2)) {
                (false, _) => held,
                (true, false) => held.changed(&mut check.rng, |area, _| words::set(area, words::COUNT, 17)),
                (true, true) => {
                    held.changed(&mut check.rng, |area, rng| area.truncate(rng.place(0, words::OCTETS - 1)))
                }
            }
        });
        let want = match (0..7).find(|&bit| has(bit)) {
            Some(0 | 1) => 22,
            Some(2 | 3) => 12,
            Some(4) => 13,
            Some(5) => 18,
            Some(_) => 16,
            None => 0,
        };
        let number = check.merge(&mut first, &mut second, 9)?.number;
        require(number == want, || format!("merging with the faults {faults:#b}: {want} is expected, not {number}"))?;
    }
    Ok(())
}

/// "A grouping of three that is refused for room while the other is not can occur".
fn grouping_refused(check: &mut Check) -> Step {
    let sets = [apart(0, 64), vec![(500, 501)], vec![(0, 400)]];
    let [one_area, two, three] = sets.map(|runs| Held::holding(one(9, 4, 1_000, &runs), &mut check.rng));
    let numbers = laws::grouped(check, [&one_area, &two, &three], 9)?;
    require(numbers == [16, 0], || format!("three areas in two groupings: {numbers:?}"))?;
    let numbers = laws::grouped(check, [&two, &three, &one_area], 9)?;
    require(numbers == [0, 0], || format!("three areas in two groupings, the third first: {numbers:?}"))
}
