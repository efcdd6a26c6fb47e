//! "It must not matter which dish comes first": the laws of merging, tried on random areas through the interface alone. What was
//! received is asked for by `saratoga_find` and `saratoga_transfer_hole`. "With timestamps left aside".

use crate::check::{require, Check, Step, Stop};
use crate::merge::cases::{sets, tables};
use crate::receiver::files::{files, recording, File};
use crate::receiver::held::{fill_unused, Held};
use crate::receiver::{aim, words};
use crate::rng::Rng;
use paper::received::Received;
use paper::table::{Table, Transfer};

/// What is open under an Id, as the interface tells it: the key, the edge, whether it is complete, and the holes. None where it
/// isn't open.
type Told = Option<(u64, u64, u64, u64, Vec<(u64, u64)>)>;

fn told(check: &mut Check, held: &Held, id: u64) -> Result<Told, Stop> {
    let found = check.find(held, id)?;
    match found.number {
        0 => {}
        12 => return Ok(None),
        number => {
            return Err(Stop::Mismatch(format!("after merging, finding is refused with {number}\n{}", area(held))))
        }
    }
    let mut holes = vec![];
    loop {
        let hole = check.transfer_hole(held, id, holes.len() as u64)?;
        match hole.number {
            0 => holes.push((hole.start, hole.end)),
            _ => return Ok(Some((found.width, found.length, found.edge, found.complete, holes))),
        }
    }
}

fn area(held: &Held) -> String {
    words::describe(held.area.octets())
}

/// One of the laws, on areas of its own.
pub fn trial(check: &mut Check) -> Step {
    match check.rng.below(4) {
        0 => either_order(check),
        1 => itself(check),
        2 => three(check),
        _ => packet(check),
    }
}

/// Two areas, and an Id to merge.
fn two(check: &mut Check) -> (Held, Held, u64) {
    let rng = &mut check.rng;
    let count = rng.pick(&[1, 2, 3]);
    let files = files(rng, count);
    let (one, other) = tables(rng, &files);
    let id = aim::id(rng, &one, &files);
    (Held::holding(one, rng), Held::holding(other, rng), id)
}

/// "laying A over B and B over A are refused alike or give the same received octets"
fn either_order(check: &mut Check) -> Step {
    let (one, other, id) = two(check);
    let (mut of_one, mut of_other) = (one.clone(), other.clone());
    let there = check.merge(&mut of_one, &mut other.clone(), id)?;
    let back = check.merge(&mut of_other, &mut one.clone(), id)?;
    require(there == back, || {
        format!("either order answers otherwise, id {id:#x}: {there:?}, {back:?}\n{}\n{}", area(&one), area(&other))
    })?;
    if there.number == 0 {
        same(check, "either order", [&of_one, &of_other], [&one, &other], id)?;
    }
    Ok(())
}

/// Both areas hold the same octets of the Id as received. `from` are the areas that it began with.
fn same(check: &mut Check, law: &str, ends: [&Held; 2], from: [&Held; 2], id: u64) -> Step {
    let (one, other) = (told(check, ends[0], id)?, told(check, ends[1], id)?);
    require(one == other, || {
        let from = from.map(area).join("\n");
        format!("{law} of id {id:#x} ends otherwise\n  {one:?}\n  {other:?}\nwhere it began with\n{from}")
    })
}

/// "laying a record over itself changes nothing": no octet of the area, whatever the second has in the words that nothing uses.
fn itself(check: &mut Check) -> Step {
    let (one, _, id) = two(check);
    let mut first = one.clone();
    let mut second = one.changed(&mut check.rng, |area, rng| fill_unused(area, rng));
    let merged = check.merge(&mut first, &mut second, id)?;
    let found = check.find(&one, id)?;
    require((merged.number, merged.edge, merged.complete) == (found.number, found.edge, found.complete), || {
        format!("merged with itself, id {id:#x} answers {merged:?}, and is found as {found:?}\n{}", area(&one))
    })?;
    require(first.area.difference(&one.area).is_none(), || {
        format!("merging id {id:#x} with itself changes it\n{}\n{}", area(&one), area(&first))
    })
}

/// "three records may be grouped either way where no step is refused"
fn three(check: &mut Check) -> Step {
    let rng = &mut check.rng;
    let (sets, key) = three_sets(rng);
    let [one, two, three] = sets.map(|received| Held::holding(alone(key, received), rng));
    grouped(check, [&one, &two, &three], u64::from(key.id))?;
    Ok(())
}

/// The numbers of both groupings' refusals, 0 where no step was refused.
pub fn grouped(check: &mut Check, areas: [&Held; 3], id: u64) -> Result<[u64; 2], Stop> {
    let [one, two, three] = areas;
    // The first and the second, then the third.
    let mut left = one.clone();
    let first_step = check.merge(&mut left, &mut two.clone(), id)?.number;
    let left_number = match first_step {
        0 => check.merge(&mut left, &mut three.clone(), id)?.number,
        number => number,
    };
    // The second and the third, then into the first.
    let (mut right, mut pair) = (one.clone(), two.clone());
    let first_step = check.merge(&mut pair, &mut three.clone(), id)?.number;
    let right_number = match first_step {
        0 => check.merge(&mut right, &mut pair, id)?.number,
        number => number,
    };
    if (left_number, right_number) == (0, 0) {
        same(check, "either grouping", [&left, &right], [one, two], id)?;
    }
    Ok([left_number, right_number])
}

/// Three sets of one file: of two that overlap, touch or interleave, and one beside them.
fn three_sets(rng: &mut Rng) -> ([Received; 3], File) {
    let key = files(rng, 1)[0];
    let (one, two) = sets(rng, key.length);
    let (three, _) = sets(rng, key.length);
    let mut all = [one, two, three];
    let (from, to) = (rng.place(0, 2), rng.place(0, 2));
    all.swap(from, to);
    (all, key)
}

/// A table with one transfer.
fn alone(key: File, received: Received) -> Table {
    let transfer = Transfer { received, ..Transfer::new(2 << key.code, key.length) };
    Table { transfers: [(u64::from(key.id), transfer)].into() }
}

/// "recording a packet on the first desk before or after a laying together gives the same octets, where neither order is refused",
/// and the last answers tell the same edge and completeness.
fn packet(check: &mut Check) -> Step {
    let (one, other, id) = two(check);
    let Some(transfer) = one.table.as_ref().expect("it holds one").transfers.get(&id) else { return Ok(()) };
    let rng = &mut check.rng;
    let (offset, len) = aim::packet(rng, transfer);
    let end_of_data = aim::end_of_data(rng, transfer.length, offset, len);
    let code = transfer.width.ilog2() - 1;
    let packet = recording(rng, id as u32, code, offset, len, end_of_data).octets(rng);
    let (mut before, mut after) = (one.clone(), one.clone());
    let recorded_before = check.record(&mut before, &packet)?;
    let merged_last = check.merge(&mut before, &mut other.clone(), id)?;
    let merged_first = check.merge(&mut after, &mut other.clone(), id)?;
    let recorded_after = check.record(&mut after, &packet)?;
    let numbers = [recorded_before.number, merged_last.number, merged_first.number, recorded_after.number];
    if numbers != [0; 4] {
        return Ok(());
    }
    let (last, want) = ((merged_last.edge, merged_last.complete), (recorded_after.edge, recorded_after.complete));
    require(last == want, || format!("recording before merging answers {last:?} at the end, after it {want:?}"))?;
    same(check, "recording before or after merging", [&before, &after], [&one, &other], id)
}
