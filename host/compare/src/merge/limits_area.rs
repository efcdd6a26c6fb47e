//! The two areas that are judged: each octet of either changed, each length, each of the ways of docs/AREA.md to hold no table,
//! and anything in the places that nothing uses.

use crate::check::{require, Check, Step};
use crate::merge::cases::tables;
use crate::receiver::damage;
use crate::receiver::files::{files, File};
use crate::receiver::held::{fill_unused, Held};
use crate::receiver::words::OCTETS;

/// All of it.
pub fn run(check: &mut Check) -> Step {
    octets(check)?;
    lengths(check)?;
    ways(check)?;
    unused(check)
}

/// Two areas with some transfers of the same files.
fn pair(check: &mut Check, count: usize) -> (Held, Held, Vec<File>) {
    let files = files(&mut check.rng, count);
    let (one, other) = tables(&mut check.rng, &files);
    (Held::holding(one, &mut check.rng), Held::holding(other, &mut check.rng), files)
}

/// Every octet of either changed by one bit; asked for an Id that is open nowhere, which is 12 unless an area is refused, and for
/// one that may be merged.
fn octets(check: &mut Check) -> Step {
    let (first, second, files) = pair(check, 4);
    for at in 0..OCTETS {
        let bit = check.rng.below(8);
        let id = u64::from(check.rng.pick(&files).id);
        for (mut one, mut other) in [
            (first.changed(&mut check.rng, |area, _| area[at] ^= 1 << bit), second.clone()),
            (first.clone(), second.changed(&mut check.rng, |area, _| area[at] ^= 1 << bit)),
        ] {
            let asked = if at % 2 == 0 { 1 << 40 } else { id };
            check.merge(&mut one, &mut other, asked)?;
        }
    }
    Ok(())
}

/// Lengths of either up to the layout's, and some past it.
fn lengths(check: &mut Check) -> Step {
    let (first, second, files) = pair(check, 3);
    let id = u64::from(files[0].id);
    for len in (0..OCTETS).filter(|len| len % 64 == 0 || *len > OCTETS - 32) {
        let mut short = first.changed(&mut check.rng, |area, _| area.truncate(len));
        let number = check.merge(&mut short, &mut second.clone(), id)?.number;
        require(number == 22, || format!("a first area of {len} octets: {number}"))?;
        let mut short = second.changed(&mut check.rng, |area, _| area.truncate(len));
        let number = check.merge(&mut first.clone(), &mut short, id)?.number;
        require(number == 22, || format!("a second area of {len} octets: {number}"))?;
    }
    for more in [0, 1, 7, 8, 1_000] {
        let longer = |held: &Held, check: &mut Check| {
            held.changed(&mut check.rng, |area, rng| {
                area.truncate(OCTETS);
                area.extend(rng.octets(more));
            })
        };
        let (mut first, mut second) = (longer(&first, check), longer(&second, check));
        check.merge(&mut first, &mut second, id)?;
    }
    Ok(())
}

/// Each damage to either area, on many pairs.
fn ways(check: &mut Check) -> Step {
    for _ in 0..25 {
        let count = check.rng.pick(&[1, 2, 4, 16]);
        let (first, second, files) = pair(check, count);
        for damage in damage::ALL {
            let id = u64::from(check.rng.pick(&files).id);
            let mut damaged = first.changed(&mut check.rng, damage);
            check.merge(&mut damaged, &mut second.clone(), id)?;
            let mut damaged = second.changed(&mut check.rng, damage);
            check.merge(&mut first.clone(), &mut damaged, id)?;
        }
    }
    Ok(())
}

/// Anything in the places that nothing uses, of both.
fn unused(check: &mut Check) -> Step {
    for _ in 0..400 {
        let count = check.rng.pick(&[1, 2, 16]);
        let (first, second, files) = pair(check, count);
        let id = u64::from(check.rng.pick(&files).id);
        let mut first = first.changed(&mut check.rng, |area, rng| fill_unused(area, rng));
        let mut second = second.changed(&mut check.rng, |area, rng| fill_unused(area, rng));
        check.merge(&mut first, &mut second, id)?;
    }
    Ok(())
}
