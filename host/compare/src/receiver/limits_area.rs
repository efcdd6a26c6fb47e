//! The areas that are judged and changed: each octet changed, each length, each of the ways of docs/AREA.md to hold no
//! table, for every function that judges; and anything in the places that nothing uses, for every function that changes.

use paper::table::{Table, Transfer};

use crate::check::{require, Check, Step};
use crate::receiver::damage;
use crate::receiver::files::{files, kept, opening, received, recording, table, File};
use crate::receiver::held::{fill_unused, Held};
use crate::receiver::pass::any_call;
use crate::receiver::words::OCTETS;
use crate::receiver::Ask;

/// All of it.
pub fn run(check: &mut Check) -> Step {
    fresh(check)?;
    octets(check)?;
    lengths(check)?;
    ways(check)?;
    transfers_moved(check)?;
    runs_moved(check)
}

/// An area with some transfers, some of them with many runs.
fn some(check: &mut Check, count: usize) -> (Held, Vec<File>) {
    let files = files(&mut check.rng, count);
    loop {
        let table = table(&mut check.rng, &files);
        if table.transfers.len() + 1 >= count {
            return (Held::holding(table, &mut check.rng), files);
        }
    }
}

/// Making a fresh table in areas of each length, of any content.
fn fresh(check: &mut Check) -> Step {
    for len in [0, 1, 8, 100, OCTETS - 8, OCTETS - 1, OCTETS, OCTETS + 1, OCTETS + 8, 2 * OCTETS, 40_000] {
        for _ in 0..4 {
            let octets = check.rng.octets(len);
            let mut held = Held::of(&octets, &mut check.rng);
            check.fresh(&mut held)?;
            check.fresh(&mut held)?;
        }
    }
    Ok(())
}

/// Every function with every octet changed by one bit.
fn octets(check: &mut Check) -> Step {
    let (held, files) = some(check, 4);
    for at in 0..OCTETS {
        let bit = check.rng.below(8);
        let mut changed = held.changed(&mut check.rng, |area, _| area[at] ^= 1 << bit);
        judged(check, &mut changed)?;
        any_call(check, &mut changed, &files)?;
    }
    Ok(())
}

/// One call of each function that judges, all of which are refused otherwise where the area isn't.
fn judged(check: &mut Check, held: &mut Held) -> Step {
    check.open(held, &[])?;
    check.record(held, &[])?;
    check.try_record(held, &[])?;
    check.transfer(held, 20)?;
    check.find(held, 1 << 40)?;
    check.transfer_hole(held, 1 << 40, 0)?;
    check.close(held, 1 << 40)?;
    check.write_status(held, Ask { id: 1 << 40, skip: 0, unasked: 0 }, 0)?;
    Ok(())
}

/// Every length up to the layout's, and some past it.
fn lengths(check: &mut Check) -> Step {
    let (held, files) = some(check, 3);
    for len in 0..OCTETS {
        if len % 8 == 0 || len > OCTETS - 64 {
            let mut cut = held.changed(&mut check.rng, |area, _| area.truncate(len));
            any_call(check, &mut cut, &files)?;
        }
    }
    for len in [0, 1, 7, 8, 8_000, OCTETS - 9, OCTETS - 8, OCTETS - 7, OCTETS - 1, OCTETS, OCTETS + 1, 2 * OCTETS] {
        let mut other = held.changed(&mut check.rng, |area, _| area.resize(len, 0xA5));
        judged(check, &mut other)?;
    }
    Ok(())
}

/// Each of the ways, in areas with few and many transfers.
fn ways(check: &mut Check) -> Step {
    for count in [1, 2, 5, 15, 16] {
        for _ in 0..4 {
            let (held, files) = some(check, count);
            for &way in damage::ALL {
                for _ in 0..20 {
                    let mut changed = held.changed(&mut check.rng, way);
                    any_call(check, &mut changed, &files)?;
                }
            }
        }
    }
    Ok(())
}

/// Other octets in the places that nothing uses, so that what an earlier call left there doesn't help.
fn refilled(check: &mut Check, held: &Held) -> Held {
    held.changed(&mut check.rng, |area, rng| fill_unused(area, rng))
}

/// Each number of open transfers: one opened at each place, and the one at each place closed.
fn transfers_moved(check: &mut Check) -> Step {
    for open in 0..=16 {
        let mut table = Table::default();
        for i in 0..open {
            let runs = check.rng.pick(&[0, 1, 2, 3, 40, 63, 64]);
            let received = received(&mut check.rng, 400, runs);
            let timestamp = kept(&mut check.rng);
            table.transfers.insert(10 * i + 10, Transfer { received, timestamp, ..Transfer::new(2, 400) });
        }
        let held = Held::holding(table, &mut check.rng);
        for place in 0..=open {
            let new = File { id: 10 * place as u32 + 5, code: 1, length: 300 };
            let mut opened = refilled(check, &held);
            let packet = opening(&mut check.rng, new).octets(&mut check.rng);
            let number = check.open(&mut opened, &packet)?.number;
            require(number == if open == 16 { 17 } else { 0 }, || format!("opening with {open} open: {number}"))?;
            let mut closed = refilled(check, &held);
            let number = check.close(&mut closed, 10 * place + 10)?.number;
            require(number == if place == open { 12 } else { 0 }, || format!("closing with {open} open: {number}"))?;
            for left in [&opened, &closed] {
                let seen = refilled(check, left);
                check.transfer(&seen, place)?;
            }
        }
    }
    Ok(())
}

/// Each number of runs: one put in at each place, joined to each, and joining any number from each on.
fn runs_moved(check: &mut Check) -> Step {
    for count in [0, 1, 2, 3, 17, 62, 63, 64] {
        let mut table = super::limits::one(9, 4, 700, &[]);
        let runs = &mut table.transfers.get_mut(&9).expect("it is open").received;
        for run in 0..count {
            runs.add(10 * run + 5, 10 * run + 10);
        }
        let others = [(3, 5), (12, 64)].map(|(id, runs)| {
            let received = received(&mut check.rng, 400, runs);
            let timestamp = kept(&mut check.rng);
            (id, Transfer { received, timestamp, ..Transfer::new(2, 400) })
        });
        table.transfers.extend(others);
        let held = Held::holding(table, &mut check.rng);
        for place in 0..=count {
            let joined = check.rng.between(1, 3).min(count);
            for (offset, len) in [(10 * place + 2, 1), (10 * place + 2, 3), (10 * place + 1, 10 * joined + 2), (5, 1)] {
                let mut recorded = refilled(check, &held);
                let packet = recording(&mut check.rng, 9, 1, offset, len as usize, false).octets(&mut check.rng);
                check.record(&mut recorded, &packet)?;
                let seen = refilled(check, &recorded);
                check.write_status(&seen, Ask { id: 9, skip: 0, unasked: 0 }, 2_104)?;
            }
        }
    }
    Ok(())
}
