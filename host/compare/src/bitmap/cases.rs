//! Random cases: the marks beside the table, and single calls on marks of any content with any transfer.

use paper::table::{Table, Transfer};

use crate::answer::Bitmap;
use crate::bitmap::both;
use crate::bitmap::held::{damage, Marked};
use crate::check::{Check, Step};
use crate::receiver::aim;
use crate::receiver::files::{kept, old_opening, opening, received, File};
use crate::receiver::pass::{damaged_packet, opening_packet, recording_packet};
use crate::rng::Rng;

/// One case, of some or many calls.
pub fn case(check: &mut Check) -> Step {
    match check.rng.one_in(3) {
        true => both::trial(check),
        false => states(check),
    }
}

/// Any Id and width, and a length that both receivers take.
pub fn short_file(rng: &mut Rng) -> File {
    let length = match rng.below(16) {
        0 => 0,
        1 => 1,
        2..=4 => rng.between(2, 40),
        5..=8 => rng.between(100, 400),
        9 | 10 => rng.between(1_000, 65_535),
        11 => 8 * rng.between(1, 8_191),
        12 => 65_535 - rng.between(1, 10),
        _ => 65_535,
    };
    File { id: rng.number(32) as u32, code: rng.below(4) as u32, length }
}

/// A transfer that was received in part, and some calls on it: as it is, or with something wrong with it.
fn states(check: &mut Check) -> Step {
    let file = short_file(&mut check.rng);
    let open = part_received(&mut check.rng, file);
    let transfer = Bitmap::new(file.id.into(), open.width as u64, file.length).keeping(open.timestamp);
    let right = Marked::with_runs(transfer, open.received.runs(), &mut check.rng);
    let table = Table { transfers: [(file.id.into(), open)].into() };
    for _ in 0..check.rng.between(1, 8) {
        let rng = &mut check.rng;
        let mut marked = if rng.one_in(3) { right.clone() } else { right.changed(rng, damage) };
        call(check, &mut marked, &table, file)?;
    }
    Ok(())
}

fn part_received(rng: &mut Rng, file: File) -> Transfer {
    let most = file.length.div_ceil(2).min(64) as usize;
    let runs = match rng.below(5) {
        0 => 0,
        1 => rng.place(0, most),
        2 => most.saturating_sub(1),
        _ => most,
    };
    let received = received(rng, file.length, runs);
    Transfer { received, timestamp: kept(rng), ..Transfer::new(2 << file.code, file.length) }
}

/// A call of any of the three functions; the table has what the transfer was before anything was wrong with it.
fn call(check: &mut Check, marked: &mut Marked, table: &Table, file: File) -> Step {
    let rng = &mut check.rng;
    match rng.below(10) {
        0..=4 => {
            let packet = match rng.one_in(6) {
                true => damaged_packet(rng, table, &[file]),
                false => recording_packet(rng, table, &[file]),
            };
            check.bitmap_record(marked, &packet)?;
        }
        5 | 6 => {
            let longer = File { code: rng.between(1, 3) as u32, length: rng.pick(&[65_536, 65_537, 1 << 20]), ..file };
            let packet = match rng.below(6) {
                0 | 1 => damaged_packet(rng, table, &[file]),
                2 if rng.one_in(4) => old_opening(rng, longer).octets(rng),
                2 => opening(rng, longer).octets(rng),
                _ => opening_packet(rng, &[file]),
            };
            check.bitmap_open(marked, &packet)?;
        }
        _ => {
            let (ask, room) = aim::status(rng, table, file.id.into());
            check.bitmap_status(marked, ask.skip, ask.unasked, room)?;
        }
    }
    Ok(())
}
