//! A whole run of each comparison: the limits, then random cases until enough calls are made.

use std::fmt::Debug;
use std::time::Instant;

use crate::bitmap::{self, BitmapReceiver};
use crate::check::{Check, Step, Stop};
use crate::codec::{Codec, Paper};
use crate::merge::{self, Merger};
use crate::plan::{self, Planner};
use crate::receiver::{self, orders, pass, Receiver};
use crate::settings::{self, SettingsFile};
use crate::tally::Tally;
use crate::{limits, limits_width, limits_write, random, wrong};

/// When to end: after so many calls, or at a time. The limits always run whole, which may take more.
#[derive(Clone, Copy)]
pub struct End {
    calls: u64,
    until: Option<Instant>,
}

impl End {
    pub fn after(calls: u64) -> End {
        End { calls, until: None }
    }

    pub fn at(time: Instant) -> End {
        End { calls: u64::MAX, until: Some(time) }
    }
}

/// A run in which everything agreed.
pub struct Agreed {
    pub calls: u64,
    pub tally: Tally,
}

/// Compares `codec` with the paper's.
pub fn packets(codec: &dyn Codec, seed: u64, end: End) -> Result<Agreed, String> {
    run(Check { codec, ..Check::new(seed) }, seed, |check| {
        limits_write::run(check)?;
        limits::run(check)?;
        limits_width::run(check)?;
        until(check, end, random::case)
    })
}

/// Compares `receiver` with the paper's. The STATUS that it writes is read by `codec`.
pub fn receiver(codec: &dyn Codec, receiver: &dyn Receiver, seed: u64, end: End) -> Result<Agreed, String> {
    run(Check { codec, receiver, ..Check::new(seed) }, seed, |check| {
        for _ in 0..50 {
            pass::case(check)?;
        }
        receiver::limits::run(check)?;
        receiver::limits_area::run(check)?;
        receiver::limits_width::run(check)?;
        receiver::limits_stamp::run(check)?;
        until(check, end, pass::case)
    })
}

/// Compares `planner` with the paper's.
pub fn plans(planner: &dyn Planner, seed: u64, end: End) -> Result<Agreed, String> {
    run(Check { planner, ..Check::new(seed) }, seed, |check| {
        plan::limits::run(check)?;
        until(check, end, plan::cases::case)
    })
}

/// Compares `bitmaps` with the paper's, and holds both with `receiver`, which is compared too.
pub fn bitmaps(receiver: &dyn Receiver, bitmaps: &dyn BitmapReceiver, seed: u64, end: End) -> Result<Agreed, String> {
    run(Check { receiver, bitmaps, ..Check::new(seed) }, seed, |check| {
        for _ in 0..20 {
            bitmap::cases::case(check)?;
        }
        bitmap::limits_state::run(check)?;
        bitmap::limits::run(check)?;
        until(check, end, bitmap::cases::case)
    })
}

/// Compares `merger` with the paper's, on areas that `receiver` is compared on too.
pub fn merges(receiver: &dyn Receiver, merger: &dyn Merger, seed: u64, end: End) -> Result<Agreed, String> {
    run(Check { receiver, merger, ..Check::new(seed) }, seed, |check| {
        for _ in 0..50 {
            merge::cases::case(check)?;
        }
        merge::limits::run(check)?;
        merge::limits_area::run(check)?;
        until(check, end, merge::cases::case)
    })
}

/// Tries the laws of merging on `merger`, without the paper's answers.
fn laws_alone(merger: &dyn Merger, seed: u64, end: End) -> Result<Agreed, String> {
    run(Check { merger, alone: true, ..Check::new(seed) }, seed, |check| until(check, end, merge::laws::trial))
}

/// Compares `files` with the paper's.
pub fn settings(files: &dyn SettingsFile, seed: u64, end: End) -> Result<Agreed, String> {
    run(Check { settings: files, ..Check::new(seed) }, seed, |check| {
        settings::limits::run(check)?;
        until(check, end, settings::cases::case)
    })
}

/// Tries the two orders on `receiver`, without the paper's answers.
fn orders_alone(receiver: &dyn Receiver, seed: u64, end: End) -> Result<Agreed, String> {
    run(Check { receiver, alone: true, ..Check::new(seed) }, seed, |check| until(check, end, orders::trial))
}

/// Holds `bitmaps` with the paper's table, without the paper's answers for marks.
fn both_alone(bitmaps: &dyn BitmapReceiver, seed: u64, end: End) -> Result<Agreed, String> {
    run(Check { bitmaps, alone: true, ..Check::new(seed) }, seed, |check| until(check, end, bitmap::both::trial))
}

fn run(mut check: Check, seed: u64, whole: impl FnOnce(&mut Check) -> Step) -> Result<Agreed, String> {
    match whole(&mut check) {
        Ok(()) | Err(Stop::Enough) => Ok(Agreed { calls: check.calls, tally: check.tally }),
        Err(Stop::Mismatch(what)) => Err(format!("call {}, seed {seed}: {what}", check.calls)),
    }
}

/// Random cases; a long run says now and then that it goes on.
fn until(check: &mut Check, end: End, case: fn(&mut Check) -> Step) -> Step {
    check.stop_at = end.calls;
    check.until = end.until;
    let mut told = 0;
    loop {
        case(check)?;
        if check.calls / 10_000_000 > told {
            told = check.calls / 10_000_000;
            println!("compare: {told}0,000,000 calls so far");
        }
    }
}

/// Runs the comparisons against each wrong codec, receiver, planner, reader and writer of settings, and prints what was found of
/// it. All must be found; how many there are.
pub fn self_check(seed: u64, calls: u64) -> Result<usize, String> {
    let end = End::after(calls);
    for wrong in wrong::ALL {
        found("codec", wrong, packets(wrong, seed, end), seed)?;
    }
    for wrong in receiver::wrong::ALL {
        found("receiver", wrong, receiver(&Paper, wrong, seed, end), seed)?;
    }
    for wrong in receiver::wrong::OF_ORDERS {
        found("receiver by the two orders", wrong, orders_alone(wrong, seed, end), seed)?;
    }
    for wrong in plan::wrong::ALL {
        found("planner", wrong, plans(wrong, seed, end), seed)?;
    }
    for wrong in bitmap::wrong::ALL {
        found("receiver with marks", wrong, bitmaps(&Paper, wrong, seed, end), seed)?;
    }
    for wrong in bitmap::wrong::BESIDE_THE_TABLE {
        found("receiver with marks beside the table", wrong, both_alone(wrong, seed, end), seed)?;
    }
    for wrong in settings::wrong::ALL {
        found("reader or writer of settings", wrong, settings(wrong, seed, end), seed)?;
    }
    let packets_and_areas = wrong::ALL.len() + receiver::wrong::ALL.len();
    Ok(packets_and_areas + plan::wrong::ALL.len() + bitmap::wrong::ALL.len() + settings::wrong::ALL.len())
}

/// The same for merging.
pub fn self_check_merges(seed: u64, calls: u64) -> Result<usize, String> {
    let end = End::after(calls);
    for wrong in merge::wrong::ALL {
        found("merging", wrong, merges(&Paper, wrong, seed, end), seed)?;
    }
    for wrong in merge::wrong::OF_LAWS {
        found("merging by its laws", wrong, laws_alone(wrong, seed, end), seed)?;
    }
    Ok(merge::wrong::ALL.len())
}

fn found(what: &str, wrong: &dyn Debug, outcome: Result<Agreed, String>, seed: u64) -> Result<(), String> {
    match outcome {
        Ok(_) => Err(format!("the wrong {what} {wrong:?} was not found, seed {seed}")),
        Err(how) => {
            println!("found {what} {wrong:?}: {}", how.lines().next().unwrap_or_default());
            Ok(())
        }
    }
}
