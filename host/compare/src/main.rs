//! Compares the archive libsaratoga.a with the codec, the two receivers, the planner, the merging and the reader and writer of
//! settings of host/paper: every field of every answer and every octet of every lent buffer, area and list, over many calls.

#![deny(unsafe_code)]

#[macro_use]
mod wrong_list;

mod answer;
mod bitmap;
mod check;
mod codec;
mod faults;
#[allow(unsafe_code)]
mod ffi;
mod fields;
mod lent;
mod limits;
mod limits_width;
mod limits_write;
mod merge;
mod packets;
mod plan;
mod random;
mod receiver;
mod rng;
mod round_trip;
mod run;
mod settings;
mod tally;
#[cfg(test)]
mod tests;
mod wrong;
mod wrong_width;

use std::process::ExitCode;
use std::time::{Duration, Instant, SystemTime, UNIX_EPOCH};

use run::End;

const HELP: &str = "\
compare: compares libsaratoga.a with a codec, two receivers, a planner, a merging, and a reader and writer of settings that were
written from the papers alone

usage: compare [--seed N] [--calls N] [--receiver-calls N] [--plan-calls N] [--bitmap-calls N] [--merge-calls N] [--settings-calls N]
               [--seconds N] [--self-check] [--help]

  --seed N             start the random numbers from N (else from the clock); the seed is printed
  --calls N            make N calls on packets, 3,000,000 unless given; each limit is always tried, in some 650,000
  --receiver-calls N   make N calls on areas, 1,000,000 unless given; each limit is always tried, in some 550,000
  --plan-calls N       make N calls on plans, 1,000,000 unless given; each limit is always tried, in some 510,000
  --bitmap-calls N     make N calls on marks and the table beside them, 200,000 unless given; each limit is always tried,
                       in some 32,000
  --merge-calls N      make N calls on pairs of areas, 200,000 unless given; each limit is always tried, in some 60,000
  --settings-calls N   make N calls on settings, 20,000,000 unless given; each limit, and each file of up to three octets,
                       is always tried, in some 18,550,000
  --seconds N          make calls for N seconds instead, two sevenths of the time on areas and one on each other kind; what is
                       always tried may take more
  --self-check         compare with codecs, receivers, planners, mergings and readers and writers of settings that are wrong
                       in one way each instead: each must be found
  --help               print this

A run fails with status 1 at the first answer or octet that differs, which it prints with the packet and the area or the
list, or where a refusal that can occur never did.
";

struct Options {
    seed: u64,
    calls: u64,
    receiver_calls: u64,
    plan_calls: u64,
    bitmap_calls: u64,
    merge_calls: u64,
    settings_calls: u64,
    seconds: Option<u64>,
    self_check: bool,
}

fn main() -> ExitCode {
    let options = match options() {
        Ok(Some(options)) => options,
        Ok(None) => {
            print!("{HELP}");
            return ExitCode::SUCCESS;
        }
        Err(what) => {
            eprintln!("compare: {what}\n\n{HELP}");
            return ExitCode::from(2);
        }
    };
    println!("compare: seed {}", options.seed);
    let outcome = match options.self_check {
        true => self_check(&options),
        false => compare(&options),
    };
    match outcome {
        Ok(()) => ExitCode::SUCCESS,
        Err(what) => {
            eprintln!("compare: FAILED: {what}");
            ExitCode::FAILURE
        }
    }
}

fn compare(options: &Options) -> Result<(), String> {
    let seed = options.seed;
    let start = Instant::now();
    let end = |sevenths: u32, calls: u64| match options.seconds {
        Some(seconds) => End::at(start + Duration::from_secs(seconds) * sevenths / 7),
        None => End::after(calls),
    };
    let packets = run::packets(&ffi::Archive, seed, end(1, options.calls))?;
    println!("compare: {} calls on packets agree, seed {seed}", packets.calls);
    let mut missing = packets.tally.missing(0);
    let mut tally = packets.tally;
    let areas = run::receiver(&ffi::Archive, &ffi::Archive, seed, end(3, options.receiver_calls))?;
    println!("compare: {} calls on areas agree, seed {seed}", areas.calls);
    missing.extend(areas.tally.missing(1));
    tally = tally.with(&areas.tally);
    let plans = run::plans(&ffi::Archive, seed, end(4, options.plan_calls))?;
    println!("compare: {} calls on plans agree, seed {seed}", plans.calls);
    missing.extend(plans.tally.missing(2));
    tally = tally.with(&plans.tally);
    let marks = run::bitmaps(&ffi::Archive, &ffi::Archive, seed, end(5, options.bitmap_calls))?;
    println!("compare: {} calls on marks and the table beside them agree, seed {seed}", marks.calls);
    missing.extend(marks.tally.missing(3));
    tally = tally.with(&marks.tally);
    let merges = run::merges(&ffi::Archive, &ffi::Archive, seed, end(6, options.merge_calls))?;
    println!("compare: {} calls on pairs of areas agree, seed {seed}", merges.calls);
    missing.extend(merges.tally.missing(4));
    tally = tally.with(&merges.tally);
    let settings = run::settings(&ffi::Archive, seed, end(7, options.settings_calls))?;
    println!("compare: {} calls on settings agree, seed {seed}", settings.calls);
    missing.extend(settings.tally.missing(5));
    tally = tally.with(&settings.tally);
    missing.extend(tally.never().into_iter().map(|number| format!("{number} from any function")));
    print!("{tally}");
    match missing.is_empty() {
        true => Ok(()),
        false => Err(format!("never occurred, seed {seed}: {}", missing.join(", "))),
    }
}

fn self_check(options: &Options) -> Result<(), String> {
    let others = run::self_check(options.seed, options.calls)?;
    let count = others + run::self_check_merges(options.seed, options.calls)?;
    println!("compare: all {count} wrong codecs, receivers, planners, mergings and settings are found, seed {}", options.seed);
    Ok(())
}

/// What the command line asks for; none where that is help.
fn options() -> Result<Option<Options>, String> {
    let clock = SystemTime::now().duration_since(UNIX_EPOCH).map_or(0, |time| time.as_nanos() as u64);
    let mut options = Options {
        seed: clock,
        calls: 3_000_000,
        receiver_calls: 1_000_000,
        plan_calls: 1_000_000,
        bitmap_calls: 200_000,
        merge_calls: 200_000,
        settings_calls: 20_000_000,
        seconds: None,
        self_check: false,
    };
    let mut words = std::env::args().skip(1);
    while let Some(word) = words.next() {
        let mut number = || {
            let text = words.next().ok_or(format!("{word} needs a number"))?;
            text.parse().map_err(|_| format!("{text} is no number"))
        };
        match word.as_str() {
            "--seed" => options.seed = number()?,
            "--calls" => options.calls = number()?,
            "--receiver-calls" => options.receiver_calls = number()?,
            "--plan-calls" => options.plan_calls = number()?,
            "--bitmap-calls" => options.bitmap_calls = number()?,
            "--merge-calls" => options.merge_calls = number()?,
            "--settings-calls" => options.settings_calls = number()?,
            "--seconds" => options.seconds = Some(number()?),
            "--self-check" => options.self_check = true,
            "--help" | "-h" => return Ok(None),
            _ => return Err(format!("unknown option {word}")),
        }
    }
    Ok(Some(options))
}
