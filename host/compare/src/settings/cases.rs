//! The random part of a run: valid files, bent ones, any octets, and settings of every kind.

use paper::settings::form;

use crate::answer::Settings;
use crate::check::{require, Check, Step};
use crate::rng::Rng;
use crate::settings::limits::file;

/// One case, of some calls.
pub fn case(check: &mut Check) -> Step {
    match check.rng.below(8) {
        0 => any_octets(check),
        1 | 2 => any_numbers(check),
        3 => any_settings(check),
        _ => bent_file(check),
    }
}

fn valid(rng: &mut Rng) -> Settings {
    let version = rng.between(1, 2);
    let has_interval = rng.below(2);
    let has_partner = if version == 2 { rng.below(2) } else { 0 };
    Settings {
        version,
        largest_payload: rng.number(16).clamp(1, 65_000),
        has_interval,
        interval: has_interval * rng.number(12).clamp(1, 3_600),
        has_partner,
        partner: has_partner * rng.number(32),
        ..Settings::default()
    }
}

/// A valid file, which reads back, and what is bent from it.
fn bent_file(check: &mut Check) -> Step {
    let settings = valid(&mut check.rng);
    let room = check.rng.place(0, 20);
    let (written, mut octets) = check.write_settings(&settings, room)?;
    if written.number != 0 {
        return Ok(());
    }
    let known = check.rng.between(settings.version, 3);
    let told = check.read_settings(&octets, known)?;
    require(told == settings, || format!("{told:?} reads back from {settings:?}"))?;
    for _ in 0..check.rng.pick(&[1, 1, 2, 3]) {
        bend(&mut octets, &mut check.rng);
    }
    check.read_by_all(&octets)
}

/// One octet changed, left out, put in or doubled; or the file cut, or longer.
fn bend(octets: &mut Vec<u8>, rng: &mut Rng) {
    let at = rng.place(0, octets.len().max(1) - 1);
    let other = match rng.below(3) {
        0 => rng.pick(&[0, 1, 2, 3, 4, 127, 128, 129, 255]),
        _ => rng.any() as u8,
    };
    match rng.below(6) {
        0 if !octets.is_empty() => octets[at] = other,
        1 if !octets.is_empty() => octets[at] ^= 1 << rng.below(8),
        2 if !octets.is_empty() => drop(octets.remove(at)),
        3 if !octets.is_empty() => octets.insert(at, octets[at]),
        4 => octets.truncate(at),
        _ => octets.insert(at, other),
    }
}

/// Numbers in their forms, few of them as they should be.
fn any_numbers(check: &mut Check) -> Step {
    let rng = &mut check.rng;
    let count = rng.place(0, 8);
    let mut numbers: Vec<u64> = (0..count).map(|_| if rng.one_in(6) { rng.any() } else { rng.between(0, 4) }).collect();
    if let Some(version) = numbers.first_mut().filter(|_| !rng.one_in(4)) {
        *version = rng.between(1, 2);
    }
    let mut octets = file(&numbers);
    if rng.one_in(3) {
        bend(&mut octets, rng);
    }
    check.read_by_all(&octets)
}

fn any_octets(check: &mut Check) -> Step {
    let rng = &mut check.rng;
    let len = rng.place(0, 24);
    let mut octets = rng.octets(len);
    if rng.one_in(2) {
        octets.splice(0..0, form(rng.between(1, 2)));
    }
    check.read_by_all(&octets)
}

fn any_settings(check: &mut Check) -> Step {
    let rng = &mut check.rng;
    let mut settings = valid(rng);
    for _ in 0..rng.below(3) {
        let number = rng.number(64);
        match rng.below(6) {
            0 => settings.version = number,
            1 => settings.largest_payload = number,
            2 => settings.has_interval = number,
            3 => settings.interval = number,
            4 => settings.has_partner = number,
            _ => settings.partner = number,
        }
    }
    let room = rng.place(0, 18);
    check.write_settings(&settings, room)?;
    Ok(())
}
