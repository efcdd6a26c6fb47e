//! The limits of settings from both sides, every form of a number near a power of 2^7, and every file of up to three octets.

use paper::settings::form;

use crate::answer::Settings;
use crate::check::{require, Check, Step};

/// All of it. The small files come last: they are many.
pub fn run(check: &mut Check) -> Step {
    values(check)?;
    forms(check)?;
    cut_files(check)?;
    written(check)?;
    small_files(check)
}

/// A file of these numbers, each in its form.
pub fn file(numbers: &[u64]) -> Vec<u8> {
    numbers.iter().flat_map(|&number| form(number)).collect()
}

/// Around the ends of each key's values, in both versions and two more.
fn values(check: &mut Check) -> Step {
    let near = |end: u64| (0..5).map(move |by| end.wrapping_add(by).wrapping_sub(2));
    let ends = [0, 1, 2, 3, 127, 128, 3_600, 16_383, 65_000, 65_535, 1 << 32, 1 << 63, u64::MAX];
    for version in 0..4 {
        for number in ends.into_iter().flat_map(near) {
            for known in [0, 1, 2, 3, u64::MAX] {
                check.read_settings(&file(&[number]), known)?;
                check.read_settings(&file(&[version, number]), known)?;
                check.read_settings(&file(&[version, number, 1, 5]), known)?;
            }
            check.read_by_all(&file(&[version, 1, 1, number]))?;
            for key in 0..5 {
                check.read_by_all(&file(&[version, 2, 1, 5, key, number]))?;
                check.read_by_all(&file(&[version, 2, key, 5, number, 7]))?;
                check.read_by_all(&file(&[version, 3, 1, 5, 2, 60, key, number]))?;
                check.read_by_all(&file(&[version, key, 1, 5, 2, 60, 3, number]))?;
                check.read_by_all(&file(&[version, 1, number, key]))?;
            }
        }
    }
    Ok(())
}

/// The forms of every number near a power of 2^7, the one form, longer ones, and of numbers above 2^64 - 1; each cut at every
/// place, and each as version, count, key and value.
fn forms(check: &mut Check) -> Step {
    let powers = (0..=11).map(|groups| 1_u128 << (7 * groups));
    let numbers: Vec<u128> =
        powers.chain([1 << 63, 1 << 64]).flat_map(|power| (power.saturating_sub(3))..=(power + 3)).collect();
    for number in numbers {
        let needed = groups(number);
        for more in 0..4 {
            let octets = long_form(number, needed + more);
            for len in 0..=octets.len() {
                as_every_field(check, &octets[..len], number)?;
            }
        }
    }
    Ok(())
}

fn groups(number: u128) -> usize {
    (128 - number.leading_zeros()).div_ceil(7).max(1) as usize
}

/// A number in so many groups, the last ones 0 where it needs fewer.
fn long_form(number: u128, groups: usize) -> Vec<u8> {
    let group = |at: usize| (number >> (7 * at)) as u8 & 0x7F;
    (0..groups).map(|at| if at + 1 < groups { group(at) | 0x80 } else { group(at) }).collect()
}

fn as_every_field(check: &mut Check, octets: &[u8], number: u128) -> Step {
    let whole = u64::try_from(number).is_ok_and(|number| form(number) == octets);
    for (before, after) in [
        (vec![], vec![1, 1, 5]),
        (vec![1], vec![1, 5]),
        (vec![2], vec![1, 5, 2, 60, 3, 0]),
        (vec![1, 1], vec![5]),
        (vec![2, 2, 1, 5], vec![7]),
        (vec![1, 1, 1], vec![]),
        (vec![1, 2, 1, 5, 2], vec![]),
        (vec![2, 2, 1, 5, 3], vec![]),
        (vec![2, 3, 1, 5, 2, 60, 3], vec![]),
    ] {
        check.read_by_all(&[&before[..], octets].concat())?;
        check.read_by_all(&[&before[..], octets, &after].concat())?;
        if before == [2, 2, 1, 5, 3] {
            let told = check.read_settings(&[&before[..], octets].concat(), 2)?;
            let taken = whole && number < 1 << 32;
            require(told.number == 0 || !taken, || format!("{told:?}: partner {number} was not taken"))?;
            require(!taken || u128::from(told.partner) == number, || format!("{told:?} of the partner {number}"))?;
        }
    }
    Ok(())
}

/// Settings of every kind, with their numbers at the ends and where the forms get longer.
fn valid() -> Vec<Settings> {
    let mut all = vec![];
    for version in 1..=2 {
        for largest_payload in [1, 127, 128, 16_383, 16_384, 65_000] {
            for (has_interval, interval) in [(0, 0), (1, 1), (1, 127), (1, 128), (1, 3_600)] {
                for (has_partner, partner) in [(0, 0), (1, 0), (1, 127), (1, 128), (1, 1 << 28), (1, 0xFFFF_FFFF)] {
                    let settings = Settings {
                        version,
                        largest_payload,
                        has_interval,
                        interval,
                        has_partner,
                        partner,
                        ..Settings::default()
                    };
                    if version == 2 || has_partner == 0 {
                        all.push(settings);
                    }
                }
            }
        }
    }
    all
}

/// Every beginning of valid files is unfinished, and everything after one is too much (R18.9).
fn cut_files(check: &mut Check) -> Step {
    for settings in valid() {
        let (written, octets) = check.write_settings(&settings, 15)?;
        require(written.number == 0, || format!("{written:?} of {settings:?}"))?;
        check.read_by_all(&octets)?;
        let told = check.read_settings(&octets, settings.version)?;
        require(told == settings, || format!("{told:?} reads back from {settings:?}"))?;
        for len in 0..octets.len() {
            check.read_by_all(&octets[..len])?;
            let told = check.read_settings(&octets[..len], 2)?;
            require(told.number == 1, || format!("{told:?} of {len} octets of {settings:?}"))?;
        }
        for after in [0, 1, 127, 128, 255] {
            check.read_by_all(&[&octets[..], &[after]].concat())?;
        }
    }
    Ok(())
}

/// Valid settings into every room, and what no file holds in more than one way at a time.
fn written(check: &mut Check) -> Step {
    for settings in valid() {
        for room in 0..18 {
            check.write_settings(&settings, room)?;
        }
        check.write_settings(&Settings { has_interval: settings.has_interval * u64::MAX, ..settings }, 15)?;
        check.write_settings(&Settings { has_partner: settings.has_partner << 63, ..settings }, 15)?;
    }
    for version in [0, 1, 2, 3, u64::MAX] {
        for largest_payload in [0, 1, 65_000, 65_001, u64::MAX] {
            for has_interval in [0, 1, 2] {
                for interval in [0, 1, 3_600, 3_601, u64::MAX] {
                    for has_partner in [0, 1, 1 << 32] {
                        for partner in [0, 1, 0xFFFF_FFFF, 1 << 32, u64::MAX] {
                            let settings = Settings {
                                version,
                                largest_payload,
                                has_interval,
                                interval,
                                has_partner,
                                partner,
                                ..Settings::default()
                            };
                            check.write_settings(&settings, 0)?;
                            check.write_settings(&settings, 15)?;
                        }
                    }
                }
            }
        }
    }
    Ok(())
}

/// Every file of up to three octets, read by one that knows version 2; those that begin with 0 to 3, and all of up to two
/// octets, by others too.
fn small_files(check: &mut Check) -> Step {
    check.read_by_all(&[])?;
    for first in 0..=255 {
        check.read_by_all(&[first])?;
        for second in 0..=255 {
            check.read_by_all(&[first, second])?;
            for third in 0..=255 {
                match first {
                    0..=3 => check.read_by_all(&[first, second, third])?,
                    _ => drop(check.read_settings(&[first, second, third], 2)?),
                }
            }
        }
    }
    Ok(())
}
