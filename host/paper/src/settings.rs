//! A plant's settings file, read and written by part 18 of docs/RULES.md.

use std::ops::RangeInclusive;

use crate::refusal::Refusal;

/// A plant's settings, as they are told by a reader and taken by a writer (R18.7, R18.8). Where there is no interval or no
/// partner its number is 0; a writer may be given another, and refuses it.
#[derive(Clone, Copy, Debug, Default, PartialEq, Eq)]
pub struct Settings {
    pub version: u64,
    pub largest_payload: u64,
    pub has_interval: bool,
    pub interval: u64,
    pub has_partner: bool,
    pub partner: u64,
}

/// R18.1: the form of a number. As many groups as its bits need, and one for 0.
pub fn form(number: u64) -> Vec<u8> {
    let bits = 64 - number.leading_zeros();
    let groups = bits.div_ceil(7).max(1);
    let group = |at: u32| (number >> (7 * at)) as u8 & 0x7F;
    (0..groups).map(|at| if at + 1 < groups { group(at) | 0x80 } else { group(at) }).collect()
}

/// R18.2: the number that `octets` begin with, and how many octets it has. Whether these are its form is asked of `form`.
pub fn number(octets: &[u8]) -> Result<(u64, usize), Refusal> {
    let goes_on = |octet: &u8| *octet >= 0x80;
    if octets.len() >= 10 && octets[..9].iter().all(goes_on) && octets[9] > 1 {
        return Err(Refusal::Settings);
    }
    let last = octets.iter().position(|octet| !goes_on(octet)).ok_or(Refusal::Truncated)?;
    let number = octets[..=last].iter().rev().fold(0, |high, octet| high << 7 | u64::from(octet & 0x7F));
    match form(number) == octets[..=last] {
        true => Ok((number, last + 1)),
        false => Err(Refusal::Settings),
    }
}

/// R18.5: the versions that a reader takes which knows those up to `known`.
fn versions(known: u64) -> RangeInclusive<u64> {
    1..=known.min(2)
}

/// R18.4: the values that a key of a version takes, if it has that key.
fn values(version: u64, key: u64) -> Option<RangeInclusive<u64>> {
    match (key, version) {
        (1, _) => Some(1..=65_000),
        (2, _) => Some(1..=3_600),
        (3, 2) => Some(0..=0xFFFF_FFFF),
        _ => None,
    }
}

/// What is left of a file.
struct Rest<'a>(&'a [u8]);

impl Rest<'_> {
    fn number(&mut self) -> Result<u64, Refusal> {
        let (number, len) = number(self.0)?;
        self.0 = &self.0[len..];
        Ok(number)
    }
}

/// R18.6: a whole file, by a reader that knows versions up to `known`.
pub fn read(file: &[u8], known: u64) -> Result<Settings, Refusal> {
    let mut rest = Rest(file);
    let version = rest.number()?;
    if !versions(known).contains(&version) {
        return Err(Refusal::SettingsVersion);
    }
    let count = rest.number()?;
    // Keys rise and none is above 3: whatever the count is, a fourth pair is refused.
    let mut found: [Option<u64>; 4] = [None; 4];
    let mut last = 0;
    for _ in 0..count {
        let key = rest.number()?;
        let allowed = values(version, key).filter(|_| key > last).ok_or(Refusal::Settings)?;
        let value = rest.number()?;
        if !allowed.contains(&value) {
            return Err(Refusal::Settings);
        }
        found[key as usize] = Some(value);
        last = key;
    }
    match found {
        [_, Some(largest_payload), interval, partner] if rest.0.is_empty() => Ok(Settings {
            version,
            largest_payload,
            has_interval: interval.is_some(),
            interval: interval.unwrap_or(0),
            has_partner: partner.is_some(),
            partner: partner.unwrap_or(0),
        }),
        _ => Err(Refusal::Settings),
    }
}

/// The pairs that settings stand for, with rising keys; none where no file holds them (R18.8).
fn pairs(settings: &Settings) -> Option<Vec<(u64, u64)>> {
    let Settings { version, largest_payload, has_interval, interval, has_partner, partner } = *settings;
    let each = [(1, true, largest_payload), (2, has_interval, interval), (3, has_partner, partner)];
    let mut pairs = vec![];
    for (key, given, value) in each {
        match values(version, key) {
            Some(allowed) if given && allowed.contains(&value) => pairs.push((key, value)),
            _ if !given && value == 0 => {}
            _ => return None,
        }
    }
    Some(pairs)
}

/// R18.8: 24, 25, 20; a file is first made whole aside, then copied into the buffer.
pub fn write(settings: &Settings, out: &mut [u8]) -> Result<usize, Refusal> {
    if !versions(2).contains(&settings.version) {
        return Err(Refusal::SettingsVersion);
    }
    let pairs = pairs(settings).ok_or(Refusal::Settings)?;
    let mut file = [form(settings.version), form(pairs.len() as u64)].concat();
    for (key, value) in pairs {
        file.extend([form(key), form(value)].concat());
    }
    let room = out.get_mut(..file.len()).ok_or(Refusal::Buffer)?;
    room.copy_from_slice(&file);
    Ok(file.len())
}
