//! The words of an area as docs/AREA.md lays them out, whatever they hold: to fill and damage areas, and for wrong
//! receivers.

use std::ops::Range;

/// Words and octets of the layout, and places for transfers and for the runs of each.
pub const WORDS: usize = 2_161;
pub const OCTETS: usize = 17_288;
pub const TRANSFERS: usize = 16;
pub const RUNS: usize = 64;

/// The number of open transfers.
pub const COUNT: usize = 0;

/// The head of transfer i, by its fields.
pub fn id(i: usize) -> usize {
    1 + 5 * i
}

pub fn width(i: usize) -> usize {
    2 + 5 * i
}

pub fn length(i: usize) -> usize {
    3 + 5 * i
}

pub fn run_count(i: usize) -> usize {
    4 + 5 * i
}

pub fn stamped(i: usize) -> usize {
    5 + 5 * i
}

/// Run j of transfer i.
pub fn start(i: usize, j: usize) -> usize {
    81 + RUNS * i + j
}

pub fn stop(i: usize, j: usize) -> usize {
    1_105 + RUNS * i + j
}

/// Half h of its timestamp: the first eight octets, and the last.
pub fn half(i: usize, h: usize) -> usize {
    2_129 + 2 * i + h
}

pub fn get(area: &[u8], word: usize) -> u64 {
    u64::from_le_bytes(area[8 * word..8 * word + 8].try_into().expect("eight octets"))
}

pub fn set(area: &mut [u8], word: usize, value: u64) {
    area[8 * word..8 * word + 8].copy_from_slice(&value.to_le_bytes());
}

/// Sets a word to what becomes of it.
pub fn change(area: &mut [u8], word: usize, new: impl FnOnce(u64) -> u64) {
    set(area, word, new(get(area, word)));
}

/// Copies words to another place.
pub fn copy(area: &mut [u8], from: Range<usize>, to: usize) {
    area.copy_within(8 * from.start..8 * from.end, 8 * to);
}

/// A transfer's words, judged by nothing.
#[derive(Clone, Debug, PartialEq, Eq)]
pub struct Entry {
    pub id: u64,
    pub width: u64,
    pub length: u64,
    pub runs: Vec<(u64, u64)>,
    /// 1 where a timestamp is kept, 0 where none is.
    pub stamped: u64,
    /// The two words of the timestamp: stored where the word above is 1, and read always.
    pub halves: [u64; 2],
}

/// The transfers that the counts speak of; none where there is no room for so many transfers or runs.
pub fn entries(area: &[u8]) -> Option<Vec<Entry>> {
    let entry = |i: usize| {
        let run = |j: usize| (get(area, start(i, j)), get(area, stop(i, j)));
        Some(Entry {
            id: get(area, id(i)),
            width: get(area, width(i)),
            length: get(area, length(i)),
            runs: (0..count(area, run_count(i), RUNS)?).map(run).collect(),
            stamped: get(area, stamped(i)),
            halves: [0, 1].map(|h| get(area, half(i, h))),
        })
    };
    (0..count(area, COUNT, TRANSFERS)?).map(entry).collect()
}

/// The word as a count, if it is at most `most`.
fn count(area: &[u8], word: usize, most: usize) -> Option<usize> {
    usize::try_from(get(area, word)).ok().filter(|&count| count <= most)
}

/// Stores the transfers in the places that they use.
pub fn store(entries: &[Entry], area: &mut [u8]) {
    set(area, COUNT, entries.len() as u64);
    for (i, entry) in entries.iter().enumerate() {
        store_at(i, entry, area);
    }
}

/// Stores one transfer at a place.
pub fn store_at(i: usize, entry: &Entry, area: &mut [u8]) {
    set(area, id(i), entry.id);
    set(area, width(i), entry.width);
    set(area, length(i), entry.length);
    set(area, run_count(i), entry.runs.len() as u64);
    set(area, stamped(i), entry.stamped);
    if entry.stamped == 1 {
        set(area, half(i, 0), entry.halves[0]);
        set(area, half(i, 1), entry.halves[1]);
    }
    for (j, &run) in entry.runs.iter().enumerate() {
        set(area, start(i, j), run.0);
        set(area, stop(i, j), run.1);
    }
}

/// The words that the counts speak of, as far as there is room for them.
pub fn describe(area: &[u8]) -> String {
    if area.len() < OCTETS {
        return format!("  area of {} octets", area.len());
    }
    let mut lines = vec![format!("  area of {} octets, open: {:#x}", area.len(), get(area, COUNT))];
    for i in 0..get(area, COUNT).min(TRANSFERS as u64) as usize {
        let [id, width, length, count] = [id(i), width(i), length(i), run_count(i)].map(|word| get(area, word));
        let runs = (0..count.min(RUNS as u64) as usize).map(|j| (get(area, start(i, j)), get(area, stop(i, j))));
        let runs: Vec<_> = runs.map(|(start, stop)| format!("{start:#x}..{stop:#x}")).collect();
        lines.push(format!("    Id {id:#x}, width {width}, length {length:#x}, {count} runs: {}", runs.join(", ")));
        let octets: String = area[8 * half(i, 0)..][..16].iter().map(|octet| format!("{octet:02x}")).collect();
        lines.push(format!("      timestamp: {:#x}, {octets}", get(area, stamped(i))));
    }
    lines.join("\n")
}
