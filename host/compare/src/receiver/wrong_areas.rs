//! What the wrong receivers do with an area: they lay it out otherwise, look at places that nothing uses, or leave other
//! octets there than they found.

use std::ops::Range;

use paper::area::take_up;

use crate::receiver::words::{self, entries, get, set, Entry, OCTETS, RUNS, TRANSFERS, WORDS};
use crate::receiver::wrong::Wrong::{self, *};

impl Wrong {
    /// A call on the area as this receiver lays it out.
    pub fn laid_out<T>(self, area: &mut [u8], call: impl FnOnce(&mut [u8]) -> T) -> T {
        let other: fn(usize) -> usize = match self {
            HeadsByField => by_field,
            HalvesStoredSwapped => other_half,
            StampsByHalf => by_half,
            _ => |word| word,
        };
        let otherwise = matches!(self, HighestFirst | HeadsByField | HalvesStoredSwapped | StampsByHalf | HalvesTurned);
        if !otherwise || area.len() < OCTETS {
            return call(area);
        }
        let turns = |word: usize| self == HighestFirst || self == HalvesTurned && word >= words::half(0, 0);
        let turned = |word: usize, number: u64| if turns(word) { number.swap_bytes() } else { number };
        let mut seen = area.to_vec();
        for word in 0..WORDS {
            set(&mut seen, word, turned(word, get(area, other(word))));
        }
        let answer = call(&mut seen);
        for word in 0..WORDS {
            set(area, other(word), turned(word, get(&seen, word)));
        }
        answer
    }

    /// Whether this receiver refuses an area that holds a table.
    pub fn refuses(self, area: &[u8]) -> bool {
        if take_up(area).is_err() {
            return false;
        }
        let stray = |words: Range<usize>| words.into_iter().any(|word| get(area, word) != 0);
        let found = entries(area).expect("a table");
        let rows = |i: usize, from: usize| {
            stray(words::start(i, from)..words::start(i, RUNS)) || stray(words::stop(i, from)..words::stop(i, RUNS))
        };
        match self {
            LongerRefused => area.len() > OCTETS,
            SixteenRefused => found.iter().any(|entry| entry.width == 16),
            NextHeadRefused => found.len() < TRANSFERS && stray(words::id(found.len())..words::id(found.len() + 1)),
            StrayHeadRefused => stray(words::id(found.len())..words::id(TRANSFERS)),
            StrayRunRefused => found.iter().enumerate().any(|(i, entry)| rows(i, entry.runs.len())),
            StrayRowRefused => (found.len()..TRANSFERS).any(|i| rows(i, 0)),
            LastWordRefused => found.get(15).is_none_or(|last| last.stamped == 0) && stray(WORDS - 1..WORDS),
            StrayHalvesRefused => {
                let bare = |(i, entry): (usize, &Entry)| entry.stamped == 0 && stray(halves(i));
                found.iter().enumerate().any(bare)
            }
            _ => false,
        }
    }

    /// What this receiver leaves otherwise in an area that an accepted call has changed.
    pub fn leave(self, before: &[u8], area: &mut [u8]) {
        // Where words are laid out otherwise, there may be none.
        let (Some(old), Some(new)) = (held(before), held(area)) else { return };
        if old == new {
            return;
        }
        if self == UnusedCleared {
            area[..OCTETS].fill(0);
            return words::store(&new, area);
        }
        let place = old.iter().zip(&new).position(|(old, new)| old != new).unwrap_or(old.len().min(new.len()));
        match new.len().cmp(&old.len()) {
            std::cmp::Ordering::Less => self.leave_closed(before, area, place, &old, &new),
            std::cmp::Ordering::Greater => self.leave_opened(before, area, place, &new),
            std::cmp::Ordering::Equal => self.leave_recorded(before, area, place, &old[place], &new[place]),
        }
    }

    /// The transfer at a place was closed.
    fn leave_closed(self, before: &[u8], area: &mut [u8], place: usize, old: &[Entry], new: &[Entry]) {
        let (last, runs) = (old.len() - 1, old[old.len() - 1].runs.len());
        let behind = match self {
            WholeMovedDown => old.len(),
            AllMovedDown => TRANSFERS,
            ClosedHeadCleared => return clear(area, words::id(last)..words::id(last + 1)),
            ClosedRunsCleared => {
                clear(area, words::start(last, 0)..words::start(last, runs));
                return clear(area, words::stop(last, 0)..words::stop(last, runs));
            }
            ClosedStampCleared if old[last].stamped == 1 => return clear(area, halves(last)),
            HalvesMovedDown => return (place..last).for_each(|i| copy_halves(before, i + 1, area, i)),
            _ => return,
        };
        area.copy_from_slice(before);
        for side in [words::start, words::stop] {
            words::copy(area, side(place + 1, 0)..side(behind, 0), side(place, 0));
        }
        words::copy(area, words::id(place + 1)..words::id(behind), words::id(place));
        words::store(new, area);
    }

    /// One was opened there.
    fn leave_opened(self, before: &[u8], area: &mut [u8], place: usize, new: &[Entry]) {
        match self {
            LengthHighestFirst => words::change(area, words::length(place), u64::swap_bytes),
            OpenedStampCleared => clear(area, halves(place)),
            HalvesMovedUp => (place + 1..new.len()).for_each(|i| copy_halves(before, i - 1, area, i)),
            OpenedCleared => {
                clear(area, words::start(place, 0)..words::start(place, RUNS));
                clear(area, words::stop(place, 0)..words::stop(place, RUNS));
            }
            WholeMovedUp => {
                area.copy_from_slice(before);
                for side in [words::start, words::stop] {
                    words::copy(area, side(place, 0)..side(new.len() - 1, 0), side(place + 1, 0));
                }
                words::store(new, area);
            }
            _ => {}
        }
    }

    /// Its runs are others.
    fn leave_recorded(self, before: &[u8], area: &mut [u8], place: usize, old: &Entry, new: &Entry) {
        let (had, has) = (old.runs.len(), new.runs.len());
        let first = old.runs.iter().zip(&new.runs).position(|(old, new)| old != new).unwrap_or(had.min(has));
        match self {
            JoinedCleared if has < had => {
                clear(area, words::start(place, has)..words::start(place, had));
                clear(area, words::stop(place, has)..words::stop(place, had));
            }
            RowMovedUp | RowMovedDown if (has > had) == (self == RowMovedUp) && has != had => {
                // From the run behind the one that was made: where it stood, to where it stands.
                let (from, to) = if has > had { (first, first + 1) } else { (first + 1 + had - has, first + 1) };
                area.copy_from_slice(before);
                for side in [words::start, words::stop] {
                    words::copy(area, side(place, from)..side(place, from + RUNS - from.max(to)), side(place, to));
                }
                words::store_at(place, new, area);
            }
            JoinedSwapped if has < had => {
                for (j, run) in (has..had).zip(&old.runs[first..]) {
                    set(area, words::start(place, j), run.0);
                    set(area, words::stop(place, j), run.1);
                }
            }
            _ => {}
        }
    }
}

/// The transfers of an area, if it is long enough and its counts have room.
fn held(area: &[u8]) -> Option<Vec<Entry>> {
    area.get(..OCTETS).and_then(entries)
}

fn clear(area: &mut [u8], words: Range<usize>) {
    area[8 * words.start..8 * words.end].fill(0);
}

/// The words of the timestamp at a place.
fn halves(i: usize) -> Range<usize> {
    words::half(i, 0)..words::half(i + 1, 0)
}

/// Both words of one place to another, of another area.
fn copy_halves(from: &[u8], at: usize, to: &mut [u8], place: usize) {
    for h in [0, 1] {
        set(to, words::half(place, h), get(from, words::half(at, h)));
    }
}

/// Where a word of a head stands when heads stand by their fields.
fn by_field(word: usize) -> usize {
    match word {
        1..=80 => 1 + TRANSFERS * ((word - 1) % 5) + (word - 1) / 5,
        _ => word,
    }
}

/// Where a half of a timestamp stands when the other comes first.
fn other_half(word: usize) -> usize {
    match word.checked_sub(words::half(0, 0)) {
        Some(half) => words::half(half / 2, 1 - half % 2),
        None => word,
    }
}

/// Where it stands when timestamps stand by their halves.
fn by_half(word: usize) -> usize {
    match word.checked_sub(words::half(0, 0)) {
        Some(half) => words::half(0, 0) + TRANSFERS * (half % 2) + half / 2,
        None => word,
    }
}

/// The places of transfers where there is none, of an area that holds a table.
pub fn unused_heads(area: &[u8]) -> Range<usize> {
    match take_up(area) {
        Ok(table) => table.transfers.len()..TRANSFERS,
        Err(_) => 0..0,
    }
}
