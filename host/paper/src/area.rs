//! The table in a lent area, as docs/AREA.md lays it out, and the table's calls on areas. A place of the layout is used
//! where the table has a number for it; the others may hold anything, and keep it.

use crate::layout::{largest, Timestamp};
use crate::read::Hole;
use crate::received::Received;
use crate::refusal::Refusal;
use crate::table::{Listed, Opened, Recorded, State, Table, Transfer, MAX_RUNS, MAX_TRANSFERS};

// The words of the layout: the number of open transfers, a head for each, the starts of their runs, the stops, and the timestamps.
const COUNT: usize = 0;
const HEADS: usize = COUNT + 1;
const HEAD_WORDS: usize = 5;
const STARTS: usize = HEADS + MAX_TRANSFERS * HEAD_WORDS;
const STOPS: usize = STARTS + MAX_TRANSFERS * MAX_RUNS;
const STAMPS: usize = STOPS + MAX_TRANSFERS * MAX_RUNS;
const STAMP_WORDS: usize = 2;
const END: usize = STAMPS + MAX_TRANSFERS * STAMP_WORDS;

/// Octets of the layout.
pub const OCTETS: usize = 8 * END;

/// The words that a table uses, each with its number.
fn used(table: &Table) -> Vec<(usize, u64)> {
    let mut used = vec![(COUNT, table.transfers.len() as u64)];
    for (i, (&id, transfer)) in table.transfers.iter().enumerate() {
        let runs = transfer.received.run_count() as u64;
        let head = [id, transfer.width as u64, transfer.length, runs, transfer.timestamp.is_some().into()];
        used.extend((HEADS + HEAD_WORDS * i..).zip(head));
        // The octets of a timestamp stand as they came; where none is kept, its words are not used.
        let halves = transfer.timestamp.iter().flat_map(|octets| octets.chunks(8)).map(|half| number(half, 0));
        used.extend((STAMPS + STAMP_WORDS * i..).zip(halves));
        for (j, (start, stop)) in transfer.received.runs().enumerate() {
            used.push((STARTS + MAX_RUNS * i + j, start));
            used.push((STOPS + MAX_RUNS * i + j, stop));
        }
    }
    used
}

/// Stores the table in an area that is long enough: its numbers in the places that it uses. Every other octet stays.
pub fn store(table: &Table, area: &mut [u8]) {
    for (word, number) in used(table) {
        area[8 * word..][..8].copy_from_slice(&number.to_le_bytes());
    }
}

/// The number in a word, "the lowest octet first".
fn number(area: &[u8], word: usize) -> u64 {
    u64::from_le_bytes(area[8 * word..][..8].try_into().expect("eight octets"))
}

/// The table that the area holds. "shorter than the layout is 22, and octets past it stay unread".
pub fn take_up(area: &[u8]) -> Result<Table, Refusal> {
    let layout = area.get(..OCTETS).ok_or(Refusal::Area)?;
    table(layout).ok_or(Refusal::Area)
}

/// AREA.md, 2 and 3: "at most 16", and each Id "below 2^32 and above the Id before it".
fn table(area: &[u8]) -> Option<Table> {
    let mut table = Table::default();
    for i in 0..small(number(area, COUNT), MAX_TRANSFERS)? {
        let id = number(area, HEADS + HEAD_WORDS * i);
        if id >= 1 << 32 || table.transfers.last_key_value().is_some_and(|(&before, _)| before >= id) {
            return None;
        }
        table.transfers.insert(id, transfer(area, i)?);
    }
    Some(table)
}

/// "width w, length L (at most 2^w - 1) and a set of received offsets below L", and a timestamp or none. AREA.md, 4 to 9: the width
/// is one of four, the length fits it, there are at most 64 runs, each start is below its stop, each stop at most the length, each
/// start above the stop before it, and the word that says whether a timestamp is kept is 0 or 1.
fn transfer(area: &[u8], i: usize) -> Option<Transfer> {
    let [_, width, length, runs, stamped] = [0, 1, 2, 3, 4].map(|field| number(area, HEADS + HEAD_WORDS * i + field));
    let width = small(width, 16).filter(|width| [2, 4, 8, 16].contains(width))?;
    if u128::from(length) > largest(width) {
        return None;
    }
    let mut received = Received::default();
    let mut before = None;
    for j in 0..small(runs, MAX_RUNS)? {
        let start = number(area, STARTS + MAX_RUNS * i + j);
        let stop = number(area, STOPS + MAX_RUNS * i + j);
        let apart = before.is_none_or(|before| before < start);
        if !apart || start >= stop || stop > length {
            return None;
        }
        received.add(start, stop);
        before = Some(stop);
    }
    let octets: Timestamp = area[8 * (STAMPS + STAMP_WORDS * i)..][..16].try_into().expect("two words");
    let timestamp = (small(stamped, 1)? == 1).then_some(octets);
    Some(Transfer { width, length, received, timestamp })
}

/// The number as a count, if it is at most `most`.
fn small(number: u64, most: usize) -> Option<usize> {
    usize::try_from(number).ok().filter(|&count| count <= most)
}

/// "Making a fresh desk is refused only with 20, where the area is shorter." All places are cleared, "room for 16
/// transfers of 64 runs, all empty".
pub fn fresh(area: &mut [u8]) -> Result<(), Refusal> {
    area.get_mut(..OCTETS).ok_or(Refusal::Buffer)?.fill(0);
    Ok(())
}

/// Opening. "Where a desk area is lent, 22 comes before all".
pub fn open(area: &mut [u8], packet: &[u8]) -> Result<Opened, Refusal> {
    change(area, |table| table.open(packet))
}

/// Recording.
pub fn record(area: &mut [u8], packet: &[u8]) -> Result<Recorded, Refusal> {
    change(area, |table| table.record(packet))
}

/// What recording would answer, the area only read.
pub fn try_record(area: &[u8], packet: &[u8]) -> Result<Recorded, Refusal> {
    take_up(area)?.try_record(packet)
}

/// Merging: "Lay the record of an open transfer on a second desk over the same Id on a first". "the second is unchanged". 22 for
/// either area "comes before all".
pub fn merge(first: &mut [u8], second: &[u8], id: u64) -> Result<State, Refusal> {
    change(first, |table| table.merge(&take_up(second)?, id))
}

/// Closing.
pub fn close(area: &mut [u8], id: u64) -> Result<(), Refusal> {
    change(area, |table| table.close(id))
}

/// Writing STATUS.
pub fn write_status(area: &[u8], id: u64, skip: u64, unasked: bool, out: &mut [u8]) -> Result<usize, Refusal> {
    take_up(area)?.write_status(id, skip, unasked, out)
}

/// Listing.
pub fn transfer_at(area: &[u8], index: u64) -> Result<Listed, Refusal> {
    take_up(area)?.transfer(index)
}

/// One transfer by its Id.
pub fn find(area: &[u8], id: u64) -> Result<Listed, Refusal> {
    take_up(area)?.find(id)
}

/// One of its holes.
pub fn hole(area: &[u8], id: u64, index: u64) -> Result<Hole, Refusal> {
    take_up(area)?.hole(id, index)
}

/// "Desk and buffers keep what they held" where the rule refuses; else what it gives is stored.
fn change<T>(area: &mut [u8], rule: impl FnOnce(&mut Table) -> Result<T, Refusal>) -> Result<T, Refusal> {
    let mut table = take_up(area)?;
    let answer = rule(&mut table)?;
    store(&table, area);
    Ok(answer)
}
