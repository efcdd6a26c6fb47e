//! "**Writing STATUS** for an open Id takes a number k of holes to skip and whether it was unasked."

use crate::layout::{status_flags, Timestamp, STATUS};
use crate::refusal::Refusal;
use crate::table::{State, Table, Transfer};
use crate::write::{copy_out, first_octets, push};

/// What a STATUS tells of, however the received set is kept.
pub struct Told {
    pub id: u64,
    pub width: usize,
    pub length: u64,
    pub holes: Vec<(u64, u64)>,
    pub lowest_missing: u64,
    pub state: State,
    pub timestamp: Option<Timestamp>,
}

/// Writes a success STATUS and answers its size: 19, 20.
pub fn write(told: &Told, skip: u64, unasked: bool, out: &mut [u8]) -> Result<usize, Refusal> {
    let holes = &told.holes;
    // "k must be 0 or less than the number of holes."
    let skip = match usize::try_from(skip) {
        Ok(skip) if skip == 0 || skip < holes.len() => skip,
        _ => return Err(Refusal::Index),
    };
    // "With descriptors of d octets and h holes written the size is 8 + 2d + 2dh octets." Document 02: "its STATUS carries them
    // with bit 12 set; before the first, none. The size grows by 16 octets then, and refusal 20 counts them."
    let d = told.width;
    let timestamp: &[u8] = told.timestamp.as_ref().map_or(&[], |octets| octets);
    let size = |h: usize| 8 + timestamp.len() + 2 * d + 2 * d * h;
    // "It writes as many holes as fit, lowest first, after the first k."
    let after = &holes[skip..];
    let fit = (0..=after.len()).rev().find(|&h| size(h) <= out.len()).ok_or(Refusal::Buffer)?;
    // "If there are holes, room for at least one is needed."
    if !holes.is_empty() && fit == 0 {
        return Err(Refusal::Buffer);
    }
    // "Bit 14 is set exactly when some hole was skipped or did not fit. Bit 15 is set if unasked or complete."
    let list_incomplete = skip > 0 || fit < after.len();
    let flags = status_flags(d, told.timestamp.is_some(), list_incomplete, unasked || told.state.complete);

    let mut packet = first_octets(STATUS, flags, told.id);
    packet.extend_from_slice(timestamp);
    // "Progress is the lowest offset not received (the edge if there are no holes)"
    push(&mut packet, told.lowest_missing, d);
    push(&mut packet, in_response_to(told.state, told.length), d);
    for &(start, end) in &after[..fit] {
        push(&mut packet, start, d);
        push(&mut packet, end, d);
    }
    assert_eq!(packet.len(), size(fit));
    copy_out(&packet, out)
}

/// Document 02: "for a complete transfer In-Response-To is L - 1, or 0 where L is 0. [...] All other STATUS packets keep the
/// edge."
pub fn in_response_to(state: State, length: u64) -> u64 {
    match (state.complete, length) {
        (false, _) => state.edge,
        (true, 0) => 0,
        (true, length) => length - 1,
    }
}

impl Table {
    /// "Writing STATUS: 12, 19, 20."
    pub fn write_status(&self, id: u64, skip: u64, unasked: bool, out: &mut [u8]) -> Result<usize, Refusal> {
        let transfer = self.transfers.get(&id).ok_or(Refusal::NotOpen)?;
        write(&transfer.told(id), skip, unasked, out)
    }
}

impl Transfer {
    fn told(&self, id: u64) -> Told {
        Told {
            id,
            width: self.width,
            length: self.length,
            holes: self.received.holes(),
            lowest_missing: self.received.lowest_missing(),
            state: self.state(),
            timestamp: self.timestamp,
        }
    }
}
