//! Wrong receivers that keep, send or count a timestamp otherwise than the paper.

use std::cell::RefCell;
use std::collections::BTreeMap;

use paper::area::{store, take_up};
use paper::table::{Table, Transfer};

use crate::answer::{Listed, Opened, Packet, Recorded, Written};
use crate::codec::Paper;
use crate::receiver::words::{self, entries, Entry};
use crate::receiver::wrong::Wrong::{self, *};
use crate::receiver::{Ask, Receiver};

thread_local! {
    /// By Id, the timestamps of transfers that were closed: `ReopenedKeepsStamp` has them beside the area.
    static CLOSED: RefCell<BTreeMap<u64, [u64; 2]>> = const { RefCell::new(BTreeMap::new()) };
}

pub fn forget_closed() {
    CLOSED.with_borrow_mut(BTreeMap::clear);
}

/// The two words of a timestamp in a packet; of a short one, as if zeros followed.
fn halves_in(packet: &[u8]) -> [u64; 2] {
    let mut octets: Vec<u8> = packet.iter().copied().skip(8).take(16).collect();
    octets.resize(16, 0);
    [0, 8].map(|at| u64::from_le_bytes(octets[at..at + 8].try_into().expect("eight octets")))
}

impl Wrong {
    /// What opening leaves otherwise of a timestamp.
    pub fn stamp_opened(self, area: &mut [u8], packet: &[u8], read: &Packet, right: Opened) {
        let (again, new) = (right.already_open == 1, right.number == 0 && right.already_open == 0);
        match self {
            AgainForgetsStamp if again => change(area, read.id, |entry| entry.stamped = 0),
            EndedForStamp if new && packet[1] & 0x08 != 0 => keep(area, read.id, halves_in(packet)),
            ReopenedKeepsStamp if new => {
                let before = CLOSED.with_borrow_mut(|closed| closed.remove(&read.id));
                before.into_iter().for_each(|halves| keep(area, read.id, halves));
            }
            _ => {}
        }
    }

    /// A transfer was closed; `before` is the area that it was open in.
    pub fn stamp_closed(self, before: &[u8], id: u64) {
        let Some(entry) = entries(before).and_then(|found| found.into_iter().find(|entry| entry.id == id)) else {
            return;
        };
        if self == ReopenedKeepsStamp && entry.stamped == 1 {
            CLOSED.with_borrow_mut(|closed| closed.insert(id, entry.halves));
        }
    }

    /// What recording DATA to an open transfer leaves otherwise of a timestamp.
    pub fn stamp_recorded(self, area: &mut [u8], before: &[u8], packet: &[u8], read: &Packet, right: Recorded) {
        let (accepted, stamped) = (right.number == 0, read.timestamp_len == 16);
        let Some(old) = entries(before) else { return };
        let Some(at) = old.iter().position(|entry| entry.id == read.id) else { return };
        let entry = &old[at];
        let leave = |area: &mut [u8]| {
            change(area, read.id, |new| (new.stamped, new.halves) = (entry.stamped, entry.halves));
        };
        match self {
            StampOnRefusal if !accepted && stamped => keep(area, read.id, halves_in(packet)),
            ZerosForNone if accepted && stamped && halves_in(packet) == [0, 0] => leave(area),
            FirstStampKept if accepted && entry.stamped == 1 => leave(area),
            RepeatLeavesStamp if accepted && right.adds == 0 => leave(area),
            BareForgetsStamp if accepted && !stamped => change(area, read.id, |new| new.stamped = 0),
            StampOfNeighbour if accepted && stamped && old.len() > 1 => {
                let neighbour = old[if at == 0 { 1 } else { at - 1 }].id;
                leave(area);
                keep(area, neighbour, halves_in(packet));
            }
            LastOctetOfStamp if accepted && stamped => {
                let [first, last] = halves_in(packet);
                keep(area, read.id, [first, last & (u64::MAX >> 8)]);
            }
            _ => {}
        }
    }

    /// A transfer as it is listed, or found by its Id.
    pub fn stamp_listed(self, area: &[u8], right: Listed, by_id: bool) -> Listed {
        let zeros = || take_up(area).is_ok_and(|table| table.transfers[&right.id].timestamp == Some([0; 16]));
        let told = match self {
            StampUnlisted => false,
            FoundUnstamped => !by_id,
            ZerosUnlisted if right.stamped == 1 => !zeros(),
            StampByRuns if right.number == 0 => return Listed { stamped: u64::from(right.runs > 0), ..right },
            _ => true,
        };
        Listed { stamped: if told { right.stamped } else { 0 }, ..right }
    }

    /// Writing STATUS for an open transfer of a table; none where nothing is wrong with its timestamp.
    pub fn stamp_sent(
        self,
        table: &Table,
        transfer: &Transfer,
        ask: Ask,
        right: Written,
        before: &[u8],
        out: &mut [u8],
    ) -> Option<Written> {
        let (size, accepted, stamped) = (right.size as usize, right.number == 0, transfer.timestamp.is_some());
        match self {
            StampBitAlways if accepted => out[1] |= 0x08,
            StampBitClear if accepted => out[1] &= !0x08,
            HalvesSentSwapped if accepted && stamped => out[8..24].rotate_left(8),
            StampAfterFields if accepted && stamped => out[8..24 + 2 * transfer.width].rotate_left(16),
            NeverSent | ZerosSent | OthersStampSent | StampUncounted | HolesForgetStamp | StampCountedAlways => {
                out.copy_from_slice(before);
                return Some(self.sent_otherwise(table, transfer, ask, right, out));
            }
            ZerosNotSent if transfer.timestamp == Some([0; 16]) => {
                out.copy_from_slice(before);
                return Some(self.sent_otherwise(table, transfer, ask, right, out));
            }
            StampLeft if accepted && stamped => out[8..24].copy_from_slice(&before[8..24]),
            LastStampOctetLeft if accepted && stamped => out[23] = before[23],
            OctetAfterStamp if accepted && stamped && out.len() > size => out[size] ^= 1,
            _ => return None,
        }
        Some(right)
    }

    /// The same where it is written of another transfer, or into another room.
    fn sent_otherwise(self, table: &Table, transfer: &Transfer, ask: Ask, right: Written, out: &mut [u8]) -> Written {
        let write = |timestamp, out: &mut [u8]| {
            let mut other = Table::default();
            other.transfers.insert(ask.id, Transfer { timestamp, ..transfer.clone() });
            let mut area = vec![0; words::OCTETS];
            store(&other, &mut area);
            Paper.write_status(&area, ask, out)
        };
        let (stamped, d) = (transfer.timestamp.is_some(), transfer.width as u64);
        match self {
            NeverSent | ZerosNotSent => write(None, out),
            ZerosSent => write(transfer.timestamp.or(Some([0; 16])), out),
            OthersStampSent => {
                let first = table.transfers.values().next().and_then(|first| first.timestamp);
                write(transfer.timestamp.and(first.or(transfer.timestamp)), out)
            }
            StampUncounted if stamped && right.number == 20 => {
                let mut bare = out.to_vec();
                let written = write(None, &mut bare);
                if written.number != 0 {
                    return right;
                }
                let mut long = vec![0; out.len() + 16];
                let written = write(transfer.timestamp, &mut long);
                out.copy_from_slice(&long[..out.len()]);
                written
            }
            HolesForgetStamp if stamped && right.number == 0 => {
                let right = write(transfer.timestamp, out);
                let (left, size) = (out[1] & 0x02 != 0, right.size + 2 * d);
                let fits = left && ask.skip == 0 && size <= out.len() as u64 + 16;
                Written { size: if fits { size } else { right.size }, ..right }
            }
            StampCountedAlways if !stamped => match out.len().checked_sub(16) {
                Some(room) => write(None, &mut out[..room]),
                None if right.number == 19 => right,
                None => Written { number: 20, ..Written::default() },
            },
            _ => write(transfer.timestamp, out),
        }
    }
}

/// Changes the entry of an Id that is open.
fn change(area: &mut [u8], id: u64, change: impl FnOnce(&mut Entry)) {
    let mut found = entries(area).expect("a table");
    change(found.iter_mut().find(|entry| entry.id == id).expect("it is open"));
    words::store(&found, area);
}

/// Lets the transfer of an Id keep a timestamp.
fn keep(area: &mut [u8], id: u64, halves: [u64; 2]) {
    change(area, id, |entry| (entry.stamped, entry.halves) = (1, halves));
}
