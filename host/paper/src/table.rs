//! "What the desk means": the table of open transfers, a "map, of at most 16 Ids, from Id to width w, length L (at most
//! 2^w - 1) and a set of received offsets below L". A refused call returns before anything is changed.

use std::collections::BTreeMap;

use crate::layout::{checksum_is_crc32c, end_of_data, Timestamp, DATA, METADATA};
use crate::read::{read_types, Data, Hole, Packet};
use crate::received::Received;
use crate::refusal::Refusal;

/// "A fresh desk has room for 16 transfers of 64 runs, all empty."
pub const MAX_TRANSFERS: usize = 16;
pub const MAX_RUNS: usize = 64;

#[derive(Clone, Debug, Default, PartialEq, Eq)]
pub struct Table {
    pub transfers: BTreeMap<u64, Transfer>,
}

#[derive(Clone, Debug, PartialEq, Eq)]
pub struct Transfer {
    /// Octets of a descriptor: 2, 4, 8 or 16.
    pub width: usize,
    pub length: u64,
    pub received: Received,
    /// Document 02: "Each transfer keeps the 16 octets of the last accepted DATA that had bit 12 set"; "before the first, none".
    pub timestamp: Option<Timestamp>,
}

/// "Opening and recording [...] both answer the edge and whether the transfer is complete."
#[derive(Clone, Copy, Debug, PartialEq, Eq)]
pub struct State {
    pub edge: u64,
    pub complete: bool,
}

#[derive(Clone, Copy, Debug, PartialEq, Eq)]
pub struct Opened {
    pub state: State,
    pub already_open: bool,
}

/// "Each accepted recording reports how many stored runs the packet swallowed". `adds`: whether the packet brings an offset that
/// was not received.
#[derive(Clone, Copy, Debug, PartialEq, Eq)]
pub struct Recorded {
    pub state: State,
    pub absorbed: usize,
    pub adds: bool,
}

/// An open transfer, for a program that takes up an area again.
#[derive(Clone, Copy, Debug, PartialEq, Eq)]
pub struct Listed {
    pub id: u64,
    pub width: usize,
    pub length: u64,
    pub state: State,
    pub runs: usize,
    /// How many offsets were received.
    pub received: u64,
    /// Whether a timestamp is kept.
    pub stamped: bool,
}

impl Transfer {
    /// "starts with nothing received"; "A new opening keeps none", of timestamps.
    pub fn new(width: usize, length: u64) -> Transfer {
        Transfer { width, length, received: Received::default(), timestamp: None }
    }

    pub fn state(&self) -> State {
        State { edge: self.received.edge(), complete: self.received.complete(self.length) }
    }

    fn listed(&self, id: u64) -> Listed {
        Listed {
            id,
            width: self.width,
            length: self.length,
            state: self.state(),
            runs: self.received.run_count(),
            received: self.received.count(),
            stamped: self.timestamp.is_some(),
        }
    }
}

/// The stretch of offsets that DATA brings to a transfer of this width and length: 13, 14, 15.
pub fn stretch(data: &Data, width: usize, length: u64) -> Result<(u64, u64), Refusal> {
    if data.width != width {
        return Err(Refusal::OtherWidth);
    }
    // "no wrapped sum": in numbers of 128 bits.
    let end = u128::from(data.offset) + data.payload.len() as u128;
    if end > u128::from(length) {
        return Err(Refusal::PastEnd);
    }
    if end_of_data(data.header.flags) && end != u128::from(length) {
        return Err(Refusal::EarlyEnd);
    }
    Ok((data.offset, end as u64))
}

impl Table {
    /// "**Opening** by METADATA starts with nothing received, at width w." "Opening: the reader's, then 18, 17", and 23 "tested after
    /// 18 and before 17".
    pub fn open(&mut self, packet: &[u8]) -> Result<Opened, Refusal> {
        let Packet::Metadata(metadata) = read_types(packet, &[METADATA])? else {
            unreachable!("only METADATA is taken")
        };
        let id = metadata.header.id;
        if let Some(open) = self.transfers.get(&id) {
            // "An Id that is open with equal width and L answers "already open" and changes nothing." So does one "that began with
            // type 1": "its METADATA repeated still answers "already open"".
            if (open.width, open.length) == (metadata.width, metadata.size) {
                return Ok(Opened { state: open.state(), already_open: true });
            }
            return Err(Refusal::OpenOther);
        }
        if checksum_is_crc32c(metadata.header.flags) {
            return Err(Refusal::OldChecksum);
        }
        if self.transfers.len() == MAX_TRANSFERS {
            return Err(Refusal::TableFull);
        }
        let new = Transfer::new(metadata.width, metadata.size);
        let state = new.state();
        self.transfers.insert(id, new);
        Ok(Opened { state, already_open: false })
    }

    /// "**Recording** DATA adds the offsets from offset to offset + payload length - 1. A repeat adds nothing and is
    /// accepted." "Recording: the reader's, then 12, 13, 14, 15, 16."
    pub fn record(&mut self, packet: &[u8]) -> Result<Recorded, Refusal> {
        let Packet::Data(data) = read_types(packet, &[DATA])? else { unreachable!("only DATA is taken") };
        let transfer = self.transfers.get_mut(&data.header.id).ok_or(Refusal::NotOpen)?;
        let (start, end) = stretch(&data, transfer.width, transfer.length)?;
        // "the received set would have more than 64 runs"
        let mut received = transfer.received.clone();
        received.add(start, end);
        if received.run_count() > MAX_RUNS {
            return Err(Refusal::Runs);
        }
        let (absorbed, adds) = (transfer.received.absorbed(start, end), transfer.received.adds(start, end));
        transfer.received = received;
        // "the last accepted DATA that had bit 12 set": a repeat is accepted too.
        transfer.timestamp = data.timestamp_in(packet).or(transfer.timestamp);
        Ok(Recorded { state: transfer.state(), absorbed, adds })
    }

    /// What recording would answer; nothing is recorded.
    pub fn try_record(&self, packet: &[u8]) -> Result<Recorded, Refusal> {
        self.clone().record(packet)
    }

    /// Document 02: "Lay the record of an open transfer on a second desk over the same Id on a first: the first then holds exactly the
    /// octets received by either". "an Id missing on either desk is 12, tested before" the others, "Widths and L must agree (13,
    /// then 18)", "more than 64 runs in the joined set is 16, tested last". "The first desk's timestamp stays."
    pub fn merge(&mut self, second: &Table, id: u64) -> Result<State, Refusal> {
        let first = self.transfers.get_mut(&id).ok_or(Refusal::NotOpen)?;
        let second = second.transfers.get(&id).ok_or(Refusal::NotOpen)?;
        if first.width != second.width {
            return Err(Refusal::OtherWidth);
        }
        if first.length != second.length {
            return Err(Refusal::OpenOther);
        }
        // "in the joined set": on the way to it there may be as many runs as there are.
        let joined = first.received.with(&second.received);
        if joined.run_count() > MAX_RUNS {
            return Err(Refusal::Runs);
        }
        first.received = joined;
        Ok(first.state())
    }

    /// "**Closing** removes an Id; its place is used again." "Closing: 12."
    pub fn close(&mut self, id: u64) -> Result<(), Refusal> {
        self.transfers.remove(&id).map(drop).ok_or(Refusal::NotOpen)
    }

    /// The open transfer at `index` in rising order of Id; 12 where there is none.
    pub fn transfer(&self, index: u64) -> Result<Listed, Refusal> {
        let mut numbered = (0..).zip(&self.transfers);
        let (_, (&id, transfer)) = numbered.find(|&(number, _)| number == index).ok_or(Refusal::NotOpen)?;
        Ok(transfer.listed(id))
    }

    /// The open transfer with this Id; 12 where there is none.
    pub fn find(&self, id: u64) -> Result<Listed, Refusal> {
        Ok(self.transfers.get(&id).ok_or(Refusal::NotOpen)?.listed(id))
    }

    /// Hole `index` of its received set, lowest first; 12, then 19 for an index that there is no hole for.
    pub fn hole(&self, id: u64, index: u64) -> Result<Hole, Refusal> {
        let holes = self.transfers.get(&id).ok_or(Refusal::NotOpen)?.received.holes();
        let place = usize::try_from(index).map_err(|_| Refusal::Index)?;
        let &(start, end) = holes.get(place).ok_or(Refusal::Index)?;
        Ok(Hole { start, end })
    }
}
