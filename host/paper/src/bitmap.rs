//! Document 02, "A second receiver that an engineer can follow by eye": "one mark for each octet in a lent area of 8,192 octets",
//! for one transfer. A refused call returns before anything is changed.

use crate::layout::{checksum_is_crc32c, Timestamp, DATA, METADATA};
use crate::marks::Marks;
use crate::read::{read_types, Packet};
use crate::refusal::Refusal;
use crate::status::{self, Told};
use crate::table::{stretch, Recorded, State, MAX_RUNS};

/// "a lent area of 8,192 octets"
pub const OCTETS: usize = 8_192;
/// "for one transfer with L up to 65,535", which every width allows.
pub const LONGEST: u64 = 65_535;

/// "Id, w and L travel as a record by value"; of the timestamp, the receiver "keeps it in its record". It lies in memory as C's
/// does, so that it can be handed to the archive too.
#[repr(C)]
#[derive(Clone, Copy, Debug, Default, PartialEq, Eq)]
pub struct Bitmap {
    pub id: u64,
    /// Octets of a descriptor.
    pub width: u64,
    pub length: u64,
    /// Whether a timestamp is kept: no for 0, yes for any other number.
    pub stamped: u64,
    /// Its first eight octets and its last eight, as numbers: "All numbers are big-endian." Not looked at where none is kept.
    pub stamp_high: u64,
    pub stamp_low: u64,
}

impl Bitmap {
    /// A transfer that keeps no timestamp: "A new opening keeps none."
    pub fn new(id: u64, width: u64, length: u64) -> Bitmap {
        Bitmap { id, width, length, stamped: 0, stamp_high: 0, stamp_low: 0 }
    }

    pub fn timestamp(self) -> Option<Timestamp> {
        match self.stamped {
            0 => None,
            _ => Some((u128::from(self.stamp_high) << 64 | u128::from(self.stamp_low)).to_be_bytes()),
        }
    }

    /// The same with this timestamp: 1 and its halves, or zeros where there is none.
    pub fn keeping(self, timestamp: Option<Timestamp>) -> Bitmap {
        let bare = Bitmap::new(self.id, self.width, self.length);
        timestamp.map_or(bare, |octets| {
            let number = u128::from_be_bytes(octets);
            Bitmap { stamped: 1, stamp_high: (number >> 64) as u64, stamp_low: number as u64, ..bare }
        })
    }
}

/// "Opening always starts anew". The order: 20 (the area: "before all"), the reader's, "above that, refusal 9 at opening", and for
/// checksum type 1 23: "the plain receiver refuses it too, tested last".
pub fn open(marks: &mut [u8], packet: &[u8]) -> Result<(Bitmap, State), Refusal> {
    let area = marks.get_mut(..OCTETS).ok_or(Refusal::Buffer)?;
    let Packet::Metadata(metadata) = read_types(packet, &[METADATA])? else { unreachable!("only METADATA is taken") };
    if metadata.size > LONGEST {
        return Err(Refusal::Size);
    }
    if checksum_is_crc32c(metadata.header.flags) {
        return Err(Refusal::OldChecksum);
    }
    area.fill(0);
    let transfer = Bitmap::new(metadata.header.id, metadata.width as u64, metadata.size);
    Ok((transfer, state(&Marks::new(transfer.length as usize))))
}

/// Recording: 20, 22, the reader's, 12, 13, 14, 15, 16. The record that "an accepted recording hands back" is the one that came,
/// with the packet's timestamp if it has one: of a refusal the "other results are 0 or empty".
pub fn record(transfer: Bitmap, marks: &mut [u8], packet: &[u8]) -> Result<(Bitmap, Recorded), Refusal> {
    let mut received = take_up(transfer, marks)?;
    let Packet::Data(data) = read_types(packet, &[DATA])? else { unreachable!("only DATA is taken") };
    if data.header.id != transfer.id {
        return Err(Refusal::NotOpen);
    }
    let (start, end) = stretch(&data, transfer.width as usize, transfer.length)?;
    let (before, adds) = (received.runs().len(), received.adds(start, end));
    received.add(start, end);
    let after = received.runs().len();
    // "refuses for room by the same 64 runs"
    if after > MAX_RUNS {
        return Err(Refusal::Runs);
    }
    for n in start as usize..end as usize {
        marks[n / 8] |= 0x80 >> (n % 8);
    }
    let handed_back = transfer.keeping(data.timestamp_in(packet).or(transfer.timestamp()));
    // "runs after equal runs before plus one minus that number"
    Ok((handed_back, Recorded { state: state(&received), absorbed: before + 1 - after, adds }))
}

/// STATUS: 20 (the area), 22, 12 for an Id over 32 bits, which is open nowhere, 19, 20 (the buffer).
pub fn write_status(
    transfer: Bitmap,
    marks: &[u8],
    skip: u64,
    unasked: bool,
    out: &mut [u8],
) -> Result<usize, Refusal> {
    let received = take_up(transfer, marks)?;
    if transfer.id >= 1 << 32 {
        return Err(Refusal::NotOpen);
    }
    let told = Told {
        id: transfer.id,
        width: transfer.width as usize,
        length: transfer.length,
        holes: received.holes(),
        lowest_missing: received.lowest_missing(),
        state: state(&received),
        timestamp: transfer.timestamp(),
    };
    status::write(&told, skip, unasked, out)
}

/// The marks of the offsets below L. "less: 20, before all"; "a mark at or above L, more than 64 runs, or a w and L that no
/// opening takes is 22, next after 20".
pub fn take_up(transfer: Bitmap, marks: &[u8]) -> Result<Marks, Refusal> {
    let area = marks.get(..OCTETS).ok_or(Refusal::Buffer)?;
    if ![2, 4, 8, 16].contains(&transfer.width) || transfer.length > LONGEST {
        return Err(Refusal::Area);
    }
    let (below, above) = Marks::of(area).split(transfer.length as usize);
    if above.edge() > 0 || below.runs().len() > MAX_RUNS {
        return Err(Refusal::Area);
    }
    Ok(below)
}

fn state(received: &Marks) -> State {
    State { edge: received.edge(), complete: received.complete() }
}
