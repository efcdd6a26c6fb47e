//! The answers as include/saratoga.h lays them out. On refusal all but `number` and `code` is 0.

/// `struct saratoga_bitmap`
pub use paper::bitmap::Bitmap;
use paper::layout::Willingness;
/// `struct saratoga_piece`
pub use paper::plan::Piece;
use paper::read;
use paper::refusal::Refusal;
use paper::settings;
use paper::table;

/// `struct saratoga_written`
#[repr(C)]
#[derive(Clone, Copy, Debug, Default, PartialEq, Eq)]
pub struct Written {
    pub number: u64,
    pub code: u64,
    pub size: u64,
}

/// `struct saratoga_hole`
#[repr(C)]
#[derive(Clone, Copy, Debug, Default, PartialEq, Eq)]
pub struct Hole {
    pub number: u64,
    pub code: u64,
    pub start: u64,
    pub end: u64,
}

/// `struct saratoga_packet`
#[repr(C)]
#[derive(Clone, Copy, Debug, Default, PartialEq, Eq)]
pub struct Packet {
    pub number: u64,
    pub code: u64,
    pub kind: u64,
    pub flags: u64,
    pub id: u64,
    pub width: u64,
    pub timestamp_at: u64,
    pub timestamp_len: u64,
    pub checksum_at: u64,
    pub checksum_len: u64,
    pub properties: u64,
    pub size: u64,
    pub mtime: u64,
    pub ctime: u64,
    pub path_at: u64,
    pub path_len: u64,
    pub offset: u64,
    pub payload_at: u64,
    pub payload_len: u64,
    pub status: u64,
    pub progress: u64,
    pub in_response_to: u64,
    pub holes_at: u64,
    pub hole_count: u64,
    pub largest_width: u64,
    pub bundles: u64,
    pub streams: u64,
    pub send: u64,
    pub receive: u64,
    pub free_width: u64,
    pub free_space: u64,
    pub endpoint_at: u64,
    pub endpoint_len: u64,
}

/// `struct saratoga_planned`
#[repr(C)]
#[derive(Clone, Copy, Debug, Default, PartialEq, Eq)]
pub struct Planned {
    pub number: u64,
    pub code: u64,
    pub count: u64,
}

/// `struct saratoga_checked`
#[repr(C)]
#[derive(Clone, Copy, Debug, Default, PartialEq, Eq)]
pub struct Checked {
    pub number: u64,
    pub code: u64,
    pub passes: u64,
}

/// `struct saratoga_done`
#[repr(C)]
#[derive(Clone, Copy, Debug, Default, PartialEq, Eq)]
pub struct Done {
    pub number: u64,
    pub code: u64,
}

/// `struct saratoga_opened`
#[repr(C)]
#[derive(Clone, Copy, Debug, Default, PartialEq, Eq)]
pub struct Opened {
    pub number: u64,
    pub code: u64,
    pub edge: u64,
    pub complete: u64,
    pub already_open: u64,
}

/// `struct saratoga_recorded`
#[repr(C)]
#[derive(Clone, Copy, Debug, Default, PartialEq, Eq)]
pub struct Recorded {
    pub number: u64,
    pub code: u64,
    pub edge: u64,
    pub complete: u64,
    pub absorbed: u64,
    pub adds: u64,
}

/// `struct saratoga_merged`
#[repr(C)]
#[derive(Clone, Copy, Debug, Default, PartialEq, Eq)]
pub struct Merged {
    pub number: u64,
    pub code: u64,
    pub edge: u64,
    pub complete: u64,
}

/// `struct saratoga_bitmap_opened`
#[repr(C)]
#[derive(Clone, Copy, Debug, Default, PartialEq, Eq)]
pub struct BitmapOpened {
    pub number: u64,
    pub code: u64,
    pub edge: u64,
    pub complete: u64,
    pub transfer: Bitmap,
}

/// `struct saratoga_bitmap_recorded`: the fields of `struct saratoga_recorded`, then the transfer.
#[repr(C)]
#[derive(Clone, Copy, Debug, Default, PartialEq, Eq)]
pub struct BitmapRecorded {
    pub recorded: Recorded,
    pub transfer: Bitmap,
}

/// `struct saratoga_listed`
#[repr(C)]
#[derive(Clone, Copy, Debug, Default, PartialEq, Eq)]
pub struct Listed {
    pub number: u64,
    pub code: u64,
    pub id: u64,
    pub width: u64,
    pub length: u64,
    pub edge: u64,
    pub complete: u64,
    pub runs: u64,
    pub received: u64,
    pub stamped: u64,
}

impl From<Result<u64, Refusal>> for Planned {
    fn from(answer: Result<u64, Refusal>) -> Planned {
        match answer {
            Ok(count) => Planned { count, ..Planned::default() },
            Err(refusal) => Planned { number: refusal.number(), code: refusal.code(), ..Planned::default() },
        }
    }
}

impl From<Result<bool, Refusal>> for Checked {
    fn from(answer: Result<bool, Refusal>) -> Checked {
        match answer {
            Ok(passes) => Checked { passes: passes.into(), ..Checked::default() },
            Err(refusal) => Checked { number: refusal.number(), code: refusal.code(), ..Checked::default() },
        }
    }
}

impl From<Result<(), Refusal>> for Done {
    fn from(answer: Result<(), Refusal>) -> Done {
        match answer {
            Ok(()) => Done::default(),
            Err(refusal) => Done { number: refusal.number(), code: refusal.code() },
        }
    }
}

impl From<Result<table::Opened, Refusal>> for Opened {
    fn from(answer: Result<table::Opened, Refusal>) -> Opened {
        match answer {
            Ok(opened) => Opened {
                edge: opened.state.edge,
                complete: opened.state.complete.into(),
                already_open: opened.already_open.into(),
                ..Opened::default()
            },
            Err(refusal) => Opened { number: refusal.number(), code: refusal.code(), ..Opened::default() },
        }
    }
}

impl From<Result<table::Recorded, Refusal>> for Recorded {
    fn from(answer: Result<table::Recorded, Refusal>) -> Recorded {
        match answer {
            Ok(recorded) => Recorded {
                edge: recorded.state.edge,
                complete: recorded.state.complete.into(),
                absorbed: recorded.absorbed as u64,
                adds: recorded.adds.into(),
                ..Recorded::default()
            },
            Err(refusal) => Recorded { number: refusal.number(), code: refusal.code(), ..Recorded::default() },
        }
    }
}

impl From<Result<table::State, Refusal>> for Merged {
    fn from(answer: Result<table::State, Refusal>) -> Merged {
        match answer {
            Ok(state) => Merged { edge: state.edge, complete: state.complete.into(), ..Merged::default() },
            Err(refusal) => Merged { number: refusal.number(), code: refusal.code(), ..Merged::default() },
        }
    }
}

impl From<Result<(Bitmap, table::State), Refusal>> for BitmapOpened {
    fn from(answer: Result<(Bitmap, table::State), Refusal>) -> BitmapOpened {
        match answer {
            Ok((transfer, state)) => {
                BitmapOpened { edge: state.edge, complete: state.complete.into(), transfer, ..BitmapOpened::default() }
            }
            Err(refusal) => BitmapOpened { number: refusal.number(), code: refusal.code(), ..BitmapOpened::default() },
        }
    }
}

impl From<Result<(Bitmap, table::Recorded), Refusal>> for BitmapRecorded {
    fn from(answer: Result<(Bitmap, table::Recorded), Refusal>) -> BitmapRecorded {
        BitmapRecorded {
            transfer: answer.map_or(Bitmap::default(), |(transfer, _)| transfer),
            recorded: answer.map(|(_, recorded)| recorded).into(),
        }
    }
}

impl From<Result<table::Listed, Refusal>> for Listed {
    fn from(answer: Result<table::Listed, Refusal>) -> Listed {
        match answer {
            Ok(listed) => Listed {
                id: listed.id,
                width: listed.width as u64,
                length: listed.length,
                edge: listed.state.edge,
                complete: listed.state.complete.into(),
                runs: listed.runs as u64,
                received: listed.received,
                stamped: listed.stamped.into(),
                ..Listed::default()
            },
            Err(refusal) => Listed { number: refusal.number(), code: refusal.code(), ..Listed::default() },
        }
    }
}

impl From<Result<usize, Refusal>> for Written {
    fn from(answer: Result<usize, Refusal>) -> Written {
        match answer {
            Ok(size) => Written { size: size as u64, ..Written::default() },
            Err(refusal) => Written { number: refusal.number(), code: refusal.code(), ..Written::default() },
        }
    }
}

impl From<Result<read::Hole, Refusal>> for Hole {
    fn from(answer: Result<read::Hole, Refusal>) -> Hole {
        match answer {
            Ok(hole) => Hole { start: hole.start, end: hole.end, ..Hole::default() },
            Err(refusal) => Hole { number: refusal.number(), code: refusal.code(), ..Hole::default() },
        }
    }
}

impl From<Result<read::Packet, Refusal>> for Packet {
    fn from(answer: Result<read::Packet, Refusal>) -> Packet {
        match answer {
            Ok(read::Packet::Beacon(packet)) => packet.into(),
            Ok(read::Packet::Metadata(packet)) => packet.into(),
            Ok(read::Packet::Data(packet)) => packet.into(),
            Ok(read::Packet::Success(packet)) => packet.into(),
            Ok(read::Packet::Failure(packet)) => packet.into(),
            Err(refusal) => Packet { number: refusal.number(), code: refusal.code(), ..Packet::default() },
        }
    }
}

/// `SARATOGA_CANNOT`, `SARATOGA_NOT_NOW`, `SARATOGA_WILLING`
fn willingness(state: Willingness) -> u64 {
    match state {
        Willingness::Cannot => 0,
        Willingness::NotNow => 1,
        Willingness::Willing => 2,
    }
}

impl From<read::Beacon> for Packet {
    fn from(packet: read::Beacon) -> Packet {
        Packet {
            kind: 0,
            flags: packet.flags,
            largest_width: packet.largest_width as u64,
            bundles: packet.bundles.into(),
            streams: packet.streams.into(),
            send: willingness(packet.send),
            receive: willingness(packet.receive),
            free_width: packet.free_space.map_or(0, |free| free.width as u64),
            free_space: packet.free_space.map_or(0, |free| free.kib),
            endpoint_at: packet.endpoint.start as u64,
            endpoint_len: packet.endpoint.len() as u64,
            ..Packet::default()
        }
    }
}

impl From<read::Metadata> for Packet {
    fn from(packet: read::Metadata) -> Packet {
        Packet {
            kind: 2,
            flags: packet.header.flags,
            id: packet.header.id,
            width: packet.width as u64,
            checksum_at: packet.checksum.start as u64,
            checksum_len: packet.checksum.len() as u64,
            properties: packet.properties,
            size: packet.size,
            mtime: packet.mtime,
            ctime: packet.ctime,
            path_at: packet.path.start as u64,
            path_len: packet.path.len() as u64,
            ..Packet::default()
        }
    }
}

impl From<read::Data> for Packet {
    fn from(packet: read::Data) -> Packet {
        Packet {
            kind: 3,
            flags: packet.header.flags,
            id: packet.header.id,
            width: packet.width as u64,
            timestamp_at: packet.timestamp.start as u64,
            timestamp_len: packet.timestamp.len() as u64,
            offset: packet.offset,
            payload_at: packet.payload.start as u64,
            payload_len: packet.payload.len() as u64,
            ..Packet::default()
        }
    }
}

impl From<read::Success> for Packet {
    fn from(packet: read::Success) -> Packet {
        Packet {
            kind: 4,
            flags: packet.header.flags,
            id: packet.header.id,
            width: packet.width as u64,
            timestamp_at: packet.timestamp.start as u64,
            timestamp_len: packet.timestamp.len() as u64,
            progress: packet.progress,
            in_response_to: packet.in_response_to,
            holes_at: packet.holes_at as u64,
            hole_count: packet.holes.len() as u64,
            ..Packet::default()
        }
    }
}

impl From<read::Failure> for Packet {
    fn from(packet: read::Failure) -> Packet {
        Packet { kind: 4, flags: packet.header.flags, id: packet.header.id, status: packet.status, ..Packet::default() }
    }
}

/// `struct saratoga_settings`
#[repr(C)]
#[derive(Clone, Copy, Debug, Default, PartialEq, Eq)]
pub struct Settings {
    pub number: u64,
    pub code: u64,
    pub version: u64,
    pub largest_payload: u64,
    pub has_interval: u64,
    pub interval: u64,
    pub has_partner: u64,
    pub partner: u64,
}

impl From<Result<settings::Settings, Refusal>> for Settings {
    fn from(answer: Result<settings::Settings, Refusal>) -> Settings {
        match answer {
            Ok(told) => Settings {
                version: told.version,
                largest_payload: told.largest_payload,
                has_interval: told.has_interval.into(),
                interval: told.interval,
                has_partner: told.has_partner.into(),
                partner: told.partner,
                ..Settings::default()
            },
            Err(refusal) => Settings { number: refusal.number(), code: refusal.code(), ..Settings::default() },
        }
    }
}
