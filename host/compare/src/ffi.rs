//! The archive's functions: the declarations of include/saratoga.h, and a codec, two receivers, a planner, a merging and a reader
//! and writer of settings that call them. Nothing checks these against the header but host/ctest, which compiles it.

use std::ptr::NonNull;

use paper::write::{BeaconFields, DataFields, MetadataFields};

use crate::answer::{Hole, Packet, Written};
use crate::codec::Codec;
use crate::{answer::Merged, merge::Merger};
use crate::{answer::Settings, settings::SettingsFile};
use crate::{
    answer::{Bitmap, BitmapOpened, BitmapRecorded},
    bitmap::BitmapReceiver,
};
use crate::{
    answer::{Checked, Piece, Planned},
    plan::Planner,
};
use crate::{
    answer::{Done, Listed, Opened, Recorded},
    receiver::{Ask, Receiver},
};

extern "C" {
    fn saratoga_read(packet: *const u8, packet_len: usize) -> Packet;
    fn saratoga_read_hole(packet: *const u8, packet_len: usize, index: u64) -> Hole;
    fn saratoga_write_beacon(
        flags: u64,
        free_space: u64,
        endpoint: *const u8,
        endpoint_len: usize,
        out: *mut u8,
        out_len: usize,
    ) -> Written;
    fn saratoga_write_metadata(
        flags: u64,
        id: u64,
        checksum: *const u8,
        checksum_len: usize,
        properties: u64,
        size: u64,
        mtime: u64,
        ctime: u64,
        path: *const u8,
        path_len: usize,
        out: *mut u8,
        out_len: usize,
    ) -> Written;
    fn saratoga_write_data(
        flags: u64,
        id: u64,
        timestamp: *const u8,
        timestamp_len: usize,
        offset: u64,
        payload: *const u8,
        payload_len: usize,
        out: *mut u8,
        out_len: usize,
    ) -> Written;
    fn saratoga_write_failure(id: u64, status: u64, out: *mut u8, out_len: usize) -> Written;
}

extern "C" {
    fn saratoga_fresh(area: *mut u8, area_len: usize) -> Done;
    fn saratoga_open(area: *mut u8, area_len: usize, packet: *const u8, packet_len: usize) -> Opened;
    fn saratoga_record(area: *mut u8, area_len: usize, packet: *const u8, packet_len: usize) -> Recorded;
    fn saratoga_try_record(area: *const u8, area_len: usize, packet: *const u8, packet_len: usize) -> Recorded;
    fn saratoga_close(area: *mut u8, area_len: usize, id: u64) -> Done;
    fn saratoga_write_status(
        area: *const u8,
        area_len: usize,
        id: u64,
        skip: u64,
        unasked: u64,
        out: *mut u8,
        out_len: usize,
    ) -> Written;
    fn saratoga_transfer(area: *const u8, area_len: usize, index: u64) -> Listed;
    fn saratoga_find(area: *const u8, area_len: usize, id: u64) -> Listed;
    fn saratoga_transfer_hole(area: *const u8, area_len: usize, id: u64, index: u64) -> Hole;
}

extern "C" {
    fn saratoga_plan(
        status: *const u8,
        status_len: usize,
        largest: u64,
        pieces: *mut Piece,
        piece_count: usize,
    ) -> Planned;
    fn saratoga_plan_count(status: *const u8, status_len: usize, largest: u64) -> Planned;
    fn saratoga_check_plan(
        status: *const u8,
        status_len: usize,
        largest: u64,
        pieces: *const Piece,
        piece_count: usize,
    ) -> Checked;
}

extern "C" {
    fn saratoga_bitmap_open(marks: *mut u8, marks_len: usize, packet: *const u8, packet_len: usize) -> BitmapOpened;
    fn saratoga_bitmap_record(
        transfer: Bitmap,
        marks: *mut u8,
        marks_len: usize,
        packet: *const u8,
        packet_len: usize,
    ) -> BitmapRecorded;
    fn saratoga_bitmap_status(
        transfer: Bitmap,
        marks: *const u8,
        marks_len: usize,
        skip: u64,
        unasked: u64,
        out: *mut u8,
        out_len: usize,
    ) -> Written;
}

extern "C" {
    fn saratoga_merge(first: *mut u8, first_len: usize, second: *const u8, second_len: usize, id: u64) -> Merged;
    fn saratoga_read_settings(file: *const u8, file_len: usize, known: u64) -> Settings;
    fn saratoga_write_settings(
        version: u64,
        largest_payload: u64,
        has_interval: u64,
        interval: u64,
        has_partner: u64,
        partner: u64,
        out: *mut u8,
        out_len: usize,
    ) -> Written;
}

/// The slice's start. An empty slice gets an address that nothing may be read from.
fn start<T>(items: &[T]) -> *const T {
    match items {
        [] => NonNull::dangling().as_ptr(),
        _ => items.as_ptr(),
    }
}

fn start_mut<T>(items: &mut [T]) -> *mut T {
    match items {
        [] => NonNull::dangling().as_ptr(),
        _ => items.as_mut_ptr(),
    }
}

/// The codec, the receivers, the planner and the merging in the archive.
pub struct Archive;

// Each call is sound: a slice is valid for its length, and what is written is borrowed alone, so overlaps nothing.
impl Codec for Archive {
    fn read(&self, packet: &[u8]) -> Packet {
        unsafe { saratoga_read(start(packet), packet.len()) }
    }

    fn read_hole(&self, packet: &[u8], index: u64) -> Hole {
        unsafe { saratoga_read_hole(start(packet), packet.len(), index) }
    }

    fn write_beacon(&self, fields: &BeaconFields, out: &mut [u8]) -> Written {
        let BeaconFields { flags, free_space, endpoint } = *fields;
        unsafe { saratoga_write_beacon(flags, free_space, start(endpoint), endpoint.len(), start_mut(out), out.len()) }
    }

    fn write_metadata(&self, fields: &MetadataFields, out: &mut [u8]) -> Written {
        unsafe {
            saratoga_write_metadata(
                fields.flags,
                fields.id,
                start(fields.checksum),
                fields.checksum.len(),
                fields.properties,
                fields.size,
                fields.mtime,
                fields.ctime,
                start(fields.path),
                fields.path.len(),
                start_mut(out),
                out.len(),
            )
        }
    }

    fn write_data(&self, fields: &DataFields, out: &mut [u8]) -> Written {
        unsafe {
            saratoga_write_data(
                fields.flags,
                fields.id,
                start(fields.timestamp),
                fields.timestamp.len(),
                fields.offset,
                start(fields.payload),
                fields.payload.len(),
                start_mut(out),
                out.len(),
            )
        }
    }

    fn write_failure(&self, id: u64, status: u64, out: &mut [u8]) -> Written {
        unsafe { saratoga_write_failure(id, status, start_mut(out), out.len()) }
    }
}

impl Receiver for Archive {
    fn fresh(&self, area: &mut [u8]) -> Done {
        unsafe { saratoga_fresh(start_mut(area), area.len()) }
    }

    fn open(&self, area: &mut [u8], packet: &[u8]) -> Opened {
        unsafe { saratoga_open(start_mut(area), area.len(), start(packet), packet.len()) }
    }

    fn record(&self, area: &mut [u8], packet: &[u8]) -> Recorded {
        unsafe { saratoga_record(start_mut(area), area.len(), start(packet), packet.len()) }
    }

    fn try_record(&self, area: &[u8], packet: &[u8]) -> Recorded {
        unsafe { saratoga_try_record(start(area), area.len(), start(packet), packet.len()) }
    }

    fn close(&self, area: &mut [u8], id: u64) -> Done {
        unsafe { saratoga_close(start_mut(area), area.len(), id) }
    }

    fn write_status(&self, area: &[u8], ask: Ask, out: &mut [u8]) -> Written {
        let Ask { id, skip, unasked } = ask;
        unsafe { saratoga_write_status(start(area), area.len(), id, skip, unasked, start_mut(out), out.len()) }
    }

    fn transfer(&self, area: &[u8], index: u64) -> Listed {
        unsafe { saratoga_transfer(start(area), area.len(), index) }
    }

    fn find(&self, area: &[u8], id: u64) -> Listed {
        unsafe { saratoga_find(start(area), area.len(), id) }
    }

    fn transfer_hole(&self, area: &[u8], id: u64, index: u64) -> Hole {
        unsafe { saratoga_transfer_hole(start(area), area.len(), id, index) }
    }
}

impl Planner for Archive {
    fn plan(&self, status: &[u8], largest: u64, pieces: &mut [Piece]) -> Planned {
        unsafe { saratoga_plan(start(status), status.len(), largest, start_mut(pieces), pieces.len()) }
    }

    fn plan_count(&self, status: &[u8], largest: u64) -> Planned {
        unsafe { saratoga_plan_count(start(status), status.len(), largest) }
    }

    fn check_plan(&self, status: &[u8], largest: u64, pieces: &[Piece]) -> Checked {
        unsafe { saratoga_check_plan(start(status), status.len(), largest, start(pieces), pieces.len()) }
    }
}

impl Merger for Archive {
    fn merge(&self, first: &mut [u8], second: &mut [u8], id: u64) -> Merged {
        // The second is lent as one that may be written (see `Merger`): what it holds afterwards is compared.
        unsafe { saratoga_merge(start_mut(first), first.len(), start_mut(second), second.len(), id) }
    }
}

impl BitmapReceiver for Archive {
    fn bitmap_open(&self, marks: &mut [u8], packet: &[u8]) -> BitmapOpened {
        unsafe { saratoga_bitmap_open(start_mut(marks), marks.len(), start(packet), packet.len()) }
    }

    fn bitmap_record(&self, transfer: Bitmap, marks: &mut [u8], packet: &[u8]) -> BitmapRecorded {
        unsafe { saratoga_bitmap_record(transfer, start_mut(marks), marks.len(), start(packet), packet.len()) }
    }

    fn bitmap_status(&self, transfer: Bitmap, marks: &[u8], skip: u64, unasked: u64, out: &mut [u8]) -> Written {
        unsafe { saratoga_bitmap_status(transfer, start(marks), marks.len(), skip, unasked, start_mut(out), out.len()) }
    }
}

impl SettingsFile for Archive {
    fn read_settings(&self, file: &[u8], known: u64) -> Settings {
        unsafe { saratoga_read_settings(start(file), file.len(), known) }
    }

    fn write_settings(&self, s: &Settings, out: &mut [u8]) -> Written {
        unsafe {
            saratoga_write_settings(
                s.version,
                s.largest_payload,
                s.has_interval,
                s.interval,
                s.has_partner,
                s.partner,
                start_mut(out),
                out.len(),
            )
        }
    }
}
