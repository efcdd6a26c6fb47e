//! "Writing what was read gives the same octets for METADATA and DATA; reading what was written gives the same
//! fields." And of BEACON: "Round trip and the writer's refusals are as for DATA". Both are tried with the answers of the
//! codec under test alone.

use std::ops::Range;

use paper::write::{BeaconFields, DataFields, MetadataFields};

use crate::answer::{Packet, Written};
use crate::check::{describe_packet, hex, require, Check, Step, Stop};

impl Check<'_> {
    /// `saratoga_read`; BEACON, METADATA and DATA that it accepts are then written again.
    pub fn read(&mut self, packet: &[u8]) -> Result<Packet, Stop> {
        let got = self.read_once(packet)?;
        let extra = self.rng.pick(&[0, 0, 1, 9]);
        let written = match (got.number, got.kind) {
            (0, 0) => self.write_beacon_once(&beacon_fields(packet, &got), packet.len() + extra)?.1,
            (0, 2) => self.write_metadata_once(&metadata_fields(packet, &got), packet.len() + extra)?.1,
            (0, 3) => self.write_data_once(&data_fields(packet, &got), packet.len() + extra)?.1,
            _ => return Ok(got),
        };
        require(written == packet, || {
            format!("what was read is written otherwise\n{}\n  written: {}", describe_packet(packet), hex(&written))
        })?;
        Ok(got)
    }

    /// A packet that the papers allow: it must be accepted.
    pub fn read_valid(&mut self, packet: &[u8]) -> Result<Packet, Stop> {
        let got = self.read(packet)?;
        require(got.number == 0, || format!("a valid packet is refused\n  {got:?}\n{}", describe_packet(packet)))?;
        Ok(got)
    }

    /// A packet with one fault: it must be refused with that number.
    pub fn read_refused(&mut self, packet: &[u8], number: u64) -> Step {
        let got = self.read(packet)?;
        require(got.number == number, || {
            format!("refusal {number} is expected\n  {got:?}\n{}", describe_packet(packet))
        })
    }

    /// `saratoga_read_hole` for each index; the holes must be the octets at the place that `saratoga_read` gave.
    pub fn read_holes(&mut self, packet: &[u8], read: &Packet, indexes: &[u64]) -> Step {
        for &index in indexes {
            let hole = self.read_hole(packet, index)?;
            if hole.number == 0 {
                let width = read.width as usize;
                let at = read.holes_at as usize + 2 * width * index as usize;
                let descriptor = |number: u64| u128::from(number).to_be_bytes()[16 - width..].to_vec();
                let pair = [descriptor(hole.start), descriptor(hole.end)].concat();
                require(packet[at..at + 2 * width] == pair, || {
                    format!("hole {index} isn't at its place\n  {hole:?}\n{}", describe_packet(packet))
                })?;
            }
        }
        Ok(())
    }

    /// `saratoga_write_beacon`; what it accepts is then read.
    pub fn write_beacon(&mut self, fields: &BeaconFields, out_len: usize) -> Result<Written, Stop> {
        let (got, written) = self.write_beacon_once(fields, out_len)?;
        if got.number == 0 {
            let read = self.read_once(&written)?;
            let same = read.number == 0 && {
                let again = beacon_fields(&written, &read);
                (again.flags, again.free_space, again.endpoint) == (fields.flags, fields.free_space, fields.endpoint)
            };
            require(same, || format!("what was written reads otherwise\n  {read:?}\n{}", describe_packet(&written)))?;
        }
        Ok(got)
    }

    /// `saratoga_write_metadata`; what it accepts is then read.
    pub fn write_metadata(&mut self, fields: &MetadataFields, out_len: usize) -> Result<Written, Stop> {
        let (got, written) = self.write_metadata_once(fields, out_len)?;
        if got.number == 0 {
            let read = self.read_once(&written)?;
            let same = read.number == 0 && {
                let again = metadata_fields(&written, &read);
                (again.flags, again.id, again.checksum, again.properties)
                    == (fields.flags, fields.id, fields.checksum, fields.properties)
                    && (again.size, again.mtime, again.ctime, again.path)
                        == (fields.size, fields.mtime, fields.ctime, fields.path)
            };
            require(same, || format!("what was written reads otherwise\n  {read:?}\n{}", describe_packet(&written)))?;
        }
        Ok(got)
    }

    /// `saratoga_write_data`; what it accepts is then read.
    pub fn write_data(&mut self, fields: &DataFields, out_len: usize) -> Result<Written, Stop> {
        let (got, written) = self.write_data_once(fields, out_len)?;
        if got.number == 0 {
            let read = self.read_once(&written)?;
            let same = read.number == 0 && {
                let again = data_fields(&written, &read);
                (again.flags, again.id, again.timestamp, again.offset, again.payload)
                    == (fields.flags, fields.id, fields.timestamp, fields.offset, fields.payload)
            };
            require(same, || format!("what was written reads otherwise\n  {read:?}\n{}", describe_packet(&written)))?;
        }
        Ok(got)
    }

    /// `saratoga_write_failure`; what it accepts is then read.
    pub fn write_failure(&mut self, id: u64, status: u64, out_len: usize) -> Result<Written, Stop> {
        let (got, written) = self.write_failure_once(id, status, out_len)?;
        if got.number == 0 {
            let read = self.read_once(&written)?;
            let want = Packet { kind: 4, flags: status, id, status, ..Packet::default() };
            require(read == want, || {
                format!("what was written reads otherwise\n  {read:?}\n{}", describe_packet(&written))
            })?;
        }
        Ok(got)
    }
}

fn part(at: u64, len: u64) -> Range<usize> {
    at as usize..(at + len) as usize
}

/// What the BEACON writer takes, from a packet that was read.
fn beacon_fields<'a>(packet: &'a [u8], read: &Packet) -> BeaconFields<'a> {
    BeaconFields {
        flags: read.flags,
        free_space: read.free_space,
        endpoint: &packet[part(read.endpoint_at, read.endpoint_len)],
    }
}

/// What the METADATA writer takes, from a packet that was read.
fn metadata_fields<'a>(packet: &'a [u8], read: &Packet) -> MetadataFields<'a> {
    MetadataFields {
        flags: read.flags,
        id: read.id,
        checksum: &packet[part(read.checksum_at, read.checksum_len)],
        properties: read.properties,
        size: read.size,
        mtime: read.mtime,
        ctime: read.ctime,
        path: &packet[part(read.path_at, read.path_len)],
    }
}

/// What the DATA writer takes, from a packet that was read.
fn data_fields<'a>(packet: &'a [u8], read: &Packet) -> DataFields<'a> {
    DataFields {
        flags: read.flags,
        id: read.id,
        timestamp: &packet[part(read.timestamp_at, read.timestamp_len)],
        offset: read.offset,
        payload: &packet[part(read.payload_at, read.payload_len)],
    }
}
