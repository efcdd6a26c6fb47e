//! What is compared first: the six functions of include/saratoga.h that read and write packets, here over slices.

use paper::write::{BeaconFields, DataFields, MetadataFields};

use crate::answer::{Hole, Packet, Written};

pub trait Codec {
    fn read(&self, packet: &[u8]) -> Packet;
    fn read_hole(&self, packet: &[u8], index: u64) -> Hole;
    fn write_beacon(&self, fields: &BeaconFields, out: &mut [u8]) -> Written;
    fn write_metadata(&self, fields: &MetadataFields, out: &mut [u8]) -> Written;
    fn write_data(&self, fields: &DataFields, out: &mut [u8]) -> Written;
    fn write_failure(&self, id: u64, status: u64, out: &mut [u8]) -> Written;
}

/// The codec written from the papers.
pub struct Paper;

impl Codec for Paper {
    fn read(&self, packet: &[u8]) -> Packet {
        paper::read::read(packet).into()
    }

    fn read_hole(&self, packet: &[u8], index: u64) -> Hole {
        paper::read::read_hole(packet, index).into()
    }

    fn write_beacon(&self, fields: &BeaconFields, out: &mut [u8]) -> Written {
        paper::write::write_beacon(fields, out).into()
    }

    fn write_metadata(&self, fields: &MetadataFields, out: &mut [u8]) -> Written {
        paper::write::write_metadata(fields, out).into()
    }

    fn write_data(&self, fields: &DataFields, out: &mut [u8]) -> Written {
        paper::write::write_data(fields, out).into()
    }

    fn write_failure(&self, id: u64, status: u64, out: &mut [u8]) -> Written {
        paper::write::write_failure(id, status, out).into()
    }
}
