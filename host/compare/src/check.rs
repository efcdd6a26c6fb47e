//! One call, compared: every field of the answer, every octet of every lent buffer.

use std::fmt::Debug;
use std::time::Instant;

use paper::write::{BeaconFields, DataFields, MetadataFields};

use crate::answer::{Hole, Packet, Written};
use crate::bitmap::BitmapReceiver;
use crate::codec::{Codec, Paper};
use crate::lent::Lent;
use crate::merge::Merger;
use crate::plan::Planner;
use crate::receiver::Receiver;
use crate::rng::Rng;
use crate::settings::SettingsFile;
use crate::tally::{Function, Tally};

/// Why a run ends.
#[derive(Debug)]
pub enum Stop {
    /// The number of calls asked for is reached, or the time is over.
    Enough,
    /// A disagreement, described.
    Mismatch(String),
}

pub type Step = Result<(), Stop>;

/// A codec, a receiver with a table and one with marks, a planner, a merging, and a reader and writer of settings under test, with
/// the counts of the run.
pub struct Check<'a> {
    pub codec: &'a dyn Codec,
    pub receiver: &'a dyn Receiver,
    pub bitmaps: &'a dyn BitmapReceiver,
    pub planner: &'a dyn Planner,
    pub merger: &'a dyn Merger,
    pub settings: &'a dyn SettingsFile,
    /// The receivers' calls aren't compared with the paper's: what they do is judged by the caller alone.
    pub alone: bool,
    pub rng: Rng,
    pub tally: Tally,
    pub calls: u64,
    /// The number of calls at which to stop.
    pub stop_at: u64,
    /// The time at which to stop.
    pub until: Option<Instant>,
}

impl<'a> Check<'a> {
    /// With the paper's own; those under test are put in their places.
    pub fn new(seed: u64) -> Check<'a> {
        Check {
            codec: &Paper,
            receiver: &Paper,
            bitmaps: &Paper,
            planner: &Paper,
            merger: &Paper,
            settings: &Paper,
            alone: false,
            rng: Rng::new(seed),
            tally: Tally::default(),
            calls: 0,
            stop_at: u64::MAX,
            until: None,
        }
    }

    /// `saratoga_read`, this one call.
    pub fn read_once(&mut self, packet: &[u8]) -> Result<Packet, Stop> {
        self.count()?;
        let lent = Lent::copy(packet, &mut self.rng);
        let before = lent.clone();
        let got = self.codec.read(lent.octets());
        let want = Paper.read(packet);
        let context = || describe_packet(packet);
        same_answer(Function::Read, &got, &want, context)?;
        same_octets(Function::Read, "packet", &lent, &before, context)?;
        self.tally.add(Function::Read, got.number);
        Ok(got)
    }

    /// `saratoga_read_hole`.
    pub fn read_hole(&mut self, packet: &[u8], index: u64) -> Result<Hole, Stop> {
        self.count()?;
        let lent = Lent::copy(packet, &mut self.rng);
        let before = lent.clone();
        let got = self.codec.read_hole(lent.octets(), index);
        let want = Paper.read_hole(packet, index);
        let context = || format!("  index: {index}\n{}", describe_packet(packet));
        same_answer(Function::ReadHole, &got, &want, context)?;
        same_octets(Function::ReadHole, "packet", &lent, &before, context)?;
        self.tally.add(Function::ReadHole, got.number);
        Ok(got)
    }

    /// `saratoga_write_beacon` into a buffer of `out_len` octets, this one call; with the octets written.
    pub fn write_beacon_once(&mut self, fields: &BeaconFields, out_len: usize) -> Result<(Written, Vec<u8>), Stop> {
        self.count()?;
        let endpoint = Lent::copy(fields.endpoint, &mut self.rng);
        let endpoint_before = endpoint.clone();
        let mut out = Lent::random(out_len, &mut self.rng);
        let mut want_out = out.clone();
        let lent = BeaconFields { endpoint: endpoint.octets(), ..*fields };
        let got = self.codec.write_beacon(&lent, out.octets_mut());
        let want = Paper.write_beacon(fields, want_out.octets_mut());
        let context = || describe_beacon(fields, out_len);
        same_answer(Function::WriteBeacon, &got, &want, context)?;
        same_octets(Function::WriteBeacon, "out", &out, &want_out, context)?;
        same_octets(Function::WriteBeacon, "endpoint", &endpoint, &endpoint_before, context)?;
        self.tally.add(Function::WriteBeacon, got.number);
        Ok((got, out.octets()[..got.size as usize].to_vec()))
    }

    /// `saratoga_write_metadata`, the same way.
    pub fn write_metadata_once(&mut self, fields: &MetadataFields, out_len: usize) -> Result<(Written, Vec<u8>), Stop> {
        self.count()?;
        let checksum = Lent::copy(fields.checksum, &mut self.rng);
        let path = Lent::copy(fields.path, &mut self.rng);
        let (checksum_before, path_before) = (checksum.clone(), path.clone());
        let mut out = Lent::random(out_len, &mut self.rng);
        let mut want_out = out.clone();
        let lent = MetadataFields { checksum: checksum.octets(), path: path.octets(), ..*fields };
        let got = self.codec.write_metadata(&lent, out.octets_mut());
        let want = Paper.write_metadata(fields, want_out.octets_mut());
        let context = || describe_metadata(fields, out_len);
        same_answer(Function::WriteMetadata, &got, &want, context)?;
        same_octets(Function::WriteMetadata, "out", &out, &want_out, context)?;
        same_octets(Function::WriteMetadata, "checksum", &checksum, &checksum_before, context)?;
        same_octets(Function::WriteMetadata, "path", &path, &path_before, context)?;
        self.tally.add(Function::WriteMetadata, got.number);
        Ok((got, out.octets()[..got.size as usize].to_vec()))
    }

    /// `saratoga_write_data`, the same way.
    pub fn write_data_once(&mut self, fields: &DataFields, out_len: usize) -> Result<(Written, Vec<u8>), Stop> {
        self.count()?;
        let timestamp = Lent::copy(fields.timestamp, &mut self.rng);
        let payload = Lent::copy(fields.payload, &mut self.rng);
        let (timestamp_before, payload_before) = (timestamp.clone(), payload.clone());
        let mut out = Lent::random(out_len, &mut self.rng);
        let mut want_out = out.clone();
        let lent = DataFields { timestamp: timestamp.octets(), payload: payload.octets(), ..*fields };
        let got = self.codec.write_data(&lent, out.octets_mut());
        let want = Paper.write_data(fields, want_out.octets_mut());
        let context = || describe_data(fields, out_len);
        same_answer(Function::WriteData, &got, &want, context)?;
        same_octets(Function::WriteData, "out", &out, &want_out, context)?;
        same_octets(Function::WriteData, "timestamp", &timestamp, &timestamp_before, context)?;
        same_octets(Function::WriteData, "payload", &payload, &payload_before, context)?;
        self.tally.add(Function::WriteData, got.number);
        Ok((got, out.octets()[..got.size as usize].to_vec()))
    }

    /// `saratoga_write_failure`, the same way.
    pub fn write_failure_once(&mut self, id: u64, status: u64, out_len: usize) -> Result<(Written, Vec<u8>), Stop> {
        self.count()?;
        let mut out = Lent::random(out_len, &mut self.rng);
        let mut want_out = out.clone();
        let got = self.codec.write_failure(id, status, out.octets_mut());
        let want = Paper.write_failure(id, status, want_out.octets_mut());
        let context = || format!("  id {id:#x}, status {status:#x}, buffer of {out_len} octets");
        same_answer(Function::WriteFailure, &got, &want, context)?;
        same_octets(Function::WriteFailure, "out", &out, &want_out, context)?;
        self.tally.add(Function::WriteFailure, got.number);
        Ok((got, out.octets()[..got.size as usize].to_vec()))
    }

    pub fn count(&mut self) -> Step {
        let over = |until: Instant| self.calls.is_multiple_of(1_024) && Instant::now() >= until;
        if self.calls >= self.stop_at || self.until.is_some_and(over) {
            return Err(Stop::Enough);
        }
        self.calls += 1;
        Ok(())
    }
}

/// Fails with `what` where `holds` is false.
pub fn require(holds: bool, what: impl Fn() -> String) -> Step {
    match holds {
        true => Ok(()),
        false => Err(Stop::Mismatch(what())),
    }
}

pub fn same_answer<T: PartialEq + Debug>(function: Function, got: &T, want: &T, context: impl Fn() -> String) -> Step {
    require(got == want, || {
        let (got, want) = (format!("{got:?}"), format!("{want:?}"));
        let differ: Vec<_> = got.split(", ").zip(want.split(", ")).filter(|(got, want)| got != want).collect();
        let name = function.name();
        format!("{name} answers otherwise\n  library: {got}\n  paper:   {want}\n  differ: {differ:?}\n{}", context())
    })
}

pub fn same_octets(function: Function, what: &str, got: &Lent, want: &Lent, context: impl Fn() -> String) -> Step {
    match got.difference(want) {
        None => Ok(()),
        Some((at, got, want)) => Err(Stop::Mismatch(format!(
            "{} leaves other octets in `{what}`\n  octet {at}: library {got:02x}, paper {want:02x}\n{}",
            function.name(),
            context()
        ))),
    }
}

pub fn hex(octets: &[u8]) -> String {
    octets.iter().map(|octet| format!("{octet:02x}")).collect::<Vec<_>>().join(" ")
}

pub fn describe_packet(packet: &[u8]) -> String {
    format!("  packet of {} octets: {}", packet.len(), hex(packet))
}

fn describe_beacon(f: &BeaconFields, out_len: usize) -> String {
    format!(
        "  flags {:#x}, free space {:#x}, buffer of {out_len} octets\n  endpoint of {} octets: {}",
        f.flags,
        f.free_space,
        f.endpoint.len(),
        hex(f.endpoint)
    )
}

fn describe_metadata(f: &MetadataFields, out_len: usize) -> String {
    format!(
        "  flags {:#x}, id {:#x}, properties {:#x}, size {:#x}, mtime {:#x}, ctime {:#x}, buffer of {out_len} octets\n\
         \x20 checksum of {} octets: {}\n  path of {} octets: {}",
        f.flags,
        f.id,
        f.properties,
        f.size,
        f.mtime,
        f.ctime,
        f.checksum.len(),
        hex(f.checksum),
        f.path.len(),
        hex(f.path)
    )
}

fn describe_data(f: &DataFields, out_len: usize) -> String {
    format!(
        "  flags {:#x}, id {:#x}, offset {:#x}, buffer of {out_len} octets\n  timestamp of {} octets: {}\n  \
         payload of {} octets: {}",
        f.flags,
        f.id,
        f.offset,
        f.timestamp.len(),
        hex(f.timestamp),
        f.payload.len(),
        hex(f.payload)
    )
}
