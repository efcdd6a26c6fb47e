//! One call on an area, compared: every field of the answer, every octet of the area, the packet and the buffer.

use std::fmt::Debug;

use paper::status::in_response_to;

use crate::answer::{Done, Hole, Listed, Opened, Packet, Recorded, Written};
use crate::check::{describe_packet, require, same_answer, same_octets, Check, Step, Stop};
use crate::lent::Lent;
use crate::receiver::held::Held;
use crate::receiver::{words, Ask};
use crate::tally::Function;

impl Check<'_> {
    /// `saratoga_fresh`.
    pub fn fresh(&mut self, held: &mut Held) -> Result<Done, Stop> {
        self.count()?;
        let before = held.want.clone();
        let got = self.receiver.fresh(held.area.octets_mut());
        let want = held.fresh().into();
        self.same(Function::Fresh, &got, &want, held, || describe_area(&before))?;
        self.tally.add(Function::Fresh, got.number);
        Ok(got)
    }

    /// `saratoga_open`.
    pub fn open(&mut self, held: &mut Held, packet: &[u8]) -> Result<Opened, Stop> {
        self.count()?;
        let before = held.want.clone();
        let lent = Lent::copy(packet, &mut self.rng);
        let lent_before = lent.clone();
        let got = self.receiver.open(held.area.octets_mut(), lent.octets());
        let want = held.change(|table| table.open(packet)).into();
        let context = || format!("{}\n{}", describe_packet(packet), describe_area(&before));
        self.same(Function::Open, &got, &want, held, context)?;
        same_octets(Function::Open, "packet", &lent, &lent_before, context)?;
        self.tally.add(Function::Open, got.number);
        Ok(got)
    }

    /// `saratoga_record`; now and then it is asked before what it would answer.
    pub fn record(&mut self, held: &mut Held, packet: &[u8]) -> Result<Recorded, Stop> {
        if self.rng.one_in(3) {
            self.try_record(held, packet)?;
        }
        self.count()?;
        let before = held.want.clone();
        let lent = Lent::copy(packet, &mut self.rng);
        let lent_before = lent.clone();
        let got = self.receiver.record(held.area.octets_mut(), lent.octets());
        let want = held.change(|table| table.record(packet)).into();
        let context = || format!("{}\n{}", describe_packet(packet), describe_area(&before));
        self.same(Function::Record, &got, &want, held, context)?;
        same_octets(Function::Record, "packet", &lent, &lent_before, context)?;
        self.tally.add(Function::Record, got.number);
        Ok(got)
    }

    /// `saratoga_try_record`.
    pub fn try_record(&mut self, held: &Held, packet: &[u8]) -> Result<Recorded, Stop> {
        self.count()?;
        let lent = Lent::copy(packet, &mut self.rng);
        let lent_before = lent.clone();
        let got = self.receiver.try_record(held.area.octets(), lent.octets());
        let want = held.look(|table| table.try_record(packet)).into();
        let context = || format!("{}\n{}", describe_packet(packet), describe_area(&held.want));
        self.same(Function::TryRecord, &got, &want, held, context)?;
        same_octets(Function::TryRecord, "packet", &lent, &lent_before, context)?;
        self.tally.add(Function::TryRecord, got.number);
        Ok(got)
    }

    /// `saratoga_close`.
    pub fn close(&mut self, held: &mut Held, id: u64) -> Result<Done, Stop> {
        self.count()?;
        let before = held.want.clone();
        let got = self.receiver.close(held.area.octets_mut(), id);
        let want = held.change(|table| table.close(id)).into();
        self.same(Function::Close, &got, &want, held, || format!("  id {id:#x}\n{}", describe_area(&before)))?;
        self.tally.add(Function::Close, got.number);
        Ok(got)
    }

    /// `saratoga_transfer`.
    pub fn transfer(&mut self, held: &Held, index: u64) -> Result<Listed, Stop> {
        self.count()?;
        let got = self.receiver.transfer(held.area.octets(), index);
        let want = held.look(|table| table.transfer(index)).into();
        let context = || format!("  index {index:#x}\n{}", describe_area(&held.want));
        self.same(Function::Transfer, &got, &want, held, context)?;
        self.tally.add(Function::Transfer, got.number);
        Ok(got)
    }

    /// `saratoga_find`.
    pub fn find(&mut self, held: &Held, id: u64) -> Result<Listed, Stop> {
        self.count()?;
        let got = self.receiver.find(held.area.octets(), id);
        let want = held.look(|table| table.find(id)).into();
        let context = || format!("  id {id:#x}\n{}", describe_area(&held.want));
        self.same(Function::Find, &got, &want, held, context)?;
        self.tally.add(Function::Find, got.number);
        Ok(got)
    }

    /// `saratoga_transfer_hole`.
    pub fn transfer_hole(&mut self, held: &Held, id: u64, index: u64) -> Result<Hole, Stop> {
        self.count()?;
        let got = self.receiver.transfer_hole(held.area.octets(), id, index);
        let want = held.look(|table| table.hole(id, index)).into();
        let context = || format!("  id {id:#x}, index {index:#x}\n{}", describe_area(&held.want));
        self.same(Function::TransferHole, &got, &want, held, context)?;
        self.tally.add(Function::TransferHole, got.number);
        Ok(got)
    }

    /// `saratoga_write_status` into a buffer with these octets; with all of the buffer afterwards.
    pub fn write_status_into(&mut self, held: &Held, ask: Ask, out: &[u8]) -> Result<(Written, Vec<u8>), Stop> {
        self.count()?;
        let mut out = Lent::copy(out, &mut self.rng);
        let mut want_out = out.clone();
        let got = self.receiver.write_status(held.area.octets(), ask, out.octets_mut());
        let rule = held.look(|table| table.write_status(ask.id, ask.skip, ask.unasked != 0, want_out.octets_mut()));
        let want = rule.into();
        let room = out.octets().len();
        let context = || format!("  {ask:?}, buffer of {room} octets\n{}", describe_area(&held.want));
        self.same(Function::WriteStatus, &got, &want, held, context)?;
        if !self.alone {
            same_octets(Function::WriteStatus, "out", &out, &want_out, context)?;
        }
        self.tally.add(Function::WriteStatus, got.number);
        Ok((got, out.octets().to_vec()))
    }

    /// `saratoga_write_status` into a buffer of `room` octets; what it writes is read now and then, and so is the transfer by
    /// its Id, and the hole after those that are skipped.
    pub fn write_status(&mut self, held: &Held, ask: Ask, room: usize) -> Result<Written, Stop> {
        match self.rng.below(6) {
            0 => drop(self.find(held, ask.id)?),
            1 | 2 => drop(self.transfer_hole(held, ask.id, ask.skip)?),
            _ => {}
        }
        let out = self.rng.octets(room);
        let (got, out) = self.write_status_into(held, ask, &out)?;
        if got.number == 0 && self.rng.one_in(4) {
            self.read_back(held, ask, &out[..got.size as usize])?;
        }
        Ok(got)
    }

    /// "A STATUS that the desk wrote reads back with its fields and holes", and with the timestamp.
    fn read_back(&mut self, held: &Held, ask: Ask, status: &[u8]) -> Step {
        let table = held.table.as_ref().expect("a STATUS was written");
        let transfer = &table.transfers[&ask.id];
        let holes = &transfer.received.holes()[ask.skip as usize..];
        let stamped = transfer.timestamp.is_some();
        let stamp = if stamped { 16 } else { 0 };
        let (d, holes_at) = (transfer.width, 8 + stamp + 2 * transfer.width);
        let written = (status.len() - holes_at) / (2 * d);
        let incomplete = ask.skip > 0 || written < holes.len();
        let unasked = ask.unasked != 0 || transfer.state().complete;
        let width_bits = u64::from(d.ilog2()) - 1;
        let want = Packet {
            kind: 4,
            flags: width_bits << 22 | u64::from(stamped) << 19 | u64::from(incomplete) << 17 | u64::from(unasked) << 16,
            id: ask.id,
            width: d as u64,
            timestamp_at: 8,
            timestamp_len: stamp as u64,
            progress: transfer.received.lowest_missing(),
            in_response_to: in_response_to(transfer.state(), transfer.length),
            holes_at: holes_at as u64,
            hole_count: written as u64,
            ..Packet::default()
        };
        let read = self.read_once(status)?;
        require(read == want, || {
            format!("the STATUS reads otherwise\n  {read:?}\n  {want:?}\n{}", describe_packet(status))
        })?;
        let octets = transfer.timestamp.is_none_or(|octets| status[8..24] == octets);
        require(octets, || format!("the STATUS has another timestamp\n{}", describe_packet(status)))?;
        for (index, &(start, end)) in holes[..written].iter().enumerate() {
            let hole = self.read_hole(status, index as u64)?;
            require((hole.number, hole.start, hole.end) == (0, start, end), || {
                format!("hole {index} reads otherwise\n  {hole:?}\n{}", describe_packet(status))
            })?;
        }
        Ok(())
    }

    /// The answer and the area, octets around it included.
    fn same<T: PartialEq + Debug>(
        &self,
        function: Function,
        got: &T,
        want: &T,
        held: &Held,
        context: impl Fn() -> String,
    ) -> Step {
        if self.alone {
            return Ok(());
        }
        same_answer(function, got, want, &context)?;
        same_octets(function, "area", &held.area, &held.want, &context)
    }
}

fn describe_area(area: &Lent) -> String {
    words::describe(area.octets())
}
