//! One call on marks, compared: every field of the answer, every octet of the marks, the packet and the buffer.

use std::fmt::Debug;

use crate::answer::{BitmapOpened, BitmapRecorded, Written};
use crate::bitmap::held::{describe, Marked};
use crate::bitmap::BitmapReceiver;
use crate::check::{describe_packet, same_answer, same_octets, Check, Step, Stop};
use crate::codec::Paper;
use crate::lent::Lent;
use crate::tally::Function;

impl Check<'_> {
    /// `saratoga_bitmap_open`; the transfer that an accepted one gives is kept.
    pub fn bitmap_open(&mut self, marked: &mut Marked, packet: &[u8]) -> Result<BitmapOpened, Stop> {
        self.count()?;
        let before = marked.clone();
        let lent = Lent::copy(packet, &mut self.rng);
        let lent_before = lent.clone();
        let got = self.bitmaps.bitmap_open(marked.marks.octets_mut(), lent.octets());
        let want = Paper.bitmap_open(marked.want.octets_mut(), packet);
        let context = || format!("{}\n{}", describe_packet(packet), described(&before));
        self.same_marks(Function::BitmapOpen, &got, &want, marked, context)?;
        same_octets(Function::BitmapOpen, "packet", &lent, &lent_before, context)?;
        self.tally.add(Function::BitmapOpen, got.number);
        if got.number == 0 {
            marked.transfer = got.transfer;
        }
        Ok(got)
    }

    /// `saratoga_bitmap_record`; the transfer that an accepted one hands back is kept.
    pub fn bitmap_record(&mut self, marked: &mut Marked, packet: &[u8]) -> Result<BitmapRecorded, Stop> {
        self.count()?;
        let before = marked.clone();
        let lent = Lent::copy(packet, &mut self.rng);
        let lent_before = lent.clone();
        let got = self.bitmaps.bitmap_record(marked.transfer, marked.marks.octets_mut(), lent.octets());
        let want = Paper.bitmap_record(marked.transfer, marked.want.octets_mut(), packet);
        let context = || format!("{}\n{}", describe_packet(packet), described(&before));
        self.same_marks(Function::BitmapRecord, &got, &want, marked, context)?;
        same_octets(Function::BitmapRecord, "packet", &lent, &lent_before, context)?;
        self.tally.add(Function::BitmapRecord, got.recorded.number);
        if got.recorded.number == 0 {
            marked.transfer = got.transfer;
        }
        Ok(got)
    }

    /// `saratoga_bitmap_status` into a buffer with these octets; with all of the buffer afterwards.
    pub fn bitmap_status_into(
        &mut self,
        marked: &Marked,
        skip: u64,
        unasked: u64,
        out: &[u8],
    ) -> Result<(Written, Vec<u8>), Stop> {
        self.count()?;
        let mut out = Lent::copy(out, &mut self.rng);
        let mut want_out = out.clone();
        let got = self.bitmaps.bitmap_status(marked.transfer, marked.marks.octets(), skip, unasked, out.octets_mut());
        let want = Paper.bitmap_status(marked.transfer, marked.want.octets(), skip, unasked, want_out.octets_mut());
        let room = out.octets().len();
        let context =
            || format!("  skip {skip:#x}, unasked {unasked:#x}, buffer of {room} octets\n{}", described(marked));
        self.same_marks(Function::BitmapStatus, &got, &want, marked, context)?;
        if !self.alone {
            same_octets(Function::BitmapStatus, "out", &out, &want_out, context)?;
        }
        self.tally.add(Function::BitmapStatus, got.number);
        Ok((got, out.octets().to_vec()))
    }

    /// The same into a buffer of `room` octets.
    pub fn bitmap_status(&mut self, marked: &Marked, skip: u64, unasked: u64, room: usize) -> Result<Written, Stop> {
        let out = self.rng.octets(room);
        Ok(self.bitmap_status_into(marked, skip, unasked, &out)?.0)
    }

    /// The answer and the marks, octets past them and around them included.
    fn same_marks<T: PartialEq + Debug>(
        &self,
        function: Function,
        got: &T,
        want: &T,
        marked: &Marked,
        context: impl Fn() -> String,
    ) -> Step {
        if self.alone {
            return Ok(());
        }
        same_answer(function, got, want, &context)?;
        same_octets(function, "marks", &marked.marks, &marked.want, &context)
    }
}

fn described(marked: &Marked) -> String {
    describe(marked.transfer, marked.want.octets())
}
