//! Receivers with marks that are wrong in one way each, made of the paper's answers. The comparison must find every one.

use paper::bitmap::{take_up, OCTETS};
use paper::marks::Marks;
use paper::read;
use paper::refusal::Refusal;

use crate::answer::{Bitmap, BitmapOpened, BitmapRecorded, Recorded, Written};
use crate::bitmap::held::set;
use crate::bitmap::wrong::Wrong::*;
use crate::bitmap::BitmapReceiver;
use crate::codec::{Codec, Paper};
use crate::wrong::{is_crc32c, without_checksum};

wrong! {
    // The marks that recording sets.
    /// Marks that are set already are cleared.
    RepeatToggles,
    /// The lowest bit of an octet is its first mark.
    LowestFirst,
    /// The mark right after the packet is set too: at L where the packet is the last.
    OneMarkMore,
    /// The packet's last mark is not set.
    LastMarkLeft,
    /// Of a packet within one octet of the marks the first mark is set alone.
    WithinOctetLeft,
    /// A packet refused with 15 is marked.
    MarkedOnRefusal,
    /// An octet past the marks is cleared.
    PastCleared,

    // Recording.
    /// A 65th run is taken.
    SixtyFiveRuns,
    /// The 64th run is refused.
    SixtyThreeRuns,
    /// A packet that touches a run is refused where there are 64.
    TouchingTakesRoom,
    /// The marks are counted and compared with the length, repeats twice.
    CountsOctets,
    /// Complete when there are no holes below the edge.
    CompleteWithoutHoles,
    /// The edge is the highest offset received.
    EdgeInside,
    /// The edge is where the packet ends.
    EdgeOfPacket,
    /// DATA of another Id is taken.
    OtherIdTaken,
    /// The transfer's Id is taken modulo 2^32.
    IdWraps,
    /// 13 before 12.
    WidthBeforeId,
    /// 16 before 15.
    RunsBeforeEndOfData,
    /// End of data is not looked at.
    EndOfDataIgnored,
    /// A refused recording hands the transfer back.
    RefusedHandsBack,
    /// An accepted recording hands no transfer back.
    NothingHandedBack,
    /// The transfer that is handed back has the edge for its length.
    EdgeHandedBack,

    // The timestamp.
    /// It is not renewed where one is kept.
    FirstStampKept,
    /// Sixteen zero octets are none.
    ZerosForNone,
    /// A repeat does not renew it.
    RepeatLeavesStamp,
    /// DATA without one forgets it.
    BareForgetsStamp,
    /// Its halves are handed back the other way round.
    HalvesSwapped,
    /// Each half is handed back with its lowest octet first.
    HalvesTurned,
    /// `stamped` is handed back as it came.
    StampedAsItCame,
    /// Halves are handed back where none is kept.
    HalvesAsTheyCame,
    /// Only 1 is yes.
    OnlyOneIsYes,
    /// The lowest octet of `stamped` alone says whether one is kept.
    StampedByOctet,
    /// Halves that aren't zero are yes.
    HalvesAreYes,
    /// A `stamped` over 1 is 22.
    StampedJudged,
    /// Bit 12 of METADATA, which says something else there, is taken for one.
    EndedForStamp,
    /// STATUS has none.
    StampNotSent,
    /// STATUS has bit 12 set where none is kept.
    StampBitAlways,
    /// STATUS has its halves the other way round.
    HalvesSentSwapped,
    /// STATUS into a buffer that is short by no more than it is not refused.
    StampUncounted,

    // The runs absorbed.
    /// Runs that touch the packet are not counted.
    TouchingUncounted,
    /// A repeat absorbs nothing.
    RepeatUncounted,
    /// The new run is counted too.
    NewRunCounted,
    /// A refused packet tells what it would have absorbed.
    CountedOnRefusal,

    // Whether anything is added.
    /// A repeat adds something, as every packet does.
    RepeatAdds,
    /// A packet adds something where as many octets as it has are still missing.
    AddsByOctets,
    /// A packet adds something where its first mark is not set.
    AddsByFirst,
    /// A packet adds something where its last mark is not set.
    AddsByLast,
    /// Looked at after the marks are set, no packet adds anything.
    AddsNothing,
    /// A refused packet tells whether it would have added something.
    AddsOnRefusal,

    // Opening.
    /// The marks are left as they were.
    OpeningKeepsMarks,
    /// The octets that have marks of the file are cleared alone.
    OpeningKeepsAbove,
    /// All octets that were lent are cleared.
    OpeningClearsAll,
    /// A refused opening clears the marks.
    RefusedOpeningClears,
    /// 65,536 is opened.
    LongerOpened,
    /// 65,535 is refused.
    LongestRefused,
    /// Any length of the width is opened.
    AnyLengthOpened,
    /// 9 before the reader's refusals.
    LengthBeforePath,
    /// 23 before 9.
    ChecksumBeforeLength,
    /// 23 before the reader's refusals.
    ChecksumBeforePath,
    /// A CRC-32c is opened.
    OldChecksumOpened,
    /// The marks are cleared before 23 is told.
    ClearedForOldChecksum,
    /// MD5 is refused.
    Md5Refused,
    /// Any checksum of one word is refused.
    OneWordRefused,
    /// The reader's refusals before 20.
    PacketBeforeMarks,
    /// Marks that are no transfer's are 22 in opening too.
    OpeningJudges,
    /// The width is the directory entry's.
    EntryWidth,
    /// L = 0 isn't complete.
    EmptyNotComplete,
    /// The transfer of a refused opening is that of the packet.
    RefusedWithTransfer,

    // What is judged.
    /// A mark at L is taken.
    MarkAtLengthTaken,
    /// Marks above L are taken.
    MarksAboveTaken,
    /// The last octet of the marks is not judged where no mark of the file is in it.
    LastOctetNotJudged,
    /// 65 runs are taken.
    SixtyFiveTaken,
    /// 64 runs are refused.
    SixtyFourRefused,
    /// Any width is taken.
    AnyWidthTaken,
    /// A width of 16 octets is refused.
    SixteenRefused,
    /// A length of 65,536 is taken.
    LongerTaken,
    /// A length of 65,535 is 22.
    LongestNotTaken,
    /// 22 before 20.
    StateBeforeMarks,
    /// The reader's refusals before 22.
    PacketBeforeState,
    /// 8,191 octets are enough.
    ShortTaken,
    /// More than 8,192 octets are refused.
    LongerRefused,

    // The walk.
    /// Runs end with the octet that they are in.
    RunsEndWithOctets,
    /// A run in the last octet is not found.
    LastOctetMissed,
    /// Of a run that begins at an octet's last mark the first one is not found.
    LastBitMissed,

    // STATUS.
    /// The transfer's Id is taken modulo 2^32.
    StatusIdWraps,
    /// 12 before 22.
    StatusIdFirst,
    /// 19 before 12.
    SkipBeforeId,
    /// 20 for the buffer before 19.
    BufferBeforeSkip,
    /// From the edge to the length is a hole.
    HoleToLength,
    /// A buffer that is too small is written to.
    BufferTouched,
}

/// Those that are found beside the table alone, without the paper's answers for marks.
pub const BESIDE_THE_TABLE: &[Wrong] = &[
    RepeatToggles,
    OneMarkMore,
    LastMarkLeft,
    MarkedOnRefusal,
    SixtyFiveRuns,
    SixtyThreeRuns,
    CountsOctets,
    EdgeOfPacket,
    OtherIdTaken,
    RefusedHandsBack,
    NothingHandedBack,
    EdgeHandedBack,
    TouchingUncounted,
    RepeatUncounted,
    RepeatAdds,
    AddsByOctets,
    AddsByFirst,
    AddsByLast,
    AddsOnRefusal,
    OpeningKeepsMarks,
    OpeningKeepsAbove,
    LongestRefused,
    OldChecksumOpened,
    Md5Refused,
    OneWordRefused,
    EntryWidth,
    SixtyFourRefused,
    RunsEndWithOctets,
    LastOctetMissed,
    LastBitMissed,
    HoleToLength,
    FirstStampKept,
    ZerosForNone,
    RepeatLeavesStamp,
    BareForgetsStamp,
    HalvesSwapped,
    HalvesTurned,
    EndedForStamp,
    StampNotSent,
    StampBitAlways,
    HalvesSentSwapped,
    StampUncounted,
];

impl BitmapReceiver for Wrong {
    fn bitmap_open(&self, marks: &mut [u8], packet: &[u8]) -> BitmapOpened {
        let before = marks.to_vec();
        let right = Paper.bitmap_open(marks, packet);
        let refused = |number, code| BitmapOpened { number, code, ..BitmapOpened::default() };
        let read = Paper.read(packet);
        let of_packet = Bitmap::new(read.id, read.width, read.size);
        let (accepted, metadata) = (right.number == 0, read.number == 0 && read.kind == 2);
        let opened = BitmapOpened { transfer: of_packet, ..BitmapOpened::default() };
        let wrong = match self {
            OpeningKeepsMarks if accepted => right,
            LongestRefused if accepted && right.transfer.length == 65_535 => refused(9, 9),
            Md5Refused if accepted && packet[3] == 0x42 => refused(23, 1),
            OneWordRefused if accepted && packet[3] >> 4 == 1 => refused(23, 1),
            OpeningJudges if accepted && take_up(right.transfer, &before).is_err() => refused(22, 0),
            LongerRefused if before.len() > OCTETS => refused(22, 0),
            OpeningKeepsAbove if accepted => {
                let kept = right.transfer.length.div_ceil(8) as usize;
                marks[kept..].copy_from_slice(&before[kept..]);
                return right;
            }
            OpeningClearsAll if accepted => {
                marks.fill(0);
                return right;
            }
            RefusedOpeningClears if !accepted && before.len() >= OCTETS => {
                marks[..OCTETS].fill(0);
                return right;
            }
            PastCleared if accepted => {
                marks.iter_mut().skip(OCTETS).take(1).for_each(|octet| *octet = 0);
                return right;
            }
            LongerOpened if right.number == 9 && metadata && read.size == 65_536 => return opened,
            AnyLengthOpened if right.number == 9 && metadata => return opened,
            LengthBeforePath if right.number == 8 && long_size(packet) => return refused(9, 9),
            ChecksumBeforeLength if right.number == 9 && metadata && is_crc32c(packet) => return refused(23, 1),
            ChecksumBeforePath if matches!(right.number, 1 | 8) && is_crc32c(packet) => return refused(23, 1),
            OldChecksumOpened if right.number == 23 => return Paper.bitmap_open(marks, &without_checksum(packet)),
            ClearedForOldChecksum if right.number == 23 => {
                marks[..OCTETS].fill(0);
                return right;
            }
            PacketBeforeMarks if right.number == 20 && read.number != 0 => return refused(read.number, read.code),
            ShortTaken if right.number == 20 && before.len() == OCTETS - 1 => {
                return Paper.bitmap_open(&mut [&before[..], &[0]].concat(), packet)
            }
            EntryWidth if accepted => {
                let width = 2 << (read.properties >> 6 & 3);
                return BitmapOpened { transfer: Bitmap { width, ..right.transfer }, ..right };
            }
            EmptyNotComplete if accepted => return BitmapOpened { complete: 0, ..right },
            EndedForStamp if accepted && packet[1] & 0x08 != 0 => {
                return BitmapOpened { transfer: Bitmap { stamped: 1, ..right.transfer }, ..right };
            }
            RefusedWithTransfer if !accepted => return BitmapOpened { transfer: of_packet, ..right },
            _ => return right,
        };
        marks.copy_from_slice(&before);
        wrong
    }

    fn bitmap_record(&self, transfer: Bitmap, marks: &mut [u8], packet: &[u8]) -> BitmapRecorded {
        let before = marks.to_vec();
        if let Some((other, mut mended)) = self.mended(transfer, marks) {
            let BitmapRecorded { recorded, transfer: handed_back } = Paper.bitmap_record(other, &mut mended, packet);
            if recorded.number == 0 {
                marks.iter_mut().zip(&mended).for_each(|(octet, mended)| *octet |= mended);
            }
            return answer(recorded, Bitmap { width: transfer.width, length: transfer.length, ..handed_back });
        }
        if self == &LowestFirst {
            return turned(marks, |marks| Paper.bitmap_record(transfer, marks, packet));
        }
        if let Some(number) = self.judged_wrongly(transfer, marks) {
            return answer(refused(number), transfer);
        }
        let right = Paper.bitmap_record(transfer, marks, packet);
        let read = Paper.read(packet);
        let state = take_up(transfer, &before);
        match (self, state) {
            (PacketBeforeState, Err(Refusal::Area)) if read.number != 0 => {
                let recorded = Recorded { number: read.number, code: read.code, ..Recorded::default() };
                answer(recorded, transfer)
            }
            (RefusedHandsBack, _) if right.recorded.number != 0 => BitmapRecorded { transfer, ..right },
            (NothingHandedBack, _) => BitmapRecorded { transfer: Bitmap::default(), ..right },
            (EdgeHandedBack, _) if right.recorded.number == 0 => {
                answer(right.recorded, Bitmap { length: right.recorded.edge, ..right.transfer })
            }
            (_, Ok(_)) if right.recorded.number == 0 && self.is_of_stamps() => {
                answer(right.recorded, self.stamp_recorded(transfer, packet, right))
            }
            (_, Ok(received)) if read.number == 0 && read.kind == 3 => {
                let recorded = self.record_to(transfer, &before, marks, packet, &received, right.recorded);
                answer(recorded, if right.recorded.number == 0 { right.transfer } else { transfer })
            }
            _ => right,
        }
    }

    fn bitmap_status(&self, transfer: Bitmap, marks: &[u8], skip: u64, unasked: u64, out: &mut [u8]) -> Written {
        if let Some((other, mended)) = self.mended(transfer, marks) {
            return Paper.bitmap_status(other, &mended, skip, unasked, out);
        }
        if self == &LowestFirst {
            return turned(&mut marks.to_vec(), |marks| Paper.bitmap_status(transfer, marks, skip, unasked, out));
        }
        if let Some(number) = self.judged_wrongly(transfer, marks) {
            return Written { number, ..Written::default() };
        }
        let sent = if self == &StampNotSent { transfer.keeping(None) } else { transfer };
        let right = Paper.bitmap_status(sent, marks, skip, unasked, out);
        let long_id = transfer.id >= 1 << 32;
        let short_id = Bitmap { id: transfer.id % (1 << 32), ..transfer };
        match self {
            StatusIdWraps => Paper.bitmap_status(short_id, marks, skip, unasked, out),
            StatusIdFirst if right.number == 22 && long_id => Written { number: 12, code: 6, size: 0 },
            SkipBeforeId if right.number == 12 => {
                let later = Paper.bitmap_status(short_id, marks, skip, unasked, &mut out.to_vec());
                if later.number == 19 {
                    later
                } else {
                    right
                }
            }
            BufferBeforeSkip if right.number == 19 && out.len() < 8 => Written { number: 20, ..Written::default() },
            BufferTouched if right.number == 20 && !out.is_empty() => {
                out[0] ^= 0x44;
                right
            }
            HoleToLength if right.number == 0 => hole_to_length(transfer, marks, right, out),
            StampBitAlways if right.number == 0 => {
                out[1] |= 0x08;
                right
            }
            HalvesSentSwapped if right.number == 0 && transfer.stamped != 0 => {
                out[8..24].rotate_left(8);
                right
            }
            StampUncounted if right.number == 20 && transfer.stamped != 0 => {
                let bare = Bitmap { stamped: 0, ..transfer };
                let written = Paper.bitmap_status(bare, marks, skip, unasked, &mut out.to_vec());
                Written { size: if written.number == 0 { written.size + 16 } else { 0 }, ..written }
            }
            _ => right,
        }
    }
}

impl Wrong {
    /// Whether the timestamp that an accepted recording hands back is what is wrong.
    fn is_of_stamps(self) -> bool {
        let kept = [FirstStampKept, ZerosForNone, RepeatLeavesStamp, BareForgetsStamp];
        let handed_back = [HalvesSwapped, HalvesTurned, StampedAsItCame, HalvesAsTheyCame];
        kept.contains(&self) || handed_back.contains(&self)
    }

    /// The transfer that an accepted recording hands back.
    fn stamp_recorded(self, came: Bitmap, packet: &[u8], right: BitmapRecorded) -> Bitmap {
        let (back, stamped) = (right.transfer, packet[1] & 0x08 != 0);
        let (high, low) = (back.stamp_high, back.stamp_low);
        let left = back.keeping(came.timestamp());
        match self {
            FirstStampKept if came.stamped != 0 => left,
            ZerosForNone if stamped && (high, low) == (0, 0) => left,
            RepeatLeavesStamp if right.recorded.adds == 0 => left,
            BareForgetsStamp if !stamped => back.keeping(None),
            HalvesSwapped => Bitmap { stamp_high: low, stamp_low: high, ..back },
            HalvesTurned => Bitmap { stamp_high: high.swap_bytes(), stamp_low: low.swap_bytes(), ..back },
            StampedAsItCame if !stamped => Bitmap { stamped: came.stamped, ..back },
            HalvesAsTheyCame if back.stamped == 0 => {
                Bitmap { stamp_high: came.stamp_high, stamp_low: came.stamp_low, ..back }
            }
            _ => back,
        }
    }

    /// Recording DATA over marks that go with the transfer: what is wrong with the answer, or with the marks.
    fn record_to(
        self,
        transfer: Bitmap,
        before: &[u8],
        marks: &mut [u8],
        packet: &[u8],
        received: &Marks,
        right: Recorded,
    ) -> Recorded {
        let Ok(read::Packet::Data(data)) = read::read(packet) else { unreachable!("it was read") };
        let (start, len) = (data.offset, data.payload.len() as u64);
        let end = start.saturating_add(len);
        let inside = end <= transfer.length;
        let runs = received.runs();
        let overlap = |run: &&(u64, u64)| run.0 < end && start < run.1;
        let touching = runs.iter().any(|run| run.0 == end || run.1 == start);
        let overlapping = runs.iter().filter(overlap).count();
        let mut union = received.clone();
        if inside {
            union.add(start, end);
        }
        let accepted = right.number == 0;
        match self {
            // Marks.
            RepeatToggles if accepted => {
                (start..end).for_each(|n| marks[n as usize / 8] = before[n as usize / 8]);
                (start..end).for_each(|n| marks[n as usize / 8] ^= 0x80 >> (n % 8));
            }
            OneMarkMore if accepted => set(marks, [end]),
            LastMarkLeft if accepted => clear_unless(before, marks, end - 1),
            WithinOctetLeft if accepted && start / 8 == (end - 1) / 8 => {
                (start + 1..end).for_each(|n| clear_unless(before, marks, n));
            }
            MarkedOnRefusal if right.number == 15 => set(marks, start..end),
            PastCleared if accepted => marks.iter_mut().skip(OCTETS).take(1).for_each(|octet| *octet = 0),
            // Room.
            SixtyFiveRuns if right.number == 16 => {
                set(marks, start..end);
                return Recorded { edge: union.edge(), ..Recorded::default() };
            }
            SixtyThreeRuns if accepted && union.runs().len() == 64 => return self.back(before, marks, refused(16)),
            TouchingTakesRoom if accepted && runs.len() == 64 && touching && overlapping == 0 => {
                return self.back(before, marks, refused(16));
            }
            RunsBeforeEndOfData if right.number == 15 && union.runs().len() > 64 => return refused(16),
            // The answer.
            CountsOctets if accepted => {
                let sum = runs.iter().map(|run| run.1 - run.0).sum::<u64>() + len;
                return Recorded { complete: u64::from(sum >= transfer.length), ..right };
            }
            CompleteWithoutHoles if accepted => {
                return Recorded { complete: u64::from(union.holes().is_empty()), ..right }
            }
            EdgeInside if accepted => return Recorded { edge: right.edge - 1, ..right },
            EdgeOfPacket if accepted => return Recorded { edge: end, ..right },
            TouchingUncounted if accepted => return Recorded { absorbed: overlapping as u64, ..right },
            RepeatUncounted if accepted && union.runs() == runs => return Recorded { absorbed: 0, ..right },
            NewRunCounted if accepted => return Recorded { absorbed: right.absorbed + 1, ..right },
            CountedOnRefusal if !accepted => return Recorded { absorbed: overlapping as u64, ..right },
            RepeatAdds if accepted => return Recorded { adds: 1, ..right },
            AddsByOctets if accepted => {
                return Recorded { adds: u64::from(len <= transfer.length - received.count()), ..right }
            }
            AddsByFirst if accepted => return Recorded { adds: received.adds(start, start + 1).into(), ..right },
            AddsByLast if accepted => return Recorded { adds: received.adds(end - 1, end).into(), ..right },
            AddsNothing => return Recorded { adds: 0, ..right },
            AddsOnRefusal if !accepted && inside => {
                return Recorded { adds: received.adds(start, end).into(), ..right }
            }
            // What is judged of the packet.
            OtherIdTaken if right.number == 12 => {
                return Paper.bitmap_record(Bitmap { id: data.header.id, ..transfer }, marks, packet).recorded;
            }
            IdWraps if right.number == 12 && transfer.id % (1 << 32) == data.header.id => {
                return Paper.bitmap_record(Bitmap { id: data.header.id, ..transfer }, marks, packet).recorded;
            }
            WidthBeforeId if right.number == 12 && data.width as u64 != transfer.width => return refused(13),
            EndOfDataIgnored if right.number == 15 => {
                let mut other = packet.to_vec();
                other[2] &= 0x7F;
                return Paper.bitmap_record(transfer, marks, &other).recorded;
            }
            _ => {}
        }
        right
    }

    fn back(self, before: &[u8], marks: &mut [u8], wrong: Recorded) -> Recorded {
        marks.copy_from_slice(before);
        wrong
    }

    /// The number with which marks or a transfer are refused, where that is another than by the paper.
    fn judged_wrongly(self, transfer: Bitmap, marks: &[u8]) -> Option<u64> {
        let right = take_up(transfer, marks);
        let wide = transfer.width == 16;
        match (self, right) {
            (StateBeforeMarks, Err(Refusal::Buffer)) => {
                let openable = [2, 4, 8, 16].contains(&transfer.width) && transfer.length <= 65_535;
                (!openable).then_some(22)
            }
            (SixtyFourRefused, Ok(received)) => (received.runs().len() == 64).then_some(22),
            (SixteenRefused, Ok(_)) => wide.then_some(22),
            (LongestNotTaken, Ok(_)) => (transfer.length == 65_535).then_some(22),
            (LongerRefused, Ok(_)) => (marks.len() > OCTETS).then_some(22),
            (StampedJudged, Ok(_)) => (transfer.stamped > 1).then_some(22),
            _ => None,
        }
    }

    /// What this receiver takes the transfer and the marks for, where that is another than they are.
    fn mended(self, transfer: Bitmap, marks: &[u8]) -> Option<(Bitmap, Vec<u8>)> {
        let (mut other, mut mended) = (transfer, marks.to_vec());
        if self == ShortTaken && marks.len() == OCTETS - 1 {
            mended.push(0);
            return Some((other, mended));
        }
        if marks.len() < OCTETS {
            return None;
        }
        let octet = |mark: u64| mark as usize / 8;
        match self {
            MarkAtLengthTaken if transfer.length < 65_536 => clear(&mut mended, [transfer.length]),
            MarksAboveTaken => clear(&mut mended, transfer.length.min(65_536)..65_536),
            LastOctetNotJudged if transfer.length <= 65_528 => mended[OCTETS - 1] = 0,
            SixtyFiveTaken => {
                let runs = Marks::of(&marks[..OCTETS]).runs();
                runs.get(64).filter(|_| runs.len() == 65).into_iter().for_each(|run| clear(&mut mended, run.0..run.1));
            }
            AnyWidthTaken if ![2, 4, 8, 16].contains(&transfer.width) => other.width = 4,
            LongerTaken if transfer.length == 65_536 => other.length = 65_535,
            OnlyOneIsYes => other.stamped = u64::from(transfer.stamped == 1),
            StampedByOctet => other.stamped %= 256,
            HalvesAreYes => other.stamped |= transfer.stamp_high | transfer.stamp_low,
            RunsEndWithOctets => (8..65_536).step_by(8).for_each(|mark| clear(&mut mended, [mark])),
            LastOctetMissed => mended[OCTETS - 1] = 0,
            LastBitMissed => {
                let first = |&mark: &u64| marks[octet(mark)] & 3 == 1 && marks[octet(mark + 1)] & 0x80 != 0;
                (7..65_528).step_by(8).filter(first).for_each(|mark| clear(&mut mended, [mark]));
            }
            _ => {}
        }
        ((other, &mended[..]) != (transfer, marks)).then_some((other, mended))
    }
}

/// The transfer is handed back where the recording is accepted.
fn answer(recorded: Recorded, transfer: Bitmap) -> BitmapRecorded {
    BitmapRecorded { recorded, transfer: if recorded.number == 0 { transfer } else { Bitmap::default() } }
}

/// 12 to 16 and 22 with their codes.
fn refused(number: u64) -> Recorded {
    let code = [6, 9, 9, 1, 3].get((number as usize).wrapping_sub(12)).copied().unwrap_or(0);
    Recorded { number, code, ..Recorded::default() }
}

fn clear(octets: &mut [u8], marks: impl IntoIterator<Item = u64>) {
    for n in marks {
        octets[n as usize / 8] &= !(0x80 >> (n % 8));
    }
}

/// Clears a mark that was not set before.
fn clear_unless(before: &[u8], marks: &mut [u8], mark: u64) {
    let (at, bit) = (mark as usize / 8, 0x80 >> (mark % 8));
    marks[at] &= !bit | before[at];
}

/// A call on marks whose bits count from the lowest.
fn turned<T>(marks: &mut [u8], call: impl FnOnce(&mut [u8]) -> T) -> T {
    let turn = |marks: &mut [u8]| marks.iter_mut().take(OCTETS).for_each(|octet| *octet = octet.reverse_bits());
    turn(marks);
    let answer = call(marks);
    turn(marks);
    answer
}

/// Whether the size of METADATA in 64 or 128 bits is over 65,535.
fn long_size(packet: &[u8]) -> bool {
    let at = 8 + 4 * usize::from(packet[3] >> 4);
    let width = 2usize << (packet[at + 1] >> 6 & 3);
    width >= 4 && packet[at + 2..at + width].iter().any(|&octet| octet != 0)
}

/// The STATUS with a hole from the edge to the length behind the others, where all of these fit and there is room for it.
fn hole_to_length(transfer: Bitmap, marks: &[u8], right: Written, out: &mut [u8]) -> Written {
    let received = take_up(transfer, marks).expect("a STATUS was written");
    let (size, d, edge) = (right.size as usize, transfer.width as usize, received.edge());
    let all = out[1] & 2 == 0 && edge < transfer.length;
    if !all || out.len() < size + 2 * d {
        return right;
    }
    for (at, number) in [(size, edge), (size + d, transfer.length)] {
        out[at..at + d].copy_from_slice(&u128::from(number).to_be_bytes()[16 - d..]);
    }
    Written { size: (size + 2 * d) as u64, ..right }
}
