//! The calls of the wrong receivers, made of the paper's answers.

use paper::area::take_up;
use paper::read;
use paper::table::Transfer;

use crate::answer::{Done, Hole, Listed, Opened, Recorded, Written};
use crate::codec::{Codec, Paper};
use crate::receiver::words::{self, entries, store, Entry, OCTETS};
use crate::receiver::wrong::Wrong::{self, *};
use crate::receiver::wrong_areas::unused_heads;
use crate::receiver::wrong_counts::{forget_all_repeats, forget_repeats};
use crate::receiver::wrong_stamps::forget_closed;
use crate::receiver::{Ask, Receiver};
use crate::wrong::{is_crc32c, without_checksum};
use crate::wrong_width::{wide_descriptors, with_upper_cleared};

impl Receiver for Wrong {
    fn fresh(&self, area: &mut [u8]) -> Done {
        let before = area.to_vec();
        let right = Paper.fresh(area);
        match self {
            FreshCountOnly if right.number == 0 => {
                area.copy_from_slice(&before);
                words::set(area, words::COUNT, 0);
            }
            FreshJudges if right.number == 0 && take_up(&before).is_err() => {
                area.copy_from_slice(&before);
                return Done { number: 22, code: 0 };
            }
            FreshTouchesShort if right.number == 20 && !area.is_empty() => area[0] ^= 1,
            RepeatsListed => forget_all_repeats(),
            ReopenedKeepsStamp => forget_closed(),
            _ => self.clear_past(area, right.number),
        }
        right
    }

    fn open(&self, area: &mut [u8], packet: &[u8]) -> Opened {
        if let Some(mut mended) = self.mended(area) {
            return Paper.open(&mut mended, packet);
        }
        let before = area.to_vec();
        let right = self.laid_out(area, |area| Paper.open(area, packet));
        self.clear_past(area, right.number);
        self.leave(&before, area);
        let refused = |number, code| Opened { number, code, ..Opened::default() };
        let read = Paper.read(packet);
        let table = take_up(&before).unwrap_or_default();
        let open = table.transfers.get(&read.id).filter(|_| read.kind == 2);
        let again = |transfer: &Transfer| {
            let state = transfer.state();
            Opened { edge: state.edge, complete: state.complete.into(), already_open: 1, ..Opened::default() }
        };
        match (self, open) {
            _ if self.refuses(&before) => {
                area.copy_from_slice(&before);
                return refused(22, 0);
            }
            (PacketBeforeArea, _) if right.number == 22 && read.number != 0 => return refused(read.number, read.code),
            (SeventeenIds, _) if right.number == 17 => {
                return Opened { complete: u64::from(read.size == 0), ..Opened::default() }
            }
            (FifteenIds, None) if right.number == 0 && table.transfers.len() == 15 => {
                area.copy_from_slice(&before);
                return refused(17, 0x03);
            }
            (FullBeforeOther, _) if right.number == 18 && table.transfers.len() == 16 => return refused(17, 0x03),
            (ChecksumBeforeOther, _) if right.number == 18 && is_crc32c(packet) => return refused(23, 0x01),
            (FullBeforeChecksum, _) if right.number == 23 && table.transfers.len() == 16 => return refused(17, 0x03),
            (ChecksumBeforePath, _) if matches!(right.number, 1 | 8) && is_crc32c(packet) => return refused(23, 0x01),
            (OldChecksumOpened, _) if right.number == 23 => return Paper.open(area, &without_checksum(packet)),
            (AgainRefusedForChecksum, _) if right.already_open == 1 && is_crc32c(packet) => return refused(23, 0x01),
            (Md5Refused, None) if right.number == 0 && packet[3] == 0x42 => {
                area.copy_from_slice(&before);
                return refused(23, 0x01);
            }
            (OneWordRefused, None) if right.number == 0 && packet[3] >> 4 == 1 => {
                area.copy_from_slice(&before);
                return refused(23, 0x01);
            }
            (RepeatsListed, None) if right.number == 0 => forget_repeats(read.id),
            (AgainForgets, Some(_)) if right.already_open == 1 => {
                change_entry(area, read.id, |entry| entry.runs.clear());
            }
            (AgainAnswersFresh, Some(_)) if right.already_open == 1 => return Opened { edge: 0, ..right },
            (WidthNotCompared, Some(open)) if right.number == 18 && open.length == read.size => return again(open),
            (LengthNotCompared, Some(open)) if right.number == 18 && open.width as u64 == read.width => {
                return again(open)
            }
            (EmptyNotComplete, None) if right.number == 0 && read.size == 0 => return Opened { complete: 0, ..right },
            (OpenedBeaconCut, _) if right.number == 4 && packet.len() < 8 => return refused(1, 0),
            (OpenedBeaconRead, _) if right.number == 4 && read.number == 26 => return refused(26, 0),
            (OpenedUpper, _) if right.number == 5 => return Paper.open(area, &with_upper_cleared(packet)),
            (OpenedWidthsAsOne, Some(open)) if right.number == 18 => {
                let same = open.length == read.size && open.width >= 8 && read.width >= 8;
                return if same { again(open) } else { right };
            }
            (OpenedNarrower, None) if right.number == 0 && read.width == 16 => {
                change_entry(area, read.id, |entry| entry.width = 8);
            }
            (EntryWidth, None) if right.number == 0 => {
                change_entry(area, read.id, |entry| entry.width = 2 << (read.properties >> 6 & 3));
            }
            _ => self.stamp_opened(area, packet, &read, right),
        }
        right
    }

    fn record(&self, area: &mut [u8], packet: &[u8]) -> Recorded {
        if let Some(mut mended) = self.mended(area) {
            return Paper.record(&mut mended, packet);
        }
        let before = area.to_vec();
        let right = self.laid_out(area, |area| Paper.record(area, packet));
        self.clear_past(area, right.number);
        self.leave(&before, area);
        let read = Paper.read(packet);
        let table = take_up(&before).unwrap_or_default();
        let refused = |number, code| Recorded { number, code, ..Recorded::default() };
        let wrong = match (self, table.transfers.get(&read.id).filter(|_| read.number == 0 && read.kind == 3)) {
            _ if self.refuses(&before) => refused(22, 0),
            (PacketBeforeArea, _) if right.number == 22 && read.number != 0 => refused(read.number, read.code),
            (RecordedUpper, _) if right.number == 5 => return Paper.record(area, &with_upper_cleared(packet)),
            (IdBeforePacket, _) if matches!(right.number, 1 | 5 | 6 | 10) && packet.len() >= 8 => {
                let id = u64::from(u32::from_be_bytes(packet[4..8].try_into().expect("four octets")));
                if table.transfers.contains_key(&id) {
                    return right;
                }
                refused(12, 0x06)
            }
            (IdBeforeUpper, _) if right.number == 5 => {
                let later = Paper.record(area, &with_upper_cleared(packet));
                if later.number == 12 {
                    later
                } else {
                    right
                }
            }
            (IdBeforeType, _) if right.number == 4 && read.kind == 2 && !table.transfers.contains_key(&read.id) => {
                refused(12, 0x06)
            }
            (RecordedBeaconCut, _) if right.number == 4 && packet.len() < 8 => refused(1, 0),
            (RecordedFourOfAny, _) if right.number == 1 && (4..8).contains(&packet.len()) && packet[0] >> 6 != 1 => {
                refused(3, 0)
            }
            (_, Some(transfer)) => {
                self.stamp_recorded(area, &before, packet, &read, right);
                return self.record_to(area, &before, packet, transfer, right);
            }
            _ => return right,
        };
        area.copy_from_slice(&before);
        wrong
    }

    /// What this receiver's recording answers, of a copy.
    fn try_record(&self, area: &[u8], packet: &[u8]) -> Recorded {
        let right = self.record(&mut area.to_vec(), packet);
        match self {
            TryAsItStands if right.number == 0 => {
                let found = Paper.find(area, Paper.read(packet).id);
                Recorded { edge: found.edge, complete: found.complete, ..right }
            }
            TryNeverSixteen if right.number == 16 => Recorded::default(),
            TryUncounted => Recorded { absorbed: 0, ..right },
            TryAddsNothing => Recorded { adds: 0, ..right },
            _ => right,
        }
    }

    fn close(&self, area: &mut [u8], id: u64) -> Done {
        if let Some(mut mended) = self.mended(area) {
            return Paper.close(&mut mended, id);
        }
        let before = area.to_vec();
        let right = match self {
            IdWraps => Paper.close(area, id % (1 << 32)),
            _ => self.laid_out(area, |area| Paper.close(area, id)),
        };
        self.clear_past(area, right.number);
        self.leave(&before, area);
        match self {
            _ if self.refuses(&before) => {
                area.copy_from_slice(&before);
                return Done { number: 22, code: 0 };
            }
            IdBeforeArea if right.number == 22 && id >= 1 << 32 => return Done { number: 12, code: 0x06 },
            UnusedIdFound
                if right.number == 12 && unused_heads(&before).any(|i| words::get(&before, words::id(i)) == id) =>
            {
                return Done::default()
            }
            RepeatsListed => forget_repeats(id),
            _ if right.number == 0 => self.stamp_closed(&before, id),
            _ => {}
        }
        right
    }

    fn write_status(&self, area: &[u8], ask: Ask, out: &mut [u8]) -> Written {
        if let Some(mended) = self.mended(area) {
            return Paper.write_status(&mended, ask, out);
        }
        let taken = match self {
            IdWraps => Ask { id: ask.id % (1 << 32), ..ask },
            UnaskedIsOne => Ask { unasked: u64::from(ask.unasked == 1), ..ask },
            _ if self.refuses(area) => return Written { number: 22, ..Written::default() },
            _ => ask,
        };
        let before = out.to_vec();
        let right = self.laid_out(&mut area.to_vec(), |area| Paper.write_status(area, taken, out));
        let table = take_up(area).unwrap_or_default();
        match table.transfers.get(&ask.id) {
            Some(transfer) => {
                let sent = self.stamp_sent(&table, transfer, ask, right, &before, out);
                sent.unwrap_or_else(|| self.status_of(transfer, ask, right, &before, out))
            }
            None => right,
        }
    }

    fn transfer(&self, area: &[u8], index: u64) -> Listed {
        if let Some(mended) = self.mended(area) {
            return Paper.transfer(&mended, index);
        }
        let right = self.laid_out(&mut area.to_vec(), |area| Paper.transfer(area, index));
        match self {
            _ if self.refuses(area) => Listed { number: 22, ..Listed::default() },
            UnusedListed if right.number == 12 => match unused_heads(area).find(|&i| i as u64 == index) {
                Some(i) => Listed { id: words::get(area, words::id(i)), ..Listed::default() },
                None => right,
            },
            IndexWraps => Paper.transfer(area, index % (1 << 32)),
            HolesForRuns if right.number == 0 => {
                let holes = take_up(area).unwrap_or_default().transfers[&right.id].received.holes().len();
                Listed { runs: holes as u64, ..right }
            }
            _ => self.stamp_listed(area, self.listed(right), false),
        }
    }

    fn find(&self, area: &[u8], id: u64) -> Listed {
        if let Some(mended) = self.mended(area) {
            return Paper.find(&mended, id);
        }
        let right = self.laid_out(&mut area.to_vec(), |area| Paper.find(area, id));
        match self {
            _ if self.refuses(area) => Listed { number: 22, ..Listed::default() },
            IdWraps => Paper.find(area, id % (1 << 32)),
            FindsNext if right.number == 12 => {
                let table = take_up(area).unwrap_or_default();
                Paper.transfer(area, table.transfers.range(..id).count() as u64)
            }
            FoundUncounted => Listed { received: 0, ..right },
            _ => self.stamp_listed(area, self.listed(right), true),
        }
    }

    fn transfer_hole(&self, area: &[u8], id: u64, index: u64) -> Hole {
        if let Some(mended) = self.mended(area) {
            return Paper.transfer_hole(&mended, id, index);
        }
        let right = self.laid_out(&mut area.to_vec(), |area| Paper.transfer_hole(area, id, index));
        match self {
            _ if self.refuses(area) => Hole { number: 22, ..Hole::default() },
            IdWraps => Paper.transfer_hole(area, id % (1 << 32), index),
            HoleAfterLast if right.number == 19 => {
                let found = Paper.find(area, id);
                let holes = take_up(area).unwrap_or_default().transfers[&id].received.holes().len();
                if index != holes as u64 || found.edge == found.length {
                    return right;
                }
                Hole { start: found.edge, end: found.length, ..Hole::default() }
            }
            HoleClosedEnd if right.number == 0 => Hole { end: right.end - 1, ..right },
            _ => right,
        }
    }
}

impl Wrong {
    /// Recording DATA to an open transfer: what is wrong with the answer, or with what is left in the area.
    fn record_to(
        self,
        area: &mut [u8],
        before: &[u8],
        packet: &[u8],
        transfer: &Transfer,
        right: Recorded,
    ) -> Recorded {
        let Ok(read::Packet::Data(data)) = read::read(packet) else { unreachable!("it was read") };
        let (start, len, length) = (data.offset, data.payload.len() as u64, transfer.length);
        let end = start.saturating_add(len);
        let runs: Vec<(u64, u64)> = transfer.received.runs().collect();
        let overlaps = runs.iter().any(|run| run.0 < end && start < run.1);
        let touches = runs.iter().any(|run| run.0 == end || start == run.1);
        let mut union = transfer.received.clone();
        if start < end {
            union.add(start, end);
        }
        let state = transfer.state();
        let as_it_stands = Recorded { edge: state.edge, complete: state.complete.into(), ..Recorded::default() };
        let refused = |number, code| Recorded { number, code, ..Recorded::default() };
        let accepted = right.number == 0;

        // What is wrong in the answer alone.
        let wrong = match self {
            CountsOctets if accepted => {
                let sum = runs.iter().map(|run| run.1 - run.0).sum::<u64>().saturating_add(len);
                return Recorded { complete: u64::from(sum >= length), ..right };
            }
            CompleteWithoutHoles if accepted => {
                return Recorded { complete: u64::from(union.holes().is_empty()), ..right }
            }
            AlwaysComplete if accepted => return Recorded { complete: 1, ..right },
            EdgeInside if accepted => return Recorded { edge: right.edge - 1, ..right },
            UnusedRunJoined if accepted && runs.len() < 64 => {
                let i = entries(before).expect("a table").iter().position(|entry| entry.id == data.header.id);
                let next =
                    [words::start, words::stop].map(|side| words::get(before, side(i.expect("open"), runs.len())));
                let touches = next[0] <= end && start <= next[1] && next[1] <= length;
                return if touches { Recorded { edge: right.edge.max(next[1]), ..right } } else { right };
            }
            WidthsAsOne if right.number == 13 && transfer.width >= 8 && data.width >= 8 => {
                let offset = descriptor(start, transfer.width);
                let mut other = [&packet[..data.timestamp.end], &offset, &packet[data.payload]].concat();
                other[1] ^= 0x40;
                return Paper.record(area, &other);
            }
            TouchingUncounted if accepted => {
                let overlapping = runs.iter().filter(|run| run.0 < end && start < run.1).count();
                return Recorded { absorbed: overlapping as u64, ..right };
            }
            CountedTwice => return Recorded { absorbed: 2 * right.absorbed, ..right },
            NewRunCounted if accepted => return Recorded { absorbed: right.absorbed + 1, ..right },
            RepeatUncounted if accepted && union == transfer.received => return Recorded { absorbed: 0, ..right },
            CountedOnRefusal if !accepted => {
                return Recorded { absorbed: transfer.received.absorbed(start, end) as u64, ..right }
            }
            // What is recorded otherwise.
            TouchingApart if accepted && touches && !overlaps && runs.len() < 64 => {
                change_entry(area, data.header.id, |entry| {
                    entry.runs = runs.clone();
                    entry.runs.push((start, end));
                    entry.runs.sort();
                });
                return right;
            }
            EndOfDataIgnored | EndOfDataBit => {
                let mut other = packet.to_vec();
                let (wanted, last) = (packet[1] & 1, packet[2] >> 7);
                other[2] &= 0x7F;
                if self == EndOfDataBit {
                    other[1] = other[1] & 0xFE | last;
                    other[2] |= wanted << 7;
                }
                area.copy_from_slice(before);
                return Paper.record(area, &other);
            }
            RecordedOnRefusal if right.number == 15 => {
                let mut other = packet.to_vec();
                other[2] &= 0x7F;
                Paper.record(area, &other);
                return right;
            }
            // The area stays.
            FirstPacketOnly if accepted && !runs.is_empty() => right,
            RefusesAll if accepted => refused(16, 0x03),
            TouchingTakesRoom if accepted && runs.len() == 64 && touches && !overlaps => refused(16, 0x03),
            RoomBeforeJoining if accepted && runs.len() == 64 => refused(16, 0x03),
            SixtyFiveRuns if right.number == 16 => Recorded { edge: union.edge(), ..Recorded::default() },
            SixtyThreeRuns if accepted && union.run_count() == 64 && runs.len() == 63 => refused(16, 0x03),
            WrappedSum if right.number == 14 && start.wrapping_add(len) <= length => as_it_stands,
            LastOctetRefused if accepted && end == length => refused(14, 0x09),
            EndBeforeWidth if right.number == 13 && end > length => refused(14, 0x09),
            EndOfDataBeforeEnd if right.number == 14 && packet[2] >> 7 == 1 => refused(15, 0x01),
            RunsBeforeEndOfData if right.number == 15 && union.run_count() > 64 => refused(16, 0x03),
            _ => return self.told(data.header.id, (start, end), transfer, right),
        };
        area.copy_from_slice(before);
        wrong
    }

    /// Writing STATUS for an open transfer: what is wrong with the answer, or with the octets.
    fn status_of(self, transfer: &Transfer, ask: Ask, right: Written, before: &[u8], out: &mut [u8]) -> Written {
        let (d, holes) = (transfer.width, transfer.received.holes());
        let stamp = transfer.timestamp.map_or(vec![], |octets| octets.to_vec());
        let (size, fixed) = (right.size as usize, 8 + stamp.len() + 2 * transfer.width);
        let accepted = right.number == 0;
        let all_fit = accepted && (size - fixed) / (2 * d) == holes.len() - ask.skip as usize;
        let mut without_holes = |room: usize, number: u64| {
            let applies = right.number == number && out.len() >= room;
            applies.then(|| {
                let flags = ((d.ilog2() as u8 - 1) << 6) | u8::from(!stamp.is_empty()) << 3 | 2;
                let mut written = vec![0x44, flags | u8::from(ask.unasked != 0), 0, 0];
                written.extend((ask.id as u32).to_be_bytes());
                written.extend(&stamp);
                written.extend(descriptor(transfer.received.lowest_missing(), d));
                written.extend(descriptor(transfer.received.edge(), d));
                out[..fixed].copy_from_slice(&written);
                Written { size: fixed as u64, ..Written::default() }
            })
        };
        let low = d.min(8); // of 128 bits the upper eight octets stay zero
        let respond = |out: &mut [u8], to: u64| out[fixed - low..fixed].copy_from_slice(&to.to_be_bytes()[8 - low..]);
        match self {
            NoRoomNoHole => return without_holes(fixed, 20).unwrap_or(right),
            AllSkipped if ask.skip == holes.len() as u64 => return without_holes(fixed, 19).unwrap_or(right),
            BufferBeforeSkip if right.number == 19 && out.len() < fixed => {
                return Written { number: 20, ..Written::default() }
            }
            HoleEndInside if accepted => {
                for end in (fixed + d..size).step_by(2 * d) {
                    let at = holes[ask.skip as usize + (end - fixed) / (2 * d)];
                    out[end..end + d].copy_from_slice(&descriptor(at.1 - 1, d));
                }
            }
            HoleToLength if all_fit && out.len() >= size + 2 * d && transfer.received.edge() < transfer.length => {
                out[size..size + d].copy_from_slice(&descriptor(transfer.received.edge(), d));
                out[size + d..size + 2 * d].copy_from_slice(&descriptor(transfer.length, d));
                return Written { size: (size + 2 * d) as u64, ..right };
            }
            SkippedNotTold if all_fit => out[1] &= !2,
            CompleteNotTold if accepted && ask.unasked == 0 => out[1] &= !1,
            LengthForLast if accepted && transfer.state().complete => respond(out, transfer.length),
            EdgeLessOne if accepted => respond(out, transfer.received.edge().saturating_sub(1)),
            EmptyWraps if accepted && transfer.length == 0 => respond(out, u64::MAX),
            LastOctetWhenUnasked if accepted && ask.unasked != 0 => respond(out, transfer.length.saturating_sub(1)),
            ProgressAfterSkip if accepted && ask.skip > 0 => out.copy_within(fixed..fixed + d, fixed - 2 * d),
            BufferTouched if right.number == 20 && !out.is_empty() => out[0] ^= 0x44,
            OctetAfter if accepted && out.len() > size => out[size] = 0,
            UpperLeft if accepted => {
                for at in wide_descriptors(&out[..size]) {
                    out[at..at + 8].copy_from_slice(&before[at..at + 8]);
                }
            }
            StatusNarrower if accepted && d == 16 => {
                let from = 8 + stamp.len();
                let narrow: Vec<u8> = out[from..size].chunks(16).flat_map(|wide| wide[8..].to_vec()).collect();
                let end = from + narrow.len();
                out[end..].copy_from_slice(&before[end..]);
                out[1] ^= 0x40;
                out[from..end].copy_from_slice(&narrow);
                return Written { size: end as u64, ..right };
            }
            _ => {}
        }
        right
    }

    fn clear_past(self, area: &mut [u8], number: u64) {
        if self == PastCleared && number == 0 && area.len() > OCTETS {
            area[OCTETS] = 0;
        }
    }

    /// An area that holds no table and that this receiver takes for one that does: that one.
    fn mended(self, area: &[u8]) -> Option<Vec<u8>> {
        let mut mended = area.to_vec();
        if self == ShortTaken && area.len() == OCTETS - 1 {
            mended.push(0);
            return take_up(&mended).is_ok().then_some(mended);
        }
        if area.len() < OCTETS || take_up(area).is_ok() {
            return None;
        }
        let mut found = entries(area)?;
        found.iter_mut().for_each(|entry| self.mend(entry));
        match self {
            OtherOrderTaken => found.sort_by_key(|entry| entry.id),
            LastNotJudged => drop(found.pop()),
            _ => {}
        }
        store(&found, &mut mended);
        take_up(&mended).is_ok().then_some(mended)
    }

    fn mend(self, entry: &mut Entry) {
        match self {
            TouchingTaken => join(entry, |run, next| run.1 == next.0),
            OverlappingTaken => join(entry, |run, next| run.0 <= next.0 && next.0 < run.1),
            LongRunTaken => entry.runs.iter_mut().for_each(|run| run.1 = run.1.min(entry.length)),
            LongLengthTaken => entry.width = 8,
            OtherWidthTaken if ![2, 4, 8, 16].contains(&entry.width) => entry.width = 8,
            LongIdTaken => entry.id %= 1 << 32,
            RunsNotJudged => entry.runs.clear(),
            TwoTaken if entry.stamped == 2 => entry.stamped = 1,
            OthersTakenForNone if entry.stamped > 1 => entry.stamped = 0,
            StampedByOctet => entry.stamped %= 256,
            _ => {}
        }
    }
}

/// A number in `d` octets.
fn descriptor(number: u64, d: usize) -> Vec<u8> {
    u128::from(number).to_be_bytes()[16 - d..].to_vec()
}

/// Joins neighbours of which `one` holds.
fn join(entry: &mut Entry, one: impl Fn((u64, u64), (u64, u64)) -> bool) {
    let mut joined: Vec<(u64, u64)> = vec![];
    for &run in &entry.runs {
        match joined.last_mut() {
            Some(last) if one(*last, run) => last.1 = last.1.max(run.1),
            _ => joined.push(run),
        }
    }
    entry.runs = joined;
}

/// Changes the entry of an Id that is open.
fn change_entry(area: &mut [u8], id: u64, change: impl FnOnce(&mut Entry)) {
    let mut found = entries(area).expect("a table");
    change(found.iter_mut().find(|entry| entry.id == id).expect("it is open"));
    store(&found, area);
}
