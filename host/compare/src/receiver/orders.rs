//! "The two orders" (demand 3): a list of openings and recordings on a fresh area, and what was accepted of it, sorted,
//! on another. Words in quotes are document 01's and demand 3's, and document 02's of timestamps.

use std::collections::BTreeMap;

use paper::area;
use paper::layout::Timestamp;
use paper::marks::Marks;
use paper::read::{read, Data, Packet};
use paper::table::{Table, Transfer};

use crate::check::{describe_packet, require, Check, Step};
use crate::receiver::files::{files, File};
use crate::receiver::held::Held;
use crate::receiver::pass::{damaged_packet, opening_packet, recording_packet, scattered, shuffle};
use crate::receiver::{words, Ask};
use crate::rng::Rng;

/// The accepted calls of a list, in their order.
#[derive(Default)]
struct Accepted {
    openings: Vec<Vec<u8>>,
    recordings: Vec<Vec<u8>>,
}

/// One list, and one of its sorted orders.
pub fn trial(check: &mut Check) -> Step {
    let count = check.rng.pick(&[1, 1, 2, 3, 6, 17]);
    let files = files(&mut check.rng, count);
    let mut first = Held::random(&mut check.rng);
    check.fresh(&mut first)?;
    let accepted = list(check, &mut first, &files)?;

    // "starts from a fresh desk of its own": other octets before, and past the layout.
    let mut second = Held::random(&mut check.rng);
    check.fresh(&mut second)?;
    for packet in &accepted.openings {
        let number = check.open(&mut second, packet)?.number;
        require(number == 0, || refused("opening", number, packet))?;
    }
    let in_order = sorted(&mut check.rng, &accepted.recordings);
    for packet in &in_order {
        let number = check.record(&mut second, packet)?.number;
        require(number == 0, || refused("recording", number, packet))?;
    }

    // "Both desks end with the same transfers open and the same received octets for each". Their areas may differ in
    // places that nothing uses. "Order now shows in this one field": each keeps the last timestamp of its own order.
    let (one, other) = (first.area.octets(), second.area.octets());
    let same = area::take_up(one).map(without_timestamps) == area::take_up(other).map(without_timestamps);
    require(same, || format!("the two orders end otherwise\n{}\n{}", words::describe(one), words::describe(other)))?;
    brought(&accepted, one)?;
    keeps_last(one, &accepted.recordings.iter().collect::<Vec<_>>())?;
    keeps_last(other, &in_order)?;
    statuses(check, &first, &second, &files)
}

fn without_timestamps(mut table: Table) -> Table {
    table.transfers.values_mut().for_each(|transfer| transfer.timestamp = None);
    table
}

/// "the kept timestamp is, on each of its two desks, the last one in that desk's own order": bit 12 and octets 8 to 23 of the
/// packets themselves.
fn keeps_last(got: &[u8], recordings: &[&Vec<u8>]) -> Step {
    for (id, transfer) in area::take_up(got).expect("a table").transfers {
        let own = |packet: &&&Vec<u8>| packet[4..8] == (id as u32).to_be_bytes() && packet[1] & 0x08 != 0;
        let last = recordings.iter().rev().find(own).map(|packet| Timestamp::try_from(&packet[8..24]).expect("16"));
        require(transfer.timestamp == last, || {
            format!("not the last timestamp of Id {id:#x} is kept, {last:02x?}\n{}", words::describe(got))
        })?;
    }
    Ok(())
}

fn refused(what: &str, number: u64, packet: &[u8]) -> String {
    format!("the sorted order has refusal {number} for an accepted {what}\n{}", describe_packet(packet))
}

/// Openings and recordings "mixed and repeated, whatever octets they bring, refused ones included".
fn list(check: &mut Check, held: &mut Held, files: &[File]) -> Result<Accepted, crate::check::Stop> {
    let mut accepted = Accepted::default();
    for _ in 0..check.rng.between(1, 80) {
        let rng = &mut check.rng;
        let table = held.table.as_ref().expect("it holds one");
        let packets = match rng.below(20) {
            0..=4 => vec![opening_packet(rng, files)],
            5..=13 => vec![recording_packet(rng, table, files)],
            14 | 15 => scattered(rng, table, files),
            16 => vec![damaged_packet(rng, table, files)],
            17 if !accepted.openings.is_empty() => {
                vec![accepted.openings[rng.place(0, accepted.openings.len() - 1)].clone()]
            }
            _ if !accepted.recordings.is_empty() => {
                vec![accepted.recordings[rng.place(0, accepted.recordings.len() - 1)].clone()]
            }
            _ => vec![opening_packet(rng, files)],
        };
        for packet in packets {
            // Each packet to the call that it is for, or now and then to the other.
            let opening = packet.first() == Some(&0x42);
            if opening != check.rng.one_in(40) {
                if check.open(held, &packet)?.number == 0 {
                    accepted.openings.push(packet);
                }
            } else if check.record(held, &packet)?.number == 0 {
                accepted.recordings.push(packet);
            }
        }
    }
    Ok(accepted)
}

fn data(packet: &[u8]) -> Data {
    match read(packet) {
        Ok(Packet::Data(data)) => data,
        other => panic!("no DATA was recorded: {other:?}"),
    }
}

/// "transfer by transfer and, inside each, by rising offset"; "Which transfer comes first, and which of two packets with
/// equal offsets, is left free". Now and then all transfers together, which keeps each one's order too.
fn sorted<'a>(rng: &mut Rng, recordings: &'a [Vec<u8>]) -> Vec<&'a Vec<u8>> {
    let mut packets: Vec<_> = recordings.iter().map(|packet| (data(packet), packet)).collect();
    shuffle(&mut packets, rng);
    packets.sort_by_key(|(data, _)| data.offset);
    if !rng.one_in(4) {
        let mut ids: Vec<u64> = packets.iter().map(|(data, _)| data.header.id).collect();
        ids.sort();
        ids.dedup();
        shuffle(&mut ids, rng);
        packets.sort_by_key(|(data, _)| ids.iter().position(|&id| id == data.header.id));
    }
    packets.into_iter().map(|(_, packet)| packet).collect()
}

/// "exactly those that some accepted packet brought": the table is made of the accepted packets alone.
fn brought(accepted: &Accepted, got: &[u8]) -> Step {
    let mut table = Table::default();
    for packet in &accepted.openings {
        let Ok(Packet::Metadata(opened)) = read(packet) else { panic!("no METADATA was opened") };
        table.transfers.insert(opened.header.id, Transfer::new(opened.width, opened.size));
    }
    let mut marks = BTreeMap::new();
    for packet in &accepted.recordings {
        let data = data(packet);
        let (start, end) = (data.offset, data.offset + data.payload.len() as u64);
        let transfer = table.transfers.get_mut(&data.header.id).expect("opened");
        transfer.received.add(start, end);
        if transfer.length <= 400 {
            let new = || Marks::new(transfer.length as usize);
            marks.entry(data.header.id).or_insert_with(new).add(start, end);
        }
    }
    for (id, marks) in marks {
        let runs: Vec<_> = table.transfers[&id].received.runs().collect();
        assert_eq!(runs, marks.runs(), "the paper's two sets differ");
    }
    require(area::take_up(got).map(without_timestamps) == Ok(table.clone()), || {
        format!("received is not what the accepted packets brought\n  {table:?}\n{}", words::describe(got))
    })
}

/// "STATUS is written from both ends, with equal Id, k and unasked or not, into buffers of equal content: both are
/// refused with the same number and code, or both answer the same and leave the same octets", of "STATUS bytes with the
/// timestamp left out": octets 8 to 23 where one is kept.
fn statuses(check: &mut Check, first: &Held, second: &Held, files: &[File]) -> Step {
    let ids = files.iter().map(|file| u64::from(file.id)).chain([check.rng.number(64)]);
    let table = first.table.clone().expect("it holds one");
    for id in ids.collect::<Vec<_>>() {
        let (holes, d, stamped) = match table.transfers.get(&id) {
            Some(open) => (open.received.holes().len() as u64, open.width, open.timestamp.is_some()),
            None => (0, 2, false),
        };
        let some = [0, 1, holes / 2, holes.saturating_sub(1), holes, holes + 1, u64::MAX];
        let skips: Vec<u64> = match holes < 4 || check.rng.one_in(8) {
            true => (0..=holes + 1).chain([u64::MAX]).collect(),
            false => some.to_vec(),
        };
        for skip in skips {
            let stamp = if stamped { 16 } else { 0 };
            let size = |written: u64| 8 + stamp + 2 * d + 2 * d * written.min(64) as usize;
            let left = holes.saturating_sub(skip);
            let rooms = [0, size(0) - 1, size(0), size(1) - 1, size(1), size(left) - 1, size(left), 2_110];
            let unasked = check.rng.pick(&[0, 1, u64::MAX]);
            for room in [check.rng.pick(&rooms), check.rng.pick(&rooms)] {
                let out = check.rng.octets(room);
                let ask = Ask { id, skip, unasked };
                let mut one = check.write_status_into(first, ask, &out)?;
                let mut other = check.write_status_into(second, ask, &out)?;
                if stamped && one.0.number == 0 && other.0.number == 0 {
                    one.1.drain(8..24);
                    other.1.drain(8..24);
                }
                require(one == other, || format!("the two orders write otherwise\n  {ask:?}\n  {one:?}\n  {other:?}"))?;
            }
        }
    }
    Ok(())
}
