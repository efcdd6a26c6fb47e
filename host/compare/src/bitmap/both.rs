//! The table and the marks on the same packets: "over any sequence of recordings from an opening that both accept as new, none of
//! them for another transfer of the desk, both give equal answers, swallowed counts included, and equal STATUS bytes for that Id,
//! every k and every room". Words in quotes are document 02's.

use paper::read::{read, Packet};
use paper::table::Table;

use crate::answer::{Bitmap, BitmapOpened, BitmapRecorded, Opened};
use crate::bitmap::cases::short_file;
use crate::bitmap::held::{describe, Marked};
use crate::check::{describe_packet, require, Check, Step};
use crate::receiver::files::{files, old_opening, opening, table, File};
use crate::receiver::held::Held;
use crate::receiver::pass::{damaged_packet, recording_packet, scattered};
use crate::receiver::{words, Ask};
use crate::rng::Rng;

/// One sequence, on a desk on which others may be open, and over marks that were anything.
pub fn trial(check: &mut Check) -> Step {
    let file = short_file(&mut check.rng);
    let mut desk = desk(&mut check.rng, file);
    let mut marked = Marked::random(&mut check.rng);
    if check.rng.one_in(4) {
        // No "opening that both accept": both refuse a CRC-32c alike.
        let packet = old_opening(&mut check.rng, file).octets(&mut check.rng);
        opened(check, &mut desk, &mut marked, &packet)?;
    }
    let packet = opening(&mut check.rng, file).octets(&mut check.rng);
    opened(check, &mut desk, &mut marked, &packet)?;

    let most = check.rng.pick(&[3, 10, 30, 80]);
    let mut sent: Vec<Vec<u8>> = vec![];
    for _ in 0..check.rng.between(1, most) {
        let packets = packets(&mut check.rng, &desk, file, &sent);
        for packet in packets {
            if for_another(&packet, &desk, file) {
                continue;
            }
            let one = check.record(&mut desk, &packet)?;
            let open = &desk.table.as_ref().expect("it holds one").transfers[&u64::from(file.id)];
            let handed_back = match one.number {
                0 => marked.transfer.keeping(open.timestamp),
                _ => Bitmap::default(),
            };
            let want = BitmapRecorded { recorded: one, transfer: handed_back };
            let other = check.bitmap_record(&mut marked, &packet)?;
            require(other == want, || differ(&one, &other, &packet, &desk, &marked))?;
            sent.push(packet);
        }
        if check.rng.one_in(12) {
            statuses(check, &desk, &marked, file)?;
        }
    }
    statuses(check, &desk, &marked, file)
}

/// The same answers to METADATA of an Id that is new to the desk.
fn opened(check: &mut Check, desk: &mut Held, marked: &mut Marked, packet: &[u8]) -> Step {
    let one = check.open(desk, packet)?;
    let other = check.bitmap_open(marked, packet)?;
    require(as_new(one) == other_than_transfer(other), || differ(&one, &other, packet, desk, marked))
}

/// A desk with up to 15 transfers open, none with the file's Id.
fn desk(rng: &mut Rng, file: File) -> Held {
    let count = rng.pick(&[1, 1, 2, 4, 15]);
    let mut others = files(rng, count);
    others.retain(|other| other.id != file.id);
    let table = if rng.one_in(2) { Table::default() } else { table(rng, &others) };
    Held::holding(table, rng)
}

fn differ(
    one: &dyn std::fmt::Debug,
    other: &dyn std::fmt::Debug,
    packet: &[u8],
    desk: &Held,
    marked: &Marked,
) -> String {
    format!(
        "the table and the marks answer otherwise\n  table: {one:?}\n  marks: {other:?}\n{}\n{}\n{}",
        describe_packet(packet),
        words::describe(desk.want.octets()),
        describe(marked.transfer, marked.want.octets())
    )
}

/// What opening with marks answers where the table's is new; it has no such field.
fn as_new(opened: Opened) -> Option<[u64; 4]> {
    (opened.already_open == 0).then_some([opened.number, opened.code, opened.edge, opened.complete])
}

fn other_than_transfer(opened: BitmapOpened) -> Option<[u64; 4]> {
    Some([opened.number, opened.code, opened.edge, opened.complete])
}

/// Packets for the file: aimed at what was received, far apart, damaged, or again.
fn packets(rng: &mut Rng, desk: &Held, file: File, sent: &[Vec<u8>]) -> Vec<Vec<u8>> {
    let id = u64::from(file.id);
    let open = desk.table.as_ref().and_then(|table| table.transfers.get(&id)).expect("it was opened");
    let own = Table { transfers: [(id, open.clone())].into() };
    match rng.below(20) {
        0 => scattered(rng, &own, &[file]),
        1 => vec![damaged_packet(rng, &own, &[file])],
        2 => vec![damaged_packet(rng, &own, &[File { id: file.id ^ 1, ..file }])],
        3..=5 if !sent.is_empty() => vec![sent[rng.place(0, sent.len() - 1)].clone()],
        _ => vec![recording_packet(rng, &own, &[file])],
    }
}

/// "none of them for another transfer of the desk"
fn for_another(packet: &[u8], desk: &Held, file: File) -> bool {
    let open = |id: u64| desk.table.as_ref().is_some_and(|table| table.transfers.contains_key(&id));
    matches!(read(packet), Ok(Packet::Data(data)) if data.header.id != u64::from(file.id) && open(data.header.id))
}

/// "equal STATUS bytes for that Id, every k and every room": every k, and rooms around what each takes, or some of them where
/// there are many holes; into equal octets.
fn statuses(check: &mut Check, desk: &Held, marked: &Marked, file: File) -> Step {
    let id = u64::from(file.id);
    let open = desk.table.as_ref().and_then(|table| table.transfers.get(&id)).expect("it was opened");
    let (holes, d) = (open.received.holes().len() as u64, open.width);
    let stamp = if open.timestamp.is_some() { 16 } else { 0 };
    for skip in (0..=holes + 1).chain([u64::MAX]) {
        let size = |written: u64| 8 + stamp + 2 * d + 2 * d * written as usize;
        let left = holes.saturating_sub(skip);
        let rooms = [0, size(0) - 1, size(0), size(1) - 1, size(1), size(left) - 1, size(left), 2_110];
        let some = [check.rng.pick(&rooms), check.rng.place(0, size(left) + 40)];
        for &room in if holes < 4 { &rooms[..] } else { &some[..] } {
            let unasked = check.rng.pick(&[0, 1, u64::MAX]);
            let out = check.rng.octets(room);
            let one = check.write_status_into(desk, Ask { id, skip, unasked }, &out)?;
            let other = check.bitmap_status_into(marked, skip, unasked, &out)?;
            require(one == other, || {
                let both = format!("  table: {one:?}\n  marks: {other:?}");
                format!(
                    "the table and the marks write otherwise, skip {skip}, unasked {unasked}, {room} octets\n{both}"
                )
            })?;
        }
    }
    Ok(())
}
