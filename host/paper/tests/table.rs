//! The table: "Passes to be tried" of document 01, and each rule of opening, recording, closing and STATUS by hand.

mod common;

use common::{data, hex, last_data, metadata, stamped, with_checksum};
use paper::refusal::Refusal;
use paper::table::{Opened, Recorded, State, Table};

/// A table with transfer 7 open.
fn with(width: usize, length: u64) -> Table {
    let mut table = Table::default();
    table.open(&metadata(7, width, length)).unwrap();
    table
}

/// Records stretches of transfer 7 at width 16; each must be accepted.
fn received(length: u64, stretches: &[(u64, usize)]) -> Table {
    let mut table = with(2, length);
    for &(offset, len) in stretches {
        table.record(&data(7, 2, offset, len)).unwrap();
    }
    table
}

/// The octets of transfer 7's STATUS in a buffer of `room` octets; those after it must stay.
fn status(table: &Table, skip: u64, unasked: bool, room: usize) -> Result<Vec<u8>, Refusal> {
    let mut out = vec![0xA5; room];
    let answer = table.write_status(7, skip, unasked, &mut out);
    let size = answer.unwrap_or(0);
    assert!(out[size..].iter().all(|&octet| octet == 0xA5));
    answer.map(|size| out[..size].to_vec())
}

fn edge(edge: u64, absorbed: usize) -> Result<Recorded, Refusal> {
    Ok(Recorded { state: State { edge, complete: false }, absorbed, adds: true })
}

/// Nothing is added: the packet lies in one run.
fn repeat(edge: u64) -> Result<Recorded, Refusal> {
    Ok(Recorded { state: State { edge, complete: false }, absorbed: 1, adds: false })
}

fn complete(edge: u64, absorbed: usize) -> Result<Recorded, Refusal> {
    Ok(Recorded { state: State { edge, complete: true }, absorbed, adds: true })
}

/// "Id 7, width 16, L = 3,000, octets 0 to 999 and 2,000 to 2,999 received"
#[test]
fn page_with_a_hole() {
    let mut table = received(3_000, &[(0, 1_000), (2_000, 1_000)]);
    let want = hex("44 00 00 00 00 00 00 07 03 E8 0B B8 03 E8 07 D0");
    assert_eq!(status(&table, 0, false, 16), Ok(want));
    // "The same in a buffer of 15 octets: refusal 20."
    assert_eq!(status(&table, 0, false, 15), Err(Refusal::Buffer));
    // "Then 1,000 to 1,999 arrives: complete"
    assert_eq!(table.record(&data(7, 2, 1_000, 1_000)), complete(3_000, 2));
    assert_eq!(status(&table, 0, false, 12), Ok(hex("44 01 00 00 00 00 00 07 0B B8 0B B7")));
}

/// "One packet came twice, another never came, the sum matched"
#[test]
fn a_repeat_makes_no_page_complete() {
    let mut table = received(3_000, &[(0, 1_000), (2_000, 1_000)]);
    assert_eq!(table.record(&data(7, 2, 0, 1_000)), repeat(3_000));
    assert_eq!(table.find(7).unwrap().received, 2_000);
    assert_eq!(status(&table, 0, true, 99), Ok(hex("44 01 00 00 00 00 00 07 03 E8 0B B8 03 E8 07 D0")));
}

/// "L = 0: complete at opening; any DATA is refused."
#[test]
fn empty_file() {
    let mut table = Table::default();
    let opened = table.open(&metadata(7, 2, 0));
    assert_eq!(opened, Ok(Opened { state: State { edge: 0, complete: true }, already_open: false }));
    assert_eq!(table.record(&data(7, 2, 0, 1)), Err(Refusal::PastEnd));
    assert_eq!(status(&table, 0, false, 12), Ok(hex("44 01 00 00 00 00 00 07 00 00 00 00")));
}

/// "for a complete transfer In-Response-To is L - 1 [...] All other STATUS packets keep the edge."
#[test]
fn last_octet() {
    assert_eq!(status(&received(1, &[(0, 1)]), 0, false, 12), Ok(hex("44 01 00 00 00 00 00 07 00 01 00 00")));
    assert_eq!(status(&received(2, &[(0, 2)]), 0, true, 12), Ok(hex("44 01 00 00 00 00 00 07 00 02 00 01")));
    assert_eq!(status(&received(2, &[(0, 1)]), 0, true, 12), Ok(hex("44 01 00 00 00 00 00 07 00 01 00 01")));
    assert_eq!(status(&received(2, &[]), 0, true, 12), Ok(hex("44 01 00 00 00 00 00 07 00 00 00 00")));
    let longest = received(65_535, &[(0, 60_000), (60_000, 5_535)]);
    assert_eq!(status(&longest, 0, false, 12), Ok(hex("44 01 00 00 00 00 00 07 FF FF FF FE")));
}

/// "L = 65,535 at width 16 opens; 65,536 is refused with 9."
#[test]
fn longest_file_at_width_16() {
    let mut table = Table::default();
    assert!(table.open(&metadata(7, 2, 65_535)).is_ok());
    assert_eq!(table.open(&metadata(8, 2, 65_536)), Err(Refusal::Size));
}

/// "0 to 9 then 10 to 19: one run, edge 20, no hole."
#[test]
fn touching_packets() {
    let mut table = received(3_000, &[(0, 10)]);
    assert_eq!(table.record(&data(7, 2, 10, 10)), edge(20, 1));
    assert_eq!(table.transfers[&7].received.run_count(), 1);
    assert_eq!(status(&table, 0, false, 99), Ok(hex("44 00 00 00 00 00 00 07 00 14 00 14")));
}

/// "Only 5 to 9 received: Progress 0, edge 10, one hole from 0 to 5."
#[test]
fn start_not_received() {
    let table = received(3_000, &[(5, 5)]);
    assert_eq!(status(&table, 0, false, 99), Ok(hex("44 00 00 00 00 00 00 07 00 00 00 0A 00 00 00 05")));
}

/// "64 runs, then a packet apart from all: 16. A packet that touches one: accepted."
#[test]
fn sixty_four_runs() {
    let runs: Vec<_> = (0..64).map(|run| (10 * run, 5)).collect();
    let mut table = received(3_000, &runs);
    let before = table.clone();
    assert_eq!(table.record(&data(7, 2, 1_000, 1)), Err(Refusal::Runs));
    assert_eq!(table.record(&data(7, 2, 7, 1)), Err(Refusal::Runs));
    assert_eq!(table, before);
    assert_eq!(table.record(&data(7, 2, 5, 1)), edge(635, 1));
    assert_eq!(table.record(&data(7, 2, 6, 4)), edge(635, 2));
    assert_eq!(table.transfers[&7].received.run_count(), 63);
    assert_eq!(table.record(&data(7, 2, 1_000, 1)), edge(1_001, 0));
}

/// "Offset 2^64 - 1 with one octet, L = 2^64 - 1: 14, and no wrapped sum."
#[test]
fn no_wrapped_sum() {
    let mut table = with(8, u64::MAX);
    assert_eq!(table.record(&data(7, 8, u64::MAX, 1)), Err(Refusal::PastEnd));
    assert_eq!(table.record(&data(7, 8, u64::MAX, 2)), Err(Refusal::PastEnd));
    assert_eq!(table.record(&last_data(7, 8, u64::MAX - 1, 1)), edge(u64::MAX, 0));
}

/// "A 17th Id: 17; after one is closed it opens."
#[test]
fn seventeen_ids() {
    let mut table = Table::default();
    for id in 1..=16 {
        assert!(table.open(&metadata(id, 2, 9)).is_ok());
    }
    assert_eq!(table.open(&metadata(17, 2, 9)), Err(Refusal::TableFull));
    // 18 comes before 17, and what is open already needs no room.
    assert_eq!(table.open(&metadata(16, 2, 8)), Err(Refusal::OpenOther));
    assert!(table.open(&metadata(16, 2, 9)).unwrap().already_open);
    assert_eq!(table.close(3), Ok(()));
    assert!(table.open(&metadata(17, 2, 9)).is_ok());
    assert_eq!(table.close(3), Err(Refusal::NotOpen));
}

#[test]
fn opening_again() {
    let mut table = received(3_000, &[(5, 5)]);
    let opened = table.open(&metadata(7, 2, 3_000));
    assert_eq!(opened, Ok(Opened { state: State { edge: 10, complete: false }, already_open: true }));
    assert_eq!(table.open(&metadata(7, 4, 3_000)), Err(Refusal::OpenOther));
    assert_eq!(table.open(&metadata(7, 2, 2_999)), Err(Refusal::OpenOther));
    assert_eq!(table, received(3_000, &[(5, 5)]));
    // After closing nothing is left of it.
    table.close(7).unwrap();
    let opened = table.open(&metadata(7, 4, 3_000));
    assert_eq!(opened, Ok(Opened { state: State { edge: 0, complete: false }, already_open: false }));
}

/// "Opening a new Id with it is refused with 23 (code 0x01), tested after 18 and before 17".
#[test]
fn no_crc_32c_on_anything_new() {
    let old = |id, width, length| with_checksum(&metadata(id, width, length), 1, 1);
    assert_eq!((Refusal::OldChecksum.number(), Refusal::OldChecksum.code()), (23, 0x01));
    let mut table = received(3_000, &[(5, 5)]);
    let before = table.clone();
    assert_eq!(table.open(&old(8, 2, 3_000)), Err(Refusal::OldChecksum));
    assert_eq!(table.open(&old(8, 2, 65_536)), Err(Refusal::Size));
    // "its METADATA repeated still answers "already open""; another width or length is told first.
    let again = Opened { state: State { edge: 10, complete: false }, already_open: true };
    assert_eq!(table.open(&old(7, 2, 3_000)), Ok(again));
    assert_eq!(table.open(&old(7, 2, 2_999)), Err(Refusal::OpenOther));
    assert_eq!(table.open(&old(7, 4, 3_000)), Err(Refusal::OpenOther));
    assert_eq!(table, before);
    // With 16 open: 23 before 17.
    for id in 20..35 {
        assert!(table.open(&metadata(id, 2, 9)).is_ok());
    }
    assert_eq!(table.open(&metadata(8, 2, 3_000)), Err(Refusal::TableFull));
    assert_eq!(table.open(&old(8, 2, 3_000)), Err(Refusal::OldChecksum));
    assert_eq!(table.open(&old(7, 2, 2_999)), Err(Refusal::OpenOther));
    assert_eq!(table.open(&old(7, 2, 3_000)), Ok(again));
}

/// Every other type opens, those of one word too.
#[test]
fn other_checksums_open() {
    let pairs = [(0, 0), (2, 4), (3, 5)].into_iter().chain((4..16).flat_map(|kind| [(kind, 1), (kind, 15)]));
    for (kind, words) in pairs {
        let opened = Table::default().open(&with_checksum(&metadata(7, 2, 9), kind, words)).unwrap();
        assert!(!opened.already_open, "type {kind}, {words} words");
    }
}

/// Everything is wrong with the packet; the faults are mended one after the other.
#[test]
fn recording_refusals_in_their_order() {
    let runs: Vec<_> = (0..64).map(|run| (10 * run, 5)).collect();
    let mut table = received(3_000, &runs);
    let mut packet = last_data(8, 4, 3_000, 1);
    let mut next = |mend: &dyn Fn(&mut Vec<u8>), want: Refusal| {
        mend(&mut packet);
        assert_eq!(table.record(&packet), Err(want));
    };
    next(&|p| p[0] = 0x44, Refusal::Type);
    next(&|p| p[0] = 0x42, Refusal::Type);
    next(&|p| p[0] = 0x43, Refusal::NotOpen);
    next(&|p| p[7] = 7, Refusal::OtherWidth);
    next(&|p| *p = last_data(7, 2, 3_000, 1), Refusal::PastEnd);
    next(&|p| *p = last_data(7, 2, 2_998, 1), Refusal::EarlyEnd);
    next(&|p| *p = data(7, 2, 2_998, 1), Refusal::Runs);
    next(&|p| *p = last_data(7, 2, 2_999, 1), Refusal::Runs);
}

#[test]
fn status_rooms_and_skips() {
    // Holes 0 to 1, 2 to 3 and 4 to 5.
    let table = received(9, &[(1, 1), (3, 1), (5, 1)]);
    let of = |flags: &str, holes: &str| Ok(hex(&format!("44 {flags} 00 00 00 00 00 07 00 00 00 06 {holes}")));
    assert_eq!(status(&table, 0, false, 24), of("00", "00 00 00 01 00 02 00 03 00 04 00 05"));
    assert_eq!(status(&table, 0, false, 23), of("02", "00 00 00 01 00 02 00 03"));
    assert_eq!(status(&table, 0, false, 20), of("02", "00 00 00 01 00 02 00 03"));
    assert_eq!(status(&table, 0, true, 19), of("03", "00 00 00 01"));
    assert_eq!(status(&table, 0, false, 15), Err(Refusal::Buffer));
    assert_eq!(status(&table, 1, false, 99), of("02", "00 02 00 03 00 04 00 05"));
    assert_eq!(status(&table, 2, false, 16), of("02", "00 04 00 05"));
    assert_eq!(status(&table, 2, false, 15), Err(Refusal::Buffer));
    assert_eq!(status(&table, 3, false, 0), Err(Refusal::Index));
    assert_eq!(status(&table, u64::MAX, false, 99), Err(Refusal::Index));
    // Without holes only 0 is allowed.
    let table = received(9, &[(0, 1)]);
    assert_eq!(status(&table, 0, false, 12), Ok(hex("44 00 00 00 00 00 00 07 00 01 00 01")));
    assert_eq!(status(&table, 0, false, 11), Err(Refusal::Buffer));
    assert_eq!(status(&table, 1, false, 0), Err(Refusal::Index));
    assert_eq!(table.write_status(7 + (1 << 32), 1, false, &mut []), Err(Refusal::NotOpen));
}

#[test]
fn status_of_wider_transfers() {
    let mut table = with(4, 0xFFFF_FFFF);
    table.record(&data(7, 4, 0xFFFF_FFFE, 1)).unwrap();
    let want = hex("44 40 00 00 00 00 00 07 00 00 00 00 FF FF FF FF 00 00 00 00 FF FF FF FE");
    assert_eq!(status(&table, 0, false, 24), Ok(want));
    let mut table = with(8, u64::MAX);
    table.record(&data(7, 8, 1, 1)).unwrap();
    let want = "44 80 00 00 00 00 00 07 00 00 00 00 00 00 00 00 00 00 00 00 00 00 00 02 \
                00 00 00 00 00 00 00 00 00 00 00 00 00 00 00 01";
    assert_eq!(status(&table, 0, false, 99), Ok(hex(want)));
}

/// "STATUS written (8 + 32 + 32 h)": the longest has 64 holes.
#[test]
fn status_of_128_bits() {
    let mut table = with(16, 1_000);
    table.record(&data(7, 16, 1, 1)).unwrap();
    let want = "44 C0 00 00 00 00 00 07 00 00 00 00 00 00 00 00 00 00 00 00 00 00 00 00 \
                00 00 00 00 00 00 00 00 00 00 00 00 00 00 00 02 \
                00 00 00 00 00 00 00 00 00 00 00 00 00 00 00 00 00 00 00 00 00 00 00 00 00 00 00 00 00 00 00 01";
    assert_eq!(status(&table, 0, false, 72), Ok(hex(want)));
    assert_eq!(status(&table, 0, false, 71), Err(Refusal::Buffer));
    for run in 1..64 {
        table.record(&data(7, 16, 10 * run, 1)).unwrap();
    }
    assert_eq!(status(&table, 0, false, 2_088).map(|status| status.len()), Ok(2_088));
    let short = status(&table, 0, false, 2_087).unwrap();
    assert_eq!((short.len(), short[1]), (2_056, 0xC2));
}

#[test]
fn listing() {
    let mut table = Table::default();
    for (id, width, length) in [(300, 8, u64::MAX), (7, 2, 3), (0xFFFF_FFFF, 4, 0)] {
        table.open(&metadata(id, width, length)).unwrap();
    }
    table.record(&stamped(&data(7, 2, 2, 1), [0; 16])).unwrap();
    let list = |index| {
        let state = |t: State| (t.edge, t.complete);
        table.transfer(index).map(|t| (t.id, t.width, t.length, state(t.state), t.runs, t.received, t.stamped))
    };
    assert_eq!(list(0), Ok((7, 2, 3, (3, false), 1, 1, true)));
    assert_eq!(list(1), Ok((300, 8, u64::MAX, (0, false), 0, 0, false)));
    assert_eq!(list(2), Ok((0xFFFF_FFFF, 4, 0, (0, true), 0, 0, false)));
    assert_eq!(list(3), Err(Refusal::NotOpen));
    assert_eq!(list(u64::MAX), Err(Refusal::NotOpen));
}

#[test]
fn asked_before_recording() {
    let table = received(9, &[(1, 1), (3, 1)]);
    let before = table.clone();
    let tried = |packet: &[u8]| table.try_record(packet);
    assert_eq!(tried(&data(7, 2, 0, 9)), complete(9, 2));
    assert_eq!(tried(&data(7, 2, 4, 1)), edge(5, 1));
    assert_eq!(tried(&data(7, 2, 3, 1)), repeat(4));
    assert_eq!(tried(&data(7, 2, 2, 2)), edge(4, 2));
    assert_eq!(tried(&data(7, 2, 9, 1)), Err(Refusal::PastEnd));
    assert_eq!(tried(&data(8, 2, 0, 1)), Err(Refusal::NotOpen));
    assert_eq!(table, before);
}

#[test]
fn by_id() {
    let table = received(9, &[(1, 1), (3, 1)]);
    let found = table.find(7).unwrap();
    assert_eq!((found.id, found.width, found.length, found.state.edge, found.runs), (7, 2, 9, 4, 2));
    assert_eq!(found.received, 2);
    assert_eq!(table.find(8), Err(Refusal::NotOpen));
    assert_eq!(table.find(7 + (1 << 32)), Err(Refusal::NotOpen));
    let hole = |index| table.hole(7, index).map(|hole| (hole.start, hole.end));
    assert_eq!(hole(0), Ok((0, 1)));
    assert_eq!(hole(1), Ok((2, 3)));
    assert_eq!(hole(2), Err(Refusal::Index));
    assert_eq!(hole(u64::MAX), Err(Refusal::Index));
    assert_eq!(table.hole(8, 0).map(|hole| hole.start), Err(Refusal::NotOpen));
}

/// Sixteen octets that differ.
const A: [u8; 16] = *b"ABCDEFGHIJKLMNOP";
const B: [u8; 16] = [0xB0; 16];
const ZEROS: [u8; 16] = [0; 16];

/// What transfer 7 keeps: in the table, as it is listed, and in its STATUS, which is 16 octets longer then.
fn kept(table: &Table) -> Option<[u8; 16]> {
    let transfer = &table.transfers[&7];
    assert_eq!(table.find(7).unwrap().stamped, transfer.timestamp.is_some());
    let status = status(table, 0, false, 2_104).unwrap();
    let holes = transfer.received.holes().len();
    let bare = 8 + 2 * transfer.width * (1 + holes);
    assert_eq!(status[1] & 0x08 != 0, transfer.timestamp.is_some());
    match transfer.timestamp {
        None => assert_eq!(status.len(), bare),
        Some(octets) => assert_eq!((status.len(), &status[8..24]), (bare + 16, &octets[..])),
    }
    transfer.timestamp
}

/// "Each transfer keeps the 16 octets of the last accepted DATA that had bit 12 set [...] before the first, none."
#[test]
fn last_timestamp_kept() {
    let mut table = received(100, &[(10, 5)]);
    assert_eq!(kept(&table), None);
    table.record(&stamped(&data(7, 2, 30, 5), A)).unwrap();
    assert_eq!(kept(&table), Some(A));
    // DATA without one leaves it; the next with one renews it, and so does a repeat.
    table.record(&data(7, 2, 40, 5)).unwrap();
    assert_eq!(kept(&table), Some(A));
    table.record(&stamped(&data(7, 2, 50, 5), B)).unwrap();
    assert_eq!(kept(&table), Some(B));
    assert_eq!(table.record(&stamped(&data(7, 2, 30, 5), A)), repeat(55));
    assert_eq!(kept(&table), Some(A));
    // Sixteen zero octets are one as well.
    table.record(&stamped(&data(7, 2, 30, 5), ZEROS)).unwrap();
    assert_eq!(kept(&table), Some(ZEROS));
}

/// A refused DATA, "already open", another Id's DATA and asking leave it; closing forgets it, and "A new opening keeps none."
#[test]
fn timestamp_left_and_forgotten() {
    let mut table = received(100, &[]);
    table.open(&metadata(8, 2, 100)).unwrap();
    table.record(&stamped(&data(7, 2, 30, 5), A)).unwrap();
    assert_eq!(table.record(&stamped(&data(7, 2, 99, 5), B)), Err(Refusal::PastEnd));
    assert_eq!(table.record(&stamped(&data(7, 4, 0, 5), B)), Err(Refusal::OtherWidth));
    assert_eq!(table.record(&stamped(&last_data(7, 2, 0, 5), B)), Err(Refusal::EarlyEnd));
    assert!(table.try_record(&stamped(&data(7, 2, 0, 5), B)).is_ok());
    assert!(table.open(&metadata(7, 2, 100)).unwrap().already_open);
    assert_eq!(table.open(&metadata(7, 2, 99)), Err(Refusal::OpenOther));
    table.record(&stamped(&data(8, 2, 0, 5), B)).unwrap();
    assert_eq!(kept(&table), Some(A));
    assert_eq!(table.transfers[&8].timestamp, Some(B));
    table.close(8).unwrap();
    assert_eq!(kept(&table), Some(A));
    table.close(7).unwrap();
    table.open(&metadata(7, 2, 100)).unwrap();
    assert_eq!(kept(&table), None);
}

/// "The size grows by 16 octets then, and refusal 20 counts them", with the holes that fit.
#[test]
fn status_with_a_timestamp() {
    let mut table = with(2, 9);
    for offset in [1, 3, 5] {
        table.record(&stamped(&data(7, 2, offset, 1), A)).unwrap();
    }
    let of = |flags: &str, holes: &str| {
        let start = format!("44 {flags} 00 00 00 00 00 07");
        Ok([hex(&start), A.to_vec(), hex("00 00 00 06"), hex(holes)].concat())
    };
    assert_eq!(status(&table, 0, false, 40), of("08", "00 00 00 01 00 02 00 03 00 04 00 05"));
    assert_eq!(status(&table, 0, false, 39), of("0A", "00 00 00 01 00 02 00 03"));
    assert_eq!(status(&table, 0, true, 35), of("0B", "00 00 00 01"));
    assert_eq!(status(&table, 2, false, 32), of("0A", "00 04 00 05"));
    assert_eq!(status(&table, 0, false, 31), Err(Refusal::Buffer));
    assert_eq!(status(&table, 3, false, 0), Err(Refusal::Index));
    // Without a hole, and complete.
    let mut table = with(2, 9);
    table.record(&stamped(&data(7, 2, 0, 9), ZEROS)).unwrap();
    let want = [hex("44 09 00 00 00 00 00 07"), vec![0; 16], hex("00 09 00 08")].concat();
    assert_eq!(status(&table, 0, false, 28), Ok(want));
    assert_eq!(status(&table, 0, false, 27), Err(Refusal::Buffer));
    // The longest of all.
    let mut table = with(16, 1_000);
    for run in 0..64 {
        table.record(&stamped(&data(7, 16, 10 * run + 1, 1), B)).unwrap();
    }
    assert_eq!(status(&table, 0, false, 2_104).map(|status| status.len()), Ok(2_104));
    let short = status(&table, 0, false, 2_103).unwrap();
    assert_eq!((short.len(), short[1]), (2_072, 0xCA));
}
