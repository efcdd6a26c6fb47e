//! The receiver with marks: "Passes to be tried" of document 01, each rule of document 02 for it by hand, and long lists beside
//! the table.

mod common;

use common::{data, hex, last_data, metadata, stamped, with_checksum};
use paper::bitmap::{self, open, write_status, Bitmap, OCTETS};
use paper::refusal::Refusal;
use paper::table::{Recorded, State, Table};

/// Transfer 7 opened over marks that are all set, with ten octets past them.
fn opened(width: usize, length: u64) -> (Bitmap, Vec<u8>) {
    let mut marks = vec![0xFF; OCTETS + 10];
    let (transfer, _) = open(&mut marks, &metadata(7, width, length)).unwrap();
    assert_eq!(transfer, Bitmap::new(7, width as u64, length));
    (transfer, marks)
}

/// What recording answers; an accepted one hands the transfer back.
fn record(transfer: Bitmap, marks: &mut [u8], packet: &[u8]) -> Result<Recorded, Refusal> {
    let (handed_back, recorded) = bitmap::record(transfer, marks, packet)?;
    assert_eq!(handed_back, transfer);
    Ok(recorded)
}

/// Stretches recorded at width 16; each must be accepted.
fn received(length: u64, stretches: &[(u64, usize)]) -> (Bitmap, Vec<u8>) {
    let (transfer, mut marks) = opened(2, length);
    for &(offset, len) in stretches {
        record(transfer, &mut marks, &data(7, 2, offset, len)).unwrap();
    }
    (transfer, marks)
}

/// The octets of the STATUS in a buffer of `room` octets; those after it must stay.
fn status(page: &(Bitmap, Vec<u8>), skip: u64, unasked: bool, room: usize) -> Result<Vec<u8>, Refusal> {
    let mut out = vec![0xA5; room];
    let answer = write_status(page.0, &page.1, skip, unasked, &mut out);
    let size = answer.unwrap_or(0);
    assert!(out[size..].iter().all(|&octet| octet == 0xA5));
    answer.map(|size| out[..size].to_vec())
}

fn edge(edge: u64, absorbed: usize) -> Result<Recorded, Refusal> {
    Ok(Recorded { state: State { edge, complete: false }, absorbed, adds: true })
}

/// Nothing is added: the packet lies in one run.
fn repeat(edge: u64) -> Result<Recorded, Refusal> {
    Ok(Recorded { state: State { edge, complete: false }, absorbed: 1, adds: false })
}

/// "mark n is its bit n", and "Bit 0 is the highest bit of the first octet".
#[test]
fn each_mark_in_its_place() {
    let (transfer, mut marks) = opened(4, 65_535);
    assert!(marks[..OCTETS].iter().all(|&octet| octet == 0), "opening starts anew");
    for (offset, at, octet) in [(0, 0, 0x80), (7, 0, 0x81), (9, 1, 0x40), (65_528, 8_191, 0x80), (65_534, 8_191, 0x82)]
    {
        record(transfer, &mut marks, &data(7, 4, offset, 1)).unwrap();
        assert_eq!(marks[at], octet, "mark {offset}");
    }
    record(transfer, &mut marks, &data(7, 4, 6, 12)).unwrap();
    assert_eq!(marks[..4], [0x83, 0xFF, 0xC0, 0x00]);
    assert_eq!(marks[OCTETS..], [0xFF; 10]);
}

/// The example of docs/AREA.md.
#[test]
fn example_of_the_page() {
    let (transfer, mut marks) = received(30, &[(2, 4), (8, 1), (23, 1)]);
    assert_eq!(marks[..6], hex("3C 80 01 00 00 00"));
    record(transfer, &mut marks, &data(7, 2, 24, 6)).unwrap();
    assert_eq!(marks[..6], hex("3C 80 01 FC 00 00"));
}

/// "Id 7, width 16, L = 3,000, octets 0 to 999 and 2,000 to 2,999 received", and what comes of it.
#[test]
fn page_with_a_hole() {
    let mut page = received(3_000, &[(0, 1_000), (2_000, 1_000), (0, 1_000)]);
    let want = hex("44 00 00 00 00 00 00 07 03 E8 0B B8 03 E8 07 D0");
    assert_eq!(status(&page, 0, false, 16), Ok(want));
    assert_eq!(status(&page, 0, false, 15), Err(Refusal::Buffer));
    let complete = Recorded { state: State { edge: 3_000, complete: true }, absorbed: 2, adds: true };
    assert_eq!(record(page.0, &mut page.1, &data(7, 2, 1_000, 1_000)), Ok(complete));
    assert_eq!(status(&page, 0, false, 12), Ok(hex("44 01 00 00 00 00 00 07 0B B8 0B B7")));
}

/// "L = 0: complete at opening; any DATA is refused."
#[test]
fn empty_file() {
    let mut marks = vec![0xFF; OCTETS];
    let (transfer, state) = open(&mut marks, &metadata(7, 2, 0)).unwrap();
    assert_eq!(state, State { edge: 0, complete: true });
    assert_eq!(record(transfer, &mut marks, &data(7, 2, 0, 1)), Err(Refusal::PastEnd));
    assert_eq!(status(&(transfer, marks), 0, false, 12), Ok(hex("44 01 00 00 00 00 00 07 00 00 00 00")));
}

/// "0 to 9 then 10 to 19: one run, edge 20, no hole." "Only 5 to 9 received: Progress 0, edge 10, one hole from 0 to 5."
#[test]
fn runs_by_eye() {
    let mut page = received(3_000, &[(0, 10)]);
    assert_eq!(record(page.0, &mut page.1, &data(7, 2, 10, 10)), edge(20, 1));
    assert_eq!(status(&page, 0, false, 99), Ok(hex("44 00 00 00 00 00 00 07 00 14 00 14")));
    let want = hex("44 00 00 00 00 00 00 07 00 00 00 0A 00 00 00 05");
    assert_eq!(status(&received(3_000, &[(5, 5)]), 0, false, 99), Ok(want));
}

/// "64 runs, then a packet apart from all: 16. A packet that touches one: accepted."
#[test]
fn sixty_four_runs() {
    let runs: Vec<_> = (0..64).map(|run| (10 * run, 5)).collect();
    let (transfer, mut marks) = received(3_000, &runs);
    let before = marks.clone();
    assert_eq!(record(transfer, &mut marks, &data(7, 2, 1_000, 1)), Err(Refusal::Runs));
    assert_eq!(record(transfer, &mut marks, &data(7, 2, 7, 1)), Err(Refusal::Runs));
    assert_eq!(marks, before);
    assert_eq!(record(transfer, &mut marks, &data(7, 2, 5, 1)), edge(635, 1));
    assert_eq!(record(transfer, &mut marks, &data(7, 2, 6, 4)), edge(635, 2));
    assert_eq!(record(transfer, &mut marks, &data(7, 2, 0, 650)), edge(650, 63));
    assert_eq!(record(transfer, &mut marks, &data(7, 2, 3, 4)), repeat(650));
}

/// "L up to 65,535 (above that, refusal 9 at opening)"; "less: 20, before all"; the reader's between them; and of checksum type 1
/// "the plain receiver refuses it too, tested last".
#[test]
fn opening_refusals() {
    let mut marks = vec![0x5A; OCTETS];
    let packet = with_checksum(&metadata(7, 4, 65_536), 1, 1);
    assert_eq!(open(&mut marks[1..], &packet), Err(Refusal::Buffer));
    assert_eq!(open(&mut marks[1..], &data(7, 2, 0, 1)), Err(Refusal::Buffer));
    assert_eq!(open(&mut marks, &data(7, 2, 0, 1)), Err(Refusal::Type));
    assert_eq!(open(&mut marks, &packet[..20]), Err(Refusal::Truncated));
    assert_eq!(open(&mut marks, &packet), Err(Refusal::Size));
    assert_eq!(open(&mut marks, &metadata(7, 2, 65_536)), Err(Refusal::Size));
    assert_eq!(open(&mut marks, &with_checksum(&metadata(7, 4, 65_535), 1, 1)), Err(Refusal::OldChecksum));
    assert_eq!(marks, vec![0x5A; OCTETS]);
    assert!(open(&mut marks, &with_checksum(&metadata(7, 4, 65_535), 2, 4)).is_ok());
    assert_eq!(marks, vec![0; OCTETS]);
    marks.fill(0x5A);
    assert!(open(&mut marks, &metadata(7, 16, 65_535)).is_ok());
    assert_eq!(marks, vec![0; OCTETS]);
}

/// "a mark at or above L, more than 64 runs, or a w and L that no opening takes is 22, next after 20"
#[test]
fn no_transfer() {
    let (transfer, marks) = received(100, &[(3, 5)]);
    let refused = |transfer: Bitmap, marks: &[u8]| {
        let mut after = marks.to_vec();
        let recorded = record(transfer, &mut after, &[]).unwrap_err();
        assert_eq!(after, marks);
        assert_eq!(write_status(Bitmap { id: 1 << 32, ..transfer }, marks, 9, false, &mut []), Err(recorded));
        recorded
    };
    assert_eq!(refused(Bitmap { width: 3, ..transfer }, &marks[..OCTETS - 1]), Refusal::Buffer);
    for width in [0, 1, 3, 5, 32, 1 << 32 | 2, u64::MAX] {
        assert_eq!(refused(Bitmap { width, ..transfer }, &marks), Refusal::Area);
    }
    for length in [7, 0, 65_536, u64::MAX] {
        assert_eq!(refused(Bitmap { length, ..transfer }, &marks), Refusal::Area);
    }
    assert_eq!(record(Bitmap { length: 8, ..transfer }, &mut marks.clone(), &data(7, 2, 0, 8)).unwrap().absorbed, 1);
    for mark in [100, 101, 65_535] {
        let mut marks = marks.clone();
        marks[mark / 8] |= 0x80 >> (mark % 8);
        assert_eq!(refused(transfer, &marks), Refusal::Area);
    }
    // 64 runs are taken, and 65 aren't.
    let (long, mut marks) = opened(2, 3_000);
    marks[..64].fill(0x10);
    assert_eq!(record(long, &mut marks.clone(), &data(7, 2, 3, 1)), repeat(508));
    marks[64] = 0x10;
    assert_eq!(refused(long, &marks), Refusal::Area);
}

/// Everything is wrong with the packet; the faults are mended one after the other.
#[test]
fn recording_refusals_in_their_order() {
    let runs: Vec<_> = (0..64).map(|run| (10 * run, 5)).collect();
    let (transfer, mut marks) = received(3_000, &runs);
    let mut next = |packet: &[u8], want: Refusal| assert_eq!(record(transfer, &mut marks, packet), Err(want));
    next(&last_data(8, 4, 3_000, 1)[..11], Refusal::Truncated);
    next(&last_data(8, 4, 3_000, 0), Refusal::NoPayload);
    next(&last_data(8, 4, 3_000, 1), Refusal::NotOpen);
    next(&last_data(7, 4, 3_000, 1), Refusal::OtherWidth);
    next(&last_data(7, 2, 3_000, 1), Refusal::PastEnd);
    next(&last_data(7, 2, 2_998, 1), Refusal::EarlyEnd);
    next(&last_data(7, 2, 2_999, 1), Refusal::Runs);
}

/// 12 for an Id over 32 bits, before 19 and 20.
#[test]
fn ids_over_32_bits() {
    let (transfer, mut marks) = received(9, &[(1, 1)]);
    let long = Bitmap { id: 7 + (1 << 32), ..transfer };
    assert_eq!(record(long, &mut marks, &data(7, 2, 0, 1)), Err(Refusal::NotOpen));
    assert_eq!(write_status(long, &marks, 9, false, &mut []), Err(Refusal::NotOpen));
    assert_eq!(write_status(transfer, &marks, 1, false, &mut []), Err(Refusal::Index));
    assert_eq!(write_status(transfer, &marks, 0, false, &mut []), Err(Refusal::Buffer));
}

/// "both give equal answers, swallowed counts included, and equal STATUS bytes for that Id, every k and every room"
#[test]
fn beside_the_table() {
    let mut state = 7u64;
    let mut below = |end: u64| {
        state = state.wrapping_mul(6_364_136_223_846_793_005).wrapping_add(1_442_695_040_888_963_407);
        (state >> 33) % end
    };
    for (width, length) in [(2, 300), (4, 1_000), (8, 40), (16, 65_535)] {
        let mut table = Table::default();
        table.open(&metadata(7, width, length)).unwrap();
        let mut page = opened(width, length);
        for _ in 0..150 {
            let offset = below(length + 2);
            let mut packet = data(7, width, offset, 1 + below(4) as usize);
            if below(5) == 0 {
                packet = stamped(&packet, [below(4) as u8; 16]);
            }
            let (marks, table) = (bitmap::record(page.0, &mut page.1, &packet), table.record(&packet));
            assert_eq!(marks.map(|(_, recorded)| recorded), table);
            page.0 = marks.map_or(page.0, |(transfer, _)| transfer);
        }
        let holes = table.transfers[&7].received.holes().len() as u64;
        for (skip, room) in (0..holes + 2).flat_map(|skip| (0..60).map(move |by| (skip, 37 * by))) {
            let mut out = vec![0xA5; room];
            let written = table.write_status(7, skip, false, &mut out).map(|size| out[..size].to_vec());
            assert_eq!(status(&page, skip, false, room), written);
        }
    }
}

/// "The plain receiver of Seven keeps it in its record, which an accepted recording hands back."
#[test]
fn timestamp_in_the_record() {
    let (first, last) = (0x0102_0304_0506_0708, 0x1112_1314_1516_1718);
    let octets = hex("01 02 03 04 05 06 07 08 11 12 13 14 15 16 17 18").try_into().unwrap();
    let (bare, mut marks) = received(100, &[(10, 5)]);
    let mut hand = |transfer, packet: &[u8]| bitmap::record(transfer, &mut marks, packet).map(|(transfer, _)| transfer);
    let kept = Bitmap { stamped: 1, stamp_high: first, stamp_low: last, ..bare };
    assert_eq!(hand(bare, &data(7, 2, 0, 1)), Ok(bare));
    assert_eq!(hand(bare, &stamped(&data(7, 2, 20, 1), octets)), Ok(kept));
    assert_eq!(hand(kept, &data(7, 2, 30, 1)), Ok(kept));
    assert_eq!(hand(kept, &stamped(&data(7, 2, 30, 1), [0; 16])), Ok(Bitmap { stamp_high: 0, stamp_low: 0, ..kept }));
    assert_eq!(hand(kept, &stamped(&data(7, 2, 100, 1), [0; 16])), Err(Refusal::PastEnd));
    // Any number but 0 is yes, and is handed back as 1; where it is 0 the halves are not looked at, and are handed back as 0.
    for yes in [1, 2, 1 << 32, u64::MAX] {
        assert_eq!(hand(Bitmap { stamped: yes, ..kept }, &data(7, 2, 30, 1)), Ok(kept));
    }
    assert_eq!(hand(Bitmap { stamped: 0, ..kept }, &data(7, 2, 30, 1)), Ok(bare));
    // "Opening always starts anew."
    assert_eq!(open(&mut marks, &metadata(7, 2, 100)).unwrap().0, bare);
}

/// The STATUS carries it, and 20 counts it.
#[test]
fn status_with_a_timestamp() {
    let (bare, marks) = received(9, &[(1, 1)]);
    let kept = Bitmap { stamped: u64::MAX, stamp_high: 1, stamp_low: 2, ..bare };
    let page = (kept, marks.clone());
    let want = "44 08 00 00 00 00 00 07 00 00 00 00 00 00 00 01 00 00 00 00 00 00 00 02 00 00 00 02 00 00 00 01";
    assert_eq!(status(&page, 0, false, 32), Ok(hex(want)));
    assert_eq!(status(&page, 0, false, 31), Err(Refusal::Buffer));
    let none = (Bitmap { stamped: 0, ..kept }, marks);
    assert_eq!(status(&none, 0, false, 31), Ok(hex("44 00 00 00 00 00 00 07 00 00 00 02 00 00 00 01")));
}
