//! What to send again: packets and plans laid out by hand, and every list of a small world judged octet by octet.

mod common;

use std::collections::BTreeSet;

use common::{data, hex, metadata};
use paper::plan::{check_plan, conditions, plan, plan_count, Conditions, Piece};
use paper::read::Hole;
use paper::refusal::Refusal;

fn piece(offset: u64, length: u64) -> Piece {
    Piece { offset, length }
}

fn pieces(pairs: &[(u64, u64)]) -> Vec<Piece> {
    pairs.iter().map(|&(offset, length)| piece(offset, length)).collect()
}

/// A record that no plan has.
const OLD: Piece = Piece { offset: 77, length: 0 };

/// STATUS of Id 7 and width 64 with these holes; bit 14 set where the list isn't complete.
fn status(holes: &[(u64, u64)], incomplete: bool) -> Vec<u8> {
    let progress = if incomplete { 0 } else { holes.first().map_or(9, |hole| hole.0) };
    let in_response_to = if incomplete { u64::MAX } else { holes.last().map_or(9, |hole| hole.1) };
    let mut packet = hex(if incomplete { "44 82 00 00 00 00 00 07" } else { "44 80 00 00 00 00 00 07" });
    for number in [progress, in_response_to].into_iter().chain(holes.iter().flat_map(|hole| [hole.0, hole.1])) {
        packet.extend(number.to_be_bytes());
    }
    packet
}

/// The plan from so many records, as pairs, with the records past it.
fn planned(packet: &[u8], largest: u64, lent: usize) -> (Result<u64, Refusal>, Vec<Piece>) {
    let mut records = vec![OLD; lent];
    let answer = plan(packet, largest, &mut records);
    (answer, records)
}

#[test]
fn cuts_from_the_low_end() {
    let packet = status(&[(1_000, 2_000), (3_000, 3_001)], false);
    let (answer, records) = planned(&packet, 400, 6);
    assert_eq!(answer, Ok(4));
    assert_eq!(records[..4], pieces(&[(1_000, 400), (1_400, 400), (1_800, 200), (3_000, 1)]));
    assert_eq!(records[4..], [OLD, OLD]);
    assert_eq!(plan_count(&packet, 400), Ok(4));
    assert_eq!(plan_count(&packet, 500), Ok(3));
    assert_eq!(plan_count(&packet, 999), Ok(3));
    assert_eq!(plan_count(&packet, 1_000), Ok(2));
    assert_eq!(plan_count(&packet, 65_000), Ok(2));
}

#[test]
fn the_listed_holes_alone_count() {
    let packet = status(&[(1_000, 1_003)], true);
    assert_eq!(planned(&packet, 2, 2), (Ok(2), pieces(&[(1_000, 2), (1_002, 1)])));
    assert_eq!(check_plan(&packet, 2, &pieces(&[(1_000, 2), (1_002, 1)])), Ok(true));
}

#[test]
fn no_holes_no_pieces() {
    for packet in [status(&[], false), status(&[], true)] {
        assert_eq!(planned(&packet, 1, 1), (Ok(0), vec![OLD]));
        assert_eq!(plan_count(&packet, 1), Ok(0));
        assert_eq!(check_plan(&packet, 1, &[]), Ok(true));
        for piece in [piece(0, 0), piece(0, 1), piece(9, 0), piece(9, 1)] {
            assert_eq!(check_plan(&packet, 1, &[piece]), Ok(false));
        }
    }
}

#[test]
fn ends_of_numbers() {
    let top = u64::MAX;
    let packet = status(&[(0, 2), (3, top)], false);
    assert_eq!(plan_count(&packet, 1), Ok(top - 1));
    assert_eq!(plan_count(&packet, 65_000), Ok(1 + (top - 3).div_ceil(65_000)));
    assert_eq!(planned(&packet, 1, 5), (Err(Refusal::Buffer), vec![OLD; 5]));
    let packet = status(&[(top - 3, top)], false);
    assert_eq!(planned(&packet, 2, 2), (Ok(2), pieces(&[(top - 3, 2), (top - 1, 1)])));
    assert_eq!(check_plan(&packet, 3, &pieces(&[(top - 3, 3)])), Ok(true));
    for bad in [(top - 3, 4), (top - 3, top), (top - 2, 3), (top, 1), (top, top), (top - 3, top - 3)] {
        assert_eq!(check_plan(&packet, 65_000, &pieces(&[bad])), Ok(false), "{bad:?}");
    }
}

#[test]
fn records_lent() {
    let packet = status(&[(10, 15), (20, 22)], false);
    for lent in 0..4 {
        assert_eq!(planned(&packet, 2, lent), (Err(Refusal::Buffer), vec![OLD; lent]));
    }
    for lent in 4..7 {
        let (answer, records) = planned(&packet, 2, lent);
        assert_eq!(answer, Ok(4));
        assert_eq!(records[..4], pieces(&[(10, 2), (12, 2), (14, 1), (20, 2)]));
        assert!(records[4..].iter().all(|&record| record == OLD));
    }
}

/// Each packet with the refusal that comes before 21 and 20, or none.
#[test]
fn refusals_in_order() {
    let good = status(&[(10, 12)], false);
    let failure = hex("44 80 00 05 00 00 00 07");
    let touching = status(&[(10, 12), (12, 13)], false);
    let packets = [
        (vec![0x44; 65_536], Some(Refusal::TooLong)),
        (good[..7].to_vec(), Some(Refusal::Truncated)),
        ([&[0x04], &good[1..]].concat(), Some(Refusal::Version)),
        ([&[0x40], &good[1..]].concat(), Some(Refusal::Type)),
        (hex("40 00 00 00"), Some(Refusal::Type)),
        ([&[0x45], &good[1..]].concat(), Some(Refusal::Type)),
        (data(7, 8, 0, 1), Some(Refusal::Type)),
        (metadata(7, 8, 5), Some(Refusal::Type)),
        (failure.clone(), Some(Refusal::HoleList)),
        ([failure, vec![1]].concat(), Some(Refusal::HoleList)),
        (good[..20].to_vec(), Some(Refusal::Truncated)),
        (touching, Some(Refusal::HoleList)),
        (good[..good.len() - 1].to_vec(), Some(Refusal::HoleList)),
        (good, None),
    ];
    for (packet, before) in packets {
        for largest in [0, 65_001, u64::MAX] {
            let want = before.unwrap_or(Refusal::Field);
            assert_eq!(planned(&packet, largest, 0), (Err(want), vec![]));
            assert_eq!(plan_count(&packet, largest), Err(want));
            assert_eq!(check_plan(&packet, largest, &[OLD]), Err(want));
        }
        for largest in [1, 65_000] {
            assert_eq!(planned(&packet, largest, 0).0, Err(before.unwrap_or(Refusal::Buffer)));
            assert_eq!(plan_count(&packet, largest).err(), before);
            assert_eq!(check_plan(&packet, largest, &[OLD]).err(), before);
        }
    }
    assert_eq!((Refusal::Field.number(), Refusal::Field.code()), (21, 0));
    assert_eq!((Refusal::Buffer.number(), Refusal::Buffer.code()), (20, 0));
}

/// For each condition a list that breaks it and no other.
#[test]
fn each_condition_alone() {
    let packet = status(&[(10, 20), (30, 34)], false);
    let lists: [(&[(u64, u64)], [bool; 5]); 10] = [
        (&[(10, 5), (15, 5), (30, 4)], [true; 5]),
        (&[(10, 1), (11, 5), (16, 4), (30, 2), (32, 2)], [true; 5]),
        (&[(15, 5), (10, 5), (30, 4)], [false, true, true, true, true]),
        (&[(10, 5), (12, 0), (15, 5), (30, 4)], [true, false, true, true, true]),
        (&[(10, 6), (16, 4), (30, 4)], [true, false, true, true, true]),
        (&[(10, 5), (15, 5), (25, 3), (30, 4)], [true, true, false, true, true]),
        (&[(10, 5), (15, 5), (29, 5)], [true, true, false, true, true]),
        (&[(10, 5), (14, 5), (19, 1), (30, 4)], [true, true, true, false, true]),
        (&[(10, 5), (15, 4), (30, 4)], [true, true, true, true, false]),
        (&[(10, 5), (15, 5)], [true, true, true, true, false]),
    ];
    for (list, want) in lists {
        let list = pieces(list);
        assert_eq!(conditions(&packet, 5, &list).map(Conditions::each), Ok(want), "{list:?}");
        assert_eq!(check_plan(&packet, 5, &list), Ok(want == [true; 5]), "{list:?}");
    }
    // One piece over two holes and what lies between them.
    let over_both = conditions(&packet, 65_000, &pieces(&[(10, 24)])).unwrap();
    assert_eq!(over_both.each(), [true, true, false, true, true]);
}

/// The conditions over sets of octets, as the words have them.
fn by_octets(list: &[Piece], holes: &[Hole], largest: u64) -> [bool; 5] {
    let octets = |piece: &Piece| (piece.offset..piece.offset + piece.length).collect::<BTreeSet<u64>>();
    let hole_octets = |hole: &Hole| (hole.start..hole.end).collect::<BTreeSet<u64>>();
    let have: BTreeSet<u64> = list.iter().flat_map(octets).collect();
    let pairs = || (0..list.len()).flat_map(|second| (0..second).map(move |first| (first, second)));
    [
        pairs().all(|(first, second)| list[first].offset < list[second].offset),
        list.iter().all(|piece| !octets(piece).is_empty() && octets(piece).len() as u64 <= largest),
        list.iter()
            .filter(|piece| piece.length > 0)
            .all(|piece| holes.iter().any(|hole| octets(piece).is_subset(&hole_octets(hole)))),
        pairs().all(|(first, second)| octets(&list[first]).is_disjoint(&octets(&list[second]))),
        holes.iter().all(|hole| hole_octets(hole).is_subset(&have)),
    ]
}

/// The holes of a small file, from one bit for each of its octets.
fn holes_of(missing: u64) -> Vec<Hole> {
    let is = |offset: u64| missing >> offset & 1 == 1;
    let starts = (0..5).filter(|&offset| is(offset) && (offset == 0 || !is(offset - 1)));
    starts.map(|start| Hole { start, end: (start..).find(|&end| !is(end)).unwrap() }).collect()
}

#[test]
fn every_list_of_a_small_world() {
    let every: Vec<Piece> = (0..5).flat_map(|offset| (0..4).map(move |length| piece(offset, length))).collect();
    let mut lists: Vec<Vec<Piece>> = vec![vec![]];
    let mut longer = lists.clone();
    for _ in 0..3 {
        longer = longer.iter().flat_map(|list| every.iter().map(move |&next| [&list[..], &[next]].concat())).collect();
        lists.extend(longer.clone());
    }
    let mut passed = 0;
    for missing in 0..16 {
        let holes = holes_of(missing);
        for (list, largest) in lists.iter().flat_map(|list| (1..4).map(move |largest| (list, largest))) {
            let got = Conditions::of(list, &holes, largest);
            let want = by_octets(list, &holes, largest);
            // An empty piece has no octet to lie anywhere: whether it lies in a hole makes no difference to the verdict.
            let empty = list.iter().any(|piece| piece.length == 0);
            assert!(got.each() == want || empty && got.inside != want[2], "{list:?} {holes:?} {largest}");
            assert_eq!(got.all(), want == [true; 5], "{list:?} {holes:?} {largest}");
            passed += u64::from(got.all());
        }
    }
    assert!(passed > 50, "{passed}");
}

/// "Its plans always pass", and the plan is one of those with fewest pieces.
#[test]
fn plans_pass() {
    for missing in 0..32 {
        let holes: Vec<(u64, u64)> = holes_of(missing).iter().map(|hole| (hole.start, hole.end)).collect();
        let packet = status(&holes, missing % 2 == 0);
        for largest in 1..8 {
            let (answer, records) = planned(&packet, largest, 5);
            let count = answer.unwrap();
            assert_eq!(plan_count(&packet, largest), Ok(count));
            assert_eq!(check_plan(&packet, largest, &records[..count as usize]), Ok(true));
            assert_eq!(check_plan(&packet, largest, &[&records[..count as usize], &[OLD]].concat()), Ok(false));
        }
    }
}
