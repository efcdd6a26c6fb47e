//! Merging: each rule of document 02's Nine by hand, and the joined set beside one flag for each octet.

mod common;

use common::{data, metadata, stamped};
use paper::area;
use paper::marks::Marks;
use paper::received::Received;
use paper::refusal::Refusal;
use paper::table::{State, Table};

/// A table with transfer 7 open, and these stretches recorded, each by its first offset and the first after it.
fn with(width: usize, length: u64, stretches: &[(u64, u64)]) -> Table {
    let mut table = Table::default();
    table.open(&metadata(7, width, length)).unwrap();
    for &(start, end) in stretches {
        table.record(&data(7, width, start, (end - start) as usize)).unwrap();
    }
    table
}

fn runs(table: &Table) -> Vec<(u64, u64)> {
    table.transfers[&7].received.runs().collect()
}

/// `count` runs of one octet each, `step` apart, from `first` on.
fn apart(first: u64, step: u64, count: u64) -> Vec<(u64, u64)> {
    (0..count).map(|run| (first + step * run, first + step * run + 1)).collect()
}

#[test]
fn the_first_holds_what_either_received() {
    let mut first = with(2, 3_000, &[(0, 1_000), (2_000, 2_500)]);
    let second = with(2, 3_000, &[(900, 1_100), (2_600, 2_700)]);
    let before = second.clone();
    assert_eq!(first.merge(&second, 7), Ok(State { edge: 2_700, complete: false }));
    assert_eq!(runs(&first), [(0, 1_100), (2_000, 2_500), (2_600, 2_700)]);
    assert_eq!(second, before);
    // "completeness and holes are over the joined set"
    assert_eq!(first.hole(7, 1).map(|hole| (hole.start, hole.end)), Ok((2_500, 2_600)));
    let rest = with(2, 3_000, &[(1_100, 2_000), (2_400, 3_000)]);
    assert_eq!(first.merge(&rest, 7), Ok(State { edge: 3_000, complete: true }));
    assert_eq!(runs(&first), [(0, 3_000)]);
    // Nothing is received by either; an empty file is complete.
    assert_eq!(with(2, 9, &[]).merge(&with(2, 9, &[]), 7), Ok(State { edge: 0, complete: false }));
    assert_eq!(with(2, 0, &[]).merge(&with(2, 0, &[]), 7), Ok(State { edge: 0, complete: true }));
}

#[test]
fn refusals_in_their_order() {
    let none = Table::default();
    let first = with(2, 100, &[(0, 1)]);
    let merged = |first: &Table, second: &Table, id| first.clone().merge(second, id);
    // "an Id missing on either desk is 12, tested before them": one that is missing isn't an empty one.
    assert_eq!(merged(&first, &none, 7), Err(Refusal::NotOpen));
    assert_eq!(merged(&none, &first, 7), Err(Refusal::NotOpen));
    assert_eq!(merged(&first, &first, 7 + (1 << 32)), Err(Refusal::NotOpen));
    // "Widths and L must agree (13, then 18)"
    assert_eq!(merged(&first, &with(4, 100, &[]), 7), Err(Refusal::OtherWidth));
    assert_eq!(merged(&first, &with(4, 101, &[]), 7), Err(Refusal::OtherWidth));
    assert_eq!(merged(&first, &with(2, 101, &[]), 7), Err(Refusal::OpenOther));
    assert_eq!(merged(&with(8, 100, &[]), &with(16, 100, &[]), 7), Err(Refusal::OtherWidth));
    // 18 before 16.
    let (odd, even) = (apart(1, 4, 64), apart(3, 4, 64));
    assert_eq!(merged(&with(2, 300, &odd), &with(2, 301, &even), 7), Err(Refusal::OpenOther));
}

/// "more than 64 runs in the joined set is 16, tested last": of the joined set alone.
#[test]
fn room_is_judged_on_the_joined_set() {
    let merged = |first: &[(u64, u64)], second: &[(u64, u64)]| {
        let mut table = with(2, 1_000, first);
        let before = table.clone();
        let answer = table.merge(&with(2, 1_000, second), 7);
        assert!(answer.is_ok() || table == before);
        answer.map(|_| table.transfers[&7].received.run_count())
    };
    // 64 and 64 become 128, which are refused; 65 are, 64 aren't.
    assert_eq!(merged(&apart(0, 4, 64), &apart(2, 4, 64)), Err(Refusal::Runs));
    assert_eq!(merged(&apart(0, 4, 64), &[(500, 501)]), Err(Refusal::Runs));
    assert_eq!(merged(&apart(0, 4, 63), &[(500, 501)]), Ok(64));
    assert_eq!(merged(&apart(0, 4, 32), &apart(2, 4, 32)), Ok(64));
    assert_eq!(merged(&apart(0, 4, 33), &apart(2, 4, 32)), Err(Refusal::Runs));
    // 64 and 64 that touch are one; some of the second's runs alone would not have had room before the last came.
    let (even, odd) = (apart(0, 2, 64), apart(1, 2, 64));
    assert_eq!(merged(&even, &odd), Ok(1));
    let last = [&apart(2, 4, 40)[..], &[(300, 900)]].concat();
    let first = [&apart(0, 4, 40)[..], &apart(301, 9, 24)].concat();
    assert_eq!(merged(&first, &last), Err(Refusal::Runs));
    let last = [&apart(2, 4, 20)[..], &[(300, 900)]].concat();
    assert_eq!(merged(&first, &last), Ok(61));
}

/// "The first desk's timestamp stays", and where it kept none it keeps none; width, length and other transfers too.
#[test]
fn all_else_of_the_first_stays() {
    for (of_first, of_second) in [(false, false), (false, true), (true, false), (true, true)] {
        let table = |stamp: bool, octet: u8, offset: u64| {
            let mut table = with(2, 3_000, &[]);
            table.open(&metadata(5, 8, 40)).unwrap();
            table.record(&stamped(&data(5, 8, offset, 1), [octet; 16])).unwrap();
            let packet = data(7, 2, offset, 1);
            table.record(&if stamp { stamped(&packet, [octet; 16]) } else { packet }).unwrap();
            table
        };
        let (mut first, second) = (table(of_first, 1, 0), table(of_second, 2, 10));
        let before = first.clone();
        first.merge(&second, 7).unwrap();
        assert_eq!(first.transfers[&7].timestamp, of_first.then_some([1; 16]));
        assert_eq!(runs(&first), [(0, 1), (10, 11)]);
        assert_eq!(first.transfers[&5], before.transfers[&5]);
        first.transfers.get_mut(&7).unwrap().received = before.transfers[&7].received.clone();
        assert_eq!(first, before);
    }
}

/// Every pair of sets of 8 offsets, beside flags.
#[test]
fn all_small_pairs_agree_with_marks() {
    let sets: Vec<(Received, Marks)> = (0..=255u8)
        .map(|bits| {
            let (mut received, mut marks) = (Received::default(), Marks::new(8));
            for offset in (0..8).filter(|offset| bits >> offset & 1 == 1) {
                received.add(offset, offset + 1);
                marks.add(offset, offset + 1);
            }
            (received, marks)
        })
        .collect();
    for (one, marks_of_one) in &sets {
        for (other, marks_of_other) in &sets {
            let mut either = marks_of_one.clone();
            marks_of_other.runs().iter().for_each(|&(start, stop)| either.add(start, stop));
            let joined = one.with(other);
            assert_eq!(joined.runs().collect::<Vec<_>>(), either.runs());
            assert_eq!(joined, other.with(one));
            assert_eq!((joined.edge(), joined.complete(8)), (either.edge(), either.complete()));
        }
    }
}

/// "22 comes before all", of either area; a refusal changes nothing, and the second is never changed.
#[test]
fn areas() {
    let stored = |table: &Table, octet: u8| {
        let mut area = vec![octet; area::OCTETS + 3];
        area::store(table, &mut area);
        area
    };
    let mut first = stored(&with(2, 100, &[(0, 1), (5, 6)]), 0xA5);
    let second = stored(&with(2, 100, &[(1, 5)]), 0x5A);
    let short = &second[..area::OCTETS - 1];
    let mut damaged = second.clone();
    damaged[0] = 17;
    let before = first.clone();
    for bad in [short, &damaged[..]] {
        assert_eq!(area::merge(&mut first, bad, 7), Err(Refusal::Area));
        assert_eq!(area::merge(&mut first, bad, 8), Err(Refusal::Area));
        assert_eq!(area::merge(&mut bad.to_vec(), &second, 8), Err(Refusal::Area));
    }
    assert_eq!(area::merge(&mut first, &second, 8), Err(Refusal::NotOpen));
    assert_eq!(first, before);
    assert_eq!(area::merge(&mut first, &second, 7), Ok(State { edge: 6, complete: false }));
    // The number of runs and the first stop change, and no other octet: the second run's place is unused now.
    let mut want = before;
    want[32] = 1;
    want[8_840] = 6;
    assert_eq!(first, want);
}
