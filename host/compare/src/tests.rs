//! The comparisons themselves: they find every wrong codec, receiver, planner and merging, and agree with right ones.

use crate::codec::Paper;
use crate::run::{bitmaps, merges, packets, plans, receiver, self_check, self_check_merges, settings, End};

#[test]
fn wrong_ones_are_found() {
    self_check(1, 1_000_000).unwrap();
}

#[test]
fn wrong_mergings_are_found() {
    self_check_merges(1, 300_000).unwrap();
}

#[test]
fn the_paper_agrees_with_itself() {
    let packets = packets(&Paper, 1, End::after(400_000)).unwrap_or_else(|what| panic!("{what}"));
    assert_eq!(packets.tally.missing(0), Vec::<String>::new());
    assert!(packets.calls >= 400_000);
    let receiver = receiver(&Paper, &Paper, 1, End::after(250_000)).unwrap_or_else(|what| panic!("{what}"));
    assert_eq!(receiver.tally.missing(1), Vec::<String>::new());
    assert!(receiver.calls >= 250_000);
    let plans = plans(&Paper, 1, End::after(700_000)).unwrap_or_else(|what| panic!("{what}"));
    assert_eq!(plans.tally.missing(2), Vec::<String>::new());
    assert!(plans.calls >= 700_000);
    let marks = bitmaps(&Paper, &Paper, 1, End::after(40_000)).unwrap_or_else(|what| panic!("{what}"));
    assert_eq!(marks.tally.missing(3), Vec::<String>::new());
    assert!(marks.calls >= 40_000);
    let merges = merges(&Paper, &Paper, 1, End::after(100_000)).unwrap_or_else(|what| panic!("{what}"));
    assert_eq!(merges.tally.missing(4), Vec::<String>::new());
    assert!(merges.calls >= 100_000);
    let settings = settings(&Paper, 1, End::after(18_600_000)).unwrap_or_else(|what| panic!("{what}"));
    assert_eq!(settings.tally.missing(5), Vec::<String>::new());
    assert!(settings.calls >= 18_600_000);
    assert_eq!(packets.tally.with(&receiver.tally).with(&settings.tally).never(), Vec::<String>::new());
}
