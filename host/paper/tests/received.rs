//! The set kept as runs and the set kept as one flag for each octet must say the same.

use paper::marks::Marks;
use paper::received::Received;

/// Adds a stretch to both, and compares all that they say.
fn add(received: &mut Received, marks: &mut Marks, length: u64, start: u64, end: u64) {
    let (before, absorbed) = (received.run_count(), received.absorbed(start, end));
    let (set, adds, count) = (received.clone(), received.adds(start, end), received.count());
    assert_eq!(marks.adds(start, end), adds);
    received.add(start, end);
    marks.add(start, end);
    // A stretch adds something exactly where the set changes, and where the number of offsets received does.
    assert_eq!(adds, *received != set);
    assert_eq!(adds, received.count() > count);
    assert_eq!(received.count(), marks.count());
    assert_eq!(received.complete(length), received.count() == length);
    // "runs after equal runs before plus one minus that number"
    assert_eq!(marks.runs().len(), before + 1 - absorbed);
    assert_eq!(received.runs().collect::<Vec<_>>(), marks.runs());
    assert_eq!(received.run_count(), marks.runs().len());
    assert_eq!(received.edge(), marks.edge());
    assert_eq!(received.holes(), marks.holes());
    assert_eq!(received.lowest_missing(), marks.lowest_missing());
    assert_eq!(received.complete(length), marks.complete());
}

#[test]
fn nothing_received() {
    let (received, marks) = (Received::default(), Marks::new(5));
    assert_eq!((received.edge(), received.lowest_missing(), received.run_count(), received.count()), (0, 0, 0, 0));
    assert_eq!((marks.edge(), marks.lowest_missing(), marks.runs().len(), marks.count()), (0, 0, 0, 0));
    assert!(received.adds(0, 1) && marks.adds(4, 5));
    assert!(received.holes().is_empty() && marks.holes().is_empty());
    assert!(!received.complete(5) && !marks.complete());
    assert!(received.complete(0) && Marks::new(0).complete());
}

/// Every list of four stretches in a file of 7 octets.
#[test]
fn all_short_lists_agree() {
    let length = 7;
    let stretches: Vec<(u64, u64)> =
        (0..length).flat_map(|start| (start + 1..=length).map(move |end| (start, end))).collect();
    let mut lists = vec![(Received::default(), Marks::new(length as usize))];
    for _ in 0..3 {
        let longer = |(received, marks): &(Received, Marks)| {
            let (received, marks) = (received.clone(), marks.clone());
            stretches.iter().map(move |&(start, end)| {
                let (mut received, mut marks) = (received.clone(), marks.clone());
                add(&mut received, &mut marks, length, start, end);
                (received, marks)
            })
        };
        lists = lists.iter().flat_map(longer).collect();
    }
    for (received, marks) in &lists {
        for &(start, end) in &stretches {
            add(&mut received.clone(), &mut marks.clone(), length, start, end);
        }
    }
}

/// Long lists in files of some hundred octets, up to far more than 64 runs and down to one.
#[test]
fn long_lists_agree() {
    let mut state = 1u64;
    let mut below = |end: u64| {
        state = state.wrapping_mul(6_364_136_223_846_793_005).wrapping_add(1_442_695_040_888_963_407);
        (state >> 33) % end
    };
    for length in [1, 2, 64, 300, 500] {
        let (mut received, mut marks) = (Received::default(), Marks::new(length as usize));
        while !marks.complete() {
            let start = below(length);
            let end = start + 1 + below((length - start).min(3));
            add(&mut received, &mut marks, length, start, end);
        }
        assert_eq!(received.runs().collect::<Vec<_>>(), [(0, length)]);
    }
}

#[test]
fn to_the_last_offset() {
    let mut received = Received::default();
    received.add(u64::MAX - 1, u64::MAX);
    received.add(0, 1);
    assert_eq!(received.holes(), [(1, u64::MAX - 1)]);
    received.add(1, u64::MAX - 1);
    assert!(received.complete(u64::MAX) && !received.adds(0, u64::MAX));
    assert_eq!(received.count(), u64::MAX);
    assert_eq!(received.run_count(), 1);
}
