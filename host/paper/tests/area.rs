//! The area: the example of docs/AREA.md, each of that page's rules by itself, and what calls leave.

mod common;

use common::{data, metadata, stamped};
use paper::area::{self, store, take_up, OCTETS};
use paper::refusal::Refusal;
use paper::table::Table;

/// The table of the example.
fn example() -> Table {
    let mut table = Table::default();
    table.open(&metadata(7, 2, 3_000)).unwrap();
    table.open(&metadata(300, 8, 5_000_000_000)).unwrap();
    table.record(&data(7, 2, 0, 1_000)).unwrap();
    table.record(&data(7, 2, 2_000, 1_000)).unwrap();
    table.record(&stamped(&data(300, 8, 1 << 32, 500), OF_300)).unwrap();
    table
}

/// Its timestamp.
const OF_300: [u8; 16] =
    [0x11, 0x12, 0x13, 0x14, 0x15, 0x16, 0x17, 0x18, 0x21, 0x22, 0x23, 0x24, 0x25, 0x26, 0x27, 0x28];

/// The words that the example uses, by the page's table.
const USED: [usize; 19] = [0, 1, 2, 3, 4, 5, 6, 7, 8, 9, 10, 81, 82, 145, 1_105, 1_106, 1_169, 2_131, 2_132];

/// An area that holds the table; every other octet is 0xA5.
fn holding(table: &Table) -> Vec<u8> {
    let mut area = vec![0xA5; OCTETS];
    store(table, &mut area);
    area
}

fn set(area: &mut [u8], word: usize, value: u64) {
    area[8 * word..8 * word + 8].copy_from_slice(&value.to_le_bytes());
}

/// The rows of the example: octet, eight octets, word.
fn example_of_the_page() -> Vec<(usize, Vec<u8>, usize)> {
    let page = std::fs::read_to_string(concat!(env!("CARGO_MANIFEST_DIR"), "/../../docs/AREA.md")).unwrap();
    let (_, example) = page.split_once("## Example").unwrap();
    let row = |line: &str| {
        let mut parts = line.strip_prefix("    ")?.split_whitespace();
        let octet = parts.next()?.parse().ok()?;
        let octets = (0..8).map(|_| u8::from_str_radix(parts.next()?, 16).ok()).collect::<Option<_>>()?;
        Some((octet, octets, parts.next()?.parse().ok()?))
    };
    example.lines().filter_map(row).collect()
}

#[test]
fn example_of_area_md() {
    let rows = example_of_the_page();
    assert_eq!(rows.iter().map(|row| row.2).collect::<Vec<_>>(), USED);
    for unused in [0x00, 0xA5, 0xFF] {
        let mut area = vec![unused; OCTETS];
        for (octet, octets, word) in &rows {
            assert_eq!(*octet, 8 * word);
            area[*octet..octet + 8].copy_from_slice(octets);
        }
        assert_eq!(take_up(&area), Ok(example()));
        let mut stored = vec![unused; OCTETS];
        store(&example(), &mut stored);
        assert_eq!(stored, area);
    }
}

#[test]
fn length_of_an_area() {
    assert_eq!(OCTETS, 17_288);
    let mut area = holding(&example());
    for len in [0, 1, 8, OCTETS - 8, OCTETS - 1] {
        assert_eq!(take_up(&area[..len]), Err(Refusal::Area));
        assert_eq!(area::fresh(&mut area[..len]), Err(Refusal::Buffer));
    }
    assert_eq!(area, holding(&example()));
    area.extend([1, 2, 3]);
    assert_eq!(take_up(&area), Ok(example()));
    assert_eq!(area::fresh(&mut area), Ok(()));
    assert_eq!(area, [vec![0; OCTETS], vec![1, 2, 3]].concat());
}

/// The example with some words changed.
fn changed(words: &[(usize, u64)]) -> Vec<u8> {
    let mut area = holding(&example());
    for &(word, value) in words {
        set(&mut area, word, value);
    }
    area
}

#[test]
fn words_that_hold_no_table() {
    let refused: &[&[(usize, u64)]] = &[
        // The number of transfers. Of three, the third is 0xA5 throughout; high octet first, it is 2 << 56.
        &[(0, 3)],
        &[(0, 17)],
        &[(0, 2 + (1 << 32))],
        &[(0, 2 << 56)],
        &[(0, u64::MAX)],
        // Ids: equal, falling, over 32 bits.
        &[(1, 300)],
        &[(6, 7)],
        &[(1, 301)],
        &[(6, 1 << 32)],
        &[(6, 300 + (1 << 32))],
        &[(6, u64::MAX)],
        // Widths.
        &[(2, 0)],
        &[(2, 1)],
        &[(2, 3)],
        &[(2, 9)],
        &[(2, 12)],
        &[(2, 15)],
        &[(2, 17)],
        &[(2, 32)],
        &[(2, 128)],
        &[(2, 2 + (1 << 32))],
        &[(2, 16 + (1 << 32))],
        // Lengths: over the width, below the last stop.
        &[(3, 65_536)],
        &[(7, 4)],
        &[(3, 2_999)],
        &[(8, (1 << 32) + 499)],
        // Numbers of runs. Of three, the third is 0xA5 throughout.
        &[(4, 3)],
        &[(4, 65)],
        &[(9, u64::MAX)],
        // Runs: empty, turned round, overlapping, touching, past the length.
        &[(1_105, 0)],
        &[(82, 3_000)],
        &[(82, 3_001)],
        &[(82, 999)],
        &[(82, 1_000)],
        &[(1_106, 3_001)],
        &[(1_106, u64::MAX)],
        &[(1_105, 3_001)],
        // Whether a timestamp is kept: of the first and of the last.
        &[(5, 2)],
        &[(10, 2)],
        &[(10, 16)],
        &[(5, 1 << 32)],
        &[(10, 1 + (1 << 32))],
        &[(5, 1 << 56)],
        &[(10, u64::MAX)],
    ];
    for words in refused {
        assert_eq!(take_up(&changed(words)), Err(Refusal::Area), "{words:?}");
    }
}

#[test]
fn words_of_another_table() {
    let taken: &[&[(usize, u64)]] = &[
        &[(0, 0)],
        &[(0, 1)],
        &[(0, 3), (11, 301), (12, 2), (13, 0), (14, 0), (15, 0)],
        &[(1, 0)],
        &[(1, 299)],
        &[(6, 0xFFFF_FFFF)],
        &[(2, 4)],
        &[(2, 8)],
        &[(2, 16)],
        &[(2, 16), (3, u64::MAX)],
        &[(7, 16)],
        &[(3, 65_535)],
        &[(8, u64::MAX)],
        &[(81, 999)],
        &[(82, 1_001)],
        &[(1_105, 1_999)],
        &[(1_106, 2_001)],
        &[(4, 3), (83, 4_001), (1_107, 5_000), (3, 5_000)],
        &[(4, 1)],
        &[(9, 0)],
        // A timestamp less, one more, and any octets as one.
        &[(10, 0)],
        &[(5, 1)],
        &[(5, 1), (2_129, 0), (2_130, 0)],
        &[(2_131, 0), (2_132, 0)],
        &[(2_132, u64::MAX)],
    ];
    for words in taken {
        let area = changed(words);
        let table = take_up(&area).unwrap_or_else(|_| panic!("{words:?}"));
        assert_ne!(table, example());
        // What an area holds, stored in it, changes nothing.
        let mut again = area.clone();
        store(&table, &mut again);
        assert_eq!(again, area, "{words:?}");
    }
}

#[test]
fn unused_places_hold_anything() {
    for word in (0..OCTETS / 8).filter(|word| !USED.contains(word)) {
        for value in [0, 1, 7, 300, 1 << 56, u64::MAX] {
            assert_eq!(take_up(&changed(&[(word, value)])), Ok(example()), "{word}: {value}");
        }
    }
}

#[test]
fn calls_on_areas() {
    let mut area = vec![0xA5; OCTETS + 3];
    assert_eq!(area::open(&mut area, &metadata(7, 2, 3_000)), Err(Refusal::Area));
    assert_eq!(area, vec![0xA5; OCTETS + 3]);
    // Nothing is open, and the rest is left.
    set(&mut area, 0, 0);
    area::open(&mut area, &metadata(300, 8, 5_000_000_000)).unwrap();
    area::open(&mut area, &metadata(7, 2, 3_000)).unwrap();
    for (offset, len) in [(2_000, 1_000), (0, 1_000)] {
        area::record(&mut area, &data(7, 2, offset, len)).unwrap();
    }
    area::record(&mut area, &stamped(&data(300, 8, 1 << 32, 500), OF_300)).unwrap();
    let mut want = [holding(&example()), vec![0xA5; 3]].concat();
    assert_eq!(area, want);
    // A refusal changes nothing.
    assert_eq!(area::record(&mut area, &data(7, 2, 2_999, 2)), Err(Refusal::PastEnd));
    assert_eq!(area::close(&mut area, 8), Err(Refusal::NotOpen));
    assert_eq!(area, want);
    // Two runs become one: the second's place keeps its numbers. The timestamp's words are used from now on.
    area::record(&mut area, &stamped(&data(7, 2, 1_000, 1_000), [0xAA; 16])).unwrap();
    for (word, value) in [(4, 1), (5, 1), (1_105, 3_000)] {
        set(&mut want, word, value);
    }
    want[8 * 2_129..8 * 2_131].fill(0xAA);
    assert_eq!(area, want);
    // The second transfer gets the first's place, and its own keeps its numbers.
    area::close(&mut area, 7).unwrap();
    for (word, value) in [(0, 1), (1, 300), (2, 8), (3, 5_000_000_000), (4, 1), (5, 1), (81, 1 << 32)] {
        set(&mut want, word, value);
    }
    set(&mut want, 1_105, (1 << 32) + 500);
    want[8 * 2_129..8 * 2_131].copy_from_slice(&OF_300);
    assert_eq!(area, want);
    assert_eq!(area::transfer_at(&area, 0).map(|listed| listed.id), Ok(300));
    area::close(&mut area, 300).unwrap();
    set(&mut want, 0, 0);
    assert_eq!(area, want);
    area::fresh(&mut area).unwrap();
    assert_eq!(area, [vec![0; OCTETS], vec![0xA5; 3]].concat());
}

/// The two words of a timestamp stay as they are where none is kept: opened, opened behind another, and moved down again.
#[test]
fn words_of_no_timestamp() {
    let mut area = vec![0xA5; OCTETS];
    area::fresh(&mut area).unwrap();
    area[8 * 2_129..].copy_from_slice(&(0..=255).collect::<Vec<u8>>());
    let stamps = area[8 * 2_129..].to_vec();
    let opened = |area: &mut [u8], id| area::open(area, &metadata(id, 2, 100)).unwrap();
    for id in [9, 8, 7] {
        opened(&mut area, id);
    }
    area::record(&mut area, &data(8, 2, 0, 5)).unwrap();
    area::close(&mut area, 7).unwrap();
    assert_eq!(area[8 * 2_129..], stamps);
    // One is kept at the place of 9, which is the second, and goes with it: to the third, and back.
    area::record(&mut area, &stamped(&data(9, 2, 0, 5), [0; 16])).unwrap();
    let kept = |area: &[u8], places: &[usize]| {
        let mut want = stamps.clone();
        places.iter().for_each(|place| want[16 * place..16 * place + 16].fill(0));
        assert_eq!(area[8 * 2_129..], want);
    };
    kept(&area, &[1]);
    opened(&mut area, 7);
    kept(&area, &[1, 2]);
    area::close(&mut area, 8).unwrap();
    kept(&area, &[1, 2]);
    area::close(&mut area, 7).unwrap();
    kept(&area, &[0, 1, 2]);
}
