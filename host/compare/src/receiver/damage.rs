//! Damaged areas: any octet, the length, and words that are wrong in each of the ways that docs/AREA.md names. Some leave
//! another table; what changes unused words alone leaves the same, and must be taken.

use crate::receiver::held::fill_unused;
use crate::receiver::words::*;
use crate::rng::Rng;

pub type Damage = fn(&mut Vec<u8>, &mut Rng);

/// By the numbers of the page's rules.
pub const ALL: &[Damage] = &[
    // Any octet; any word.
    |area, rng| {
        let at = rng.place(0, OCTETS - 1);
        area[at] ^= 1 << rng.below(8);
    },
    |area, rng| {
        let at = rng.place(0, OCTETS - 1);
        area[at] = rng.any() as u8;
    },
    |area, rng| set(area, rng.place(0, WORDS - 1), rng.number(64)),
    // 1: too short, or cut and filled up.
    |area, rng| area.truncate(rng.place(0, OCTETS - 1)),
    |area, rng| area.truncate(OCTETS - rng.pick(&[1, 1, 2, 7, 8, 16])),
    |area, rng| {
        let len = rng.place(0, OCTETS - 1);
        area[len..OCTETS].fill(0);
    },
    // 2: the number of transfers.
    |area, rng| set(area, COUNT, rng.pick(&[17, 18, 32, 1 << 32, (1 << 32) + 1, u64::MAX])),
    |area, _| change(area, COUNT, |count| count.wrapping_add(1)),
    |area, _| change(area, COUNT, |count| count.wrapping_sub(1)),
    |area, rng| set(area, COUNT, rng.below(17)),
    |area, _| change(area, COUNT, u64::swap_bytes),
    // 3: Ids.
    |area, rng| {
        let i = transfer(area, rng);
        change(area, id(i), |id| rng.pick(&[id | 1 << 32, 1 << 32, id | 1 << 63, u64::MAX]));
    },
    |area, rng| {
        let (i, j) = (transfer(area, rng), transfer(area, rng));
        let other = get(area, id(j));
        set(area, id(i), other);
    },
    |area, rng| {
        let (i, j) = (transfer(area, rng), transfer(area, rng));
        let (one, other) = (get(area, id(i)), get(area, id(j)));
        set(area, id(i), other);
        set(area, id(j), one);
    },
    |area, rng| {
        let i = transfer(area, rng);
        change(area, id(i), |id| id.wrapping_add(1));
    },
    // 4: widths.
    |area, rng| {
        let i = transfer(area, rng);
        set(area, width(i), rng.pick(&[0, 1, 3, 5, 6, 7, 9, 12, 15, 17, 32, 64, 128, 2 + (1 << 32), u64::MAX]));
    },
    |area, rng| {
        let i = transfer(area, rng);
        set(area, width(i), rng.pick(&[2, 4, 8, 16]));
    },
    // 5: lengths.
    |area, rng| {
        let i = transfer(area, rng);
        set(area, width(i), 2);
        set(area, length(i), rng.pick(&[65_535, 65_536, 65_537, 1 << 32, u64::MAX]));
    },
    |area, rng| {
        let i = transfer(area, rng);
        set(area, width(i), 4);
        set(area, length(i), rng.pick(&[(1 << 32) - 1, 1 << 32, (1 << 32) + 1, u64::MAX]));
    },
    |area, rng| {
        let i = transfer(area, rng);
        let last = get(area, stop(i, runs_of(area, i).max(1) - 1));
        set(area, length(i), rng.pick(&[last, last.wrapping_sub(1), last.wrapping_add(1), 0]));
    },
    // 6: numbers of runs.
    |area, rng| {
        let i = transfer(area, rng);
        change(area, run_count(i), |runs| {
            rng.pick(&[runs.wrapping_add(1), runs.wrapping_sub(1), 64, 65, 66, 1 << 32, u64::MAX])
        });
    },
    // 7: runs by themselves.
    |area, rng| {
        let (i, j) = run(area, rng);
        let (from, to) = (get(area, start(i, j)), get(area, stop(i, j)));
        match rng.below(3) {
            0 => set(area, start(i, j), to),
            1 => set(area, start(i, j), to.wrapping_add(1)),
            _ => set(area, stop(i, j), from),
        }
    },
    |area, rng| {
        let (i, j) = run(area, rng);
        let length = get(area, length(i));
        set(area, stop(i, j), rng.pick(&[length, length.wrapping_add(1), u64::MAX]));
    },
    |area, rng| {
        let (i, j) = run(area, rng);
        let word = rng.pick(&[start, stop])(i, j);
        change(area, word, |offset| rng.pick(&[offset.wrapping_add(1), offset.wrapping_sub(1)]));
    },
    // 8: runs that touch, overlap, or stand in another order.
    |area, rng| {
        let (i, j) = run(area, rng);
        let next = (j + 1).min(63);
        let to = get(area, stop(i, j));
        set(area, start(i, next), rng.pick(&[to, to, to.wrapping_sub(1), to.wrapping_add(1)]));
    },
    |area, rng| {
        let (i, j) = run(area, rng);
        let next = (j + 1).min(63);
        for side in [start, stop] {
            let (one, other) = (get(area, side(i, j)), get(area, side(i, next)));
            set(area, side(i, j), other);
            set(area, side(i, next), one);
        }
    },
    // 9: whether a timestamp is kept; its octets, which may be any; and a timestamp more or less.
    |area, rng| {
        let i = transfer(area, rng);
        set(
            area,
            stamped(i),
            rng.pick(&[2, 3, 16, 255, 256, 1 << 32, 1 + (1 << 32), 1 << 56, 1 + (1 << 63), u64::MAX]),
        );
    },
    |area, rng| {
        let i = transfer(area, rng);
        let any = rng.any();
        set(area, half(i, rng.place(0, 1)), rng.pick(&[0, 1, 1 << 56, any]));
    },
    |area, rng| {
        let i = transfer(area, rng);
        set(area, stamped(i), rng.below(2));
    },
    // Unused words: all of them, the next head, the next transfer's runs and timestamp, and an open transfer's next runs.
    |area, rng| fill_unused(area, rng),
    |area, rng| {
        let i = (get(area, COUNT) as usize).min(15);
        let head = rng.pick(&[id(i), width(i), length(i), run_count(i), stamped(i)]);
        let word = rng.pick(&[head, head, start(i, 0), stop(i, 0), half(i, 0), half(i, 1)]);
        set(area, word, rng.pick(&[0, 1, 2, 8, 1 << 56, u64::MAX]));
    },
    |area, rng| {
        let i = transfer(area, rng);
        let j = runs_of(area, i).min(63);
        let word = rng.pick(&[start, stop])(i, rng.place(j, 63));
        let length = get(area, length(i));
        set(area, word, rng.pick(&[0, 1, length, 1 << 56]));
    },
    // A run more behind the last, right or wrong.
    |area, rng| {
        let i = transfer(area, rng);
        let runs = runs_of(area, i).min(63);
        let before = if runs == 0 { 0 } else { get(area, stop(i, runs - 1)) };
        let from = before.wrapping_add(rng.below(3));
        set(area, run_count(i), runs as u64 + 1);
        set(area, start(i, runs), from);
        set(area, stop(i, runs), from.wrapping_add(rng.below(3)));
    },
    // A run less.
    |area, rng| {
        let i = transfer(area, rng);
        let runs = runs_of(area, i).max(1) - 1;
        set(area, run_count(i), runs as u64);
    },
    // A transfer more behind the last, right or wrong.
    |area, rng| {
        let i = (get(area, COUNT) as usize).min(15);
        let before = if i == 0 { 0 } else { get(area, id(i - 1)) };
        let new = Entry {
            id: before.wrapping_add(rng.below(3)),
            width: rng.pick(&[2, 4, 8, 16]),
            length: rng.between(65_000, 66_000),
            runs: vec![(1, 2), (4, 65_000)],
            stamped: rng.below(3),
            halves: [rng.any(), rng.any()],
        };
        store_at(i, &new, area);
        set(area, COUNT, i as u64 + 1);
    },
];

/// A transfer's place; that of the first where there is none.
fn transfer(area: &[u8], rng: &mut Rng) -> usize {
    rng.place(0, get(area, COUNT).clamp(1, 16) as usize - 1)
}

/// Its number of runs, at most 64.
fn runs_of(area: &[u8], i: usize) -> usize {
    get(area, run_count(i)).min(64) as usize
}

/// A transfer's place and one of its runs'.
fn run(area: &[u8], rng: &mut Rng) -> (usize, usize) {
    let i = transfer(area, rng);
    (i, rng.place(0, runs_of(area, i).max(1) - 1))
}

/// One or two of them.
pub fn any(area: &mut Vec<u8>, rng: &mut Rng) {
    rng.pick(ALL)(area, rng);
    if area.len() >= OCTETS && rng.one_in(4) {
        rng.pick(ALL)(area, rng);
    }
}
