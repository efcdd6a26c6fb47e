//! Lists of pieces: good ones, cut at random, and the ways in which one is bent.

use crate::answer::Piece;
use crate::rng::Rng;

/// A STATUS, what it lists and the largest payload.
pub struct Job {
    pub packet: Vec<u8>,
    pub holes: Vec<(u64, u64)>,
    pub largest: u64,
}

/// A number that is off by one, by little or by a lot, modulo 2^64.
fn near(rng: &mut Rng, number: u64) -> u64 {
    let by = rng.pick(&[1, 1, 1, 2, 3, 1 << 16, 1 << 32, 1 << 63, u64::MAX]);
    match rng.below(2) {
        0 => number.wrapping_add(by),
        _ => number.wrapping_sub(by),
    }
}

impl Job {
    /// A list that passes: each hole in pieces of any allowed length.
    pub fn good_list(&self, rng: &mut Rng) -> Vec<Piece> {
        let mut list = vec![];
        for &(start, end) in &self.holes {
            let mut offset = start;
            while offset < end {
                let most = self.largest.min(end - offset);
                // Not too many pieces of a long hole.
                let length = if rng.one_in(2) { most } else { rng.between(most.div_ceil(2), most) };
                list.push(Piece { offset, length });
                offset += length;
            }
        }
        list
    }

    /// An offset that matters: the end of a hole, or of what is counted, or any.
    fn offset(&self, rng: &mut Rng) -> u64 {
        let ends: Vec<u64> = self.holes.iter().flat_map(|&(start, end)| [start, end]).collect();
        match rng.below(8) {
            0 => rng.any(),
            1 => rng.number(64),
            _ if ends.is_empty() => rng.below(20),
            2..=4 => rng.pick(&ends),
            _ => {
                let end = rng.pick(&ends);
                near(rng, end)
            }
        }
    }

    /// A length that matters for a piece at `offset`: the largest and its neighbours, up to an end of a hole, up to 2^64 or
    /// past it, or any.
    fn length(&self, rng: &mut Rng, offset: u64) -> u64 {
        match rng.below(10) {
            0 => 0,
            1 => self.largest,
            2 => self.largest + 1,
            3 => u64::MAX - offset,
            4 => (u64::MAX - offset).wrapping_add(rng.between(1, 4)),
            5 => u64::MAX - rng.below(3),
            6 | 7 => self.offset(rng).wrapping_sub(offset),
            8 => rng.number(64),
            _ => rng.between(1, self.largest),
        }
    }

    fn piece(&self, rng: &mut Rng) -> Piece {
        let offset = self.offset(rng);
        Piece { offset, length: self.length(rng, offset) }
    }

    /// Bends the list in one way. It may be good again.
    pub fn bend(&self, list: &mut Vec<Piece>, rng: &mut Rng) {
        if list.is_empty() {
            let piece = self.piece(rng);
            return list.push(piece);
        }
        let at = rng.place(0, list.len() - 1);
        match rng.below(20) {
            0 => list[at].offset = near(rng, list[at].offset),
            1 => list[at].offset = self.offset(rng),
            2 => list[at].length = near(rng, list[at].length),
            3 => list[at].length = self.length(rng, list[at].offset),
            4 => {
                let by = rng.between(1, self.largest);
                list.iter_mut().for_each(|piece| piece.offset = piece.offset.wrapping_add(by));
            }
            5 => cut(list, at, rng),
            6 => join(list, at),
            7 => list.insert(at, list[at]),
            8 => {
                let to = rng.place(0, list.len());
                list.insert(to, list[at]);
            }
            9 => drop(list.remove(at)),
            10 => drop(list.pop()),
            11 => drop(list.remove(0)),
            12 => {
                let other = rng.place(0, list.len() - 1);
                list.swap(at, other);
            }
            13 => list.reverse(),
            14 => list.rotate_left(at),
            15 => list.push(self.piece(rng)),
            16 => list.insert(at, self.piece(rng)),
            17 => overlap(list, at, rng),
            18 => list.insert(at, Piece { length: 0, ..list[at] }),
            _ => bridge(list, at, rng),
        }
    }
}

/// One piece in two, of which one may be empty.
fn cut(list: &mut Vec<Piece>, at: usize, rng: &mut Rng) {
    let Piece { offset, length } = list[at];
    let first = rng.between(0, length);
    list[at].length = first;
    list.insert(at + 1, Piece { offset: offset.wrapping_add(first), length: length - first });
}

/// A piece and the next as one, with what lies between them.
fn join(list: &mut Vec<Piece>, at: usize) {
    if at + 1 < list.len() {
        let next = list.remove(at + 1);
        list[at].length = next.offset.wrapping_add(next.length).wrapping_sub(list[at].offset);
    }
}

/// A piece begins in the one before, or ends in the one after.
fn overlap(list: &mut [Piece], at: usize, rng: &mut Rng) {
    let by = rng.between(1, 3);
    match rng.below(2) {
        0 => {
            list[at].offset = list[at].offset.wrapping_sub(by);
            list[at].length = list[at].length.wrapping_add(by);
        }
        _ => list[at].length = list[at].length.wrapping_add(by),
    }
}

/// A piece goes on to the end of a later one, and those between are dropped: as many octets as before, or more.
fn bridge(list: &mut Vec<Piece>, at: usize, rng: &mut Rng) {
    let to = rng.place(at, list.len() - 1);
    let last = list[to];
    list[at].length = match rng.below(2) {
        0 => last.offset.wrapping_add(last.length).wrapping_sub(list[at].offset),
        _ => list[at..=to].iter().fold(0, |sum, piece| sum.wrapping_add(piece.length)),
    };
    list.drain(at + 1..=to);
}
