//! Octets lent to a function, at any address, with random octets before and after them, so that a write outside shows
//! too.

use paper::plan::Piece;

use crate::rng::Rng;

/// Octets after the lent part, and at least so many before it.
const MARGIN: usize = 8;

#[derive(Clone)]
pub struct Lent {
    all: Vec<u8>,
    start: usize,
}

impl Lent {
    /// A copy of `octets`.
    pub fn copy(octets: &[u8], rng: &mut Rng) -> Lent {
        let (before, after) = (rng.any(), rng.any());
        let start = MARGIN + before as usize % 8;
        let mut all = Vec::with_capacity(start + octets.len() + MARGIN);
        all.extend(before.to_be_bytes());
        all.extend(&before.to_le_bytes()[..start - MARGIN]);
        all.extend(octets);
        all.extend(after.to_be_bytes());
        Lent { all, start }
    }

    /// Random octets.
    pub fn random(len: usize, rng: &mut Rng) -> Lent {
        let start = MARGIN + rng.place(0, 7);
        Lent { all: rng.octets(start + len + MARGIN), start }
    }

    pub fn octets(&self) -> &[u8] {
        &self.all[self.start..self.all.len() - MARGIN]
    }

    pub fn octets_mut(&mut self) -> &mut [u8] {
        let end = self.all.len() - MARGIN;
        &mut self.all[self.start..end]
    }

    /// The first place where two differ, margins included, with both octets. Places count from the lent part.
    pub fn difference(&self, other: &Lent) -> Option<(isize, u8, u8)> {
        if self.all == other.all {
            return None;
        }
        let at = self.all.iter().zip(&other.all).position(|(a, b)| a != b)?;
        Some((at as isize - self.start as isize, self.all[at], other.all[at]))
    }
}

/// Records before and after the lent ones.
const MARGIN_RECORDS: usize = 2;

/// Records lent to a function, the same way.
#[derive(Clone)]
pub struct LentPieces {
    all: Vec<Piece>,
}

impl LentPieces {
    /// A copy of `pieces`.
    pub fn copy(pieces: &[Piece], rng: &mut Rng) -> LentPieces {
        let mut lent = LentPieces::random(pieces.len(), rng);
        lent.pieces_mut().copy_from_slice(pieces);
        lent
    }

    /// Random records.
    pub fn random(count: usize, rng: &mut Rng) -> LentPieces {
        let mut piece = || Piece { offset: rng.any(), length: rng.any() };
        LentPieces { all: (0..count + 2 * MARGIN_RECORDS).map(|_| piece()).collect() }
    }

    pub fn pieces(&self) -> &[Piece] {
        &self.all[MARGIN_RECORDS..self.all.len() - MARGIN_RECORDS]
    }

    pub fn pieces_mut(&mut self) -> &mut [Piece] {
        let end = self.all.len() - MARGIN_RECORDS;
        &mut self.all[MARGIN_RECORDS..end]
    }

    /// The first place where two differ, margins included, with both records. Places count from the first lent one.
    pub fn difference(&self, other: &LentPieces) -> Option<(isize, Piece, Piece)> {
        let at = self.all.iter().zip(&other.all).position(|(a, b)| a != b)?;
        Some((at as isize - MARGIN_RECORDS as isize, self.all[at], other.all[at]))
    }
}
