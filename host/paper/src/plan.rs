//! Document 02, "Tell the sending house what to send again": a planner and a check, each sentence by itself.

use crate::layout::STATUS;
use crate::read::{read_types, Hole, Packet};
use crate::refusal::Refusal;

/// "each an offset and a length". A list of them lies in memory as one of C does, so that it can be lent to the archive too.
#[repr(C)]
#[derive(Clone, Copy, Debug, Default, PartialEq, Eq)]
pub struct Piece {
    pub offset: u64,
    pub length: u64,
}

impl Piece {
    /// The first offset after it, which may be 2^64 or more: the check "takes any list, whoever made it".
    fn end(self) -> u128 {
        u128::from(self.offset) + u128::from(self.length)
    }
}

/// "a largest payload m (1 to 65,000, else refusal 21)"
pub const PAYLOADS: std::ops::RangeInclusive<u64> = 1..=65_000;

/// The listed holes of a STATUS. "Both refuse in this order: the reader's (4 for any other type), 11 for a failure STATUS, 21".
fn listed_holes(status: &[u8], largest: u64) -> Result<Vec<Hole>, Refusal> {
    let holes = match read_types(status, &[STATUS])? {
        Packet::Success(success) => success.holes,
        _ => return Err(Refusal::HoleList),
    };
    match PAYLOADS.contains(&largest) {
        true => Ok(holes),
        false => Err(Refusal::Field),
    }
}

/// "The planner cuts each hole from its low end, all pieces m long but perhaps the hole's last."
fn cut(hole: Hole, largest: u64) -> impl Iterator<Item = Piece> {
    let low_ends = (hole.start..hole.end).step_by(largest as usize);
    low_ends.map(move |offset| Piece { offset, length: largest.min(hole.end - offset) })
}

/// Hands back a plan in the lent records, and how many it has. "It refuses with 20 exactly when it needs more records than were
/// lent; records past the plan stay."
pub fn plan(status: &[u8], largest: u64, lent: &mut [Piece]) -> Result<u64, Refusal> {
    let holes = listed_holes(status, largest)?;
    let one_too_many = lent.len() + 1;
    let pieces: Vec<Piece> = holes.into_iter().flat_map(|hole| cut(hole, largest)).take(one_too_many).collect();
    if pieces.len() > lent.len() {
        return Err(Refusal::Buffer);
    }
    lent[..pieces.len()].copy_from_slice(&pieces);
    Ok(pieces.len() as u64)
}

/// How many records the planner needs: of each hole one for every m octets, and one for what is left.
pub fn plan_count(status: &[u8], largest: u64) -> Result<u64, Refusal> {
    let holes = listed_holes(status, largest)?;
    Ok(holes.iter().map(|hole| (hole.end - hole.start).div_ceil(largest)).sum())
}

/// "Beside it stands a small check that takes any list, whoever made it, and passes it exactly when" all five hold.
pub fn check_plan(status: &[u8], largest: u64, pieces: &[Piece]) -> Result<bool, Refusal> {
    Ok(conditions(status, largest, pieces)?.all())
}

/// The same, condition by condition.
pub fn conditions(status: &[u8], largest: u64, pieces: &[Piece]) -> Result<Conditions, Refusal> {
    let holes = listed_holes(status, largest)?;
    Ok(Conditions::of(pieces, &holes, largest))
}

/// What makes a list a plan. Each is judged by itself, whether the others hold or not.
#[derive(Clone, Copy, Debug, PartialEq, Eq)]
pub struct Conditions {
    /// "the pieces rise"
    pub rise: bool,
    /// "none is empty or longer than m"
    pub sizes: bool,
    /// "each lies in one listed hole"
    pub inside: bool,
    /// "no two overlap"
    pub apart: bool,
    /// "together they cover every listed hole"
    pub cover: bool,
}

impl Conditions {
    /// The holes are those of a STATUS that was read, so they rise and don't touch.
    pub fn of(pieces: &[Piece], holes: &[Hole], largest: u64) -> Conditions {
        Conditions {
            rise: rise(pieces),
            sizes: sizes(pieces, largest),
            inside: inside(pieces, holes),
            apart: apart(pieces),
            cover: cover(pieces, holes),
        }
    }

    /// In the order of the sentence.
    pub fn each(self) -> [bool; 5] {
        [self.rise, self.sizes, self.inside, self.apart, self.cover]
    }

    pub fn all(self) -> bool {
        self.each() == [true; 5]
    }
}

/// "the pieces rise"
fn rise(pieces: &[Piece]) -> bool {
    pieces.windows(2).all(|two| two[0].offset < two[1].offset)
}

/// "none is empty or longer than m"
fn sizes(pieces: &[Piece], largest: u64) -> bool {
    pieces.iter().all(|piece| (1..=largest).contains(&piece.length))
}

/// "each lies in one listed hole": in the last that starts at its offset or before it, if in any.
fn inside(pieces: &[Piece], holes: &[Hole]) -> bool {
    pieces.iter().all(|piece| {
        let from_here = holes.partition_point(|hole| hole.start <= piece.offset);
        from_here > 0 && piece.end() <= u128::from(holes[from_here - 1].end)
    })
}

/// "no two overlap": none has an octet of another. In rising order it is enough to look at neighbours; an empty piece has no
/// octet.
fn apart(pieces: &[Piece]) -> bool {
    rising(pieces).windows(2).all(|two| two[0].end() <= u128::from(two[1].offset))
}

/// "together they cover every listed hole": each hole lies in a stretch of octets that the pieces have without a gap.
fn cover(pieces: &[Piece], holes: &[Hole]) -> bool {
    let mut stretches: Vec<(u128, u128)> = vec![];
    for piece in rising(pieces) {
        match stretches.last_mut() {
            Some((_, end)) if u128::from(piece.offset) <= *end => *end = piece.end().max(*end),
            _ => stretches.push((piece.offset.into(), piece.end())),
        }
    }
    holes.iter().all(|hole| {
        let from_here = stretches.partition_point(|&(start, _)| start <= hole.start.into());
        from_here > 0 && u128::from(hole.end) <= stretches[from_here - 1].1
    })
}

/// The pieces that have octets, by their offsets.
fn rising(pieces: &[Piece]) -> Vec<Piece> {
    let mut rising: Vec<Piece> = pieces.iter().copied().filter(|piece| piece.length > 0).collect();
    rising.sort_by_key(|piece| piece.offset);
    rising
}
