//! Planners and checks that are wrong in one way each, made of the paper's answers. The comparison must find every one.

use paper::plan::{Conditions, PAYLOADS};
use paper::read::{self, Hole};

use crate::answer::{Checked, Piece, Planned};
use crate::codec::Paper;
use crate::plan::wrong::Wrong::*;
use crate::plan::Planner;

wrong! {
    // The plan.
    /// Pieces of m + 1.
    OneLonger,
    /// The last piece of a hole is short by one.
    LastShort,
    /// A hole's end is its last octet.
    EndInside,
    /// Holes are cut from their high end.
    HighEnd,
    /// A hole is cut into pieces as equal as can be.
    EqualPieces,
    /// A hole of whole pieces gets an empty piece more.
    EmptyLast,
    /// The last hole is forgotten.
    LastHoleForgotten,
    /// A second hole is planned as one with the first.
    HolesAsOne,
    /// From Progress to In-Response-To is a hole.
    WholeFile,
    /// A record past the plan is cleared.
    PastCleared,
    /// A plan that is refused with 20 wrote what there was room for.
    RefusedWrote,
    /// 20 where the records are just enough.
    JustEnoughRefused,
    /// With too few records, the plan of so many.
    PlansWhatFits,
    /// 20 before 21.
    RecordsBeforePayload,
    /// No holes are 19.
    NoHolesRefused,

    // The count.
    /// The count is rounded down.
    CountDown,
    /// A hole of whole pieces counts one more.
    CountOneMore,
    /// The count is of 32 bits.
    CountWraps,
    /// The count is the holes'.
    CountsHoles,
    /// The count has no 21.
    CountAnyPayload,

    // Both.
    /// 21 before 11 for a failure STATUS.
    PayloadBeforeFailure,
    /// 21 before the reader's refusals.
    PayloadBeforeReader,
    /// A failure STATUS has no holes.
    FailureTaken,
    /// 65,001 is taken.
    LongerPayload,
    /// 65,000 is refused.
    ShorterPayload,
    /// A list that isn't complete is 11.
    PartialRefused,
    /// A type that isn't STATUS is 11.
    TypeAsHoles,
    /// Refusals leave a count or a verdict.
    RefusalWithField,

    // The check.
    /// The pieces need not rise.
    OrderIgnored,
    /// The order isn't looked at where pieces lie in two holes.
    OrderOfHolesIgnored,
    /// Empty pieces are taken.
    EmptyTaken,
    /// An empty piece is taken as the last of a list.
    LastEmptyTaken,
    /// Pieces of m + 1 are taken.
    OneLongerTaken,
    /// Pieces of any length are taken.
    AnyLengthTaken,
    /// Pieces in no hole are taken.
    OutsideTaken,
    /// A piece may lie in two holes and what is between them.
    TwoHolesTaken,
    /// A piece may end one octet past its hole.
    PastEndTaken,
    /// Pieces may overlap.
    OverlapTaken,
    /// Pieces must not touch.
    TouchingRefused,
    /// Holes need not be covered.
    CoverIgnored,
    /// The last hole need not be covered.
    LastHoleIgnored,
    /// The last octet of a hole need not be covered.
    LastOctetIgnored,
    /// The pieces' lengths must add up to the holes', and no more.
    LengthsAddUp,
    /// The first and the last octet of each hole must be covered.
    EndsCovered,
    /// Offset and length are added modulo 2^64.
    SumWraps,
    /// Only the planner's own plan passes.
    OwnPlanOnly,
    /// Records past the planner's plan are not looked at.
    PastIgnored,
    /// The empty list passes.
    EmptyListPasses,
    /// The empty list doesn't pass.
    EmptyListFails,
    /// A list that doesn't pass is refused.
    BadListRefused,
    /// The verdict is the other.
    OtherVerdict,
}

/// The listed holes, Progress and In-Response-To of a success STATUS.
fn success(status: &[u8]) -> Option<read::Success> {
    match read::read(status) {
        Ok(read::Packet::Success(success)) => Some(success),
        _ => None,
    }
}

fn octets(holes: &[Hole]) -> u128 {
    holes.iter().map(|hole| u128::from(hole.end - hole.start)).sum()
}

/// The first pieces of a plan, no more than `most`, by a rule for one hole's next piece.
fn pieces(holes: &[Hole], most: usize, next: impl Fn(&Hole, u64) -> u64) -> Vec<Piece> {
    let mut list = vec![];
    for hole in holes {
        let mut offset = hole.start;
        while offset < hole.end && list.len() < most {
            let length = next(hole, offset).clamp(1, hole.end - offset);
            list.push(Piece { offset, length });
            offset += length;
        }
    }
    list
}

impl Wrong {
    /// Both functions that plan, and the check: refused otherwise, or not at all. The number, and the code.
    fn refusal(self, status: &[u8], largest: u64, number: u64) -> Option<(u64, u64)> {
        let bad_payload = !PAYLOADS.contains(&largest);
        let kind = status.first().map(|first| first & 0x3F);
        let partial = status.len() >= 8 && status[1] & 2 != 0;
        match self {
            PayloadBeforeFailure if number == 11 && bad_payload && status[3] != 0 => Some((21, 0)),
            PayloadBeforeReader if number != 0 && bad_payload => Some((21, 0)),
            ShorterPayload if number == 0 && largest == 65_000 => Some((21, 0)),
            PartialRefused if number == 0 && partial => Some((11, 0)),
            TypeAsHoles if number == 4 && kind != Some(0) => Some((11, 0)),
            _ => None,
        }
    }

    /// Taken where it should be refused: by this largest payload, or as a STATUS without holes.
    fn taken(self, status: &[u8], largest: u64, number: u64) -> Option<u64> {
        match self {
            LongerPayload if number == 21 && largest == 65_001 => Some(65_000),
            FailureTaken if number == 11 && status[3] != 0 => Some(1),
            _ => None,
        }
    }

    /// The list that the wrong planner makes, no more than `most` pieces of it; none where it plans as the right one.
    fn other_plan(self, success: &read::Success, largest: u64, most: usize) -> Option<Vec<Piece>> {
        let holes = &success.holes;
        let cut = |holes: &[Hole]| pieces(holes, most, |_, _| largest);
        match self {
            OneLonger => Some(pieces(holes, most, |_, _| largest + 1)),
            EndInside => {
                let longer = |hole: &Hole| Hole { end: hole.end.saturating_add(1), ..*hole };
                Some(cut(&holes.iter().map(longer).collect::<Vec<_>>()))
            }
            HighEnd => Some(pieces(holes, most, |hole, offset| match (hole.end - offset) % largest {
                0 => largest,
                rest => rest,
            })),
            EqualPieces => Some(pieces(holes, most, |hole, offset| {
                let left = hole.end - offset;
                left.div_ceil(left.div_ceil(largest))
            })),
            LastHoleForgotten => Some(cut(&holes[..holes.len().saturating_sub(1)])),
            HolesAsOne if holes.len() >= 2 => {
                let both = Hole { start: holes[0].start, end: holes[1].end };
                Some(cut(&[&[both], &holes[2..]].concat()))
            }
            WholeFile if success.progress < success.in_response_to => {
                Some(cut(&[Hole { start: success.progress, end: success.in_response_to }]))
            }
            LastShort => {
                let mut list = cut(holes);
                list.iter_mut().filter(|piece| piece.length < largest).for_each(|piece| piece.length -= 1);
                Some(list)
            }
            EmptyLast => {
                let list = cut(holes);
                let empty = |piece: &Piece| {
                    holes.iter().any(|hole| piece.length == largest && piece.offset + largest == hole.end)
                };
                let after = |piece: &Piece| Piece { offset: piece.offset + piece.length, length: 0 };
                Some(
                    list.iter()
                        .flat_map(|piece| [*piece].into_iter().chain(empty(piece).then(|| after(piece))))
                        .collect(),
                )
            }
            _ => None,
        }
    }

    /// The verdict from the conditions, and from what else a wrong check looks at.
    fn verdict(self, list: &[Piece], holes: &[Hole], largest: u64) -> bool {
        let right = Conditions::of(list, holes, largest);
        let sum: u128 = list.iter().map(|piece| u128::from(piece.length)).sum();
        let has =
            |offset: u64| list.iter().any(|piece| offset.checked_sub(piece.offset).is_some_and(|at| at < piece.length));
        let with = |holes: &[Hole], list: &[Piece]| Conditions::of(list, holes, largest).all();
        match self {
            OrderIgnored => Conditions { rise: true, ..right }.all(),
            OrderOfHolesIgnored => {
                let hole = |piece: &Piece| holes.partition_point(|hole| hole.start <= piece.offset);
                let apart = list.windows(2).all(|two| two[0].offset < two[1].offset || hole(&two[0]) != hole(&two[1]));
                Conditions { rise: apart, ..right }.all()
            }
            EmptyTaken => with(holes, &list.iter().copied().filter(|piece| piece.length > 0).collect::<Vec<_>>()),
            LastEmptyTaken => match list.split_last() {
                Some((last, before)) if last.length == 0 => with(holes, before),
                _ => right.all(),
            },
            OneLongerTaken => Conditions::of(list, holes, largest + 1).all(),
            AnyLengthTaken => Conditions::of(list, holes, u64::MAX).all(),
            OutsideTaken => Conditions { inside: true, ..right }.all(),
            TwoHolesTaken => {
                let starts =
                    |piece: &Piece| holes.iter().any(|hole| hole.start <= piece.offset && piece.offset < hole.end);
                let ends = |piece: &Piece| {
                    let end = u128::from(piece.offset) + u128::from(piece.length);
                    holes.iter().any(|hole| u128::from(hole.start) < end && end <= u128::from(hole.end))
                };
                Conditions { inside: list.iter().all(|piece| starts(piece) && ends(piece)), ..right }.all()
            }
            PastEndTaken => {
                let longer: Vec<_> =
                    holes.iter().map(|hole| Hole { end: hole.end.saturating_add(1), ..*hole }).collect();
                Conditions { inside: Conditions::of(list, &longer, largest).inside, ..right }.all()
            }
            OverlapTaken => Conditions { apart: true, ..right }.all(),
            TouchingRefused => right.all() && list.windows(2).all(|two| two[0].offset + two[0].length < two[1].offset),
            CoverIgnored => Conditions { cover: true, ..right }.all(),
            LastHoleIgnored => {
                let cover = Conditions::of(list, &holes[..holes.len().saturating_sub(1)], largest).cover;
                Conditions { cover, ..right }.all()
            }
            LastOctetIgnored => {
                let shorter: Vec<_> = holes.iter().map(|hole| Hole { end: hole.end - 1, ..*hole }).collect();
                Conditions { cover: Conditions::of(list, &shorter, largest).cover, ..right }.all()
            }
            LengthsAddUp => sum == octets(holes),
            EndsCovered => {
                let cover = holes.iter().all(|hole| has(hole.start) && has(hole.end - 1));
                Conditions { cover, ..right }.all()
            }
            SumWraps => {
                let mut next = holes.iter().map(|hole| hole.start).collect::<Vec<_>>();
                list.iter().all(|piece| {
                    let end = piece.offset.wrapping_add(piece.length);
                    let at = (0..holes.len()).find(|&at| next[at] < holes[at].end);
                    let fits = at.is_some_and(|at| next[at] == piece.offset && end <= holes[at].end);
                    at.into_iter().for_each(|at| next[at] = end);
                    fits
                }) && holes.iter().zip(next).all(|(hole, next)| hole.end == next)
            }
            OwnPlanOnly => list == pieces(holes, list.len() + 1, |_, _| largest),
            PastIgnored => {
                let plan = pieces(holes, list.len() + 1, |_, _| largest);
                right.all() || list.starts_with(&plan)
            }
            EmptyListPasses => right.all() || list.is_empty(),
            EmptyListFails => right.all() && !list.is_empty(),
            OtherVerdict => !right.all(),
            _ => right.all(),
        }
    }
}

impl Planner for Wrong {
    fn plan(&self, status: &[u8], largest: u64, lent: &mut [Piece]) -> Planned {
        let before = lent.to_vec();
        let right = Paper.plan(status, largest, lent);
        let refused = |number, code| Planned { number, code, count: 0 };
        if let Some((number, code)) = self.refusal(status, largest, right.number) {
            lent.copy_from_slice(&before);
            return refused(number, code);
        }
        if let Some(other) = self.taken(status, largest, right.number) {
            return match self {
                FailureTaken => refused(0, 0),
                _ => Paper.plan(status, other, lent),
            };
        }
        let Some(success) = success(status).filter(|_| matches!(right.number, 0 | 20)) else {
            return match self {
                RecordsBeforePayload if right.number == 21 && lent.is_empty() => refused(20, 0),
                RefusalWithField => Planned { count: 1, ..right },
                _ => right,
            };
        };
        match (self, right.number) {
            (PastCleared, 0) if right.count < lent.len() as u64 => lent[right.count as usize] = Piece::default(),
            (RefusedWrote | PlansWhatFits, 20) => {
                lent.copy_from_slice(&pieces(&success.holes, lent.len(), |_, _| largest));
                let fits = Planned { count: lent.len() as u64, ..Planned::default() };
                return if *self == PlansWhatFits { fits } else { right };
            }
            (JustEnoughRefused, 0) if right.count == lent.len() as u64 && right.count > 0 => {
                lent.copy_from_slice(&before);
                return refused(20, 0);
            }
            (NoHolesRefused, 0) if success.holes.is_empty() => return refused(19, 0),
            _ => {}
        }
        let Some(list) = self.other_plan(&success, largest, lent.len() + 1) else { return right };
        lent.copy_from_slice(&before);
        if list.len() > lent.len() {
            return refused(20, 0);
        }
        lent[..list.len()].copy_from_slice(&list);
        Planned { count: list.len() as u64, ..Planned::default() }
    }

    fn plan_count(&self, status: &[u8], largest: u64) -> Planned {
        let right = Paper.plan_count(status, largest);
        if let Some((number, code)) = self.refusal(status, largest, right.number) {
            return Planned { number, code, count: 0 };
        }
        if let Some(other) = self.taken(status, largest, right.number) {
            return match self {
                FailureTaken => Planned::default(),
                _ => Paper.plan_count(status, other),
            };
        }
        let holes = success(status).map_or(vec![], |success| success.holes);
        let lengths = || holes.iter().map(|hole| hole.end - hole.start);
        match self {
            CountDown if right.number == 0 => {
                Planned { count: lengths().map(|length| length / largest).sum(), ..right }
            }
            CountOneMore if right.number == 0 => {
                let count = lengths().fold(0, |sum: u64, length| sum.wrapping_add(length / largest + 1));
                Planned { count, ..right }
            }
            CountWraps => Planned { count: right.count & 0xFFFF_FFFF, ..right },
            CountsHoles if right.number == 0 => Planned { count: holes.len() as u64, ..right },
            CountAnyPayload if right.number == 21 && largest > 0 => {
                Planned { count: lengths().map(|length| length.div_ceil(largest)).sum(), ..Planned::default() }
            }
            RefusalWithField if right.number != 0 => Planned { count: 1, ..right },
            _ => right,
        }
    }

    fn check_plan(&self, status: &[u8], largest: u64, list: &[Piece]) -> Checked {
        let right = Paper.check_plan(status, largest, list);
        if let Some((number, code)) = self.refusal(status, largest, right.number) {
            return Checked { number, code, passes: 0 };
        }
        if let Some(other) = self.taken(status, largest, right.number) {
            return match self {
                FailureTaken => Checked { passes: list.is_empty().into(), ..Checked::default() },
                _ => Paper.check_plan(status, other, list),
            };
        }
        match (self, right.number) {
            (BadListRefused, 0) if right.passes == 0 => Checked { number: 11, ..Checked::default() },
            (RefusalWithField, 1..) => Checked { passes: 1, ..right },
            (_, 0) => {
                let holes = success(status).map_or(vec![], |success| success.holes);
                Checked { passes: self.verdict(list, &holes, largest).into(), ..right }
            }
            _ => right,
        }
    }
}
