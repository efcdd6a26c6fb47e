//! Mergings that are wrong in one way each, made of the paper's answers. The comparison must find every one; those of `OF_LAWS` are
//! also found by the laws alone.

use paper::area::{store, take_up};
use paper::received::Received;
use paper::table::{Table, Transfer, MAX_RUNS};

use crate::answer::Merged;
use crate::codec::Paper;
use crate::merge::wrong::Wrong::*;
use crate::merge::Merger;
use crate::receiver::words::{self, Entry};

wrong! {
    // The joined set.
    /// What both received, for what either did.
    Intersection,
    /// What the second received alone.
    SecondAlone,
    /// Nothing is merged where nothing of the second overlaps the first.
    OverlapNeeded,
    /// Touching runs are kept apart.
    TouchingApart,
    /// The second's runs above the first's edge are lost.
    AboveEdgeLost,
    /// The second's last run is lost.
    LastRunLost,
    /// A run that covers several of the other's is joined with the first of them alone.
    CoversOne,
    /// Holes of one octet are filled.
    SmallHolesFilled,

    // Room.
    /// Runs are added one by one, and refused at the first that has no room.
    RoomOnTheWay,
    /// The runs of both are counted before they are joined.
    RoomBeforeJoining,
    /// 65 runs are stored.
    SixtyFiveRuns,
    /// The 64th run is refused.
    SixtyThreeRuns,
    /// The first 64 of more runs are stored, and accepted.
    FirstSixtyFour,
    /// The same, and 16.
    StoredOnRefusal,

    // What stays.
    /// The second gets the joined set too.
    SecondChanged,
    /// The second's unused words are cleared.
    SecondTidied,
    /// The second's timestamp is taken where it has one.
    SecondStamp,
    /// The second's timestamp is taken where the first has none.
    StampWhereNone,
    /// The first's timestamp is forgotten.
    StampForgotten,
    /// Every Id that is open in both is merged.
    AllMerged,
    /// The next transfer loses its last run.
    NeighbourChanged,
    /// Words that are no longer used are cleared.
    UnusedCleared,
    /// An octet past the layout is written.
    PastLayout,

    // The answer.
    /// The edge is the first's from before.
    EdgeBefore,
    /// The edge is the second's.
    EdgeOfSecond,
    /// Complete where the first was.
    CompleteBefore,
    /// Complete where both together have as many octets as the file.
    CompleteBySum,
    /// Complete where there are no holes.
    CompleteWithoutHoles,
    /// A refusal tells the edge.
    EdgeOnRefusal,

    // Refusals.
    /// The lengths aren't compared.
    LengthsNotCompared,
    /// The widths aren't compared.
    WidthsNotCompared,
    /// 64 and 128 bits are one width.
    WidthsAsOne,
    /// A second that is longer is taken.
    LongerTaken,
    /// 18 before 13.
    LengthBeforeWidth,
    /// 16 before 18.
    RunsBeforeLength,
    /// 13 before 12: of the transfer next to the one that isn't open.
    NextForMissing,
    /// An Id that isn't open in the second is taken as an empty one.
    MissingIsEmpty,
    /// An Id that isn't open in the first is opened.
    MissingIsOpened,
    /// The Id is taken modulo 2^32.
    IdWraps,
    /// 12 before 22, of the second.
    IdBeforeSecond,
    /// Of the second only the transfer itself is judged.
    OthersNotJudged,
    /// A second that is too short is filled up with zeros.
    ShortFilled,
    /// Other widths are 18, as in opening.
    WidthAsOther,
    /// Lengths that differ are 14.
    LengthAsEnd,
    /// The code of 18 is 1.
    OtherCode,
}

/// Those that the laws find without a second receiver.
pub const OF_LAWS: &[Wrong] = &[
    Intersection,
    SecondAlone,
    OverlapNeeded,
    TouchingApart,
    AboveEdgeLost,
    LastRunLost,
    SmallHolesFilled,
    RoomOnTheWay,
    SixtyFiveRuns,
    FirstSixtyFour,
    EdgeBefore,
    EdgeOfSecond,
    CompleteBefore,
    LongerTaken,
    MissingIsEmpty,
    MissingIsOpened,
    UnusedCleared,
];

fn refused(number: u64, code: u64) -> Merged {
    Merged { number, code, ..Merged::default() }
}

fn answer(transfer: &Transfer) -> Merged {
    let state = transfer.state();
    Merged { edge: state.edge, complete: state.complete.into(), ..Merged::default() }
}

fn received(runs: impl IntoIterator<Item = (u64, u64)>) -> Received {
    let mut received = Received::default();
    runs.into_iter().for_each(|(start, stop)| received.add(start, stop));
    received
}

impl Merger for Wrong {
    fn merge(&self, first: &mut [u8], second: &mut [u8], id: u64) -> Merged {
        let id = if *self == IdWraps { id % (1 << 32) } else { id };
        let before = first.to_vec();
        let (table, other) = (take_up(first), self.second(second, id));
        let (Ok(table), Some(other)) = (table, other) else {
            let missing = take_up(&before).is_ok_and(|table| !table.transfers.contains_key(&id));
            return match (self, missing) {
                (IdBeforeSecond, true) => refused(12, 6),
                _ => Paper.merge(first, second, id),
            };
        };
        match self.refuses(&table, &other, id) {
            Some(refusal) => return refusal,
            None if self.takes(&table, &other, id) => {}
            None => return self.refused_otherwise(first, second, &table, &other, id),
        }
        self.join(first, second, table, other, id, &before)
    }
}

impl Wrong {
    /// The second's table as far as this one judges it.
    fn second(self, second: &[u8], id: u64) -> Option<Table> {
        let mut area = second.to_vec();
        match self {
            ShortFilled => area.resize(second.len().max(words::OCTETS), 0),
            OthersNotJudged if area.len() >= words::OCTETS => {
                let own: Vec<Entry> = words::entries(&area)?.into_iter().filter(|entry| entry.id == id).collect();
                words::store(&own, &mut area);
            }
            _ => {}
        }
        take_up(&area).ok()
    }

    /// A refusal of its own.
    fn refuses(self, table: &Table, other: &Table, id: u64) -> Option<Merged> {
        let (one, two) = (table.transfers.get(&id), other.transfers.get(&id));
        if let (NextForMissing, None, Some(two)) = (self, one, two) {
            let next = table.transfers.range(id..).next();
            return next.filter(|(_, next)| next.width != two.width).map(|_| refused(13, 9));
        }
        let (one, two) = (one?, two?);
        let (width, length) = (one.width == two.width, one.length == two.length);
        let joined = one.received.with(&two.received).run_count();
        match self {
            LengthBeforeWidth if !length => Some(refused(18, 9)),
            RunsBeforeLength if width && !length && joined > MAX_RUNS => Some(refused(16, 3)),
            WidthAsOther if !width => Some(refused(18, 9)),
            LengthAsEnd if width && !length => Some(refused(14, 9)),
            OtherCode if width && !length => Some(refused(18, 1)),
            _ => None,
        }
    }

    /// Whether this one goes on to join them.
    fn takes(self, table: &Table, other: &Table, id: u64) -> bool {
        let (one, two) = (table.transfers.get(&id), other.transfers.get(&id));
        let (Some(one), Some(two)) = (one, two) else {
            return match self {
                MissingIsEmpty => one.is_some(),
                MissingIsOpened => two.is_some() && table.transfers.len() < 16,
                _ => false,
            };
        };
        let width = match self {
            WidthsNotCompared => true,
            WidthsAsOne => one.width.min(8) == two.width.min(8),
            _ => one.width == two.width,
        };
        let length = match self {
            LengthsNotCompared => true,
            LongerTaken => one.length <= two.length,
            _ => one.length == two.length,
        };
        width && length && self.has_room(&one.received, &two.received)
    }

    fn has_room(self, one: &Received, two: &Received) -> bool {
        let joined = one.with(two).run_count();
        match self {
            RoomOnTheWay => {
                let mut on_the_way = one.clone();
                two.runs().all(|(start, stop)| {
                    on_the_way.add(start, stop);
                    on_the_way.run_count() <= MAX_RUNS
                })
            }
            RoomBeforeJoining => one.run_count() + two.run_count() <= MAX_RUNS,
            SixtyFiveRuns => joined <= MAX_RUNS + 1,
            SixtyThreeRuns => joined < MAX_RUNS,
            FirstSixtyFour => true,
            _ => joined <= MAX_RUNS,
        }
    }

    /// What the rules refuse, or what this one alone does.
    fn refused_otherwise(self, first: &mut [u8], second: &mut [u8], table: &Table, other: &Table, id: u64) -> Merged {
        let right = Paper.merge(&mut first.to_vec(), second, id);
        match self {
            _ if right.number == 0 => refused(16, 3),
            StoredOnRefusal if right.number == 16 => {
                let mut table = table.clone();
                let own = table.transfers.get_mut(&id).expect("it is open");
                own.received = received(own.received.with(&other.transfers[&id].received).runs().take(MAX_RUNS));
                store(&table, first);
                right
            }
            EdgeOnRefusal if right.number == 16 => Merged { edge: table.transfers[&id].received.edge(), ..right },
            _ => right,
        }
    }

    fn join(
        self,
        first: &mut [u8],
        second: &mut [u8],
        mut table: Table,
        other: Table,
        id: u64,
        before: &[u8],
    ) -> Merged {
        let empty = |like: &Transfer| Transfer::new(like.width, like.length);
        let two = other.transfers.get(&id).cloned().unwrap_or_else(|| empty(&table.transfers[&id]));
        let one = table.transfers.entry(id).or_insert_with(|| empty(&two));
        let old = one.clone();
        one.received = self.joined(&old.received, &two.received);
        match self {
            SecondStamp => one.timestamp = two.timestamp.or(one.timestamp),
            StampWhereNone => one.timestamp = one.timestamp.or(two.timestamp),
            StampForgotten => one.timestamp = None,
            _ => {}
        }
        let right = answer(one);
        let joined = one.clone();
        self.others(&mut table, &other, id);
        self.stored(first, &table, before);
        self.apart(first, &old.received, &two.received, id);
        match self {
            SecondChanged => {
                let mut other = other;
                other.transfers.insert(id, Transfer { received: joined.received.clone(), ..two.clone() });
                store(&other, second);
            }
            SecondTidied => {
                second[..words::OCTETS].fill(0);
                store(&other, second);
            }
            _ => {}
        }
        self.told(right, &old, &two, &joined)
    }

    fn joined(self, one: &Received, two: &Received) -> Received {
        let either = one.with(two);
        let all: Vec<_> = two.runs().collect();
        match self {
            Intersection => {
                let both = |(start, stop): (u64, u64)| {
                    two.runs().map(move |(from, to)| (start.max(from), stop.min(to))).filter(|(from, to)| from < to)
                };
                received(one.runs().flat_map(both))
            }
            SecondAlone => two.clone(),
            OverlapNeeded => {
                let overlap = one.runs().any(|(start, stop)| two.runs().any(|(from, to)| start < to && from < stop));
                if overlap {
                    either
                } else {
                    one.clone()
                }
            }
            AboveEdgeLost => one.with(&received(all.into_iter().filter(|run| run.0 <= one.edge()))),
            LastRunLost => one.with(&received(all.iter().rev().skip(1).copied())),
            CoversOne => {
                let covered = |&(start, stop): &(u64, u64)| {
                    let mut inside = one.runs().filter(move |run| start < run.0 && run.1 < stop);
                    inside.nth(1).map_or((start, stop), |second| (start, second.0 - 1))
                };
                let cut = all.iter().map(covered).filter(|run| run.0 < run.1);
                one.with(&received(cut))
            }
            SmallHolesFilled => {
                let small = either.holes().into_iter().filter(|hole| hole.1 - hole.0 == 1);
                either.with(&received(small))
            }
            FirstSixtyFour => received(either.runs().take(MAX_RUNS)),
            _ => either,
        }
    }

    /// What becomes of other transfers.
    fn others(self, table: &mut Table, other: &Table, id: u64) {
        match self {
            AllMerged => {
                let ids: Vec<u64> = table.transfers.keys().copied().filter(|&each| each != id).collect();
                for each in ids {
                    // A refusal leaves it as it is.
                    let _ = table.merge(other, each);
                }
            }
            NeighbourChanged => {
                if let Some((_, next)) = table.transfers.range_mut(id + 1..).next() {
                    let runs: Vec<_> = next.received.runs().collect();
                    next.received = received(runs.iter().rev().skip(1).copied());
                }
            }
            _ => {}
        }
    }

    /// Stores the table, with 65 runs where that is what it has.
    fn stored(self, first: &mut [u8], table: &Table, before: &[u8]) {
        store(table, first);
        match self {
            UnusedCleared => {
                // Places that were used before and aren't now.
                let (Some(old), Some(new)) = (words::entries(before), words::entries(first)) else { return };
                for (i, (old, new)) in old.iter().zip(&new).enumerate() {
                    for j in new.runs.len()..old.runs.len() {
                        words::set(first, words::start(i, j), 0);
                        words::set(first, words::stop(i, j), 0);
                    }
                    // And the next place of the transfers with runs, so that merging with itself shows it too.
                    if old.runs.len() == new.runs.len() && new.runs.len() < MAX_RUNS {
                        words::set(first, words::start(i, new.runs.len()), 0);
                    }
                }
            }
            PastLayout if first.len() > words::OCTETS => first[words::OCTETS] ^= 1,
            _ => {}
        }
    }

    /// Runs that touch, each for itself.
    fn apart(self, first: &mut [u8], one: &Received, two: &Received, id: u64) {
        if self != TouchingApart {
            return;
        }
        // The joined runs, cut again where a run of the one ends and one of the other starts.
        let ends: Vec<u64> = one.runs().chain(two.runs()).map(|run| run.1).collect();
        let starts: Vec<u64> = one.runs().chain(two.runs()).map(|run| run.0).collect();
        let inside = |at: u64, runs: &Received| runs.runs().any(|(start, stop)| start < at && at < stop);
        let mut cut = vec![];
        for (start, stop) in one.with(two).runs() {
            let mut from = start;
            let mut touching: Vec<u64> = ends.iter().copied().filter(|end| starts.contains(end)).collect();
            touching.sort();
            touching.dedup();
            for at in touching {
                if from < at && at < stop && !inside(at, one) && !inside(at, two) {
                    cut.push((from, at));
                    from = at;
                }
            }
            cut.push((from, stop));
        }
        let Some(mut entries) = words::entries(first) else { return };
        let Some(entry) = entries.iter_mut().find(|entry| entry.id == id) else { return };
        cut.truncate(MAX_RUNS);
        entry.runs = cut;
        words::store(&entries, first);
    }

    fn told(self, right: Merged, old: &Transfer, two: &Transfer, joined: &Transfer) -> Merged {
        let complete = |complete: bool| Merged { complete: complete.into(), ..right };
        match self {
            EdgeBefore => Merged { edge: old.received.edge(), ..right },
            EdgeOfSecond => Merged { edge: two.received.edge(), ..right },
            CompleteBefore => complete(old.state().complete),
            CompleteBySum => {
                let sum = u128::from(old.received.count()) + u128::from(two.received.count());
                complete(sum >= u128::from(old.length))
            }
            CompleteWithoutHoles => complete(joined.received.holes().is_empty()),
            _ => right,
        }
    }
}
