//! Wrong receivers that tell of something added, or of a number received, otherwise than the paper.

use std::cell::RefCell;
use std::collections::BTreeMap;

use paper::table::Transfer;

use crate::answer::{Listed, Recorded};
use crate::receiver::wrong::Wrong::{self, *};

thread_local! {
    /// By Id, the octets that came again: `RepeatsListed` keeps them beside the area.
    static REPEATED: RefCell<BTreeMap<u64, u64>> = const { RefCell::new(BTreeMap::new()) };
}

pub fn forget_repeats(id: u64) {
    REPEATED.with_borrow_mut(|repeated| repeated.remove(&id));
}

pub fn forget_all_repeats() {
    REPEATED.with_borrow_mut(BTreeMap::clear);
}

impl Wrong {
    /// A transfer as it is listed.
    pub fn listed(self, right: Listed) -> Listed {
        let received = match self {
            RepeatsListed if right.number == 0 => {
                right.received + REPEATED.with_borrow(|repeated| repeated.get(&right.id).copied().unwrap_or(0))
            }
            EdgeListed => right.edge,
            LastOctetsUncounted => right.received - right.runs,
            _ => right.received,
        };
        Listed { received, ..right }
    }

    /// What recording a packet to an open transfer answers; `transfer` is as it was before.
    pub fn told(self, id: u64, packet: (u64, u64), transfer: &Transfer, right: Recorded) -> Recorded {
        let (start, end) = packet;
        let received = &transfer.received;
        if right.number != 0 {
            let would_add = self == AddsOnRefusal && received.adds(start, end);
            return Recorded { adds: would_add.into(), ..right };
        }
        let common = |run: (u64, u64)| run.1.min(end).saturating_sub(run.0.max(start));
        let adds = match self {
            RepeatAdds => true,
            AddsByOctets => end - start <= transfer.length - received.count(),
            OverlapAddsNothing => !received.runs().any(|run| common(run) > 0),
            TouchingAddsNothing => right.adds == 1 && !received.runs().any(|run| run.0 == end || start == run.1),
            AddsByEdge => right.edge != received.edge(),
            AddsByRuns => right.absorbed != 1,
            _ => right.adds == 1,
        };
        if self == RepeatsListed {
            let again: u64 = received.runs().map(common).sum();
            REPEATED.with_borrow_mut(|repeated| *repeated.entry(id).or_default() += again);
        }
        Recorded { adds: adds.into(), ..right }
    }
}
