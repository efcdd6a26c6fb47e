//! "a set of received offsets", kept as its runs in rising order.

use std::collections::BTreeMap;

/// Runs, each by its first offset, with the first offset after it.
#[derive(Clone, Debug, Default, PartialEq, Eq)]
pub struct Received {
    runs: BTreeMap<u64, u64>,
}

impl Received {
    /// "Recording DATA adds the offsets from offset to offset + payload length - 1." `end` is the first offset after
    /// them. "touching stretches are one run": what overlaps or touches the new stretch becomes one with it.
    pub fn add(&mut self, start: u64, end: u64) {
        assert!(start < end);
        let (mut first, mut after) = (start, end);
        self.runs.retain(|&run, &mut stop| {
            let apart = stop < start || run > end;
            if !apart {
                first = first.min(run);
                after = after.max(stop);
            }
            apart
        });
        self.runs.insert(first, after);
    }

    /// "exactly the octets received by either"
    pub fn with(&self, other: &Received) -> Received {
        let mut either = self.clone();
        other.runs().for_each(|(start, stop)| either.add(start, stop));
        either
    }

    /// "how many stored runs the packet swallowed: those that overlap or touch it"
    pub fn absorbed(&self, start: u64, end: u64) -> usize {
        let overlaps = |(run, stop): (u64, u64)| run < end && start < stop;
        let touches = |(run, stop): (u64, u64)| stop == start || end == run;
        self.runs().filter(|&run| overlaps(run) || touches(run)).count()
    }

    /// Whether a stretch adds an offset that was not received. "A repeat adds nothing": it lies in a run whole, since
    /// "touching stretches are one run".
    pub fn adds(&self, start: u64, end: u64) -> bool {
        !self.runs().any(|(run, stop)| run <= start && end <= stop)
    }

    /// How many offsets were received. At most L, so the sum fits.
    pub fn count(&self) -> u64 {
        self.runs().map(|(run, stop)| stop - run).sum()
    }

    /// "A **run** is a longest unbroken stretch of received offsets"
    pub fn runs(&self) -> impl Iterator<Item = (u64, u64)> + '_ {
        self.runs.iter().map(|(&start, &stop)| (start, stop))
    }

    /// "A transfer holds at most 64."
    pub fn run_count(&self) -> usize {
        self.runs.len()
    }

    /// "The **edge** is one more than the highest received offset, 0 if there is none."
    pub fn edge(&self) -> u64 {
        self.runs.last_key_value().map_or(0, |(_, &stop)| stop)
    }

    /// "**Holes** are the longest unbroken stretches of unreceived offsets below the edge."
    pub fn holes(&self) -> Vec<(u64, u64)> {
        let mut holes = vec![];
        let mut after = 0;
        for (start, stop) in self.runs() {
            if after < start {
                holes.push((after, start));
            }
            after = stop;
        }
        holes
    }

    /// "Progress is the lowest offset not received (the edge if there are no holes)"
    pub fn lowest_missing(&self) -> u64 {
        self.runs.get(&0).copied().unwrap_or(0)
    }

    /// "**Complete** holds exactly when all offsets below L were received. L = 0 is complete at once."
    pub fn complete(&self, length: u64) -> bool {
        self.lowest_missing() >= length
    }
}
