//! A set of received offsets with one flag for each octet of the file: each answer is found by walking the flags, as document 01
//! words it. The tests hold it against received.rs, which keeps runs; bitmap.rs is the receiver over it.

#[derive(Clone, Debug)]
pub struct Marks {
    /// One for each offset below L: whether it was received.
    received: Vec<bool>,
}

impl Marks {
    /// Nothing received of `length` octets.
    pub fn new(length: usize) -> Marks {
        Marks { received: vec![false; length] }
    }

    /// "mark n is its bit n, set once received", and "Bit 0 is the highest bit of the first octet".
    pub fn of(octets: &[u8]) -> Marks {
        let marked = |n: usize| octets[n / 8] & (0x80 >> (n % 8)) != 0;
        Marks { received: (0..8 * octets.len()).map(marked).collect() }
    }

    /// Those of the first `length` offsets, and those of the offsets from there on.
    pub fn split(mut self, length: usize) -> (Marks, Marks) {
        let above = self.received.split_off(length);
        (self, Marks { received: above })
    }

    /// "adds the offsets from offset to offset + payload length - 1"
    pub fn add(&mut self, start: u64, end: u64) {
        for offset in start..end {
            self.received[offset as usize] = true;
        }
    }

    /// Whether one of these offsets was not received.
    pub fn adds(&self, start: u64, end: u64) -> bool {
        (start..end).any(|offset| !self.received[offset as usize])
    }

    /// How many offsets were received.
    pub fn count(&self) -> u64 {
        self.received.iter().filter(|&&received| received).count() as u64
    }

    /// "longest unbroken stretch of received offsets"
    pub fn runs(&self) -> Vec<(u64, u64)> {
        self.stretches(true, self.received.len())
    }

    /// "one more than the highest received offset, 0 if there is none"
    pub fn edge(&self) -> u64 {
        self.received.iter().rposition(|&received| received).map_or(0, |highest| highest as u64 + 1)
    }

    /// "the longest unbroken stretches of unreceived offsets below the edge. What lies from the edge up to L isn't a
    /// hole."
    pub fn holes(&self) -> Vec<(u64, u64)> {
        self.stretches(false, self.edge() as usize)
    }

    /// "the lowest offset not received (the edge if there are no holes)"
    pub fn lowest_missing(&self) -> u64 {
        self.received.iter().position(|&received| !received).map_or(self.edge(), |lowest| lowest as u64)
    }

    /// "exactly when all offsets below L were received"
    pub fn complete(&self) -> bool {
        self.received.iter().all(|&received| received)
    }

    /// The longest unbroken stretches of one kind below `end`: from the first offset of the kind to the next of the other.
    fn stretches(&self, kind: bool, end: usize) -> Vec<(u64, u64)> {
        let next = |kind: bool, from: usize| {
            self.received[from..end].iter().position(|&received| received == kind).map_or(end, |more| from + more)
        };
        let mut stretches = vec![];
        let mut start = next(kind, 0);
        while start < end {
            let stop = next(!kind, start);
            stretches.push((start as u64, stop as u64));
            start = next(kind, stop);
        }
        stretches
    }
}
