//! Marks lent to the receiver under test with the transfer that they are of, beside what they should hold by the paper's rules;
//! and what makes them no transfer's.

use paper::bitmap::OCTETS;
use paper::marks::Marks;

use crate::answer::Bitmap;
use crate::lent::Lent;
use crate::rng::Rng;

#[derive(Clone)]
pub struct Marked {
    pub transfer: Bitmap,
    pub marks: Lent,
    /// What the marks should be, octet for octet. The receiver under test never sees it.
    pub want: Lent,
}

impl Marked {
    /// Any octets.
    pub fn of(transfer: Bitmap, octets: &[u8], rng: &mut Rng) -> Marked {
        let marks = Lent::copy(octets, rng);
        Marked { transfer, want: marks.clone(), marks }
    }

    /// Random octets, long enough, of no transfer.
    pub fn random(rng: &mut Rng) -> Marked {
        let len = marks_len(rng);
        Marked::of(Bitmap::default(), &rng.octets(len), rng)
    }

    /// These runs of a transfer, and random octets past the marks.
    pub fn with_runs(transfer: Bitmap, runs: impl IntoIterator<Item = (u64, u64)>, rng: &mut Rng) -> Marked {
        let len = marks_len(rng);
        let mut octets = rng.octets(len);
        octets[..OCTETS].fill(0);
        for (start, stop) in runs {
            set(&mut octets, start..stop);
        }
        Marked::of(transfer, &octets, rng)
    }

    /// The same after a change of the transfer or the octets, whose length it may change too.
    pub fn changed(&self, rng: &mut Rng, change: impl FnOnce(&mut Bitmap, &mut Vec<u8>, &mut Rng)) -> Marked {
        let (mut transfer, mut octets) = (self.transfer, self.want.octets().to_vec());
        change(&mut transfer, &mut octets, rng);
        Marked::of(transfer, &octets, rng)
    }
}

/// Lengths that are enough.
fn marks_len(rng: &mut Rng) -> usize {
    OCTETS + rng.pick(&[0, 0, 0, 1, 7, 8, 100])
}

/// Sets marks: mark n is bit n, the highest bit of an octet first.
pub fn set(octets: &mut [u8], marks: impl IntoIterator<Item = u64>) {
    for n in marks {
        octets[n as usize / 8] |= 0x80 >> (n % 8);
    }
}

/// The transfer, and the runs of the marks, of which no more than some are shown.
pub fn describe(transfer: Bitmap, octets: &[u8]) -> String {
    let Bitmap { id, width, length, stamped, stamp_high, stamp_low } = transfer;
    let runs = Marks::of(&octets[..octets.len().min(OCTETS)]).runs();
    let some: Vec<_> = runs.iter().take(70).map(|(start, stop)| format!("{start}..{stop}")).collect();
    let (count, some) = (runs.len(), some.join(", "));
    format!(
        "  Id {id:#x}, width {width}, length {length}, timestamp {stamped:#x}, {stamp_high:016x} {stamp_low:016x}\n  \
         marks of {} octets, {count} runs: {some}",
        octets.len()
    )
}

pub type Damage = fn(&mut Bitmap, &mut Vec<u8>, &mut Rng);

/// Each way in which marks and a transfer don't go together, and some in which they do: another Id, another length above the
/// marks, marks below the length, octets past the marks, any timestamp. The octets are long enough for all marks.
pub const DAMAGES: &[Damage] = &[
    // Marks: at the length, next to it, far above it, the last one of all, and any.
    |transfer, octets, _| set_one(octets, transfer.length),
    |transfer, octets, rng| set_one(octets, transfer.length.saturating_add(rng.between(1, 9))),
    |transfer, octets, rng| set_one(octets, rng.between(transfer.length.min(65_535), 65_535)),
    |_, octets, _| set_one(octets, 65_535),
    |_, octets, rng| set_one(octets, rng.below(65_536)),
    |_, octets, rng| {
        let at = rng.place(0, OCTETS - 1);
        octets[at] ^= 1 << rng.below(8);
    },
    |_, octets, rng| rng.fill(octets),
    |_, octets, rng| octets[..OCTETS].fill(rng.pick(&[0xFF, 0xAA, 0x01, 0x80])),
    // 64 runs, 65 and more, from any place on, below the length if there is room.
    |transfer, octets, rng| {
        let (count, gap) = (rng.pick(&[64, 65, 65, 66, 200]), rng.pick(&[2, 3, 8, 9, 64]));
        let room = transfer.length.min(65_535).saturating_sub(count * gap);
        let from = rng.between(0, room);
        octets[..OCTETS].fill(0);
        set(octets, (0..count).map(|run| from + run * gap).filter(|&mark| mark < 65_536));
    },
    // A width and a length that no opening takes, or others that it takes.
    |transfer, _, rng| transfer.width = rng.pick(&[0, 1, 3, 3, 5, 6, 7, 9, 15, 17, 32, 128, 2 + (1 << 32), u64::MAX]),
    |transfer, _, rng| transfer.width = rng.pick(&[2, 4, 8, 16]),
    |transfer, _, rng| transfer.length = rng.pick(&[65_536, 65_536, 65_537, 1 << 32, 100 + (1 << 32), u64::MAX]),
    |transfer, _, rng| transfer.length = rng.pick(&[0, transfer.length.saturating_sub(1), transfer.length / 2, 65_535]),
    |transfer, octets, _| transfer.length = Marks::of(&octets[..OCTETS]).edge().saturating_sub(1),
    |transfer, octets, _| transfer.length = Marks::of(&octets[..OCTETS]).edge(),
    // Another Id, and one over 32 bits.
    |transfer, _, rng| transfer.id ^= 1 << rng.below(32),
    |transfer, _, rng| transfer.id = rng.pick(&[transfer.id | 1 << 32, 1 << 32, transfer.id | 1 << 63, u64::MAX]),
    // A timestamp: any number for yes, and halves that are not looked at.
    |transfer, _, rng| transfer.stamped = rng.pick(&[0, 0, 1, 2, 256, 1 << 32, 1 << 63, u64::MAX]),
    |transfer, _, rng| (transfer.stamp_high, transfer.stamp_low) = (rng.number(64), rng.number(64)),
    |transfer, _, rng| (transfer.stamped, transfer.stamp_high, transfer.stamp_low) = (0, rng.any(), rng.any()),
    // Octets past the marks.
    |_, octets, rng| {
        let more = rng.place(1, 20);
        let past = rng.octets(more);
        octets.extend(past);
    },
];

fn set_one(octets: &mut [u8], mark: u64) {
    set(octets, (mark < 65_536).then_some(mark));
}

/// One to three of these; now and then fewer octets than there are marks for too.
pub fn damage(transfer: &mut Bitmap, octets: &mut Vec<u8>, rng: &mut Rng) {
    for _ in 0..rng.between(1, 3) {
        rng.pick(DAMAGES)(transfer, octets, rng);
    }
    if rng.one_in(6) {
        octets.truncate(rng.pick(&[0, 1, 8_000, 8_190, OCTETS - 1, OCTETS - 1]));
    }
}
