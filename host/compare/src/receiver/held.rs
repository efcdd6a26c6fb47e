//! An area lent to the receiver under test, beside what it should hold by the paper's rules. What no rule speaks of, the
//! places that no transfer or run uses, holds anything as a rule.

use paper::area;
use paper::refusal::Refusal;
use paper::table::Table;

use crate::lent::Lent;
use crate::receiver::words::{self, Entry, OCTETS};
use crate::rng::Rng;

#[derive(Clone)]
pub struct Held {
    pub area: Lent,
    /// What the area should be, octet for octet. The receiver under test never sees it.
    pub want: Lent,
    /// The table that it should hold; none where it should be refused with 22.
    pub table: Option<Table>,
}

impl Held {
    /// Any octets.
    pub fn of(octets: &[u8], rng: &mut Rng) -> Held {
        let area = Lent::copy(octets, rng);
        Held { want: area.clone(), table: area::take_up(octets).ok(), area }
    }

    /// The table stored in an area with anything in it, and some octets past the layout.
    pub fn holding(table: Table, rng: &mut Rng) -> Held {
        let len = area_len(rng);
        let mut area = Lent::random(len, rng);
        area::store(&table, area.octets_mut());
        fill_unused(area.octets_mut(), rng);
        Held { want: area.clone(), table: Some(table), area }
    }

    /// Random octets, long enough.
    pub fn random(rng: &mut Rng) -> Held {
        let len = area_len(rng);
        Held::of(&rng.octets(len), rng)
    }

    /// The same area after a change, which may be its length.
    pub fn changed(&self, rng: &mut Rng, change: impl FnOnce(&mut Vec<u8>, &mut Rng)) -> Held {
        let mut octets = self.want.octets().to_vec();
        change(&mut octets, rng);
        Held::of(&octets, rng)
    }

    /// What the paper's rule for a call answers; what it leaves is stored. "22 comes before all".
    pub fn change<T>(&mut self, rule: impl FnOnce(&mut Table) -> Result<T, Refusal>) -> Result<T, Refusal> {
        let table = self.table.as_mut().ok_or(Refusal::Area)?;
        let answer = rule(table)?;
        area::store(table, self.want.octets_mut());
        Ok(answer)
    }

    /// The same for a call that only reads the area.
    pub fn look<T>(&self, rule: impl FnOnce(&Table) -> Result<T, Refusal>) -> Result<T, Refusal> {
        rule(self.table.as_ref().ok_or(Refusal::Area)?)
    }

    /// The same for making a fresh table: what the area held doesn't matter.
    pub fn fresh(&mut self) -> Result<(), Refusal> {
        area::fresh(self.want.octets_mut())?;
        self.table = Some(Table::default());
        Ok(())
    }
}

/// Lengths that are enough.
fn area_len(rng: &mut Rng) -> usize {
    OCTETS + rng.pick(&[0, 0, 0, 1, 7, 8, 100])
}

/// Fills the unused words of an area: with random octets, one octet, or numbers that a table could have there. Areas
/// whose counts speak of more words than there are stay.
pub fn fill_unused(area: &mut [u8], rng: &mut Rng) {
    let Some(used) = words::entries(area) else { return };
    match rng.below(4) {
        0 => area[..OCTETS].fill(rng.pick(&[0, 1, 0xFF])),
        1 | 2 => rng.fill(&mut area[..OCTETS]),
        _ => {
            for i in 0..words::TRANSFERS {
                words::store_at(i, &likely(&used, rng), area);
            }
        }
    }
    words::store(&used, area);
}

/// A transfer as it could be left in an unused place: an Id that is likely to be asked for, 64 runs, and a timestamp or none.
fn likely(used: &[Entry], rng: &mut Rng) -> Entry {
    let id = match used {
        [first, ..] if rng.one_in(2) => first.id ^ rng.below(64),
        _ => rng.below(40),
    };
    let base = rng.between(0, 300);
    let runs = (0..words::RUNS as u64).map(|run| (base + 3 * run, base + 3 * run + rng.between(1, 2))).collect();
    let (stamped, halves) = (rng.below(2), [rng.any(), rng.any()]);
    Entry { id, width: rng.pick(&[2, 4, 8, 16]), length: rng.between(1_000, 65_535), runs, stamped, halves }
}
