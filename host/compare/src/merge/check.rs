//! One call on two areas, compared: every field of the answer, and every octet of both.

use paper::refusal::Refusal;

use crate::answer::Merged;
use crate::check::{same_answer, same_octets, Check, Stop};
use crate::receiver::held::Held;
use crate::receiver::words;
use crate::tally::Function;

impl Check<'_> {
    /// `saratoga_merge`.
    pub fn merge(&mut self, first: &mut Held, second: &mut Held, id: u64) -> Result<Merged, Stop> {
        self.count()?;
        let before = first.want.clone();
        let got = self.merger.merge(first.area.octets_mut(), second.area.octets_mut(), id);
        let other = second.table.as_ref();
        let want = first.change(|table| table.merge(other.ok_or(Refusal::Area)?, id)).into();
        if !self.alone {
            let areas = || [before.octets(), second.want.octets()].map(words::describe).join("\n");
            let context = || format!("  id {id:#x}, the first area and the second:\n{}", areas());
            same_answer(Function::Merge, &got, &want, context)?;
            same_octets(Function::Merge, "first", &first.area, &first.want, context)?;
            same_octets(Function::Merge, "second", &second.area, &second.want, context)?;
        }
        self.tally.add(Function::Merge, got.number);
        Ok(got)
    }
}
