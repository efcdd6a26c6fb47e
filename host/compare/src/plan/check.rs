//! One call on a plan, compared: every field of the answer, every record of the list, and the packet.

use paper::plan;

use crate::answer::{Checked, Piece, Planned};
use crate::check::{describe_packet, same_answer, same_octets, Check, Step, Stop};
use crate::codec::Paper;
use crate::lent::{Lent, LentPieces};
use crate::plan::Planner;
use crate::tally::Function;

impl Check<'_> {
    /// `saratoga_plan` into `room` records; with the plan.
    pub fn plan(&mut self, packet: &[u8], largest: u64, room: usize) -> Result<(Planned, Vec<Piece>), Stop> {
        self.count()?;
        let lent = Lent::copy(packet, &mut self.rng);
        let before = lent.clone();
        let mut pieces = LentPieces::random(room, &mut self.rng);
        let mut want_pieces = pieces.clone();
        let got = self.planner.plan(lent.octets(), largest, pieces.pieces_mut());
        let want = Paper.plan(packet, largest, want_pieces.pieces_mut());
        let context = || format!("  largest {largest:#x}, {room} records\n{}", describe_packet(packet));
        same_answer(Function::Plan, &got, &want, context)?;
        same_octets(Function::Plan, "status", &lent, &before, context)?;
        same_pieces(Function::Plan, &pieces, &want_pieces, context)?;
        self.tally.add(Function::Plan, got.number);
        Ok((got, pieces.pieces()[..got.count as usize].to_vec()))
    }

    /// `saratoga_plan_count`.
    pub fn plan_count(&mut self, packet: &[u8], largest: u64) -> Result<Planned, Stop> {
        self.count()?;
        let lent = Lent::copy(packet, &mut self.rng);
        let before = lent.clone();
        let got = self.planner.plan_count(lent.octets(), largest);
        let want = Paper.plan_count(packet, largest);
        let context = || format!("  largest {largest:#x}\n{}", describe_packet(packet));
        same_answer(Function::PlanCount, &got, &want, context)?;
        same_octets(Function::PlanCount, "status", &lent, &before, context)?;
        self.tally.add(Function::PlanCount, got.number);
        Ok(got)
    }

    /// `saratoga_check_plan`.
    pub fn check_plan(&mut self, packet: &[u8], largest: u64, list: &[Piece]) -> Result<Checked, Stop> {
        self.count()?;
        let lent = Lent::copy(packet, &mut self.rng);
        let before = lent.clone();
        let pieces = LentPieces::copy(list, &mut self.rng);
        let pieces_before = pieces.clone();
        let got = self.planner.check_plan(lent.octets(), largest, pieces.pieces());
        let rule = plan::conditions(packet, largest, list);
        let want = rule.map(plan::Conditions::all).into();
        let context = || {
            let list: Vec<_> = list.iter().map(|piece| format!("{:#x}+{:#x}", piece.offset, piece.length)).collect();
            format!("  largest {largest:#x}, list {}, {rule:?}\n{}", list.join(" "), describe_packet(packet))
        };
        same_answer(Function::CheckPlan, &got, &want, context)?;
        same_octets(Function::CheckPlan, "status", &lent, &before, context)?;
        same_pieces(Function::CheckPlan, &pieces, &pieces_before, context)?;
        self.tally.add(Function::CheckPlan, got.number);
        if let Ok(conditions) = rule {
            self.tally.add_list(conditions);
        }
        Ok(got)
    }
}

fn same_pieces(function: Function, got: &LentPieces, want: &LentPieces, context: impl Fn() -> String) -> Step {
    match got.difference(want) {
        None => Ok(()),
        Some((at, got, want)) => Err(Stop::Mismatch(format!(
            "{} leaves other records in `pieces`\n  record {at}: library {got:x?}, paper {want:x?}\n{}",
            function.name(),
            context()
        ))),
    }
}
