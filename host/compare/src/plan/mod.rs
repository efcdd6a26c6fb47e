//! What is compared third: the three functions of include/saratoga.h that plan what to send again and check a plan, here over
//! slices.

pub mod bend;
pub mod cases;
pub mod check;
pub mod limits;
pub mod wrong;

use paper::plan;

use crate::answer::{Checked, Piece, Planned};
use crate::codec::Paper;

pub trait Planner {
    fn plan(&self, status: &[u8], largest: u64, pieces: &mut [Piece]) -> Planned;
    fn plan_count(&self, status: &[u8], largest: u64) -> Planned;
    fn check_plan(&self, status: &[u8], largest: u64, pieces: &[Piece]) -> Checked;
}

/// The planner and the check written from the papers.
impl Planner for Paper {
    fn plan(&self, status: &[u8], largest: u64, pieces: &mut [Piece]) -> Planned {
        plan::plan(status, largest, pieces).into()
    }

    fn plan_count(&self, status: &[u8], largest: u64) -> Planned {
        plan::plan_count(status, largest).into()
    }

    fn check_plan(&self, status: &[u8], largest: u64, pieces: &[Piece]) -> Checked {
        plan::check_plan(status, largest, pieces).into()
    }
}
