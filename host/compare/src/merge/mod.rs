//! What is compared fifth: the function of include/saratoga.h that merges a transfer of a second area into a first, here over
//! slices; and the laws of merging, which speak of no second receiver.

pub mod cases;
pub mod check;
pub mod laws;
pub mod limits;
pub mod limits_area;
pub mod wrong;

use paper::area;

use crate::answer::Merged;
use crate::codec::Paper;

/// "the second is unchanged": it is lent to be written all the same, so that one that writes to it can be tried and found.
pub trait Merger {
    fn merge(&self, first: &mut [u8], second: &mut [u8], id: u64) -> Merged;
}

/// The merging written from the papers.
impl Merger for Paper {
    fn merge(&self, first: &mut [u8], second: &mut [u8], id: u64) -> Merged {
        area::merge(first, second, id).into()
    }
}
