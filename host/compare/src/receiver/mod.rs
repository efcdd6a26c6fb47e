//! What is compared second: the nine functions of include/saratoga.h that use an area, here over slices.

pub mod aim;
pub mod check;
pub mod damage;
pub mod files;
pub mod held;
pub mod limits;
pub mod limits_area;
pub mod limits_stamp;
pub mod limits_width;
pub mod orders;
pub mod pass;
pub mod words;
pub mod wrong;
pub mod wrong_areas;
pub mod wrong_calls;
pub mod wrong_counts;
pub mod wrong_stamps;

use paper::area;

use crate::answer::{Done, Hole, Listed, Opened, Recorded, Written};
use crate::codec::Paper;

pub trait Receiver {
    fn fresh(&self, area: &mut [u8]) -> Done;
    fn open(&self, area: &mut [u8], packet: &[u8]) -> Opened;
    fn record(&self, area: &mut [u8], packet: &[u8]) -> Recorded;
    fn try_record(&self, area: &[u8], packet: &[u8]) -> Recorded;
    fn close(&self, area: &mut [u8], id: u64) -> Done;
    fn write_status(&self, area: &[u8], ask: Ask, out: &mut [u8]) -> Written;
    fn transfer(&self, area: &[u8], index: u64) -> Listed;
    fn find(&self, area: &[u8], id: u64) -> Listed;
    fn transfer_hole(&self, area: &[u8], id: u64, index: u64) -> Hole;
}

/// What a STATUS is asked for: the Id, the number of holes to skip, and whether it is unasked.
#[derive(Clone, Copy, Debug)]
pub struct Ask {
    pub id: u64,
    pub skip: u64,
    pub unasked: u64,
}

/// The receiver written from the papers: it takes the table up from the area at each call.
impl Receiver for Paper {
    fn fresh(&self, area: &mut [u8]) -> Done {
        area::fresh(area).into()
    }

    fn open(&self, area: &mut [u8], packet: &[u8]) -> Opened {
        area::open(area, packet).into()
    }

    fn record(&self, area: &mut [u8], packet: &[u8]) -> Recorded {
        area::record(area, packet).into()
    }

    fn try_record(&self, area: &[u8], packet: &[u8]) -> Recorded {
        area::try_record(area, packet).into()
    }

    fn close(&self, area: &mut [u8], id: u64) -> Done {
        area::close(area, id).into()
    }

    fn write_status(&self, area: &[u8], ask: Ask, out: &mut [u8]) -> Written {
        area::write_status(area, ask.id, ask.skip, ask.unasked != 0, out).into()
    }

    fn transfer(&self, area: &[u8], index: u64) -> Listed {
        area::transfer_at(area, index).into()
    }

    fn find(&self, area: &[u8], id: u64) -> Listed {
        area::find(area, id).into()
    }

    fn transfer_hole(&self, area: &[u8], id: u64, index: u64) -> Hole {
        area::hole(area, id, index).into()
    }
}
