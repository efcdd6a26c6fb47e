//! What is compared fourth: the three functions of include/saratoga.h that use marks, here over slices; and the table beside
//! them.

pub mod both;
pub mod cases;
pub mod check;
pub mod held;
pub mod limits;
pub mod limits_state;
pub mod wrong;

use paper::bitmap;

use crate::answer::{Bitmap, BitmapOpened, BitmapRecorded, Written};
use crate::codec::Paper;

pub trait BitmapReceiver {
    fn bitmap_open(&self, marks: &mut [u8], packet: &[u8]) -> BitmapOpened;
    fn bitmap_record(&self, transfer: Bitmap, marks: &mut [u8], packet: &[u8]) -> BitmapRecorded;
    fn bitmap_status(&self, transfer: Bitmap, marks: &[u8], skip: u64, unasked: u64, out: &mut [u8]) -> Written;
}

/// The receiver with marks written from the papers.
impl BitmapReceiver for Paper {
    fn bitmap_open(&self, marks: &mut [u8], packet: &[u8]) -> BitmapOpened {
        bitmap::open(marks, packet).into()
    }

    fn bitmap_record(&self, transfer: Bitmap, marks: &mut [u8], packet: &[u8]) -> BitmapRecorded {
        bitmap::record(transfer, marks, packet).into()
    }

    fn bitmap_status(&self, transfer: Bitmap, marks: &[u8], skip: u64, unasked: u64, out: &mut [u8]) -> Written {
        bitmap::write_status(transfer, marks, skip, unasked != 0, out).into()
    }
}
