//! What is compared fifth: the two functions of include/saratoga.h that read and write a plant's settings file, here over
//! slices.

pub mod cases;
pub mod check;
pub mod limits;
pub mod wrong;

use paper::settings;

use crate::answer::{Settings, Written};
use crate::codec::Paper;

pub trait SettingsFile {
    fn read_settings(&self, file: &[u8], known: u64) -> Settings;
    /// Of the answer's fields, those after `code` are what is to be written.
    fn write_settings(&self, settings: &Settings, out: &mut [u8]) -> Written;
}

/// The reader and the writer made from the rules.
impl SettingsFile for Paper {
    fn read_settings(&self, file: &[u8], known: u64) -> Settings {
        settings::read(file, known).into()
    }

    fn write_settings(&self, s: &Settings, out: &mut [u8]) -> Written {
        let settings = settings::Settings {
            version: s.version,
            largest_payload: s.largest_payload,
            has_interval: s.has_interval != 0,
            interval: s.interval,
            has_partner: s.has_partner != 0,
            partner: s.partner,
        };
        settings::write(&settings, out).into()
    }
}
