//! A second codec, two receivers (with a table, and with marks) and a second planner for Saratoga, written from the papers
//! alone and for plainness, not speed. The archive is compared with them. Words in quotes are those of documents 01 and 02;
//! "section" is the Saratoga draft, version 09. A plant's settings file is read and written from docs/RULES.md (R18.1 and on).

#![forbid(unsafe_code)]

pub mod area;
pub mod bitmap;
pub mod layout;
pub mod marks;
pub mod plan;
pub mod read;
pub mod received;
pub mod refusal;
pub mod settings;
pub mod status;
pub mod table;
pub mod write;
