//! How often each refusal number came, function by function.

use std::fmt;
use std::ops::Range;

use paper::plan::Conditions;

/// The functions, in the order of the table's columns.
#[derive(Clone, Copy)]
pub enum Function {
    Read,
    ReadHole,
    WriteBeacon,
    WriteMetadata,
    WriteData,
    WriteFailure,
    Fresh,
    Open,
    Record,
    TryRecord,
    Close,
    WriteStatus,
    Transfer,
    Find,
    TransferHole,
    Plan,
    PlanCount,
    CheckPlan,
    BitmapOpen,
    BitmapRecord,
    BitmapStatus,
    Merge,
    ReadSettings,
    WriteSettings,
}

const COLUMNS: usize = 24;
/// 0, accepted, to 26.
const ROWS: usize = 27;
/// The numbers of a refusal.
const NUMBERS: [usize; 26] =
    [1, 2, 3, 4, 5, 6, 7, 8, 9, 10, 11, 12, 13, 14, 15, 16, 17, 18, 19, 20, 21, 22, 23, 24, 25, 26];

/// Each with its heading in the table.
const NAMES: [(&str, &str); COLUMNS] = [
    ("saratoga_read", "read"),
    ("saratoga_read_hole", "read_hole"),
    ("saratoga_write_beacon", "beacon"),
    ("saratoga_write_metadata", "metadata"),
    ("saratoga_write_data", "data"),
    ("saratoga_write_failure", "failure"),
    ("saratoga_fresh", "fresh"),
    ("saratoga_open", "open"),
    ("saratoga_record", "record"),
    ("saratoga_try_record", "try_record"),
    ("saratoga_close", "close"),
    ("saratoga_write_status", "status"),
    ("saratoga_transfer", "transfer"),
    ("saratoga_find", "find"),
    ("saratoga_transfer_hole", "hole"),
    ("saratoga_plan", "plan"),
    ("saratoga_plan_count", "plan_count"),
    ("saratoga_check_plan", "check_plan"),
    ("saratoga_bitmap_open", "bm_open"),
    ("saratoga_bitmap_record", "bm_record"),
    ("saratoga_bitmap_status", "bm_status"),
    ("saratoga_merge", "merge"),
    ("saratoga_read_settings", "read_set"),
    ("saratoga_write_settings", "write_set"),
];

/// The conditions of a plan, as they are told of.
const CONDITIONS: [&str; 5] = ["rise", "sizes", "in one hole", "no overlap", "cover"];

impl Function {
    pub fn name(self) -> &'static str {
        NAMES[self as usize].0
    }
}

/// The numbers that each function can answer. A METADATA packet to be written never gets over 65,535 octets, and no
/// descriptor to be written has upper octets that aren't zero.
const CAN_OCCUR: [&[usize]; COLUMNS] = [
    &[0, 1, 2, 3, 4, 5, 6, 7, 8, 9, 10, 11, 26],
    &[0, 1, 2, 3, 4, 5, 11, 19],
    &[0, 2, 20, 21, 26],
    &[0, 1, 6, 7, 8, 9, 20, 21],
    &[0, 1, 2, 6, 10, 20, 21],
    &[0, 20, 21],
    &[0, 20],
    &[0, 1, 2, 3, 4, 5, 6, 7, 8, 9, 17, 18, 22, 23],
    &[0, 1, 2, 3, 4, 5, 6, 10, 12, 13, 14, 15, 16, 22],
    &[0, 1, 2, 3, 4, 5, 6, 10, 12, 13, 14, 15, 16, 22],
    &[0, 12, 22],
    &[0, 12, 19, 20, 22],
    &[0, 12, 22],
    &[0, 12, 22],
    &[0, 12, 19, 22],
    &[0, 1, 2, 3, 4, 5, 11, 20, 21],
    &[0, 1, 2, 3, 4, 5, 11, 21],
    &[0, 1, 2, 3, 4, 5, 11, 21],
    &[0, 1, 2, 3, 4, 5, 6, 7, 8, 9, 20, 23],
    &[0, 1, 2, 3, 4, 5, 6, 10, 12, 13, 14, 15, 16, 20, 22],
    &[0, 12, 19, 20, 22],
    &[0, 12, 13, 16, 18, 22],
    &[0, 1, 24, 25],
    &[0, 20, 24, 25],
];

/// The functions of each comparison: those on packets, those on areas, those on plans, those on marks, merging, those on settings.
const PARTS: [Range<usize>; 6] = [0..6, 6..15, 15..18, 18..21, 21..22, 22..COLUMNS];
const ON_PLANS: usize = 2;

#[derive(Clone, Default)]
pub struct Tally {
    counts: [[u64; COLUMNS]; ROWS],
    lists: Lists,
}

/// How the lists of pieces that were checked came out.
#[derive(Clone, Default)]
struct Lists {
    pass: u64,
    /// Those that break one condition and no other.
    break_one: [u64; 5],
    break_more: u64,
}

impl Tally {
    pub fn add(&mut self, function: Function, number: u64) {
        self.counts[number as usize][function as usize] += 1;
    }

    /// Counts a list of pieces by the conditions that it meets.
    pub fn add_list(&mut self, conditions: Conditions) {
        let met = conditions.each();
        match met.iter().filter(|&&met| !met).count() {
            0 => self.lists.pass += 1,
            1 => self.lists.break_one[met.iter().position(|&met| !met).expect("one is broken")] += 1,
            _ => self.lists.break_more += 1,
        }
    }

    /// The counts of both.
    pub fn with(mut self, other: &Tally) -> Tally {
        self.lists.pass += other.lists.pass;
        self.lists.break_more += other.lists.break_more;
        for (count, more) in self.lists.break_one.iter_mut().zip(other.lists.break_one) {
            *count += more;
        }
        for (row, more) in self.counts.iter_mut().zip(&other.counts) {
            for (count, more) in row.iter_mut().zip(more) {
                *count += more;
            }
        }
        self
    }

    /// The numbers that a function of `part` can answer and never did, and the lists that were never checked.
    pub fn missing(&self, part: usize) -> Vec<String> {
        let mut missing = vec![];
        for column in PARTS[part].clone() {
            for &number in CAN_OCCUR[column].iter().filter(|&&number| self.counts[number][column] == 0) {
                missing.push(format!("{number} from {}", NAMES[column].0));
            }
        }
        if part == ON_PLANS {
            missing.extend(self.lists.missing());
        }
        missing
    }

    /// The numbers that no function answered.
    pub fn never(&self) -> Vec<String> {
        let never = NUMBERS.iter().filter(|&&number| self.counts[number] == [0; COLUMNS]);
        never.map(|number| number.to_string()).collect()
    }
}

impl Lists {
    fn missing(&self) -> Vec<String> {
        let never = CONDITIONS.iter().zip(self.break_one).filter(|&(_, count)| count == 0);
        let passes = (self.pass == 0).then(|| "a list that passes".to_string());
        passes.into_iter().chain(never.map(|(name, _)| format!("a list that breaks `{name}` alone"))).collect()
    }
}

impl fmt::Display for Lists {
    fn fmt(&self, f: &mut fmt::Formatter) -> fmt::Result {
        let alone: Vec<_> =
            CONDITIONS.iter().zip(self.break_one).map(|(name, count)| format!("{name} {count}")).collect();
        let alone = alone.join(", ");
        write!(f, "lists: {} pass; one condition broken: {alone}; more: {}", self.pass, self.break_more)
    }
}

/// A table for each comparison that was made. The last column of the last counts all functions.
impl fmt::Display for Tally {
    fn fmt(&self, f: &mut fmt::Formatter) -> fmt::Result {
        let made = |part: &&Range<usize>| self.counts.iter().any(|row| sum(&row[(*part).clone()]) > 0);
        let parts: Vec<_> = PARTS.iter().filter(made).collect();
        for (at, &part) in parts.iter().enumerate() {
            let last = at + 1 == parts.len();
            write!(f, "refusal")?;
            for (_, name) in &NAMES[part.clone()] {
                write!(f, " {name:>10}")?;
            }
            writeln!(f, "{}", if last { "     in all" } else { "" })?;
            for (number, row) in self.counts.iter().enumerate() {
                let counted = if last { sum(row) } else { sum(&row[part.clone()]) };
                if counted == 0 {
                    continue;
                }
                match number {
                    0 => write!(f, "none   ")?,
                    _ => write!(f, "{number:<7}")?,
                }
                for count in &row[part.clone()] {
                    write!(f, " {count:>10}")?;
                }
                match last {
                    true => writeln!(f, " {counted:>10}")?,
                    false => writeln!(f)?,
                }
            }
        }
        match sum(&self.counts[0][PARTS[ON_PLANS].clone()]) {
            0 => Ok(()),
            _ => writeln!(f, "{}", self.lists),
        }
    }
}

fn sum(counts: &[u64]) -> u64 {
    counts.iter().sum()
}
