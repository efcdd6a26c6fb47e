//! Replays a recorded pass through the receiver of host/paper and prints what the program `replay` prints of it, line by
//! line, so that the two are compared by a diff. Written from the papers and the description of the lines alone.

#![forbid(unsafe_code)]

mod answer;
mod line;
mod record;

use std::io::{self, Read, Write};

use record::Next;

/// Reads records until the input ends and prints each one's lines, which begin with its number, from 1.
pub fn replay(mut input: impl Read, mut output: impl Write) -> io::Result<()> {
    let mut tables = answer::Tables::default();
    for number in 1u64.. {
        let record = match record::next(&mut input)? {
            Next::Record(record) => record,
            Next::CutShort => {
                writeln!(output, "{number} cut short")?;
                break;
            }
            Next::End => break,
        };
        for line in answer::lines(&mut tables, &record) {
            writeln!(output, "{number} {line}")?;
        }
    }
    output.flush()
}
