//! The records of a pass: an octet of kind, a length of four octets, big-endian, and as many octets of body.

use std::io::{self, Read};

use paper::layout::MAX_PACKET;

/// The records that `L` lends, and the most pieces that a `K` may list.
pub const PIECES: usize = 4_096;

/// Of a longer body so many octets are kept: a list of pieces, and a packet that is too long.
const KEPT: usize = 16 + 16 * PIECES + MAX_PACKET + 1;

pub struct Record {
    pub kind: u8,
    /// At most `KEPT` octets; those after them were passed over.
    pub body: Vec<u8>,
}

pub enum Next {
    Record(Record),
    /// The input ended inside a record, be it in the kind and length or in the body.
    CutShort,
    /// The input ended where a record would begin.
    End,
}

/// The next record of the input.
pub fn next(input: &mut impl Read) -> io::Result<Next> {
    let head = up_to(input, 5)?;
    let (kind, length) = match head[..] {
        [] => return Ok(Next::End),
        [kind, a, b, c, d] => (kind, u32::from_be_bytes([a, b, c, d]) as usize),
        _ => return Ok(Next::CutShort),
    };
    let body = up_to(input, length.min(KEPT))?;
    let passed_over = io::copy(&mut input.take(length.saturating_sub(KEPT) as u64), &mut io::sink())?;
    if body.len() + (passed_over as usize) < length {
        return Ok(Next::CutShort);
    }
    Ok(Next::Record(Record { kind, body }))
}

/// The next `count` octets, or fewer where the input ends before.
fn up_to(input: &mut impl Read, count: usize) -> io::Result<Vec<u8>> {
    let mut octets = vec![];
    input.take(count as u64).read_to_end(&mut octets)?;
    Ok(octets)
}
