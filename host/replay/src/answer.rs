//! What each record does to the tables, and its lines, still without the record's number.

use paper::layout::{status_wanted, word_bits, BEACON, DATA, MAX_PACKET, METADATA};
use paper::plan::{self, Piece};
use paper::read::{read, read_types, Packet};
use paper::refusal::Refusal;
use paper::table::Table;
use paper::write::write_failure;

use crate::line;
use crate::record::{Record, PIECES};

/// A line, or the refusal that is printed in its stead.
type Line = Result<String, Refusal>;

/// The two tables, and which of them the records use.
#[derive(Default)]
pub struct Tables {
    both: [Table; 2],
    chosen: usize,
}

/// The lines of a record: one, for `P` sometimes a second, and for `W` none.
pub fn lines(tables: &mut Tables, record: &Record) -> Vec<String> {
    let body = &record.body[..];
    match record.kind {
        b'T' => return vec![choose(tables, body)],
        b'M' => return vec![merge(tables, body)],
        _ => {}
    }
    let table = &mut tables.both[tables.chosen];
    match record.kind {
        b'F' => vec![fresh(table, body)],
        b'O' => vec![print(open(table, body))],
        b'D' => vec![print(recording(table, body))],
        b'R' => vec![print(plain_reading(body))],
        b'S' => vec![status(table, body)],
        b'C' => vec![close(table, body)],
        b'P' => off_the_dish(table, body),
        b'W' => time(body),
        b'L' => vec![plan(body)],
        b'K' => vec![check(body)],
        kind => vec![format!("unknown kind {kind:02x}")],
    }
}

fn print(line: Line) -> String {
    line.unwrap_or_else(line::refused)
}

/// The body of a record that has exactly `N` octets.
fn exactly<const N: usize>(body: &[u8]) -> Option<&[u8; N]> {
    body.try_into().ok()
}

fn bad_length() -> String {
    "bad length".to_string()
}

/// `F`: the table is fresh again.
fn fresh(table: &mut Table, body: &[u8]) -> String {
    let Some([]) = exactly(body) else { return bad_length() };
    *table = Table::default();
    "fresh".to_string()
}

/// `O`: opening.
fn open(table: &mut Table, packet: &[u8]) -> Line {
    let opened = table.open(packet)?;
    let Packet::Metadata(metadata) = read_types(packet, &[METADATA])? else { unreachable!("only METADATA opens") };
    Ok(line::open(&metadata, opened))
}

/// `D`: recording.
fn recording(table: &mut Table, packet: &[u8]) -> Line {
    let recorded = table.record(packet)?;
    let Packet::Data(data) = read_types(packet, &[DATA])? else { unreachable!("only DATA is recorded") };
    Ok(line::record(&data, recorded))
}

/// `R`: plain reading.
fn plain_reading(packet: &[u8]) -> Line {
    Ok(line::packet(packet, &read(packet)?))
}

/// `S`: writes STATUS. Id 4, k 8, unasked 1, room 4, of which at most 65,535 is used.
fn status(table: &Table, body: &[u8]) -> String {
    let Some(body) = exactly::<17>(body) else { return bad_length() };
    let number = |octets: &[u8]| octets.iter().fold(0, |high, &low| 256 * high + u64::from(low));
    let (id, k, unasked, room) = (number(&body[..4]), number(&body[4..12]), body[12] != 0, number(&body[13..]));
    let room = room.min(MAX_PACKET as u64) as usize;
    print(written(table, id, k, unasked, room).map(|octets| format!("status {}", line::hex(&octets))))
}

/// The STATUS of an open Id.
fn written(table: &Table, id: u64, k: u64, unasked: bool, room: usize) -> Result<Vec<u8>, Refusal> {
    let mut out = vec![0; room];
    let size = table.write_status(id, k, unasked, &mut out)?;
    out.truncate(size);
    Ok(out)
}

/// `C`: closing.
fn close(table: &mut Table, body: &[u8]) -> String {
    let Some(&id) = exactly::<4>(body) else { return bad_length() };
    let id = u32::from_be_bytes(id);
    print(table.close(u64::from(id)).map(|()| format!("close id={id}")))
}

/// `T`: chooses the table that later records use, by one octet, 0 or 1.
fn choose(tables: &mut Tables, body: &[u8]) -> String {
    let Some(&[which @ 0..=1]) = exactly::<1>(body) else { return bad_length() };
    tables.chosen = which.into();
    format!("table {which}")
}

/// `M`: merges the other table's transfer into the chosen table's. The Id 8.
fn merge(tables: &mut Tables, body: &[u8]) -> String {
    let Some(&id) = exactly::<8>(body) else { return bad_length() };
    let id = u64::from_be_bytes(id);
    let [zero, one] = &mut tables.both;
    let (first, second) = if tables.chosen == 0 { (zero, one) } else { (one, zero) };
    print(first.merge(second, id).map(|state| line::merge(id, state)))
}

/// `W`: the time of the record after it, 8 octets. It has no line.
fn time(body: &[u8]) -> Vec<String> {
    match exactly::<8>(body) {
        Some(_) => vec![],
        None => vec![bad_length()],
    }
}

/// `L`: what to send again. The largest payload 8, then a packet.
fn plan(body: &[u8]) -> String {
    let Some((largest, packet)) = number(body) else { return bad_length() };
    let mut lent = vec![Piece::default(); PIECES];
    print(plan::plan(packet, largest, &mut lent).map(|count| line::plan(&lent[..count as usize])))
}

/// `K`: whether pieces are a plan.
fn check(body: &[u8]) -> String {
    let Some((largest, pieces, packet)) = listed(body) else { return bad_length() };
    print(plan::check_plan(packet, largest, &pieces).map(|passes| format!("check passes={}", u8::from(passes))))
}

/// The parts of a `K`: the largest payload 8, n 8, n times offset 8 and length 8, then a packet.
fn listed(body: &[u8]) -> Option<(u64, Vec<Piece>, &[u8])> {
    let (largest, rest) = number(body)?;
    let (count, mut rest) = number(rest)?;
    if count > PIECES as u64 {
        return None;
    }
    let mut pieces = vec![];
    for _ in 0..count {
        let (offset, after) = number(rest)?;
        let (length, after) = number(after)?;
        pieces.push(Piece { offset, length });
        rest = after;
    }
    Some((largest, pieces, rest))
}

/// A number of 8 octets, and what follows it.
fn number(octets: &[u8]) -> Option<(u64, &[u8])> {
    octets.split_first_chunk().map(|(first, rest)| (u64::from_be_bytes(*first), rest))
}

/// The type of a packet, "Bits 2 to 7".
fn kind(packet: &[u8]) -> Option<u64> {
    packet.first().map(|&first| word_bits(u64::from(first) << 24, 2, 7))
}

/// `P`: what a link program does with a packet. METADATA opens, DATA records, all else is read, so that a type that is
/// none of the four is refused with 4 at its place in the order of reading.
fn off_the_dish(table: &mut Table, packet: &[u8]) -> Vec<String> {
    let line = match kind(packet) {
        Some(METADATA) => open(table, packet),
        Some(DATA) => recording(table, packet),
        _ => plain_reading(packet),
    };
    let send = match line {
        Ok(_) => wanted(table, packet),
        Err(refusal) => failure(packet, refusal),
    };
    let send = send.map(|octets| format!("send {}", line::hex(&octets)));
    [print(line)].into_iter().chain(send).collect()
}

/// The STATUS to send for DATA that was recorded and wants one: asked for, k = 0, room for all holes.
fn wanted(table: &Table, packet: &[u8]) -> Option<Vec<u8>> {
    match read(packet) {
        Ok(Packet::Data(data)) if status_wanted(data.header.flags) => {
            Some(written(table, data.header.id, 0, false, MAX_PACKET).expect("open, k = 0, room for all"))
        }
        _ => None,
    }
}

/// The failure STATUS to send for a packet that was refused: where the refusal has a code, and the packet at least 8
/// octets and another type than BEACON, to the Id in octets 4 to 7. "Every packet begins with a 32-bit word and a 32-bit
/// Id", but for BEACON.
fn failure(packet: &[u8], refusal: Refusal) -> Option<Vec<u8>> {
    if kind(packet) == Some(BEACON) {
        return None;
    }
    let id = u32::from_be_bytes(packet.get(4..8)?.try_into().expect("4 octets"));
    let mut out = vec![0; 8];
    // "(0: nothing to send)": the writer refuses code 0.
    write_failure(u64::from(id), refusal.code(), &mut out).ok()?;
    Some(out)
}
