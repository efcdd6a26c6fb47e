//! How answers are printed: numbers in decimal, octets in lowercase hex, a width in bits.

use paper::layout::Willingness;
use paper::plan::Piece;
use paper::read::{Beacon, Data, Failure, Header, Metadata, Packet, Success};
use paper::refusal::Refusal;
use paper::table::{Opened, Recorded, State};

pub fn refused(refusal: Refusal) -> String {
    format!("refused {} code={}", refusal.number(), refusal.code())
}

pub fn open(metadata: &Metadata, opened: Opened) -> String {
    let Metadata { header: Header { id, .. }, size, .. } = metadata;
    let width = bits(metadata.width);
    let state = state(opened.state);
    let whether_new = if opened.already_open { "already-open" } else { "new" };
    format!("open id={id} width={width} length={size} {state} {whether_new}")
}

pub fn record(data: &Data, recorded: Recorded) -> String {
    let Data { header: Header { id, .. }, offset, payload, .. } = data;
    let length = payload.len();
    let state = state(recorded.state);
    format!("record id={id} offset={offset} length={length} {state} absorbed={}", recorded.absorbed)
}

pub fn merge(id: u64, merged: State) -> String {
    format!("merge id={id} {}", state(merged))
}

fn state(state: State) -> String {
    format!("edge={} complete={}", state.edge, u8::from(state.complete))
}

/// What reading the octets of `packet` gave.
pub fn packet(packet: &[u8], read: &Packet) -> String {
    match read {
        Packet::Beacon(beacon) => self::beacon(packet, beacon),
        Packet::Metadata(metadata) => self::metadata(packet, metadata),
        Packet::Data(data) => self::data(packet, data),
        Packet::Success(success) => self::success(packet, success),
        Packet::Failure(failure) => self::failure(failure),
    }
}

/// `free-width` and `free` are empty where no free space is given.
fn beacon(packet: &[u8], beacon: &Beacon) -> String {
    let Beacon { flags, free_space, .. } = beacon;
    let largest = bits(beacon.largest_width);
    let (bundles, streams) = (u8::from(beacon.bundles), u8::from(beacon.streams));
    let (send, receive) = (willingness(beacon.send), willingness(beacon.receive));
    let free_width = free_space.map_or(String::new(), |free| bits(free.width).to_string());
    let free = free_space.map_or(String::new(), |free| free.kib.to_string());
    let endpoint = hex(&packet[beacon.endpoint.clone()]);
    format!(
        "beacon flags={flags:06x} largest-width={largest} bundles={bundles} streams={streams} send={send} \
         receive={receive} free-width={free_width} free={free} endpoint={endpoint}"
    )
}

fn willingness(state: Willingness) -> &'static str {
    match state {
        Willingness::Cannot => "cannot",
        Willingness::NotNow => "not-now",
        Willingness::Willing => "willing",
    }
}

fn metadata(packet: &[u8], metadata: &Metadata) -> String {
    let Metadata { header: Header { flags, id }, properties, size, mtime, ctime, .. } = metadata;
    let width = bits(metadata.width);
    let checksum = hex(&packet[metadata.checksum.clone()]);
    let path = hex(&packet[metadata.path.clone()]);
    format!(
        "metadata id={id} flags={flags:06x} width={width} checksum={checksum} properties={properties:04x} size={size} \
         mtime={mtime} ctime={ctime} path={path}"
    )
}

fn data(packet: &[u8], data: &Data) -> String {
    let Data { header: Header { flags, id }, offset, payload, .. } = data;
    let width = bits(data.width);
    let timestamp = hex(&packet[data.timestamp.clone()]);
    let length = payload.len();
    format!("data id={id} flags={flags:06x} width={width} timestamp={timestamp} offset={offset} length={length}")
}

fn success(packet: &[u8], success: &Success) -> String {
    let Success { header: Header { flags, id }, progress, in_response_to, .. } = success;
    let width = bits(success.width);
    let timestamp = hex(&packet[success.timestamp.clone()]);
    let holes: Vec<String> = success.holes.iter().map(|hole| format!("{}-{}", hole.start, hole.end)).collect();
    let holes = holes.join(",");
    format!(
        "success id={id} flags={flags:06x} width={width} timestamp={timestamp} progress={progress} \
         in-response-to={in_response_to} holes={holes}"
    )
}

fn failure(failure: &Failure) -> String {
    let Failure { header: Header { flags, id }, status } = failure;
    format!("failure id={id} status={status} flags={flags:06x}")
}

/// A piece is its offset and its length.
pub fn plan(pieces: &[Piece]) -> String {
    let count = pieces.len();
    let pieces: Vec<String> = pieces.iter().map(|piece| format!("{}+{}", piece.offset, piece.length)).collect();
    let pieces = pieces.join(",");
    format!("plan count={count} pieces={pieces}")
}

/// A width of so many octets.
fn bits(octets: usize) -> usize {
    8 * octets
}

pub fn hex(octets: &[u8]) -> String {
    octets.iter().map(|octet| format!("{octet:02x}")).collect()
}
