//! Descriptors of 128 bits: packets laid out by hand, each descriptor with each of its upper eight octets set, and what comes
//! before and after 5.

mod common;

use common::{data, hex, metadata};
use paper::read::{read, read_hole, FreeSpace, Hole, Packet};
use paper::refusal::Refusal;
use paper::table::{Recorded, State, Table};
use paper::write::{write_beacon, write_data, write_metadata, BeaconFields, DataFields, MetadataFields};

/// 2,000 in 16 octets.
const OFFSET: &str = "00 00 00 00 00 00 00 00 00 00 00 00 00 00 07 D0";

/// DATA of Id 7, width 128, offset 2,000.
fn data_packet() -> Vec<u8> {
    hex(&format!("43 C0 00 00 00 00 00 07 {OFFSET} 61 62"))
}

/// METADATA of Id 7, width 128, its size 2,000 in 128 bits (property bits 11), times 1 and 2.
fn metadata_packet() -> Vec<u8> {
    hex(&format!("42 C0 00 00 00 00 00 07 00 C0 {OFFSET} 00 00 00 01 00 00 00 02 61 00"))
}

/// STATUS of Id 7, width 128, Progress 2,000, In-Response-To 5,000, holes 2,000 to 3,000 and 4,000 to 5,000.
fn status_packet() -> Vec<u8> {
    let zeros = "00 00 00 00 00 00 00 00 00 00 00 00 00 00";
    let descriptors = ["07 D0", "13 88", "07 D0", "0B B8", "0F A0", "13 88"].map(|low| format!("{zeros} {low}"));
    hex(&format!("44 C0 00 00 00 00 00 07 {}", descriptors.join(" ")))
}

/// BEACON with free space of 128 bits.
fn beacon_packet() -> Vec<u8> {
    hex(&format!("40 00 70 00 {OFFSET} 65"))
}

/// Each of the upper eight octets of the descriptor at `at`, set.
fn spoiled(packet: &[u8], at: usize) -> impl Iterator<Item = Vec<u8>> + '_ {
    (0..8).flat_map(move |upper| {
        [0x01, 0x80, 0xFF].map(|octet| {
            let mut spoiled = packet.to_vec();
            spoiled[at + upper] = octet;
            spoiled
        })
    })
}

/// The packet is refused with 5 at every length at which the descriptor at `at` is whole, with 1 at every shorter one from
/// `from` on.
fn refused_once_there(packet: &[u8], from: usize, at: usize) {
    for spoiled in spoiled(packet, at) {
        for len in from..=packet.len() {
            let want = if len < at + 16 { Refusal::Truncated } else { Refusal::Width };
            assert_eq!(read(&spoiled[..len]), Err(want), "{len}: {spoiled:02x?}");
        }
    }
}

#[test]
fn taken_where_the_upper_octets_are_zero() {
    let Ok(Packet::Data(data)) = read(&data_packet()) else { panic!("refused") };
    assert_eq!((data.width, data.timestamp, data.offset, data.payload), (16, 8..8, 2_000, 24..26));
    let Ok(Packet::Metadata(metadata)) = read(&metadata_packet()) else { panic!("refused") };
    assert_eq!((metadata.width, metadata.properties, metadata.size), (16, 0xC0, 2_000));
    assert_eq!((metadata.mtime, metadata.ctime, metadata.path), (1, 2, 34..35));
    let Ok(Packet::Success(status)) = read(&status_packet()) else { panic!("refused") };
    assert_eq!((status.width, status.progress, status.in_response_to, status.holes_at), (16, 2_000, 5_000, 40));
    assert_eq!(status.holes, [Hole { start: 2_000, end: 3_000 }, Hole { start: 4_000, end: 5_000 }]);
    assert_eq!(read_hole(&status_packet(), 1), Ok(Hole { start: 4_000, end: 5_000 }));
    let Ok(Packet::Beacon(beacon)) = read(&beacon_packet()) else { panic!("refused") };
    assert_eq!((beacon.free_space, beacon.endpoint), (Some(FreeSpace { width: 16, kib: 2_000 }), 20..21));
}

#[test]
fn refused_once_the_octets_are_there() {
    // The offset: 5 before 10, which is a packet that ends with it.
    refused_once_there(&data_packet(), 8, 8);
    // The size: 5 before the times' and the path's 1.
    refused_once_there(&metadata_packet(), 10, 10);
    // Progress, In-Response-To: 5 before the next one's 1.
    refused_once_there(&status_packet(), 8, 8);
    refused_once_there(&status_packet(), 8, 24);
    refused_once_there(&beacon_packet(), 4, 4);
    // After the timestamp.
    let mut stamped = data_packet();
    stamped[1] = 0xC8;
    stamped.splice(8..8, [9; 16]);
    refused_once_there(&stamped, 8, 24);
    assert_eq!(read(&stamped[..40]), Err(Refusal::NoPayload));
}

#[test]
fn hole_lists() {
    let packet = status_packet();
    for at in [40, 56, 72, 88] {
        for spoiled in spoiled(&packet, at) {
            for len in 40..=packet.len() {
                // Cut otherwise than after its first pair, the list is wrong in itself.
                let want = match len {
                    _ if len >= at + 16 => Err(Refusal::Width),
                    72 => Ok(()),
                    _ => Err(Refusal::HoleList),
                };
                assert_eq!(read(&spoiled[..len]).map(drop), want, "{at}, {len}");
                let want = want.map(|()| Hole { start: 2_000, end: 3_000 });
                assert_eq!(read_hole(&spoiled[..len], 0), want, "{at}, {len}");
            }
        }
    }
    // 5 comes before every other fault of the list, those before it too.
    let mut packet = status_packet();
    packet[39] = 0;
    packet[88] = 1;
    assert_eq!(read(&packet), Err(Refusal::Width));
    packet[88] = 0;
    assert_eq!(read(&packet), Err(Refusal::HoleList));
}

#[test]
fn what_comes_before_5() {
    let mut packet = data_packet();
    packet[8] = 1;
    packet[1] = 0xD0;
    assert_eq!(read(&packet), Err(Refusal::Kind));
    let mut packet = metadata_packet();
    packet[10] = 1;
    packet[3] = 0x10;
    assert_eq!(read(&packet), Err(Refusal::ChecksumPair));
    packet[3] = 0;
    packet[9] = 0xE0;
    assert_eq!(read(&packet), Err(Refusal::Kind));
    // 5 before 8 and 9: a path followed by octets, and a size over the packet's own width of 16.
    let mut packet = metadata_packet();
    packet[1] = 0;
    packet[22] = 1;
    assert_eq!(read(&packet), Err(Refusal::Size));
    packet.push(1);
    assert_eq!(read(&packet), Err(Refusal::Path));
    packet[17] = 1;
    assert_eq!(read(&packet), Err(Refusal::Width));
    let mut packet = beacon_packet();
    packet[4] = 1;
    packet[3] = 1;
    assert_eq!(read(&packet), Err(Refusal::Beacon));
}

/// "a METADATA header with width bits 11 has no descriptor of that width, so it is simply taken"
#[test]
fn metadata_of_width_128() {
    for (properties, octets) in [(0x00, 2), (0x40, 4), (0x80, 8), (0xC0, 16)] {
        let size = &(u128::MAX >> 64).to_be_bytes()[16 - octets..];
        let packet = [&hex("42 C0 00 00 00 00 00 07 00"), &[properties][..], size, &[0; 8], b"a\0"].concat();
        let Ok(Packet::Metadata(read)) = read(&packet) else { panic!("refused") };
        assert_eq!((read.width, read.size), (16, u64::MAX >> (64 - 8 * octets.min(8))));
    }
}

#[test]
fn writers_put_eight_zero_octets_first() {
    let mut out = [0xEE; 40];
    let fields = DataFields { flags: 0xC0_00_00, id: 7, timestamp: &[], offset: 2_000, payload: b"ab" };
    assert_eq!(write_data(&fields, &mut out), Ok(26));
    assert_eq!((&out[..26], out[26]), (&data_packet()[..], 0xEE));
    let largest = DataFields { offset: u64::MAX, ..fields };
    assert_eq!(write_data(&largest, &mut out), Ok(26));
    assert_eq!(out[8..24], hex("00 00 00 00 00 00 00 00 FF FF FF FF FF FF FF FF"));
    assert_eq!(write_data(&fields, &mut out[..25]), Err(Refusal::Buffer));

    let fields = MetadataFields {
        flags: 0xC0_00_00,
        id: 7,
        checksum: &[],
        properties: 0xC0,
        size: 2_000,
        mtime: 1,
        ctime: 2,
        path: b"a",
    };
    let mut out = [0xEE; 40];
    assert_eq!(write_metadata(&fields, &mut out), Ok(36));
    assert_eq!((&out[..36], out[36]), (&metadata_packet()[..], 0xEE));
    assert_eq!(write_metadata(&MetadataFields { size: u64::MAX, ..fields }, &mut out), Ok(36));
    let narrow = MetadataFields { flags: 0x80_00_00, size: u64::MAX, ..fields };
    assert_eq!(write_metadata(&narrow, &mut out), Ok(36));
    let narrower = MetadataFields { flags: 0x40_00_00, size: 1 << 32, ..fields };
    assert_eq!(write_metadata(&narrower, &mut out), Err(Refusal::Size));

    let fields = BeaconFields { flags: 0x70_00, free_space: 2_000, endpoint: b"e" };
    let mut out = [0xEE; 40];
    assert_eq!(write_beacon(&fields, &mut out), Ok(21));
    assert_eq!((&out[..21], out[21]), (&beacon_packet()[..], 0xEE));
}

/// The longest STATUS of 128 bits that fills a packet: 2,046 holes.
#[test]
fn longest_hole_list() {
    let mut packet = hex("44 C0 00 00 00 00 00 07");
    let numbers = [0, 2 * 2_046].into_iter().chain((0..2_046).flat_map(|hole| [2 * hole, 2 * hole + 1]));
    numbers.for_each(|number: u128| packet.extend(number.to_be_bytes()));
    let Ok(Packet::Success(status)) = read(&packet) else { panic!("refused") };
    assert_eq!((packet.len(), status.holes.len()), (65_512, 2_046));
    packet[65_512 - 16] = 1;
    assert_eq!(read(&packet), Err(Refusal::Width));
}

/// The answer to the first recording of a transfer: there is no run to absorb.
fn first(edge: u64, complete: bool) -> Recorded {
    Recorded { state: State { edge, complete }, absorbed: 0, adds: true }
}

#[test]
fn transfers_of_128_bits() {
    let mut table = Table::default();
    assert!(table.open(&metadata_packet()).is_ok());
    // 13 tells 64 from 128, and so does 18.
    assert_eq!(table.record(&data(7, 8, 0, 1)), Err(Refusal::OtherWidth));
    assert_eq!(table.open(&metadata(7, 8, 2_000)), Err(Refusal::OpenOther));
    assert!(table.open(&metadata(7, 16, 2_000)).unwrap().already_open);
    assert_eq!(table.record(&data(7, 16, 0, 2_000)), Ok(first(2_000, true)));
    table.open(&metadata(8, 8, 2_000)).unwrap();
    assert_eq!(table.record(&data(8, 16, 0, 1)), Err(Refusal::OtherWidth));
    // L below 2^64 is all that can be.
    table.open(&metadata(9, 16, u64::MAX)).unwrap();
    assert_eq!(table.record(&data(9, 16, u64::MAX, 1)), Err(Refusal::PastEnd));
    assert_eq!(table.record(&data(9, 16, u64::MAX - 1, 1)), Ok(first(u64::MAX, false)));
    // An offset over 64 bits is 5, before 12 and 14.
    let mut packet = data(10, 16, 0, 1);
    packet[15] = 1;
    assert_eq!(table.record(&packet), Err(Refusal::Width));
}
