//! Reading: packets laid out by hand from the figures of sections 4.3 to 4.5 and 5, and from document 01.

use paper::read::{read, read_hole, Data, Failure, Header, Hole, Metadata, Packet, Success};
use paper::refusal::Refusal;

/// Octets from hexadecimal with spaces.
fn hex(text: &str) -> Vec<u8> {
    text.split_whitespace().map(|octet| u8::from_str_radix(octet, 16).unwrap()).collect()
}

fn refused(packet: &[u8]) -> Refusal {
    read(packet).unwrap_err()
}

/// METADATA of Id 7, width 16, no checksum, size 3,000, times 1 and 2, with the octets given as its path.
fn metadata(path: &[u8]) -> Vec<u8> {
    let mut packet = hex("42 00 00 00 00 00 00 07 00 00 0B B8 00 00 00 01 00 00 00 02");
    packet.extend_from_slice(path);
    packet
}

#[test]
fn metadata_without_checksum() {
    let want = Metadata {
        header: Header { flags: 0, id: 7 },
        width: 2,
        checksum: 8..8,
        properties: 0,
        size: 3_000,
        mtime: 1,
        ctime: 2,
        path: 20..24,
    };
    assert_eq!(read(&metadata(b"p611\0")), Ok(Packet::Metadata(want)));
}

#[test]
fn metadata_with_md5_and_a_narrower_entry() {
    // Width 64 (bit 8), bit 13, 4 words of type 2; the entry's width is 32 (property bit 9), property bit 13.
    let packet = hex("42 84 00 42 01 02 03 04 \
                      00 01 02 03 04 05 06 07 08 09 0A 0B 0C 0D 0E 0F \
                      00 44 00 01 00 00 FF FF FF FF 80 00 00 00 61 00");
    let want = Metadata {
        header: Header { flags: 0x84_00_42, id: 0x0102_0304 },
        width: 8,
        checksum: 8..24,
        properties: 0x44,
        size: 65_536,
        mtime: 0xFFFF_FFFF,
        ctime: 0x8000_0000,
        path: 38..39,
    };
    assert_eq!(read(&packet), Ok(Packet::Metadata(want)));
}

#[test]
fn paths() {
    let path = |len: usize| vec![b'x'; len];
    let closed = |len: usize| [path(len), vec![0]].concat();
    assert!(read(&metadata(&closed(1))).is_ok());
    assert!(read(&metadata(&closed(1_023))).is_ok());
    assert_eq!(refused(&metadata(&closed(0))), Refusal::Path);
    assert_eq!(refused(&metadata(&closed(1_024))), Refusal::Path);
    assert_eq!(refused(&metadata(&path(0))), Refusal::Truncated);
    assert_eq!(refused(&metadata(&path(1_023))), Refusal::Truncated);
    assert_eq!(refused(&metadata(&path(1_024))), Refusal::Path);
    assert_eq!(refused(&metadata(b"a\0\0")), Refusal::Path);
    assert_eq!(refused(&metadata(b"a\0b\0")), Refusal::Path);
    assert_eq!(refused(&metadata(b"\0a\0")), Refusal::Path);
}

#[test]
fn size_against_the_packets_own_width() {
    // Width 16, the entry's width 32 (property bit 9).
    let with_size = |size: &str| hex(&format!("42 00 00 00 00 00 00 07 00 40 {size} 00 00 00 00 00 00 00 00 61 00"));
    assert!(read(&with_size("00 00 FF FF")).is_ok());
    assert_eq!(refused(&with_size("00 01 00 00")), Refusal::Size);
    // The path is judged before the size.
    let mut followed = with_size("00 01 00 00");
    followed.push(1);
    assert_eq!(refused(&followed), Refusal::Path);
}

#[test]
fn metadata_refusals_in_their_order() {
    // Everything is wrong; the faults are mended one after the other.
    let mut packet = hex("82 30 00 01 00 00 00 07 00");
    let mut next = |mend: &dyn Fn(&mut Vec<u8>), want: Refusal| {
        mend(&mut packet);
        assert_eq!(refused(&packet), want);
    };
    next(&|p| p.truncate(7), Refusal::Truncated);
    next(&|p| p.extend(hex("07 00")), Refusal::Version);
    next(&|p| p[0] = 0x41, Refusal::Type);
    next(&|p| p[0] = 0x42, Refusal::Kind);
    next(&|p| p[1] = 0x00, Refusal::ChecksumPair);
    next(&|p| p[3] = 0x00, Refusal::Truncated);
    next(&|p| p.splice(8.., hex("01 C0")).for_each(drop), Refusal::Kind);
    next(&|p| p[8] = 0x02, Refusal::Kind);
    next(&|p| p.splice(8.., hex("00 E0")).for_each(drop), Refusal::Kind);
    next(&|p| p[9] = 0x40, Refusal::Truncated);
    next(&|p| p.extend(hex("FF FF FF FF 00 00 00 00 00 00 00")), Refusal::Truncated);
    next(&|p| p.push(0), Refusal::Truncated);
    next(&|p| p.push(0), Refusal::Path);
    next(&|p| p.splice(22.., hex("61 00")).for_each(drop), Refusal::Size);
}

#[test]
fn checksum_pairs() {
    for pair in 0..=255u8 {
        let (words, kind) = (pair >> 4, pair & 15);
        let mut packet = hex("42 00 00 00 00 00 00 07");
        packet[3] = pair;
        packet.extend(vec![9; 4 * usize::from(words)]);
        packet.extend(hex("00 00 00 00 00 00 00 00 00 00 00 00 61 00"));
        let allowed = match kind {
            0 => words == 0,
            1 => words == 1,
            2 => words == 4,
            3 => words == 5,
            _ => words >= 1,
        };
        match allowed {
            true => assert!(read(&packet).is_ok()),
            false => assert_eq!(refused(&packet), Refusal::ChecksumPair),
        }
    }
}

#[test]
fn data_packets() {
    // Width 16, status wanted (bit 15), end of data (bit 16).
    let packet = hex("43 01 80 00 00 00 00 07 07 D0 61 62");
    let want =
        Data { header: Header { flags: 0x01_80_00, id: 7 }, width: 2, timestamp: 8..8, offset: 2_000, payload: 10..12 };
    assert_eq!(read(&packet), Ok(Packet::Data(want)));
    assert_eq!(refused(&packet[..10]), Refusal::NoPayload);
    assert_eq!(refused(&packet[..9]), Refusal::Truncated);

    // Width 64 (bit 8), timestamp (bit 12), the last offset.
    let mut packet = hex("43 88 00 00 FF FF FF FF");
    packet.extend(1..=16);
    packet.extend(hex("FF FF FF FF FF FF FF FF 00"));
    let want = Data {
        header: Header { flags: 0x88_00_00, id: 0xFFFF_FFFF },
        width: 8,
        timestamp: 8..24,
        offset: u64::MAX,
        payload: 32..33,
    };
    assert_eq!(read(&packet), Ok(Packet::Data(want)));
    for len in 0..32 {
        assert_eq!(refused(&packet[..len]), Refusal::Truncated);
    }
    packet[1] = 0x98;
    assert_eq!(refused(&packet), Refusal::Kind);
}

#[test]
fn longest_packet() {
    let mut packet = hex("43 00 00 00 00 00 00 07 00 00");
    packet.resize(65_535, 1);
    assert!(read(&packet).is_ok());
    packet.push(1);
    packet[0] = 0xFF;
    assert_eq!(refused(&packet), Refusal::TooLong);
}

/// The two STATUS of "Passes to be tried", the second as document 02 mends it.
#[test]
fn status_of_the_passes() {
    let packet = hex("44 00 00 00 00 00 00 07 03 E8 0B B8 03 E8 07 D0");
    let want = Success {
        header: Header { flags: 0, id: 7 },
        width: 2,
        timestamp: 8..8,
        progress: 1_000,
        in_response_to: 3_000,
        holes_at: 12,
        holes: vec![Hole { start: 1_000, end: 2_000 }],
    };
    assert_eq!(read(&packet), Ok(Packet::Success(want)));
    assert_eq!(read_hole(&packet, 0), Ok(Hole { start: 1_000, end: 2_000 }));
    assert_eq!(read_hole(&packet, 1), Err(Refusal::Index));
    assert_eq!(read_hole(&packet, u64::MAX), Err(Refusal::Index));
    assert_eq!(refused(&packet[..15]), Refusal::HoleList);
    assert_eq!(refused(&packet[..12]), Refusal::HoleList);
    assert_eq!(refused(&packet[..11]), Refusal::Truncated);

    let packet = hex("44 01 00 00 00 00 00 07 0B B8 0B B7");
    let want = Success {
        header: Header { flags: 0x01_00_00, id: 7 },
        width: 2,
        timestamp: 8..8,
        progress: 3_000,
        in_response_to: 2_999,
        holes_at: 12,
        holes: vec![],
    };
    assert_eq!(read(&packet), Ok(Packet::Success(want)));
    assert_eq!(read_hole(&packet, 0), Err(Refusal::Index));
}

#[test]
fn hole_lists() {
    // Progress 5, In-Response-To 50; bit 14 clear or set.
    let list = |flags: &str, holes: &str| read(&hex(&format!("44 {flags} 00 00 00 00 00 07 00 05 00 32 {holes}")));
    let (clear, set) = ("00", "02");
    let no = Err(Refusal::HoleList);
    assert!(list(clear, "00 05 00 06 00 07 00 32").is_ok());
    assert_eq!(list(clear, ""), no);
    assert!(list(set, "").is_ok());
    assert_eq!(list(clear, "00 06 00 07"), no);
    assert!(list(set, "00 06 00 07").is_ok());
    for flags in [clear, set] {
        assert_eq!(list(flags, "00 05 00 06 00"), no);
        assert_eq!(list(flags, "00 05 00 06 00 07"), no);
        assert_eq!(list(flags, "00 05 00 05"), no);
        assert_eq!(list(flags, "00 05 00 04"), no);
        assert_eq!(list(flags, "00 05 00 06 00 06 00 07"), no);
        assert_eq!(list(flags, "00 05 00 08 00 07 00 09"), no);
        assert_eq!(list(flags, "00 07 00 08 00 05 00 06"), no);
        assert_eq!(list(flags, "00 04 00 06"), no);
        assert_eq!(list(flags, "00 05 00 33"), no);
    }
    // Progress above In-Response-To.
    assert_eq!(refused(&hex("44 02 00 00 00 00 00 07 00 33 00 32")), Refusal::HoleList);
}

/// In-Response-To one less than Progress: with no holes, bit 14 clear and bit 15 set.
#[test]
fn last_status() {
    let status = |flags: &str, rest: &str| read(&hex(&format!("44 {flags} 00 00 00 00 00 07 {rest}")));
    let no = Err(Refusal::HoleList);
    assert!(status("01", "00 32 00 31").is_ok());
    assert!(status("01", "00 01 00 00").is_ok());
    assert!(status("01", "FF FF FF FE").is_ok());
    assert!(status("01", "00 32 00 32").is_ok());
    assert!(status("01", "00 00 00 00").is_ok());
    for flags in ["00", "02", "03"] {
        assert_eq!(status(flags, "00 32 00 31"), no);
        assert_eq!(status(flags, "00 01 00 00"), no);
    }
    assert_eq!(status("01", "00 32 00 30"), no);
    assert_eq!(status("01", "00 31 00 32"), no);
    assert_eq!(status("01", "00 32 00 31 00 32 00 33"), no);
    assert_eq!(status("01", "00 32 00 31 00 30 00 31"), no);
    // Nothing is one less than 0.
    assert_eq!(status("01", "00 00 FF FF"), no);
    assert_eq!(status("81", "00 00 00 00 00 00 00 00 FF FF FF FF FF FF FF FF"), no);
}

#[test]
fn status_with_timestamp() {
    // Width 32 (bit 9), timestamp (bit 12), kind bits set: STATUS has no kind.
    let mut packet = hex("44 78 00 00 00 00 00 07");
    packet.extend([9; 16]);
    packet.extend(hex("00 00 00 00 00 01 00 00 00 00 00 00 00 00 FF FF"));
    let Ok(Packet::Success(status)) = read(&packet) else { panic!("refused") };
    assert_eq!((status.width, status.timestamp, status.holes_at), (4, 8..24, 32));
    assert_eq!(status.holes, [Hole { start: 0, end: 65_535 }]);
}

#[test]
fn failure_status_ignores_the_rest() {
    // Width bits 11, bit 12, and an odd octet after the Id.
    let packet = hex("44 C8 00 0A 00 00 00 07 FF");
    let want = Failure { header: Header { flags: 0xC8_00_0A, id: 7 }, status: 0x0A };
    assert_eq!(read(&packet), Ok(Packet::Failure(want)));
    assert_eq!(read_hole(&packet, 0), Err(Refusal::HoleList));
    assert_eq!(refused(&packet[..7]), Refusal::Truncated);
}

#[test]
fn holes_of_other_types() {
    assert_eq!(read_hole(&metadata(b"a\0"), 0), Err(Refusal::Type));
    assert_eq!(read_hole(&hex("43 C0 00 00 00 00 00 07"), 0), Err(Refusal::Type));
    assert_eq!(read_hole(&hex("84 00 00 00 00 00 00 07"), 0), Err(Refusal::Version));
}
