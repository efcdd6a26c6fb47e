//! BEACON: packets laid out by hand from the figure and the tables of section 4.1, and document 02's refusals in their order.

mod common;

use common::hex;
use paper::layout::Willingness::{self, Cannot, NotNow, Willing};
use paper::layout::{DATA, METADATA, STATUS};
use paper::read::{read, read_hole, read_types, Beacon, FreeSpace, Packet};
use paper::refusal::Refusal;
use paper::table::Table;
use paper::write::{write_beacon, BeaconFields};

fn beacon(packet: &[u8]) -> Beacon {
    match read(packet) {
        Ok(Packet::Beacon(beacon)) => beacon,
        other => panic!("{other:?}"),
    }
}

fn refused(packet: &[u8]) -> Refusal {
    read(packet).unwrap_err()
}

/// What the writer leaves in a buffer of `len` octets 0xEE, with its answer.
fn written(fields: &BeaconFields, len: usize) -> (Result<usize, Refusal>, Vec<u8>) {
    let mut out = vec![0xEE; len];
    let answer = write_beacon(fields, &mut out);
    (answer, out)
}

#[test]
fn every_field() {
    // Bits 8 (largest width 64), 11 (streams), 12 and 13 (will send), 14 (can receive, not now), 17 and 19 (free space, 32 bits).
    let packet = hex("40 9E 50 00 00 10 00 00 64 69 73 68");
    let want = Beacon {
        flags: 0x9E_50_00,
        largest_width: 8,
        bundles: false,
        streams: true,
        send: Willing,
        receive: NotNow,
        free_space: Some(FreeSpace { width: 4, kib: 1 << 20 }),
        endpoint: 8..12,
    };
    assert_eq!(beacon(&packet), want);
    let fields = BeaconFields { flags: 0x9E_50_00, free_space: 1 << 20, endpoint: b"dish" };
    assert_eq!(written(&fields, 12), (Ok(12), packet.clone()));
    assert_eq!(written(&fields, 13), (Ok(12), [packet, vec![0xEE]].concat()));
    assert_eq!(written(&fields, 11), (Err(Refusal::Buffer), vec![0xEE; 11]));
}

#[test]
fn four_octets_are_a_whole_one() {
    let want = Beacon {
        flags: 0,
        largest_width: 2,
        bundles: false,
        streams: false,
        send: Cannot,
        receive: Cannot,
        free_space: None,
        endpoint: 4..4,
    };
    assert_eq!(beacon(&hex("40 00 00 00")), want);
    let none = BeaconFields { flags: 0, free_space: 0, endpoint: &[] };
    assert_eq!(written(&none, 4), (Ok(4), hex("40 00 00 00")));
    assert_eq!(written(&none, 3), (Err(Refusal::Buffer), vec![0xEE; 3]));
}

/// Bits 8 and 9, and bits 10 and 11.
#[test]
fn largest_widths_and_capabilities() {
    for (octet, largest_width, bundles, streams) in
        [(0x00, 2, false, false), (0x50, 4, false, true), (0xA0, 8, true, false), (0xF0, 16, true, true)]
    {
        let read = beacon(&[0x40, octet, 0, 0, b'e']);
        assert_eq!((read.largest_width, read.bundles, read.streams), (largest_width, bundles, streams));
    }
}

/// The tables for bits 12 to 15, every pairing with every other.
#[test]
fn pairings() {
    let named: [Option<Willingness>; 4] = [Some(Cannot), None, Some(NotNow), Some(Willing)];
    for (send, receive) in (0..16).map(|pairs| (pairs / 4, pairs % 4)) {
        let packet = [0x40, (send * 4 + receive) as u8, 0, 0];
        let fields = BeaconFields { flags: u64::from(packet[1]) << 16, free_space: 0, endpoint: &[] };
        match (named[send], named[receive]) {
            (Some(send), Some(receive)) => {
                let read = beacon(&packet);
                assert_eq!((read.send, read.receive), (send, receive));
                assert_eq!(written(&fields, 4), (Ok(4), packet.to_vec()));
            }
            _ => {
                assert_eq!(refused(&packet), Refusal::Beacon);
                assert_eq!(written(&fields, 4), (Err(Refusal::Beacon), vec![0xEE; 4]));
            }
        }
    }
}

/// Bits 17 to 19: the widths, the last number of each, and a packet that ends inside it.
#[test]
fn free_space() {
    for (octet, width, last) in [(0x40, 2, 0xFFFF), (0x50, 4, 0xFFFF_FFFF), (0x60, 8, u64::MAX)] {
        let packet = [vec![0x40, 0, octet, 0], vec![0xFF; width], b"e".to_vec()].concat();
        let read = beacon(&packet);
        assert_eq!((read.free_space, read.endpoint), (Some(FreeSpace { width, kib: last }), 4 + width..5 + width));
        assert_eq!(beacon(&packet[..4 + width]).endpoint, 4 + width..4 + width);
        for len in 4..4 + width {
            assert_eq!(refused(&packet[..len]), Refusal::Truncated);
        }
        let fields = BeaconFields { flags: u64::from(octet) << 8, free_space: last, endpoint: b"e" };
        assert_eq!(written(&fields, packet.len()), (Ok(packet.len()), packet));
        if last < u64::MAX {
            assert_eq!(written(&BeaconFields { free_space: last + 1, ..fields }, 99).0, Err(Refusal::Field));
        }
    }
}

/// Where bit 17 is clear, bits 18 and 19 are kept and no rule tests them; and so are bits 16 and 20 to 23 always.
#[test]
fn flags_without_a_name() {
    let packet = hex("40 00 BF 00 00 01");
    let read = beacon(&packet);
    assert_eq!((read.flags, read.free_space, read.endpoint), (0x00_BF_00, None, 4..6));
    let fields = BeaconFields { flags: 0x00_BF_00, free_space: 0, endpoint: &[0, 1] };
    assert_eq!(written(&fields, 6), (Ok(6), packet));
    // A field of no bits holds only 0.
    assert_eq!(written(&BeaconFields { free_space: 1, ..fields }, 99).0, Err(Refusal::Field));
}

#[test]
fn endpoints() {
    // Any octets, zeros too.
    let packet = hex("40 00 00 00 00 FF 1B 0A 00");
    assert_eq!(beacon(&packet).endpoint, 4..9);
    let mut longest = hex("40 00 40 00 00 07");
    longest.resize(65_535, 0xAA);
    assert_eq!(beacon(&longest).endpoint, 6..65_535);
    let fields = BeaconFields { flags: 0x4000, free_space: 7, endpoint: &[0xAA; 65_529] };
    assert_eq!(written(&fields, 65_535), (Ok(65_535), longest.clone()));
    let longer = BeaconFields { endpoint: &[0xAA; 65_530], ..fields };
    assert_eq!(written(&longer, 65_536), (Err(Refusal::TooLong), vec![0xEE; 65_536]));
    longest.push(0xAA);
    assert_eq!(refused(&longest), Refusal::TooLong);
}

#[test]
fn refusals_in_their_order() {
    // Everything is wrong; the faults are mended one after the other.
    let mut packet = hex("80 05 70 01 00 00 00");
    let mut next = |mend: &dyn Fn(&mut Vec<u8>), want: Refusal| {
        mend(&mut packet);
        assert_eq!(refused(&packet), want);
    };
    next(&|_| (), Refusal::Truncated);
    next(&|p| p.push(0), Refusal::Version);
    next(&|p| p[0] = 0x45, Refusal::Type);
    next(&|p| p[0] = 0x40, Refusal::Beacon);
    next(&|p| p[3] = 0x00, Refusal::Beacon);
    next(&|p| p[1] = 0x0D, Refusal::Beacon);
    next(&|p| p[1] = 0x07, Refusal::Beacon);
    // A free space of 128 bits: 1, then 5.
    next(&|p| p[1] = 0x0F, Refusal::Truncated);
    next(&|p| p.resize(19, 1), Refusal::Truncated);
    next(&|p| p.push(1), Refusal::Width);
    packet[2] = 0x60;
    assert!(read(&packet).is_ok());

    let long = vec![1; 65_535];
    let refused = |flags: u64, free_space: u64, endpoint: &[u8]| {
        write_beacon(&BeaconFields { flags, free_space, endpoint }, &mut []).unwrap_err()
    };
    assert_eq!(refused(0x0105_7001, 0, &long), Refusal::Field);
    assert_eq!(refused(0x05_40_01, 1 << 16, &long), Refusal::Field);
    // A free space of 128 bits holds any number.
    assert_eq!(refused(0x05_70_01, u64::MAX, &long), Refusal::Beacon);
    assert_eq!(refused(0x0D_70_00, 0, &long), Refusal::Beacon);
    assert_eq!(refused(0x07_70_00, 0, &long), Refusal::Beacon);
    assert_eq!(refused(0x0F_70_01, 0, &long), Refusal::Beacon);
    assert_eq!(refused(0x0F_70_00, u64::MAX, &long[..65_516]), Refusal::TooLong);
    assert_eq!(refused(0x0F_70_00, u64::MAX, &long[..65_515]), Refusal::Buffer);
    assert_eq!(refused(0x0F_40_00, 0, &long[..65_530]), Refusal::TooLong);
    assert_eq!(refused(0x0F_40_00, 0, &long[..65_529]), Refusal::Buffer);
}

/// "in every operation a packet of type 0 that begins 0 1 needs four octets, not eight"
#[test]
fn short_packets_in_every_operation() {
    for (first, len) in (0..=255).flat_map(|first| (0..=12).map(move |len| (first, len))) {
        let packet = &[vec![first], vec![0; 12]].concat()[..len];
        for kind in [METADATA, DATA, STATUS] {
            let want = match first {
                0x40 if len < 4 => Some(Refusal::Truncated),
                0x40 => Some(Refusal::Type),
                _ if len < 8 => Some(Refusal::Truncated),
                _ if first >> 6 != 1 => Some(Refusal::Version),
                _ if u64::from(first & 0x3F) != kind => Some(Refusal::Type),
                _ => None,
            };
            let got = read_types(packet, &[kind]);
            match want {
                Some(want) => assert_eq!(got, Err(want), "{packet:02x?}"),
                None => assert!(!matches!(got, Err(Refusal::Version | Refusal::Type)), "{packet:02x?}"),
            }
        }
    }
    for len in 0..=12 {
        let packet = &[vec![0x40], vec![0; 12]].concat()[..len];
        let want = if len < 4 { Refusal::Truncated } else { Refusal::Type };
        let mut table = Table::default();
        assert_eq!(table.open(packet), Err(want));
        assert_eq!(table.record(packet), Err(want));
        assert_eq!(table.try_record(packet), Err(want));
        assert_eq!(read_hole(packet, 0), Err(want));
        assert_eq!(read(packet).is_ok(), len >= 4);
    }
}
