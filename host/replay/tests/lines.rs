//! Passes laid out by hand, each record with the lines that were worked out for it.

use paper_replay::replay;

/// Octets from hexadecimal; spaces don't matter.
fn hex(text: &str) -> Vec<u8> {
    let digits: Vec<u32> = text.chars().filter(|c| !c.is_whitespace()).map(|c| c.to_digit(16).unwrap()).collect();
    assert_eq!(digits.len() % 2, 0, "{text}");
    digits.chunks(2).map(|pair| (16 * pair[0] + pair[1]) as u8).collect()
}

fn record(kind: u8, body: &[u8]) -> Vec<u8> {
    [&[kind][..], &(body.len() as u32).to_be_bytes(), body].concat()
}

fn printed(pass: &[u8]) -> String {
    let mut output = vec![];
    replay(pass, &mut output).unwrap();
    String::from_utf8(output).unwrap()
}

/// Replays records, given as kind, body and lines, and compares all lines.
fn check(records: &[(char, &str, &[&str])]) {
    let records: Vec<_> = records.iter().map(|&(kind, body, lines)| (kind, hex(body), lines)).collect();
    check_octets(&records);
}

fn check_octets(records: &[(char, Vec<u8>, &[&str])]) {
    let mut pass = vec![];
    let mut expected = String::new();
    for (number, (kind, body, lines)) in (1..).zip(records) {
        pass.extend(record(*kind as u8, body));
        for line in *lines {
            expected += &format!("{number} {line}\n");
        }
    }
    assert_eq!(printed(&pass), expected);
}

/// METADATA of transfer 7, width 16, of 3,000 octets: no checksum, size in 16 bits, times 0, path page611.pla.
const PAGE: &str = "42000000 00000007  0000 0bb8 00000000 00000000  706167653631312e706c61 00";

/// DATA of transfer 7 at width 16, with these flags.
fn data(flags: u32, offset: u16, len: usize) -> Vec<u8> {
    let word = (0x43 << 24) | flags;
    [&word.to_be_bytes()[..], &hex("00000007"), &offset.to_be_bytes(), &vec![0x61; len]].concat()
}

/// STATUS of transfer 7 at width 16, with the hole from 1,000 to 1,600.
const HOLE: &str = "44000000 00000007 03e8 0640 03e80640";

/// The body of a plan or of a check: a largest payload and other numbers, of 8 octets each, then a packet.
fn plan(largest: u64, numbers: &[u64], packet: &str) -> Vec<u8> {
    let numbers = [&[largest], numbers].concat();
    [numbers.iter().flat_map(|number| number.to_be_bytes()).collect(), hex(packet)].concat()
}

const ASKED: u32 = 0x01_0000;
const END: u32 = 0x00_8000;

#[test]
fn sample_lines() {
    check_octets(&[
        ('F', vec![], &["fresh"]),
        ('O', hex(PAGE), &["open id=7 width=16 length=3000 edge=0 complete=0 new"]),
        ('O', hex(PAGE), &["open id=7 width=16 length=3000 edge=0 complete=0 already-open"]),
        ('D', data(0, 0, 1_000), &["record id=7 offset=0 length=1000 edge=1000 complete=0 absorbed=0"]),
        ('D', data(0, 2_000, 1_000), &["record id=7 offset=2000 length=1000 edge=3000 complete=0 absorbed=0"]),
        ('S', hex("00000007 0000000000000000 00 0000ffff"), &["status 440000000000000703e80bb803e807d0"]),
        ('D', data(0, 2_500, 501), &["refused 14 code=9"]),
        ('O', hex(PAGE), &["open id=7 width=16 length=3000 edge=3000 complete=0 already-open"]),
        ('D', data(0, 1_000, 1_000), &["record id=7 offset=1000 length=1000 edge=3000 complete=1 absorbed=2"]),
        ('S', hex("00000007 0000000000000000 00 0000000c"), &["status 44010000000000070bb80bb7"]),
        ('C', hex("00000007"), &["close id=7"]),
        ('C', hex("00000007"), &["refused 12 code=6"]),
        (
            'R',
            hex(PAGE),
            &["metadata id=7 flags=000000 width=16 checksum= properties=0000 size=3000 mtime=0 ctime=0 \
               path=706167653631312e706c61"],
        ),
        ('R', data(0, 0, 1_000), &["data id=7 flags=000000 width=16 timestamp= offset=0 length=1000"]),
        (
            'R',
            hex("44000000 00000007 03e8 0bb8 03e807d0 09c40a28"),
            &["success id=7 flags=000000 width=16 timestamp= progress=1000 in-response-to=3000 \
               holes=1000-2000,2500-2600"],
        ),
        ('R', hex("44000006 00000007"), &["failure id=7 status=6 flags=000006"]),
        ('P', data(0, 0, 1), &["refused 12 code=6", "send 4400000600000007"]),
        ('L', plan(400, &[], HOLE), &["plan count=2 pieces=1000+400,1400+200"]),
        ('K', plan(400, &[2, 1_000, 400, 1_400, 200], HOLE), &["check passes=1"]),
        ('X', hex("01 02 03"), &["unknown kind 58"]),
        ('F', vec![], &["fresh"]),
    ]);
}

#[test]
fn plans() {
    let complete = "44010000 00000007 0bb8 0bb7";
    check_octets(&[
        ('L', plan(65_000, &[], HOLE), &["plan count=1 pieces=1000+600"]),
        ('L', plan(1_000, &[], complete), &["plan count=0 pieces="]),
        ('L', plan(0, &[], "44000006 00000007"), &["refused 11 code=0"]),
        ('L', plan(0, &[], HOLE), &["refused 21 code=0"]),
        ('L', plan(65_001, &[], HOLE), &["refused 21 code=0"]),
        ('L', plan(1, &[], "44000000 00000007 0000 1001 0000 1001"), &["refused 20 code=0"]),
        ('L', plan(0, &[], ""), &["refused 1 code=0"]),
        ('L', [plan(1, &[], ""), vec![0; 65_536]].concat(), &["refused 2 code=0"]),
        ('L', vec![0; 7], &["bad length"]),
        ('L', vec![], &["bad length"]),
    ]);
}

#[test]
fn checks() {
    let most = |count: u64| [vec![count], (0..count).flat_map(|at| [at, 1]).collect()].concat();
    let of = |count: u64| format!("44000000 00000007 0000 {count:04x} 0000 {count:04x}");
    check_octets(&[
        ('K', plan(400, &[3, 1_000, 1, 1_001, 399, 1_400, 200], HOLE), &["check passes=1"]),
        ('K', plan(400, &[1, 1_000, 400], HOLE), &["check passes=0"]),
        ('K', plan(400, &[2, 1_000, 400, 1_400, u64::MAX], HOLE), &["check passes=0"]),
        ('K', plan(400, &[0], HOLE), &["check passes=0"]),
        ('K', plan(65_001, &[0], HOLE), &["refused 21 code=0"]),
        ('K', plan(400, &[0], ""), &["refused 1 code=0"]),
        ('K', plan(400, &[2, 1_000, 400, 1_400], ""), &["bad length"]),
        ('K', plan(400, &[u64::MAX], HOLE), &["bad length"]),
        ('K', plan(400, &[], ""), &["bad length"]),
        ('K', plan(1, &most(4_096), &of(4_096)), &["check passes=1"]),
        ('K', plan(1, &most(4_097), &of(4_097)), &["bad length"]),
        ('K', [plan(1, &most(4_096), ""), vec![0; 65_536]].concat(), &["refused 2 code=0"]),
        ('K', [plan(1, &most(4_096), ""), vec![0; 200_000]].concat(), &["refused 2 code=0"]),
    ]);
}

#[test]
fn fields_of_every_width() {
    check(&[
        // CRC of one word, unruled bits set, size in 64 bits beside a width of 32, times, properties with unruled bits.
        (
            'R',
            "42400711 ffffffff  deadbeef  ac9f 0000000000000009 ffffffff 00000001  61ff 00",
            &["metadata id=4294967295 flags=400711 width=32 checksum=deadbeef properties=ac9f size=9 mtime=4294967295 \
               ctime=1 path=61ff"],
        ),
        (
            'R',
            "42800000 00000000  0080 ffffffffffffffff 00000000 00000000  2f 00",
            &["metadata id=0 flags=800000 width=64 checksum= properties=0080 size=18446744073709551615 mtime=0 ctime=0 \
               path=2f"],
        ),
        (
            'R',
            "43890000 0000000a  000102030405060708090a0b0c0d0e0f ffffffffffffffff 00",
            &["data id=10 flags=890000 width=64 timestamp=000102030405060708090a0b0c0d0e0f \
               offset=18446744073709551615 length=1"],
        ),
        (
            'R',
            "444b0000 0000000a  f0f1f2f3f4f5f6f7f8f9fafbfcfdfeff 00000001 00000100",
            &["success id=10 flags=4b0000 width=32 timestamp=f0f1f2f3f4f5f6f7f8f9fafbfcfdfeff progress=1 \
               in-response-to=256 holes="],
        ),
        (
            'R',
            "44800000 0000000a  0000000000000000 ffffffffffffffff  0000000000000000 fffffffffffffffe",
            &["success id=10 flags=800000 width=64 timestamp= progress=0 in-response-to=18446744073709551615 \
               holes=0-18446744073709551614"],
        ),
        ('R', "44c000ff 0000000a  99", &["failure id=10 status=255 flags=c000ff"]),
    ]);
}

/// Width bits 11: 16 octets each, of which the upper eight are zero; else 5, once all 16 are there.
#[test]
fn descriptors_of_128_bits() {
    let none = "00000000000000000000000000000000";
    let offset = "000000000000000000000000000007d0";
    let upper = "00000000000000010000000000000000";
    let data = |offset: &str| hex(&format!("43c10000 00000009 {offset} 6162"));
    let metadata = |size: &str| hex(&format!("42c00000 00000009 00c0 {size} 00000001 00000002 61 00"));
    let success = |rest: &[&str]| hex(&format!("44c00000 00000009 {}", rest.join(" ")));
    check_octets(&[
        (
            'R',
            metadata(offset),
            &["metadata id=9 flags=c00000 width=128 checksum= properties=00c0 size=2000 mtime=1 ctime=2 path=61"],
        ),
        ('R', metadata(upper), &["refused 5 code=9"]),
        ('R', metadata(upper)[..26].to_vec(), &["refused 5 code=9"]),
        ('R', metadata(upper)[..25].to_vec(), &["refused 1 code=0"]),
        ('P', metadata(offset), &["open id=9 width=128 length=2000 edge=0 complete=0 new"]),
        ('R', data(offset), &["data id=9 flags=c10000 width=128 timestamp= offset=2000 length=2"]),
        ('P', data(upper), &["refused 5 code=9", "send 4400000900000009"]),
        ('R', data(upper)[..24].to_vec(), &["refused 5 code=9"]),
        ('R', data(offset)[..24].to_vec(), &["refused 10 code=1"]),
        (
            'P',
            data("000000000000000000000000000007ce"),
            &[
                "record id=9 offset=1998 length=2 edge=2000 complete=0 absorbed=0",
                concat!(
                    "send 44c0000000000009",
                    "00000000000000000000000000000000000000000000000000000000000007d0",
                    "00000000000000000000000000000000000000000000000000000000000007ce"
                ),
            ],
        ),
        ('D', hex("43800000 00000009 0000000000000000 61"), &["refused 13 code=9"]),
        (
            'R',
            success(&[none, offset, none, offset]),
            &["success id=9 flags=c00000 width=128 timestamp= progress=0 in-response-to=2000 holes=0-2000"],
        ),
        ('R', success(&[upper]), &["refused 5 code=9"]),
        ('R', success(&[none, upper]), &["refused 5 code=9"]),
        ('R', success(&[none, offset, upper]), &["refused 5 code=9"]),
        ('R', success(&[none, offset, none]), &["refused 11 code=0"]),
        ('R', success(&[offset, none, none, upper]), &["refused 5 code=9"]),
        ('S', hex("00000009 0000000000000000 00 00000047"), &["refused 20 code=0"]),
    ]);
}

/// "its STATUS carries them with bit 12 set; before the first, none"; what was written reads back with `timestamp=`.
#[test]
fn timestamps() {
    let stamped = |octet: u8, flags: u32, offset: u16, len: usize| {
        let bare = data(0x08_0000 | flags, offset, len);
        [&bare[..8], &[octet; 16], &bare[8..]].concat()
    };
    let ask = |room: u8| hex(&format!("00000007 0000000000000000 00 000000{room:02x}"));
    let repeat: &[&str] = &["record id=7 offset=0 length=1000 edge=1000 complete=0 absorbed=1"];
    let bare = "status 440000000000000703e803e8";
    let (first, zeros) = ("5a".repeat(16), "00".repeat(16));
    let with_first = format!("44080000 00000007 {first} 03e803e8");
    let written = format!("status {}", with_first.replace(' ', ""));
    let read = format!("success id=7 flags=080000 width=16 timestamp={first} progress=1000 in-response-to=1000 holes=");
    let with_zeros = format!("send 4408000000000007{zeros}03e803e8");
    let last = format!("send 4409000000000007{zeros}0bb80bb7");
    check_octets(&[
        ('O', hex(PAGE), &["open id=7 width=16 length=3000 edge=0 complete=0 new"]),
        ('D', data(0, 0, 1_000), &["record id=7 offset=0 length=1000 edge=1000 complete=0 absorbed=0"]),
        ('S', ask(12), &[bare]),
        ('D', stamped(0x5A, 0, 0, 1_000), repeat),
        ('S', ask(28), &[&written]),
        ('S', ask(27), &["refused 20 code=0"]),
        ('R', hex(&with_first), &[&read]),
        ('P', hex(&with_first), &[&read]),
        // These leave it.
        ('D', data(0, 0, 1_000), repeat),
        ('D', stamped(0x11, 0, 2_999, 2), &["refused 14 code=9"]),
        ('D', stamped(0x11, END, 0, 1_000), &["refused 15 code=1"]),
        ('O', hex(PAGE), &["open id=7 width=16 length=3000 edge=1000 complete=0 already-open"]),
        ('S', ask(28), &[&written]),
        // Zeros are one too; complete with it; closed it is forgotten.
        ('P', stamped(0, ASKED, 0, 1_000), &[repeat[0], &with_zeros]),
        (
            'P',
            data(ASKED, 1_000, 2_000),
            &["record id=7 offset=1000 length=2000 edge=3000 complete=1 absorbed=1", &last],
        ),
        ('C', hex("00000007"), &["close id=7"]),
        ('O', hex(PAGE), &["open id=7 width=16 length=3000 edge=0 complete=0 new"]),
        ('D', data(0, 0, 1_000), &["record id=7 offset=0 length=1000 edge=1000 complete=0 absorbed=0"]),
        ('S', ask(28), &[bare]),
    ]);
}

#[test]
fn opening_and_closing_at_every_width() {
    check(&[
        (
            'O',
            "42800000 00000001  0080 ffffffffffffffff 00000000 00000000  61 00",
            &["open id=1 width=64 length=18446744073709551615 edge=0 complete=0 new"],
        ),
        (
            'O',
            "42400000 00000002  0000 0000 00000000 00000000  61 00",
            &["open id=2 width=32 length=0 edge=0 complete=1 new"],
        ),
        // The same Id with another width; a size over the width.
        ('O', "42000000 00000002  0000 0000 00000000 00000000  61 00", &["refused 18 code=9"]),
        ('O', "42000000 00000003  0040 00010000 00000000 00000000  61 00", &["refused 9 code=9"]),
        ('D', "43800000 00000001  ffffffffffffffff 61", &["refused 14 code=9"]),
        (
            'D',
            "43800000 00000001  fffffffffffffffe 61",
            &["record id=1 offset=18446744073709551614 length=1 edge=18446744073709551615 complete=0 absorbed=0"],
        ),
        (
            'S',
            "00000001 0000000000000000 00 ffffffff",
            &[concat!(
                "status 4480000000000001",
                "0000000000000000ffffffffffffffff",
                "0000000000000000fffffffffffffffe"
            )],
        ),
        ('D', "43400000 00000001  00000000 61", &["refused 13 code=9"]),
        ('C', "00000001", &["close id=1"]),
        ('C', "00000002", &["close id=2"]),
        ('C', "00000000", &["refused 12 code=6"]),
    ]);
}

#[test]
fn status_takes_k_unasked_and_room() {
    let body = |k: u64, unasked: u8, room: u32| {
        [&hex("00000007")[..], &k.to_be_bytes(), &[unasked], &room.to_be_bytes()].concat()
    };
    check_octets(&[
        ('O', hex(PAGE), &["open id=7 width=16 length=3000 edge=0 complete=0 new"]),
        ('S', body(0, 0, 12), &["status 440000000000000700000000"]),
        ('S', body(0, 0, 11), &["refused 20 code=0"]),
        ('S', body(1, 0, 12), &["refused 19 code=0"]),
        ('D', data(0, 5, 5), &["record id=7 offset=5 length=5 edge=10 complete=0 absorbed=0"]),
        ('D', data(0, 20, 1), &["record id=7 offset=20 length=1 edge=21 complete=0 absorbed=0"]),
        ('S', body(0, 0, 20), &["status 44000000000000070000001500000005000a0014"]),
        // One doesn't fit; one is skipped; both with bit 14.
        ('S', body(0, 0, 19), &["status 44020000000000070000001500000005"]),
        ('S', body(1, 1, 65_536), &["status 440300000000000700000015000a0014"]),
        ('S', body(0, 255, 20), &["status 44010000000000070000001500000005000a0014"]),
        ('S', body(0, 0, 15), &["refused 20 code=0"]),
        ('S', body(2, 0, 20), &["refused 19 code=0"]),
        ('S', body(1 << 63, 0, 0), &["refused 19 code=0"]),
        ('S', hex("00000008 0000000000000005 00 00000000"), &["refused 12 code=6"]),
    ]);
}

#[test]
fn packets_off_the_dish() {
    check_octets(&[
        ('P', hex(PAGE), &["open id=7 width=16 length=3000 edge=0 complete=0 new"]),
        ('P', hex(PAGE), &["open id=7 width=16 length=3000 edge=0 complete=0 already-open"]),
        ('P', data(0, 0, 1_000), &["record id=7 offset=0 length=1000 edge=1000 complete=0 absorbed=0"]),
        (
            'P',
            data(ASKED, 2_000, 500),
            &[
                "record id=7 offset=2000 length=500 edge=2500 complete=0 absorbed=0",
                "send 440000000000000703e809c403e807d0",
            ],
        ),
        ('P', data(ASKED | END, 1_000, 1_000), &["refused 15 code=1", "send 4400000100000007"]),
        ('P', data(END, 2_500, 500), &["record id=7 offset=2500 length=500 edge=3000 complete=0 absorbed=1"]),
        (
            'P',
            data(ASKED, 1_000, 1_000),
            &["record id=7 offset=1000 length=1000 edge=3000 complete=1 absorbed=2", "send 44010000000000070bb80bb7"],
        ),
        ('P', data(ASKED, 3_000, 1), &["refused 14 code=9", "send 4400000900000007"]),
        ('P', data(ASKED, 0, 0), &["refused 10 code=1", "send 4400000100000007"]),
        // STATUS is read and nothing is sent, also where it is a failure.
        (
            'P',
            hex("44000000 00000007 0000 0000"),
            &["success id=7 flags=000000 width=16 timestamp= progress=0 in-response-to=0 holes="],
        ),
        ('P', hex("4401000a 00000007"), &["failure id=7 status=10 flags=01000a"]),
        ('P', hex("44000000 00000007 0000 0001"), &["refused 11 code=0"]),
        (
            'P',
            hex("44c00000 fedcba98 0000000000000001 0000000000000000"),
            &["refused 5 code=9", "send 44000009fedcba98"],
        ),
        // REQUEST and a type without a name; too short for an Id; another version.
        ('P', hex("41000000 00000102"), &["refused 4 code=10", "send 4400000a00000102"]),
        ('P', hex("7fffffff 00000000 33"), &["refused 4 code=10", "send 4400000a00000000"]),
        ('P', hex("42000000 000007"), &["refused 1 code=0"]),
        ('P', hex("40"), &["refused 1 code=0"]),
        ('P', vec![], &["refused 1 code=0"]),
        ('P', hex("00000000 00000007"), &["refused 3 code=0"]),
        ('P', hex("83000000 00000007 0000 61"), &["refused 3 code=0"]),
        ('P', hex("42000000 00000007 00"), &["refused 1 code=0"]),
        ('P', hex("42000001 00000007 00"), &["refused 7 code=1", "send 4400000100000007"]),
    ]);
}

/// BEACON, of plain reading and off the dish: the line is the same, and nothing is sent, also where it is refused.
#[test]
fn beacons() {
    let page = ["open id=7 width=16 length=3000 edge=0 complete=0 new"];
    let beacons: [(&str, &str); 15] = [
        (
            "409e5000 00100000 64697368",
            "beacon flags=9e5000 largest-width=64 bundles=0 streams=1 send=willing receive=not-now free-width=32 \
             free=1048576 endpoint=64697368",
        ),
        (
            "40000000",
            "beacon flags=000000 largest-width=16 bundles=0 streams=0 send=cannot receive=cannot free-width= free= \
             endpoint=",
        ),
        (
            "40eb3f00 00",
            "beacon flags=eb3f00 largest-width=128 bundles=1 streams=0 send=not-now receive=willing free-width= free= \
             endpoint=00",
        ),
        (
            "40404000 ffff 1b0a",
            "beacon flags=404000 largest-width=32 bundles=0 streams=0 send=cannot receive=cannot free-width=16 \
             free=65535 endpoint=1b0a",
        ),
        (
            "40006000 ffffffffffffffff",
            "beacon flags=006000 largest-width=16 bundles=0 streams=0 send=cannot receive=cannot free-width=64 \
             free=18446744073709551615 endpoint=",
        ),
        (
            "40007000 0000000000000000ffffffffffffffff 64",
            "beacon flags=007000 largest-width=16 bundles=0 streams=0 send=cannot receive=cannot free-width=128 \
             free=18446744073709551615 endpoint=64",
        ),
        ("400000", "refused 1 code=0"),
        ("40", "refused 1 code=0"),
        ("40040000 00000007", "refused 26 code=0"),
        ("40010000 00000007", "refused 26 code=0"),
        ("40007001 00000007", "refused 26 code=0"),
        ("40007000 00000000000000010000000000000000", "refused 5 code=9"),
        ("40007000 000000000000000100000000000000", "refused 1 code=0"),
        ("40006000 00000000000000", "refused 1 code=0"),
        ("80000000 00000007", "refused 3 code=0"),
    ];
    for (packet, line) in beacons {
        check_octets(&[
            ('O', hex(PAGE), &page),
            ('R', hex(packet), &[line]),
            ('P', hex(packet), &[line]),
            ('D', data(0, 0, 1_000), &["record id=7 offset=0 length=1000 edge=1000 complete=0 absorbed=0"]),
        ]);
    }
    let longest = [hex("40000000"), vec![0xab; 65_531]].concat();
    let line = format!(
        "beacon flags=000000 largest-width=16 bundles=0 streams=0 send=cannot receive=cannot free-width= free= \
         endpoint={}",
        "ab".repeat(65_531)
    );
    check_octets(&[('R', longest.clone(), &[&line]), ('P', longest, &[&line])]);
}

#[test]
fn all_holes_are_sent() {
    let mut pass = record(b'P', &hex(PAGE));
    let mut expected = "1 open id=7 width=16 length=3000 edge=0 complete=0 new\n".to_string();
    for i in 0..65 {
        pass.extend(record(b'P', &data(if i < 63 { 0 } else { ASKED }, 2 * i + 1, 1)));
        let (number, offset, edge) = (i + 2, 2 * i + 1, 2 * i + 2);
        if i < 64 {
            expected += &format!("{number} record id=7 offset={offset} length=1 edge={edge} complete=0 absorbed=0\n");
        }
    }
    let holes: String = (0..64).map(|i| format!("{:04x}{:04x}", 2 * i, 2 * i + 1)).collect();
    expected += &format!("65 send 440000000000000700000080{holes}\n");
    expected += "66 refused 16 code=3\n66 send 4400000300000007\n";
    assert_eq!(printed(&pass), expected);
}

#[test]
fn an_operation_takes_its_own_type() {
    check_octets(&[
        ('O', data(0, 0, 1), &["refused 4 code=10"]),
        ('D', hex(PAGE), &["refused 4 code=10"]),
        ('D', hex("44000006 00000007"), &["refused 4 code=10"]),
        ('R', hex("41000000 00000007"), &["refused 4 code=10"]),
        ('O', hex("40000000"), &["refused 4 code=10"]),
        ('D', hex("40000000"), &["refused 4 code=10"]),
        ('D', hex("40050000 000000"), &["refused 4 code=10"]),
        ('O', hex("400000"), &["refused 1 code=0"]),
        ('O', hex("41000000 000000"), &["refused 1 code=0"]),
        ('D', data(ASKED, 0, 1), &["refused 12 code=6"]),
    ]);
}

#[test]
fn a_seventeenth_transfer() {
    let page = |id: u8| [&hex("42000000 000000"), &[id][..], &hex("0000 0bb8 00000000 00000000 61 00")].concat();
    let mut pass: Vec<u8> = (0..17).flat_map(|id| record(b'O', &page(id))).collect();
    pass.extend(record(b'C', &hex("00000003")));
    pass.extend(record(b'O', &page(16)));
    pass.extend(record(b'F', &[]));
    pass.extend(record(b'C', &hex("00000003")));
    let printed = printed(&pass);
    let last: Vec<&str> = printed.lines().skip(16).collect();
    assert_eq!(
        last,
        [
            "17 refused 17 code=3",
            "18 close id=3",
            "19 open id=16 width=16 length=3000 edge=0 complete=0 new",
            "20 fresh",
            "21 refused 12 code=6"
        ]
    );
}

/// A CRC-32c (checksum type 1) reads, and opens nothing new; of an Id that is open it says nothing.
#[test]
fn no_crc_32c_on_anything_new() {
    let old = |id: u8, length: u16| {
        let entry = [&hex("deadbeef 0000"), &length.to_be_bytes()[..], &hex("00000000 00000000 61 00")].concat();
        [&hex("42000011 000000"), &[id][..], &entry].concat()
    };
    let again = "open id=7 width=16 length=3000 edge=0 complete=0 already-open";
    check_octets(&[
        ('O', old(7, 3_000), &["refused 23 code=1"]),
        ('P', old(7, 3_000), &["refused 23 code=1", "send 4400000100000007"]),
        (
            'R',
            old(7, 3_000),
            &["metadata id=7 flags=000011 width=16 checksum=deadbeef properties=0000 size=3000 mtime=0 ctime=0 path=61"],
        ),
        ('O', hex(PAGE), &["open id=7 width=16 length=3000 edge=0 complete=0 new"]),
        ('O', old(7, 3_000), &[again]),
        ('P', old(7, 3_000), &[again]),
        ('P', old(7, 2_999), &["refused 18 code=9", "send 4400000900000007"]),
        ('P', old(8, 3_000), &["refused 23 code=1", "send 4400000100000008"]),
        ('C', hex("00000007"), &["close id=7"]),
        ('O', old(7, 3_000), &["refused 23 code=1"]),
    ]);
    // With 16 open it is told before that there is no room.
    let page = |id: u8| [&hex("42000000 000000"), &[id][..], &hex("0000 0bb8 00000000 00000000 61 00")].concat();
    let mut pass: Vec<u8> = (0..16).flat_map(|id| record(b'O', &page(id))).collect();
    pass.extend(record(b'O', &page(16)));
    pass.extend(record(b'O', &old(16, 3_000)));
    let printed = printed(&pass);
    let last: Vec<&str> = printed.lines().skip(16).collect();
    assert_eq!(last, ["17 refused 17 code=3", "18 refused 23 code=1"]);
}

#[test]
fn bad_lengths() {
    check_octets(&[
        ('O', hex(PAGE), &["open id=7 width=16 length=3000 edge=0 complete=0 new"]),
        ('F', vec![0], &["bad length"]),
        ('F', vec![0; 65_536], &["bad length"]),
        ('C', vec![], &["bad length"]),
        ('C', hex("000007"), &["bad length"]),
        ('C', hex("0000000007"), &["bad length"]),
        ('C', vec![0; 65_536], &["bad length"]),
        ('S', hex("00000007 0000000000000000 00 0000ff"), &["bad length"]),
        ('S', hex("00000007 0000000000000000 00 0000ffff 00"), &["bad length"]),
        ('S', vec![], &["bad length"]),
        ('S', vec![0; 65_536], &["bad length"]),
        ('C', hex("00000007"), &["close id=7"]),
    ]);
}

#[test]
fn longest_packets() {
    let longest = [data(ASKED, 0, 1), vec![0x61; 65_535 - 11]].concat();
    let too_long = [&longest[..], &[0x61]].concat();
    let read = ["data id=7 flags=010000 width=16 timestamp= offset=0 length=65525"];
    check_octets(&[
        ('R', longest.clone(), &read),
        ('P', longest, &["refused 12 code=6", "send 4400000600000007"]),
        ('O', too_long.clone(), &["refused 2 code=0"]),
        ('D', too_long.clone(), &["refused 2 code=0"]),
        ('R', too_long.clone(), &["refused 2 code=0"]),
        ('P', too_long.clone(), &["refused 2 code=0"]),
        ('p', too_long, &["unknown kind 70"]),
        ('\n', vec![], &["unknown kind 0a"]),
        ('F', vec![], &["fresh"]),
    ]);
}

#[test]
fn every_other_kind_is_unknown() {
    for kind in (0..=255).filter(|kind| !b"FODRSCPWLKTM".contains(kind)) {
        let pass = [record(kind, b"F\0\0\0\0"), record(b'F', &[])].concat();
        assert_eq!(printed(&pass), format!("1 unknown kind {kind:02x}\n2 fresh\n"));
    }
}

#[test]
fn times_have_no_line_and_change_nothing() {
    check_octets(&[
        ('W', hex("18a7 0000 0000 0001"), &[]),
        ('O', hex(PAGE), &["open id=7 width=16 length=3000 edge=0 complete=0 new"]),
        ('W', vec![0xff; 8], &[]),
        ('W', vec![0; 8], &[]),
        ('W', vec![0; 7], &["bad length"]),
        ('W', vec![0; 9], &["bad length"]),
        ('W', vec![], &["bad length"]),
        ('W', vec![0; 65_536], &["bad length"]),
        ('O', hex(PAGE), &["open id=7 width=16 length=3000 edge=0 complete=0 already-open"]),
        ('W', vec![0; 8], &[]),
    ]);
}

#[test]
fn cut_short_at_every_place() {
    assert_eq!(printed(&[]), "");
    // The first record ends at octet 5, the second at 14, the third at 22, the last at 27.
    let pass =
        [record(b'F', &[]), record(b'C', &hex("00000007")), record(b'X', &hex("010203")), record(b'F', &[])].concat();
    let lines = ["1 fresh\n", "2 refused 12 code=6\n", "3 unknown kind 58\n", "4 fresh\n"];
    let ends = [0, 5, 14, 22, 27];
    assert_eq!(pass.len(), 27);
    for at in 0..=pass.len() {
        let whole = ends.iter().rposition(|&end| end <= at).unwrap();
        let mut expected = lines[..whole].concat();
        if at != ends[whole] {
            expected += &format!("{} cut short\n", whole + 1);
        }
        assert_eq!(printed(&pass[..at]), expected, "cut at {at}");
    }
}

#[test]
fn cut_short_comes_before_all_else() {
    // Whatever the kind and the length would have given.
    for kind in *b"FODRSCPWLKX" {
        for length in [1u32, 6, 18, 65_535, 65_536, u32::MAX] {
            let head = [&[kind][..], &length.to_be_bytes()].concat();
            for body in [0, length.min(70_000) as usize - 1] {
                let pass = [&head[..], &vec![0; body]].concat();
                assert_eq!(printed(&pass), "1 cut short\n", "{} {length} {body}", kind as char);
            }
        }
    }
}

/// Two plants hear page 611. Table 0 is chosen at the start; each record uses the chosen one, and `M` merges the other into it.
#[test]
fn two_tables() {
    let open = "open id=7 width=16 length=3000 edge=0 complete=0 new";
    let other = "42400000 00000007  0040 00000bb8 00000000 00000000  61 00";
    let longer = "42000000 00000007  0000 0bb9 00000000 00000000  61 00";
    let id = "0000000000000007";
    check_octets(&[
        ('O', hex(PAGE), &[open]),
        ('D', data(0, 0, 1_000), &["record id=7 offset=0 length=1000 edge=1000 complete=0 absorbed=0"]),
        ('M', hex(id), &["refused 12 code=6"]),
        ('T', hex("01"), &["table 1"]),
        ('M', hex(id), &["refused 12 code=6"]),
        ('C', hex("00000007"), &["refused 12 code=6"]),
        ('O', hex(PAGE), &[open]),
        ('M', hex(id), &["merge id=7 edge=1000 complete=0"]),
        ('D', data(0, 2_000, 1_000), &["record id=7 offset=2000 length=1000 edge=3000 complete=0 absorbed=0"]),
        ('T', hex("00"), &["table 0"]),
        ('S', hex("00000007 0000000000000000 00 0000ffff"), &["status 440000000000000703e803e8"]),
        ('M', hex(id), &["merge id=7 edge=3000 complete=0"]),
        ('S', hex("00000007 0000000000000000 00 0000ffff"), &["status 440000000000000703e80bb803e807d0"]),
        ('D', data(0, 1_000, 1_000), &["record id=7 offset=1000 length=1000 edge=3000 complete=1 absorbed=2"]),
        ('T', hex("01"), &["table 1"]),
        ('M', hex(id), &["merge id=7 edge=3000 complete=1"]),
        // `F` makes the chosen one fresh, and no other.
        ('F', vec![], &["fresh"]),
        ('M', hex(id), &["refused 12 code=6"]),
        ('O', hex(other), &["open id=7 width=32 length=3000 edge=0 complete=0 new"]),
        ('M', hex(id), &["refused 13 code=9"]),
        ('C', hex("00000007"), &["close id=7"]),
        ('O', hex(longer), &["open id=7 width=16 length=3001 edge=0 complete=0 new"]),
        ('M', hex(id), &["refused 18 code=9"]),
        ('M', hex("0000000100000007"), &["refused 12 code=6"]),
        ('T', hex("00"), &["table 0"]),
        ('O', hex(PAGE), &["open id=7 width=16 length=3000 edge=3000 complete=1 already-open"]),
        // Bodies of another length, and an octet that names no table.
        ('T', vec![], &["bad length"]),
        ('T', hex("02"), &["bad length"]),
        ('T', hex("0001"), &["bad length"]),
        ('M', hex("00000007"), &["bad length"]),
        ('M', hex("000000000000000700"), &["bad length"]),
        ('M', vec![], &["bad length"]),
    ]);
}

/// 64 runs and one more: 16, and nothing is merged.
#[test]
fn more_runs_than_there_is_room_for() {
    let mut pass = record(b'O', &hex(PAGE));
    for run in 0..64 {
        pass.extend(record(b'D', &data(0, 4 * run, 1)));
    }
    pass.extend(record(b'T', &[1]));
    pass.extend(record(b'O', &hex(PAGE)));
    pass.extend(record(b'D', &data(0, 2, 1)));
    pass.extend(record(b'M', &[0, 0, 0, 0, 0, 0, 0, 7]));
    pass.extend(record(b'D', &data(0, 0, 253)));
    pass.extend(record(b'M', &[0, 0, 0, 0, 0, 0, 0, 7]));
    let lines = printed(&pass);
    let last: Vec<&str> = lines.lines().rev().take(5).collect();
    assert_eq!(
        last,
        [
            "71 merge id=7 edge=253 complete=0",
            "70 record id=7 offset=0 length=253 edge=253 complete=0 absorbed=1",
            "69 refused 16 code=3",
            "68 record id=7 offset=2 length=1 edge=3 complete=0 absorbed=0",
            "67 open id=7 width=16 length=3000 edge=0 complete=0 new",
        ]
    );
}
