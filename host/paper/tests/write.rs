//! Writing: packets laid out by hand, and the writers' refusals in their order.

use paper::refusal::Refusal;
use paper::write::{write_data, write_failure, write_metadata, DataFields, MetadataFields};

fn hex(text: &str) -> Vec<u8> {
    text.split_whitespace().map(|octet| u8::from_str_radix(octet, 16).unwrap()).collect()
}

/// What a writer leaves in a buffer of `len` octets 0xEE, with its answer.
fn into(len: usize, write: impl Fn(&mut [u8]) -> Result<usize, Refusal>) -> (Result<usize, Refusal>, Vec<u8>) {
    let mut out = vec![0xEE; len];
    let answer = write(&mut out);
    (answer, out)
}

const METADATA: MetadataFields = MetadataFields {
    flags: 0x44_00_11,
    id: 7,
    checksum: &[1, 2, 3, 4],
    properties: 0,
    size: 3_000,
    mtime: 1,
    ctime: 0xFFFF_FFFF,
    path: b"p611",
};

const DATA: DataFields =
    DataFields { flags: 0x09_80_00, id: 0xFFFF_FFFF, timestamp: &[9; 16], offset: 65_535, payload: b"ab" };

#[test]
fn metadata() {
    let want = hex("42 44 00 11 00 00 00 07 01 02 03 04 00 00 0B B8 00 00 00 01 FF FF FF FF 70 36 31 31 00");
    let size = want.len();
    assert_eq!(into(size, |out| write_metadata(&METADATA, out)), (Ok(size), want.clone()));
    let one_more = [want, vec![0xEE]].concat();
    assert_eq!(into(size + 1, |out| write_metadata(&METADATA, out)), (Ok(size), one_more));
    let untouched = vec![0xEE; size - 1];
    assert_eq!(into(size - 1, |out| write_metadata(&METADATA, out)), (Err(Refusal::Buffer), untouched));
}

#[test]
fn data() {
    let want = hex("43 09 80 00 FF FF FF FF 09 09 09 09 09 09 09 09 09 09 09 09 09 09 09 09 FF FF 61 62");
    let size = want.len();
    assert_eq!(into(size, |out| write_data(&DATA, out)), (Ok(size), want.clone()));
    let one_more = [want, vec![0xEE]].concat();
    assert_eq!(into(size + 1, |out| write_data(&DATA, out)), (Ok(size), one_more));
    let untouched = vec![0xEE; size - 1];
    assert_eq!(into(size - 1, |out| write_data(&DATA, out)), (Err(Refusal::Buffer), untouched));
}

#[test]
fn failure() {
    let want = hex("44 00 00 0A 00 00 00 07");
    assert_eq!(into(8, |out| write_failure(7, 0x0A, out)), (Ok(8), want));
    assert_eq!(into(7, |out| write_failure(7, 0x0A, out)), (Err(Refusal::Buffer), vec![0xEE; 7]));
    for (id, status) in [(7, 0), (7, 256), (1 << 32, 1), (u64::MAX, u64::MAX)] {
        assert_eq!(into(0, |out| write_failure(id, status, out)).0, Err(Refusal::Field));
    }
}

#[test]
fn metadata_refusals_in_their_order() {
    let long = [b'x'; 1_024];
    let mut f = METADATA;
    f.path = &[];
    f.flags = 0x01_30_00_01;
    f.properties = 0x3E0;
    f.size = u64::MAX;
    let refused = |f: &MetadataFields| write_metadata(f, &mut []).unwrap_err();
    assert_eq!(refused(&f), Refusal::Field);
    // Four octets of checksum where the flags say none.
    f.flags = 0x30_00_01;
    assert_eq!(refused(&f), Refusal::Field);
    f.checksum = &[];
    assert_eq!(refused(&f), Refusal::Kind);
    f.flags = 0x00_00_01;
    assert_eq!(refused(&f), Refusal::ChecksumPair);
    f.flags = 0x00_00_11;
    assert_eq!(refused(&f), Refusal::Truncated);
    f.checksum = &[1, 2, 3, 4];
    for properties in [0x3E0, 0x2C0, 0x1C0, 0x0E0] {
        f.properties = properties;
        assert_eq!(refused(&f), Refusal::Kind);
    }
    // Width 64 for the size; the packet's own is 16.
    f.properties = 0x080;
    assert_eq!(refused(&f), Refusal::Path);
    f.path = &long;
    assert_eq!(refused(&f), Refusal::Path);
    f.path = b"a\0";
    assert_eq!(refused(&f), Refusal::Path);
    f.path = &long[..1_023];
    assert_eq!(refused(&f), Refusal::Size);
    f.size = 65_535;
    assert_eq!(refused(&f), Refusal::Buffer);
}

#[test]
fn fields_over_their_bits() {
    let field = |f: MetadataFields| assert_eq!(write_metadata(&f, &mut [0; 99]), Err(Refusal::Field));
    field(MetadataFields { flags: 1 << 24, ..METADATA });
    field(MetadataFields { id: 1 << 32, ..METADATA });
    field(MetadataFields { properties: 1 << 16, ..METADATA });
    field(MetadataFields { mtime: 1 << 32, ..METADATA });
    field(MetadataFields { ctime: 1 << 32, ..METADATA });
    field(MetadataFields { size: 1 << 16, ..METADATA });
    field(MetadataFields { properties: 0x40, size: 1 << 32, ..METADATA });
    field(MetadataFields { checksum: &[1, 2, 3, 4, 5], ..METADATA });
    assert_eq!(write_data(&DataFields { offset: 65_536, ..DATA }, &mut [0; 99]), Err(Refusal::Field));
    assert_eq!(write_data(&DataFields { timestamp: &[9; 17], ..DATA }, &mut [0; 99]), Err(Refusal::Field));
    assert_eq!(write_data(&DataFields { flags: 0, timestamp: &[9], ..DATA }, &mut [0; 99]), Err(Refusal::Field));
}

#[test]
fn data_refusals_in_their_order() {
    let long = vec![1; 65_535];
    let refused = |f: &DataFields| write_data(f, &mut []).unwrap_err();
    let mut f = DataFields { flags: 0xB8_00_00, id: 1 << 32, timestamp: &[], offset: u64::MAX, payload: &[] };
    assert_eq!(refused(&f), Refusal::Field);
    f.id = 7;
    assert_eq!(refused(&f), Refusal::Kind);
    f.flags = 0x88_00_00;
    assert_eq!(refused(&f), Refusal::Truncated);
    f.timestamp = &[9; 16];
    assert_eq!(refused(&f), Refusal::NoPayload);
    f.payload = &long[..65_535 - 31];
    assert_eq!(refused(&f), Refusal::TooLong);
    f.payload = &long[..65_535 - 32];
    assert_eq!(refused(&f), Refusal::Buffer);
    assert_eq!(write_data(&f, &mut vec![0; 65_535]), Ok(65_535));
}
