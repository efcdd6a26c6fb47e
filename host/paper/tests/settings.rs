//! A plant's settings: numbers and files laid out by hand, and each refusal at its place.

mod common;

use common::hex;
use paper::refusal::Refusal;
use paper::settings::{form, number, read, write, Settings};

const MOST: u64 = u64::MAX;

fn refused(file: &str, known: u64) -> u64 {
    read(&hex(file), known).unwrap_err().number()
}

/// What the writer leaves in a buffer of `len` octets 0xEE, with its answer.
fn written(settings: &Settings, len: usize) -> (Result<usize, Refusal>, Vec<u8>) {
    let mut out = vec![0xEE; len];
    let answer = write(settings, &mut out);
    (answer, out)
}

#[test]
fn numbers_have_one_form() {
    for (value, octets) in [
        (0, "00"),
        (1, "01"),
        (127, "7F"),
        (128, "80 01"),
        (300, "AC 02"),
        (16_383, "FF 7F"),
        (16_384, "80 80 01"),
        (65_000, "E8 FB 03"),
        (1 << 63, "80 80 80 80 80 80 80 80 80 01"),
        (MOST, "FF FF FF FF FF FF FF FF FF 01"),
    ] {
        assert_eq!(form(value), hex(octets));
        assert_eq!(number(&hex(&format!("{octets} 05"))), Ok((value, form(value).len())));
    }
}

#[test]
fn numbers_that_are_none() {
    let nine = "FF FF FF FF FF FF FF FF FF";
    for early in ["", "80", "FF FF", nine] {
        assert_eq!(number(&hex(early)), Err(Refusal::Truncated), "{early}");
    }
    for unfit in ["80 00", "81 80 00", "80 80 80 80 80 80 80 80 80 00"] {
        assert_eq!(number(&hex(unfit)), Err(Refusal::Settings), "{unfit}");
    }
    // A tenth octet above 1 is refused at once, also where it would go on.
    for tenth in ["02", "7F", "80", "81", "FF 01"] {
        assert_eq!(number(&hex(&format!("{nine} {tenth}"))), Err(Refusal::Settings), "{tenth}");
    }
}

#[test]
fn all_three_keys() {
    let settings =
        Settings { version: 2, largest_payload: 1024, has_interval: true, interval: 60, has_partner: true, partner: 0 };
    let file = hex("02 03 01 80 08 02 3C 03 00");
    for known in [2, 3, MOST] {
        assert_eq!(read(&file, known), Ok(settings));
    }
    assert_eq!(read(&file, 1), Err(Refusal::SettingsVersion));
    assert_eq!(written(&settings, 9), (Ok(9), file.clone()));
    assert_eq!(written(&settings, 11), (Ok(9), [file, vec![0xEE; 2]].concat()));
    assert_eq!(written(&settings, 8), (Err(Refusal::Buffer), vec![0xEE; 8]));
}

#[test]
fn the_version_is_judged_first() {
    assert_eq!(refused("", 2), 1);
    assert_eq!(refused("81", 2), 1);
    assert_eq!(refused("81 00", 2), 25);
    for (version, known) in [("00", 2), ("01", 0), ("02", 1), ("03", 2), ("03", MOST)] {
        assert_eq!(refused(version, known), 24);
        assert_eq!(refused(&format!("{version} 80 00"), known), 24);
    }
}

#[test]
fn then_the_first_fault_from_the_left() {
    for (file, number) in [
        ("01", 1),
        ("01 80 00", 25),
        ("01 00", 25),                                 // no pair, so no key 1
        ("01 FF FF FF FF FF FF FF FF FF 01 01 05", 1), // as many pairs as can be said
        ("01 01 05", 25),
        ("01 01 02", 1),
        ("01 01 02 05", 25),
        ("01 02 01 05 01", 25),
        ("01 02 02 05 01", 25),
        ("01 02 01 05 03", 25),
        ("02 02 01 05 03", 1),
        ("01 01 01 00", 25),
        ("01 01 01 E9 FB", 1),
        ("01 01 01 E9 FB 03", 25),
        ("01 02 01 05 02 91 1C", 25),
        ("02 02 01 05 03 80 80 80 80 10", 25),
        ("01 01 01 05 00", 25),
        ("01 01 02 05 00", 25),
    ] {
        for known in [2, MOST] {
            assert_eq!(refused(file, known), number, "{file}");
        }
        if file.starts_with("01") {
            assert_eq!(refused(file, 1), number, "{file}");
        }
    }
}

#[test]
fn settings_that_no_file_holds() {
    let fine = Settings { version: 1, largest_payload: 5, ..Settings::default() };
    assert_eq!(written(&fine, 4), (Ok(4), hex("01 01 01 05")));
    let unfit = [
        Settings { largest_payload: 0, ..fine },
        Settings { largest_payload: 65_001, ..fine },
        Settings { has_interval: true, ..fine },
        Settings { has_interval: true, interval: 3_601, ..fine },
        Settings { interval: 60, ..fine },
        Settings { has_partner: true, ..fine },
        Settings { version: 2, has_partner: true, partner: 1 << 32, ..fine },
        Settings { version: 2, partner: 7, ..fine },
    ];
    for settings in unfit {
        for len in [0, 20] {
            assert_eq!(written(&settings, len), (Err(Refusal::Settings), vec![0xEE; len]), "{settings:?}");
            for version in [0, 3, MOST] {
                let unknown = Settings { version, ..settings };
                assert_eq!(written(&unknown, len), (Err(Refusal::SettingsVersion), vec![0xEE; len]), "{unknown:?}");
            }
        }
    }
}
