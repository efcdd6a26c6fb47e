//! Writing, each limit from both sides, into buffers of the exact size, one less, one more and none.

use crate::check::{require, Check, Step};
use crate::faults::Fault;
use crate::fields::{self, BeaconArgs, DataArgs, MetadataArgs, ROOMS};
use crate::packets::*;
use crate::rng::Rng;

/// All of it.
pub fn run(check: &mut Check) -> Step {
    beacon_flags(check)?;
    beacon_numbers(check)?;
    beacon_lengths(check)?;
    metadata_pairs(check)?;
    metadata_numbers(check)?;
    metadata_sizes(check)?;
    metadata_paths(check)?;
    data_timestamps(check)?;
    data_numbers(check)?;
    data_lengths(check)?;
    failure(check)?;
    combined(check, fields::BEACON, BeaconArgs::valid, beacon)?;
    combined(check, fields::METADATA, MetadataArgs::valid, metadata)?;
    combined(check, fields::DATA, DataArgs::valid, data)
}

fn beacon(check: &mut Check, args: &BeaconArgs) -> Result<u64, crate::check::Stop> {
    Ok(check.write_beacon(&args.fields(), args.out_len())?.number)
}

fn metadata(check: &mut Check, args: &MetadataArgs) -> Result<u64, crate::check::Stop> {
    Ok(check.write_metadata(&args.fields(), args.out_len())?.number)
}

fn data(check: &mut Check, args: &DataArgs) -> Result<u64, crate::check::Stop> {
    Ok(check.write_data(&args.fields(), args.out_len())?.number)
}

fn beacon_in_all_rooms(check: &mut Check, args: &BeaconArgs) -> Step {
    for room in ROOMS {
        beacon(check, &BeaconArgs { room, ..args.clone() })?;
    }
    Ok(())
}

fn metadata_in_all_rooms(check: &mut Check, args: &MetadataArgs) -> Step {
    for room in ROOMS {
        metadata(check, &MetadataArgs { room, ..args.clone() })?;
    }
    Ok(())
}

fn data_in_all_rooms(check: &mut Check, args: &DataArgs) -> Step {
    for room in ROOMS {
        data(check, &DataArgs { room, ..args.clone() })?;
    }
    Ok(())
}

/// Numbers around the last of `bits` bits.
fn around(bits: u32) -> [u64; 7] {
    let over = 1u64 << bits;
    [0, 1, over - 2, over - 1, over, over + 1, u64::MAX]
}

/// Every value of bits 8 to 19, every last flags octet with all 16 pairings, in all rooms now and then.
fn beacon_flags(check: &mut Check) -> Step {
    for bits in 0..=0xFFF {
        let mut args = BeaconArgs { flags: bits << (31 - 19), ..BeaconArgs::valid(&mut check.rng) };
        args.endpoint.truncate(20);
        args.free_space = match free_width(args.flags as u32) {
            0 => 0,
            octets => check.rng.number(number_bits(octets)),
        };
        beacon(check, &args)?;
        if bits % 16 == 0 {
            beacon_in_all_rooms(check, &args)?;
        }
    }
    for last in 0..=255 {
        for (send, receive) in (0..16).map(|pairs| (pairs / 4, pairs % 4)) {
            let mut args = BeaconArgs::valid(&mut check.rng);
            args.set_pairs(send, receive);
            args.flags |= last;
            args.endpoint.truncate(20);
            beacon(check, &args)?;
        }
    }
    Ok(())
}

/// Flags around 24 bits, and free space around the last number of each width, and where there is none.
fn beacon_numbers(check: &mut Check) -> Step {
    for value in around(24) {
        let args = BeaconArgs { flags: value, ..BeaconArgs::valid(&mut check.rng) };
        beacon(check, &args)?;
    }
    for code in [Some(0), Some(1), Some(2), Some(3), None] {
        for free_space in [around(16), around(32), around(63), [u64::MAX - 1; 7]].concat() {
            let mut args = BeaconArgs { free_space, ..BeaconArgs::valid(&mut check.rng) };
            args.set_free(code);
            beacon(check, &args)?;
        }
    }
    for bit in 0..64 {
        let args = BeaconArgs::valid(&mut check.rng);
        beacon(check, &BeaconArgs { flags: args.flags ^ (1 << bit), ..args.clone() })?;
        beacon(check, &BeaconArgs { free_space: args.free_space ^ (1 << bit), ..args })?;
    }
    Ok(())
}

/// No endpoint, short ones, and packets around 65,535 octets, in all rooms, with each width of free space.
fn beacon_lengths(check: &mut Check) -> Step {
    for code in [Some(0), Some(1), Some(2), Some(3), None] {
        let mut args = BeaconArgs { free_space: 0, ..BeaconArgs::valid(&mut check.rng) };
        args.set_free(code);
        let taken = 4 + free_width(args.flags as u32);
        for len in [0, 1, 2, 3, 17, 300] {
            args.endpoint = check.rng.octets(len);
            beacon_in_all_rooms(check, &args)?;
        }
        for total in [65_534, 65_535, 65_536, 65_537, 131_080] {
            args.endpoint = check.rng.octets(total - taken);
            beacon_in_all_rooms(check, &args)?;
        }
    }
    Ok(())
}

/// Every pair of checksum type and words at every pair of widths; checksums of other lengths.
fn metadata_pairs(check: &mut Check) -> Step {
    for pair in 0..=255 {
        for codes in 0..16 {
            let mut args = MetadataArgs::valid(&mut check.rng);
            args.set_width(codes / 4);
            args.set_entry_width(codes % 4);
            args.set_pair(pair, &mut check.rng);
            args.path.truncate(20);
            metadata(check, &args)?;
        }
        let mut args = MetadataArgs::valid(&mut check.rng);
        args.set_pair(pair, &mut check.rng);
        let exact = args.checksum.len();
        for len in [0, 1, 3, 4, exact.saturating_sub(1), exact, exact + 1, exact + 4, 60, 61, 1_000] {
            args.checksum = check.rng.octets(len);
            metadata(check, &args)?;
        }
        args.checksum = check.rng.octets(exact);
        metadata_in_all_rooms(check, &args)?;
    }
    Ok(())
}

/// Each number around the last of its bits.
fn metadata_numbers(check: &mut Check) -> Step {
    for value in around(24) {
        let args = MetadataArgs { flags: value, ..MetadataArgs::valid(&mut check.rng) };
        metadata(check, &args)?;
    }
    for value in around(16) {
        let args = MetadataArgs { properties: value, ..MetadataArgs::valid(&mut check.rng) };
        metadata(check, &args)?;
    }
    for value in around(32) {
        let args = MetadataArgs::valid(&mut check.rng);
        metadata(check, &MetadataArgs { id: value, ..args.clone() })?;
        metadata(check, &MetadataArgs { mtime: value, ..args.clone() })?;
        metadata(check, &MetadataArgs { ctime: value, ..args })?;
    }
    for bit in 0..64 {
        let args = MetadataArgs::valid(&mut check.rng);
        metadata(check, &MetadataArgs { flags: args.flags ^ (1 << bit), ..args.clone() })?;
        metadata(check, &MetadataArgs { id: args.id ^ (1 << bit), ..args.clone() })?;
        metadata(check, &MetadataArgs { properties: args.properties ^ (1 << bit), ..args.clone() })?;
        metadata(check, &MetadataArgs { size: args.size ^ (1 << bit), ..args.clone() })?;
        metadata(check, &MetadataArgs { mtime: args.mtime ^ (1 << bit), ..args.clone() })?;
        metadata(check, &MetadataArgs { ctime: args.ctime ^ (1 << bit), ..args })?;
    }
    Ok(())
}

/// Sizes around each width's last number, at every pair of widths.
fn metadata_sizes(check: &mut Check) -> Step {
    for codes in 0..16 {
        for size in [around(16), around(32), around(63), [u64::MAX - 1; 7]].concat() {
            let mut args = MetadataArgs { size, ..MetadataArgs::valid(&mut check.rng) };
            args.set_width(codes / 4);
            args.set_entry_width(codes % 4);
            metadata(check, &args)?;
        }
    }
    Ok(())
}

/// Paths around 0 and 1,023 octets, with a zero octet at each end and inside.
fn metadata_paths(check: &mut Check) -> Step {
    for len in [0, 1, 2, 1_022, 1_023, 1_024, 1_025, 2_048, 65_535, 65_536] {
        let mut args = MetadataArgs::valid(&mut check.rng);
        args.path = path(&mut check.rng, len);
        metadata_in_all_rooms(check, &args)?;
        for at in [0, 1, 2, len / 2, 1_021, 1_022, 1_023, 1_024, len.saturating_sub(1)] {
            let mut args = args.clone();
            if at < len {
                args.path[at] = 0;
            }
            metadata(check, &args)?;
        }
    }
    Ok(())
}

/// Timestamps of every length up to 40, with bit 12 both ways, at each width.
fn data_timestamps(check: &mut Check) -> Step {
    for codes in 0..8 {
        for len in 0..=40 {
            let rng = &mut check.rng;
            let mut args = DataArgs::valid(rng);
            args.set_width(codes % 4);
            args.set_timestamp(codes >= 4, rng);
            args.timestamp = rng.octets(len);
            data(check, &args)?;
        }
    }
    Ok(())
}

/// Each number around the last of its bits.
fn data_numbers(check: &mut Check) -> Step {
    for value in around(24) {
        let args = DataArgs { flags: value, ..DataArgs::valid(&mut check.rng) };
        data(check, &args)?;
    }
    for value in around(32) {
        let args = DataArgs { id: value, ..DataArgs::valid(&mut check.rng) };
        data(check, &args)?;
    }
    for code in 0..4 {
        for offset in [around(16), around(32), around(63), [u64::MAX - 1; 7]].concat() {
            let mut args = DataArgs { offset, ..DataArgs::valid(&mut check.rng) };
            args.set_width(code);
            data(check, &args)?;
        }
    }
    for bit in 0..64 {
        let args = DataArgs::valid(&mut check.rng);
        data(check, &DataArgs { flags: args.flags ^ (1 << bit), ..args.clone() })?;
        data(check, &DataArgs { id: args.id ^ (1 << bit), ..args.clone() })?;
        data(check, &DataArgs { offset: args.offset ^ (1 << bit), ..args })?;
    }
    Ok(())
}

/// Short payloads, and packets around 65,535 octets, in all rooms.
fn data_lengths(check: &mut Check) -> Step {
    for codes in 0..8 {
        let rng = &mut check.rng;
        let mut args = DataArgs::valid(rng);
        args.set_width(codes % 4);
        args.set_timestamp(codes >= 4, rng);
        args.offset = rng.number(16);
        let taken = 8 + args.timestamp.len() + width(args.flags as u32);
        for len in [0, 1, 2, 3, 17, 300] {
            args.payload = check.rng.octets(len);
            data_in_all_rooms(check, &args)?;
        }
        for total in [65_534, 65_535, 65_536, 65_537, 131_080] {
            args.payload = check.rng.octets(total - taken);
            data_in_all_rooms(check, &args)?;
        }
    }
    Ok(())
}

/// Ids and codes around the last of their bits, into every buffer of up to 17 octets.
fn failure(check: &mut Check) -> Step {
    for status in 0..=255 {
        for out_len in 0..=9 {
            let id = check.rng.number(32);
            check.write_failure(id, status, out_len)?;
        }
    }
    for id in [around(32), around(33)].concat() {
        for status in [around(8), around(16), around(32)].concat() {
            for out_len in 0..=17 {
                check.write_failure(id, status, out_len)?;
            }
        }
    }
    Ok(())
}

/// No fault, each alone with the refusal expected, and every two and three of them.
fn combined<T: Clone>(
    check: &mut Check,
    faults: &[Fault<T>],
    valid: fn(&mut Rng) -> T,
    write: fn(&mut Check, &T) -> Result<u64, crate::check::Stop>,
) -> Step {
    for _ in 0..200 {
        let args = valid(&mut check.rng);
        let number = write(check, &args)?;
        require(number == 0, || format!("valid fields are refused with {number}"))?;
        for (at, &(expected, fault)) in faults.iter().enumerate() {
            let mut args = args.clone();
            fault(&mut args, &mut check.rng);
            let number = write(check, &args)?;
            require(number == expected, || format!("fault {at} of the writer's gives {number}, not {expected}"))?;
        }
    }
    for _ in 0..4 {
        for first in 0..faults.len() {
            for second in first..faults.len() {
                for third in second..faults.len() {
                    let mut args = valid(&mut check.rng);
                    for at in [first, second, third] {
                        faults[at].1(&mut args, &mut check.rng);
                    }
                    write(check, &args)?;
                }
            }
        }
    }
    Ok(())
}
