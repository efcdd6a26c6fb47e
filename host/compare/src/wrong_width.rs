//! The readers that are wrong with descriptors of 128 bits: where those stand, and what becomes of the packet.

use crate::answer::Packet;
use crate::codec::{Codec, Paper};
use crate::wrong::{refused, Wrong};

/// The places of a packet's descriptors of 128 bits, of those that are whole.
pub fn wide_descriptors(packet: &[u8]) -> Vec<usize> {
    let Some(&[first, second, third, last]) = packet.first_chunk() else { return vec![] };
    let stamp = if second & 8 != 0 { 16 } else { 0 };
    let properties_at = 8 + 4 * usize::from(last >> 4);
    let (at, width_bits, most) = match first {
        0x40 if third & 0x40 != 0 => (4, third >> 4 & 3, 1),
        0x42 => (properties_at + 2, packet.get(properties_at + 1).map_or(0, |low| low >> 6), 1),
        0x43 => (8 + stamp, second >> 6, 1),
        0x44 if last == 0 => (8 + stamp, second >> 6, usize::MAX),
        _ => return vec![],
    };
    match width_bits {
        3 => (at..packet.len()).step_by(16).filter(|at| at + 16 <= packet.len()).take(most).collect(),
        _ => vec![],
    }
}

/// The packet with some of the upper octets zero: those that `which` chooses by the descriptor's number, and by the octet's
/// place in it.
fn cleared(packet: &[u8], which: impl Fn(usize, usize) -> bool) -> Vec<u8> {
    let mut cleared = packet.to_vec();
    for (number, at) in wide_descriptors(packet).into_iter().enumerate() {
        (0..8).filter(|&place| which(number, place)).for_each(|place| cleared[at + place] = 0);
    }
    cleared
}

/// The packet with all of them zero.
pub fn with_upper_cleared(packet: &[u8]) -> Vec<u8> {
    cleared(packet, |_, _| true)
}

impl Wrong {
    /// Whether it is one of those below.
    pub fn of_width(self) -> bool {
        self as usize >= Wrong::UpperIgnored as usize
    }

    pub fn read_wide(self, packet: &[u8], right: Packet) -> Packet {
        match right.number {
            5 => self.read_upper(packet, right),
            _ => self.read_by_width(packet, right),
        }
    }

    /// A packet that is refused with 5: taken, or refused with what comes later.
    fn read_upper(self, packet: &[u8], right: Packet) -> Packet {
        let kind = packet[0] & 0x3F;
        let of = |a_kind: u8, which: fn(usize) -> bool| match kind == a_kind {
            true => Paper.read(&cleared(packet, |number, _| which(number))),
            false => right,
        };
        let later = Paper.read(&with_upper_cleared(packet));
        let earlier = |numbers: &[u64]| if numbers.contains(&later.number) { later } else { right };
        let count = wide_descriptors(packet).len();
        match self {
            Wrong::UpperIgnored => later,
            Wrong::HighestIgnored => Paper.read(&cleared(packet, |_, place| place == 0)),
            Wrong::EighthIgnored => Paper.read(&cleared(packet, |_, place| place == 7)),
            Wrong::OffsetUpperIgnored => of(3, |_| true),
            Wrong::SizeUpperIgnored => of(2, |_| true),
            Wrong::ProgressUpperIgnored => of(4, |number| number == 0),
            Wrong::ResponseUpperIgnored => of(4, |number| number == 1),
            Wrong::StartUpperIgnored => of(4, |number| number >= 2 && number % 2 == 0),
            Wrong::EndUpperIgnored => of(4, |number| number >= 2 && number % 2 == 1),
            Wrong::LoneStartIgnored if kind == 4 && count % 2 == 1 && count > 2 => {
                Paper.read(&cleared(packet, |number, _| number == count - 1))
            }
            Wrong::FreeUpperIgnored => of(0, |_| true),
            Wrong::PayloadBeforeUpper => earlier(&[10]),
            Wrong::TimesBeforeUpper if kind == 2 && packet.len() < wide_descriptors(packet)[0] + 24 => refused(1, 0),
            Wrong::PathBeforeUpper if kind == 2 => earlier(&[1, 8]),
            Wrong::SizeBeforeUpper if kind == 2 && packet[1] >> 6 < 3 => refused(9, 0x09),
            Wrong::ResponseBeforeUpper if kind == 4 => earlier(&[1]),
            Wrong::ListBeforeUpper => earlier(&[11]),
            _ => right,
        }
    }

    /// Any other packet: refused by its width bits, or by octets of a descriptor that isn't whole.
    fn read_by_width(self, packet: &[u8], right: Packet) -> Packet {
        let wrong = |applies: bool, answer: Packet| if applies { answer } else { right };
        let begun = !matches!(right.number, 2..=4) && packet.len() >= 8 && right.status == 0;
        let of = |first: u8| begun && packet[0] == first && packet[1] >> 6 == 3;
        match self {
            Wrong::UpperBeforeWhole if matches!(right.number, 1 | 11) => {
                let longer = [packet, &[0; 8]].concat();
                wrong(Paper.read(&longer).number == 5, refused(5, 0x09))
            }
            Wrong::DataWidthRefused => wrong(of(0x43), refused(5, 0x09)),
            Wrong::StatusWidthRefused => wrong(of(0x44), refused(5, 0x09)),
            Wrong::MetadataWidthRefused => wrong(of(0x42), refused(5, 0x09)),
            Wrong::EntryWidthRefused if begun && packet[0] == 0x42 && !matches!(right.number, 6 | 7) => {
                let low = packet.get(9 + 4 * usize::from(packet[3] >> 4));
                wrong(low.is_some_and(|low| low >> 6 == 3), refused(5, 0x09))
            }
            Wrong::FreeWidthRefused if packet.len() >= 4 && packet[0] == 0x40 => {
                wrong(matches!(right.number, 0 | 1) && packet[2] & 0x70 == 0x70, refused(5, 0x09))
            }
            Wrong::LargestSizeWraps => {
                wrong(right.number == 0 && right.kind == 2 && right.width == 16 && right.size > 0, refused(9, 0x09))
            }
            _ => right,
        }
    }
}
