//! Readers and writers of settings that are wrong in one way each. The reader is one function with a place for each fault; the
//! writer is made of the paper's answers. The comparison must find every one.

use paper::settings::form;

use crate::answer::{Settings, Written};
use crate::codec::Paper;
use crate::settings::wrong::Wrong::*;
use crate::settings::SettingsFile;

wrong! {
    // Numbers.
    /// The high group comes first.
    HighGroupFirst,
    /// A form that is longer than it need be is taken.
    LongerFormTaken,
    /// The number 0 is taken for a form that is too long.
    ZeroRefused,
    /// A tenth octet of 2 is taken.
    TenthTwoTaken,
    /// A tenth octet that goes on is judged only at the number's end.
    TenthLater,
    /// Eleven octets are read.
    EleventhRead,
    /// The end of the file inside a number is 25.
    EndIs25,

    // The version and the count.
    /// 24 is judged before the version's form.
    UnknownBeforeForm,
    /// Version 0 is taken.
    Version0Taken,
    /// Version 3 is taken by a reader that knows it.
    Version3Taken,
    /// What the reader knows isn't looked at.
    KnownIgnored,
    /// An unknown version is 25.
    UnknownIs25,
    /// A count above 3 is 25 where it stands.
    CountJudged,
    /// A count of 0 is 25 before the octets after it are looked at, and 1 where there are none.
    CountZeroUnfinished,
    /// The pairs go to the end of the file, whatever the count is.
    CountIgnored,

    // Pairs.
    /// A key may come twice.
    KeysRepeat,
    /// Keys may fall.
    KeysFall,
    /// Key 0 is taken and ignored.
    Key0Taken,
    /// Key 4 is taken and ignored.
    Key4Taken,
    /// Key 3 is taken in version 1.
    PartnerInVersion1,
    /// Key 3 is refused in version 2.
    NoPartner,
    /// A key is judged after its value's form.
    KeyAfterValue,
    /// A payload of 0 is taken.
    Payload0,
    /// A payload of 65,001 is taken.
    Payload65001,
    /// A payload of 65,000 is refused.
    Payload65000Refused,
    /// 0 seconds are taken.
    Seconds0,
    /// 3,601 seconds are taken.
    Seconds3601,
    /// A partner of 2^32 is taken.
    Partner33Bits,
    /// A partner of 0 is refused.
    Partner0Refused,
    /// A partner is told without its highest octet.
    Partner24Bits,

    // The end, and the answer.
    /// Octets after the last pair are taken.
    OctetsAfterTaken,
    /// A file without key 1 is taken.
    MissingTaken,
    /// A missing key 1 is 1.
    MissingIs1,
    /// Refusals have code 1.
    CodeOne,
    /// The version is told of a refused file.
    RefusalWithField,
    /// A partner is told without saying that there is one.
    PartnerNotTold,

    // The writer.
    /// 25 before 24.
    UnfitBeforeVersion,
    /// 20 before 25.
    RoomBeforeUnfit,
    /// A buffer that is just long enough is refused.
    JustEnoughRefused,
    /// A number is left out where it is said that there is none.
    NumberLeftOut,
    /// Only 1 is yes.
    OnlyOneIsYes,
    /// A partner is written in version 1.
    WritesPartnerInVersion1,
    /// The count leaves the partner out.
    PartnerNotCounted,
    /// The size leaves the last octet out.
    SizeOneShort,
    /// The octet after the file is cleared.
    PastCleared,
    /// A refused writing puts the version there.
    RefusedWrote,
    /// The largest payload has a group more than it needs.
    WritesLongerForm,
}

/// What is left of a file.
struct Rest<'a>(&'a [u8]);

impl Wrong {
    /// The next number, or the refusal.
    fn number(self, rest: &mut Rest) -> Result<u64, u64> {
        let octets = rest.0;
        let end: u64 = if self == EndIs25 { 25 } else { 1 };
        let most = if self == EleventhRead { 11 } else { 10 };
        let mut value: u128 = 0;
        for at in 0..most {
            let octet = *octets.get(at).ok_or(end)?;
            let goes_on = octet >= 0x80;
            if at == 9 && octet > 1 {
                match self {
                    TenthTwoTaken if octet == 2 => {}
                    TenthLater if goes_on => return Err(if octets.len() > 10 { 25 } else { 1 }),
                    EleventhRead if goes_on => {}
                    _ => return Err(25),
                }
            }
            if octet == 0 && at > 0 && self != LongerFormTaken || octet == 0 && at == 0 && self == ZeroRefused {
                return Err(25);
            }
            value = match self {
                HighGroupFirst => value << 7 | u128::from(octet & 0x7F),
                _ => value | u128::from(octet & 0x7F) << (7 * at),
            };
            if !goes_on {
                rest.0 = &octets[at + 1..];
                return Ok(value as u64);
            }
        }
        Err(25)
    }

    fn version(self, rest: &mut Rest, known: u64) -> Result<u64, u64> {
        let version = match (self, self.number(rest)) {
            (UnknownBeforeForm, Err(25)) => return Err(24),
            (_, version) => version?,
        };
        let known = match self {
            Version3Taken => known.min(3),
            KnownIgnored => 2,
            _ => known.min(2),
        };
        match version {
            0 if self == Version0Taken => Ok(1),
            1.. if version <= known => Ok(version),
            _ => Err(if self == UnknownIs25 { 25 } else { 24 }),
        }
    }

    fn key_taken(self, version: u64, last: u64, key: u64) -> bool {
        let rises = match self {
            KeysRepeat => key >= last,
            KeysFall => key != last,
            Key0Taken => key > last || key == 0,
            _ => key > last,
        };
        let highest = match (self, version) {
            (PartnerInVersion1, 1) => 3,
            (NoPartner, _) => 2,
            (Key4Taken, _) => 4,
            (_, 1) => 2,
            _ => 3,
        };
        rises && key <= highest && (key > 0 || self == Key0Taken)
    }

    fn value_taken(self, key: u64, value: u64) -> bool {
        let (first, last) = match (key, self) {
            (1, Payload0) => (0, 65_000),
            (1, Payload65001) => (1, 65_001),
            (1, Payload65000Refused) => (1, 64_999),
            (1, _) => (1, 65_000),
            (2, Seconds0) => (0, 3_600),
            (2, Seconds3601) => (1, 3_601),
            (2, _) => (1, 3_600),
            (3, Partner33Bits) => (0, 1 << 32),
            (3, Partner0Refused) => (1, 0xFFFF_FFFF),
            _ => (0, 0xFFFF_FFFF),
        };
        (first..=last).contains(&value)
    }

    fn pair(self, rest: &mut Rest, version: u64, last: u64) -> Result<(u64, u64), u64> {
        let key = self.number(rest)?;
        if self == KeyAfterValue {
            self.number(&mut Rest(rest.0))?;
        }
        if !self.key_taken(version, last, key) {
            return Err(25);
        }
        let value = self.number(rest)?;
        match self.value_taken(key, value) {
            true => Ok((key, value)),
            false => Err(25),
        }
    }

    fn read(self, file: &[u8], known: u64) -> Result<Settings, u64> {
        let mut rest = Rest(file);
        let version = self.version(&mut rest, known)?;
        let count = self.number(&mut rest)?;
        match self {
            CountJudged if count > 3 => return Err(25),
            CountZeroUnfinished if count == 0 && rest.0.is_empty() => return Err(1),
            _ => {}
        }
        let mut told = Settings { version, ..Settings::default() };
        let (mut last, mut largest) = (0, None);
        let mut left = if self == CountIgnored { u64::MAX } else { count };
        while left > 0 && !(self == CountIgnored && rest.0.is_empty()) {
            let (key, value) = self.pair(&mut rest, version, last)?;
            match key {
                1 => largest = Some(value),
                2 => (told.has_interval, told.interval) = (1, value),
                3 if self == Partner24Bits => (told.has_partner, told.partner) = (1, value & 0xFF_FFFF),
                3 => (told.has_partner, told.partner) = (u64::from(self != PartnerNotTold), value),
                _ => {}
            }
            (last, left) = (key, left - 1);
        }
        if !rest.0.is_empty() && self != OctetsAfterTaken {
            return Err(25);
        }
        match (largest, self) {
            (Some(largest), _) => Ok(Settings { largest_payload: largest, ..told }),
            (None, MissingTaken) => Ok(told),
            (None, MissingIs1) => Err(1),
            (None, _) => Err(25),
        }
    }
}

impl SettingsFile for Wrong {
    fn read_settings(&self, file: &[u8], known: u64) -> Settings {
        match self.read(file, known) {
            Ok(settings) => settings,
            Err(number) => Settings {
                number,
                code: u64::from(*self == CodeOne),
                version: if *self == RefusalWithField { file.first().copied().unwrap_or(0).into() } else { 0 },
                ..Settings::default()
            },
        }
    }

    fn write_settings(&self, s: &Settings, out: &mut [u8]) -> Written {
        let before = out.to_vec();
        let right = Paper.write_settings(s, out);
        let refused = |number| Written { number, ..Written::default() };
        let size = right.size as usize;
        let unfit = |s: &Settings| Paper.write_settings(&Settings { version: 2, ..*s }, &mut [0; 15]).number == 25;
        match self {
            UnfitBeforeVersion if right.number == 24 && unfit(s) => refused(25),
            RoomBeforeUnfit if right.number == 25 && out.is_empty() => refused(20),
            JustEnoughRefused if right.number == 0 && size == out.len() => {
                out.copy_from_slice(&before);
                refused(20)
            }
            NumberLeftOut if right.number == 25 && s.has_interval == 0 => {
                Paper.write_settings(&Settings { interval: 0, ..*s }, out)
            }
            OnlyOneIsYes => {
                out.copy_from_slice(&before);
                let one = |given: u64| u64::from(given == 1);
                let s = Settings { has_interval: one(s.has_interval), has_partner: one(s.has_partner), ..*s };
                Paper.write_settings(&s, out)
            }
            WritesPartnerInVersion1 if right.number == 25 && s.version == 1 => {
                let written = Paper.write_settings(&Settings { version: 2, ..*s }, out);
                if written.number == 0 {
                    out[0] = 1;
                }
                written
            }
            PartnerNotCounted if right.number == 0 && s.has_partner != 0 => {
                out[1] -= 1;
                right
            }
            SizeOneShort if right.number == 0 => Written { size: right.size - 1, ..right },
            PastCleared if right.number == 0 && size < out.len() => {
                out[size] = 0;
                right
            }
            RefusedWrote if right.number != 0 && !out.is_empty() => {
                out[0] = s.version as u8;
                right
            }
            WritesLongerForm if right.number == 0 && size < out.len() => {
                let at = 3 + form(s.largest_payload).len();
                out[at..=size].rotate_right(1);
                out[at - 1] |= 0x80;
                out[at] = 0;
                Written { size: right.size + 1, ..right }
            }
            _ => right,
        }
    }
}
