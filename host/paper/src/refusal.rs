//! "The numbers of a refusal": every refusal, with "the status code to send (0: nothing to send)". From 23 on they are
//! document 02's.

/// One row of the table. The value of each is its number.
#[derive(Clone, Copy, Debug, PartialEq, Eq)]
pub enum Refusal {
    /// "packet ends inside a field (not in the hole list: 11), or a path has no zero octet in fewer than 1,024 octets"
    Truncated = 1,
    /// "packet over 65,535 octets, read or to be written"
    TooLong = 2,
    /// "bits 0 and 1 are not 0 1"
    Version = 3,
    /// "type not 2, 3 or 4, or not the one the operation takes"; "In plain reading refusal 4 no longer covers type 0"
    Type = 4,
    /// "wherever the upper eight octets of a descriptor [...] are zero. Refusal 5 is from now on given exactly when one of
    /// them isn't"
    Width = 5,
    /// "kind or property bits not those of a file"
    Kind = 6,
    /// "checksum pair not allowed"
    ChecksumPair = 7,
    /// "path empty, over 1,023 octets, or followed by octets"
    Path = 8,
    /// "L above 2^w - 1"
    Size = 9,
    /// "DATA with no payload"
    NoPayload = 10,
    /// "hole list not as above"
    HoleList = 11,
    /// "Id not open"
    NotOpen = 12,
    /// "DATA width not the transfer's"
    OtherWidth = 13,
    /// "offset + payload length above L"
    PastEnd = 14,
    /// "EOD set and offset + payload length not L"
    EarlyEnd = 15,
    /// "the received set would have more than 64 runs"
    Runs = 16,
    /// "new Id and 16 open"
    TableFull = 17,
    /// "Id open with another width or L"
    OpenOther = 18,
    /// "k not allowed"; in reading a hole, none has the index asked for.
    Index = 19,
    /// "buffer too small"; of a plan, "needs more records than were lent"
    Buffer = 20,
    /// "a field to be written exceeds its bits (128 where width bits are 11), or failure code 0"; of a plan, "m (1 to
    /// 65,000, else refusal 21)"
    Field = 21,
    /// "a lent desk area is no image of a desk as described"
    Area = 22,
    /// "no checksum type 1 on anything new": "Opening a new Id with it is refused with 23 (code 0x01)"
    OldChecksum = 23,
    /// R9.24: a version of settings that is not known
    SettingsVersion = 24,
    /// R9.25: a settings file that is not as it should be, or settings that no file holds
    Settings = 25,
    /// "The fourth pairing, 0 1, is refused with 26 (code 0), and so is a last flags octet that isn't 0"
    Beacon = 26,
}

impl Refusal {
    /// The column "No."
    pub fn number(self) -> u64 {
        self as u64
    }

    /// The column "Code".
    pub fn code(self) -> u64 {
        match self {
            Refusal::Truncated => 0,
            Refusal::TooLong => 0,
            Refusal::Version => 0,
            Refusal::Type => 0x0A,
            Refusal::Width => 0x09,
            Refusal::Kind => 0x01,
            Refusal::ChecksumPair => 0x01,
            Refusal::Path => 0x01,
            Refusal::Size => 0x09,
            Refusal::NoPayload => 0x01,
            Refusal::HoleList => 0,
            Refusal::NotOpen => 0x06,
            Refusal::OtherWidth => 0x09,
            Refusal::PastEnd => 0x09,
            Refusal::EarlyEnd => 0x01,
            Refusal::Runs => 0x03,
            Refusal::TableFull => 0x03,
            Refusal::OpenOther => 0x09,
            Refusal::Index => 0,
            Refusal::Buffer => 0,
            Refusal::Field => 0,
            Refusal::Area => 0,
            Refusal::OldChecksum => 0x01,
            Refusal::SettingsVersion => 0,
            Refusal::Settings => 0,
            Refusal::Beacon => 0,
        }
    }
}
