//! Receivers that are wrong in one way each: the comparison must find every one of them.

wrong! {
    // "How a page gets spoiled", and "Proofs that would be worth nothing".
    /// The packet's octets are added to those received before: repeats count twice.
    CountsOctets,
    /// A hole's end is its last octet.
    HoleEndInside,
    /// Runs are joined only where they overlap, in the area.
    TouchingApart,
    /// The same, and touching runs use up room.
    TouchingTakesRoom,
    /// Complete when there are no holes below the edge.
    CompleteWithoutHoles,
    /// Always complete.
    AlwaysComplete,
    /// Records the first packet and nods at the rest.
    FirstPacketOnly,
    /// Refuses everything.
    RefusesAll,

    // Recording.
    /// The edge is the highest offset received.
    EdgeInside,
    /// A 65th run is taken.
    SixtyFiveRuns,
    /// The 64th run is refused.
    SixtyThreeRuns,
    /// The room is judged before runs are joined.
    RoomBeforeJoining,
    /// Offset and payload length are added modulo 2^64.
    WrappedSum,
    /// The last octet of the file is refused.
    LastOctetRefused,
    /// End of data is not looked at.
    EndOfDataIgnored,
    /// End of data is taken from bit 15.
    EndOfDataBit,
    /// A packet refused with 15 is recorded.
    RecordedOnRefusal,
    /// 12 before the reader's refusals.
    IdBeforePacket,
    /// 14 before 13.
    EndBeforeWidth,
    /// 15 before 14.
    EndOfDataBeforeEnd,
    /// 16 before 15.
    RunsBeforeEndOfData,
    /// 12 before 4 for METADATA.
    IdBeforeType,
    /// A BEACON of four to seven octets is 1.
    RecordedBeaconCut,
    /// A packet of four to seven octets that is no BEACON is judged on.
    RecordedFourOfAny,
    /// The upper octets of an offset of 128 bits are not looked at.
    RecordedUpper,
    /// 64 and 128 bits are one width.
    WidthsAsOne,
    /// 12 before 5.
    IdBeforeUpper,

    // The runs absorbed.
    /// Runs that touch the packet are joined and not counted.
    TouchingUncounted,
    /// Each run is counted twice.
    CountedTwice,
    /// The new run is counted too.
    NewRunCounted,
    /// A repeat, which changes nothing, absorbs nothing.
    RepeatUncounted,
    /// A refused packet tells what it would have absorbed.
    CountedOnRefusal,
    /// What recording would absorb isn't told.
    TryUncounted,

    // Whether anything is added.
    /// A repeat adds something, as every packet does.
    RepeatAdds,
    /// A packet adds something where as many octets as it has are still missing.
    AddsByOctets,
    /// A packet that overlaps a run adds nothing.
    OverlapAddsNothing,
    /// A packet that touches a run, or joins two, adds nothing.
    TouchingAddsNothing,
    /// A packet adds something where the edge moves.
    AddsByEdge,
    /// A packet adds something where the number of runs is another.
    AddsByRuns,
    /// A refused packet tells whether it would have added something.
    AddsOnRefusal,
    /// What recording would add isn't told.
    TryAddsNothing,

    // Opening.
    /// A 17th Id is opened.
    SeventeenIds,
    /// The 16th Id is refused.
    FifteenIds,
    /// 17 before 18.
    FullBeforeOther,
    /// 23 before 18.
    ChecksumBeforeOther,
    /// 17 before 23.
    FullBeforeChecksum,
    /// 23 before the reader's refusals.
    ChecksumBeforePath,
    /// A new Id is opened with a CRC-32c.
    OldChecksumOpened,
    /// Opening again is refused for a CRC-32c.
    AgainRefusedForChecksum,
    /// A new Id is refused for MD5.
    Md5Refused,
    /// A new Id is refused for any checksum of one word.
    OneWordRefused,
    /// Opening again forgets what was received.
    AgainForgets,
    /// Opening again answers the edge 0.
    AgainAnswersFresh,
    /// Another width is "already open".
    WidthNotCompared,
    /// Another length is "already open".
    LengthNotCompared,
    /// L = 0 isn't complete.
    EmptyNotComplete,
    /// The width is the directory entry's.
    EntryWidth,
    /// The upper octets of a size of 128 bits are not looked at.
    OpenedUpper,
    /// An Id open with 64 bits is "already open" with 128.
    OpenedWidthsAsOne,
    /// A transfer of 128 bits is kept as one of 64.
    OpenedNarrower,
    /// A BEACON of four to seven octets is 1.
    OpenedBeaconCut,
    /// A BEACON with flags that reading refuses is 26.
    OpenedBeaconRead,

    // Closing and listing.
    /// The Id is taken modulo 2^32.
    IdWraps,
    /// The index is taken modulo 2^32.
    IndexWraps,
    /// Holes are listed for runs.
    HolesForRuns,
    /// The octets that came are listed as received: repeats count twice.
    RepeatsListed,
    /// The edge is listed as the number received.
    EdgeListed,
    /// Of each run the last octet isn't counted.
    LastOctetsUncounted,
    /// A transfer that is found by its Id has no number received.
    FoundUncounted,

    // Asking before recording, and by the Id.
    /// What recording would answer is told of the transfer as it stands.
    TryAsItStands,
    /// A 65th run is foreseen.
    TryNeverSixteen,
    /// For an Id that isn't open, the transfer with the next is found.
    FindsNext,
    /// From the edge to the length is a transfer's hole.
    HoleAfterLast,
    /// A transfer's hole ends at its last octet.
    HoleClosedEnd,

    // STATUS.
    /// From the edge to the length is a hole.
    HoleToLength,
    /// Without room for a hole none is written.
    NoRoomNoHole,
    /// All holes may be skipped.
    AllSkipped,
    /// 20 before 19.
    BufferBeforeSkip,
    /// Bit 14 is for holes that did not fit alone.
    SkippedNotTold,
    /// Bit 15 is for unasked alone.
    CompleteNotTold,
    /// Only 1 is unasked.
    UnaskedIsOne,
    /// In-Response-To is the length where the transfer is complete.
    LengthForLast,
    /// In-Response-To is the highest offset received in every STATUS.
    EdgeLessOne,
    /// In-Response-To is 2^w - 1 where the length is 0.
    EmptyWraps,
    /// In-Response-To is L - 1 in every unasked STATUS.
    LastOctetWhenUnasked,
    /// Progress is where the first hole written starts.
    ProgressAfterSkip,
    /// A buffer that is too small is written to.
    BufferTouched,
    /// The octet after the STATUS is cleared.
    OctetAfter,
    /// The upper eight octets of descriptors of 128 bits are left as they were.
    UpperLeft,
    /// A transfer of 128 bits has its STATUS in 64.
    StatusNarrower,

    // The timestamp: what is kept.
    /// A refused packet's is kept.
    StampOnRefusal,
    /// Sixteen zero octets are none.
    ZerosForNone,
    /// The first is kept, and not the last.
    FirstStampKept,
    /// A repeat does not renew it.
    RepeatLeavesStamp,
    /// DATA without one forgets it.
    BareForgetsStamp,
    /// It is kept for another Id: that of a neighbour in the table.
    StampOfNeighbour,
    /// Its last octet is lost.
    LastOctetOfStamp,
    /// "Already open" forgets it.
    AgainForgetsStamp,
    /// An Id that is closed and opened again has the one that it had.
    ReopenedKeepsStamp,
    /// Bit 12 of METADATA, which says something else there, is taken for one.
    EndedForStamp,

    // What is sent of it.
    /// Bit 12 is set where none is kept.
    StampBitAlways,
    /// Bit 12 is clear where one is sent.
    StampBitClear,
    /// None is sent.
    NeverSent,
    /// Sixteen zero octets are not sent.
    ZerosNotSent,
    /// Sixteen zero octets are sent where none is kept.
    ZerosSent,
    /// The first open transfer's is sent.
    OthersStampSent,
    /// Its halves are sent the other way round.
    HalvesSentSwapped,
    /// It stands after Progress and In-Response-To.
    StampAfterFields,
    /// Its place is left as it was.
    StampLeft,
    /// Its last octet's place is left as it was.
    LastStampOctetLeft,
    /// The octet after a STATUS with one is changed.
    OctetAfterStamp,
    /// 20 does not count it.
    StampUncounted,
    /// The holes that fit do not count it.
    HolesForgetStamp,
    /// Room for one is asked for where none is kept.
    StampCountedAlways,

    // What is listed of it.
    /// None is listed.
    StampUnlisted,
    /// A transfer that is found by its Id has none.
    FoundUnstamped,
    /// Sixteen zero octets are listed as none.
    ZerosUnlisted,
    /// One is listed where there are runs.
    StampByRuns,

    // The area.
    /// The reader's refusals before 22.
    PacketBeforeArea,
    /// 12 before 22 in closing.
    IdBeforeArea,
    /// Runs that touch are taken.
    TouchingTaken,
    /// Runs that overlap are taken.
    OverlappingTaken,
    /// A run past the length is taken.
    LongRunTaken,
    /// A length over the width is taken.
    LongLengthTaken,
    /// Another width is taken.
    OtherWidthTaken,
    /// A width of 16 octets is refused.
    SixteenRefused,
    /// An Id over 32 bits is taken.
    LongIdTaken,
    /// Ids in another order are taken.
    OtherOrderTaken,
    /// Runs are not judged, and none is taken to be there.
    RunsNotJudged,
    /// The last transfer isn't judged where it isn't asked for.
    LastNotJudged,
    /// An area that is short by one octet is taken.
    ShortTaken,
    /// A longer area is refused.
    LongerRefused,
    /// The octet past the layout is cleared.
    PastCleared,
    /// A fresh table has its count cleared alone.
    FreshCountOnly,
    /// A fresh table is refused where the area holds none.
    FreshJudges,
    /// An area too short for a fresh table is written to.
    FreshTouchesShort,
    /// Words have the highest octet first.
    HighestFirst,
    /// The length of an opened transfer is written with the highest octet first.
    LengthHighestFirst,
    /// Heads stand by their fields: first all Ids, then all widths.
    HeadsByField,
    /// The halves of a timestamp stand the other way round.
    HalvesStoredSwapped,
    /// The octets of a timestamp are stored as those of two numbers: in each half the last comes first.
    HalvesTurned,
    /// Timestamps stand by their halves: first all first ones, then all last ones.
    StampsByHalf,
    /// 2 says that a timestamp is kept.
    TwoTaken,
    /// A number over 1 says that none is kept.
    OthersTakenForNone,
    /// The lowest octet of the word alone says whether one is kept.
    StampedByOctet,

    // The places that nothing uses.
    /// The head after the last open transfer must be zero.
    NextHeadRefused,
    /// Every head without a transfer must be zero.
    StrayHeadRefused,
    /// The places after an open transfer's runs must be zero.
    StrayRunRefused,
    /// All run places without a transfer must be zero.
    StrayRowRefused,
    /// The last word must be zero where it isn't used.
    LastWordRefused,
    /// The words of a timestamp must be zero where none is kept.
    StrayHalvesRefused,
    /// An Id is found in a head without a transfer.
    UnusedIdFound,
    /// Heads without a transfer are listed.
    UnusedListed,
    /// The place after the last run is taken for a run that may touch.
    UnusedRunJoined,
    /// All unused places are cleared.
    UnusedCleared,
    /// The head that closing leaves unused is cleared.
    ClosedHeadCleared,
    /// The run places that closing leaves unused are cleared.
    ClosedRunsCleared,
    /// The run places that recording leaves unused are cleared.
    JoinedCleared,
    /// All run places of an opened transfer are cleared.
    OpenedCleared,
    /// The words of an opened transfer's timestamp are cleared.
    OpenedStampCleared,
    /// Those that closing leaves unused are cleared.
    ClosedStampCleared,
    /// Opening moves those of the transfers behind, also where none is kept.
    HalvesMovedUp,
    /// Closing moves them too.
    HalvesMovedDown,
    /// Opening moves all 64 places of the transfers behind.
    WholeMovedUp,
    /// Closing moves them all.
    WholeMovedDown,
    /// Closing moves all places behind, those without a transfer too.
    AllMovedDown,
    /// Recording a run more moves all the places of the row behind it.
    RowMovedUp,
    /// Recording a run less moves them all.
    RowMovedDown,
    /// Recording writes the runs that it drops behind those that stay.
    JoinedSwapped,
}

/// Those that the trial of the two orders must find by itself, without the paper's answers.
pub const OF_ORDERS: &[Wrong] = &[
    Wrong::FirstPacketOnly,
    Wrong::TouchingTakesRoom,
    Wrong::RoomBeforeJoining,
    Wrong::RecordedOnRefusal,
    Wrong::AgainForgets,
    Wrong::StampOnRefusal,
    Wrong::ZerosForNone,
    Wrong::FirstStampKept,
    Wrong::RepeatLeavesStamp,
    Wrong::BareForgetsStamp,
    Wrong::StampOfNeighbour,
    Wrong::LastOctetOfStamp,
    Wrong::AgainForgetsStamp,
    Wrong::EndedForStamp,
];
