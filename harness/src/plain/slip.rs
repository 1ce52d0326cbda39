//! Mistakes that can be switched on, one at a time, to show that the harness notices each of them.
//! `Plain` never slips and costs nothing: the compiler removes every question it is asked. `Checked` is the same and checks itself as it goes.
//! `Slipping` slips as `set` says.

use std::sync::atomic::{AtomicUsize, Ordering};

pub trait Rules {
    const NAME: &'static str;
    /// Whether the moves of every edit are added up and compared with its positions.
    const CHECKS: bool = false;
    /// Whether there are slips at all.
    const SLIPS: bool = false;
    fn slips(slip: Slip) -> bool;
}

pub struct Plain;

impl Rules for Plain {
    const NAME: &'static str = "plain";

    #[inline(always)]
    fn slips(_: Slip) -> bool {
        false
    }
}

pub struct Checked;

impl Rules for Checked {
    const NAME: &'static str = Plain::NAME;
    const CHECKS: bool = true;

    #[inline(always)]
    fn slips(_: Slip) -> bool {
        false
    }
}

pub struct Slipping;

static NOW: AtomicUsize = AtomicUsize::new(usize::MAX);

pub fn set(slip: Slip) {
    NOW.store(slip as usize, Ordering::Relaxed);
}

/// Switches every slip off.
pub fn unset() {
    NOW.store(usize::MAX, Ordering::Relaxed);
}

/// The slip that is switched on.
pub fn now() -> Option<Slip> {
    ALL.get(NOW.load(Ordering::Relaxed)).map(|row| row.0)
}

/// The slip of that name.
pub fn named(name: &str) -> Option<Slip> {
    ALL.iter().map(|row| row.0).find(|slip| format!("{slip:?}").eq_ignore_ascii_case(name))
}

impl Rules for Slipping {
    const NAME: &'static str = "slipping";
    const SLIPS: bool = true;

    #[inline]
    fn slips(slip: Slip) -> bool {
        NOW.load(Ordering::Relaxed) == slip as usize
    }
}

/// How a slip can be noticed.
#[derive(Clone, Copy, PartialEq, Eq, Debug)]
pub enum Seen {
    /// On reachable ends: the history, the graph and the definition alone have to notice it.
    History,
    /// Only at openings that no run of calls makes, by messages that no end writes, or on ends that no run gives: the comparison with the right
    /// implementation has to notice it.
    Opening,
    Message,
    End,
    /// In the run program alone.
    Script,
}

macro_rules! slips {
    ($($name:ident $seen:ident $text:literal,)*) => {
        #[derive(Clone, Copy, PartialEq, Eq, Debug)]
        pub enum Slip { $($name,)* }
        pub const ALL: &[(Slip, Seen, &str)] = &[$((Slip::$name, Seen::$seen, $text),)*];
    };
}

slips! {
    // the rule book's slips at the bench
    PendingLeft History "carries the arriving edit and leaves the pending ones as they were",
    NoSeven History "takes a message whose seen was overtaken (no question 7)",
    RefusedSeen History "a refused or repeated message's seen drops pending edits",
    NothingThrown History "throws away an edit that became nothing",
    // the sheets that promise c names
    ListLeft History "leaves the list be while its counts rise",
    ListRepeated History "repeats an earlier list while its counts rise",
    FirstOnly History "carries past the first pending edit and copies the rest",
    AllRefused History "turns every message down",
    CountMadeUp History "makes up the passed count (pending before the drop)",
    CountZero History "always says that nothing was passed",
    TwelveAtOne History "a client says 12 with one edit pending",
    TwelveAt63 History "a client says 12 with 63 edits pending",
    ServerTwelveAt63 History "the server says 12 with 63 edits pending on another line",
    // carrying
    TieReversed History "at equal positions the larger priority stays",
    TieBoth History "at equal positions both inserts move up",
    InsertDeleteEqual History "an insert at a deleted position moves down",
    DeleteInsertEqual History "a delete at an insert's position stays",
    DeleteTwice History "two deletes of one item both stay",
    // the protocol
    AckIgnored History "an acknowledgement drops nothing",
    AckCounted History "an acknowledgement counts edits passed",
    SeenIgnored History "an edit message's seen drops nothing",
    KeepsArrived History "the server keeps the edit as it arrived, not as carried",
    KeepsForMaker History "the server keeps the edit for its maker's line as well",
    SeenOfAcked History "sending writes acked in the place of taken",
    TwelveOwnLine History "the server asks 12 of the arriving line too",
    PriorityOne History "an edit's insert has priority 1 whatever the rank",
    // ranks
    TieByLine History "at equal positions the smaller line stays, whatever the ranks",
    CarriesLine History "an insert carries its maker's line, whatever the ranks",
    OtherRanks History "the server ranks otherwise than its clients: the other way round",
    FourByLine History "question 4 compares an insert's priority with the line",
    TwoByLine History "question 2 compares the pending inserts' priorities with the line",
    RanksAlike History "two ranks alike open an end",
    RankPastN History "a rank of n + 1 opens an end",
    RankZero History "a rank of 0 opens an end",
    RanksFew History "fewer ranks than n open an end",
    RanksMany History "ranks past the first n are passed over",
    RanksCounted8 History "ranks are counted in 8 bits: n + 256 are n",
    SixteenFirst History "16 is asked before 1",
    CutLate History "a cut item is asked after 16",
    RanksLate History "16 is asked when the list's length is written",
    // origins
    MakerOfLine History "a client writes the message's line in the place of the maker's",
    NumberOfMessage History "a client writes the message's number in the place of the maker's",
    SendsLine History "the server sends the line in the place of the maker's",
    SendsNumber History "the server sends its own number in the place of the maker's",
    SendsSlot History "a client sends the place among the pending edits as the maker's number",
    SendsFirstOrigin History "the server sends the origin of the line's first pending edit",
    OwnNumberBefore History "an edit made here has the number of the one before as its origin",
    InsertOrigins History "an insert moves the items behind it up and not their origins",
    DeleteOrigins History "a delete moves the items behind it down and not their origins",
    OriginUnwritten History "an insert leaves the origin that stood there",
    OriginTailLeft History "a delete leaves a copy of the last origin in the unused place",
    OpenFromZero History "opening items are numbered from 0",
    OpenOwnLine History "a client's opening items have its own line as maker",
    OpenNoOrigins History "opening items have no origin",
    AckOrigins History "an acknowledgement drops pending edits and leaves their origins",
    SeenOrigins History "an edit message's seen drops pending edits and leaves their origins",
    OriginsTailLeft History "dropping origins leaves copies in the unused places",
    NothingOrigin History "an edit that became nothing is kept without its origin",
    CrossedOrigins History "the pending edits that an edit passed take over its origin",
    NumberLowFirst History "the maker's number is written and read low byte first",
    // the positions that a taking reports
    ArrivedTwice History "the position that arrived is reported twice",
    AppliedTwice History "the position applied is reported twice",
    PositionsExchanged History "the two positions are exchanged",
    GoneLast History "an edit that is gone reports its last position as applied",
    GoneUnmoved History "an edit that is gone reports the position that arrived as applied",
    GoneTwice History "an edit that is gone reports 0 twice",
    UpForDown History "the reported position goes down for up and up for down",
    UpsAlone History "the reported position leaves out the moves down",
    DownsAlone History "the reported position leaves out the moves up",
    MovesOfPending History "the moves of the pending edits are added up",
    FirstMove History "the position past the first pending edit is reported",
    LastMoveLost History "the position before the last pending edit is reported",
    PositionOfPending History "the position of the last pending edit is reported",
    MovesPastSeen History "moves past the pending edits that its sender had seen are added up too",
    Distance History "how far the edit moved is reported in the place of where it was applied",
    MovedAlone History "only an edit that moved has positions",
    InsertsAlone History "only inserts have positions",
    DeletesAlone History "only deletes have positions",
    PositionsFromZero History "the reported positions count from 0",
    NothingRead History "an arriving nothing has the bytes behind seen as its position",
    ClientSilent History "a client reports no positions",
    ServerSilent History "the server reports no positions",
    RefusedArrived History "a refused edit message has the position that arrived",
    RefusedAt12 History "a taking that 12 refuses has positions",
    RefusedAt9 Message "a taking that 9 or 10 refuses has positions",
    AckPositions History "an acknowledgement has the first pending edit's position",
    MadePositions History "an edit made has positions",
    OpenPositions History "an opening has the number of items as positions",
    SentPositions History "a sending has the message's length as positions",
    ArrivedEarly History "the position that arrived begins in the count's highest bit",
    AppliedEarly History "the position applied begins in the highest bit of the one that arrived",
    PositionsEarly History "the positions begin at bits 16 and 32, over the count's upper half",
    Positions8 History "positions are cut to 8 bits",
    Positions9 History "positions are cut to 9 bits: 512 is 0",
    // the total of a list's seconds
    TotalUnsubtracted History "a delete does not subtract from the total",
    TotalUnadded History "an insert does not add to the total",
    TotalBehind History "a delete subtracts the seconds of the item behind it",
    TotalUnopened History "an opening leaves the total zero",
    TotalMadeAlone History "a taking leaves the total as it was",
    TotalTakenAlone History "an edit made leaves the total as it was",
    Seconds13 History "an item's seconds are its low 13 bits",
    Seconds11 History "an item's seconds are its low 11 bits",
    SecondsHigh History "an item's seconds are its high 12 bits",
    // taking back
    InverseLeft History "the stored inverse is not carried past the edits taken",
    InverseArrived History "the inverse is carried past an edit as it arrived, not as applied",
    InverseCleared History "taking an edit clears the inverse",
    InverseAcked History "taking an acknowledgement clears the inverse",
    InverseTie History "the inverse stays at another's insert at its position, whatever the ranks",
    InverseGone History "an inverse whose item another deleted stays where it was",
    InverseNeighbour History "the inverse of a delete inserts the item behind",
    InverseItemLost History "the inverse of a delete inserts item 0",
    InverseNext History "the inverse of an insert deletes the item behind",
    InverseByLine History "the inverse of a delete has the line as priority, whatever the ranks",
    InverseFirst History "an inverse that is there is not replaced by a later edit's",
    InverseRefused History "an edit that 10, 11 or 12 refuses stores its inverse",
    BackRefusedClears History "a refused taking back clears the inverse",
    BackOnce History "taking back cannot be taken back",
    BackKept History "taking back leaves the inverse as it was",
    BackUnsent History "taking back changes the list and is not kept as an edit",
    BackUncounted History "taking back a delete is not counted as an insert",
    BackOrigin History "a step put back has the number of the edit that is taken back",
    BackOldOrigin History "a step put back has the origin of an opening item at its place",
    BackNoTen History "taking back does not ask 10",
    BackNoEleven History "taking back does not ask 11",
    BackNoTwelve History "taking back does not ask 12",
    SeventeenAfterNine History "17 is asked after 9, which nothing does not pass",
    SeventeenLast History "17 is asked after 12",
    Inverse514 Message "question 9 of a taking lets the inverse go to 514",
    // writing a packet
    PackFront History "a packet is written from the buffer's front, whatever the offset",
    PackOffset8 History "writing reads the offset in 8 bits",
    PackOffset16 History "writing reads the offset in 16 bits",
    PackOffset32 History "writing reads the offset in 32 bits",
    PackWraps History "an offset close to the highest number wraps around to the front",
    PackTight History "a message that ends where the buffer ends does not fit",
    PackMost1024 History "no more than 1,024 bytes are written",
    PackFirstAgain History "every message of a packet is the first pending edit's",
    PackReversed History "a packet has the pending edits from the last to the first",
    PackWithoutFirst History "a packet leaves the first pending edit out",
    PackWithoutLast History "a packet leaves the last pending edit out",
    PackSkips History "a message that does not fit is left out, and later ones are written",
    PackCut History "a message that does not fit is cut at the buffer's end",
    PackCutUncounted History "a message that does not fit is written as far as it goes, and not counted",
    PackWhole History "14 where some pending edit does not fit",
    PackUnrefused History "no room for the first message writes nothing and is no refusal",
    PackNone13 History "nothing pending gives 13",
    PackNone14 History "nothing pending gives 14 where no byte is left",
    PackNonePast14 History "nothing pending gives 14 at an offset past the buffer's end",
    PackBefore History "the bytes before the offset become zero",
    PackBehind History "the byte behind the packet becomes zero",
    PackFromFront History "the bytes before the offset are counted as written",
    PackLength8 History "the written length is cut to 8 bits",
    PackAnyLine History "a client packs its edits for any line",
    PackFourLate History "14 is asked before 4",
    // taking a packet
    PacketGoesOn History "a packet goes on after a refusal",
    PacketGoesOnLast History "a packet goes on after a refusal, and answers the last one",
    PacketRepeatsPassed History "a packet passes over repeats",
    PacketForgets History "a refusal forgets what the packet brought before",
    PacketForgetsLast History "a refusal forgets the message before it",
    PacketCountRefused History "the refused message is counted",
    PacketCountAll History "all messages of the packet are counted",
    PacketCountNone History "nothing is counted beside a refusal",
    PacketCountEdits History "acknowledgements in a packet are not counted",
    PacketCountPassed History "the pending edits passed are counted, not the messages",
    PacketCount8 History "the messages taken are counted in 8 bits",
    PacketPositions History "a packet's answer has the last message's positions",
    PacketRead History "a packet's answer has its length in bits 56 to 63",
    PacketEmpty History "a packet of no bytes is let through",
    PacketEmptyThree History "a packet of no bytes gives 3",
    Packet1399 History "a packet of 1,400 bytes gives 15",
    Packet1401 History "a packet of 1,401 bytes is let through",
    PacketLength16 History "a packet's length is read in 16 bits: 65,541 bytes are 5",
    FifteenFirst History "15 is asked before 18",
    FifteenBeforeTwo History "15 is asked before 2",
    PacketCutIgnored History "a message that is cut off at the packet's end is passed over",
    PacketCutZeros History "a message that is cut off is read with zeros",
    PacketUnknownByte History "a byte that is no kind is passed over",
    PacketUnknownEnds History "a byte that is no kind ends the packet",
    PacketNothing12 History "an edit that became nothing takes 12 bytes of a packet",
    PacketFirst History "the first message of a packet alone is taken",
    PacketMost64 History "64 messages of a packet are taken and no more",
    PacketAckEnds History "an acknowledgement ends the packet",
    // taking a message at an offset of a packet
    AtFront History "the first message is taken, whatever the offset",
    AtOffset8 History "taking reads the offset in 8 bits",
    AtOffset16 History "taking reads the offset in 16 bits",
    AtOffset32 History "taking reads the offset in 32 bits",
    AtFromOne History "offsets of a packet count from 1",
    AtLast History "an offset past the packet's end takes the last message",
    AtEndAccepted History "an offset at the packet's end is no refusal",
    AtPast15 History "an offset at or past the packet's end gives 15",
    AtUnsized History "taking at an offset does not ask 15",
    AtRest History "all bytes from the offset on are one message",
    AtAll History "taking at an offset goes on to the packet's end",
    AtSilent History "taking at an offset does not say how long the message is",
    AtRefused History "a refusal says how long the message is",
    AtNext History "where the next message begins is answered, not how long this one is",
    AtOffset History "the offset is answered, not how long the message is",
    AtLongest History "every message is said to have 17 bytes",
    AtLeft History "the bytes left are answered, not how long the message is",
    AtCounts History "taking at an offset counts a message, not the pending edits passed",
    TakeRead History "taking one message by itself says how long it is",
    // limits and order of the questions
    Insert49 History "a client makes insert 49",
    Edit401 History "a client makes edit 401",
    Item513 History "question 9 does not ask for at most 512 items",
    GapFirst History "a gap gives 5 and a repeat 6",
    TwelveBeforeEleven History "12 is asked before 11",
    TenBeforeNine History "10 is asked before 9",
    FiveBeforeFour History "5 is asked before 4",
    DeletePastEnd History "a delete may stand at length + 1",
    InsertPastEnd History "an insert may not stand at length + 1",
    // what a refusal and a sending leave alone
    TailLeft History "a delete leaves a copy of the last item in the unused place",
    PendingTailLeft History "dropping pending edits leaves copies in the unused places",
    BytesPast History "sending clears the bytes past the message",
    RefusedWrites History "sending into a short buffer writes what fits",
    LengthAtRefusal History "a refused sending gives the message's length",
    // messages that no end writes
    ServerNoTen Message "the server does not ask 10",
    NoEight Message "question 8 is not asked",
    TrailingBytes Message "bytes after a message are passed over",
    KindByLength Message "the length of the bytes fixes the kind",
    NumberRange Message "numbers up to 2,800 are read going up",
    SeenRange Message "any seen is read",
    PositionRange Message "position 0 and positions above 512 are read",
    PriorityRange Message "any priority is read",
    LineRange Message "any line is read",
    DirectionRange Message "any direction is read",
    OwnPriorityDown Message "an insert of one's own priority comes down",
    OtherPriorityUp Message "an insert of another's priority goes up",
    OldKinds Message "kinds 1 to 3 are read, their origin the message's own line and number",
    MakerRange Message "any maker is read",
    MakerNumberRange Message "any maker's number is read",
    MakerUp Message "an edit of another maker goes up",
    MakerNumberUp Message "an edit of another of the maker's numbers goes up",
    MakerOwnDown Message "an edit of one's own comes down",
    MakerPastN Message "an edit of a maker past n comes down",
    MakerOfInserts Message "question 4 asks the maker of inserts alone",
    MakersRank Message "question 4 asks that an insert's priority is its maker's rank",
    MakerLate Message "the maker is asked after 8",
    PendingPast512 Message "question 9 does not look at the pending forms",
    // question 2, conjunct by conjunct
    SoundN End "n is not asked",
    SoundLine End "the line is not asked",
    SoundLength End "the list's length is not asked",
    SoundMade End "a client's made is not asked",
    SoundTaken End "taken is not asked",
    SoundAcked End "acked at most made is not asked",
    SoundPending End "at most 64 pending is not asked",
    SoundPosition End "the pending edits' positions are not asked",
    SoundPriority End "the pending inserts' priorities are not asked",
    SoundInserts End "at most 48 inserts is not asked",
    SoundInsertsMade End "inserts at most the client's edits is not asked",
    SoundItemsZero End "unused items are not asked",
    SoundPendingZero End "unused pending places are not asked",
    SoundInitial End "the count of opening items is not asked",
    SoundSum End "the server's sums are not asked",
    SoundListBound End "the server's list against opening and inserts is not asked",
    SoundPastN End "lines past n are not asked",
    SoundRanks End "the stored ranks are not asked",
    SoundRanksAlike End "two stored ranks may be alike",
    SoundRanksZero End "stored ranks past n are not asked",
    SoundOriginsZero End "origins past the list's end are not asked",
    SoundMaker End "the pending edits' makers are not asked to be 1 to n",
    SoundMakerPastN End "the pending edits' makers may be up to 8",
    SoundMakerOwn End "a pending edit's maker may be its own line",
    SoundMakerNumber End "the pending edits' makers' numbers are not asked",
    SoundNothingOrigin End "the origins of pending edits that are nothing are not asked",
    SoundKeptZero End "unused places for the pending edits' origins are not asked",
    SoundOriginsPastN End "the origins of lines past n are not asked",
    TwoListMakers End "question 2 asks that the makers on the list are at most n",
    TwoMakersRank End "question 2 asks that a pending insert's priority is its maker's rank",
    SoundTotal End "the total is not asked",
    SoundTotal16 End "the low 16 bits of the total are asked",
    SoundTotalLow End "the total is asked to be at most the sum",
    SeventeenFirst End "17 is asked before 2",
    FifteenEarly End "15 is asked once the numbers of the end are known to fit their fields, before the rest of 2",
    SoundInverse End "the stored inverse is not asked",
    SoundInversePosition End "the inverse's position is not asked",
    SoundInverse512 End "the inverse is asked to stand at 1 to 512",
    SoundInversePriority End "the inverse's priority is not asked",
    SoundInverseItem End "the item of an inverse that is no insert is not asked",
    SoundInverseUnmade End "an inverse where no edit was made is not asked",
    TotalLastUnseen History "question 2 adds up without the last item",
    // opening
    Open129 Opening "129 items open",
    OpenNine Opening "n = 9 opens a server",
    OpenLineZero Opening "line 0 opens a client",
    ItemsCounted8 Opening "opening items are counted in 8 bits: 256 are none",
    ItemsLowFirst History "opening items are read low byte first",
    CutItem History "a cut opening item is passed over",
    OpenZeros History "a refused opening writes zeros",
    OpenLeaves History "opening leaves the bytes of unused places as they were",
    // lent bytes
    ShortLate History "18 is asked last",
    ShortByThree History "three bytes too few are let through",
    LongRefused History "more bytes than the layout's give 18",
    RestCleared History "the bytes past the layout become zero",
    ShortOut18 History "too short a buffer for a message gives 18",
    RefusedByte History "a refused edit or taking changes a byte of the end",
    AnswerHigh History "an answer has a bit past its positions",
    Length8 Message "the message's length is read in 8 bits: 261 bytes are 5",
    // bytes of the layout that nobody looks at
    WideN End "the upper bytes of n and line are not looked at",
    WideCount End "the upper bytes of the counts are not looked at",
    WidePlace End "the top byte of a pending place is not looked at",
    WideInverse End "the top byte of the inverse's place is not looked at",
    WideMaker End "the top byte of a pending edit's origin is not looked at",
    // the run program
    ScriptRanks Script "the lines' ranks are their numbers from the last on",
    ScriptWide Script "a number too wide for its field loses its high bits",
    ScriptSpaces Script "two spaces are read as one",
    ScriptZeros Script "a number with leading zeros is not read",
    ScriptLastLine Script "a last line without byte 10 does not count",
    ScriptLong Script "65,536 bytes are long already",
    ScriptRefusalOfTaking Script "up and down print the taking's refusal alone",
    ScriptEmptyList Script "an empty list has a space after its name",
}
