//! What a run reached: a count for each thing on a list, and which of them are missing.

use crate::gen::Kind;

macro_rules! things {
    ($($name:ident $kinds:literal $text:literal,)*) => {
        #[derive(Debug, Clone, Copy, PartialEq, Eq)]
        pub enum Thing {
            $($name,)*
        }

        /// Each thing, the kinds of script (by first letter) that are to reach it, and its name.
        const THINGS: &[(Thing, &str, &str)] = &[$((Thing::$name, $kinds, $text),)*];
    };
}

/// The refusals of each op and the kinds that are to reach them. 14 isn't among them: it takes
/// 4,294,967,295 sends or distributions, as an image can't be resumed.
const REFUSALS: &[(u8, &str, &str, &[usize])] = &[
    (1, "create", "mtik", &[15]),
    (2, "receive", "mt", &[1, 2, 3, 4, 5, 6, 7, 8, 9, 10, 11, 12]),
    (3, "send", "t", &[1, 13]),
    (4, "distribute", "mtk", &[1, 15, 17]),
    (5, "tick", "mt", &[1]),
    (6, "new MI", "t", &[1, 19]),
    (7, "report", "mk", &[18]),
    (9, "save", "i", &[13]),
    (10, "show", "mig", &[16]),
    (11, "sets", "c", &[2, 3, 4, 5]),
];

#[derive(Default, Clone)]
pub struct Reach {
    counts: Vec<u64>,
    refusals: [[u64; 20]; 12],
    kinds: Vec<Kind>,
}

impl Reach {
    pub fn begin(&mut self, kind: Kind) {
        self.counts.resize(THINGS.len(), 0);
        if !self.kinds.contains(&kind) {
            self.kinds.push(kind);
        }
    }

    pub fn count(&mut self, thing: Thing) {
        self.counts[thing as usize] += 1;
    }

    pub fn count_if(&mut self, holds: bool, thing: Thing) {
        if holds {
            self.count(thing);
        }
    }

    pub fn count_refusal(&mut self, op: u8, number: u8) {
        self.refusals[usize::from(op)][usize::from(number)] += 1;
    }

    fn wanted(&self, kinds: &str) -> bool {
        self.kinds.iter().any(|kind| kinds.contains(&kind.name()[..1]))
    }

    /// Name, count, and whether the kinds played are to reach it.
    fn all(&self) -> Vec<(String, u64, bool)> {
        let refusals = REFUSALS.iter().flat_map(|&(op, call, kinds, numbers)| {
            numbers.iter().map(move |&number| {
                let count = self.refusals[usize::from(op)][number];
                (format!("{call} refused {number}"), count, self.wanted(kinds))
            })
        });
        let things = THINGS.iter().map(|&(thing, kinds, text)| {
            let count = self.counts.get(thing as usize).copied().unwrap_or(0);
            (text.to_string(), count, self.wanted(kinds))
        });
        refusals.chain(things).collect()
    }

    /// A line for each thing, with `-` where the kinds played need not reach it.
    pub fn lines(&self) -> Vec<String> {
        let line = |(name, count, wanted)| format!("{count:>8} {} {name}", if wanted { ' ' } else { '-' });
        self.all().into_iter().map(line).collect()
    }

    /// What the kinds played should have reached and didn't.
    pub fn missing(&self) -> Vec<String> {
        let missing = |(name, count, wanted)| (wanted && count == 0).then_some(name);
        self.all().into_iter().filter_map(missing).collect()
    }
}

things! {
    // Scripts.
    NoParticipant "mtikg" "call before a create",
    Malformed "g" "malformed record",
    CreatedAgain "mtikg" "created a second time",
    CreatedBack "mtig" "created back in time",
    TimeZero "mtkg" "time 0",
    TimeLast "mtik" "time 2^64-1",
    TimeEqual "mtikg" "time equal to the clock",
    CreateCknEmpty "g" "create with an empty CKN",
    CreateCknLong "ig" "create with a CKN over 32",
    CreateCapabilityLow "g" "create with capability 0",
    CreateCapabilityHigh "g" "create with capability over 3",
    // Frames and walks.
    WalkEnd "mctikg" "walk to the end",
    WalkList "mctikg" "list with entries",
    WalkListLong "mctikg" "list of 16 entries or more",
    WalkListEmpty "mctikg" "empty list",
    WalkUse "mctikg" "SAK Use of 40",
    WalkUseEmpty "mctikg" "empty SAK Use",
    WalkSakEmpty "mctikg" "empty Distributed SAK",
    WalkSak28 "mctikg" "Distributed SAK of 28",
    WalkSak36 "mctikg" "Distributed SAK of 36",
    WalkSak52 "mctikg" "Distributed SAK of 52",
    WalkIndicator "mctik" "ICV Indicator at its place",
    WalkOther "mctikg" "set of another type skipped",
    WalkTrailing "mctik" "octets after the body",
    WalkPadded "mctikg" "Basic set with padding",
    FaultFit "mctg" "set that doesn't fit",
    FaultLength "mcti" "set of a wrong length",
    FaultTwice "cg" "set twice",
    FaultKeyNumberZero "cg" "KN 0",
    FaultIndicatorPlace "c" "ICV Indicator elsewhere",
    FaultIndicatorLength "c" "ICV Indicator of another length",
    // Orders of facts.
    OneBeforeFrame "mtg" "fact 1 with a bad frame",
    ThreeBeforeFour "t" "fact 3 with 4",
    SixBeforeSeven "mtg" "fact 6 with 7",
    SevenBeforeEight "mt" "fact 7 with 8",
    EightBeforeNine "mtg" "fact 8 with 9",
    NineBeforeTen "mt" "fact 9 with 10",
    TenBeforeEleven "t" "MN 0 under our MI",
    ElevenBeforeTwelve "mt" "MN 0 of a seventeenth MI",
    FifteenBeforeSeventeen "mtikg" "wrong wrapped key while nothing is due",
    NumberZero "mti" "receive of MN 0",
    NumberEqual "mtik" "receive of the MN held",
    NumberLower "mtik" "receive of a lower MN",
    // The table.
    Entered "mtikg" "peer entered",
    Updated "mtikg" "peer updated",
    ReEntered "mtik" "peer removed and entered by the same frame",
    FullAndOneGoes "mti" "seventeenth MI while one of 16 goes",
    RemovedByReceive "mtikg" "entry removed by receive",
    RemovedBySend "mtik" "entry removed by send",
    RemovedByDistribute "mtk" "entry removed by distribute",
    RemovedByTick "mtik" "entry removed by tick",
    RemovedAt6000 "mtik" "entry removed at exactly 6,000 ms",
    KeptAt5999 "mtik" "entry kept at 5,999 ms",
    LostAt6000 "mtik" "proof lost at exactly 6,000 ms",
    HeldAt5999 "mtik" "proof held at 5,999 ms",
    LostProof "mtik" "proof lost, entry kept",
    WouldGoRefused "mtikg" "refused call at which entries would go",
    ProofLast "mtikg" "proof by the last number",
    ProofSecond "mt" "proof by the second last",
    ProofThird "mt" "proof by the third last",
    ProofFourth "mtik" "proof by the fourth last",
    NoProofFifth "mtik" "no proof by the fifth last",
    NoProofAbove "mtikg" "no proof by a number above the last",
    NoProofZero "mtikg" "no proof by number 0",
    ProofByLiveList "mtikg" "proof in the Live list",
    ProofByPotentialList "mtikg" "proof in the Potential list",
    ProofBehindOther "mtikg" "proof behind another entry",
    ProofRenewed "mtikg" "proof renewed while Live",
    LiveWithoutProof "mtikg" "Live peer's frame without proof",
    MarkByNew "mtikg" "mark set by a new entry",
    MarkByPotential "mtg" "mark set by a Potential entry",
    MarkByLapsed "k" "mark set by one whose proof is lost in this call",
    MarkUnelected "mtikg" "mark set while we aren't elected",
    OurSciHeard "mtikg" "frame with our SCI",
    FormerMiHeard "t" "frame under a former MI of ours",
    // Elections.
    NobodyAlone "mtikg" "nobody, no Live peer",
    NobodyStands "mtik" "nobody, none stands",
    SelfUnopposed "mtikg" "self, no other stands",
    SelfByPriority "mti" "self by priority",
    SelfBySci "mtik" "self by SCI",
    SelfByMi "mtik" "self by MI",
    PeerUnopposed "mtik" "peer, no other stands",
    PeerByPriority "mtikg" "peer by priority",
    PeerBySci "mtik" "peer by SCI",
    PeerByMi "mtik" "peer by MI",
    // Keys.
    Key28 "mtik" "key of 28 entered",
    Key36 "mtik" "key of 36 entered",
    Key52 "mtik" "key of 52 entered",
    KeyByTurn "mk" "key of one elected by this frame",
    KeyUnelected "mtikg" "key ignored, sender not elected",
    KeyNoMore "mk" "key ignored, sender elected before this frame only",
    KeySameLatest "mtik" "key ignored, the latest",
    KeySameOld "mtik" "key ignored, the old",
    KeyLower "mtik" "key ignored, lower KN",
    KeyLowerThanOld "mtk" "key entered, KN lower than its sender's old key",
    KeysDropped "mtik" "keys dropped",
    EmptyWithoutKeys "mk" "empty type 4 without keys",
    EmptyUnelected "kg" "empty type 4 of one not elected",
    KeyWhileMarked "mtik" "peer's key while the mark is set",
    OwnFirst "mtik" "own key, KN 0",
    OwnAfterPause "mtik" "own key after 6,000 ms, some peer Potential",
    OwnSettled "mtik" "own key, no peer Potential",
    OwnAfterPeer "mtik" "own key after a peer's",
    AnRound "mtik" "AN from 3 to 0",
    AnFirst "mtik" "AN 0 without a key",
    Confidential "mtik" "own key with confidentiality",
    Open "mtik" "own key without confidentiality",
    NotDueUnelected "mtikg" "not due, not elected",
    NotDueUnmarked "mtik" "not due, mark clear",
    NotDuePaused "mtik" "not due, in the pause",
    PauseAt5999 "mk" "not due at 5,999 ms",
    PauseAt6000 "mk" "due at 6,000 ms",
    ReportNoKey "mtikg" "report without a key",
    ReportOtherMi "mtikg" "report of another MI",
    ReportOtherKn "mtik" "report of another KN",
    ReportOld "mtik" "report of the old key",
    ReportTransmitFirst "mtik" "transmit before receive",
    ReportReceive "mtik" "receive reported",
    ReportTransmit "mtik" "transmit reported",
    ReportRepeated "mtik" "report repeated",
    ReportReceiveAfter "mk" "receive reported after transmit",
    MiPresent "mt" "new MI: the present one",
    MiOfLatest "mt" "new MI: the latest key's",
    MiOfOld "t" "new MI: the old key's",
    MiOfPeer "t" "new MI: a peer's",
    MiTaken "mtkg" "new MI taken",
    MiWithKeys "mtg" "new MI with keys on record",
    // Sending and questions.
    SentBothLists "mtikg" "sent with both lists",
    Sent16 "mtik" "sent with 16 peers",
    SentUse "mtikg" "sent with SAK Use, no old key",
    SentUseOld "mtik" "sent with SAK Use of two keys",
    SentSak "mtik" "sent with Distributed SAK",
    SentSakWithheld "mtik" "sent without own SAK, mark set",
    SentSakUnelected "mtik" "sent without own SAK, not elected",
    SentUnflagged "mtikg" "sent without the Key Server flag",
    SentFlagged255 "mtik" "sent flagged with priority 255",
    RoomExact "mtik" "send with just enough room",
    RoomShort "mtik" "send with one octet too few",
    HelloFirst "mtikg" "hello due, nothing sent",
    HelloAt1999 "mt" "hello not due at 1,999 ms",
    HelloAt2000 "mti" "hello due at 2,000 ms",
    FreshDue "mtikg" "fresh due",
    FreshNot "mtikg" "fresh not due",
    // Images.
    SavedEmpty "mig" "image without peers",
    SavedFull "mi" "image with 16 peers",
    SavedNoKey "mikg" "image without keys",
    SavedOneKey "mikg" "image with one key",
    SavedTwoKeys "mik" "image with two keys",
    SaveExact "i" "image with just enough room",
    SaveShort "i" "image with one octet too few",
    ShownNone "mig" "image shown, no server",
    ShownSelf "mig" "image shown, server self",
    ShownPeer "mig" "image shown, server a peer",
}
