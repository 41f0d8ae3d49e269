//! Deliberate faults of the second program: what the generated sheets must bring to light.

macro_rules! faults {
    (
        $($name:ident: $text:literal,)* ;
        $($of_tally:ident: $counted:literal,)* ;
        $($of_map:ident: $what:literal,)* ;
        $($of_run:ident: $wrong:literal,)* ;
        $($of_peel:ident: $peeled:literal,)* ;
        $($of_worst:ident: $written:literal,)* ;
        $($of_fill:ident: $filled:literal,)* ;
        $($of_root:ident: $rooted:literal,)* ;
        $($of_equal:ident: $shown:literal,)* ;
        $($of_number:ident: $handed:literal,)* ;
        $($of_join:ident: $joined:literal,)*
    ) => {
        #[derive(Clone, Copy, Debug, PartialEq, Eq)]
        pub enum Fault {
            /// No fault: the program as documents 01 and 02 have it.
            None,
            /// Angles judged by the Rust's acos, to explain a difference.
            AnglesByAcos,
            $($name,)*
            $($of_tally,)*
            $($of_map,)*
            $($of_run,)*
            $($of_peel,)*
            $($of_worst,)*
            $($of_fill,)*
            $($of_root,)*
            $($of_equal,)*
            $($of_number,)*
            $($of_join,)*
        }

        impl Fault {
            /// Every deliberate fault of the answer to a file, its tally's last, with what is wrong.
            pub const ALL: &'static [(Fault, &'static str)] = &[
                $((Fault::$name, $text),)*
                $((Fault::$of_tally, $counted),)*
            ];

            /// Every deliberate fault of the map.
            pub const MAP: &'static [(Fault, &'static str)] = &[$((Fault::$of_map, $what),)*];

            /// Every deliberate fault that a run shows: those of the tally, then its own.
            pub const RUN: &'static [(Fault, &'static str)] = &[
                $((Fault::$of_tally, $counted),)*
                $((Fault::$of_run, $wrong),)*
            ];

            /// Every deliberate fault of strengths and of what is made of them.
            pub const PEEL: &'static [(Fault, &'static str)] = &[$((Fault::$of_peel, $peeled),)*];

            /// Every deliberate fault of the sheet that takes longest, those of its argument last.
            pub const WORST: &'static [(Fault, &'static str)] =
                &[$((Fault::$of_worst, $written),)*];

            /// Every deliberate fault of the fills, those of their listing and of their call last.
            pub const FILL: &'static [(Fault, &'static str)] = &[$((Fault::$of_fill, $filled),)*];

            /// Every deliberate fault of the roots that a listing shows, those of `=` last.
            pub const ROOT: &'static [(Fault, &'static str)] = &[
                $((Fault::$of_root, $rooted),)*
                $((Fault::$of_equal, $shown),)*
            ];

            /// Every deliberate fault of the root of a number: those that a listing shows too, then its own.
            pub const NUMBER: &'static [(Fault, &'static str)] = &[
                $((Fault::$of_root, $rooted),)*
                $((Fault::$of_number, $handed),)*
            ];

            /// Every deliberate fault of a join, those of its own numbers and of the joined list's last.
            pub const JOIN: &'static [(Fault, &'static str)] = &[$((Fault::$of_join, $joined),)*];

            /// a above b; under the fault `wrong` also where they are equal.
            pub fn above(self, a: f32, b: f32, wrong: Fault) -> bool {
                a > b || (self == wrong && a == b)
            }
        }
    };
}

faults! {
    RefuseAll: "every file is refused",
    SameRows: "the rows are zeros for all sheets",
    NoOrientation: "the orientation marks are zeros",
    NoWrongLabel: "the wrong-label marks are zeros",
    NoComponent: "the component marks are zeros",
    InventedCount: "the component count is 1 with the switch on",
    NoFitTooSoon: "no fit where the solution is large",
    EmptyPatch: "the largest patch is marked with the smaller ones",
    FileOrderSums: "a line is summed in file order",
    Rule3ByCell: "rule 3 visits its corners by cell",
    BaseTurnedDown: "a base with three of its four on one line is turned down",
    ComponentByCell: "component marks go by cell, not by index",
    SquareRings: "the base's order is by the larger of |du|, |dv|",
    SmallerDuFirst: "equally near cells go by smaller du, then dv",
    EntriesExchanged: "(-2,1) and (2,1) are exchanged in the base's order",
    EntryRepeated: "(-2,2) stands in the place of (2,2) in the base's order",
    OwnIndexInBase: "cells with the corner's own index are not skipped",
    LowerMedian: "a median of n is entry (n-1)/2",
    LineMinimumMissed: "a line needs more members than the line minimum",
    ShortThree: "length-4 settings stand for a line minimum of 3",
    ShortFive: "length-4 settings stand for a line minimum of 5",
    ThreeNotTaken: "a line minimum of 3 that is spelled out is read as 4",
    PivotLastOfEquals: "of equal pivots the last is taken",
    MultiplierDivided: "multiplier = entry divided by pivot",
    RowwiseSubstitution: "substitution by rows",
    SumsRightToLeft: "inner sums run right to left",
    ResidualOfFirstCell: "a repeated index keeps the residual of its first cell",
    SmallerCellWins: "a repeated index is judged at its smaller cell",
    FlagsByCell: "line flags of an index are those of one cell",
    Rule1AtOne: "one line flag marks",
    Rule2AtOnce: "rule 2 takes the tolerance itself",
    Rule3LastOfEquals: "rule 3 takes the last of equals",
    Rule3NeedsFour: "rule 3 passes over a base of fewer than four",
    Rule4AtTwo: "rule 4 takes two steps as enough",
    Rule4WithoutLine: "rule 4 asks for no line flag",
    ScaleIsCell: "with the step flag the residual's scale is the cell size",
    LastCosineStays: "of equal cosines the last met stays",
    CosineNotClamped: "cosines are not clamped",
    RatioAlwaysFails: "a continuation ratio fails at well-held corners too",
    BoxOfSheet: "box boundary is that of the whole sheet",
    EpsilonIsZero: "a side of at most 2^-23 counts if it is above 0",
    MinorityWhole: "all members of the minority are marked",
    TieKeepsAll: "a tie of votes marks nothing",
    ZeroVotes: "a cross product of zero votes negative",
    WindowHasItself: "an edge's window holds the edge itself",
    WindowNarrow: "an edge's window is within 1 cell",
    WindowAtFour: "four edges make a window",
    SheetAtSeven: "seven edges make the whole sheet's median",
    SheetAtWindowRatio: "edges judged by the whole sheet fail at 1.5",
    LineAtEqual: "a member at the tolerance itself is flagged",
    ResidualAtEqual: "a residual at the tolerance itself counts as over",
    CosineAtEqual: "a cosine at the least itself fails",
    RatioAtEqual: "a ratio at the largest itself fails",
    OverlongAtEqual: "an edge of 1.5 times its window's median fails",
    EndAtEqual: "the end of a line is marked at r = 0.30 itself",
    WindowFirstEdge: "an edge is held against its window's first edge, not the mean direction",
    CloseByRoot: "closeness is compared as distances, not as squares",
    PatchesByIndex: "a patch's size counts indices, not cells",
    StepsAtEveryCell: "the median of steps is over cells, not indices",
    ThirtyWithoutSign: "over 30 degrees is 4c² < 3 alone",
    CloseAtEqual: "points at exactly 0.2 cell sizes are marked",
    EndWithGap: "the four outermost cells of a line may have a gap",
    EndAtDegree3: "the end of a line is marked at degree 3",
    EndAbsolute: "the end of a line is marked by |r|",
    DiagonalPatches: "patches join cells by corners too",
    TieToLarger: "a tie of patches goes to the larger least cell",
    MostRefused: "a sheet of the most points is refused with 2",
    OneMoreTaken: "a sheet of one point more is not refused with 2",
    LongGives2: "a file longer than one of the most points can be is refused with 2, not 1",
    CellAtLimit: "cells at 8,000 are refused",
    BufferShort: "a buffer one byte too short is taken",
    CellsBeforePositions: "refusal 8 is given before 7",
    FlagsAfterFloats: "refusal 5 is given before 4",
    TailTaken: "bytes after the last field are taken",
    // Those of the tally.
    ;
    TallyByCell: "the tally counts cells",
    TallyKeptByCell: "kept counts cells, the filters' numbers indices",
    TallyMarkedByCell: "kept counts indices, the filters' numbers cells",
    TallyLastFilter: "an index is counted under the last filter that marks it",
    // Those of the map.
    ;
    MapColumnShort: "a line of the map has 71 cell characters",
    MapNarrow: "a line of the map ends at the largest u",
    MapLastSpace: "a line of the map has no space at its end",
    Map71Allowed: "a map of 72 values of u is refused",
    Map73Allowed: "a map of 73 values of u is drawn",
    Map59Allowed: "a map of 60 values of v is refused",
    Map61Allowed: "a map of 61 values of v is drawn",
    MapSpanWithoutOne: "a map's span is the largest less the smallest",
    MapLimitsExchanged: "a map may span 60 values of u and 72 of v",
    MapBothTooWide: "a map is refused only if both spans are too wide",
    MapRefusedFirst: "10 is given before the older numbers",
    MapExchanged: "u and v are exchanged on the map",
    MapFromLargest: "the map's lines run from the largest v to the smallest",
    MapOwnSmallest: "a line of the map begins at its own smallest u",
    MapLineLost: "a line of the map that no point has is left out",
    MapEmptyLine: "no points give an empty line",
    MapLastFilter: "the map has the letter of the last filter",
    MapLeftAligned: "v is left-aligned",
    MapSignApart: "the minus sign of v stands apart in the first column",
    MapNegativeWider: "a negative v takes a column more",
    MapZeros: "v has leading zeros",
    // Those of a run.
    ;
    RunOldLost: "a run that started under the old count begins without its old sums",
    RunOldIntoNew: "a run that started under the old count has its old sums in the new ones",
    RunOldToo: "a tally is added to the old sums too",
    RunOldInstead: "a tally is added to the old sums instead of the new ones",
    RunKeptLast: "kept is added to the last sum, each other number to the sum before its own",
    RunSheetNotCounted: "an accepted sheet is not counted",
    RunEmptyNotCounted: "an accepted sheet without points is not counted",
    RunCountsRefused: "a sheet refused with a number of its own is counted",
    RunCountsNewRefused: "a sheet refused with 12, 13 or 14 is counted",
    RunAddsRefused: "the tally of a sheet refused with 3 is added",
    RunCountsFull: "a sheet refused with 11 is counted",
    RunClearedByRefusal: "a refusal hands back a new record",
    RunFullLate: "11 is given after the file's own numbers",
    RunTakes65535: "a record of 65,535 sheets takes one more",
    RunRefuses65534: "a record of 65,534 sheets takes none",
    RunTakesLimit: "a new sum of 2^31 takes more",
    RunRefusesBelow: "a new sum of 2^31 - 1 takes no more",
    RunLooksAhead: "a sheet that would take the record to a limit is refused with 11",
    RunOldTested: "an old sum of 2^31 or more is refused with 11",
    RunBothLimits: "11 is given only if sheets and sums are both at their limits",
    RunLastUntested: "the last new sum is not tested",
    RunLeafUntested: "the new sum of leaf is not tested",
    RunLeafLost: "leaf is added to no sum",
    RunLeafIntoComponent: "leaf is added to the new sum of component",
    RunLeafLast: "the new sum of leaf stands after that of component",
    RunKeptAlone: "of the new sums only kept is tested",
    RunWritesFull: "rows are written on 11",
    // Those of tag 4.
    ;
    NoPeel: "there are no leaf marks and no rounds",
    RoundSeesRemovals: "a round sees its own removals",
    OneRound: "there is one round",
    EmptyRoundCounted: "the last round, which removes nothing, is counted",
    RoundsByIndex: "rounds counts the indices that are removed",
    NoWordForZero: "the first line has no `rounds` where there are none",
    MedianOfLive: "the median is of the live points only",
    MedianByIndex: "the median counts an index once",
    LowerStrength: "the median of n strengths is entry (n-1)/2",
    ThresholdNotRounded: "fraction times median is not rounded",
    WeakBelowMedian: "a strength below the median is weak, whatever the fraction",
    WeakAtEqual: "a strength at the threshold itself is weak",
    EndAtTwo: "a point with two live neighbours is an end",
    LoneIsNoEnd: "a point without neighbours is no end",
    EndIsAlone: "only a point without live neighbours is an end",
    PeelOverCorners: "cells that touch by a corner are neighbours",
    PeelByCell: "ends go by cell, not by index",
    EveryCellAnEnd: "an index goes only if all its cells are ends",
    PeelFromNothing: "the peel starts without the earlier marks",
    PeelBeforeWrong: "the peel starts without the wrong-label marks",
    PeelAfterComponent: "the peel runs after the component filter",
    PeelBySwitch: "the peel runs only with the largest-patch switch",
    ComponentWithoutLeaf: "the component filter starts without the leaf marks",
    LeafAfterComponent: "leaf is counted after component",
    LetterAfterComponent: "the letter L stands after C",
    LeafAtBit5: "the leaf mark is bit 5",
    MisfitGives1: "a tag 4 of another length is refused with 1",
    MisfitAfterMost: "refusal 2 is given before 12",
    StrengthsBeforePositions: "refusal 13 is given before 7",
    StrengthsAfterCells: "refusal 8 is given before 13",
    TornStrengthFirst: "refusal 14 is given before 9",
    FractionUnbounded: "13 does not look at the fraction",
    FractionAlone: "13 looks at the fraction alone",
    StrengthsByValue: "14 compares strengths by value",
    StrengthsInCellOrder: "strengths are taken in cell order",
    // Those of the sheet that takes longest.
    ;
    WorstLastAlike: "the last strength is 1",
    WorstFirstStrong: "the first strength is 2, the last 1",
    WorstMiddleStrong: "the strength of the point in the middle is 2, the last 1",
    WorstFraction1: "the fraction is 1",
    WorstNoStrengths: "there is no tag 4",
    WorstStrengthMissing: "tag 4 is a strength short",
    WorstApart8: "points lie 8 pixels apart",
    WorstCell8: "the cell size is 8",
    WorstCell100: "the cell size is 100",
    WorstIndexFrom1: "indices begin at 1",
    WorstCellsFrom1: "cells begin at (1,0)",
    WorstColumn: "cells are (0,u)",
    WorstAcross: "positions are (0,7u)",
    WorstFalling: "points are listed from the last u downward",
    WorstOneFewer: "there is a point fewer",
    WorstOneMore: "there is a point more",
    WorstShortSettings: "the settings are the cell size alone",
    WorstMinimum4: "the line minimum is 4",
    WorstSwitchOff: "the largest-patch switch is 0",
    WorstGate: "there is a tag 2, which gates nothing",
    WorstSaysWhy: "a line is written for anything else",
    WorstTakes1: "1 is taken",
    WorstRefuses2: "2 writes nothing",
    WorstRefusesMost: "2,304 writes nothing",
    WorstTakesMore: "2,305 is taken",
    WorstLeadingZeros: "leading zeros are passed over",
    WorstSign: "a plus sign is passed over",
    WorstSpaces: "spaces about the digits are passed over",
    WorstTail: "what stands after the digits is passed over",
    WorstWraps: "the number wraps at 2^32",
    WorstMoreArguments: "arguments after the first are passed over",
    // Those of the fills.
    ;
    FillHalved: "the sums are divided by 2, whatever the pairs",
    FillFromFirst: "the sums begin with the first midpoint, not at +0",
    FillFromDropped: "neighbours that are dropped make pairs too",
    FillFromPatches: "neighbours of other patches make pairs too",
    FillLastFirst: "the pair along v is added first",
    FillByPoints: "the four positions are added, and the sum divided by 4",
    FillByMeans: "each midpoint is divided, then they are added",
    FillByDifference: "a midpoint is a + (b - a) / 2",
    FillByHalves: "a midpoint is 0.5 a + 0.5 b",
    FillInDouble: "the sums are rounded once, at the end",
    FillPairsTwice: "an offset and its opposite are two pairs",
    FillCountsPoints: "pairs counts points",
    FillNeedsAll: "a position needs both pairs",
    FillFirstAlone: "only the first pair counts",
    FillOutward: "one kept neighbour stands for a pair",
    FillExchanged: "x and y are exchanged",
    FillByIndex: "a repeated index has the fill of its last cell",
    FillMissingToo: "cells without a point, within the box, are filled too",
    FillKeptToo: "kept points are filled too",
    FillOfValidate: "only points with the validate mark are filled",
    FillNotOfPatches: "points with the component mark alone are not filled",
    FillNotOfLeaves: "points with the leaf mark alone are not filled",
    FillNoneUnlisted: "points without a pair are left out",
    FillFileOrder: "fills stand in the file's order",
    FillZerosListed: "zeros are listed where there is no pair",
    FillBeforeTally: "fills are listed before the tally",
    FillUnlisted: "fills are not listed",
    FillLowerCase: "hexadecimal digits are small letters",
    FillShortHex: "hexadecimal numbers have no leading zeros",
    FillRoomOfRows: "the call asks for 28 bytes a point",
    FillBufferShort: "the call takes a buffer one byte too short",
    FillRoomOfFills: "the call asks for 20 bytes a fill",
    // Those of the roots. The remainder of the second is 0 where it should be: the residual's own digits show it.
    ;
    RootUnscaled: "the remainder is that of the number's own digits, unscaled",
    RootRoundedDown: "S is rounded down, and the root with it",
    // Those of `=`.
    ;
    EqualOfInfinite: "an infinite residual has `=`",
    EqualOfNan: "a residual that is NaN has `=`",
    EqualNotOfZero: "a residual of 0 has no `=`",
    EqualByProduct: "a residual r has `=` where r r, rounded, is the number whose root it is",
    EqualByValue: "a residual has `=` by the value alone, where its square is an f32",
    EqualOfSum: "the remainder is that of the sum of squares before it is rounded",
    EqualOfFirstCell: "a repeated index has the `=` of its first cell",
    EqualOfAll: "every finite residual has `=`",
    EqualOfNone: "no residual has `=`",
    EqualApart: "a space stands before `=`",
    // Those of a number's root alone.
    ;
    RootRoundedUp: "S is rounded up, and the root with it",
    RootOddPower: "the power is odd where the number's own exponent is",
    RootPowerTurned: "the power has the other sign",
    RootPowerHalved: "half of the power is handed back",
    RootSubnormal: "a subnormal number is read as a normal one",
    RemainderTurned: "the remainder is S² less R",
    RemainderUnsigned: "the remainder has no sign",
    ZeroNeither: "zero has neither",
    MinusZeroNeither: "-0 has neither",
    NegativeFound: "a negative number has the root of its magnitude",
    InfinityFound: "infinity has a root",
    NanFound: "NaN has a root",
    // Those of a join.
    ;
    JoinRightWins: "where both hold a cell the right point is taken",
    JoinIndexKept: "right indices stay as they are",
    JoinLeftGains: "left indices gain 2^31",
    JoinShiftHalved: "half of the shift is added twice",
    JoinZeroNotAdded: "a shift of 0 is not added",
    JoinShiftsLeft: "the shift is added to the left positions",
    JoinShiftExchanged: "dx and dy are exchanged",
    JoinMovesLeft: "the offset is added to the left cells",
    JoinOffsetExchanged: "du and dv are exchanged",
    JoinSettingsOfRight: "tag 1 is that of the right file",
    JoinGateOfRight: "tag 2 is that of the right file",
    JoinFractionOfRight: "the fraction is that of the right file",
    JoinStrengthsLost: "right points have a strength of 0",
    JoinStrengthsOfLeft: "right points have the strengths of the left ones, in their order",
    JoinMedianOfLeft: "the median of strengths is of the left points alone",
    JoinRightFirst: "the right file's own number is given before the left file's",
    JoinRightUnsound: "tags 1 and 2 of the right file may be unsound",
    JoinIndexBeforeRight: "15 is given before the right file's own number",
    JoinOffsetBeforeRight: "16 is given before the right file's own number",
    JoinOffsetFirst: "16 is given before the left file's own number",
    JoinOffsetBeforeIndex: "16 is given before 15",
    JoinTagsBeforeOffset: "17 is given before 16",
    JoinTagsBeforeIndex: "17 is given before 15",
    JoinIndexOfLeft: "15 looks at the left file alone",
    JoinIndexOfRight: "15 looks at the right file alone",
    JoinLargestIndex: "an index of 2^31 - 1 is refused with 15",
    JoinIndexTaken: "an index of 2^31 is not refused with 15",
    JoinFarthestRefused: "an offset of 16,000 is refused with 16",
    JoinFartherTaken: "an offset of 16,001 is not refused with 16",
    JoinOffsetOfU: "16 looks at du alone, not at dv",
    JoinShiftRefused: "a shift of 16,384 is refused with 16",
    JoinShiftTaken: "a shift just above 16,384 is not refused with 16",
    JoinShiftOfX: "16 looks at dx alone, not at dy",
    JoinNanTaken: "a shift that is NaN is not refused with 16",
    JoinTagsOfLeft: "17 is given only where the left file has the tag 4",
    JoinTagsOfRight: "17 is given only where the right file has the tag 4",
    JoinMostWithGone: "points that are gone count for 2",
    JoinRoomForGone: "points that are gone need room",
    JoinGoneLookedAt: "points that are gone are looked at for 7",
    JoinRoomFirst: "of the joined list 3 is given before 2",
    JoinCellsBeforeRoom: "of the joined list 6 is given before 3",
    JoinPositionsFirst: "of the joined list 7 is given before 6",
}
