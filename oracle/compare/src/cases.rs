//! The cases that a run may reach, each with its name and the runs that must reach it. This is the only list of them.

/// The runs that must reach a case.
#[derive(Clone, Copy, Debug, PartialEq, Eq)]
pub enum Required {
    /// Every full run, and the recorded list.
    Always,
    /// A gate's run; the recorded list is too small for it.
    Gate,
    /// A gate's run, at least `TIMES` times.
    Often,
    /// The run against the Rust.
    RustGate,
    /// The run with the proved table.
    LibraryGate,
    /// No run.
    Optional,
}

/// How often a case that is required often must be reached.
pub const TIMES: u64 = 1_000;

macro_rules! cases {
    ($($required:ident { $($case:ident = $name:literal,)* })*) => {
        #[derive(Clone, Copy, Debug, PartialEq, Eq)]
        pub enum Case {
            $($($case,)*)*
        }

        impl Case {
            pub const ALL: &[Case] = &[$($(Case::$case,)*)*];

            pub fn name(self) -> &'static str {
                match self {
                    $($(Case::$case => $name,)*)*
                }
            }

            pub fn required(self) -> Required {
                match self {
                    $($(Case::$case => Required::$required,)*)*
                }
            }
        }
    };
}

cases! {
    Always {
        Open1Column = "open: 1 column",
        Open2Columns = "open: 2 columns",
        Open3Columns = "open: 3 columns",
        Open4Columns = "open: 4 columns",
        Open5Columns = "open: 5 columns",
        Open6Columns = "open: 6 columns",
        Open7Columns = "open: 7 columns",
        Open8Columns = "open: 8 columns",
        OpenRule0 = "open: rule 0",
        OpenRule1 = "open: rule 1",
        OpenRule2 = "open: rule 2",
        OpenRule3 = "open: rule 3",
        OpenSortFirst = "open: sort column 0",
        OpenSortKey = "open: sort column a key column",
        OpenSortOther = "open: sort column not a key column",
        InsertDead = "insert: dead first cell",
        RemoveRowLive = "remove by row: live row",
        RemoveRowOfOtherKey = "remove by row: row of another key",
        RemoveRowDead = "remove by row: dead row",
        RemoveRowGone = "remove by row: no such row any more",
        MergeRowAdded = "merge: row added",
        MergeNothingAdded = "merge: nothing added",
        MergeRule2OtherSign = "merge: rule 2, another sign",
        MergeRule3OtherSign = "merge: rule 3, another sign",
        MergeStop8 = "merge: stop 8",
        MergeStop9 = "merge: stop 9",
        MergeStop9WithoutEntry = "merge: stop 9 by a value that no entry has any more",
        MergeStopAfterRow = "merge: stop after a row was added",
        MergeStopAtLaterPlace = "merge: stop at a place above 0",
        MergeCompacts = "merge: compacts by itself",
        MergeCompactsAllDead = "merge: compacts, no row is kept",
        MergeCompactsAfterRow = "merge: compacts after a row was added",
        MergeAtLastGeneration = "merge: does not compact at the last generation",
        MergeAtDeadLimit = "merge: dead rows just not too many",
        MergeHalfOfManyDead = "merge: half of many rows dead",
        MergeCompactsAboveHalfEven = "merge: compacts just above half of an even count",
        MergeCompactsAboveHalfOdd = "merge: compacts just above half of an odd count",
        CompactWithDeadRows = "compact: with dead rows",
        CompactWithoutDeadRows = "compact: without dead rows",
        ClearWithRows = "clear: with rows",
        ClearWithoutRows = "clear: without rows",
        ClearKeepsValue = "clear: without rows, a value is kept",
        TableExactlyFull = "table exactly full",
        LookupNone = "lookup: none",
        LookupRow = "lookup: row",
        OneCellNone = "one cell: none",
        OneCellCell = "one cell: cell",
        FastRangeNone = "fast range: none",
        FastRangeEmpty = "fast range: empty",
        FastRangeRows = "fast range: rows",
        RowsSinceEmpty = "rows since: empty",
        RowsSinceRows = "rows since: rows",
        NoteEmpty = "rows since a note: empty",
        NoteRows = "rows since a note: rows",
        RefineOneRange = "refine by one: range",
        RefineOneList = "refine by one: list",
        RefineOneEmptyRange = "refine by one: 0..0",
        RefineListRange = "refine by a list: range",
        RefineListList = "refine by a list: list",
        NoConditions = "a list of no conditions",
        SeveralConditions = "a list of several conditions",
        AnyMatchYes = "any match: yes",
        AnyMatchNo = "any match: no",
        PageNext = "page: next",
        PageNoNext = "page: no next",
        PageOfNone = "page: n = 0",
        PageFromSize = "page: from the subset's size",
        PageFromAboveSize = "page: from above the subset's size",
        PageShortOutput = "page: output shorter than n",
        PageDead = "page: over dead rows",
        PageDeadAndFailed = "page: dead rows and failed ones",
        IntersectRange = "intersect: range",
        IntersectList = "intersect: list",
        IntersectEmptyList = "intersect: empty list",
    }
    Gate {
        MergeCompactsMany = "merge: compacts more than 64 rows",
        KeysPast128New = "key store: grows past 128 rows, new key",
        KeysPast128Known = "key store: grows past 128 rows, known key",
        KeysPast512New = "key store: grows past 512 rows, new key",
        KeysPast512Known = "key store: grows past 512 rows, known key",
        KeysFewerSlots = "key store: a compaction leaves fewer slots",
        ClearManyThenRows = "clear: of more than 128 rows, then rows again",
        FullFilled = "full size: filled",
        FullStop8 = "full size: stop 8",
        FullHalfDead = "full size: half of the rows dead",
        FullMergeCompacts = "full size: a merge compacts",
        FullCompact = "full size: compact",
        FullSortEntries = "full size: 65536 sort entries",
        FullRefineOneLongest = "full size: refine by one, 65536 ids",
        FullRefineOneTooLong = "full size: refine by one, 65537 ids refused",
        FullRefineListLongest = "full size: refine by a list, 65536 ids",
        FullRefineListTooLong = "full size: refine by a list, 65537 ids refused",
        FullAnyMatchLongest = "full size: any match, 65536 ids",
        FullAnyMatchTooLong = "full size: any match, 65537 ids refused",
        FullPageLongest = "full size: page, 65536 ids",
        FullPageTooLong = "full size: page, 65537 ids refused",
        FullPageAllWritten = "full size: page of 65536 ids, all written",
        FullIntersectLongest = "full size: intersect, 65536 ids",
        FullIntersectTooLong = "full size: intersect, 65537 ids refused",
        FullAllKept = "full size: all 65536 ids kept",
        PageOfMany = "page: n above 2^32",
        PrecedenceNoRow = "precedence: no row is named",
        PrecedenceMetByOther = "precedence: met by another row",
        PrecedenceMetByItself = "precedence: met by the row itself",
        PrecedenceSeveralPairs = "precedence: a row meets several pairs",
        PrecedenceFailsFirst = "precedence: fails the first pair",
        PrecedenceFailsLater = "precedence: fails a later pair",
        PrecedenceFailsBySort = "precedence: fails by the sort cell alone",
        PrecedenceFailsDeadMark = "precedence: fails, its need the dead mark",
        Precedence16Pairs = "precedence: 16 pairs",
        PrecedenceSortColumn = "precedence: in the sort column",
        PrecedenceSortOtherKey = "precedence: the sort column another key column",
        RefreshNoColumns = "refresh: no columns",
        RefreshNoValues = "refresh: no values",
        Refresh9EmptyList = "refresh: 9 with an empty list",
        RefreshStampBelow = "refresh: stamp just below the kept value",
        RefreshStampAt = "refresh: stamp at the kept value",
        RefreshStampAbove = "refresh: stamp above the kept value",
        RefreshStampGreatest = "refresh: stamp 4294967295",
        RefreshNoKeptValue = "refresh: without a kept value",
        RefreshRepeatedColumn = "refresh: a repeated column",
        RefreshEightColumns = "refresh: eight columns",
        RefreshIndexShort = "refresh: index store a word short",
        RefreshIndexExact = "refresh: index store as long as needed",
        RefreshIndexLonger = "refresh: index store longer than needed",
        RefreshPendingShort = "refresh: pending a word short",
        RefreshPendingFull = "refresh: pending exactly full",
        RefreshBehindRecords = "refresh: behind other records",
        RefreshLastGeneration = "refresh: the last generation",
        RefreshSortFirst = "refresh: sort column 0",
        RefreshSortKey = "refresh: sort column a key column",
        RefreshSkippedInserts = "refresh: inserts that a merge skips",
        RefreshGreatestFound = "refresh: 4294967295 found as a value",
        RefreshGreatestInFirst = "refresh: 4294967295 looked for in column 0",
        RefreshRowTwice = "refresh: a row found twice",
        RefreshRowAtStamp = "refresh: a row that has the stamp already",
        RefreshDeadRow = "refresh: a dead row holds a value",
        RefreshNoRow = "refresh: no row holds a value",
        RefreshManyRows = "refresh: many rows",
        RefreshLastOfManyValues = "refresh: a row found by the last of more than 1024 values",
        RefreshNewIndex = "refresh: a new index store",
        RefreshIndexOfVersion = "refresh: an index of this version",
        RefreshIndexBehind = "refresh: an index that catches up",
        RefreshIndexOtherColumns = "refresh: an index of other columns",
        RefreshIndexEarlier = "refresh: an index of an earlier generation",
        RefreshIndexCopy = "refresh: a copy of an index store",
        RefreshMergeStop8 = "refresh: the merge stops with 8",
        RefreshMergeStop9 = "refresh: the merge stops with 9",
        FullRefreshEightColumns = "full size: refresh by eight columns",
        ReloadSame = "reload: the same capacity",
        ReloadLarger = "reload: a larger capacity",
        ReloadSmaller = "reload: a smaller capacity",
        ReloadExact = "reload: as many rows as the capacity",
        ReloadEmpty = "reload: without rows",
        ReloadDeadRows = "reload: dead rows",
        ReloadStaged = "reload: staged records",
        ReloadMoreSlots = "reload: other slots in use",
        FullReload = "full size: reload",
    }
    Often {
        NoteOtherGeneration = "rows since a note: another generation",
        NoteMoreRows = "rows since a note: more rows than there are",
        RefreshYes = "refresh: yes",
        RefreshNo = "refresh: no",
    }
    RustGate {
        EndedStop8 = "ended: stop 8",
        EndedStop9Panic = "ended: stop 9, the Rust panics",
        EndedStop9OlderStamp = "ended: stop 9, the Rust takes an older stamp",
        EndedLastGeneration = "ended: last generation",
        NotComparedGreatestId = "not compared: range with the greatest id",
        NotComparedLongestPage = "not compared: page that ends past the greatest number",
    }
    LibraryGate {
        UnsoundFilled = "refresh: unsound, filled with random words",
        UnsoundChanged = "refresh: unsound, a word changed",
        UnsoundOtherTable = "refresh: unsound, of another table",
        UnsoundRowsLeftOut = "refresh: unsound, rows are left out",
        UnsoundAllStaged = "refresh: unsound, all rows are staged",
        UnsoundRefused = "refresh: unsound, refused",
    }
    Optional {
        EndedSharedHash = "ended: a removal by row whose key shares the hash",
        EndedStop9LaterPanic = "ended: stop 9, the Rust takes an older stamp and panics at a later row",
    }
}

/// How often each case was reached.
#[derive(Clone)]
pub struct Reached([u64; Case::ALL.len()]);

impl Default for Reached {
    fn default() -> Reached {
        Reached([0; Case::ALL.len()])
    }
}

impl Reached {
    pub fn add(&mut self, case: Case, times: u64) {
        self.0[case as usize] += times;
    }

    pub fn add_all(&mut self, other: &Reached) {
        for &case in Case::ALL {
            self.add(case, other.times(case));
        }
    }

    pub fn times(&self, case: Case) -> u64 {
        self.0[case as usize]
    }

    /// The cases with this requirement that were never reached.
    pub fn unreached(&self, required: Required) -> impl Iterator<Item = Case> + '_ {
        let cases = Case::ALL.iter().copied();
        cases.filter(move |&case| case.required() == required && self.times(case) == 0)
    }
}
