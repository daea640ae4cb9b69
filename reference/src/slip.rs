//! The mistakes that can be planted in the second implementation, to show that the judge sees them.

/// Names each slip once, for the enum and for the list of all.
macro_rules! slips {
    ($($(#[$words:meta])* $name:ident,)*) => {
        /// A planted mistake; each is consulted in exactly one place of the store's code.
        #[derive(Clone, Copy, PartialEq, Eq, Debug)]
        pub enum Slip {
            $($(#[$words])* $name,)*
        }

        impl Slip {
            /// All of them, in the order above.
            pub const ALL: &'static [Slip] = &[$(Slip::$name,)*];
        }
    };
}

/// The longest value before note 1, by which the slips of that note still go.
pub const OLD_VALUE_BYTES: usize = 48;

slips! {
    // The five that the order names.
    /// A newer level 0 table is linked before an older one.
    NewerLevel0TableFirst,
    /// Merges on every level drop every delete mark. Document 01 calls it dropping delete marks
    /// above level 3; since note 5 some go there rightly, and the slip is that all do.
    EveryMarkDropped,
    /// A merge takes whole frozen tables and not their slices.
    WholeFrozenTableMerged,
    /// Reads meet a table's oldest link first.
    OldestLinkReadFirst,
    /// A table is responsible from its own span's start on.
    KeysBetweenTablesUnlinked,

    // Reading.
    /// Reads meet the oldest table of level 0 first.
    OldestLevel0TableReadFirst,
    /// Scans show entries of frozen tables outside the links' ranges.
    ScanReadsWholeFrozenTables,
    /// `more` is 1 already at exactly sixteen values.
    ScanMoreAtSixteen,
    /// Delete marks count among the sixteen of a scan.
    ScanCountsDeleteMarks,
    /// A scan looks for an older value behind a delete mark.
    ScanReadsThroughMarks,
    /// The high end of a scan does not belong to it.
    ScanLeavesHighOut,
    /// The report gives the number of frozen places for that of links.
    ReportCountsFrozenNotLinks,

    // Memory, flush and places.
    /// A put is of a new key if no look-up finds the key, and not if the memory lacks it.
    NewKeyJudgedByMap,
    /// A delete of a key that the memory lacks leaves no mark.
    DeleteOfAbsentKeySkipped,
    /// A flush of an empty memory is refused when no place is free.
    EmptyFlushWantsPlace,
    /// A flush leaves the memory as it was.
    FlushKeepsMemory,
    /// The cursor goes beyond the last place.
    CursorNotWrapping,
    /// The cursor always goes back to the first place.
    CursorReset,
    /// The cursor stays on the place taken.
    CursorAtTakenPlace,

    // Which table, which level.
    /// Of due merges the one on the highest level number comes first.
    DueHighestLevelFirst,
    /// Of due merges on a level the one with the highest keys comes first.
    DueHighestKeysFirst,
    /// A merge is due by count only above T links.
    DueOneLinkLate,
    /// A level is above capacity when it has just reached it.
    CapacityReachedIsAbove,
    /// Live/capacity is rounded down before levels are compared.
    RatiosAsWholeNumbers,
    /// Of equally full levels the higher number is taken.
    TiesToHigherLevel,
    /// The choice begins at a table whose least own key is the mark.
    ChoiceAtMark,
    /// The choice begins by the spans' starts and not by least own keys.
    ChoiceBySpanStart,
    /// The choice does not go round.
    ChoiceNotGoingRound,
    /// Levels 1 and 2 share a mark.
    OneMarkForBothLevels,
    /// A choice that ends in a move leaves the mark.
    MarkNotSetOnMove,
    /// A merge in place of a choice sets the mark.
    MarkSetByMergeInPlaceOfChoice,

    // Move and link.
    /// A table that moves to level 3 loses its delete marks.
    MoveDropsMarks,
    /// A tidy replies the level that the table came to.
    LevelAfterStepReplied,
    /// Responsibility goes by own keys and not by spans.
    ResponsibleByOwnKeys,
    /// The first range begins at the first span's start and not at 0.
    FirstRangeFromSpanStart,
    /// The last range ends at the last span's end and not at the greatest key.
    LastRangeToSpanEnd,
    /// Every table below gains a link, also without an entry in its range.
    LinksWithoutEntries,
    /// A new link is put before the older ones.
    NewLinkInFront,

    // Merge.
    /// Of two entries of a key the older one stays.
    OlderEntryWins,
    /// 20 counts the entries before the newer of each key has won.
    NeedCountedBeforeNewerWins,
    /// 20 counts the entries before delete marks have gone, on whichever level.
    NeedCountedBeforeMarksGo,
    /// All old places are freed before the results are written, and count as free.
    OldPlacesFreedFirst,
    /// The old table's place is freed before the results are written, and counts as free.
    OldPlaceReused,
    /// The results stand at the end of their level's list.
    ResultsAtListEnd,
    /// A merge frees its frozen places although other tables have links to them.
    FrozenFreedWhileNamed,
    /// Frozen places are never freed.
    FrozenNeverFreed,
    /// A freed place loses its bytes.
    FreedPlaceCleared,

    // Run.
    /// A run stops with exactly 1,024 bytes left.
    StopWithRoomLeft,

    // Longer values (note 1), each with the old limit left in one part.
    /// A put of a value longer than the old limit is refused with 17.
    LongPutRefused,
    /// Rules C and D take no entry longer than the old limit.
    LongEntryUnsound,
    /// A scan ends where its reply would be longer than it could be by the old limit.
    ScanEndsAtOldLength,

    // Merge by weight (note 2).
    /// A merge is due by weight only above the table's own entry count.
    DueAboveOwnCount,
    /// A link's number counts values alone, without delete marks.
    NumberWithoutDeleteMarks,
    /// Tables that are due by weight alone wait for all that are due by count.
    DueByCountFirst,

    // The first broken rule (note 3).
    /// The memory table is judged before the places: D is given where C and D are broken.
    MemoryJudgedBeforePlaces,
    /// Frozen places are judged while the links are walked: F is given where E and F are broken.
    FrozenJudgedWithLinks,
    /// The last broken rule is given.
    LastBrokenGiven,

    // Saving the book (note 4).
    /// Opening over more places takes the cursor to the first added one.
    CursorToAddedPlaces,
    /// Opening writes the lent book before the store as opened is checked.
    OpenWritesBeforeCheck,
    /// A saved list's count goes by the most places of any store, and not by those saved.
    SavedListCountAnyPlaces,
    /// Saving judges the room before the store, as a run does.
    SaveJudgesRoomFirst,

    // Old delete marks (note 5).
    /// Delete marks that go are taken out before the newer of each key has won, and older values
    /// come back.
    MarksGoBeforeNewerWins,
    /// Delete marks go on level 3 alone, and there all of them: the rule before the note.
    MarksGoOnLevel3Alone,
    /// Delete marks stay on level 3, too, where no level lies lower.
    MarksStayOnLevel3,
    /// The merged table's own level counts as lower-lying. Its span holds all keys of the merge,
    /// so no delete mark ever goes.
    OwnLevelLowerLying,
    /// Of the lower-lying levels the next one alone is asked.
    NextLevelAloneAsked,
    /// A delete mark goes if any lower-lying level has no span holding its key, and not only if
    /// none of them has one.
    OneFreeLevelIsEnough,
    /// Spans go by own keys, without the links' ranges.
    SpanOfOwnKeys,
    /// Own keys and each link's range are spans by themselves, without the keys between them.
    SpanOfSingleRanges,
    /// A delete mark stays only where a lower-lying table or slice has an entry under its very key.
    SpanOfExactKeys,

    // Summary bits (note 6): which bits a card has.
    /// The third bit's sum weighs a key's bytes from 0 and not from 1.
    WeightsFromZero,
    /// A summary leaves out the keys of delete marks.
    MarksWithoutBits,
    /// A card keeps its bits when its place is freed.
    BitsLeftOnFreedCard,
    /// A card loses its bits when its table is frozen.
    FrozenCardLosesBits,
    /// A card loses its bits when its table moves.
    MovedCardLosesBits,
    /// Opening a saved book leaves all bits clear.
    OpenLeavesBitsOut,
    /// Opening a saved book also gives bits to free cards whose places still hold a table.
    OpenGivesFreeCardsBits,
    /// A summary is sound if it has the bits of all keys, whatever others it has.
    MoreBitsAreSound,
    /// The bits of free cards may be anything.
    FreeBitsNotAsked,
    /// Wrong bits of live and frozen cards break rule G and not C.
    WrongBitsJudgedLast,

    // Summary bits (note 6): which tables are asked, and what kind 8 says.
    /// A table of level 0 is asked only for keys between its least and its greatest one.
    Level0AskedByKeys,
    /// On levels 1 to 3 a table is asked only for keys between its least and greatest own ones, and not by its span.
    AskedByOwnKeys,
    /// All links of a table are asked, whatever their ranges.
    LinksAskedBeyondRange,
    /// Memory counts as a table opened where it decides.
    MemoryCounted,
    /// Tables that are asked and not opened count as opened.
    ClosedTablesCounted,
    /// The table with the entry that decides does not count.
    DecidingTableNotCounted,
    /// The bits are those of the last table opened, and not of all.
    BitsOfLastTableAlone,
    /// The bits are three for each key, although some coincide.
    ThreeBitsForEachKey,
    /// A delete mark that decides counts as found.
    FoundByMark,
    /// An empty value does not count as found.
    EmptyValueNotFound,
    /// Kind 8 replies 64 where there is no value.
    ProbeSays64,

    // Capacities without a list (note 7).
    /// 2 is shifted left by the level number and not by twice it: 2, 4, 8.
    CapacityShiftedOnce,
    /// Levels are counted from 1 when 2 is shifted: 8, 32, 128.
    CapacityFromLevelOne,
    /// Level 3 has a capacity like the others, 128; above it it is taken for the fullest, and there is nothing to do there.
    LastLevelHasCapacity,
}
