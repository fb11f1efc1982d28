//! Plausible errors, switched on one at a time.
//!
//! A comparison that finds no difference says something only if it would have found one. Each of
//! these is an error that somebody could make on reading document 01 or a request quickly; with one
//! of them switched on, the model and a right store have to differ within a few sessions.

/// One plausible error.
#[derive(Clone, Copy, PartialEq, Eq, Debug)]
pub enum Fault {
    /// Document 01: newest wins in a restore.
    NewestWinsInRestore,
    /// Document 01: newest wins in a commit.
    NewestWinsInCommit,
    /// Document 01: advance writes bodies over the old ones in use, so a cut mixes two points. In
    /// the model only a cut shows it; a store with this error takes no free bodies at all.
    AdvanceInPlace,
    /// Document 01: restore ends the inner domains before memory is whole.
    RestoreEndsFirst,
    /// Document 01: commit forgets to raise read-only to read-write.
    CommitForgetsRaise,
    /// Via parent is allowed where memory differs from the outer value.
    NoQuestion12,
    /// A cell may be deleted under a via parent holder.
    NoQuestion14,
    /// Advance counts no new body where a copy is replaced.
    AdvanceCountsFewerBodies,
    /// Questions 11 and 12 are put cell by cell instead of one after the other.
    Question12CellByCell,
    /// 17 is asked before 16.
    BodiesBeforeEntries,
    /// first + count wraps at 32 bits.
    RangeWraps,
    /// A ninth domain is allowed.
    NinthDomain,
    /// Add by copy gives a cell that is held already a new value.
    AddTakesNewValue,
    /// Add with read-only takes read-write back.
    LabelGoesBack,
    /// Add raises a label without a step.
    RaiseWithoutSteps,
    /// Restore does not follow via parent past the named domain.
    RestoreStopsAtNamed,
    /// Restore ends the named domain too.
    RestoreEndsNamed,
    /// Restore puts back the named domain's cells only.
    RestoreNamedCellsOnly,
    /// Restore ends the innermost domain alone of those inside the named one.
    RestoreEndsInnermostOnly,
    /// Restore ends no domain.
    RestoreEndsNobody,
    /// Restore begins one domain too far in, where there is one: as if the next domain in were named.
    RestoreBeginsInside,
    /// Look takes the innermost holder.
    LookFromInside,
    /// A step count one too high.
    StepTooMany,
    /// The handle of a domain that ended by commit is given out again.
    HandleReuse,
    /// Delete frees the cells in every domain.
    DeleteFromAll,
    /// Advance leaves a read-write via parent cell as it is, though memory has changed.
    AdvanceKeepsViaParent,
    /// Advance copies changed read-only cells too.
    AdvanceTakesReadOnly,
    /// Advance turns read-write into read-only (the text of 2012).
    AdvanceDemotes,
    /// Word 6 is stored before the pairs.
    PendingTooEarly,
    /// A stopped opening keeps only the pairs not yet put in place.
    OpeningForgets,
    /// The table's rules miss a via parent entry whose cell the next domain out does not hold.
    TableMissesOrphan,
    /// The table's rules miss two copies that share a body.
    TableMissesSharedBody,
    /// The table's rules look at the raw words while pairs are pending.
    TableReadsRaw,
    /// A pattern is added without a look at memory.
    NoQuestion18,
    /// A rule above 3 is refused only where a cell is new.
    RuleAskedOfNewCellsOnly,
    /// Via parent may rest on a cell that the next domain out holds by a rule.
    NoQuestion19,
    /// 19 is asked before 12.
    Question19BeforeQuestion12,
    /// A pattern is counted as a copy, so that bodies seem to run out.
    PatternCountsAsCopy,
    /// Add by copy turns a cell that is held by a rule into a copy.
    AddTurnsPattern,
    /// Advance leaves a read-write cell by its rule, though memory has changed.
    AdvanceKeepsRule,
    /// Restore puts no cell back that is held by a rule.
    RestoreSkipsPatterns,
    /// Rule 3's bytes are turned round: 63, 128, 0, 0.
    ScaleTurnedRound,
    /// Look tells a rule's number as that of a body.
    LookTellsRuleAsBody,
    /// The body whose number a rule has is marked as in use.
    RuleMarksBody,
    /// The table's rules hold a rule's number to be below B.
    TableBoundsRuleByBodies,
    /// The table's rules miss a rule above 3.
    TableMissesRuleNumber,
    /// The table's rules miss an entry that is via parent and by a rule.
    TableMissesBothBits,
    /// The table's rules miss a via parent entry that rests on a rule.
    TableMissesViaOnRule,
    /// Advance copies every read-write cell, as before request A.2.
    AdvanceCopiesUnchanged,
    /// Advance turns an unchanged read-write via parent cell into a copy.
    AdvanceTurnsUnchangedViaParent,
    /// Advance turns an unchanged read-write cell that is held by a rule into a copy: as before
    /// request A.2, or by taking the rule's number for that of a body and comparing with other bytes.
    AdvanceTurnsUnchangedRule,
    /// Advance compares memory with the value of the next domain out, where that holds the cell, and
    /// not with the domain's own.
    AdvanceComparesWithParent,
    /// Advance does not see a difference in the first byte of a cell.
    AdvanceMissesFirstByte,
    /// Advance does not see a difference in the last byte of a cell.
    AdvanceMissesLastByte,
    /// Advance counts a new body for every read-write cell, though it copies the changed ones only.
    AdvanceCountsUnchanged,
    /// Advance counts a new body for a changed read-only cell too, though it copies none.
    AdvanceCountsReadOnly,
    /// 70k + 2 steps also where k is 0.
    AdvanceTakesTwoStepsForNothing,
    /// Question 15 is put as before request A.4: for every read-write cell.
    Question15AsBefore,
    /// Question 15 is put where an inner advance has something to give.
    Question15OfChangedCells,
    /// An inner advance gives nothing outwards, though 15 is not asked any more.
    AdvanceGivesNothing,
    /// The next domain out gets the new value, and the advancing one keeps the old.
    AdvanceGivesNewValue,
    /// Every read-write cell that the next domain out lacks is copied and given, changed or not.
    AdvanceGivesUnchanged,
    /// A changed cell is given though the next domain out holds it: newest wins there.
    AdvanceGivesHeld,
    /// What is given is read-only.
    AdvanceGivesReadOnly,
    /// A cell that is held by a rule is not given.
    AdvanceGivesCopiesOnly,
    /// What the next domain out lacks is given to the outermost domain.
    AdvanceGivesToOutermost,
    /// Nothing is given that any domain further out holds.
    AdvanceSparesHeldFurtherOut,
    /// What the next domain out holds read-only of the changed cells becomes read-write.
    AdvanceRaisesOuterLabel,
    /// The old body is freed: the given entry names the new one, as the inner entry does.
    AdvanceFreesOldBody,
    /// 16 is not put to an advance.
    AdvanceAsksNoEntries,
    /// 16 counts an entry for each changed cell of an inner advance, given or not.
    AdvanceCountsChangedAsEntries,
    /// 17 is put to an advance before 16.
    AdvanceAsksBodiesFirst,
    /// 17 counts a body for each cell given too, as if the old one were copied.
    AdvanceCountsGivenBodies,
    /// An inner advance takes 70k + 2 steps, whatever it gives.
    GivenCellsTakeNoSteps,
    /// A list is made with a journal for each record, so that a cut holds some records and not others.
    JournalForEachRecord,
    /// Room is asked of each record as if it were the only one.
    RoomOfEachRecordAlone,
    /// 16 is asked after each record, before the next one's questions.
    EntriesAskedWithEachRecord,
    /// 17 is asked after each record, before the next one's questions.
    BodiesAskedWithEachRecord,
    /// Questions 11, 12, 18 and 19 are put for cells that an earlier record of the list has taken.
    LaterRecordAsksAgain,
    /// A cell that two records of a list name is counted twice for room.
    OverlapCountedTwice,
    /// A cell that two records name is kept by the kind of the later one.
    LaterRecordWins,
    /// A later record does not raise the label of a cell that an earlier one has taken.
    LaterRecordRaisesNothing,
    /// A later record gives its label to a cell that an earlier one has taken, read-only too.
    LaterLabelReplaces,
    /// The last record of a list of several is left out.
    LastRecordLeftOut,
    /// The last of 64 records is left out.
    SixtyFourthLeftOut,
    /// 64 records are refused.
    SixtyFourRefused,
    /// 65 records are allowed.
    SixtyFiveAllowed,
    /// A list without records is done.
    EmptyListDone,
    /// Records act in order of their first cells, and not in list order.
    RecordsSortedByCell,
    /// The bytes of copies are stored in list order, and not rising by cell.
    BytesInListOrder,
    /// An entry that a list takes and then raises is counted twice.
    RaisedNewEntryCountedTwice,
    /// An entry of the table that two records raise is counted twice.
    EntryRaisedTwiceCountedTwice,
    /// 20 is asked before 5.
    RecordsCountedBeforeHandle,
    /// 20 is asked before 6.
    RecordsCountedBeforeInnermost,
    /// The first record's 7 is asked before 20.
    KindAskedBeforeRecordsCounted,
    /// 7 and 8 are put to all records before any record is put 11.
    NumbersAskedOfAllFirst,
    /// A record that is refused after others is left out, and those are held.
    RefusedRecordLeftOut,
    /// 17 counts every newly held cell of a list that takes copies, whatever its kind.
    EveryNewCellCountsAsBody,
    /// All patterns of a list follow the rule of the first of them.
    RuleOfFirstRecord,
    /// Notebook: every cell that a list names has the label of its last record.
    NotebookLabelsByLastRecord,
    /// Notebook: a program write spoils nothing.
    NotebookWithoutSpoiltWrites,
    /// Notebook: a delete spoils nothing.
    NotebookWithoutSpoiltDeletes,
    /// Notebook: a delete spoils for the named domain only, not for those around it.
    NotebookDeleteSpoilsNamedOnly,
    /// Notebook: a stopped restore marks nobody.
    NotebookWithoutMarks,
    /// Notebook: advance keeps the old picture.
    NotebookAdvanceKeepsPicture,
    /// Notebook: the next domain out is not told what an advance gives it.
    NotebookTellsOuterNothing,
    /// Notebook: what an advance gives enters the next domain out with the new bytes.
    NotebookGivesNewBytes,
    /// Notebook: an advance gives every read-write cell that the next domain out lacks.
    NotebookGivesUnchanged,
    /// Notebook: a stopped call is never carried out by the opening.
    NotebookDropsStopped,
}

impl Fault {
    pub const ALL: [Fault; 109] = [
        Fault::NewestWinsInRestore,
        Fault::NewestWinsInCommit,
        Fault::AdvanceInPlace,
        Fault::RestoreEndsFirst,
        Fault::CommitForgetsRaise,
        Fault::NoQuestion12,
        Fault::NoQuestion14,
        Fault::AdvanceCountsFewerBodies,
        Fault::Question12CellByCell,
        Fault::BodiesBeforeEntries,
        Fault::RangeWraps,
        Fault::NinthDomain,
        Fault::AddTakesNewValue,
        Fault::LabelGoesBack,
        Fault::RaiseWithoutSteps,
        Fault::RestoreStopsAtNamed,
        Fault::RestoreEndsNamed,
        Fault::RestoreNamedCellsOnly,
        Fault::RestoreEndsInnermostOnly,
        Fault::RestoreEndsNobody,
        Fault::RestoreBeginsInside,
        Fault::LookFromInside,
        Fault::StepTooMany,
        Fault::HandleReuse,
        Fault::DeleteFromAll,
        Fault::AdvanceKeepsViaParent,
        Fault::AdvanceTakesReadOnly,
        Fault::AdvanceDemotes,
        Fault::PendingTooEarly,
        Fault::OpeningForgets,
        Fault::TableMissesOrphan,
        Fault::TableMissesSharedBody,
        Fault::TableReadsRaw,
        Fault::NoQuestion18,
        Fault::RuleAskedOfNewCellsOnly,
        Fault::NoQuestion19,
        Fault::Question19BeforeQuestion12,
        Fault::PatternCountsAsCopy,
        Fault::AddTurnsPattern,
        Fault::AdvanceKeepsRule,
        Fault::RestoreSkipsPatterns,
        Fault::ScaleTurnedRound,
        Fault::LookTellsRuleAsBody,
        Fault::RuleMarksBody,
        Fault::TableBoundsRuleByBodies,
        Fault::TableMissesRuleNumber,
        Fault::TableMissesBothBits,
        Fault::TableMissesViaOnRule,
        Fault::AdvanceCopiesUnchanged,
        Fault::AdvanceTurnsUnchangedViaParent,
        Fault::AdvanceTurnsUnchangedRule,
        Fault::AdvanceComparesWithParent,
        Fault::AdvanceMissesFirstByte,
        Fault::AdvanceMissesLastByte,
        Fault::AdvanceCountsUnchanged,
        Fault::AdvanceCountsReadOnly,
        Fault::AdvanceTakesTwoStepsForNothing,
        Fault::Question15AsBefore,
        Fault::Question15OfChangedCells,
        Fault::AdvanceGivesNothing,
        Fault::AdvanceGivesNewValue,
        Fault::AdvanceGivesUnchanged,
        Fault::AdvanceGivesHeld,
        Fault::AdvanceGivesReadOnly,
        Fault::AdvanceGivesCopiesOnly,
        Fault::AdvanceGivesToOutermost,
        Fault::AdvanceSparesHeldFurtherOut,
        Fault::AdvanceRaisesOuterLabel,
        Fault::AdvanceFreesOldBody,
        Fault::AdvanceAsksNoEntries,
        Fault::AdvanceCountsChangedAsEntries,
        Fault::AdvanceAsksBodiesFirst,
        Fault::AdvanceCountsGivenBodies,
        Fault::GivenCellsTakeNoSteps,
        Fault::JournalForEachRecord,
        Fault::RoomOfEachRecordAlone,
        Fault::EntriesAskedWithEachRecord,
        Fault::BodiesAskedWithEachRecord,
        Fault::LaterRecordAsksAgain,
        Fault::OverlapCountedTwice,
        Fault::LaterRecordWins,
        Fault::LaterRecordRaisesNothing,
        Fault::LaterLabelReplaces,
        Fault::LastRecordLeftOut,
        Fault::SixtyFourthLeftOut,
        Fault::SixtyFourRefused,
        Fault::SixtyFiveAllowed,
        Fault::EmptyListDone,
        Fault::RecordsSortedByCell,
        Fault::BytesInListOrder,
        Fault::RaisedNewEntryCountedTwice,
        Fault::EntryRaisedTwiceCountedTwice,
        Fault::RecordsCountedBeforeHandle,
        Fault::RecordsCountedBeforeInnermost,
        Fault::KindAskedBeforeRecordsCounted,
        Fault::NumbersAskedOfAllFirst,
        Fault::RefusedRecordLeftOut,
        Fault::EveryNewCellCountsAsBody,
        Fault::RuleOfFirstRecord,
        Fault::NotebookLabelsByLastRecord,
        Fault::NotebookWithoutSpoiltWrites,
        Fault::NotebookWithoutSpoiltDeletes,
        Fault::NotebookDeleteSpoilsNamedOnly,
        Fault::NotebookWithoutMarks,
        Fault::NotebookAdvanceKeepsPicture,
        Fault::NotebookTellsOuterNothing,
        Fault::NotebookGivesNewBytes,
        Fault::NotebookGivesUnchanged,
        Fault::NotebookDropsStopped,
    ];

    /// The four errors that document 01 names (the first of them has two sides).
    pub const NAMED: [Fault; 5] = [
        Fault::NewestWinsInRestore,
        Fault::NewestWinsInCommit,
        Fault::AdvanceInPlace,
        Fault::RestoreEndsFirst,
        Fault::CommitForgetsRaise,
    ];

    /// The errors of an advance that leave a changed cell at its old value.
    pub const STALE: [Fault; 5] = [
        Fault::AdvanceKeepsViaParent,
        Fault::AdvanceKeepsRule,
        Fault::AdvanceComparesWithParent,
        Fault::AdvanceMissesFirstByte,
        Fault::AdvanceMissesLastByte,
    ];

    /// The errors of an inner advance by which a domain around it loses what stood at its own point.
    pub const OUTER_LOST: [Fault; 7] = [
        Fault::AdvanceGivesNothing,
        Fault::AdvanceGivesNewValue,
        Fault::AdvanceGivesHeld,
        Fault::AdvanceGivesReadOnly,
        Fault::AdvanceGivesCopiesOnly,
        Fault::AdvanceGivesToOutermost,
        Fault::AdvanceSparesHeldFurtherOut,
    ];

    /// The errors of a restore that break request A.5: an inner domain's restore before an outer one's
    /// shows, or the same one's made twice. The last is seen by a cut alone.
    pub const INNER_SHOWS: [Fault; 7] = [
        Fault::NewestWinsInRestore,
        Fault::RestoreNamedCellsOnly,
        Fault::RestoreEndsInnermostOnly,
        Fault::RestoreEndsNamed,
        Fault::RestoreStopsAtNamed,
        Fault::RestoreSkipsPatterns,
        Fault::RestoreEndsFirst,
    ];

    /// The errors of a restore that request A.5 cannot tell: with either of them an inner restore before
    /// an outer one leaves what the outer one leaves alone, wrong as that is.
    pub const INNER_HIDDEN: [Fault; 2] = [Fault::RestoreEndsNobody, Fault::RestoreBeginsInside];

    /// The errors of an add of several ranges that hold less of them than the program was told.
    pub const HALF_HELD: [Fault; 3] = [
        Fault::JournalForEachRecord,
        Fault::LastRecordLeftOut,
        Fault::LaterRecordRaisesNothing,
    ];

    /// Whether the error lies in the notebook alone, which a store does not have.
    pub fn in_notebook(self) -> bool {
        matches!(
            self,
            Fault::NotebookLabelsByLastRecord
                | Fault::NotebookWithoutSpoiltWrites
                | Fault::NotebookWithoutSpoiltDeletes
                | Fault::NotebookDeleteSpoilsNamedOnly
                | Fault::NotebookWithoutMarks
                | Fault::NotebookAdvanceKeepsPicture
                | Fault::NotebookTellsOuterNothing
                | Fault::NotebookGivesNewBytes
                | Fault::NotebookGivesUnchanged
                | Fault::NotebookDropsStopped
        )
    }

    /// Whether the error can be made by a store that plays the model's plan: the notebook is no
    /// part of a store, and two of the errors are in what is counted or kept between openings, for
    /// which there is no plan of stores.
    pub fn in_store(self) -> bool {
        !self.in_notebook() && !matches!(self, Fault::OpeningForgets | Fault::RaiseWithoutSteps)
    }

    /// The error that goes by this name.
    pub fn named(name: &str) -> Option<Fault> {
        Fault::ALL
            .into_iter()
            .find(|f| format!("{f:?}").eq_ignore_ascii_case(name))
    }
}
