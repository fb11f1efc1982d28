//! Why a call was refused.

use std::error::Error;
use std::fmt;

/// Why a call was refused. A refused call changed nothing: every word and byte of the buffers has
/// the value that it had before.
///
/// A call puts its questions in the order of these numbers, save that 20 comes right after 6, and 18
/// and 19 right after 12, and is refused by the first that is answered by no. (An add of several
/// ranges puts 7, 8, 11, 12, 18 and 19 to one range after the other, and then 16 and 17 for all.)
/// The text of a refusal says what was wrong and what to do about it. The header has them by the
/// same names: `NoStore` is `DS_REFUSED_NO_STORE` in C. Number 15 is retired: no call answers it, and
/// no other number has moved.
///
/// ```
/// use domain_store::{Buffers, Refusal};
///
/// let mut buffers = Buffers::allocate(4, 8, 8)?;
/// let mut store = buffers.store();
/// store.make()?;
/// let refusal = store.restore(domain_store::Innermost).unwrap_err();
/// assert_eq!(refusal, Refusal::NoSuchDomain);
/// assert_eq!(refusal.number(), 5);
/// assert_eq!(
///     refusal.to_string(),
///     "The handle names no live domain: take a handle that `list` tells, or create a domain first."
/// );
/// # Ok::<(), Box<dyn std::error::Error>>(())
/// ```
#[derive(Clone, Copy, Debug, PartialEq, Eq, Hash, PartialOrd, Ord)]
#[non_exhaustive]
#[repr(u32)]
pub enum Refusal {
    /// 1: a buffer's length is not allowed.
    Lengths = 1,
    /// 2: the table is no store's for buffers of these lengths: other buffers than those that the store
    /// was made in, or no store at all.
    NoStore = 2,
    /// 3: a stopped call's changes are still pending.
    Pending = 3,
    /// 4: the table is corrupt.
    Corrupt = 4,
    /// 5: the handle names no live domain.
    NoSuchDomain = 5,
    /// 6: the domain is not the innermost.
    NotInnermost = 6,
    /// 7: kind is not 0 to 2, or label is neither 0 nor 1. This crate's enums cannot be wrong, so
    /// only callers of [`ffi`](crate::ffi) meet it.
    KindOrLabel = 7,
    /// 8: the range of cells is empty or ends past memory.
    Range = 8,
    /// 9: eight domains live already.
    TooManyDomains = 9,
    /// 10: every handle has been given out.
    NoHandleLeft = 10,
    /// 11: the parent does not hold a cell that is newly held via parent, or there is no parent.
    ParentLacksCell = 11,
    /// 12: memory differs from the parent's value in a cell that is newly held via parent.
    MemoryDiffers = 12,
    /// 13: the domain does not hold every cell that is to be deleted.
    NotHeld = 13,
    /// 14: the next domain in holds, via this one, a cell that is to be deleted.
    ChildRelies = 14,
    /// 15: retired, and answered by no call. It told that the parent did not hold every read-write cell
    /// of the domain that was to advance: such an advance is done now if there is room for it, and gives
    /// the parent the changed cells that it lacks. It is kept so that the number stays taken and programs
    /// that name it still compile; it is in neither [`ALL`](Refusal::ALL) nor [`from_number`](Refusal::from_number).
    #[deprecated(
        note = "no call answers 15 any more: an advance gives the parent the changed cells that it lacks"
    )]
    ParentLacksReadWrite = 15,
    /// 16: too few free entries.
    NoFreeEntry = 16,
    /// 17: too few free bodies.
    NoFreeBody = 17,
    /// 18: memory differs from the rule's bytes in a cell that is newly held by it. The same number
    /// tells a rule above 3, which only callers of [`ffi`](crate::ffi) can pass.
    PatternDiffers = 18,
    /// 19: the parent holds by a rule a cell that is newly held via parent.
    ParentHoldsByRule = 19,
    /// 20: a list of no ranges, or of more than 64.
    NumberOfRanges = 20,
}

impl Refusal {
    /// All refusals that a call can answer, by rising number.
    ///
    /// ```
    /// # use domain_store::Refusal;
    /// assert_eq!(Refusal::ALL.first(), Some(&Refusal::Lengths));
    /// assert!(Refusal::ALL.is_sorted_by_key(|refusal| refusal.number()));
    /// ```
    pub const ALL: &'static [Refusal] = &[
        Refusal::Lengths,
        Refusal::NoStore,
        Refusal::Pending,
        Refusal::Corrupt,
        Refusal::NoSuchDomain,
        Refusal::NotInnermost,
        Refusal::KindOrLabel,
        Refusal::Range,
        Refusal::TooManyDomains,
        Refusal::NoHandleLeft,
        Refusal::ParentLacksCell,
        Refusal::MemoryDiffers,
        Refusal::NotHeld,
        Refusal::ChildRelies,
        Refusal::NoFreeEntry,
        Refusal::NoFreeBody,
        Refusal::PatternDiffers,
        Refusal::ParentHoldsByRule,
        Refusal::NumberOfRanges,
    ];

    /// The refusal's number, which is what the C functions return: the number of the question that
    /// was answered by no.
    ///
    /// ```
    /// # use domain_store::Refusal;
    /// assert_eq!(Refusal::Lengths.number(), 1);
    /// assert_eq!(Refusal::NoFreeBody.number(), 17);
    /// ```
    pub const fn number(self) -> u32 {
        self as u32
    }

    /// The refusal that a number stands for: none for 0 (done), 255 (stopped) and numbers that no
    /// call answers.
    ///
    /// ```
    /// # use domain_store::Refusal;
    /// assert_eq!(Refusal::from_number(3), Some(Refusal::Pending));
    /// assert_eq!(Refusal::from_number(0), None);
    /// assert_eq!(Refusal::from_number(15), None); // retired
    /// assert_eq!(Refusal::from_number(255), None);
    /// ```
    pub fn from_number(number: u32) -> Option<Refusal> {
        Refusal::ALL
            .iter()
            .copied()
            .find(|refusal| refusal.number() == number)
    }
}

impl fmt::Display for Refusal {
    fn fmt(&self, f: &mut fmt::Formatter<'_>) -> fmt::Result {
        f.write_str(match self {
            Refusal::Lengths => {
                "A buffer has a length that is not allowed: lend 64 bytes for each of 1 to \
                 65,536 cells, 64 bytes for each of 1 to 4,096 bodies, and 36 words and 6 \
                 more for each of 1 to 4,096 entries (`Sizes` tells them)."
            }
            Refusal::NoStore => {
                "The table is no store's for buffers of these lengths: see first that they are \
                 the buffers that the store was made in, in their order and whole; where a store \
                 was made in them, the table is damaged: lend an intact copy of all three; only \
                 where none was made in them, or a make was cut, make a fresh store, which \
                 forgets whatever stands there."
            }
            Refusal::Pending => {
                "An earlier call was stopped and its changes are still pending: open the \
                 store, then make this call again; the stopped one is then made or not made."
            }
            Refusal::Corrupt => {
                "The table is corrupt, so nothing in it can be trusted: lend an intact copy \
                 of all three buffers, or make a fresh store, which forgets every domain."
            }
            Refusal::NoSuchDomain => {
                "The handle names no live domain: take a handle that `list` tells, or create \
                 a domain first."
            }
            Refusal::NotInnermost => {
                "The domain has another one inside it, and only the innermost can do this: \
                 commit the inner domains first, or name the innermost."
            }
            Refusal::KindOrLabel => {
                "Kind must be 0 to 2 and label 0 or 1: pass 0 for copy, 1 for via parent or 2 \
                 for a pattern, and 0 for read-only or 1 for read-write."
            }
            Refusal::Range => {
                "The range of cells is empty or ends past memory: name at least one cell, and \
                 only cells that memory has."
            }
            Refusal::TooManyDomains => {
                "Eight domains live already, and a store has no room for a ninth: commit the \
                 innermost before creating another."
            }
            Refusal::NoHandleLeft => {
                "Every handle has been given out: make a fresh store once no domain is needed \
                 any more."
            }
            Refusal::ParentLacksCell => {
                "The parent does not hold every cell that is newly held via parent, or there is \
                 no parent: hold these cells by copy, or add them to the parent before creating \
                 this domain."
            }
            Refusal::MemoryDiffers => {
                "Memory differs from the parent's value in a cell that is newly held via \
                 parent: hold the changed cells by copy."
            }
            Refusal::NotHeld => {
                "The domain does not hold every cell that is to be deleted: name only cells \
                 that it holds."
            }
            Refusal::ChildRelies => {
                "The next domain in holds one of these cells via this one: delete the cell \
                 from that domain first, or commit that domain."
            }
            #[allow(deprecated)]
            Refusal::ParentLacksReadWrite => {
                "The parent lacks a read-write cell of the domain that is to advance: no call \
                 tells this any more, since an advance gives the parent the changed cells that it lacks."
            }
            Refusal::NoFreeEntry => {
                "The table has too few free entries for the new cells (an advance needs one for \
                 each changed cell that the parent lacks): delete or commit what is no longer \
                 needed, or use another store in larger buffers (a make forgets this one)."
            }
            Refusal::NoFreeBody => {
                "There are too few free bodies for the new copies (an advance needs one for \
                 each changed read-write cell before it frees the old ones): delete or commit \
                 what is no longer needed, or use another store in larger buffers (a make \
                 forgets this one)."
            }
            Refusal::PatternDiffers => {
                "There is no such rule, or memory differs from its bytes in a cell that is newly \
                 held by it: pass a rule from 0 to 3, and hold cells with other bytes by copy."
            }
            Refusal::ParentHoldsByRule => {
                "The parent holds a cell by a rule, and via parent never rests on a rule: hold \
                 the cell by the same rule or by copy."
            }
            Refusal::NumberOfRanges => {
                "The list has no range or more than 64: name at least one, and hold more than 64 by \
                 several calls."
            }
        })
    }
}

impl Error for Refusal {}
