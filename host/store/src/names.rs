//! The names that calls take and give: handles, domains, kinds, rules, labels.

use std::fmt;
use std::num::NonZeroU32;
use std::ops::Deref;

use crate::CELL;

/// The handle of a domain: a number from 1, which a store gives out once and never again.
///
/// ```
/// use domain_store::Handle;
///
/// let handle = Handle::new(3).unwrap();
/// assert_eq!(handle.get(), 3);
/// assert_eq!(handle.to_string(), "3");
/// assert_eq!(Handle::new(0), None);
/// ```
#[derive(Clone, Copy, Debug, PartialEq, Eq, Hash, PartialOrd, Ord)]
pub struct Handle(NonZeroU32);

impl Handle {
    /// The handle with this number; none for 0, which names the innermost domain and is no domain's
    /// handle.
    ///
    /// A program needs this only for a handle that it wrote down: [`create`](crate::Store::create)
    /// and [`list`](crate::Store::list) give handles. A handle that no domain has is refused by the
    /// calls.
    pub fn new(number: u32) -> Option<Handle> {
        NonZeroU32::new(number).map(Handle)
    }

    /// The handle's number.
    pub fn get(self) -> u32 {
        self.0.get()
    }
}

impl fmt::Display for Handle {
    fn fmt(&self, f: &mut fmt::Formatter<'_>) -> fmt::Result {
        self.0.fmt(f)
    }
}

/// Names the innermost live domain in a call, whatever its handle is.
///
/// ```
/// use domain_store::{Buffers, Innermost, Kind, Label};
///
/// let mut buffers = Buffers::allocate(4, 8, 8)?;
/// let mut store = buffers.store();
/// store.make()?;
/// store.create()?;
/// store.add(Innermost, 0..4, Kind::Copy, Label::ReadWrite)?;
/// # Ok::<(), Box<dyn std::error::Error>>(())
/// ```
#[derive(Clone, Copy, Debug, PartialEq, Eq, Hash)]
pub struct Innermost;

/// Which domain a call is about: the one with a handle, or the innermost. Calls take anything that
/// turns into it, so a [`Handle`] or [`Innermost`] can be passed as it is.
///
/// ```
/// use domain_store::{Domain, Handle, Innermost};
///
/// let handle = Handle::new(2).unwrap();
/// assert_eq!(Domain::from(handle), Domain::Named(handle));
/// assert_eq!(Domain::from(Innermost), Domain::Innermost);
/// ```
#[derive(Clone, Copy, Debug, PartialEq, Eq, Hash)]
pub enum Domain {
    /// The innermost live domain.
    Innermost,
    /// The live domain with this handle.
    Named(Handle),
}

impl Domain {
    /// The number that stands for it in the C functions: 0 for the innermost.
    pub fn number(self) -> u32 {
        match self {
            Domain::Innermost => 0,
            Domain::Named(handle) => handle.get(),
        }
    }
}

impl From<Handle> for Domain {
    fn from(handle: Handle) -> Domain {
        Domain::Named(handle)
    }
}

impl From<Innermost> for Domain {
    fn from(_: Innermost) -> Domain {
        Domain::Innermost
    }
}

/// How [`add`](crate::Store::add) keeps a cell.
#[derive(Clone, Copy, Debug, PartialEq, Eq, Hash)]
pub enum Kind {
    /// The domain keeps a copy of memory's 64 bytes, in a body.
    Copy,
    /// The domain relies on the value that its parent holds, which takes no body. Memory must have
    /// that value still. An advance makes a copy of a read-write cell whose bytes have changed.
    ViaParent,
    /// The domain keeps only the rule that the 64 bytes follow, which takes no body: a restore makes
    /// them afresh. Memory must follow the rule. An advance makes a copy of a read-write cell whose
    /// bytes have changed.
    Pattern(Rule),
}

impl Kind {
    /// The kind's number in the C functions.
    ///
    /// ```
    /// # use domain_store::{Kind, Rule};
    /// assert_eq!((Kind::Copy.number(), Kind::ViaParent.number()), (0, 1));
    /// assert_eq!(Kind::Pattern(Rule::Scale).number(), 2);
    /// ```
    pub const fn number(self) -> u32 {
        match self {
            Kind::Copy => 0,
            Kind::ViaParent => 1,
            Kind::Pattern(_) => 2,
        }
    }

    /// The rule of a pattern.
    ///
    /// ```
    /// # use domain_store::{Kind, Rule};
    /// assert_eq!(Kind::Pattern(Rule::Scale).rule(), Some(Rule::Scale));
    /// assert_eq!(Kind::Copy.rule(), None);
    /// ```
    pub const fn rule(self) -> Option<Rule> {
        match self {
            Kind::Pattern(rule) => Some(rule),
            Kind::Copy | Kind::ViaParent => None,
        }
    }
}

/// What the 64 bytes of a cell are that is held as a [pattern](Kind::Pattern).
///
/// ```
/// use domain_store::Rule;
///
/// assert_eq!(Rule::Zeros.bytes(), [0; 64]);
/// assert_eq!(Rule::Ones.bytes(), [255; 64]);
/// assert_eq!(Rule::Index.bytes()[61..], [61, 62, 63]);
/// assert_eq!(Rule::Scale.bytes()[60..], 1.0_f32.to_le_bytes());
/// ```
#[derive(Clone, Copy, Debug, PartialEq, Eq, Hash)]
#[repr(u32)]
pub enum Rule {
    /// All 0.
    Zeros = 0,
    /// All 255: every bit is one.
    Ones = 1,
    /// Byte i is i.
    Index = 2,
    /// 0, 0, 128, 63 over and over: sixteen little-endian floats of 1, a scale of one.
    Scale = 3,
}

/// The bytes of each rule, by its number.
static PATTERNS: [[u8; CELL]; 4] = [
    Rule::Zeros.bytes(),
    Rule::Ones.bytes(),
    Rule::Index.bytes(),
    Rule::Scale.bytes(),
];

impl Rule {
    /// All rules, by rising number.
    pub const ALL: [Rule; 4] = [Rule::Zeros, Rule::Ones, Rule::Index, Rule::Scale];

    /// The rule's number in the C functions.
    ///
    /// ```
    /// # use domain_store::Rule;
    /// assert_eq!(Rule::ALL.map(Rule::number), [0, 1, 2, 3]);
    /// ```
    pub const fn number(self) -> u32 {
        self as u32
    }

    /// The rule with this number; none above 3.
    ///
    /// ```
    /// # use domain_store::Rule;
    /// assert_eq!(Rule::from_number(3), Some(Rule::Scale));
    /// assert_eq!(Rule::from_number(4), None);
    /// ```
    pub const fn from_number(number: u32) -> Option<Rule> {
        match number {
            0 => Some(Rule::Zeros),
            1 => Some(Rule::Ones),
            2 => Some(Rule::Index),
            3 => Some(Rule::Scale),
            _ => None,
        }
    }

    /// The byte at a place of a cell that follows the rule.
    const fn byte(self, place: usize) -> u8 {
        match self {
            Rule::Zeros => 0,
            Rule::Ones => 255,
            Rule::Index => place as u8,
            Rule::Scale => [0, 0, 128, 63][place % 4],
        }
    }

    /// The 64 bytes of a cell that follows the rule.
    pub const fn bytes(self) -> [u8; CELL] {
        let mut bytes = [0; CELL];
        let mut place = 0;
        while place < CELL {
            bytes[place] = self.byte(place);
            place += 1;
        }
        bytes
    }

    /// The same bytes, where they stand for good.
    pub(crate) fn pattern(self) -> &'static [u8; CELL] {
        &PATTERNS[self as usize]
    }
}

/// What the program means to do with a cell while a domain holds it.
#[derive(Clone, Copy, Debug, PartialEq, Eq, Hash)]
pub enum Label {
    /// The program only reads the cell. An advance keeps the value that was held first.
    ReadOnly,
    /// The program writes the cell. An advance takes memory's bytes as the new value, and copies
    /// them where they have changed.
    ReadWrite,
}

impl Label {
    /// The label's number in the C functions.
    ///
    /// ```
    /// # use domain_store::Label;
    /// assert_eq!((Label::ReadOnly.number(), Label::ReadWrite.number()), (0, 1));
    /// ```
    pub const fn number(self) -> u32 {
        match self {
            Label::ReadOnly => 0,
            Label::ReadWrite => 1,
        }
    }
}

/// The handles of the live domains, outermost first: at most eight, so they need no heap. It is a
/// slice of handles in every respect.
///
/// ```
/// use domain_store::Buffers;
///
/// let mut buffers = Buffers::allocate(4, 8, 8)?;
/// let mut store = buffers.store();
/// store.make()?;
/// assert!(store.list()?.is_empty());
/// let cycle = store.create()?;
/// let tile = store.create()?;
/// assert_eq!(*store.list()?, [cycle, tile]);
/// assert_eq!(store.list()?.last(), Some(&tile));
/// for handle in store.list()? {
///     println!("domain {handle}");
/// }
/// # Ok::<(), Box<dyn std::error::Error>>(())
/// ```
#[derive(Clone, Copy)]
pub struct Handles {
    // The first `live` are the handles; the rest repeat a number that means nothing.
    handles: [Handle; 8],
    live: usize,
}

impl Handles {
    /// The first `live` of eight handle words as the library gives them.
    ///
    /// # Panics
    ///
    /// Where the library told more than eight or a handle of 0, which its contract excludes.
    pub(crate) fn from_words(words: [u32; 8], live: u32) -> Handles {
        let live = live as usize;
        assert!(live <= 8, "the library told {live} live domains");
        let mut handles = [Handle(NonZeroU32::MIN); 8];
        for (handle, word) in handles.iter_mut().zip(words).take(live) {
            *handle = Handle::new(word).expect("the library told a live domain without a handle");
        }
        Handles { handles, live }
    }
}

impl Deref for Handles {
    type Target = [Handle];

    fn deref(&self) -> &[Handle] {
        &self.handles[..self.live]
    }
}

impl IntoIterator for Handles {
    type Item = Handle;
    type IntoIter = std::iter::Take<std::array::IntoIter<Handle, 8>>;

    fn into_iter(self) -> Self::IntoIter {
        self.handles.into_iter().take(self.live)
    }
}

impl<'s> IntoIterator for &'s Handles {
    type Item = &'s Handle;
    type IntoIter = std::slice::Iter<'s, Handle>;

    fn into_iter(self) -> Self::IntoIter {
        self.iter()
    }
}

impl PartialEq for Handles {
    fn eq(&self, other: &Handles) -> bool {
        **self == **other
    }
}

impl Eq for Handles {}

impl fmt::Debug for Handles {
    fn fmt(&self, f: &mut fmt::Formatter<'_>) -> fmt::Result {
        f.debug_list().entries(self.iter()).finish()
    }
}
