//! A range of cells, for an add of several.

use std::fmt;
use std::ops;

use crate::{Kind, Label, Rule, ffi};

/// A range of cells, and how each of them is to be held: one of the list that
/// [`add_ranges`](crate::Store::add_ranges) takes.
///
/// It is read-only unless it is made [read-write](Range::read_write), and it can be a constant, so that
/// a program writes down once what it keeps together.
///
/// ```
/// use domain_store::{Kind, Label, Range, Rule};
///
/// const CHANNEL: [Range; 3] = [
///     Range::copy(0..4).read_write(),
///     Range::via_parent(8..9),
///     Range::by_rule(Rule::Scale, 10..12).read_write(),
/// ];
/// assert_eq!(CHANNEL[0], Range::new(0..4, Kind::Copy, Label::ReadWrite));
/// assert_eq!(CHANNEL[1], Range::new(8..9, Kind::ViaParent, Label::ReadOnly));
/// assert_eq!(CHANNEL[2].cells(), 10..12);
/// assert_eq!(CHANNEL[2].kind(), Kind::Pattern(Rule::Scale));
/// assert_eq!(CHANNEL[2].label(), Label::ReadWrite);
/// ```
// By its numbers, as C has them: a list of these is lent as it stands.
#[derive(Clone, Copy, PartialEq, Eq, Hash)]
#[repr(transparent)]
pub struct Range(ffi::Range);

impl Range {
    /// Cells by a kind and with a label, as [`add`](crate::Store::add) takes them.
    ///
    /// A range without cells, such as `4..4` or a reversed one, is refused by the call.
    pub const fn new(cells: ops::Range<u32>, kind: Kind, label: Label) -> Range {
        Range(ffi::Range {
            first: cells.start,
            count: cells.end.saturating_sub(cells.start),
            kind: kind.number(),
            // Kinds without a rule ignore the number.
            rule: match kind.rule() {
                Some(rule) => rule.number(),
                None => 0,
            },
            label: label.number(),
        })
    }

    /// Cells of which the domain keeps copies, read-only.
    pub const fn copy(cells: ops::Range<u32>) -> Range {
        Range::new(cells, Kind::Copy, Label::ReadOnly)
    }

    /// Cells for which the domain relies on its parent, read-only.
    pub const fn via_parent(cells: ops::Range<u32>) -> Range {
        Range::new(cells, Kind::ViaParent, Label::ReadOnly)
    }

    /// Cells of which the domain keeps the rule that they follow, read-only.
    pub const fn by_rule(rule: Rule, cells: ops::Range<u32>) -> Range {
        Range::new(cells, Kind::Pattern(rule), Label::ReadOnly)
    }

    /// The same cells, read-write: the program is going to write them.
    #[must_use]
    pub const fn read_write(self) -> Range {
        self.labelled(Label::ReadWrite)
    }

    /// The same cells with this label.
    ///
    /// ```
    /// # use domain_store::{Label, Range};
    /// let cells = Range::copy(0..4).read_write();
    /// assert_eq!(cells.labelled(Label::ReadOnly), Range::copy(0..4));
    /// ```
    #[must_use]
    pub const fn labelled(self, label: Label) -> Range {
        Range(ffi::Range {
            label: label.number(),
            ..self.0
        })
    }

    /// The cells. A reversed range has none.
    pub const fn cells(&self) -> ops::Range<u32> {
        self.0.first..self.0.first + self.0.count
    }

    /// How the cells are to be held.
    pub const fn kind(&self) -> Kind {
        match (self.0.kind, Rule::from_number(self.0.rule)) {
            (2, Some(rule)) => Kind::Pattern(rule),
            (1, _) => Kind::ViaParent,
            _ => Kind::Copy,
        }
    }

    /// Their label.
    pub const fn label(&self) -> Label {
        match self.0.label {
            0 => Label::ReadOnly,
            _ => Label::ReadWrite,
        }
    }
}

/// The numbers, for callers of [`ffi`].
///
/// ```
/// use domain_store::{Range, Rule, ffi};
///
/// let numbers = ffi::Range::from(Range::by_rule(Rule::Scale, 10..12).read_write());
/// assert_eq!((numbers.first, numbers.count), (10, 2));
/// assert_eq!((numbers.kind, numbers.rule, numbers.label), (2, 3, 1));
/// ```
impl From<Range> for ffi::Range {
    fn from(range: Range) -> ffi::Range {
        range.0
    }
}

impl fmt::Debug for Range {
    fn fmt(&self, f: &mut fmt::Formatter<'_>) -> fmt::Result {
        f.debug_struct("Range")
            .field("cells", &self.cells())
            .field("kind", &self.kind())
            .field("label", &self.label())
            .finish()
    }
}
