//! What a call under a budget comes to.

/// What a call with a budget of steps came to, when it was not refused. A step stores one table
/// word, one body byte or one memory byte.
///
/// ```
/// use domain_store::{Buffers, Outcome, Refusal};
///
/// let mut buffers = Buffers::allocate(4, 8, 8)?;
/// let mut store = buffers.store();
/// store.make()?;
///
/// // A create takes 11 steps. Stopped after 7 of them, it waits for an opening.
/// assert_eq!(store.create_with_budget(7)?, Outcome::Stopped { steps: 7 });
/// assert_eq!(store.list(), Err(Refusal::Pending));
///
/// // The opening can be stopped too, as often as you like.
/// assert_eq!(store.open_with_budget(2)?, Outcome::Stopped { steps: 2 });
/// assert_eq!(store.open_with_budget(4)?, Outcome::Done { steps: 4, value: () });
/// assert_eq!(store.list()?.len(), 1);
/// # Ok::<(), Box<dyn std::error::Error>>(())
/// ```
#[derive(Clone, Copy, Debug, PartialEq, Eq, Hash)]
#[must_use = "a stopped call has to be followed by an opening"]
pub enum Outcome<T = ()> {
    /// The call was carried out.
    Done {
        /// The steps that it took, at most the budget.
        steps: u64,
        /// What the call gives: a handle for a create, else nothing.
        value: T,
    },
    /// The call needed more steps than its budget, and made exactly as many as that. The store is
    /// as a fault at that very store would leave it: [`open`](crate::Store::open) finds the call
    /// wholly made or not made.
    Stopped {
        /// The steps that it made: the budget.
        steps: u64,
    },
}

/// ```
/// use domain_store::Outcome;
///
/// let done = Outcome::Done { steps: 11, value: "a handle" };
/// assert_eq!((done.steps(), done.is_done(), done.done()), (11, true, Some("a handle")));
/// let stopped = Outcome::<&str>::Stopped { steps: 7 };
/// assert_eq!((stopped.steps(), stopped.is_stopped(), stopped.done()), (7, true, None));
/// ```
impl<T> Outcome<T> {
    /// The steps that were made.
    pub fn steps(&self) -> u64 {
        match self {
            Outcome::Done { steps, .. } | Outcome::Stopped { steps } => *steps,
        }
    }

    /// Was the call carried out?
    pub fn is_done(&self) -> bool {
        matches!(self, Outcome::Done { .. })
    }

    /// Was the call stopped by its budget?
    pub fn is_stopped(&self) -> bool {
        !self.is_done()
    }

    /// What the call gives, if it was carried out.
    pub fn done(self) -> Option<T> {
        match self {
            Outcome::Done { value, .. } => Some(value),
            Outcome::Stopped { .. } => None,
        }
    }
}
