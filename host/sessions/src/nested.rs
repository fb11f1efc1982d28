//! Request A.5 by itself: restoring an inner domain and then one around it leaves what restoring the
//! outer one alone leaves, on every table that opens and whatever memory has.
//!
//! Nothing here asks the model what a restore has to leave: buffers are held against buffers. The model
//! reads both ends, and it tells what was met, for the account, and where the joints of a restore are.

use crate::check::{budgets, named, other_meaning, tell};
use domain_model::{
    Buffers, CELL, Call, Domain, FULL, Reading, Reply, Rng, STOPPED, State, Store, table,
};
use std::collections::BTreeSet;

/// What the promise was tried on.
#[derive(Clone, Copy, Debug, Default)]
pub struct Nested {
    /// Tables; of these, those that had pairs pending and were opened first.
    pub tables: u64,
    pub opened: u64,
    /// An inner domain restored and then one around it; of these, with the inner one named by 0.
    pub pairs: u64,
    pub by_zero: u64,
    /// Of these, where the inner restore left other memory than the outer one did.
    pub other_memory: u64,
    /// Of these, where a cell is held by a domain inside the inner one alone; where outer and inner hold
    /// a cell with different values; where the outermost holder of a cell holds it by a rule, or via
    /// parent with a value from outside the outer domain.
    pub inside_alone: u64,
    pub other_value: u64,
    pub rules: u64,
    pub outward: u64,
    /// Of these, where the two ways left different spare pairs, which mean nothing.
    pub spare_pairs: u64,
    /// A domain restored twice; of these, with the second restore by 0.
    pub twice: u64,
    pub twice_by_zero: u64,
    /// Restores that were cut, by what opening found: not made, made; and openings stopped before that.
    pub not_made: u64,
    pub made: u64,
    pub stopped_openings: u64,
    /// Restores after such a cut: of a domain around, and of the same one again.
    pub around: u64,
    pub again: u64,
}

impl Nested {
    pub fn join(&mut self, other: &Nested) {
        self.tables += other.tables;
        self.opened += other.opened;
        self.pairs += other.pairs;
        self.by_zero += other.by_zero;
        self.other_memory += other.other_memory;
        self.inside_alone += other.inside_alone;
        self.other_value += other.other_value;
        self.rules += other.rules;
        self.outward += other.outward;
        self.spare_pairs += other.spare_pairs;
        self.twice += other.twice;
        self.twice_by_zero += other.twice_by_zero;
        self.not_made += other.not_made;
        self.made += other.made;
        self.stopped_openings += other.stopped_openings;
        self.around += other.around;
        self.again += other.again;
    }
}

/// How much is tried on a table.
#[derive(Clone, Copy, Debug)]
pub struct Effort {
    /// Live domains that are restored, at most.
    pub domains: usize,
    /// Restores with at most so many steps are cut at every step, with every domain around restored
    /// after each; longer ones at so many steps, most of them at the joints, with one domain.
    pub every_step_up_to: u64,
    pub cuts: usize,
}

impl Effort {
    /// For a table by itself.
    pub const WHOLE: Effort = Effort {
        domains: 8,
        every_step_up_to: 150,
        cuts: 24,
    };

    /// For one of many tables of a session.
    pub const SMALL: Effort = Effort {
        domains: 3,
        every_step_up_to: 0,
        cuts: 3,
    };

    /// In a large store every call and every comparison takes its time.
    fn within(self, cells: usize) -> Effort {
        let (domains, cuts) = match cells {
            0..=64 => return self,
            65..=1024 => (3, 12),
            _ => (2, 3),
        };
        Effort {
            domains: self.domains.min(domains),
            every_step_up_to: 0,
            cuts: self.cuts.min(cuts),
        }
    }
}

/// Tries the promise on buffers that open; says what differs where it is broken.
pub fn try_on(
    store: &dyn Store,
    lent: &Buffers,
    seed: u64,
    effort: Effort,
    tally: &mut Nested,
) -> Result<(), String> {
    let effort = effort.within(lent.memory.len() / CELL);
    let mut rng = Rng::new(seed);
    let trial = Trial::new(store, lent, effort, &mut rng, tally)?;
    for first in &trial.restored {
        trial.twice(first, tally)?;
        for outer in trial.outer(first).filter(|outer| outer.at < first.at) {
            trial.inner_then_outer(first, outer, tally)?;
        }
        trial.cut(first, effort, &mut rng, tally)?;
    }
    Ok(())
}

/// What the restore of one domain leaves, by itself.
struct Restored {
    /// The domain, counted from 0 at the outermost.
    at: usize,
    /// What it was named by: its handle, or 0.
    named: u32,
    buffers: Buffers,
    reading: Reading,
    steps: u64,
}

/// One table on which the promise is tried.
struct Trial<'a> {
    store: &'a dyn Store,
    /// The table, opened.
    before: Buffers,
    state: State,
    /// The restores of the domains that were chosen, outermost first; of the innermost one twice, by its
    /// handle and by 0.
    restored: Vec<Restored>,
}

impl<'a> Trial<'a> {
    /// Opens the table and restores each of the chosen domains by itself.
    fn new(
        store: &'a dyn Store,
        lent: &Buffers,
        effort: Effort,
        rng: &mut Rng,
        tally: &mut Nested,
    ) -> Result<Trial<'a>, String> {
        let mut before = lent.clone();
        let opening = called(store, &mut before, &Call::Open, FULL, 0)?;
        let state = state_of(&before).map_err(|what| format!("after opening {what}"))?;
        stands_for(lent, &before, &state)?;
        let live = listed(store, &mut before, &state)?;
        tally.tables += 1;
        tally.opened += (opening.steps > 0) as u64;
        let mut trial = Trial {
            store,
            before,
            state,
            restored: Vec::new(),
        };
        let mut chosen: Vec<usize> = (0..live).collect();
        rng.shuffle(&mut chosen);
        chosen.truncate(effort.domains);
        chosen.sort_unstable();
        for at in chosen {
            for named in trial.names(at) {
                let restored = trial.restore_alone(at, named)?;
                trial.restored.push(restored);
            }
        }
        Ok(trial)
    }

    /// What a domain goes by: its handle; the innermost goes by 0 too.
    fn names(&self, at: usize) -> impl Iterator<Item = u32> + use<> {
        let domains = &self.state.domains;
        let zero = (at + 1 == domains.len()).then_some(0);
        [domains[at].handle].into_iter().chain(zero)
    }

    fn restore_alone(&self, at: usize, named: u32) -> Result<Restored, String> {
        let mut buffers = self.before.clone();
        let reply = self.restore(&mut buffers, named)?;
        let state = state_of(&buffers).map_err(|what| format!("after restore {named} {what}"))?;
        Ok(Restored {
            at,
            named,
            buffers,
            reading: Reading::Store { state, pending: 0 },
            steps: reply.steps,
        })
    }

    /// A restore that has to be done. It is what every way ends with, so that a store outside the buffers
    /// on that way is seen here.
    fn restore(&self, buffers: &mut Buffers, handle: u32) -> Result<Reply, String> {
        let restore = Call::Restore { handle };
        let reply = called(self.store, buffers, &restore, FULL, 0)?;
        match buffers.strayed() {
            Some(stray) => Err(format!("{restore}: {stray}")),
            None => Ok(reply),
        }
    }

    /// The restores by handle of the same domain and of those around it.
    fn outer(&self, inner: &Restored) -> impl Iterator<Item = &Restored> {
        let innermost = inner.at;
        let all = self.restored.iter();
        all.filter(move |outer| outer.at <= innermost && outer.named != 0)
    }

    /// The same domain once more, the innermost by either of its names: all is as after the first time,
    /// spare pairs too.
    fn twice(&self, first: &Restored, tally: &mut Nested) -> Result<(), String> {
        for second in self.names(first.at) {
            let told = |what: String| format!("restore {}, then {what}", first.named);
            let mut buffers = first.buffers.clone();
            self.restore(&mut buffers, second).map_err(told)?;
            if let Some(at) = buffers.differs(&first.buffers) {
                let what = format!("restore {second}: {at}, as the first one left it");
                return Err(told(what));
            }
            tally.twice += 1;
            tally.twice_by_zero += (second == 0) as u64;
        }
        Ok(())
    }

    /// The outer one after the inner one.
    fn inner_then_outer(
        &self,
        inner: &Restored,
        outer: &Restored,
        tally: &mut Nested,
    ) -> Result<(), String> {
        let told = |what: String| format!("restore {}, then {what}", inner.named);
        let mut buffers = inner.buffers.clone();
        self.restore(&mut buffers, outer.named).map_err(told)?;
        let reading = table::reading(&buffers.decode(None));
        let spare_pairs = self.as_alone(&mut buffers, outer).map_err(told)?;
        if reading != outer.reading {
            return Err(told(other_meaning(&reading, &outer.reading)));
        }
        tally.pairs += 1;
        tally.by_zero += (inner.named == 0) as u64;
        tally.other_memory += (inner.buffers.memory != outer.buffers.memory) as u64;
        tally.spare_pairs += spare_pairs as u64;
        self.tally_held(inner.at, outer.at, tally);
        Ok(())
    }

    /// Holds what is left by an outer domain's restore after others against what it leaves alone: all but
    /// the spare pairs, which are made equal. Tells whether they were not.
    fn as_alone(&self, buffers: &mut Buffers, alone: &Restored) -> Result<bool, String> {
        let spare = self.before.sizes().pairs_at()..;
        let (is, should) = (
            &mut buffers.table[spare.clone()],
            &alone.buffers.table[spare],
        );
        let differ = is != should;
        is.copy_from_slice(should);
        match buffers.differs(&alone.buffers) {
            None => Ok(differ),
            Some(at) => Err(format!(
                "restore {}: {at}, as it is after that one alone",
                alone.named
            )),
        }
    }

    /// Counts what is held by an outer domain, an inner one and those inside.
    fn tally_held(&self, inner: usize, outer: usize, tally: &mut Nested) {
        let domains = &self.state.domains;
        let cells = cells_of(&domains[outer..]);
        let any = |is_it: &dyn Fn(u32) -> bool| cells.iter().any(|c| is_it(*c)) as u64;
        let holder = |c: u32| (outer..domains.len()).find(|at| domains[*at].holds(c));
        let value = |at: usize, c: u32| self.state.value(at, c);
        let both = |c: u32| domains[outer].holds(c) && domains[inner].holds(c);
        let keeper = |c: u32| self.state.keeper(holder(c)?, c);
        tally.inside_alone += any(&|c| holder(c) > Some(inner));
        tally.other_value += any(&|c| both(c) && value(outer, c) != value(inner, c));
        tally.rules += any(&|c| holder(c).is_some_and(|at| domains[at].rule(c).is_some()));
        tally.outward += any(&|c| keeper(c).is_some_and(|keeper| keeper < outer));
    }

    /// A restore that is cut, openings, and then a domain around it, or the same one again: whether
    /// opening found the restore made or not, what is left is what the last one leaves alone.
    fn cut(
        &self,
        first: &Restored,
        effort: Effort,
        rng: &mut Rng,
        tally: &mut Nested,
    ) -> Result<(), String> {
        let outer: Vec<&Restored> = self.outer(first).collect();
        let every_step = first.steps <= effort.every_step_up_to;
        let restore = Call::Restore {
            handle: first.named,
        };
        let (mut cut, mut after) = (self.before.clone(), self.before.clone());
        for budget in self.cuts(first, effort, rng) {
            let told = |what: String| format!("{restore} with budget {budget}, {what}");
            cut.copy_from(&self.before);
            called(self.store, &mut cut, &restore, budget, STOPPED).map_err(told)?;
            let made = self.opened(&mut cut, first, rng, tally).map_err(told)?;
            tally.made += made as u64;
            tally.not_made += !made as u64;
            let found = if made { "made" } else { "not made" };
            let told = |what: String| told(format!("found {found} by opening, then {what}"));
            let one = [*rng.pick(&outer)];
            for outer in if every_step { &outer[..] } else { &one[..] } {
                after.copy_from(&cut);
                self.restore(&mut after, outer.named).map_err(told)?;
                self.as_alone(&mut after, outer).map_err(told)?;
                tally.around += (outer.at < first.at) as u64;
                tally.again += (outer.at == first.at) as u64;
            }
        }
        Ok(())
    }

    /// The budgets at which a restore is cut.
    fn cuts(&self, first: &Restored, effort: Effort, rng: &mut Rng) -> Vec<u64> {
        let bytes = (CELL * cells_of(&self.state.domains[first.at..]).len()) as u64;
        let (need, words) = (first.steps, self.words(first));
        let all = budgets(need, bytes, words, effort.every_step_up_to, rng);
        // At all of its steps the call is done.
        let mut cuts: Vec<u64> = all.into_iter().filter(|budget| *budget < need).collect();
        if need > effort.every_step_up_to {
            rng.shuffle(&mut cuts);
            cuts.truncate(effort.cuts);
        }
        cuts
    }

    /// The words that a restore replaces, by document 01: word 4, the handles of the domains that it
    /// ends, and their entries, two words each.
    fn words(&self, first: &Restored) -> u64 {
        let ended = &self.state.domains[first.at + 1..];
        let entries: usize = ended.iter().map(|domain| domain.cells.len()).sum();
        match ended.len() {
            0 => 0,
            many => (1 + many + 2 * entries) as u64,
        }
    }

    /// Opens after a cut: at times after openings that are stopped, where pairs are pending. Tells
    /// whether opening found the call made: the one that is done takes a step then.
    fn opened(
        &self,
        buffers: &mut Buffers,
        cut: &Restored,
        rng: &mut Rng,
        tally: &mut Nested,
    ) -> Result<bool, String> {
        for _ in 0..rng.below(3) {
            // An opening takes one step more than there are pairs.
            let budget = rng.below(self.words(cut) + 1);
            let reply = self.store.call(buffers, &Call::Open, budget);
            match reply.code {
                STOPPED => tally.stopped_openings += 1,
                0 => return Ok(reply.steps > 0),
                _ => break,
            }
        }
        let reply = called(self.store, buffers, &Call::Open, FULL, 0)?;
        Ok(reply.steps > 0)
    }
}

/// The cells that some of these domains hold.
fn cells_of(domains: &[Domain]) -> BTreeSet<u32> {
    let all = domains.iter().flat_map(|domain| domain.cells.keys());
    all.copied().collect()
}

/// Makes a call that has to give this number.
fn called(
    store: &dyn Store,
    buffers: &mut Buffers,
    call: &Call,
    budget: u64,
    number: u32,
) -> Result<Reply, String> {
    let reply = store.call(buffers, call, budget);
    match reply.code == number {
        true => Ok(reply),
        false => Err(format!("{call} is {}", tell(&reply, call))),
    }
}

/// How many domains live, as list gives them.
fn listed(store: &dyn Store, buffers: &mut Buffers, state: &State) -> Result<usize, String> {
    let reply = called(store, buffers, &Call::List, FULL, 0)?;
    let live: Vec<u32> = state.domains.iter().map(|domain| domain.handle).collect();
    match reply.handles.get(..reply.count as usize) {
        Some(listed) if *listed == *live => Ok(live.len()),
        _ => {
            let told = tell(&reply, &Call::List);
            Err(format!("list is {told}, and live are {live:?}"))
        }
    }
}

/// Whether an opened table stands for the state that it stood for when it was lent, with its memory and
/// its bodies.
fn stands_for(lent: &Buffers, opened: &Buffers, state: &State) -> Result<(), String> {
    let same = matches!(
        table::reading(&lent.decode(None)),
        Reading::Store { state: ref stood, .. } if stood == state
    );
    match same && lent.memory == opened.memory && lent.bodies == opened.bodies {
        true => Ok(()),
        false => Err("opening leaves another state, memory or bodies than were lent".into()),
    }
}

/// What buffers mean in which nothing may be pending.
fn state_of(buffers: &Buffers) -> Result<State, String> {
    match table::reading(&buffers.decode(None)) {
        Reading::Store { state, pending: 0 } => Ok(state),
        other => Err(format!("the buffers are {}", named(&other))),
    }
}
