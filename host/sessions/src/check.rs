//! One call on both sides, with every comparison: answer, step count, handle, buffers after exactly
//! that many stores, meaning, guards, notebook.

use crate::advances::{Advances, Met};
use crate::lists::{self, Lists};
use crate::nested::{self, Effort, Nested};
use domain_model::calls::PATTERN;
use domain_model::reply::{BY_RULE, IN_BODIES, IN_MEMORY};
use domain_model::{
    Buffers, Call, Ended, FULL, Holding, Kept, Looked, Model, Notebook, Reading, Reply, Rng,
    STOPPED, State, Store, Verdict, Work, plan, rules, table,
};
use std::collections::{BTreeMap, BTreeSet};

/// Where store and model differ.
#[derive(Clone, Debug)]
pub struct Mismatch {
    pub call: String,
    pub what: String,
}

/// A store in use: its buffers, what the model says they stand for, and the notebook, if a list of
/// calls from a done make is kept.
#[derive(Clone)]
pub struct Line {
    pub buffers: Buffers,
    pub reading: Reading,
    pub notebook: Option<Notebook>,
}

impl Line {
    /// Buffers with any contents, read by the model.
    pub fn new(buffers: Buffers, model: Model) -> Line {
        let reading = table::reading(&buffers.decode(model.fault));
        Line {
            buffers,
            reading,
            notebook: None,
        }
    }

    /// The state, where there is a store with nothing pending.
    pub fn state(&self) -> Option<&State> {
        match &self.reading {
            Reading::Store { state, pending: 0 } => Some(state),
            _ => None,
        }
    }
}

/// What was tried.
#[derive(Clone, Debug, Default)]
pub struct Tally {
    pub sessions: u64,
    pub writes: u64,
    /// Calls by name, then by answer: refusals, 0 done, 255 stopped.
    pub answers: [BTreeMap<u32, u64>; Call::NAMES.len()],
    /// Stopped calls other than opening.
    pub cuts: u64,
    /// Calls of which every cut was tried.
    pub whole: u64,
    pub stopped_openings: u64,
    pub damaged: u64,
    pub damaged_good: u64,
    pub lengths: u64,
    /// Zero counts taken, and the bytes they looked at.
    pub counts: u64,
    pub looked_at: u64,
    /// Most domains live.
    pub deepest: usize,
    /// Longest way from a via parent cell to its copy.
    pub chain: usize,
    /// Restores that ended domains, and restores that followed via parent past the named domain.
    pub ending_restores: u64,
    pub outward_restores: u64,
    /// What advances met of requests A.2 and A.4, lists of request A.3, and restores of request A.5.
    pub advances: Advances,
    pub lists: Lists,
    pub nested: Nested,
    /// Advances that turned via parent into a copy; commits that raised a label; commits that moved
    /// a cell.
    pub turning_advances: u64,
    pub raising_commits: u64,
    pub moving_commits: u64,
    /// Cells by rules: adds that took or raised some, restores that put some back, advances that
    /// turned some into copies, commits that moved some, looks that told one.
    pub pattern_adds: u64,
    pub pattern_restores: u64,
    pub pattern_advances: u64,
    pub pattern_commits: u64,
    pub pattern_looks: u64,
    /// Most entries in use.
    pub entries: u64,
}

impl Tally {
    pub fn calls(&self) -> u64 {
        self.answers.iter().flat_map(BTreeMap::values).sum()
    }

    pub fn answered(&self, number: u32) -> u64 {
        self.answers.iter().filter_map(|a| a.get(&number)).sum()
    }

    /// Adds another tally.
    pub fn join(&mut self, other: &Tally) {
        for (mine, theirs) in self.answers.iter_mut().zip(&other.answers) {
            for (number, times) in theirs {
                *mine.entry(*number).or_default() += times;
            }
        }
        self.sessions += other.sessions;
        self.writes += other.writes;
        self.cuts += other.cuts;
        self.whole += other.whole;
        self.stopped_openings += other.stopped_openings;
        self.damaged += other.damaged;
        self.damaged_good += other.damaged_good;
        self.lengths += other.lengths;
        self.counts += other.counts;
        self.looked_at += other.looked_at;
        self.deepest = self.deepest.max(other.deepest);
        self.chain = self.chain.max(other.chain);
        self.ending_restores += other.ending_restores;
        self.outward_restores += other.outward_restores;
        self.advances.join(&other.advances);
        self.lists.join(&other.lists);
        self.nested.join(&other.nested);
        self.turning_advances += other.turning_advances;
        self.raising_commits += other.raising_commits;
        self.moving_commits += other.moving_commits;
        self.pattern_adds += other.pattern_adds;
        self.pattern_restores += other.pattern_restores;
        self.pattern_advances += other.pattern_advances;
        self.pattern_commits += other.pattern_commits;
        self.pattern_looks += other.pattern_looks;
        self.entries = self.entries.max(other.entries);
    }
}

/// Compares a store with a model.
pub struct Checker<'a> {
    pub store: &'a dyn Store,
    pub model: Model,
    pub tally: Tally,
    /// Calls with at most so many steps are cut at every step; longer ones at a choice of steps.
    pub every_step_up_to: u64,
    /// Compares nothing but the notebook's zero counts: does demand 3 alone find an error of a
    /// store?
    pub counts_only: bool,
}

impl<'a> Checker<'a> {
    pub fn new(store: &'a dyn Store, model: Model) -> Checker<'a> {
        Checker {
            store,
            model,
            tally: Tally::default(),
            every_step_up_to: 700,
            counts_only: false,
        }
    }

    /// Makes the call on the line and compares everything.
    pub fn call(&mut self, line: &mut Line, call: &Call, budget: u64) -> Result<Reply, Mismatch> {
        self.compared(line, call, budget).map_err(|what| {
            let limit = if call.only_reads() || budget == FULL {
                String::new()
            } else {
                format!(" with budget {budget}")
            };
            Mismatch {
                call: format!("{call}{limit}"),
                what,
            }
        })
    }

    fn compared(&mut self, line: &mut Line, call: &Call, budget: u64) -> Result<Reply, String> {
        if self.counts_only {
            let reply = self.store.call(&mut line.buffers, call, budget);
            self.tally_answer(call, &reply);
            line.reading = table::reading(&line.buffers.decode(self.model.fault));
            self.note(line, call, budget, &reply)?;
            return Ok(reply);
        }
        let before = line.buffers.clone();
        let verdict = self.verdict(line, call);
        let reply = self.store.call(&mut line.buffers, call, budget);
        self.tally_answer(call, &reply);
        self.advance_as_asked(line, &before, call, &reply)?;
        self.list_as_asked(line, &before, call, budget, &reply)?;
        let expected = expected(&verdict, call, budget, &before, self.model)?;
        as_expected(&reply, &expected, call)?;
        if let Some(stray) = line.buffers.strayed() {
            return Err(stray);
        }
        match &verdict {
            Verdict::Refused(_) | Verdict::Listed(_) => unchanged(&line.buffers, &before)?,
            Verdict::Looked(looked) => {
                unchanged(&line.buffers, &before)?;
                shows(&reply, looked, &line.buffers)?;
                self.tally.pattern_looks += u64::from(reply.place == BY_RULE);
            }
            Verdict::Work(work) => {
                let (steps, done) = work.steps(budget);
                bounded(call, work, &before)?;
                let stores = if done {
                    plan::seen(self.model, &before, call, work, &line.buffers)?
                } else {
                    // The places that a call takes do not depend on the budget, so a whole run on a
                    // copy tells them.
                    let full = self.whole_run(&before, call, work)?;
                    plan::seen(self.model, &before, call, work, &full)?
                };
                let mut should = before;
                let reading = work.reading_after(&line.reading, steps);
                let mut memory = should.memory.to_vec();
                plan::play(&stores[..steps as usize], &mut should);
                if let Some(at) = line.buffers.differs(&should) {
                    return Err(format!("after {steps} steps {at}"));
                }
                work.memory_after(&mut memory, steps);
                if memory != *line.buffers.memory {
                    return Err(format!(
                        "after {steps} steps memory is not what the call leaves there"
                    ));
                }
                self.means(&line.buffers, &reading, steps)?;
                self.tally_work(call, work, line.state(), done);
                line.reading = reading;
            }
        }
        self.note(line, call, budget, &reply)?;
        Ok(reply)
    }

    /// Requests A.2 and A.4 by themselves, from the state and the buffers before an advance: what was met,
    /// what one that was not refused may take, and that the domains around it keep their points.
    fn advance_as_asked(
        &mut self,
        line: &Line,
        before: &Buffers,
        call: &Call,
        reply: &Reply,
    ) -> Result<(), String> {
        let (Call::Advance { .. }, Some(state)) = (call, line.state()) else {
            return Ok(());
        };
        let Some(met) = Met::new(state, before) else {
            return Ok(());
        };
        met.tally(&mut self.tally.advances, reply);
        if ![0, STOPPED].contains(&reply.code) {
            return Ok(());
        }
        met.steps_as_asked(reply)?;
        if reply.code == STOPPED {
            return Ok(());
        }
        if let Some(notebook) = &line.notebook {
            met.nothing_to_tell(notebook)?;
        }
        met.outer_points_stay(self.store, &line.buffers)
    }

    /// Request A.3 by itself, from the buffers before an add: a list comes to what plain adds of its
    /// records come to, and a plain add is the list of its one record, byte for byte.
    fn list_as_asked(
        &mut self,
        line: &Line,
        before: &Buffers,
        call: &Call,
        budget: u64,
        reply: &Reply,
    ) -> Result<(), String> {
        if let (Call::AddRanges { .. }, Some(state)) = (call, line.state()) {
            lists::tally(&mut self.tally.lists, state, before, call, reply);
            lists::as_asked(self.store, before, call, reply, &line.buffers)?;
        }
        if let Call::Add { handle, record } = *call {
            let list = Call::ranges([record]).on(handle);
            let mut listed = before.clone();
            let told = self.store.call(&mut listed, &list, budget);
            self.tally_answer(&list, &told);
            as_expected(&told, reply, call).map_err(|what| format!("as a list of one {what}"))?;
            if let Some(at) = listed.differs(&line.buffers) {
                return Err(format!("as a list of one {at}"));
            }
        }
        Ok(())
    }

    /// Request A.5 by itself, on copies of buffers that open: an inner domain restored before one around
    /// it, against that one alone.
    pub fn inner_first(&mut self, line: &Line, seed: u64) -> Result<(), Mismatch> {
        if self.counts_only || !matches!(line.reading, Reading::Store { .. }) {
            return Ok(());
        }
        let (buffers, tally) = (&line.buffers, &mut self.tally.nested);
        nested::try_on(self.store, buffers, seed, Effort::SMALL, tally).map_err(|what| Mismatch {
            call: "inner first, outer after".into(),
            what,
        })
    }

    fn verdict(&self, line: &Line, call: &Call) -> Verdict {
        let buffers = &line.buffers;
        self.model
            .verdict(buffers.lengths(), &line.reading, &buffers.memory, call)
    }

    /// Whether the buffers stand for this after so many steps.
    fn means(&self, buffers: &Buffers, should: &Reading, steps: u64) -> Result<(), String> {
        let found = table::reading(&buffers.decode(self.model.fault));
        if found == *should {
            return Ok(());
        }
        let other = other_meaning(&found, should);
        Err(format!("after {steps} steps {other}"))
    }

    /// Feeds the notebook, looks at a zero count, and asks whether the notebook has what the state holds.
    fn note(
        &mut self,
        line: &mut Line,
        call: &Call,
        budget: u64,
        reply: &Reply,
    ) -> Result<(), String> {
        let ended = match reply.code {
            0 => Ended::Done,
            STOPPED => Ended::Stopped,
            _ => Ended::Refused,
        };
        let Some(notebook) = &mut line.notebook else {
            return Ok(());
        };
        // Of the step counts the notebook may see opening's only.
        let steps = if *call == Call::Open { reply.steps } else { 0 };
        if let Some(count) = notebook.call(call, budget, ended, steps, &line.buffers.memory)? {
            self.tally.counts += 1;
            self.tally.looked_at += count.looked_at;
            if count.differ != 0 {
                let what = "bytes differ from what stood at the point of domain";
                return Err(format!(
                    "the zero count is {}: so many {what} {}",
                    count.differ, count.handle
                ));
            }
        }
        if ended != Ended::Stopped
            && !self.counts_only
            && let Reading::Store { state, pending: 0 } = &line.reading
        {
            notebook.agrees_with(state)?;
        }
        Ok(())
    }

    fn whole_run(&mut self, before: &Buffers, call: &Call, work: &Work) -> Result<Buffers, String> {
        let mut full = before.clone();
        let reply = self.store.call(&mut full, call, FULL);
        self.tally_answer(call, &reply);
        let should = Reply {
            steps: work.need,
            handle: work.handle,
            ..Reply::default()
        };
        as_expected(&reply, &should, call).map_err(|what| format!("without a budget {what}"))?;
        Ok(full)
    }

    /// Cuts the call at every step (of a long call: at a choice of them) on copies, each followed
    /// by opening, also by stopped openings.
    pub fn every_cut(&mut self, line: &Line, call: &Call, seed: u64) -> Result<(), Mismatch> {
        let named = |what: String| Mismatch {
            call: format!("{call}, cut at every step"),
            what,
        };
        let before = &line.buffers;
        let verdict = self.verdict(line, call);
        let Verdict::Work(work) = &verdict else {
            return Ok(());
        };
        if self.counts_only {
            return Ok(());
        }
        let full = self.whole_run(before, call, work).map_err(named)?;
        let stores = plan::seen(self.model, before, call, work, &full).map_err(named)?;
        let mut rng = Rng::new(seed);
        let (bytes, every) = (work.byte_steps(), self.every_step_up_to);
        let budgets = budgets(work.need, bytes, work.words, every, &mut rng);
        let all_openings = if work.words > 0 {
            work.byte_steps() + 2 * work.words + 1 + rng.below(work.words + 1)
        } else {
            FULL
        };
        let small = before.memory.len() <= 64 * 64;
        let mut should = before.clone();
        let mut copy = before.clone();
        let mut applied = 0;
        self.tally.whole += 1;
        for budget in budgets {
            let at = |what: String| Mismatch {
                call: format!("{call} with budget {budget}"),
                what,
            };
            plan::play(&stores[applied..budget as usize], &mut should);
            applied = budget as usize;
            copy.copy_from(before);
            let reply = self.store.call(&mut copy, call, budget);
            self.tally_answer(call, &reply);
            let expected = expected(&verdict, call, budget, before, self.model).map_err(at)?;
            as_expected(&reply, &expected, call).map_err(at)?;
            if let Some(stray) = copy.strayed() {
                return Err(at(stray));
            }
            if let Some(place) = copy.differs(&should) {
                return Err(at(format!("after {budget} steps {place}")));
            }
            let reading = work.reading_after(&line.reading, budget);
            self.means(&copy, &reading, budget).map_err(at)?;
            if reply.code != STOPPED {
                continue;
            }
            let mut cut = Line {
                buffers: copy.clone(),
                reading,
                notebook: None,
            };
            if small && rng.chance(400) {
                cut.notebook = line.notebook.clone();
                self.note(&mut cut, call, budget, &reply).map_err(at)?;
            }
            self.after_cut(cut, budget == all_openings, &mut rng)
                .map_err(|m| Mismatch {
                    call: format!("{call} with budget {budget}, then {}", m.call),
                    what: m.what,
                })?;
        }
        Ok(())
    }

    /// What may follow a cut: a call that is not opening, stopped openings, the opening, a restore.
    fn after_cut(
        &mut self,
        mut line: Line,
        all_openings: bool,
        rng: &mut Rng,
    ) -> Result<(), Mismatch> {
        if rng.chance(150) {
            let mut other = line.clone();
            other.notebook = None;
            // All but make and open.
            let probes = &Call::one_of_each(0, 0)[2..];
            self.call(&mut other, rng.pick(probes), FULL)?;
        }
        if let Reading::Store { pending, .. } = line.reading {
            let most = pending as u64 + 1;
            if all_openings {
                for budget in 0..=most {
                    let mut other = line.clone();
                    if self.call(&mut other, &Call::Open, budget)?.code == STOPPED {
                        self.call(&mut other, &Call::Open, rng.below(most))?;
                        self.call(&mut other, &Call::Open, FULL)?;
                    }
                }
            }
            if pending > 0 && rng.chance(400) {
                for _ in 0..rng.between(1, 3) {
                    self.call(&mut line, &Call::Open, rng.below(most))?;
                }
            }
        }
        self.call(&mut line, &Call::Open, FULL)?;
        if line.notebook.is_some()
            && let Some(live) = line.state().map(|s| s.domains.len()).filter(|n| *n > 0)
        {
            let handle =
                line.state().expect("a store").domains[rng.below(live as u64) as usize].handle;
            self.call(&mut line, &Call::Restore { handle }, FULL)?;
        }
        Ok(())
    }

    fn tally_answer(&mut self, call: &Call, reply: &Reply) {
        let answers = &mut self.tally.answers[call.number()];
        *answers.entry(reply.code).or_default() += 1;
        if reply.code == STOPPED {
            if *call == Call::Open {
                self.tally.stopped_openings += 1;
            } else {
                self.tally.cuts += 1;
            }
        }
    }

    /// Counts what makes a state deep, so that a run can say whether it got there.
    fn tally_work(&mut self, call: &Call, work: &Work, before: Option<&State>, done: bool) {
        let Some(before) = before else { return };
        if !done {
            return;
        }
        self.tally_patterns(call, work, before);
        let tally = &mut self.tally;
        let after = &work.after;
        tally.deepest = tally.deepest.max(after.domains.len());
        tally.entries = tally.entries.max(after.entries());
        match *call {
            Call::Restore { handle } => {
                let named = before.find(handle).unwrap_or(0);
                tally.ending_restores += (after.domains.len() < before.domains.len()) as u64;
                let outward = work.put_back.iter().any(|(c, _)| {
                    let holder =
                        (named..before.domains.len()).find(|at| before.domains[*at].holds(*c));
                    holder
                        .and_then(|h| before.keeper(h, *c))
                        .is_some_and(|k| k < named)
                });
                tally.outward_restores += outward as u64;
            }
            Call::Advance { .. } => {
                let turned = |d: &domain_model::Domain| {
                    work.taken
                        .iter()
                        .any(|(c, _)| d.cells.get(c).is_some_and(|h| h.kept == Kept::ViaParent))
                };
                tally.turning_advances += before.domains.last().is_some_and(turned) as u64;
            }
            Call::Commit { .. }
                if after.domains.len() == before.domains.len().wrapping_sub(1)
                    && !after.domains.is_empty() =>
            {
                let outer = after.domains.len() - 1;
                let was = &before.domains[outer].cells;
                let raised = after.domains[outer]
                    .cells
                    .iter()
                    .any(|(c, h)| h.read_write && was.get(c).is_some_and(|o| !o.read_write));
                tally.raising_commits += raised as u64;
                tally.moving_commits += after.domains[outer]
                    .cells
                    .keys()
                    .any(|c| !was.contains_key(c)) as u64;
            }
            Call::Add { .. } | Call::AddRanges { .. } => {
                let innermost = after.domains.len() - 1;
                for c in after.domains[innermost].cells.keys() {
                    let way = after.keeper(innermost, *c).map_or(0, |k| innermost - k);
                    tally.chain = tally.chain.max(way);
                }
            }
            _ => {}
        }
    }

    /// The same for cells by rules.
    fn tally_patterns(&mut self, call: &Call, work: &Work, before: &State) {
        let tally = &mut self.tally;
        let inner = before.domains.last();
        let ruled = |cell: u32| inner.is_some_and(|d| d.rule(cell).is_some());
        match *call {
            Call::Add { .. } | Call::AddRanges { .. } => {
                let (_, records) = call.records().expect("an add");
                let by_rule = records.iter().any(|record| record.kind == PATTERN);
                tally.pattern_adds += u64::from(work.words > 0 && by_rule);
            }
            Call::Restore { handle } => {
                let named = before.find(handle).unwrap_or(0);
                let holder = |c: u32| before.domains[named..].iter().find(|d| d.holds(c));
                let some = |c: u32| holder(c).is_some_and(|d| d.rule(c).is_some());
                tally.pattern_restores += u64::from(work.put_back.iter().any(|(c, _)| some(*c)));
            }
            Call::Advance { .. } => {
                tally.pattern_advances += u64::from(work.taken.iter().any(|(c, _)| ruled(*c)));
            }
            Call::Commit { .. } => {
                let outer = work.after.domains.last();
                let moved = |d: &domain_model::Domain| {
                    let was = &before.domains[before.domains.len() - 2];
                    d.cells.keys().any(|c| !was.holds(*c) && ruled(*c))
                };
                tally.pattern_commits += u64::from(outer.is_some_and(moved));
            }
            _ => {}
        }
    }
}

/// The budgets to cut at: all of them, or those at the joints of the call and some others. Of the steps
/// that it needs so many are bytes; then come so many pairs, and their words.
pub(crate) fn budgets(
    need: u64,
    bytes: u64,
    words: u64,
    every_step_up_to: u64,
    rng: &mut Rng,
) -> BTreeSet<u64> {
    if need <= every_step_up_to {
        return (0..=need).collect();
    }
    let joints = [
        0,
        1,
        63,
        64,
        65,
        bytes,
        bytes + 1,
        bytes + 2 * words,
        bytes + 2 * words + 1,
        bytes + 3 * words + 1,
        need,
    ];
    let mut list: BTreeSet<u64> = joints
        .into_iter()
        .flat_map(|j| [j.saturating_sub(1), j])
        .filter(|k| *k <= need)
        .collect();
    for _ in 0..12 {
        list.insert(rng.below(need));
    }
    list
}

/// Whether look shows the bytes that a restore would leave. A rule has no part to show: its number
/// stands for the bytes.
fn shows(reply: &Reply, looked: &Looked, buffers: &Buffers) -> Result<(), String> {
    let from = reply.offset as usize;
    let by_rule = rules::pattern(reply.rule);
    let shown = match reply.place {
        IN_MEMORY => buffers.memory.get(from..from + 64),
        IN_BODIES => buffers.bodies.get(from..from + 64),
        _ => by_rule.as_ref().map(|bytes| &bytes[..]),
    };
    match shown == Some(&looked.bytes[..]) {
        true => Ok(()),
        false => Err("look shows other bytes than a restore would leave".into()),
    }
}

/// What the call has to tell.
fn expected(
    verdict: &Verdict,
    call: &Call,
    budget: u64,
    before: &Buffers,
    model: Model,
) -> Result<Reply, String> {
    // Only look tells a place.
    let decoded = match verdict {
        Verdict::Looked(_) => before.decode(model.fault).ok(),
        _ => None,
    };
    verdict
        .reply(call, decoded.as_ref(), budget)
        .ok_or("the cell looked for has no place".into())
}

fn as_expected(reply: &Reply, should: &Reply, call: &Call) -> Result<(), String> {
    if reply == should {
        return Ok(());
    }
    let (is, should) = (tell(reply, call), tell(should, call));
    Err(format!("told {is}, should tell {should}"))
}

/// Document 01's bounds: open needs at most 2E + 11 steps, every other call at most 70E + 32.
fn bounded(call: &Call, work: &Work, before: &Buffers) -> Result<(), String> {
    let e = before.lengths().sizes().map_or(0, |s| s.e as u64);
    let most = if *call == Call::Open {
        2 * e + 11
    } else {
        70 * e + 32
    };
    if work.need > most {
        return Err(format!(
            "{} steps are needed, and at most {most} are allowed",
            work.need
        ));
    }
    Ok(())
}

fn unchanged(is: &Buffers, was: &Buffers) -> Result<(), String> {
    match is.differs(was) {
        None => Ok(()),
        Some(at) => Err(format!("nothing may change, yet {at}")),
    }
}

pub(crate) fn tell(reply: &Reply, call: &Call) -> String {
    let mut text = match reply.code {
        0 => "done".to_string(),
        STOPPED => "stopped".to_string(),
        number => format!("refused by {number}"),
    };
    if !call.only_reads() {
        text += &format!(" with {} steps", reply.steps);
    }
    if *call == Call::Create {
        text += &format!(", handle {}", reply.handle);
    }
    if *call == Call::List {
        text += &format!(", {} live {:?}", reply.count, reply.handles);
    }
    if let Call::Look { .. } = call {
        let Reply {
            place,
            offset,
            rule,
            ..
        } = reply;
        text += &format!(", place {place} offset {offset} rule {rule}");
    }
    if reply.strayed {
        text += ", with a store beside an out parameter";
    }
    text
}

/// How two readings differ, in words.
pub(crate) fn other_meaning(is: &Reading, should: &Reading) -> String {
    match (is, should) {
        (
            Reading::Store {
                state: a,
                pending: p,
            },
            Reading::Store {
                state: b,
                pending: q,
            },
        ) => match p == q {
            false => format!("{p} pairs are pending and should be {q}"),
            true => other_state(a, b),
        },
        _ => format!(
            "the buffers are {}, and should be {}",
            named(is),
            named(should)
        ),
    }
}

/// What buffers are, in words.
pub(crate) fn named(reading: &Reading) -> String {
    match reading {
        Reading::WrongLengths => "no store (question 1)".into(),
        Reading::NoStore => "no store (question 2)".into(),
        Reading::Damaged { pending: false } => "a damaged table".into(),
        Reading::Damaged { pending: true } => "a damaged table with pairs pending".into(),
        Reading::Store { pending, .. } => format!("a store with {pending} pairs pending"),
    }
}

/// How two states differ, in words.
fn other_state(a: &State, b: &State) -> String {
    if a.next != b.next {
        return format!("the next handle is {} and should be {}", a.next, b.next);
    }
    let handles = |s: &State| s.domains.iter().map(|d| d.handle).collect::<Vec<u32>>();
    if handles(a) != handles(b) {
        return format!("live are {:?} and should be {:?}", handles(a), handles(b));
    }
    for (x, y) in a.domains.iter().zip(&b.domains) {
        let cells: BTreeSet<u32> = x.cells.keys().chain(y.cells.keys()).copied().collect();
        for c in cells {
            let (is, should) = (x.cells.get(&c), y.cells.get(&c));
            if is != should {
                return format!(
                    "domain {} has cell {c} {}, and should have it {}",
                    x.handle,
                    holding(is),
                    holding(should)
                );
            }
        }
    }
    "the states differ".into()
}

fn holding(held: Option<&Holding>) -> String {
    let Some(held) = held else {
        return "not held".into();
    };
    let label = match held.read_write {
        true => "read-write",
        false => "read-only",
    };
    match held.kept {
        Kept::ViaParent => format!("{label} via parent"),
        Kept::Rule(rule) => format!("{label} by rule {rule}"),
        Kept::Copy(bytes) if bytes.iter().all(|v| *v == bytes[0]) => {
            format!("{label} as a copy of {}", bytes[0])
        }
        Kept::Copy(bytes) => format!("{label} as a copy of {bytes:?}"),
    }
}
