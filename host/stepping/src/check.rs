//! What is asked of one stepped call: its stores in the plan's order, and after each of them a store that opens.

use crate::scenarios::{Scenario, prepare};
use crate::state;
use crate::trace::{Failure, Stored, Trace, Way, at, follow};
use domain_lend::Linked;
use domain_lend::pages::Arena;
use domain_model::{
    Buffer, Buffers, Call, Ended, FULL, Model, Notebook, Reply, STOPPED, State, Step, Store,
    Verdict, plan, table,
};

/// What was tried, over all calls.
#[derive(Default)]
pub struct Tally {
    pub calls: u64,
    pub instructions: u64,
    pub stores: u64,
    pub cuts: u64,
    pub restores: u64,
    /// The widest store of bytes, and the fewest that a store of a call made on the average.
    pub widest: usize,
    pub narrowest: Option<usize>,
}

/// How many bytes a store of bytes makes at least, on the average over a call: copies and the bytes of rules go in wide moves.
const WIDE: usize = 8;

/// The stores of a call in their order, as document 01, "Steps and cuts", gives them.
#[derive(Default)]
pub struct Plan {
    pub steps: Vec<Step>,
    /// How many of them, from the first on, are bytes.
    pub bytes: usize,
    /// Words to replace.
    pub words: usize,
    /// From this many stores on, the call is found made; for a call without a table part there is no such number.
    pub made_from: Option<usize>,
}

impl Plan {
    /// The model's plan, with the places that the library took in `after`.
    fn of(call: &Call, before: &Buffers, after: &Buffers, reply: &Reply) -> Result<Plan, String> {
        let model = Model::default();
        let decoded = before.decode(None);
        let reading = table::reading(&decoded);
        let verdict = model.verdict(before.lengths(), &reading, &before.memory, call);
        let should = verdict.reply(call, decoded.as_ref().ok(), FULL);
        if should != Some(*reply) {
            return Err(format!("the call gives {reply:?}, the model {should:?}"));
        }
        let mut plan = Plan::default();
        if let Verdict::Work(work) = verdict {
            plan = Plan {
                steps: plan::seen(model, before, call, &work, after)?,
                bytes: work.byte_steps() as usize,
                words: work.words as usize,
                made_from: work.made_from().map(|steps| steps as usize),
            }
        }
        let mut played = before.clone();
        plan::play(&plan.steps, &mut played);
        match after.differs(&played) {
            None => Ok(plan),
            Some(at) => Err(format!("after the steps of document 01 {at}")),
        }
    }
}

/// A call with everything that is known of it before it is stepped.
pub struct Case {
    pub name: String,
    pub call: Call,
    pub before: Buffers,
    pub after: Buffers,
    pub reply: Reply,
    pub plan: Plan,
    pub notebook: Notebook,
}

impl Case {
    /// A scenario's call, after the calls before it. What document 01 counts for it was worked out by hand.
    pub fn new(scenario: &Scenario) -> Result<Case, String> {
        let (before, notebook) = prepare(scenario)?;
        let case = Case::of(
            scenario.name.into(),
            scenario.call.clone(),
            before,
            notebook,
        )?;
        let found = (case.reply.code, case.plan.bytes, case.plan.words);
        let counted = (scenario.number, 64 * scenario.cells, scenario.pairs);
        if found != counted {
            return Err(format!(
                "number, bytes and words are {found:?}, counted by hand {counted:?}"
            ));
        }
        Ok(case)
    }

    /// Any call: finds its plan, and compares that with the library's own cuts, budget by budget.
    pub fn of(
        name: String,
        call: Call,
        mut before: Buffers,
        notebook: Notebook,
    ) -> Result<Case, String> {
        state::fill_what_means_nothing(&mut before);
        let mut after = before.clone();
        let reply = Linked.call(&mut after, &call, FULL);
        let plan = Plan::of(&call, &before, &after, &reply)?;
        let mut played = before.clone();
        let length = plan.steps.len();
        for budget in 0..=length {
            let mut stopped = before.clone();
            let cut = Linked.call(&mut stopped, &call, budget as u64);
            let number = if budget < length { STOPPED } else { reply.code };
            if (cut.code, cut.steps) != (number, budget as u64) {
                return Err(format!("with budget {budget} the call gives {cut:?}"));
            }
            if let Some(at) = stopped.differs(&played) {
                return Err(format!("with budget {budget}, after as many steps, {at}"));
            }
            if let Some(step) = plan.steps.get(budget) {
                step.apply(&mut played);
            }
        }
        Ok(Case {
            name,
            call,
            before,
            after,
            reply,
            plan,
            notebook,
        })
    }

    /// Follows the call in a child.
    pub fn follow(&self, arena: &Arena, way: Way, budget: u64) -> Result<Trace, Failure> {
        arena.load(&self.before);
        // SAFETY: the arena's buffers are the child's own while it runs.
        follow(arena, way, &|lent, outs| unsafe {
            domain_lend::run(lent, &self.call, budget, outs)
        })
    }

    /// Asks everything of a trace of the call whose stores were all seen.
    pub fn judge(&self, trace: &Trace, tally: &mut Tally) -> Result<(), String> {
        let reply = trace.told.reply(&self.call);
        if reply != self.reply {
            return Err(format!(
                "the stepped call gives {reply:?}, the call at full speed {:?}",
                self.reply
            ));
        }
        self.judge_stores(trace, tally)
    }

    /// Asks everything of the stores that were seen.
    pub fn judge_stores(&self, trace: &Trace, tally: &mut Tally) -> Result<(), String> {
        let mut walk = Walk::new(self);
        for stored in &trace.stores {
            let made = walk.next(stored, tally)?;
            self.reopen(&stored.left, made, tally).map_err(|wrong| {
                format!("after {made} steps, by {}: {wrong}", at(stored.instruction))
            })?;
        }
        if let Some(step) = self.plan.steps.get(walk.made) {
            return Err(format!(
                "the store {step:?} (step {} of {}) is missing",
                walk.made + 1,
                self.plan.steps.len()
            ));
        }
        if let Some(average) = self.plan.bytes.checked_div(walk.byte_stores) {
            if average < WIDE {
                return Err(format!(
                    "{} bytes are stored {average} at a time",
                    self.plan.bytes
                ));
            }
            let least = tally.narrowest.unwrap_or(average);
            tally.narrowest = Some(least.min(average));
        }
        tally.calls += 1;
        tally.instructions += trace.instructions;
        tally.stores += trace.stores.len() as u64;
        Ok(())
    }

    /// Opens a copy of the buffers as the cut left them, and restores every live domain on further copies.
    pub fn reopen(&self, cut: &Buffers, made: usize, tally: &mut Tally) -> Result<(), String> {
        tally.cuts += 1;
        let length = self.plan.steps.len();
        let mut opened = cut.clone();
        let reply = Linked.call(&mut opened, &Call::Open, FULL);
        if self.call == Call::Make && made < length {
            if reply.code != 2 || opened != *cut {
                return Err(format!("a cut make opens as {}", reply.code));
            }
            return Ok(());
        }
        let found_made = self.plan.made_from.is_some_and(|from| made >= from);
        let steps = if found_made && made < length && self.call != Call::Make {
            self.plan.words as u64 + 1
        } else {
            0
        };
        if (reply.code, reply.steps) != (0, steps) {
            return Err(format!("opening gives {reply:?}, not {steps} steps"));
        }
        let found = state::state(&opened)?;
        let wanted = if found_made {
            &self.after
        } else {
            &self.before
        };
        if found != meant(wanted)? {
            let wanted = if found_made { "made" } else { "not made" };
            return Err(format!(
                "the call has to be found {wanted}; opening finds {found:?}"
            ));
        }
        self.check_memory(&opened, made, found_made)?;

        let mut notebook = self.notebook.clone();
        if made < length {
            let made = made as u64;
            note(&mut notebook, &self.call, Ended::Stopped, made, &cut.memory)?;
            let memory = &opened.memory;
            note(&mut notebook, &Call::Open, Ended::Done, steps, memory)?;
        } else {
            let (steps, memory) = (self.reply.steps, &opened.memory);
            note(&mut notebook, &self.call, Ended::Done, steps, memory)?;
        }
        check_restores(&opened, &found, &notebook).map(|restores| tally.restores += restores)
    }

    fn check_memory(&self, opened: &Buffers, made: usize, found_made: bool) -> Result<(), String> {
        let put_back = match self.call {
            Call::Restore { handle } => state::put_back(&state::state(&self.before)?, handle),
            _ => Default::default(),
        };
        let whole = found_made || made >= self.plan.bytes;
        for (index, &byte) in opened.memory.iter().enumerate() {
            let right = if !put_back.contains_key(&(index as u32 / 64)) {
                byte == self.before.memory[index]
            } else if whole {
                byte == self.after.memory[index]
            } else {
                byte == self.before.memory[index] || byte == self.after.memory[index]
            };
            if !right {
                return Err(format!("memory byte {index} is {byte}"));
            }
        }
        Ok(())
    }
}

/// The state that buffers stand for, pending pairs included.
fn meant(buffers: &Buffers) -> Result<State, String> {
    let mut opened = buffers.clone();
    let reply = Linked.call(&mut opened, &Call::Open, FULL);
    if reply.code != 0 {
        return Err(format!("the uncut buffers open as {}", reply.code));
    }
    state::state(&opened)
}

/// Tells the notebook of a call that ended after this many steps. A restore that it completes has to bring back every byte.
pub fn note(
    notebook: &mut Notebook,
    call: &Call,
    ended: Ended,
    steps: u64,
    memory: &[u8],
) -> Result<(), String> {
    // A call that was stopped had its steps as its budget.
    match notebook.call(call, steps, ended, steps, memory)? {
        Some(count) if count.differ != 0 => Err(format!(
            "the restore that {call} completes has {} wrong bytes",
            count.differ
        )),
        _ => Ok(()),
    }
}

/// Restores each live domain on a copy: the bytes are those of the state found, and the notebook, which has the same holdings, counts
/// none that is wrong.
pub fn check_restores(opened: &Buffers, found: &State, notebook: &Notebook) -> Result<u64, String> {
    notebook.agrees_with(found)?;
    for (index, domain) in found.domains.iter().enumerate() {
        let handle = domain.handle;
        let mut restored = opened.clone();
        let reply = Linked.call(&mut restored, &Call::Restore { handle }, FULL);
        if reply.code != 0 {
            return Err(format!(
                "restore of {handle} on the opened copy gives {}",
                reply.code
            ));
        }
        let mut wanted = opened.clone();
        for (cell, value) in state::put_back(found, handle) {
            wanted.write_cell(cell, &value);
        }
        if restored.memory != wanted.memory {
            return Err(format!(
                "restore of {handle} on the opened copy leaves other bytes than those held"
            ));
        }
        let mut state = found.clone();
        state.domains.truncate(index + 1);
        if state::state(&restored)? != state {
            return Err(format!(
                "restore of {handle} on the opened copy leaves other domains"
            ));
        }
        let count = notebook.zero_count(handle, &restored.memory)?;
        if let Some(count) = count.filter(|count| count.differ != 0) {
            return Err(format!(
                "restore of {handle} on the opened copy has {} bytes that differ from its point",
                count.differ
            ));
        }
    }
    Ok(found.domains.len() as u64)
}

/// The way along the plan.
struct Walk<'a> {
    case: &'a Case,
    last: Buffers,
    /// Steps made; while bytes are stored, the number of bytes stored.
    made: usize,
    bytes: Vec<bool>,
    /// Instructions that stored bytes.
    byte_stores: usize,
}

impl<'a> Walk<'a> {
    fn new(case: &'a Case) -> Self {
        Walk {
            case,
            last: case.before.clone(),
            made: 0,
            bytes: vec![false; case.plan.bytes],
            byte_stores: 0,
        }
    }

    /// Goes along by one instruction that stored, and gives the steps made after it.
    fn next(&mut self, stored: &Stored, tally: &mut Tally) -> Result<usize, String> {
        let result = match stored.place {
            Some((Buffer::Table, byte)) => self.word(stored, byte),
            Some((buffer, byte)) => self.bytes(stored, buffer, byte, tally),
            None => Err("the place of the store is not known".into()),
        };
        self.last.copy_from(&stored.left);
        result.map_err(|wrong| format!("{}: {wrong}", at(stored.instruction)))?;
        Ok(self.made)
    }

    /// A table word: exactly the next one of the plan, whole, and nothing else.
    fn word(&mut self, stored: &Stored, byte: usize) -> Result<(), String> {
        let plan = &self.case.plan;
        let Some(next) = plan.steps.get(self.made) else {
            return Err(format!("stores into word {} after the last step", byte / 4));
        };
        if next.buffer != Buffer::Table {
            return Err(format!(
                "stores into word {} with {} of {} bytes stored",
                byte / 4,
                self.made,
                plan.bytes
            ));
        }
        if byte != 4 * next.at {
            return Err(format!(
                "stores at byte {byte} of the table, word {}; step {} is {next:?}",
                byte / 4,
                self.made + 1
            ));
        }
        let mut wanted = self.last.clone();
        next.apply(&mut wanted);
        if stored.left != wanted {
            return Err(format!(
                "step {} is {next:?}, the instruction changed {}",
                self.made + 1,
                changes(&self.last, &stored.left)
            ));
        }
        self.made += 1;
        Ok(())
    }

    /// Bytes: any number of those planned, with their values, before the first table word, and rising.
    fn bytes(
        &mut self,
        stored: &Stored,
        buffer: Buffer,
        start: usize,
        tally: &mut Tally,
    ) -> Result<(), String> {
        self.byte_stores += 1;
        let plan = &self.case.plan;
        if self.made > plan.bytes || plan.bytes == 0 {
            return Err(format!(
                "stores at byte {start} of {buffer:?}, where no byte is planned"
            ));
        }
        if self.last.table != stored.left.table {
            return Err(format!(
                "a store into {buffer:?} changed {}",
                changes(&self.last, &stored.left)
            ));
        }
        let mut first = None;
        let mut width = 0;
        // What the planned bytes were before, to see that nothing else differs.
        let mut masked = stored.left.clone();
        for (step, store) in plan.steps[..plan.bytes].iter().enumerate() {
            let (old, new) = (byte_at(&self.last, store), byte_at(&stored.left, store));
            let old = Step {
                value: old,
                ..*store
            };
            old.apply(&mut masked);
            if old.value != new {
                if self.bytes[step] || new != store.value {
                    return Err(format!(
                        "byte {} of {:?} became {new}, step {} is {store:?}",
                        store.at,
                        store.buffer,
                        step + 1
                    ));
                }
                self.bytes[step] = true;
                self.made += 1;
                first.get_or_insert(step);
                width += 1;
            }
        }
        if masked != self.last {
            return Err(format!(
                "a store of bytes also changed {}",
                changes(&self.last, &masked)
            ));
        }
        match first {
            Some(first) => {
                let store = plan.steps[first];
                if (store.buffer, store.at) != (buffer, start) {
                    return Err(format!(
                        "a store at byte {start} of {buffer:?} changed {store:?} first"
                    ));
                }
                if first + width != self.made {
                    return Err(format!(
                        "stores {width} bytes at step {} with {} stored before",
                        first + 1,
                        self.made - width
                    ));
                }
                tally.widest = tally.widest.max(width);
                Ok(())
            }
            // A copier may store the end of a stretch twice. The cases are filled so that the first store of a byte changes it.
            None => match plan.steps[..plan.bytes]
                .iter()
                .position(|store| (store.buffer, store.at) == (buffer, start))
            {
                Some(step) if self.bytes[step] => Ok(()),
                _ => Err(format!(
                    "a store at byte {start} of {buffer:?} changed nothing"
                )),
            },
        }
    }
}

/// The byte that a step is about.
fn byte_at(buffers: &Buffers, step: &Step) -> u32 {
    match step.buffer {
        Buffer::Memory => buffers.memory[step.at].into(),
        Buffer::Bodies => buffers.bodies[step.at].into(),
        Buffer::Table => buffers.table[step.at],
    }
}

fn changes(old: &Buffers, new: &Buffers) -> String {
    fn part<T: Eq>(name: &str, old: &[T], new: &[T]) -> Vec<String> {
        let both = old.iter().zip(new).enumerate();
        both.filter(|(_, (old, new))| old != new)
            .map(|(index, _)| format!("{name} {index}"))
            .collect()
    }
    let list = [
        part("word", &old.table, &new.table),
        part("memory byte", &old.memory, &new.memory),
        part("body byte", &old.bodies, &new.bodies),
    ]
    .concat();
    match list.is_empty() {
        true => "nothing".into(),
        false => list.join(", "),
    }
}

/// Whether stepping every instruction showed the same buffers, one after another, as the guarded pages did.
pub fn same_stores(before: &Buffers, guarded: &Trace, stepped: &Trace) -> Result<(), String> {
    let mut last = before;
    let mut seen = stepped.stores.iter();
    for stored in &guarded.stores {
        if stored.left == *last {
            continue;
        }
        match seen.next() {
            Some(other) if other.left == stored.left && other.instruction == stored.instruction => {
            }
            Some(other) => {
                return Err(format!(
                    "{} and {} leave different buffers",
                    at(stored.instruction),
                    at(other.instruction)
                ));
            }
            None => {
                return Err(format!(
                    "{} is missing when every instruction is stepped",
                    at(stored.instruction)
                ));
            }
        }
        last = &stored.left;
    }
    match seen.next() {
        Some(other) => Err(format!(
            "{} is seen only when every instruction is stepped",
            at(other.instruction)
        )),
        None => Ok(()),
    }
}
