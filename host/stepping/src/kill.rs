//! Children that work on a store in shared memory and are ended with SIGKILL at random moments.
//!
//! A child writes down in shared pages what it is about to do, does it, and writes down what came of it. After its end this process
//! feeds the notebook from that log, opens the store, and asks that the call in which the end fell is wholly made or not made.

use crate::check::{check_restores, note};
use crate::state;
use crate::sys::{self, Status};
use domain_lend::pages::{Arena, Pages, READ_WRITE, Side};
use domain_lend::{Lent, Linked, call};
use domain_model::calls::{COPY, READ_ONLY, READ_WRITE as RW};
use domain_model::rules::pattern;
use domain_model::{
    Buffers, CELL, Call, Ended, FULL, Lengths, Notebook, Record, Reply, Rng, Sizes, Store,
};
use std::sync::atomic::{AtomicU64, Ordering};
use std::time::{Duration, Instant};

/// Short calls, many to a child.
pub const SMALL: Sizes = Sizes {
    m: 48,
    e: 96,
    b: 96,
};
/// Calls of which the stores take some time, so that more ends fall between two of them.
pub const LARGE: Sizes = Sizes {
    m: 1024,
    e: 2048,
    b: 2048,
};

/// Lines of the log; a child that has filled it waits for its end.
const LINES: usize = 500;

/// What a child does next. It stands in shared pages, where nothing may point to a child's heap: so a list of ranges is named by its place
/// among those that were made before any child was.
#[derive(Clone)]
enum Act {
    /// A call without a list.
    Call(Call),
    /// The add of one of the lists.
    List(usize),
    /// A program write of whole cells.
    Write { first: u32, count: u32, what: Bytes },
}

impl Act {
    /// The call, if it is one.
    fn call<'a>(&'a self, lists: &'a [Call]) -> Option<&'a Call> {
        match self {
            Act::Call(call) => Some(call),
            Act::List(place) => Some(&lists[*place]),
            Act::Write { .. } => None,
        }
    }
}

/// How many lists there are to choose from.
const LISTS: usize = 64;

/// Lists of several ranges, which rise, fall and meet: of copies, at times with cells via parent, and with some cells by a second kind,
/// which then stay by the first.
fn lists(random: &mut Rng, cells: u32) -> Vec<Call> {
    let mut list = || {
        let via = random.below(3) == 0;
        let mut records: Vec<Record> = Vec::new();
        for _ in 0..random.between(2, 9) {
            let first = random.below(cells.into()) as u32;
            let most = (cells / 8).min(cells - first);
            let count = random.between(1, most.into()) as u32;
            let label = *random.pick(&[READ_ONLY, RW, RW]);
            records.push(match via && random.below(4) == 0 {
                true => Record::via_parent(first, count, label),
                false => Record::copy(first, count, label),
            });
            if random.below(4) == 0 {
                let Record { first, count, .. } = *random.pick(&records);
                let rule = random.below(4) as u32;
                records.push(Record::pattern(first, count, rule, RW));
            }
        }
        Call::ranges(records)
    };
    (0..LISTS).map(|_| list()).collect()
}

/// What a program write puts into each cell.
#[derive(Clone, Copy)]
enum Bytes {
    /// One byte over and over.
    All(u8),
    /// The bytes of this rule.
    Rule(u32),
}

impl Bytes {
    fn cell(self) -> [u8; CELL] {
        match self {
            Bytes::All(byte) => [byte; CELL],
            Bytes::Rule(rule) => pattern(rule).expect("a rule"),
        }
    }
}

/// The log's head: acts begun, acts that have returned with their answer written down, and acts whose memory is written down too.
struct Head {
    begun: AtomicU64,
    returned: AtomicU64,
    ended: AtomicU64,
}

/// What a child is to do.
enum Work {
    /// Acts at random, one after another.
    Session { seed: u64 },
    /// One call, after a warm-up that asks its questions and stores nothing; the child ends itself after this many nanoseconds.
    One { act: Act, nanoseconds: u64 },
}

#[derive(Clone)]
struct Line {
    act: Act,
    reply: Reply,
}

/// The log in shared pages: the head, the lines, memory after each act, and the buffers as they stood before the act of an even and of
/// an odd number.
struct Log {
    pages: Pages,
    lengths: Lengths,
    stands: [Arena; 2],
}

impl Log {
    const LINES_AT: usize = 64;
    const MEMORY_AT: usize = Self::LINES_AT + LINES * size_of::<Line>().next_multiple_of(16);

    fn new(lengths: Lengths) -> Self {
        Log {
            pages: Pages::new(Self::MEMORY_AT + LINES * lengths.memory, READ_WRITE),
            lengths,
            stands: [0, 1].map(|_| Arena::new(lengths, Side::After)),
        }
    }

    fn head(&self) -> &Head {
        unsafe { &*self.pages.start().cast::<Head>() }
    }

    fn line(&self, number: usize) -> *mut Line {
        let at = Self::LINES_AT + number * size_of::<Line>().next_multiple_of(16);
        unsafe { self.pages.start().add(at).cast() }
    }

    /// An act that a child wrote down.
    fn act(&self, number: usize) -> Act {
        // SAFETY: the line was written, and nothing in it points to a heap.
        unsafe { (*self.line(number)).act.clone() }
    }

    /// A line that a child wrote down whole.
    fn told(&self, number: usize) -> Line {
        // SAFETY: as for the act.
        unsafe { (*self.line(number)).clone() }
    }

    /// The buffers before an act.
    fn stand(&self, number: usize) -> &Arena {
        &self.stands[number % 2]
    }

    fn memory_after(&self, number: usize) -> *mut u8 {
        let at = Self::MEMORY_AT + number * self.lengths.memory;
        unsafe { self.pages.start().add(at) }
    }
}

/// What came of all ends.
#[derive(Default, Debug)]
pub struct Ends {
    pub kills: u64,
    pub calls: u64,
    /// Ends that fell inside a call.
    pub inside: u64,
    /// Of these, ends that fell after the first store.
    pub between: u64,
    pub not_made: u64,
    pub made: u64,
    /// Calls that the opening carried out.
    pub carried_out: u64,
    /// Restores found with memory mixed.
    pub mixed: u64,
    /// Makes that left no store.
    pub no_store: u64,
    pub restores: u64,
}

/// The next act. After a write of a rule's bytes it is mostly an add by that rule, which would hardly ever be done else; after another
/// write it is an advance now and then, which has something to copy.
fn choose(random: &mut Rng, cells: u32, handles: &[u32], last: Option<&Act>) -> Act {
    match last {
        Some(&Act::Write {
            first,
            count,
            what: Bytes::Rule(rule),
        }) if random.below(8) > 0 => {
            return Act::Call(Call::pattern(first, count, rule, random.below(2) as u32));
        }
        Some(Act::Write { .. }) if random.below(4) == 0 => {
            return Act::Call(Call::Advance { handle: 0 });
        }
        _ => {}
    }
    let any = match handles.is_empty() {
        true => 0,
        false => *random.pick(handles),
    };
    let first = random.below(cells.into()) as u32;
    let count = random.between(1, (cells / 2).min(cells - first).into()) as u32;
    Act::Call(match random.below(400) {
        0..=5 => Call::Make,
        6..=49 => Call::Create,
        50..=89 => Call::copy(first, count, *random.pick(&[READ_ONLY, RW, RW, RW])),
        90..=129 => return Act::List(random.below(LISTS as u64) as usize),
        130..=159 => Call::via_parent(first, 1 + count / 4, *random.pick(&[READ_ONLY, RW])),
        160..=174 => Call::delete(any, first, 1 + count / 8),
        175..=199 => Call::Commit { handle: 0 },
        200..=249 => Call::Advance { handle: 0 },
        250..=299 => Call::Restore { handle: any },
        300..=309 => Call::Open,
        310..=339 => {
            let what = Bytes::Rule(random.below(4) as u32);
            return Act::Write { first, count, what };
        }
        _ => {
            return Act::Write {
                first,
                count: 1 + count / 4,
                what: Bytes::All(random.below(256) as u8),
            };
        }
    })
}

/// The child's work. Allocates nothing; ends only by SIGKILL.
fn work(arena: &Arena, log: &Log, lists: &[Call], work: &Work) -> ! {
    let lent = arena.lent();
    let cells = (lent.memory_len / 64) as u32;
    let mut random = Rng::new(0);
    let mut lines = 1;
    let mut timer = None;
    let mut last = None;
    match work {
        Work::Session { seed } => {
            random = Rng::new(*seed);
            lines = LINES;
        }
        Work::One { act, .. } => {
            timer = sys::EndTimer::new();
            if let Some(one) = act.call(lists) {
                unsafe { call(lent, one, 0) };
            }
        }
    }
    for number in 0..lines {
        let act = match work {
            Work::Session { .. } => choose(&mut random, cells, live_handles(lent), last.as_ref()),
            Work::One { act, .. } => act.clone(),
        };
        let line = log.line(number);
        log.stand(number).load_from(arena);
        unsafe { (&raw mut (*line).act).write_volatile(act.clone()) };
        log.head().begun.store(number as u64 + 1, Ordering::SeqCst);
        if let (Some(timer), Work::One { nanoseconds, .. }) = (&timer, work) {
            timer.start(*nanoseconds);
        }
        let reply = match act {
            Act::Call(ref one) => unsafe { call(lent, one, FULL) },
            Act::List(place) => unsafe { call(lent, &lists[place], FULL) },
            Act::Write { first, count, what } => {
                let bytes = what.cell();
                for cell in first..first + count {
                    let to = unsafe { lent.memory.add(CELL * cell as usize) };
                    unsafe { core::ptr::copy_nonoverlapping(bytes.as_ptr(), to, CELL) };
                }
                Reply::default()
            }
        };
        last = Some(act);
        unsafe { (&raw mut (*line).reply).write_volatile(reply) };
        log.head()
            .returned
            .store(number as u64 + 1, Ordering::SeqCst);
        let (memory, to) = (lent.memory, log.memory_after(number));
        unsafe { core::ptr::copy_nonoverlapping(memory, to, lent.memory_len) };
        log.head().ended.store(number as u64 + 1, Ordering::SeqCst);
    }
    loop {
        unsafe { sys::pause() };
    }
}

/// The handles of the live domains, read from the table.
fn live_handles(lent: Lent) -> &'static [u32] {
    // The arena's pages stay as long as the child lives.
    handles_in(unsafe { core::slice::from_raw_parts(lent.table, lent.table_len) })
}

fn handles_in(table: &[u32]) -> &[u32] {
    &table[8..8 + (table[4] as usize).min(8)]
}

/// Feeds the notebook one act that ended.
fn feed(notebook: &mut Notebook, lists: &[Call], line: &Line, memory: &[u8]) -> Result<(), String> {
    if let Act::Write { first, count, .. } = line.act {
        notebook.write(64 * first as usize, 64 * count as usize);
    }
    match line.act.call(lists) {
        None => Ok(()),
        Some(Call::Open) if line.reply != Reply::default() => {
            Err(format!("an opening between calls gives {:?}", line.reply))
        }
        Some(call) => {
            let ended = if line.reply.code == 0 {
                Ended::Done
            } else {
                Ended::Refused
            };
            note(notebook, call, ended, line.reply.steps, memory)
        }
    }
}

/// Where the ends are to fall.
#[derive(Clone, Copy, PartialEq, Eq, Debug)]
pub enum Aim {
    /// Anywhere in a child's session.
    Anywhere,
    /// Near the stores of one call that makes many: most of a call's time goes into its questions, where an end changes nothing.
    AtStores,
}

/// An end after the call, or before its first store.
#[derive(Clone, Copy)]
enum Miss {
    Late,
    Early,
}

/// A store that one child after another works on, with the notebook of all they did.
struct Trial {
    arena: Arena,
    log: Log,
    lists: Vec<Call>,
    random: Rng,
    notebook: Notebook,
    /// Nanoseconds by which a timer's moment is moved.
    shift: f64,
    /// How the last end missed the stores.
    missed: Option<Miss>,
}

/// Ends `kills` children, one after another over the same store.
pub fn run(sizes: Sizes, aim: Aim, kills: u64, seed: u64, ends: &mut Ends) -> Result<(), String> {
    let mut buffers = Buffers::filled(sizes.lengths(), 0, 0);
    Linked.call(&mut buffers, &Call::Make, FULL);
    let mut random = Rng::new(seed);
    let mut trial = Trial {
        arena: Arena::new(sizes.lengths(), Side::After),
        log: Log::new(sizes.lengths()),
        lists: lists(&mut random, sizes.m),
        random,
        notebook: Notebook::new(None),
        shift: 0.0,
        missed: None,
    };
    trial.arena.load(&buffers);
    for number in 0..kills {
        let told =
            |wrong: String| format!("child {number} of seed {seed}, {sizes:?}, {aim:?}: {wrong}");
        match aim {
            Aim::Anywhere => trial.anywhere(ends),
            Aim::AtStores => trial.at_stores(ends),
        }
        .map_err(told)?;
    }
    Ok(())
}

impl Trial {
    fn anywhere(&mut self, ends: &mut Ends) -> Result<(), String> {
        let seed = self.random.below(1 << 48);
        let wait = Duration::from_micros(self.random.below(1_500));
        self.end_child(&Work::Session { seed }, wait, ends)
    }

    /// Looks for a call with many stores, measures it on copies up to its first store and to its end, and ends the child in between.
    fn at_stores(&mut self, ends: &mut Ends) -> Result<(), String> {
        let act = self.call_to_aim_at()?;
        let call = act.call(&self.lists).expect("a call");
        let measure = |budget: u64| {
            let mut times = [0.0; 3].map(|_| {
                let mut copy = self.arena.buffers();
                let start = Instant::now();
                Linked.call(&mut copy, call, budget);
                start.elapsed().as_secs_f64()
            });
            times.sort_by(f64::total_cmp);
            times[1]
        };
        let (first_store, end) = (measure(0), measure(FULL));
        let part = self.random.below(1_000) as f64 / 1_000.0;
        let moment = (first_store + part * (end - first_store)) * 1e9 + self.shift;
        let nanoseconds = moment.max(1.0) as u64;
        // A timer that did not go off is followed by an end from here.
        let wait = Duration::from_millis(20);
        self.end_child(&Work::One { act, nanoseconds }, wait, ends)?;
        // Too early or too late by what the timer itself takes: aim better.
        match self.missed {
            Some(Miss::Late) => self.shift -= 1_000.0,
            Some(Miss::Early) => self.shift += 1_000.0,
            None => {}
        }
        Ok(())
    }

    /// A call that makes many stores in the store as it stands; acts that do not are made here, to get on.
    fn call_to_aim_at(&mut self) -> Result<Act, String> {
        // Half of them a call that stores no bytes: the table words of the others take but a small part of their time.
        let words_only = self.random.below(2) == 0;
        let mut last = None;
        loop {
            let mut tried = self.arena.buffers();
            let cells = tried.sizes().m;
            let handles = handles_in(&tried.table);
            let act = choose(&mut self.random, cells, handles, last.as_ref());
            let mut reply = Reply::default();
            if let Act::Write { first, count, what } = act {
                let cells = first..first + count;
                cells.for_each(|cell| tried.write_cell(cell, &what.cell()));
            }
            if let Some(call) = act.call(&self.lists) {
                reply = Linked.call(&mut tried, call, FULL);
                let large = reply.code == 0 && reply.steps > 500;
                if large
                    && (no_bytes(call) || !words_only)
                    && (*call != Call::Make || self.random.below(4) == 0)
                {
                    return Ok(act);
                }
                if *call == Call::Make {
                    continue;
                }
            }
            let line = Line { act, reply };
            feed(&mut self.notebook, &self.lists, &line, &tried.memory)?;
            self.arena.load(&tried);
            last = Some(line.act);
        }
    }

    /// Starts a child, waits from its first act on, ends it, and checks what it left.
    fn end_child(&mut self, task: &Work, wait: Duration, ends: &mut Ends) -> Result<(), String> {
        let head = self.log.head();
        for count in [&head.begun, &head.returned, &head.ended] {
            count.store(0, Ordering::SeqCst);
        }
        let pid = unsafe { sys::fork() };
        if pid == 0 {
            work(&self.arena, &self.log, &self.lists, task);
        }
        if pid < 0 {
            return Err(format!(
                "no child process: {}",
                std::io::Error::last_os_error()
            ));
        }
        let start = Instant::now();
        while head.begun.load(Ordering::SeqCst) == 0 && start.elapsed() < Duration::from_secs(10) {
            std::thread::yield_now();
        }
        std::thread::sleep(wait);
        unsafe { sys::kill(pid, sys::SIGKILL) };
        let status = sys::wait(pid);
        if status != Status::Killed(sys::SIGKILL) {
            return Err(format!("the child stands at {status:?}"));
        }
        if head.begun.load(Ordering::SeqCst) == 0 {
            return Err("the child does not get to its first act".into());
        }
        ends.kills += 1;
        self.check_left(ends)
    }

    /// The next process opens what the last one left.
    fn check_left(&mut self, ends: &mut Ends) -> Result<(), String> {
        let [begun, returned, ended] = [
            &self.log.head().begun,
            &self.log.head().returned,
            &self.log.head().ended,
        ]
        .map(|count| count.load(Ordering::SeqCst) as usize);
        let left = self.arena.buffers();
        for number in 0..returned {
            let line = self.log.told(number);
            let after = unsafe {
                core::slice::from_raw_parts(self.log.memory_after(number), left.memory.len())
            };
            let memory = if number < ended {
                after
            } else {
                &left.memory[..]
            };
            feed(&mut self.notebook, &self.lists, &line, memory)
                .map_err(|wrong| format!("act {number}: {wrong}"))?;
            ends.calls += line.act.call(&self.lists).is_some() as u64;
        }
        let mut opened = left.clone();
        let reply = Linked.call(&mut opened, &Call::Open, FULL);
        let cut = (begun > returned).then(|| self.log.act(returned));
        self.missed = cut.is_none().then_some(Miss::Late);
        match (cut.as_ref().and_then(|act| act.call(&self.lists)), &cut) {
            (Some(call), _) => {
                ends.inside += 1;
                let before = self.log.stand(returned).buffers();
                if left == before {
                    self.missed = Some(Miss::Early);
                } else {
                    ends.between += 1;
                }
                let cut = Cut {
                    call,
                    before,
                    left,
                    reply,
                };
                cut.check(&mut opened, &mut self.notebook, ends)
                    .map_err(|wrong| format!("inside {call}: {wrong}"))?;
            }
            _ if reply != Reply::default() => {
                return Err(format!("outside of calls, opening gives {reply:?}"));
            }
            (_, Some(Act::Write { first, count, .. })) => self
                .notebook
                .write(64 * *first as usize, 64 * *count as usize),
            _ => {}
        }
        ends.restores += check_restores(&opened, &state::state(&opened)?, &self.notebook)?;
        self.arena.load(&opened);
        Ok(())
    }
}

/// Calls that store table words alone.
fn no_bytes(call: &Call) -> bool {
    matches!(call, Call::Make | Call::Commit { .. } | Call::Delete { .. }) || copies_none(call)
}

/// An add of which no record is a copy.
fn copies_none(call: &Call) -> bool {
    call.records()
        .is_some_and(|(_, records)| records.iter().all(|record| record.kind != COPY))
}

/// An end that fell inside a call: the buffers before the call and as the end left them, and what opening told.
struct Cut<'a> {
    call: &'a Call,
    before: Buffers,
    left: Buffers,
    reply: Reply,
}

impl Cut<'_> {
    /// The call is found wholly made or not made.
    fn check(
        &self,
        opened: &mut Buffers,
        notebook: &mut Notebook,
        ends: &mut Ends,
    ) -> Result<(), String> {
        let (call, reply) = (self.call, self.reply);
        if *call == Call::Make && reply.code == 2 {
            if *opened != self.left {
                return Err("a refused opening stored something".into());
            }
            ends.no_store += 1;
            Linked.call(opened, &Call::Make, FULL);
            return note(notebook, call, Ended::Done, 0, &opened.memory);
        }
        if reply.code != 0 {
            return Err(format!("opening gives {reply:?}"));
        }
        let mut after = self.before.clone();
        let whole = Linked.call(&mut after, call, FULL);
        let old = state::state(&self.before)?;
        let (new, found) = (state::state(&after)?, state::state(opened)?);
        if found != old && found != new {
            return Err("opening finds neither what stood before nor the call made".into());
        }
        let made = found != old;
        if reply.steps > 0 && !made && old != new {
            return Err("opening took steps and the call is not made".into());
        }
        let put_back = match call {
            Call::Restore { handle } if whole.code == 0 => state::put_back(&old, *handle),
            _ => Default::default(),
        };
        for (byte, &value) in opened.memory.iter().enumerate() {
            let (old, new) = (self.before.memory[byte], after.memory[byte]);
            let right = match put_back.contains_key(&(byte as u32 / 64)) {
                false => value == old,
                true => value == new || !made && value == old,
            };
            if !right {
                return Err(format!(
                    "memory byte {byte} is {value}, before {old}, after {new}"
                ));
            }
        }
        ends.mixed += (opened.memory != self.before.memory && opened.memory != after.memory) as u64;
        ends.made += made as u64;
        ends.not_made += !made as u64;
        ends.carried_out += (reply.steps > 0) as u64;
        if whole.code != 0 || *call == Call::Open {
            return Ok(());
        }
        if made && reply.steps == 0 {
            // Ended between the last store and the return: done.
            return note(notebook, call, Ended::Done, 0, &opened.memory);
        }
        // A make that was found not made has stored nothing.
        let steps = if *call == Call::Make { 0 } else { 1 };
        note(notebook, call, Ended::Stopped, steps, &self.left.memory)?;
        let (steps, memory) = (reply.steps, &opened.memory);
        note(notebook, &Call::Open, Ended::Done, steps, memory)
    }
}
