//! The random choice of inputs.
//!
//! Calls with random numbers are nearly all refused, and a store that is seldom more than empty
//! shows little. So the choice looks at the state that the model is in: it nests domains, adds near
//! what is held, makes memory equal before an add via parent and like the rule before an add by a
//! rule, puts lists of ranges together that meet each other and the room there is, settles which of
//! its cells an advance finds changed and which of them the domain around it lacks, and cuts where steps
//! are.

mod advances;
mod lists;

use crate::check::Line;
use crate::session::{Input, Made};
use crate::tables;
use domain_model::calls::{COPY, PATTERN, VIA_PARENT};
use domain_model::rules::{self, RULES};
use domain_model::{Call, FULL, Kept, Lengths, Model, Rng, Sizes, State, Verdict, state::cell_of};
use std::collections::VecDeque;

/// Bits of an entry's first word.
const READ_WRITE_BIT: u32 = 1 << 27;
const VIA_PARENT_BIT: u32 = 1 << 26;
const BY_RULE_BIT: u32 = 1 << 25;

/// How often inner domains are restored before outer ones where there are such, out of a thousand.
const INNER_FIRST: u64 = 20;

/// What a session is like. Numbers are out of a thousand.
#[derive(Clone, Debug)]
pub struct Habits {
    pub sizes: Sizes,
    pub inputs: usize,
    cut: u64,
    every_cut: u64,
    damage: u64,
    wild: u64,
    /// Bytes that fills choose from: few of them make equal memory likely.
    letters: u64,
    /// Most cells that an add names.
    most: u64,
    /// Chance of a create: some sessions nest, others stay flat and long.
    nest: u64,
}

impl Habits {
    pub fn choose(rng: &mut Rng) -> Habits {
        let class = rng.below(1000);
        let pair = |rng: &mut Rng, low: u64, high: u64| {
            (rng.between(low, high) as u32, rng.between(low, high) as u32)
        };
        let (sizes, inputs, most, every_cut) = if class < 250 {
            let (e, b) = pair(rng, 1, 5);
            (
                Sizes {
                    m: rng.between(1, 4) as u32,
                    e,
                    b,
                },
                rng.between(10, 70),
                3,
                *rng.pick(&[0, 60, 250]),
            )
        } else if class < 850 {
            let (e, b) = pair(rng, 3, 30);
            (
                Sizes {
                    m: rng.between(2, 12) as u32,
                    e,
                    b,
                },
                rng.between(20, 120),
                5,
                *rng.pick(&[0, 30, 120]),
            )
        } else if class < 994 {
            let (e, b) = pair(rng, 20, 150);
            (
                Sizes {
                    m: rng.between(10, 300) as u32,
                    e,
                    b,
                },
                rng.between(30, 120),
                24,
                *rng.pick(&[0, 20]),
            )
        } else {
            let (e, b) = pair(rng, 300, 4096);
            let sizes = Sizes {
                m: rng.between(1000, 65_536) as u32,
                e,
                b,
            };
            (
                if rng.chance(300) {
                    Sizes::LARGEST
                } else {
                    sizes
                },
                rng.between(8, 25),
                1500,
                20,
            )
        };
        Habits {
            sizes,
            inputs: inputs as usize,
            cut: *rng.pick(&[0, 60, 150, 400]),
            every_cut,
            damage: *rng.pick(&[0, 60, 60, 300]),
            wild: *rng.pick(&[10, 40, 200]),
            letters: *rng.pick(&[2, 3, 250]),
            most,
            nest: *rng.pick(&[60, 110, 200]),
        }
    }
}

/// An intention: what to do next, without budget.
enum Want {
    Write(usize, Vec<u8>),
    Call(Call),
    /// An advance with the writes before it, which are settled when its turn comes.
    Advance,
    /// A list of ranges, which is settled when its turn comes.
    List,
}

/// A way to choose what comes next.
type Act = fn(&mut Generator, &State, &Line);

/// Chooses inputs one after the other.
pub struct Generator {
    pub habits: Habits,
    rng: Rng,
    wants: VecDeque<Want>,
}

impl Generator {
    pub fn new(seed: u64) -> Generator {
        let mut rng = Rng::new(seed);
        let habits = Habits::choose(&mut rng);
        Generator {
            habits,
            rng,
            wants: VecDeque::new(),
        }
    }

    /// Seed of the first contents.
    pub fn fill(&mut self) -> u64 {
        self.rng.draw()
    }

    /// The next input, for a line that stands there.
    pub fn next(&mut self, line: &Line, model: Model) -> Input {
        if self.wants.is_empty() {
            let h = &self.habits;
            let (damage, wild) = (h.damage, h.wild);
            match line.state() {
                // No store: mostly make, at times something that has to be refused.
                None => {
                    if self.rng.chance(250) {
                        let call = self.wild_call();
                        self.wants.push_back(Want::Call(call));
                    } else {
                        self.wants.push_back(Want::Call(Call::Make));
                    }
                }
                Some(_) if self.rng.chance(damage) => return self.damaged(line),
                Some(_) if self.rng.chance(damage / 4) => return self.lengths(),
                Some(state) if state.domains.len() > 1 && self.rng.chance(INNER_FIRST) => {
                    return self.inner_first();
                }
                Some(_) if self.rng.chance(wild) => {
                    let call = self.wild_call();
                    self.wants.push_back(Want::Call(call));
                }
                Some(state) => {
                    let state = state.clone();
                    self.plausible(&state, line);
                }
            }
        }
        match self.wants.pop_front().expect("something to do") {
            Want::Write(at, bytes) => Input::Write { at, bytes },
            Want::Call(call) => self.with_budget(call, line, model),
            Want::Advance => self.settled(Generator::advance, line, model),
            Want::List => self.settled(Generator::add_list, line, model),
        }
    }

    /// The next input, where the choice of what comes next looks at the state as it stands by now.
    fn settled(&mut self, act: Act, line: &Line, model: Model) -> Input {
        let later = std::mem::take(&mut self.wants);
        match line.state().filter(|state| !state.domains.is_empty()) {
            Some(state) => act(self, &state.clone(), line),
            None => self.call(Call::Open),
        }
        self.wants.extend(later);
        self.next(line, model)
    }

    /// Chooses a budget for the call: mostly none, else one at which it is cut.
    fn with_budget(&mut self, call: Call, line: &Line, model: Model) -> Input {
        let verdict = model.verdict(
            line.buffers.lengths(),
            &line.reading,
            &line.buffers.memory,
            &call,
        );
        let Verdict::Work(work) = verdict else {
            let budget = if self.rng.chance(300) {
                self.rng.below(20)
            } else {
                FULL
            };
            return Input::Call(Made::with_budget(call, budget));
        };
        let mut made = Made::with_budget(call, FULL);
        made.every_cut = self
            .rng
            .chance(self.habits.every_cut)
            .then(|| self.rng.draw());
        if work.need > 0 && self.rng.chance(self.habits.cut) {
            let bytes = work.byte_steps().min(work.need);
            // Most steps are bytes, and most of what can go wrong lies behind them.
            made.budget = if self.rng.chance(500) || bytes == work.need {
                self.rng.below(work.need)
            } else {
                self.rng.between(bytes, work.need - 1)
            };
            made.openings = (0..self.rng.below(4))
                .map(|_| self.rng.below(work.words + 2))
                .collect();
        } else if self.rng.chance(100) {
            made.budget = work.need + self.rng.below(2);
        }
        Input::Call(made)
    }

    fn letter(&mut self) -> u8 {
        self.rng.below(self.habits.letters) as u8
    }

    /// A rule's number: mostly one that there is.
    fn rule(&mut self) -> u32 {
        match self.rng.chance(930) {
            true => self.rng.below(4) as u32,
            false => *self.rng.pick(&[4, 5, 7, 1 << 31, u32::MAX]),
        }
    }

    /// A kind with a number that it may take for a rule: two kinds ignore it.
    fn kind_and_rule(&mut self) -> (u32, u32) {
        let kind = *self.rng.pick(&[COPY, VIA_PARENT, PATTERN]);
        let ignored = kind != PATTERN && self.rng.chance(700);
        (kind, if ignored { 0 } else { self.rule() })
    }

    /// The program writes a rule's bytes into these cells, at times with one byte off: at either end
    /// of a cell, mostly of the last one.
    fn write_pattern(&mut self, first: u32, count: u32, rule: u32) {
        let Some(pattern) = rules::pattern(rule) else {
            return;
        };
        let mut bytes = pattern.repeat(count as usize);
        if self.rng.chance(70) {
            let cell = match self.rng.chance(600) {
                true => count - 1,
                false => self.rng.below(count.into()) as u32,
            };
            let place = match self.rng.below(3) {
                0 => 0,
                1 => 63,
                _ => self.rng.below(64) as usize,
            };
            bytes[64 * cell as usize + place] ^= 1 << self.rng.below(8);
        }
        self.wants
            .push_back(Want::Write(64 * first as usize, bytes));
    }

    fn write_cell(&mut self, cell: u32, bytes: Vec<u8>) {
        self.wants.push_back(Want::Write(64 * cell as usize, bytes));
    }

    fn call(&mut self, call: Call) {
        self.wants.push_back(Want::Call(call));
    }

    /// A cell to work with: mostly one that is held, or beside one.
    fn cell(&mut self, state: &State) -> u32 {
        let m = self.habits.sizes.m;
        if !state.domains.is_empty() && self.rng.chance(700) {
            let domain = self.rng.pick(&state.domains);
            if !domain.cells.is_empty() {
                let at = self.rng.below(domain.cells.len() as u64) as usize;
                let cell = *domain.cells.keys().nth(at).expect("counted");
                return match self.rng.below(6) {
                    0 => cell.saturating_sub(1),
                    1 => (cell + 1).min(m - 1),
                    _ => cell,
                };
            }
        }
        self.rng.below(m as u64) as u32
    }

    fn handle(&mut self, state: &State, at: usize) -> u32 {
        // The innermost one goes by two names.
        if at + 1 == state.domains.len() && self.rng.chance(500) {
            0
        } else {
            state.domains[at].handle
        }
    }

    fn plausible(&mut self, state: &State, line: &Line) {
        let live = state.domains.len();
        if live == 0 {
            match self.rng.below(10) {
                0 => self.write(state, line),
                1 => self.call(Call::List),
                2 if self.rng.chance(100) => self.call(Call::Make),
                _ => self.call(Call::Create),
            }
            return;
        }
        let nest = self.habits.nest;
        let weights: [(u64, Act); 17] = [
            (200, Generator::write),
            (nest, Generator::creates),
            (160, Generator::add_copy),
            (130, Generator::add_via),
            (110, Generator::add_pattern),
            (160, Generator::add_list),
            (45, Generator::lists_inside),
            (45, Generator::add_again),
            (55, Generator::delete),
            (70, Generator::commit),
            (110, Generator::advance),
            (85, Generator::restore),
            (60, Generator::look),
            (25, Generator::small_things),
            (30, Generator::nest),
            (45, Generator::work_inside),
            (55, Generator::tile_inside),
        ];
        let mut left = self.rng.below(weights.iter().map(|w| w.0).sum());
        for (weight, act) in weights {
            if left < weight {
                act(self, state, line);
                return;
            }
            left -= weight;
        }
    }

    fn write(&mut self, state: &State, line: &Line) {
        let cell = self.cell(state);
        match self.rng.below(10) {
            // A part of memory that does not keep to cells.
            0 | 1 => {
                let all = line.buffers.memory.len() as u64;
                let at = (64 * cell as u64 + self.rng.below(64)).min(all - 1);
                let len = self.rng.between(1, 150.min(all - at)) as usize;
                let letter = self.letter();
                let bytes = (0..len).map(|i| letter.wrapping_add(i as u8)).collect();
                self.wants.push_back(Want::Write(at as usize, bytes));
            }
            // One byte.
            2 => {
                let at = 64 * cell as usize + self.rng.below(64) as usize;
                let letter = self.letter();
                self.wants.push_back(Want::Write(at, vec![letter]));
            }
            // The same bytes again: a write of equal bytes is a write.
            3 => self.write_cell(cell, cell_of(&line.buffers.memory, cell).to_vec()),
            4 => {
                let rule = self.rng.below(4) as u32;
                self.write_pattern(cell, 1, rule);
            }
            _ => {
                for _ in 0..self.rng.between(1, 3) {
                    let (cell, letter) = (self.cell(state), self.letter());
                    self.write_cell(cell, vec![letter; 64]);
                }
            }
        }
    }

    fn creates(&mut self, _: &State, _: &Line) {
        let many = if self.rng.chance(120) {
            self.rng.between(2, 9)
        } else {
            1
        };
        for _ in 0..many {
            self.call(Call::Create);
        }
    }

    fn count(&mut self, from: u32) -> u32 {
        let room = self.habits.sizes.m - from;
        let most = if self.rng.chance(40) {
            self.habits.sizes.e as u64 + 1
        } else {
            self.habits.most
        };
        (self.rng.between(1, most) as u32).min(room).max(1)
    }

    fn add_copy(&mut self, state: &State, _: &Line) {
        let first = self.cell(state);
        let count = self.count(first);
        let label = self.rng.chance(650) as u32;
        let handle = self.handle(state, state.domains.len() - 1);
        self.call(Call::copy(first, count, label).on(handle));
    }

    /// Add by a rule, mostly after memory was made like it.
    fn add_pattern(&mut self, state: &State, line: &Line) {
        let inner = state.domains.last().expect("live");
        let first = self.cell(state);
        let (count, rule) = (self.count(first), self.rule());
        let differs = |c: u32| rules::pattern(rule) != Some(cell_of(&line.buffers.memory, c));
        let mut new = (first..first + count).filter(|c| !inner.holds(*c));
        if new.any(differs) && self.rng.chance(920) {
            self.write_pattern(first, count, rule);
        }
        let label = self.rng.chance(600) as u32;
        let handle = self.handle(state, state.domains.len() - 1);
        self.call(Call::pattern(first, count, rule, label).on(handle));
        match self.rng.below(10) {
            // What was held by the rule comes back by it, also through look.
            0 | 1 => {
                self.write(state, line);
                self.call(Call::Look {
                    handle: 0,
                    cell: first,
                });
                self.call(Call::Restore { handle: 0 });
            }
            // Via parent must not rest on it.
            2 => {
                self.call(Call::Create);
                self.call(Call::via_parent(first, count, label));
            }
            _ => {}
        }
    }

    /// Add via parent: cells that the next domain out holds, after memory was made equal.
    fn add_via(&mut self, state: &State, line: &Line) {
        let inner = state.domains.len() - 1;
        let Some(outer) = inner.checked_sub(1) else {
            // Refused by 11: there is no domain further out.
            let first = self.cell(state);
            return self.call(Call::via_parent(first, 1, 1));
        };
        // Cells that are held by a rule out there are refused by 19, and few of those are enough.
        let any = self.rng.chance(200);
        let serves = |c: u32| {
            let outer = &state.domains[outer];
            outer.holds(c) && (any || outer.rule(c).is_none())
        };
        let open: Vec<u32> = state.domains[outer]
            .cells
            .keys()
            .copied()
            .filter(|c| serves(*c) && !state.domains[inner].holds(*c))
            .collect();
        if open.is_empty() {
            return self.add_copy(state, line);
        }
        let first = *self.rng.pick(&open);
        let mut count = 1;
        while count < self.habits.most as u32 && self.rng.chance(600) {
            let next = first + count;
            // At times the run goes on over a cell that nobody holds.
            if next >= self.habits.sizes.m || !(serves(next) || self.rng.chance(40)) {
                break;
            }
            count += 1;
        }
        for c in first..first + count {
            if let Some(value) = state.value(outer, c)
                && value != cell_of(&line.buffers.memory, c)
                && self.rng.chance(900)
            {
                self.write_cell(c, value.to_vec());
            }
        }
        let label = self.rng.chance(600) as u32;
        let handle = self.handle(state, inner);
        self.call(Call::via_parent(first, count, label).on(handle));
        // Deeper chains: the same cells once more, one domain further in.
        while self.rng.chance(400) {
            let label = self.rng.below(2) as u32;
            self.call(Call::Create);
            self.call(Call::via_parent(first, count, label));
        }
    }

    /// Add over what is held already, by any kind.
    fn add_again(&mut self, state: &State, line: &Line) {
        let inner = state.domains.last().expect("live");
        if inner.cells.is_empty() {
            return self.add_copy(state, line);
        }
        let cells: Vec<u32> = inner.cells.keys().copied().collect();
        let first = *self.rng.pick(&cells);
        let count = if self.rng.chance(700) {
            1
        } else {
            self.count(first)
        };
        let (kind, rule) = self.kind_and_rule();
        let label = self.rng.below(2) as u32;
        self.call(Call::add(first, count, kind, label).with_rule(rule));
    }

    fn delete(&mut self, state: &State, line: &Line) {
        let mut at = self.rng.below(state.domains.len() as u64) as usize;
        let mut cells: Vec<u32> = state.domains[at].cells.keys().copied().collect();
        if self.rng.chance(200) {
            // What rests on the next domain out must stay there: question 14.
            let rests = |at: &usize| {
                state.domains[*at]
                    .cells
                    .values()
                    .any(|h| h.kept == Kept::ViaParent)
            };
            if let Some(inner) = (1..state.domains.len()).find(rests) {
                at = inner - 1;
                cells = state.domains[inner]
                    .cells
                    .iter()
                    .filter(|(_, h)| h.kept == Kept::ViaParent)
                    .map(|(c, _)| *c)
                    .collect();
            }
        }
        if cells.is_empty() {
            return self.write(state, line);
        }
        let first = *self.rng.pick(&cells);
        let mut count = 1;
        while self.rng.chance(500)
            && (state.domains[at].holds(first + count) || self.rng.chance(100))
            && first + count < self.habits.sizes.m
        {
            count += 1;
        }
        let handle = self.handle(state, at);
        self.call(Call::delete(handle, first, count));
    }

    fn commit(&mut self, state: &State, _: &Line) {
        let at = if self.rng.chance(930) {
            state.domains.len() - 1
        } else {
            0
        };
        let handle = self.handle(state, at);
        self.call(Call::Commit { handle });
        if self.rng.chance(300) {
            self.call(Call::Advance { handle: 0 });
        }
    }

    fn restore(&mut self, state: &State, line: &Line) {
        if self.rng.chance(600) {
            self.write(state, line);
        }
        let at = self.rng.below(state.domains.len() as u64) as usize;
        // Outer domains end many inner ones, so most restores keep near the innermost.
        let at = if self.rng.chance(500) {
            at.max(state.domains.len().saturating_sub(2))
        } else {
            at
        };
        let handle = self.handle(state, at);
        self.call(Call::Restore { handle });
    }

    fn look(&mut self, state: &State, _: &Line) {
        let at = self.rng.below(state.domains.len() as u64) as usize;
        let handle = self.handle(state, at);
        let cell = self.cell(state);
        self.call(Call::Look { handle, cell });
    }

    fn small_things(&mut self, _: &State, _: &Line) {
        let call = match self.rng.below(20) {
            0 => Call::Make,
            1..=8 => Call::Open,
            _ => Call::List,
        };
        self.call(call);
    }

    /// A nest like the caller's own: cycle, tile, channel, each holding what the one around it
    /// holds, with work in between.
    fn nest(&mut self, state: &State, _: &Line) {
        let first = self.cell(state);
        let count = self.count(first).min(3);
        for _ in 0..self.rng.between(1, 3) {
            let (kind, label) = (self.rng.chance(400) as u32, self.rng.chance(750) as u32);
            self.call(Call::Create);
            if self.rng.chance(150) {
                let rule = self.rng.below(4) as u32;
                self.write_pattern(first, count, rule);
                self.call(Call::pattern(first, count, rule, label));
            } else {
                self.call(Call::add(first, count, kind, label));
            }
            if self.rng.chance(600) {
                let (cell, letter) = (first + self.rng.below(count as u64) as u32, self.letter());
                self.write_cell(cell, vec![letter; 64]);
            }
            if self.rng.chance(400) {
                self.call(Call::Advance { handle: 0 });
            }
        }
        if self.rng.chance(500) {
            self.call(Call::Commit { handle: 0 });
        }
    }

    fn wild_number(&mut self) -> u32 {
        let m = self.habits.sizes.m;
        match self.rng.below(8) {
            0 => 0,
            1 => 1,
            2 => m - 1,
            3 => m,
            4 => m + 1,
            5 => u32::MAX - self.rng.below(3) as u32,
            6 => self.rng.below(12) as u32,
            _ => self.rng.draw() as u32,
        }
    }

    /// Any call with any numbers.
    fn wild_call(&mut self) -> Call {
        let handle = if self.rng.chance(500) {
            0
        } else {
            self.wild_number()
        };
        match self.rng.below(40) {
            0 => Call::Make,
            1 => Call::Open,
            2 => Call::Create,
            3 => Call::List,
            4..=8 => Call::Commit {
                handle: self.rng.between(1, 12) as u32,
            },
            9..=12 => Call::Advance {
                handle: self.rng.between(1, 12) as u32,
            },
            13..=15 => Call::Restore {
                handle: self.rng.between(1, 12) as u32,
            },
            16..=21 => Call::Look {
                handle,
                cell: self.wild_number(),
            },
            22..=28 => Call::delete(handle, self.wild_number(), self.wild_number()),
            29..=32 => self.wild_list().on(handle),
            _ => {
                // Kinds below 3 and labels below 2, and others.
                let odd = |rng: &mut Rng, below: u32| match rng.chance(150) {
                    true => *rng.pick(&[below, 7, u32::MAX]),
                    false => rng.below(below.into()) as u32,
                };
                Call::add(
                    self.wild_number(),
                    self.wild_number(),
                    odd(&mut self.rng, 3),
                    odd(&mut self.rng, 2),
                )
                .with_rule(odd(&mut self.rng, 4))
                .on(handle)
            }
        }
    }

    /// A call that is likely to do something in this state.
    fn probe(&mut self, state: &State) -> Call {
        let any = |rng: &mut Rng, s: &State| {
            if s.domains.is_empty() {
                0
            } else {
                rng.pick(&s.domains).handle
            }
        };
        match self.rng.below(13) {
            0 | 1 => Call::Open,
            2 => Call::Create,
            3 => Call::List,
            4 => Call::Commit { handle: 0 },
            5 => Call::Advance { handle: 0 },
            6 | 7 => Call::Restore {
                handle: any(&mut self.rng, state),
            },
            8 => Call::Look {
                handle: any(&mut self.rng, state),
                cell: self.cell(state),
            },
            9 => Call::delete(any(&mut self.rng, state), self.cell(state), 1),
            10 => self.wild_call(),
            11 => self.wild_list(),
            _ => {
                let (kind, rule) = self.kind_and_rule();
                let label = self.rng.below(2) as u32;
                Call::add(self.cell(state), 1, kind, label).with_rule(rule)
            }
        }
    }

    /// A damaged table: random flips, one field wrong, or pairs pending with good or bad names.
    fn damaged(&mut self, line: &Line) -> Input {
        let table = &line.buffers.table;
        let state = line.state().expect("a store").clone();
        let entries_end = self.habits.sizes.pairs_at();
        let mut edits: Vec<(usize, u32)> = Vec::new();
        match self.rng.below(11) {
            0 | 1 => {
                for _ in 0..self.rng.between(1, 3) {
                    let within = if self.rng.chance(500) {
                        16
                    } else {
                        table.len()
                    };
                    let word = self.rng.below(within as u64) as usize;
                    edits.push((word, table[word] ^ 1 << self.rng.below(32)));
                }
            }
            2 => {
                // A header word a little off.
                let word = self.rng.below(16) as usize;
                let value = match self.rng.below(6) {
                    0 => table[word].wrapping_add(1),
                    1 => table[word].wrapping_sub(1),
                    2 => 0,
                    3 => u32::MAX,
                    4 => u32::MAX - 1,
                    _ => self.rng.below(12) as u32,
                };
                edits.push((word, value));
            }
            3 => {
                // Next handle near its end, or too low; handles out of order.
                match self.rng.below(4) {
                    0 => {
                        edits.push((5, u32::MAX - self.rng.below(3) as u32));
                        let then = [
                            Call::Create,
                            Call::Create,
                            Call::Commit { handle: 0 },
                            Call::Create,
                        ]
                        .map(|c| (c, FULL));
                        return Input::Damaged {
                            edits,
                            seed: self.rng.draw(),
                            then: then.to_vec(),
                        };
                    }
                    1 => edits.push((
                        5,
                        state
                            .domains
                            .last()
                            .map_or(1, |d| d.handle + self.rng.below(2) as u32),
                    )),
                    2 => edits.extend([(8, table[9]), (9, table[8])]),
                    _ => {
                        let at = 8 + self.rng.below(8) as usize;
                        edits.push((at, table[8 + self.rng.below(8) as usize]));
                    }
                }
            }
            4..=6 => self.damaged_entry(table, &mut edits),
            7 => self.damaged_kind(table, &mut edits),
            _ => self.pending(table, entries_end, &mut edits),
        }
        let mut then = Vec::new();
        for _ in 0..self.rng.between(1, 4) {
            let call = if self.rng.chance(400) {
                Call::Open
            } else {
                self.probe(&state)
            };
            let budget = if self.rng.chance(300) {
                self.rng.below(40)
            } else {
                FULL
            };
            then.push((call, budget));
        }
        let seed = self.rng.draw();
        Input::Damaged { edits, seed, then }
    }

    /// Inner domains restored before outer ones: mostly with other bytes in memory than domains hold.
    fn inner_first(&mut self) -> Input {
        Input::InnerFirst {
            fill: self.rng.chance(600).then(|| self.letter()),
            seed: self.rng.draw(),
        }
    }

    /// The place of an entry: mostly one in use that passes the question.
    fn entry_at(&mut self, table: &[u32], is_it: impl Fn(u32) -> bool) -> usize {
        let used: Vec<usize> = (16..self.habits.sizes.pairs_at())
            .step_by(2)
            .filter(|at| table[*at] != 0 && is_it(table[*at]))
            .collect();
        if used.is_empty() || self.rng.chance(200) {
            return 16 + 2 * self.rng.below(self.habits.sizes.e.into()) as usize;
        }
        *self.rng.pick(&used)
    }

    /// One field of an entry, or an entry written by hand; others stay right.
    fn damaged_entry(&mut self, table: &[u32], edits: &mut Vec<(usize, u32)>) {
        let Sizes { m, b, .. } = self.habits.sizes;
        let place = self.entry_at(table, |_| true);
        let other = self.entry_at(table, |_| true);
        let (first, second) = (table[place], table[place + 1]);
        match self.rng.below(12) {
            0 => edits.push((
                place,
                first & 0x0FFF_FFFF | (self.rng.below(16) as u32) << 28,
            )),
            1 => edits.push((place, first ^ READ_WRITE_BIT)),
            2 => edits.push((place, first ^ VIA_PARENT_BIT)),
            3 => edits.extend([(place, first | VIA_PARENT_BIT), (place + 1, 0)]),
            4 => edits.push((
                place,
                first & 0xFFFF_0000 | self.rng.below(m as u64 + 2) as u32 & 0xFFFF,
            )),
            // Bit 24 is the highest that has to be zero.
            5 => edits.push((place, first ^ 1 << self.rng.between(16, 24))),
            6 => edits.push((place + 1, self.rng.below(b as u64 + 2) as u32)),
            7 => edits.push((place + 1, table[other + 1])),
            8 => edits.push((place, table[other])),
            9 => edits.push((place + 1, second.wrapping_add(1))),
            10 => edits.extend([
                (place, 0),
                (place + 1, if self.rng.chance(500) { 0 } else { second }),
            ]),
            _ => {
                let kind = *self.rng.pick(&[0, VIA_PARENT_BIT, BY_RULE_BIT]);
                let word = (self.rng.between(1, 8) as u32) << 28
                    | (self.rng.below(2) as u32) << 27
                    | kind
                    | self.rng.below(m as u64) as u32;
                let second = match kind {
                    VIA_PARENT_BIT => 0,
                    BY_RULE_BIT => self.rng.below(5) as u32,
                    _ => self.rng.below(b as u64) as u32,
                };
                edits.extend([(place, word), (place + 1, second)]);
            }
        }
    }

    /// An entry of another kind: a rule where there is none, both bits, a rule's number that there
    /// is not, or a rule under a via parent entry.
    fn damaged_kind(&mut self, table: &[u32], edits: &mut Vec<(usize, u32)>) {
        let any = self.entry_at(table, |_| true);
        let via = self.entry_at(table, |first| first & VIA_PARENT_BIT != 0);
        let ruled = self.entry_at(table, |first| first & BY_RULE_BIT != 0);
        match self.rng.below(8) {
            0 => edits.push((any, table[any] ^ BY_RULE_BIT)),
            1 => edits.push((any, table[any] ^ (BY_RULE_BIT | VIA_PARENT_BIT))),
            // All that a via parent entry has to be, but for the bit.
            2 => edits.push((via, table[via] | BY_RULE_BIT)),
            3 => edits.extend([(any, table[any] | BY_RULE_BIT), (any + 1, self.rule())]),
            4 => edits.push((ruled + 1, *self.rng.pick(&[3, 4, 5, u32::MAX]))),
            5 => edits.push((ruled, table[ruled] ^ 1 << self.rng.between(24, 27))),
            _ => {
                // Where a via parent entry rests, the next domain out gets a rule.
                let same = !(READ_WRITE_BIT | VIA_PARENT_BIT | BY_RULE_BIT);
                let wanted = (table[via] & same).wrapping_sub(1 << 28);
                let out = self.entry_at(table, |first| first & same == wanted);
                let word = table[out] & !VIA_PARENT_BIT | BY_RULE_BIT;
                let rule = self.rng.below(RULES.count() as u64) as u32;
                edits.extend([(out, word), (out + 1, rule)]);
            }
        }
    }

    /// Pairs pending: some words of a right table move into pairs, and what stands raw is garbled;
    /// at times one thing about them is wrong.
    fn pending(&mut self, table: &[u32], entries_end: usize, edits: &mut Vec<(usize, u32)>) {
        let allowed = tables::nameable(self.habits.sizes);
        let named = tables::some_of(&allowed, &mut self.rng);
        // A pair of an entry moves a cell elsewhere: pairs that mean another state than the one
        // that stands.
        let shift = self.rng.chance(300);
        let mut pairs: Vec<(u32, u32)> = named.iter().map(|w| (*w as u32, table[*w])).collect();
        if shift {
            let at = self.rng.below(pairs.len() as u64) as usize;
            pairs[at].1 = match self.rng.below(3) {
                0 => pairs[at].1 ^ 1 << self.rng.below(32),
                1 => 0,
                _ => pairs[at].1.wrapping_add(1),
            };
        }
        match self.rng.below(4) {
            0 => edits.extend(named.iter().map(|w| (*w, self.rng.draw() as u32))),
            1 => edits.extend(named.iter().map(|w| (*w, 0))),
            _ => {}
        }
        let mut count = pairs.len() as u32;
        if self.rng.chance(450) {
            let at = self.rng.below(pairs.len() as u64) as usize;
            match self.rng.below(6) {
                0 => pairs[at].0 = *self.rng.pick(&[0, 1, 3, 6, 7]),
                1 => pairs[at].0 = entries_end as u32 + self.rng.below(2) as u32,
                2 => pairs[at].0 = u32::MAX - self.rng.below(3) as u32,
                3 => {
                    let other = self.rng.below(pairs.len() as u64) as usize;
                    pairs.swap(at, other);
                }
                4 => {
                    count = *self.rng.pick(&[
                        count + 1,
                        allowed.len() as u32,
                        allowed.len() as u32 + 1,
                        u32::MAX,
                        1 << 31,
                    ])
                }
                _ => {
                    let name = pairs[at].0;
                    let other = self.rng.below(pairs.len() as u64) as usize;
                    pairs[other].0 = name;
                }
            }
        }
        for (i, (word, value)) in pairs.iter().enumerate() {
            edits.push((entries_end + 2 * i, *word));
            edits.push((entries_end + 2 * i + 1, *value));
        }
        edits.push((6, count));
    }

    /// Buffers of other lengths: nearly right ones, and those that other sizes would have.
    fn lengths(&mut self) -> Input {
        let right = self.habits.sizes.lengths();
        let mut lengths = right;
        let place = self.rng.below(3);
        let choice = self.rng.below(8);
        let change = |rng: &mut Rng, len: usize, unit: usize, most: usize| match choice {
            0 => 0,
            1 => len + 1,
            2 => len - 1,
            3 => len + unit,
            4 => len.saturating_sub(unit),
            5 => most,
            6 => most + unit,
            _ => rng.below(len as u64 + 100) as usize,
        };
        match place {
            0 => lengths.memory = change(&mut self.rng, right.memory, 64, 64 * 300),
            1 => lengths.bodies = change(&mut self.rng, right.bodies, 64, 64 * 4096),
            _ => {
                lengths.table = match choice {
                    7 => *self.rng.pick(&[35, 36, 37, 41, 42, 24_612, 24_613]),
                    6 => 36 + 6 * 4097,
                    5 => 36 + 6 * 4096,
                    _ => change(&mut self.rng, right.table, 6, 0),
                }
            }
        }
        // The largest memory is 4 MB: seldom, and one byte or one cell past it.
        if self.rng.chance(5) {
            lengths = Lengths {
                memory: 64 * 65_536 + self.rng.below(65) as usize,
                ..right
            };
        }
        Input::Lengths {
            lengths,
            call: self.wild_call(),
        }
    }
}
