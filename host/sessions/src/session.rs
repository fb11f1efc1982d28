//! A session as a plain list of inputs: it can be played again, shrunk and printed.

use crate::check::{Checker, Line, Mismatch};
use domain_model::{Buffers, Call, FULL, Lengths, Notebook, STOPPED, Sizes, rules};
use std::fmt;

/// A call with what belongs to it. If it is stopped, openings with these budgets follow, and at last
/// one without. With `every_cut` it is first cut at every step, on copies; the number is the seed of
/// what follows each cut.
#[derive(Clone, PartialEq, Eq, Debug)]
pub struct Made {
    pub call: Call,
    pub budget: u64,
    pub openings: Vec<u64>,
    pub every_cut: Option<u64>,
}

impl Made {
    /// A call with a budget, and nothing else.
    pub fn with_budget(call: Call, budget: u64) -> Made {
        Made {
            call,
            budget,
            openings: Vec::new(),
            every_cut: None,
        }
    }
}

/// One input. All numbers are in it, so that a session without some of its inputs is a session
/// again.
#[derive(Clone, PartialEq, Eq, Debug)]
pub enum Input {
    /// The program writes bytes to memory.
    Write { at: usize, bytes: Vec<u8> },
    /// A call.
    Call(Made),
    /// On a copy: table words are set by hand, then come calls with their budgets. Where the table is
    /// still one that opens, inner domains are first restored before outer ones, on copies; the seed is
    /// that of the choice among them.
    Damaged {
        edits: Vec<(usize, u32)>,
        seed: u64,
        then: Vec<(Call, u64)>,
    },
    /// On copies, with all of memory filled with a byte or as it is: inner domains are restored before
    /// outer ones, some of them with a cut; the seed is that of the choice among them.
    InnerFirst { fill: Option<u8>, seed: u64 },
    /// On a copy: one call with buffers of other lengths.
    Lengths { lengths: Lengths, call: Call },
}

/// A session: buffers with any contents, and inputs.
#[derive(Clone, PartialEq, Eq, Debug)]
pub struct Session {
    pub sizes: Sizes,
    /// Seed of what the buffers contain at first.
    pub fill: u64,
    pub inputs: Vec<Input>,
}

impl Session {
    /// The line before any input.
    pub fn start(&self, checker: &Checker) -> Line {
        Line::new(Buffers::any(self.sizes.lengths(), self.fill), checker.model)
    }

    /// Plays all inputs; gives the place and the mismatch of the first that fails.
    pub fn play(&self, checker: &mut Checker) -> Result<(), (usize, Mismatch)> {
        let mut line = self.start(checker);
        for (at, input) in self.inputs.iter().enumerate() {
            input.play(checker, &mut line).map_err(|m| (at, m))?;
        }
        Ok(())
    }
}

impl Input {
    pub fn play(&self, checker: &mut Checker, line: &mut Line) -> Result<(), Mismatch> {
        match self {
            Input::Write { at, bytes } => {
                let memory = &mut line.buffers.memory;
                let end = (at + bytes.len()).min(memory.len());
                if *at < end {
                    memory[*at..end].copy_from_slice(&bytes[..end - at]);
                    checker.tally.writes += 1;
                    if let Some(notebook) = &mut line.notebook {
                        notebook.write(*at, end - at);
                    }
                }
                Ok(())
            }
            Input::Call(made) => {
                let call = &made.call;
                if let Some(seed) = made.every_cut {
                    checker.every_cut(line, call, seed)?;
                }
                let mut reply = checker.call(line, call, made.budget)?;
                if *call == Call::Make && reply.code == 0 {
                    // The list starts anew with every done make.
                    line.notebook = Some(Notebook::new(checker.model.fault));
                }
                let mut openings = made.openings.iter().copied();
                while reply.code == STOPPED {
                    reply = checker.call(line, &Call::Open, openings.next().unwrap_or(FULL))?;
                }
                Ok(())
            }
            Input::Damaged { edits, seed, then } => {
                let mut buffers = line.buffers.clone();
                for (word, value) in edits {
                    if let Some(place) = buffers.table.get_mut(*word) {
                        *place = *value;
                    }
                }
                let mut damaged = Line::new(buffers, checker.model);
                checker.tally.damaged += 1;
                checker.tally.damaged_good +=
                    matches!(damaged.reading, domain_model::Reading::Store { .. }) as u64;
                checker.inner_first(&damaged, *seed)?;
                for (call, budget) in then {
                    checker.call(&mut damaged, call, *budget)?;
                }
                Ok(())
            }
            Input::InnerFirst { fill, seed } => {
                let mut buffers = line.buffers.clone();
                if let Some(byte) = fill {
                    buffers.memory.fill(*byte);
                }
                let copy = Line::new(buffers, checker.model);
                checker.inner_first(&copy, *seed)
            }
            Input::Lengths { lengths, call } => {
                let mut other = Line::new(line.buffers.resized(*lengths), checker.model);
                checker.tally.lengths += 1;
                checker.call(&mut other, call, FULL).map(|_| ())
            }
        }
    }
}

/// What a write of whole cells that all follow one rule writes; most follow none.
fn rule_of(at: usize, bytes: &[u8]) -> Option<u32> {
    let (cells, rest) = bytes.as_chunks::<64>();
    if !at.is_multiple_of(64) || !rest.is_empty() {
        return None;
    }
    let rule = rules::followed(cells.first()?)?;
    let same = cells.iter().all(|cell| rules::followed(cell) == Some(rule));
    same.then_some(rule)
}

fn budget_text(budget: u64) -> String {
    if budget == FULL {
        String::new()
    } else {
        format!(", budget {budget}")
    }
}

impl fmt::Display for Input {
    fn fmt(&self, f: &mut fmt::Formatter<'_>) -> fmt::Result {
        match self {
            Input::Write { at, bytes } => {
                let same = bytes.iter().all(|b| *b == bytes[0]);
                if same && at % 64 == 0 && bytes.len() == 64 {
                    return write!(f, "write cell {} := {}", at / 64, bytes[0]);
                }
                if let Some(rule) = rule_of(*at, bytes) {
                    let (first, count) = (at / 64, bytes.len() / 64);
                    return write!(f, "write {count} cells from {first} on := rule {rule}");
                }
                write!(f, "write {} bytes from byte {at} on := ", bytes.len())?;
                if same {
                    write!(f, "{}", bytes.first().copied().unwrap_or(0))
                } else {
                    write!(f, "{bytes:?}")
                }
            }
            Input::Call(made) => {
                write!(f, "{}{}", made.call, budget_text(made.budget))?;
                if made.budget != FULL && !made.openings.is_empty() {
                    let openings = &made.openings;
                    write!(f, "; if stopped, openings with budgets {openings:?}")?;
                }
                if made.every_cut.is_some() {
                    write!(f, "; also cut at every step")?;
                }
                Ok(())
            }
            Input::Damaged { edits, seed, then } => {
                write!(f, "on a copy with")?;
                for (word, value) in edits {
                    write!(f, " word {word} := 0x{value:x},")?;
                }
                write!(
                    f,
                    " inner domains restored before outer ones, if it opens (seed {seed});"
                )?;
                for (call, budget) in then {
                    write!(f, " {call}{};", budget_text(*budget))?;
                }
                Ok(())
            }
            Input::InnerFirst { fill, seed } => {
                write!(f, "on copies")?;
                if let Some(byte) = fill {
                    write!(f, " with memory := {byte}")?;
                }
                write!(
                    f,
                    ": inner domains restored before outer ones (seed {seed})"
                )
            }
            Input::Lengths { lengths, call } => {
                write!(
                    f,
                    "on a copy with {} bytes of memory, {} of bodies, {} words: {call}",
                    lengths.memory, lengths.bodies, lengths.table
                )
            }
        }
    }
}

impl fmt::Display for Session {
    fn fmt(&self, f: &mut fmt::Formatter<'_>) -> fmt::Result {
        writeln!(
            f,
            "m = {}, E = {}, B = {}, first contents from seed {}",
            self.sizes.m, self.sizes.e, self.sizes.b, self.fill
        )?;
        for (at, input) in self.inputs.iter().enumerate() {
            writeln!(f, "{:4}  {input}", at + 1)?;
        }
        Ok(())
    }
}
