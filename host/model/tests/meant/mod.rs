//! A store that is nothing but its meaning: states and memory, no buffers.

#![allow(dead_code, reason = "each test program uses a part")]

use domain_model::reply::{BY_RULE, IN_BODIES, IN_MEMORY};
use domain_model::rules::pattern;
use domain_model::{Call, Lengths, Model, Reading, Shown, Sizes, State, Verdict, Work};

/// A store that is nothing but its meaning.
#[derive(Clone)]
pub struct Meant {
    pub lengths: Lengths,
    pub reading: Reading,
    pub memory: Vec<u8>,
}

impl Meant {
    /// A fresh store, with memory of one byte.
    pub fn fresh(sizes: Sizes, byte: u8) -> Meant {
        let lengths = sizes.lengths();
        Meant {
            lengths,
            reading: Reading::Store {
                state: State::fresh(),
                pending: 0,
            },
            memory: vec![byte; lengths.memory],
        }
    }

    pub fn state(&mut self) -> &mut State {
        match &mut self.reading {
            Reading::Store { state, .. } => state,
            other => panic!("{other:?}"),
        }
    }

    pub fn verdict(&self, call: &Call) -> Verdict {
        Model::default().verdict(self.lengths, &self.reading, &self.memory, call)
    }

    /// What a call has to do that is not refused.
    pub fn work(&self, call: &Call) -> Work {
        match self.verdict(call) {
            Verdict::Work(work) => work,
            other => panic!("{call}: {other:?}"),
        }
    }

    pub fn carry_out(&mut self, work: &Work) {
        work.memory_after(&mut self.memory, work.need);
        self.reading = work.reading_after(&self.reading, work.need);
    }

    /// Cuts a call after so many steps, and opens. Tells whether opening finds it made.
    pub fn cut(&mut self, call: &Call, steps: u64) -> bool {
        let work = self.work(call);
        work.memory_after(&mut self.memory, steps);
        self.reading = work.reading_after(&self.reading, steps);
        let opening = self.work(&Call::Open);
        self.carry_out(&opening);
        opening.need > 0
    }

    /// The call's number and the handle that it gives.
    pub fn play(&mut self, call: &Call) -> (u32, u32) {
        match self.verdict(call) {
            Verdict::Refused(number) => (number, 0),
            Verdict::Work(work) => {
                self.carry_out(&work);
                (0, work.handle)
            }
            _ => (0, 0),
        }
    }

    /// The 64 bytes of a cell in memory.
    pub fn cell(&mut self, cell: u32) -> &mut [u8] {
        &mut self.memory[64 * cell as usize..][..64]
    }

    /// The program writes a rule's bytes into a cell.
    pub fn follow(&mut self, cell: u32, rule: u32) {
        let bytes = pattern(rule).expect("a rule");
        self.cell(cell).copy_from_slice(&bytes);
    }

    /// The place and the rule that look tells.
    pub fn looks(&self, handle: u32, cell: u32) -> (u32, u32) {
        match self.verdict(&Call::Look { handle, cell }) {
            Verdict::Looked(looked) => match looked.shown {
                Shown::Memory => (IN_MEMORY, 0),
                Shown::Body(_) => (IN_BODIES, 0),
                Shown::Rule(rule) => (BY_RULE, rule),
                other => panic!("{other:?}"),
            },
            other => panic!("{other:?}"),
        }
    }
}
