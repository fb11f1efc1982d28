//! Advances: which cells they find changed, and what is around the domain that advances.

use super::{Generator, Want};
use crate::check::Line;
use domain_model::{Bytes, Call, Rng, Sizes, State, rules, state::cell_of};
use std::ops::Range;

impl Generator {
    pub(super) fn advance(&mut self, state: &State, line: &Line) {
        let inner = state.domains.len() - 1;
        self.change_cells(state, line);
        let handle = if self.rng.chance(950) {
            self.handle(state, inner)
        } else {
            state.domains[0].handle
        };
        self.call(Call::Advance { handle });
        if self.rng.chance(250) {
            self.write(state, line);
            self.call(Call::Restore { handle: 0 });
        }
    }

    /// Program writes before an advance, by which so many of the innermost domain's read-write cells
    /// differ from what is held: none, some, all, as many as there are free bodies or free entries, or one
    /// more. The others are written back where they differ.
    fn change_cells(&mut self, state: &State, line: &Line) {
        let domain = state.domains.last().expect("live");
        let cells = domain.cells.iter().filter(|(_, held)| held.read_write);
        let cells: Vec<u32> = cells.map(|(c, _)| *c).collect();
        if cells.is_empty() || self.rng.chance(200) {
            return;
        }
        let changed = self.choose_changed(state, &cells);
        let mut writes: Vec<(usize, Vec<u8>)> = Vec::new();
        for c in cells {
            let now = cell_of(&line.buffers.memory, c);
            let value = state.value(state.domains.len() - 1, c).unwrap_or(now);
            let wanted = match changed.binary_search(&c).is_ok() {
                true if now != value && self.rng.chance(700) => now,
                true => self.other_bytes(state, c, value),
                false => value,
            };
            // Changed and changed back: two writes, and nothing of them is left.
            if now == value && wanted == value && self.rng.chance(30) {
                let letter = self.letter();
                self.write_cell(c, vec![letter; 64]);
                self.write_cell(c, value.to_vec());
            }
            let Some(first) = (0..64).find(|i| wanted[*i] != now[*i]) else {
                continue;
            };
            let end = 64
                - (0..64)
                    .take_while(|i| wanted[63 - i] == now[63 - i])
                    .count();
            let at = 64 * c as usize + first;
            match writes.last_mut() {
                Some((to, bytes)) if *to + bytes.len() == at => {
                    bytes.extend(&wanted[first..end]);
                }
                _ => writes.push((at, wanted[first..end].to_vec())),
            }
        }
        // Many writes would be most of a session.
        writes.truncate(12);
        let writes = writes.into_iter().map(|(at, bytes)| Want::Write(at, bytes));
        self.wants.extend(writes);
    }

    /// Which of these cells are to differ from what is held of them.
    fn choose_changed(&mut self, state: &State, cells: &[u32]) -> Vec<u32> {
        let all = cells.len() as u64;
        let Sizes { e, b, .. } = self.habits.sizes;
        let bodies = u64::from(b).saturating_sub(state.copies());
        let entries = u64::from(e).saturating_sub(state.entries());
        let inside = state.domains.len() > 1;
        let many = match self.rng.below(10) {
            0 | 1 => 0,
            2 => all,
            // Just room enough, or one body or one entry too few.
            3..=5 if bodies < all => bodies + self.rng.below(2),
            6 | 7 if entries < all && inside => entries + self.rng.below(2),
            _ => self.rng.below(all + 1),
        };
        // Neighbours mostly, so that one write serves several.
        let from = self.rng.below(all);
        let apart = if self.rng.chance(300) { 2 } else { 1 };
        let mut changed: Vec<u32> = (0..many)
            .map(|at| cells[((from + apart * at) % all) as usize])
            .collect();
        changed.sort_unstable();
        changed.dedup();
        changed
    }

    /// Bytes for a cell that differ from these: at its first byte alone, at its last, anywhere, or in
    /// the whole; what the next domain out holds, or a rule's.
    fn other_bytes(&mut self, state: &State, cell: u32, value: Bytes) -> Bytes {
        let mut bytes = value;
        let mut flip = |rng: &mut Rng, at: usize| bytes[at] ^= 1 << rng.below(8);
        match self.rng.below(8) {
            0 | 1 => flip(&mut self.rng, 0),
            2 | 3 => flip(&mut self.rng, 63),
            4 => {
                let at = self.rng.below(64) as usize;
                flip(&mut self.rng, at);
            }
            5 => {
                let outer = state.domains.len().checked_sub(2);
                bytes = outer.and_then(|at| state.value(at, cell)).unwrap_or(value);
            }
            6 => bytes = rules::pattern(self.rng.below(4) as u32).expect("a rule"),
            _ => bytes = [self.letter(); 64],
        }
        if bytes == value {
            bytes[63] ^= 1;
        }
        bytes
    }

    /// Cells that the innermost domain holds, and a domain inside it that holds each of them by a kind
    /// of its own and advances: nothing is given outwards.
    pub(super) fn work_inside(&mut self, state: &State, line: &Line) {
        let at = state.domains.len() - 1;
        let outer = &state.domains[at];
        let first = self.cell(state);
        let room = self.habits.sizes.m - first;
        let count = (self.rng.between(2, 6) as u32).min(room);
        self.call(Call::copy(first, count, 1));
        self.call(Call::Create);
        for c in first..first + count {
            let now = cell_of(&line.buffers.memory, c);
            let value = state.value(at, c).unwrap_or(now);
            let label = self.rng.chance(850) as u32;
            match self.rng.below(3) {
                0 if outer.rule(c).is_none() => {
                    if now != value {
                        self.write_cell(c, value.to_vec());
                    }
                    self.call(Call::via_parent(c, 1, label));
                }
                1 => {
                    let rule = self.rng.below(4) as u32;
                    self.write_pattern(c, 1, rule);
                    self.call(Call::pattern(c, 1, rule, label));
                }
                _ => {
                    if self.rng.chance(500) {
                        let letter = self.letter();
                        self.write_cell(c, vec![letter; 64]);
                    }
                    self.call(Call::copy(c, 1, label));
                }
            }
        }
        for _ in 0..self.rng.between(1, 3) {
            self.wants.push_back(Want::Advance);
        }
        match self.rng.below(4) {
            0 => self.call(Call::Restore { handle: 0 }),
            1 => self.call(Call::Commit { handle: 0 }),
            _ => {}
        }
    }

    /// A domain inside the innermost that holds cells of its own, which the one around it mostly lacks,
    /// and advances: what has changed of them is given outwards.
    pub(super) fn tile_inside(&mut self, state: &State, line: &Line) {
        let first = match self.rng.chance(300) {
            true => self.cell(state),
            false => self.rng.below(self.habits.sizes.m.into()) as u32,
        };
        let room = self.habits.sizes.m - first;
        let cells = first..first + (self.rng.between(1, 4) as u32).min(room);
        let adds: Vec<Call> = cells.clone().map(|c| self.one_of_a_tile(c)).collect();
        self.call(Call::Create);
        // Often with a domain in between, which holds nothing: what is given stays there.
        let innermost = state.domains.last().expect("live");
        let outer = match self.rng.chance(500) {
            true => {
                self.call(Call::Create);
                state.next
            }
            false => innermost.handle,
        };
        adds.into_iter().for_each(|add| self.call(add));
        for _ in 0..self.rng.between(1, 2) {
            self.wants.push_back(Want::Advance);
        }
        self.go_back(outer, cells, line);
    }

    /// An add of one cell of a tile: mostly by a copy, read-write. A rule's bytes are written at once, so
    /// that they stand at the point of every domain that is still to come.
    fn one_of_a_tile(&mut self, cell: u32) -> Call {
        let label = self.rng.chance(900) as u32;
        match self.rng.chance(350) {
            true => {
                let rule = self.rng.below(4) as u32;
                self.write_pattern(cell, 1, rule);
                Call::pattern(cell, 1, rule, label)
            }
            false => Call::copy(cell, 1, label),
        }
    }

    /// What follows an inner advance, so that it shows what each domain goes back to: the inner one, the
    /// one that was given cells, both, and that one after it went on by itself.
    fn go_back(&mut self, outer: u32, cells: Range<u32>, line: &Line) {
        let restore = |handle| Call::Restore { handle };
        if self.rng.chance(600) {
            self.write_each(cells.clone());
        }
        match self.rng.below(8) {
            0 => self.call(restore(0)),
            1 | 2 => self.call(restore(outer)),
            3 => {
                self.call(restore(0));
                self.call(restore(outer));
            }
            // What was given is read-write, so that the outer domain can advance with it.
            4 | 5 => {
                match self.rng.chance(600) {
                    true => self.call(restore(outer)),
                    false => self.call(Call::Commit { handle: 0 }),
                }
                self.write_each(cells.clone());
                self.call(Call::Advance { handle: 0 });
                self.write_each(cells);
                let around = line.state().and_then(|state| state.domains.first());
                let around = around.map_or(0, |domain| domain.handle);
                let handle = *self.rng.pick(&[0, 0, around]);
                self.call(restore(handle));
            }
            6 => self.call(Call::Commit { handle: 0 }),
            _ => {}
        }
    }

    /// The program writes each of these cells.
    fn write_each(&mut self, cells: Range<u32>) {
        for c in cells {
            let letter = self.letter();
            self.write_cell(c, vec![letter; 64]);
        }
    }
}
