//! Stores out of order, played on purpose: the check has to find each of them.
//!
//! A right plan is played by hand-written stores instead of the library, with one thing changed that a compiler could do to it.

use crate::check::{Case, Plan, Tally};
use crate::trace::{Failure, Way, follow};
use domain_lend::pages::Arena;
use domain_model::{Buffer, Step};

/// One store instruction.
#[derive(Clone, Copy)]
struct Piece {
    address: usize,
    width: u8,
    value: u64,
}

impl Piece {
    fn of(arena: &Arena, step: Step) -> Piece {
        let start = arena.stretches[step.buffer as usize].start;
        let width = if step.buffer == Buffer::Table { 4 } else { 1 };
        Piece {
            address: start + usize::from(width) * step.at,
            width,
            value: step.value.into(),
        }
    }

    /// Makes the store. Its address is one of the arena's.
    fn play(self) {
        unsafe {
            match self.width {
                1 => (self.address as *mut u8).write_volatile(self.value as u8),
                2 => (self.address as *mut u16).write_volatile(self.value as u16),
                4 => (self.address as *mut u32).write_volatile(self.value as u32),
                _ => (self.address as *mut Unaligned).write_volatile(Unaligned(self.value)),
            }
        }
    }
}

/// Eight bytes at any address.
#[repr(C, packed)]
struct Unaligned(u64);

/// The plan's stores, the bytes eight at a time as a compiler may make them, and the number of these wide stores.
fn right_way(arena: &Arena, plan: &Plan) -> (Vec<Piece>, usize) {
    let mut pieces: Vec<Piece> = plan.steps[..plan.bytes]
        .chunks_exact(8)
        .map(|eight| {
            let value = eight
                .iter()
                .rev()
                .fold(0, |value, step| value << 8 | u64::from(step.value));
            Piece {
                width: 8,
                value,
                ..Piece::of(arena, eight[0])
            }
        })
        .collect();
    let bytes = pieces.len();
    pieces.extend(
        plan.steps[plan.bytes..]
            .iter()
            .map(|&step| Piece::of(arena, step)),
    );
    (pieces, bytes)
}

/// The plan's stores one by one, the bytes too.
fn narrow(arena: &Arena, plan: &Plan) -> Vec<Piece> {
    let steps = plan.steps.iter();
    steps.map(|&step| Piece::of(arena, step)).collect()
}

/// Each wrong way of making the plan's stores, with its name.
fn wrong_ways(arena: &Arena, plan: &Plan) -> Vec<(String, Vec<Piece>)> {
    let (right, bytes) = right_way(arena, plan);
    let mut ways = Vec::new();
    let table = bytes..right.len();
    for step in table.clone() {
        let mut way = right.clone();
        way.remove(step);
        ways.push((format!("step {} left out", step + 1), way));

        let mut way = right.clone();
        let piece = way[step];
        let low = Piece {
            width: 2,
            value: piece.value & 0xFFFF,
            ..piece
        };
        let high = Piece {
            address: piece.address + 2,
            width: 2,
            value: piece.value >> 16,
        };
        way.splice(step..step + 1, [low, high]);
        ways.push((format!("step {} in two halves", step + 1), way));

        let mut way = right.clone();
        way.insert(step, right[step]);
        ways.push((format!("step {} twice", step + 1), way));

        if step + 1 < table.end {
            let mut way = right.clone();
            way.swap(step, step + 1);
            ways.push((
                format!("steps {} and {} exchanged", step + 1, step + 2),
                way,
            ));
            if right[step + 1].address == right[step].address + 4 {
                let mut way = right.clone();
                let both = Piece {
                    width: 8,
                    value: right[step].value | right[step + 1].value << 32,
                    ..right[step]
                };
                way.splice(step..step + 2, [both]);
                ways.push((
                    format!("steps {} and {} in one store", step + 1, step + 2),
                    way,
                ));
            }
        }
    }
    if bytes > 0 {
        let mut way = right.clone();
        way.remove(bytes - 1);
        ways.push(("the last bytes left out".into(), way));
        let mut way = right.clone();
        way[..bytes].reverse();
        ways.push(("bytes falling".into(), way));
        ways.push(("bytes one by one".into(), narrow(arena, plan)));
        if bytes < right.len() {
            let mut way = right.clone();
            way.rotate_left(bytes);
            ways.push(("bytes after the table".into(), way));
            let mut way = right.clone();
            way.swap(bytes - 1, bytes);
            ways.push(("the last bytes after the first word".into(), way));
        }
    }
    // An equal value into a word that the plan does not name: no comparison of buffers could show it.
    let word_7 = Piece {
        address: arena.stretches[2].start + 28,
        width: 4,
        value: 0,
    };
    let mut way = right.clone();
    way.push(word_7);
    ways.push(("a store into word 7".into(), way));
    ways
}

fn play(case: &Case, arena: &Arena, pieces: &[Piece]) -> Result<Result<(), String>, Failure> {
    arena.load(&case.before);
    let trace = follow(arena, Way::Guarded, &|_, _| {
        for &piece in pieces {
            piece.play();
        }
        0
    })?;
    Ok(case.judge_stores(&trace, &mut Tally::default()))
}

/// Plays the case's own plan, which has to be accepted, and every wrong way, which has to be found. Gives the number found.
pub fn find_all(case: &Case, arena: &Arena) -> Result<u64, String> {
    let told = |failure: Failure| format!("{}: {failure:?}", case.name);
    let (right, _) = right_way(arena, &case.plan);
    play(case, arena, &right)
        .map_err(told)?
        .map_err(|wrong| format!("{}: the right order is not accepted: {wrong}", case.name))?;
    let mut found = 0;
    for (name, pieces) in wrong_ways(arena, &case.plan) {
        if play(case, arena, &pieces).map_err(told)?.is_ok() {
            return Err(format!("{}: {name}: not found", case.name));
        }
        found += 1;
    }
    Ok(found)
}
