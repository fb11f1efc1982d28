//! The sequencer's story, as tables to show in a training: an advance is cut at every single store,
//! and the restore that follows never puts a scale of zero on a channel; a channel that still has its
//! start value is held by a rule, without a copy; and the nine ranges of a tile are held by one add,
//! all of them or none.

use std::error::Error;
use std::process::ExitCode;

use domain_store::{
    Buffers, CELL, Handle, Innermost, Kind, Label, Place, Range, Refusal, Rule, Store,
};

/// The channel's cell: its scale in the first four bytes, its phasing behind it, and filling that
/// differs from byte to byte, so that a mixture of two cells would show.
fn channel(scale: f32, phasing: f32) -> [u8; CELL] {
    let mut cell = [0; CELL];
    for (place, byte) in (0..).zip(&mut cell) {
        *byte = place ^ scale.to_bits().to_le_bytes()[2];
    }
    cell[..4].copy_from_slice(&scale.to_le_bytes());
    cell[4..8].copy_from_slice(&phasing.to_le_bytes());
    cell
}

fn scale_of(cell: &[u8; CELL]) -> f32 {
    f32::from_le_bytes([cell[0], cell[1], cell[2], cell[3]])
}

const CHANNEL: u32 = 0;

/// A store whose only domain holds the channel's cell, and the program has written the new scale
/// over it.
fn before_the_advance(
    store: &mut Store,
    old: &[u8; CELL],
    new: &[u8; CELL],
) -> Result<Handle, Refusal> {
    store.make()?;
    *store.cell_mut(CHANNEL) = *old;
    let cycle = store.create()?;
    store.add(cycle, CHANNEL..CHANNEL + 1, Kind::Copy, Label::ReadWrite)?;
    *store.cell_mut(CHANNEL) = *new;
    Ok(cycle)
}

/// What one cut came to. Cuts that agree in all of it share a row.
#[derive(Clone, Copy, PartialEq)]
struct Seen {
    whole: bool,
    opening: u64,
    scale: u32,
    wrong: usize,
}

/// What the opening after a cut did, of which so many stores tell: the call was whole by then, or not.
fn opening_did(call: &str, whole: bool, steps: u64) -> String {
    match (whole, steps) {
        (false, 0) => format!("nothing: the {call} was not made"),
        (false, steps) => format!("finished the {call} ({steps} stores)"),
        (true, _) => format!("nothing: the {call} was made"),
    }
}

/// The stores made before cuts that share a row.
fn stores_made(first: u64, last: u64, whole: bool) -> String {
    match last - first {
        0 if whole => format!("{first} (all)"),
        0 => format!("{first}"),
        _ => format!("{first} to {last}"),
    }
}

fn cut_at(budget: u64, old: &[u8; CELL], new: &[u8; CELL]) -> Result<Seen, Box<dyn Error>> {
    let mut buffers = Buffers::allocate(4, 8, 8)?;
    let mut store = buffers.store();
    let cycle = before_the_advance(&mut store, old, new)?;
    let whole = store.advance_with_budget(cycle, budget)?.is_done();
    // The program starts again over the same buffers.
    let opening = store.open()?;
    // The card lost what it had: the channel reads zero until the restore.
    store.cell_mut(CHANNEL).fill(0);
    store.restore(cycle)?;
    let checkpoint = if whole || opening > 0 { new } else { old };
    let wrong = store
        .cell(CHANNEL)
        .iter()
        .zip(checkpoint)
        .filter(|(found, kept)| found != kept)
        .count();
    Ok(Seen {
        whole,
        opening,
        scale: scale_of(store.cell(CHANNEL)).to_bits(),
        wrong,
    })
}

fn main() -> Result<ExitCode, Box<dyn Error>> {
    let right = cut_at_every_store()? & held_by_a_rule()? & nine_ranges()?;
    Ok(match right {
        true => ExitCode::SUCCESS,
        false => ExitCode::FAILURE,
    })
}

/// Whether no cut left a scale of zero or a wrong byte.
fn cut_at_every_store() -> Result<bool, Box<dyn Error>> {
    let (old, new) = (channel(1.0, 0.012), channel(0.8, 0.015));

    // How many stores does the advance make, uncut?
    let mut buffers = Buffers::allocate(4, 8, 8)?;
    let mut store = buffers.store();
    let cycle = before_the_advance(&mut store, &old, &new)?;
    let need = store.advance(cycle)?;

    println!("THE DOMAIN STORE: AN ADVANCE THAT IS CUT AT EVERY STORE");
    println!();
    let (before, after) = (scale_of(&old), scale_of(&new));
    println!(
        "A channel's cell has a scale of {before:?}. A domain holds it read-write. The program"
    );
    println!(
        "writes a new scale of {after:?} and advances: from then on the domain goes back to {after:?}."
    );
    println!(
        "The advance makes {need} stores. The card drops out before each of them in turn, and"
    );
    println!("after the last: the program starts again, opens the store, finds zeros in the");
    println!("cell, and restores.");
    println!();
    line(
        "stores made",
        "",
        "what opening did",
        "scale after",
        "bytes that",
    );
    line("before the cut", "cuts", "", "the restore", "are wrong");
    println!("  {}", "-".repeat(84));

    let cuts = need + 1;
    let mut zeros = 0;
    let mut wrong = 0;
    let mut run: Option<(u64, Seen)> = None;
    for budget in 0..=need {
        let seen = cut_at(budget, &old, &new)?;
        zeros += u64::from(f32::from_bits(seen.scale) == 0.0);
        wrong += seen.wrong;
        match run {
            Some((_, same)) if same == seen => {}
            _ => {
                if let Some((first, before)) = run {
                    row(first, budget - 1, &before);
                }
                run = Some((budget, seen));
            }
        }
    }
    if let Some((first, last)) = run {
        row(first, need, &last);
    }

    println!();
    if zeros > 0 || wrong > 0 {
        println!("The scale was zero after {zeros} of {cuts} cuts, and {wrong} bytes were wrong:");
        println!("this library does not do what it promises.");
        return Ok(false);
    }
    println!("The scale was never zero: {cuts} cuts.");
    println!("(Zero would be worst on a dark channel: 0 / 0 is NaN, every comparison with NaN is");
    println!("false, and the caller would label the whole cycle A.)");
    Ok(true)
}

/// Whether a channel that is held by rule 3 comes back with every byte.
fn held_by_a_rule() -> Result<bool, Box<dyn Error>> {
    let scale = Rule::Scale;
    // The one body stays free: a rule needs none.
    let mut buffers = Buffers::allocate(4, 8, 1)?;
    let mut store = buffers.store();
    store.make()?;
    *store.cell_mut(CHANNEL) = scale.bytes();
    let cycle = store.create()?;

    println!();
    println!("A CHANNEL THAT IS HELD BY A RULE");
    println!();
    println!("The channel still has its start value, a scale of 1.0 sixteen times over. A domain");
    println!("holds it by rule 3, so it keeps the rule's number and no copy.");
    println!();
    rule_line("", "stores", "in memory", "a restore brings");
    println!("  {}", "-".repeat(84));
    let cells = CHANNEL..CHANNEL + 1;
    let steps = store.add(cycle, cells, Kind::Pattern(scale), Label::ReadWrite)?;
    rule_row(&store, cycle, "the channel is added", Some(steps))?;
    store.cell_mut(CHANNEL).fill(0);
    rule_row(&store, cycle, "the card writes zeros over it", None)?;
    let steps = store.restore(cycle)?;
    rule_row(&store, cycle, "the restore brings it back", Some(steps))?;
    println!();

    let untouched = store.bodies().iter().all(|byte| *byte == 0);
    let right = untouched && *store.cell(CHANNEL) == scale.bytes();
    if right {
        println!(
            "All {CELL} bytes are those of the rule, and the store's one body was never used."
        );
    } else {
        println!("Bytes are wrong: this library does not do what it promises.");
    }
    Ok(right)
}

/// A row for a channel that is held by a rule: what was done, with the stores of a call, and how it
/// stands then.
fn rule_row(store: &Store, cycle: Handle, what: &str, steps: Option<u64>) -> Result<(), Refusal> {
    let brings = match store.look_place(cycle, CHANNEL)? {
        Place::Rule(rule) => format!("rule {}: {:?}", rule.number(), scale_of(&rule.bytes())),
        Place::Bodies { .. } => "a copy".into(),
        Place::Memory { .. } => "nothing".into(),
    };
    let scale = format!("{:?}", scale_of(store.cell(CHANNEL)));
    let stores = steps.map_or("-".into(), |steps| steps.to_string());
    rule_line(what, &stores, &scale, &brings);
    Ok(())
}

fn rule_line(what: &str, stores: &str, scale: &str, brings: &str) {
    println!("  {what:<32} {stores:>8}   {scale:>12}   {brings:>24}");
}

/// What a tile keeps together: 21 cells, of which nine are copied.
const TILE: [Range; 9] = [
    Range::via_parent(0..2),
    Range::via_parent(2..4).read_write(),
    Range::copy(4..6).read_write(),
    Range::copy(8..10).read_write(),
    Range::copy(12..14).read_write(),
    Range::copy(16..18).read_write(),
    Range::by_rule(Rule::Scale, 20..24).read_write(),
    Range::by_rule(Rule::Zeros, 24..28).read_write(),
    Range::copy(30..31),
];

/// What one cut of the tile's add came to: the stores of the opening, and the ranges that are held.
#[derive(Clone, Copy, PartialEq)]
struct Kept {
    whole: bool,
    opening: u64,
    ranges: usize,
}

/// A store with a cycle that holds the first four cells, and a tile inside it that is to hold its own.
fn before_the_tile(buffers: &mut Buffers) -> Result<Store<'_>, Refusal> {
    let mut store = buffers.store();
    store.make()?;
    store.memory_mut().fill(7);
    for range in TILE {
        if let Kind::Pattern(rule) = range.kind() {
            for cell in range.cells() {
                *store.cell_mut(cell) = rule.bytes();
            }
        }
    }
    let cycle = store.create()?;
    store.add(cycle, 0..4, Kind::Copy, Label::ReadWrite)?;
    store.create()?;
    Ok(store)
}

fn tile_cut_at(budget: u64) -> Result<Kept, Box<dyn Error>> {
    let mut buffers = Buffers::allocate(32, 32, 16)?;
    let mut store = before_the_tile(&mut buffers)?;
    let outcome = store.add_ranges_with_budget(Innermost, &TILE, budget)?;
    let opening = store.open()?;
    let mut ranges = 0;
    for range in TILE {
        ranges += usize::from(store.delete(Innermost, range.cells()).is_ok());
    }
    Ok(Kept {
        whole: outcome.is_done(),
        opening,
        ranges,
    })
}

/// Whether every cut of the tile's add left all nine ranges held, or none.
fn nine_ranges() -> Result<bool, Box<dyn Error>> {
    let mut buffers = Buffers::allocate(32, 32, 16)?;
    let need = before_the_tile(&mut buffers)?.add_ranges(Innermost, &TILE)?;
    let copies = TILE.iter().filter(|range| range.kind() == Kind::Copy);
    let copied: usize = copies.map(|range| range.cells().len()).sum();

    println!();
    println!("NINE RANGES OF A TILE, HELD BY ONE ADD");
    println!();
    println!(
        "A tile keeps nine ranges together: two via the cycle around it, two by rules, and five"
    );
    println!(
        "as copies, {copied} cells of them. One add holds all, with {need} stores. The card drops out"
    );
    println!("before each of them in turn, and after the last.");
    println!();
    tile_line("stores made", "", "what opening did", "ranges held");
    tile_line("before the cut", "cuts", "", "of nine");
    println!("  {}", "-".repeat(84));
    let mut some = 0;
    let mut run: Option<(u64, Kept)> = None;
    let row = |first: u64, last: u64, kept: &Kept| {
        let stores = stores_made(first, last, kept.whole);
        let cuts = (last - first + 1).to_string();
        let did = opening_did("add", kept.whole, kept.opening);
        tile_line(&stores, &cuts, &did, &kept.ranges.to_string());
    };
    for budget in 0..=need {
        let kept = tile_cut_at(budget)?;
        some += u64::from(kept.ranges != 0 && kept.ranges != TILE.len());
        match run {
            Some((_, same)) if same == kept => {}
            _ => {
                if let Some((first, before)) = run {
                    row(first, budget - 1, &before);
                }
                run = Some((budget, kept));
            }
        }
    }
    if let Some((first, last)) = run {
        row(first, need, &last);
    }
    println!();
    match some {
        0 => println!("All nine or none: {} cuts.", need + 1),
        some => println!("{some} cuts left a part: this library does not do what it promises."),
    }
    Ok(some == 0)
}

fn tile_line(stores: &str, cuts: &str, opening: &str, ranges: &str) {
    println!("  {stores:<14} {cuts:>4}   {opening:<34} {ranges:>27}");
}

/// A row for the cuts from `first` to `last`.
fn row(first: u64, last: u64, seen: &Seen) {
    let cuts = (last - first + 1).to_string();
    let stores = stores_made(first, last, seen.whole);
    let did = opening_did("advance", seen.whole, seen.opening);
    let scale = format!("{:?}", f32::from_bits(seen.scale));
    line(&stores, &cuts, &did, &scale, &seen.wrong.to_string());
}

fn line(stores: &str, cuts: &str, opening: &str, scale: &str, wrong: &str) {
    println!("  {stores:<14} {cuts:>4}   {opening:<34} {scale:>13}   {wrong:>11}");
}
