//! The calls that are stepped, each with the calls and writes before it and with what document 01 counts for it.

use crate::check::{Case, note};
use crate::state;
use domain_lend::Linked;
use domain_model::edges::{TILE, one_cell_records};
use domain_model::rules::{INDEX, ONES, SCALE, ZEROS, pattern};
use domain_model::{
    Buffers, Call, Ended, FULL, Notebook, Record, Rng, STOPPED, Sizes, Store, plan,
};

/// What happens before the call that is stepped.
#[derive(Clone)]
pub enum Act {
    /// A call that is done.
    Done(Call),
    /// A call, or an opening, stopped after this many steps.
    Cut(Call, u64),
    /// A program write of a whole cell.
    Write { cell: u32, version: u32 },
    /// A program write of a rule's bytes into a cell.
    Follow { cell: u32, rule: u32 },
    /// A program write of one byte of a cell: another than stands there.
    Touch { cell: u32, byte: usize },
}

pub struct Scenario {
    pub name: &'static str,
    pub sizes: Sizes,
    pub before: Vec<Act>,
    pub call: Call,
    /// The answer's number.
    pub number: u32,
    /// Cells copied or put back, 64 bytes each.
    pub cells: usize,
    /// Words to replace.
    pub pairs: usize,
}

/// Small enough that every store can be looked at, with room for an advance.
pub const SMALL: Sizes = Sizes { m: 4, e: 6, b: 6 };

/// The same for two domains that hold eight cells each.
pub const MIXED: Sizes = Sizes { m: 8, e: 16, b: 18 };

/// The same for a domain that holds four cells, and a tile inside it.
pub const TILED: Sizes = Sizes {
    m: 16,
    e: 24,
    b: 12,
};

/// What a program write puts into a cell: two versions differ in every byte, and all bytes are below 251, so that none is that with
/// which what means nothing is filled, and a store shows in every byte it covers.
pub fn contents(cell: u32, version: u32) -> [u8; 64] {
    std::array::from_fn(|byte| ((37 * version + 61 * cell + 3 * byte as u32) % 251) as u8)
}

fn copy(first: u32, count: u32, label: u32) -> Act {
    Act::Done(Call::copy(first, count, label))
}

fn via_parent(first: u32, count: u32, label: u32) -> Act {
    Act::Done(Call::via_parent(first, count, label))
}

/// A cell made to follow a rule, and held by it.
fn by_rule(cell: u32, rule: u32, label: u32) -> Vec<Act> {
    let held = Call::pattern(cell, 1, rule, label);
    vec![Act::Follow { cell, rule }, Act::Done(held)]
}

/// A program write of one byte of each of these cells.
fn touch(cells: &[u32], byte: usize) -> Vec<Act> {
    let touched = |&cell| Act::Touch { cell, byte };
    cells.iter().map(touched).collect()
}

/// A version of which no byte, in any of the first four cells, is that of a rule: a restore by a rule shows in every byte.
const UNRULED: u32 = 6;

fn write(cells: std::ops::Range<u32>, version: u32) -> Vec<Act> {
    cells.map(|cell| Act::Write { cell, version }).collect()
}

const MAKE: Act = Act::Done(Call::Make);
const CREATE: Act = Act::Done(Call::Create);

/// Every kind of call, and calls that must store nothing.
#[rustfmt::skip]
pub fn scenarios() -> Vec<Scenario> {
    use Call::*;
    let made = || [vec![MAKE], write(0..4, 1)].concat();
    // Domain 1 holds cells 0 and 1 read-write.
    let one = || [made(), vec![CREATE, copy(0, 2, 1)]].concat();
    // The program has written to both since.
    let one_written = || [one(), write(0..2, 2)].concat();
    // Domain 1 holds 0 read-only and 2 read-write; domain 2 holds 0 and 1 read-write.
    let two = || [made(), vec![CREATE, copy(0, 1, 0), copy(2, 1, 1), CREATE, copy(0, 2, 1)], write(0..3, 2)].concat();
    // Domain 1 holds 0 and 1; domain 2 holds them via parent; domain 3 holds 2 with later bytes.
    let three = || [one(), vec![CREATE, via_parent(0, 2, 1)], write(0..2, 2),
                    vec![CREATE], write(2..3, 2), vec![copy(2, 1, 1)], write(0..3, 3)].concat();
    let then = |before: Vec<Act>, act: Act| [before, vec![act]].concat();

    let mut all = Vec::new();
    let sizes = SMALL;
    let mut add = |name, before, call, number, cells, pairs| all.push(Scenario { name, sizes, before, call, number, cells, pairs });
    //   Name, what went before, the call, and its number, cells and pairs.
    add("make over a store", one(), Make, 0, 0, 0);
    add("make over anything", vec![], Make, 0, 0, 0);
    add("make over a cut call", then(one(), Act::Cut(Create, 8)), Make, 0, 0, 0);

    add("create the first", made(), Create, 0, 0, 3);
    add("create inside", one(), Create, 0, 0, 3);

    add("add by copy, one label raised", [made(), vec![CREATE, copy(1, 1, 0)], write(0..4, 2)].concat(),
        Call::copy(0, 3, 1), 0, 2, 6);
    add("add by copy inside", [one(), vec![CREATE], write(0..2, 2)].concat(),
        Call::copy(0, 4, 0).on(2), 0, 4, 8);
    add("add via parent", then(one(), CREATE), Call::via_parent(0, 2, 1), 0, 0, 4);
    add("add of held cells", one_written(), Call::copy(0, 2, 1), 0, 0, 0);

    add("delete", one_written(), Call::delete(0, 0, 2), 0, 0, 4);
    add("delete from the outer", two(), Call::delete(1, 0, 1), 0, 0, 2);

    add("commit into the outer", two(), Commit { handle: 0 }, 0, 0, 8);
    add("commit the last", one_written(), Commit { handle: 1 }, 0, 0, 6);

    add("advance", one_written(), Advance { handle: 0 }, 0, 2, 4);
    add("advance via parent and copy", [one(), vec![CREATE, via_parent(0, 1, 1), copy(1, 1, 1)], write(0..2, 2)].concat(),
        Advance { handle: 2 }, 0, 2, 4);

    add("restore the innermost", one_written(), Restore { handle: 0 }, 0, 2, 0);
    add("restore ending a domain", [two(), write(0..3, 3)].concat(), Restore { handle: 1 }, 0, 3, 6);
    add("restore ending two", three(), Restore { handle: 1 }, 0, 3, 9);
    add("restore the middle", three(), Restore { handle: 2 }, 0, 3, 4);
    add("restore ending an empty domain", [one(), vec![CREATE], write(0..2, 2)].concat(), Restore { handle: 1 }, 0, 2, 2);

    // Cut after the store of word 6, or some steps later.
    add("open a cut create", then(one(), Act::Cut(Create, 7)), Open, 0, 0, 3);
    add("open a cut commit", then(two(), Act::Cut(Commit { handle: 0 }, 19)), Open, 0, 0, 8);
    add("open a cut advance", then(one_written(), Act::Cut(Advance { handle: 0 }, 128 + 9)), Open, 0, 0, 4);
    add("open a cut restore", then(three(), Act::Cut(Restore { handle: 1 }, 192 + 19)), Open, 0, 0, 9);
    add("open a cut opening", [three(), vec![Act::Cut(Restore { handle: 1 }, 192 + 21), Act::Cut(Open, 4)]].concat(), Open, 0, 0, 9);
    add("open with nothing pending", two(), Open, 0, 0, 0);

    add("list", two(), List, 0, 0, 0);
    add("look", three(), Look { handle: 1, cell: 1 }, 0, 0, 0);
    add("add past the memory", one(), Call::copy(3, 2, 1), 8, 0, 0);
    add("commit the outer", two(), Commit { handle: 1 }, 6, 0, 0);
    add("restore a dead handle", two(), Restore { handle: 9 }, 5, 0, 0);
    patterns(&mut all);
    shorter_advances(&mut all);
    lists(&mut all);
    inner_advances(&mut all);
    all
}

/// The calls that meet cells by rules: all four, alone and beside copies.
#[rustfmt::skip]
fn patterns(all: &mut Vec<Scenario>) {
    use Call::*;
    let made = || [vec![MAKE], write(0..4, 1)].concat();
    let follow = |cells: std::ops::Range<u32>, rule| cells.map(|cell| Act::Follow { cell, rule }).collect::<Vec<_>>();
    // A domain that holds nothing, and two cells that follow a rule.
    let two_follow = |rule| [made(), vec![CREATE], follow(1..3, rule)].concat();
    // Domain 1 holds every cell by a rule, each by another, read-only where the rule is odd.
    let rules = || [made(), vec![CREATE], by_rule(0, ZEROS, 1), by_rule(1, ONES, 0), by_rule(2, INDEX, 1), by_rule(3, SCALE, 0)].concat();
    // Domain 1 holds 0 and 2 by copies, 1 and 3 by rules.
    let mixed = || [made(), vec![CREATE, copy(0, 1, 1)], by_rule(1, SCALE, 1), vec![copy(2, 1, 0)], by_rule(3, ONES, 0)].concat();
    // Domain 1 holds 0 by a rule and 1 by a copy; domain 2 holds 0 by a copy, 2 and 3 by rules.
    let inside = || [made(), vec![CREATE], by_rule(0, INDEX, 0), vec![copy(1, 1, 1)], write(0..1, 2),
                     vec![CREATE, copy(0, 1, 1)], by_rule(2, ZEROS, 1), by_rule(3, SCALE, 1)].concat();
    let over = |before: Vec<Act>| [before, write(0..4, UNRULED)].concat();
    let then = |before: Vec<Act>, act: Act| [before, vec![act]].concat();

    let sizes = SMALL;
    let mut add = |name, before, call, number, cells, pairs| all.push(Scenario { name, sizes, before, call, number, cells, pairs });
    //   Name, what went before, the call, and its number, cells and pairs.
    add("add by rule 0", two_follow(ZEROS), Call::pattern(1, 2, ZEROS, 1), 0, 0, 4);
    add("add by rule 1", two_follow(ONES), Call::pattern(1, 2, ONES, 1), 0, 0, 4);
    add("add by rule 2", two_follow(INDEX), Call::pattern(1, 2, INDEX, 0), 0, 0, 4);
    add("add by rule 3", two_follow(SCALE), Call::pattern(1, 2, SCALE, 0), 0, 0, 4);
    add("add by rule, one label raised", [made(), vec![CREATE], follow(0..3, SCALE), by_rule(1, SCALE, 0)].concat(),
        Call::pattern(0, 3, SCALE, 1), 0, 0, 6);
    add("add by rule beside copies", [made(), vec![CREATE, copy(0, 1, 0), copy(2, 1, 1)], follow(1..2, INDEX), follow(3..4, INDEX)].concat(),
        Call::pattern(0, 4, INDEX, 1), 0, 0, 6);
    add("add by rule inside", [mixed(), vec![CREATE], follow(0..2, ONES)].concat(), Call::pattern(0, 2, ONES, 0).on(2), 0, 0, 4);
    add("add of cells held by rules", over(rules()), Call::pattern(0, 4, ONES, 0), 0, 0, 0);

    add("restore of all four rules", over(rules()), Restore { handle: 0 }, 0, 4, 0);
    add("restore of rules beside copies", over(mixed()), Restore { handle: 1 }, 0, 4, 0);
    add("restore of rules ending a domain", over(inside()), Restore { handle: 1 }, 0, 4, 8);
    add("restore of rules inside", over(inside()), Restore { handle: 2 }, 0, 3, 0);

    add("advance over rules", over(rules()), Advance { handle: 1 }, 0, 2, 4);
    add("advance over rules and copies", over(mixed()), Advance { handle: 0 }, 0, 2, 4);
    add("advance over unchanged rules", rules(), Advance { handle: 0 }, 0, 0, 0);
    add("advance over one changed rule", [rules(), touch(&[2], 63)].concat(), Advance { handle: 0 }, 0, 1, 2);
    // Freed: 0; moved: 2 and 3; raised in domain 1: 0.
    add("commit of rules", over(inside()), Commit { handle: 2 }, 0, 0, 10);
    add("delete of rules", over(rules()), Call::delete(1, 1, 3), 0, 0, 6);

    add("open a cut add by rule", then(two_follow(SCALE), Act::Cut(Call::pattern(1, 2, SCALE, 1), 11)), Open, 0, 0, 4);
    add("open a cut advance over rules", then(over(rules()), Act::Cut(Advance { handle: 0 }, 128 + 9)), Open, 0, 0, 4);
    add("open a cut restore of rules", then(over(inside()), Act::Cut(Restore { handle: 1 }, 256 + 18)), Open, 0, 0, 8);

    add("look by rule", over(rules()), Look { handle: 1, cell: 3 }, 0, 0, 0);
    add("add by rule 4", two_follow(SCALE), Call::pattern(1, 2, 4, 1), 18, 0, 0);
    add("add by another rule", two_follow(SCALE), Call::pattern(1, 2, ONES, 1), 18, 0, 0);
    add("add via parent on a rule", [two_follow(SCALE), vec![Act::Done(Call::pattern(1, 1, SCALE, 1)), CREATE]].concat(),
        Call::via_parent(1, 1, 1), 19, 0, 0);
}

/// Advances that find some cells changed and others not, of every kind; and such as find none changed, which must store nothing.
#[rustfmt::skip]
fn shorter_advances(all: &mut Vec<Scenario>) {
    use Call::*;
    const ADVANCE: Call = Advance { handle: 0 };
    let one = || [vec![MAKE], write(0..4, 1), vec![CREATE, copy(0, 2, 1)]].concat();
    // Domain 1 holds cells 0 to 7. Domain 2 holds 0 to 2 via parent, 3 and 4 by rules, 5 and 6 by copies of its own, all read-write, and 7
    // by a copy, read-only.
    let mixed = || [vec![MAKE], write(0..8, 1), vec![CREATE, copy(0, 8, 1), CREATE, via_parent(0, 3, 1)], by_rule(3, SCALE, 1), by_rule(4, INDEX, 1),
                    write(5..8, 2), vec![copy(5, 2, 1), copy(7, 1, 0)]].concat();
    // Cells 1, 4, 5 and 7 differ from what is held, 7 being read-only: three are copied.
    let changed = || [mixed(), touch(&[1, 7], 63), touch(&[4], 0), touch(&[5], 31)].concat();
    let then = |before: Vec<Act>, act: Act| [before, vec![act]].concat();

    let mut add = |name, sizes, before, call, cells, pairs| all.push(Scenario { name, sizes, before, call, number: 0, cells, pairs });
    //   Name, sizes, what went before, the call, and its cells and pairs.
    add("advance, nothing changed", SMALL, one(), ADVANCE, 0, 0);
    add("advance, changed back", SMALL, [one(), write(0..2, 2), write(0..2, 1)].concat(), ADVANCE, 0, 0);
    add("advance, one of two changed", SMALL, [one(), write(1..2, 2)].concat(), ADVANCE, 1, 2);
    add("advance, a first byte changed", SMALL, [one(), touch(&[0], 0)].concat(), ADVANCE, 1, 2);
    add("advance, a last byte changed", SMALL, [one(), touch(&[1], 63)].concat(), ADVANCE, 1, 2);
    add("advance over a mix, nothing", MIXED, mixed(), ADVANCE, 0, 0);
    add("advance over a mix, read-only", MIXED, [mixed(), touch(&[7], 0)].concat(), ADVANCE, 0, 0);
    add("advance over a mix, some", MIXED, changed(), ADVANCE, 3, 6);
    add("advance over a mix, others", MIXED, [mixed(), touch(&[0, 3, 6], 63)].concat(), ADVANCE, 3, 6);
    add("advance over a mix, all", MIXED, [mixed(), write(0..8, 3)].concat(), ADVANCE, 7, 14);
    add("advance over a mix, again", MIXED, [changed(), vec![Act::Done(ADVANCE)], touch(&[2, 5], 0)].concat(), ADVANCE, 2, 4);
    // Cut after the store of word 6: 64 bytes and 4 words for each of three cells, and word 6.
    add("open a cut advance over a mix", MIXED, then(changed(), Act::Cut(ADVANCE, 3 * 68 + 1)), Open, 0, 6);
}

/// Adds of several ranges: in every order and over each other, of every kind, with labels raised, as many as there may be, cut and refused.
#[rustfmt::skip]
fn lists(all: &mut Vec<Scenario>) {
    use Call::*;
    use Record as R;
    let made = |cells: u32| [vec![MAKE], write(0..cells, 1)].concat();
    // A domain that holds nothing, in a memory of eight cells.
    let one = || [made(8), vec![CREATE]].concat();
    // One that holds cells 2 and 5, read-only.
    let held = || [one(), vec![copy(2, 1, 0), copy(5, 1, 0)], write(2..6, 2)].concat();
    // Domain 1 holds cells 0 to 2; domain 2 nothing; cells 5 and 6 follow a rule.
    let inside = || [made(8), vec![CREATE, copy(0, 3, 1), CREATE, Act::Follow { cell: 5, rule: SCALE }, Act::Follow { cell: 6, rule: SCALE }]].concat();
    // What the nine ranges of a tile need: the domain around it, and cells by rules.
    let tile = || [made(16), vec![CREATE, copy(0, 4, 1), CREATE], [9, 10].map(|cell| Act::Follow { cell, rule: INDEX }).to_vec(),
                   [12, 13].map(|cell| Act::Follow { cell, rule: SCALE }).to_vec(), vec![Act::Follow { cell: 5, rule: ZEROS }]].concat();
    let mixed = [R::copy(7, 1, 1), R::via_parent(0, 2, 1), R::pattern(5, 2, SCALE, 0), R::copy(3, 2, 0), R::via_parent(2, 1, 0)];
    let then = |before: Vec<Act>, act: Act| [before, vec![act]].concat();

    let mut add = |name, sizes, before, call: Call, number, cells, pairs| all.push(Scenario { name, sizes, before, call, number, cells, pairs });
    //   Name, sizes, what went before, the call, and its number, cells and pairs.
    add("list, rising", MIXED, one(), Call::ranges([R::copy(0, 1, 1), R::copy(3, 2, 0)]), 0, 3, 6);
    add("list, falling", MIXED, one(), Call::ranges([R::copy(6, 2, 1), R::copy(3, 1, 0), R::copy(0, 1, 1)]), 0, 4, 8);
    add("list, touching", MIXED, one(), Call::ranges([R::copy(2, 2, 1), R::copy(0, 2, 0), R::copy(4, 1, 1)]), 0, 5, 10);
    add("list, overlapping", MIXED, one(), Call::ranges([R::copy(3, 3, 0), R::copy(1, 4, 1), R::copy(5, 2, 1)]), 0, 6, 12);
    add("list, one cell many times", MIXED, one(), Call::ranges([R::copy(4, 1, 0), R::pattern(4, 1, ONES, 0), R::via_parent(4, 1, 1), R::copy(4, 1, 0)]), 0, 1, 2);
    add("list, labels raised", MIXED, held(), Call::ranges([R::copy(5, 2, 1), R::copy(2, 1, 1), R::copy(2, 1, 1), R::copy(0, 1, 0)]), 0, 2, 8);
    add("list, nothing new", MIXED, held(), Call::ranges([R::copy(5, 1, 0), R::copy(2, 1, 0)]), 0, 0, 0);
    add("list of every kind", MIXED, inside(), Call::ranges(mixed), 0, 3, 16);
    add("list without copies", MIXED, inside(), Call::ranges([R::pattern(6, 1, SCALE, 1), R::via_parent(0, 3, 0), R::pattern(5, 2, SCALE, 0)]), 0, 0, 10);
    add("nine ranges of a tile", TILED, tile(), Call::ranges(TILE), 0, 3, 22);
    add("list of one", MIXED, one(), Call::ranges([R::copy(3, 2, 1)]), 0, 2, 4);
    add("list of 64", Sizes { m: 64, e: 64, b: 8 }, [vec![MAKE, CREATE], (0..64).map(|cell| Act::Follow { cell, rule: ONES }).collect()].concat(),
        Call::ranges(one_cell_records(64, 2, 1).into_iter().map(|record| record.with_rule(ONES)).collect::<Vec<_>>()), 0, 0, 128);

    // Cut after the store of word 6, and some steps later.
    add("open a cut list", MIXED, then(inside(), Act::Cut(Call::ranges(mixed), 3 * 64 + 2 * 16 + 1)), Open, 0, 0, 16);
    add("open a tile that was cut", TILED, then(tile(), Act::Cut(Call::ranges(TILE), 3 * 64 + 2 * 22 + 9)), Open, 0, 0, 22);

    add("list of no record", MIXED, one(), Call::ranges([]), 20, 0, 0);
    add("list of 65", MIXED, one(), Call::ranges([R::copy(0, 1, 1); 65]), 20, 0, 0);
    add("list, its last refused by 7", MIXED, one(), Call::ranges([R::copy(0, 2, 1), R::copy(4, 1, 1), R::new(5, 1, 3, 0)]), 7, 0, 0);
    add("list, its last refused by 18", MIXED, one(), Call::ranges([R::copy(0, 2, 1), R::copy(4, 1, 1), R::pattern(5, 1, ONES, 0)]), 18, 0, 0);
    add("list without free entries", Sizes { e: 4, ..MIXED }, one(), Call::ranges([R::copy(0, 3, 1), R::copy(5, 2, 1)]), 16, 0, 0);
    add("list without free bodies", Sizes { b: 4, ..MIXED }, one(), Call::ranges([R::copy(0, 3, 1), R::copy(5, 2, 1)]), 17, 0, 0);
}

/// Advances that give cells outwards: copies and rules, beside cells that are held outside and unchanged ones, into the lowest free
/// entries; cut, refused, and what comes after. Each cut is followed by restores of all live domains.
#[rustfmt::skip]
fn inner_advances(all: &mut Vec<Scenario>) {
    use Call::*;
    const ADVANCE: Call = Advance { handle: 0 };
    let made = || [vec![MAKE], write(0..4, 1)].concat();
    // The inner domain holds these cells, and those around it nothing.
    let inner = |around: usize, count| [made(), vec![CREATE; around + 1], vec![copy(0, count, 1)]].concat();
    let two = || [inner(1, 2), write(0..2, 2)].concat();
    // Domain 1 holds one cell of two that domain 2 holds.
    let held = |label| [made(), vec![CREATE, copy(1, 1, label), CREATE, copy(0, 2, 1)], write(0..2, 2)].concat();
    // The first two entries and bodies are free again.
    let holes = || [made(), vec![CREATE, copy(2, 2, 1), CREATE, copy(0, 2, 1), Act::Done(Call::delete(1, 2, 2))], write(0..2, 2)].concat();
    let rules = || [made(), vec![CREATE, CREATE], by_rule(0, SCALE, 1), by_rule(1, INDEX, 1), write(0..2, UNRULED)].concat();
    // Domain 1 holds 0 to 2 read-write and 5 read-only. Domain 2 holds 0 via parent, 1, 4 and 5 by copies, 3 and 6 by rules, all read-write,
    // and 7 by a copy, read-only. So it gives 3, 4 and 6.
    let mixed = || [vec![MAKE], write(0..8, 1), vec![CREATE, copy(0, 3, 1), copy(5, 1, 0), CREATE, via_parent(0, 1, 1)], write(1..2, 2), vec![copy(1, 1, 1)],
                    by_rule(3, SCALE, 1), vec![copy(4, 1, 1)], write(5..6, 2), vec![copy(5, 1, 1)], by_rule(6, INDEX, 1), vec![copy(7, 1, 0)],
                    write(0..8, 3)].concat();
    let given = |before: Vec<Act>, version| [before, vec![Act::Done(ADVANCE)], write(0..2, version)].concat();
    let then = |before: Vec<Act>, act: Act| [before, vec![act]].concat();

    let mut add = |name, sizes, before, call, number, cells, pairs| all.push(Scenario { name, sizes, before, call, number, cells, pairs });
    //   Name, sizes, what went before, the call, and its number, cells and pairs.
    add("advance giving one", SMALL, [inner(1, 1), write(0..1, 2)].concat(), ADVANCE, 0, 1, 4);
    add("advance giving two", SMALL, two(), ADVANCE, 0, 2, 8);
    add("advance giving one of two", SMALL, [inner(1, 2), touch(&[1], 63)].concat(), ADVANCE, 0, 1, 4);
    add("advance giving nothing", SMALL, inner(1, 2), ADVANCE, 0, 0, 0);
    add("advance giving, one held", SMALL, held(1), ADVANCE, 0, 2, 6);
    add("advance giving, one read-only", SMALL, held(0), ADVANCE, 0, 2, 6);
    add("advance giving into holes", SMALL, holes(), ADVANCE, 0, 2, 8);
    add("advance giving rules", SMALL, rules(), ADVANCE, 0, 2, 8);
    add("advance giving to the second", SMALL, [inner(2, 1), write(0..1, 2)].concat(), ADVANCE, 0, 1, 4);
    add("advance giving over a mix", MIXED, mixed(), ADVANCE, 0, 6, 18);
    add("advance after giving", SMALL, given(two(), 3), ADVANCE, 0, 2, 4);

    add("restore the outer after giving", SMALL, given(two(), 3), Restore { handle: 1 }, 0, 2, 6);
    add("restore the inner after giving", SMALL, given(two(), 3), Restore { handle: 2 }, 0, 2, 0);
    add("restore rules that were given", SMALL, given(rules(), UNRULED), Restore { handle: 1 }, 0, 2, 6);
    add("commit after giving", SMALL, given(two(), 3), Commit { handle: 0 }, 0, 0, 6);

    // Cut after the store of word 6, and some steps later.
    add("open a cut advance that gives", SMALL, then(two(), Act::Cut(ADVANCE, 2 * 64 + 2 * 8 + 1)), Open, 0, 0, 8);
    add("open a cut giving over a mix", MIXED, then(mixed(), Act::Cut(ADVANCE, 6 * 64 + 2 * 18 + 9)), Open, 0, 0, 18);
    add("open a cut opening after giving", SMALL, [rules(), vec![Act::Cut(ADVANCE, 2 * 64 + 2 * 8 + 3), Act::Cut(Open, 5)]].concat(), Open, 0, 0, 8);

    add("advance without free entries", Sizes { e: 3, ..SMALL }, two(), ADVANCE, 16, 0, 0);
    add("advance giving without bodies", Sizes { b: 3, ..SMALL }, two(), ADVANCE, 17, 0, 0);
    add("advance without either", Sizes { e: 3, b: 3, ..SMALL }, two(), ADVANCE, 16, 0, 0);
}

/// The buffers and the notebook as they stand before the call. The buffers are what stood in them before the first make, any bytes.
pub fn prepare(scenario: &Scenario) -> Result<(Buffers, Notebook), String> {
    let mut buffers = Buffers::filled(scenario.sizes.lengths(), 0xA5, 0xA5A5_A5A5);
    let mut notebook = Notebook::new(None);
    for act in &scenario.before {
        match act {
            Act::Done(call) => {
                let reply = Linked.call(&mut buffers, call, FULL);
                if reply.code != 0 {
                    return Err(format!("{call}, made before, gives {}", reply.code));
                }
                let (steps, memory) = (reply.steps, &buffers.memory);
                note(&mut notebook, call, Ended::Done, steps, memory)?;
            }
            Act::Cut(call, steps) => {
                let reply = Linked.call(&mut buffers, call, *steps);
                if (reply.code, reply.steps) != (STOPPED, *steps) {
                    return Err(format!(
                        "{call}, to be stopped after {steps} steps, gives {reply:?}"
                    ));
                }
                note(&mut notebook, call, Ended::Stopped, *steps, &buffers.memory)?;
            }
            Act::Write { cell, version } => {
                let bytes = contents(*cell, *version);
                write_cell(&mut buffers, &mut notebook, *cell, &bytes);
            }
            Act::Follow { cell, rule } => follow_rule(&mut buffers, &mut notebook, *cell, *rule),
            Act::Touch { cell, byte } => touch_byte(&mut buffers, &mut notebook, *cell, *byte),
        }
    }
    Ok((buffers, notebook))
}

/// A program write of a whole cell.
fn write_cell(buffers: &mut Buffers, notebook: &mut Notebook, cell: u32, bytes: &[u8; 64]) {
    buffers.write_cell(cell, bytes);
    notebook.write(64 * cell as usize, 64);
}

/// A program write of a rule's bytes.
fn follow_rule(buffers: &mut Buffers, notebook: &mut Notebook, cell: u32, rule: u32) {
    write_cell(buffers, notebook, cell, &pattern(rule).expect("a rule"));
}

/// A program write of one byte, which stays below 251 as all bytes that are written.
fn touch_byte(buffers: &mut Buffers, notebook: &mut Notebook, cell: u32, byte: usize) {
    let at = 64 * cell as usize + byte;
    buffers.memory[at] = (buffers.memory[at] % 251 + 1) % 251;
    notebook.write(at, 1);
}

/// Room for calls of many cells: a compiler may have another code for long loops than for short ones.
pub const LONG: Sizes = Sizes {
    m: 40,
    e: 80,
    b: 80,
};

/// A session at random: each call that stores something is a case, and some are left cut, so that an opening comes next.
pub struct Session {
    random: Rng,
    buffers: Buffers,
    notebook: Notebook,
    version: u32,
    cut: bool,
}

impl Session {
    pub fn new(sizes: Sizes, seed: u64) -> Self {
        let mut buffers = Buffers::filled(sizes.lengths(), 0, 0);
        for cell in 0..sizes.m {
            buffers.write_cell(cell, &contents(cell, 0));
        }
        Linked.call(&mut buffers, &Call::Make, FULL);
        Session {
            random: Rng::new(seed),
            buffers,
            notebook: Notebook::new(None),
            version: 0,
            cut: false,
        }
    }

    /// The next call that stores something.
    pub fn next_case(&mut self) -> Result<Case, String> {
        loop {
            let call = if self.cut { Call::Open } else { self.choose()? };
            match call {
                // Fresh bytes in every cell, so that every byte put back shows.
                Call::Restore { .. } => self.write(0..self.buffers.sizes().m)?,
                Call::Advance { .. } => self.change_some()?,
                _ => {}
            }
            let mut tried = self.buffers.clone();
            let reply = Linked.call(&mut tried, &call, FULL);
            if reply.code == 0 && reply.steps > 0 {
                let (before, notebook) = (self.buffers.clone(), self.notebook.clone());
                return Case::of(call.to_string(), call, before, notebook);
            }
            if self.cut {
                return Err(format!("the opening after a cut gives {reply:?}"));
            }
        }
    }

    /// Goes on from where the case ended, or from a cut inside it that an opening completes.
    pub fn go_on(&mut self, case: &Case) -> Result<(), String> {
        let length = case.plan.steps.len();
        let mut ended = Ended::Done;
        let mut steps = length;
        if case.call != Call::Open
            && let Some(from) = case.plan.made_from
            && from < length
            && self.random.below(4) == 0
        {
            ended = Ended::Stopped;
            steps = from + self.random.below((length - from) as u64) as usize;
        }
        self.cut = ended == Ended::Stopped;
        self.buffers = case.before.clone();
        plan::play(&case.plan.steps[..steps], &mut self.buffers);
        let (steps, memory) = (steps as u64, &self.buffers.memory);
        note(&mut self.notebook, &case.call, ended, steps, memory)
    }

    /// Writes these cells, each with the next version that differs in every byte from what anybody holds of it: two versions do so, and
    /// of a rule some.
    fn write(&mut self, cells: std::ops::Range<u32>) -> Result<(), String> {
        let state = state::state(&self.buffers)?;
        for cell in cells {
            let held: Vec<_> = (0..state.domains.len())
                .filter_map(|domain| state.value(domain, cell))
                .collect();
            let differs = |version: &u32| {
                let bytes = contents(cell, *version);
                let mut both = held.iter().flat_map(|value| value.iter().zip(&bytes));
                both.all(|(one, other)| one != other)
            };
            self.version = (1..=251)
                .map(|more| (self.version + more) % 251)
                .find(differs)
                .ok_or("every version is held")?;
            let bytes = contents(cell, self.version);
            write_cell(&mut self.buffers, &mut self.notebook, cell, &bytes);
        }
        Ok(())
    }

    /// Changes some of the cells that the innermost domain holds: in one byte, or in all of them.
    fn change_some(&mut self) -> Result<(), String> {
        let state = state::state(&self.buffers)?;
        let Some(inner) = state.domains.last() else {
            return Ok(());
        };
        let many = self.random.between(1, 4);
        for &cell in inner.cells.keys() {
            match self.random.below(2 * many) {
                0 => self.write(cell..cell + 1)?,
                1 => {
                    let byte = *self.random.pick(&[0, 31, 63]);
                    touch_byte(&mut self.buffers, &mut self.notebook, cell, byte);
                }
                _ => {}
            }
        }
        Ok(())
    }

    /// A cell that neither the innermost domain nor the one around it holds: once it is held and has changed, an advance gives it outwards.
    fn lacking(&mut self) -> Result<Option<u32>, String> {
        let state = state::state(&self.buffers)?;
        let [.., outer, inner] = &state.domains[..] else {
            return Ok(None);
        };
        let cells = 0..self.buffers.sizes().m;
        let free = cells.filter(|cell| !outer.holds(*cell) && !inner.holds(*cell));
        let free: Vec<u32> = free.collect();
        Ok(match free.is_empty() {
            true => None,
            false => Some(*self.random.pick(&free)),
        })
    }

    /// An add by a rule: memory is made to follow it in most cases.
    fn choose_pattern(&mut self, first: u32, count: u32, label: u32) -> Call {
        let rule = self.random.below(4) as u32;
        if self.random.below(8) > 0 {
            for cell in first..first + count {
                follow_rule(&mut self.buffers, &mut self.notebook, cell, rule);
            }
        }
        Call::pattern(first, count, rule, label)
    }

    /// An add of several ranges, which meet each other at times.
    fn choose_list(&mut self) -> Call {
        let cells = u64::from(self.buffers.sizes().m);
        let many = self.random.between(2, 9);
        let mut records = Vec::new();
        for _ in 0..many {
            let first = self.random.below(cells) as u32;
            let most = (cells - u64::from(first)).min(4);
            let count = self.random.between(1, most) as u32;
            let label = self.random.below(2) as u32;
            records.push(match self.random.below(8) {
                0 => Record::via_parent(first, count, label),
                1 => {
                    let rule = self.random.below(4) as u32;
                    follow_rule(&mut self.buffers, &mut self.notebook, first, rule);
                    Record::pattern(first, 1, rule, label)
                }
                _ => Record::copy(first, count, label),
            });
        }
        Call::ranges(records)
    }

    fn choose(&mut self) -> Result<Call, String> {
        let handles = self.notebook.handles();
        let any = match handles.is_empty() {
            true => 0,
            false => *self.random.pick(&handles),
        };
        let cells = u64::from(self.buffers.sizes().m);
        let first = self.random.below(cells) as u32;
        let count = self.random.between(1, cells - u64::from(first)) as u32;
        let label = self.random.below(2) as u32;
        if self.random.below(3) == 0 {
            let cell = self.random.below(cells) as u32;
            self.write(cell..cell + 1)?;
        }
        Ok(match self.random.below(26) {
            0 if handles.len() > 2 => Call::Make,
            0..=4 => Call::Create,
            5..=7 => match self.lacking()? {
                Some(cell) if self.random.below(2) == 0 => Call::copy(cell, 1, 1),
                _ => Call::copy(first, count, label),
            },
            8..=9 => self.choose_pattern(first, 1 + count / 3, label),
            10..=12 => Call::via_parent(first, count, label),
            13 => Call::delete(any, first, 1),
            14..=15 => Call::Commit { handle: 0 },
            16..=19 => Call::Advance { handle: 0 },
            20..=23 => self.choose_list(),
            _ => Call::Restore { handle: any },
        })
    }
}
