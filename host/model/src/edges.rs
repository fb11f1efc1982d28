//! Document 01's "edges to run" and those of requests A.1 to A.4, as scripts that any store can be put
//! through. Cells are filled with one byte, or follow a rule.

use crate::calls::{Call, READ_ONLY as RO, READ_WRITE as RW, Record, Sizes};
use crate::reply::{BY_RULE, IN_BODIES, IN_MEMORY};
use crate::rules::{INDEX, ONES, SCALE, ZEROS};

/// One line of a script.
#[derive(Clone, Debug)]
pub enum Line {
    /// The program fills a cell with one byte.
    Fill(u32, u8),
    /// The program writes the bytes of a rule into a cell.
    Pattern(u32, u32),
    /// The program writes one byte of memory.
    Byte(usize, u8),
    /// A call, and the number it has to answer.
    Answers(Call, u32),
    /// A call that has to be done in exactly so many steps.
    Takes(Call, u64),
    /// A create that has to give this handle.
    CreateGives(u32),
    /// The cell in memory is filled with this byte.
    See(u32, u8),
    /// The cell in memory has the bytes of this rule.
    SeePattern(u32, u32),
    /// Look at this handle and cell tells this place and this rule.
    Looks(u32, u32, u32, u32),
    /// So many domains are live.
    Live(usize),
    /// A word of the table is set by hand.
    Set(usize, u32),
}

/// A named script on a fresh store.
#[derive(Clone, Debug)]
pub struct Script {
    pub name: &'static str,
    pub sizes: Sizes,
    pub lines: Vec<Line>,
}

/// The sizes of an edge where nothing else is said.
const USUAL: Sizes = Sizes { m: 4, e: 8, b: 8 };

/// Every edge but table lengths and damaged tables, which need no script.
pub fn scripts() -> Vec<Script> {
    [
        document_01(),
        patterns(),
        shorter_advances(),
        lists(),
        inner_advances(),
    ]
    .concat()
}

#[rustfmt::skip]
fn document_01() -> Vec<Script> {
    use Line::*;
    let usual = USUAL;
    let create = || Answers(Call::Create, 0);
    let copy = |cell, label| Answers(Call::copy(cell, 1, label), 0);
    let via = |cell, label, answer| Answers(Call::via_parent(cell, 1, label), answer);
    let restore = |handle| Answers(Call::Restore { handle }, 0);
    let advance = |answer| Answers(Call::Advance { handle: 0 }, answer);
    let commit = || Answers(Call::Commit { handle: 0 }, 0);

    let mut list = Vec::new();
    let mut edge = |name, sizes, lines| list.push(Script { name, sizes, lines });
    edge("a copy comes back", usual,
        vec![Fill(0, 7), create(), copy(0, RW), Fill(0, 9), restore(1), See(0, 7)]);
    // Request A.4: done, where it was refused by 15.
    edge("advance of a cell that the next domain out lacks", usual,
        vec![create(), create(), copy(0, RW), Takes(Call::Advance { handle: 0 }, 0), Fill(0, 9), Takes(Call::Advance { handle: 0 }, 78)]);
    edge("commit raises the label, so the advance takes the cell", usual,
        vec![Fill(0, 7), create(), copy(0, RO), create(), copy(0, RW), Fill(0, 9), commit(), advance(0), Fill(0, 11), restore(1), See(0, 9)]);
    edge("via parent where memory has changed", usual,
        vec![Fill(0, 7), create(), copy(0, RO), Fill(0, 9), create(), via(0, RO, 12)]);
    edge("a copy over via parent keeps the first value", usual,
        vec![Fill(0, 7), create(), copy(0, RW), create(), via(0, RW, 0), Fill(0, 9), copy(0, RO), restore(2), See(0, 7)]);
    edge("oldest wins in a restore", usual,
        vec![Fill(0, 7), create(), copy(0, RW), Fill(0, 9), create(), copy(0, RW), Fill(0, 11), restore(1), See(0, 7), Live(1)]);
    edge("delete under a via parent holder", usual,
        vec![create(), copy(0, RO), create(), via(0, RO, 0), Answers(Call::delete(1, 0, 1), 14)]);
    // Request A.2: refused only after a write that changes the cell.
    edge("advance without a free body", Sizes { b: 1, ..usual },
        vec![Fill(0, 7), create(), copy(0, RW), Takes(Call::Advance { handle: 0 }, 0), Fill(0, 9), advance(17)]);
    edge("advance with one free body", Sizes { b: 2, ..usual },
        vec![Fill(0, 7), create(), copy(0, RW), Fill(0, 9), Takes(Call::Advance { handle: 0 }, 72), Fill(0, 11), restore(1), See(0, 9)]);
    edge("entries are counted for new cells only", Sizes { e: 1, ..usual },
        vec![create(), copy(0, RO), Answers(Call::copy(0, 2, RO), 16), copy(0, RO)]);
    edge("eight domains", usual,
        (1..=8).map(CreateGives).chain([Answers(Call::Create, 9), Live(8)]).collect());
    edge("the last cell, and one past it", usual,
        vec![create(), copy(3, RO), Answers(Call::copy(4, 1, RO), 8), Answers(Call::copy(0, 0, RO), 8)]);
    edge("restore with nobody live", usual,
        vec![create(), commit(), Answers(Call::Restore { handle: 0 }, 5)]);
    edge("the last handle", usual,
        vec![Set(5, 4_294_967_294), CreateGives(4_294_967_294), Answers(Call::Create, 10)]);
    // Not in document 01's list, but told by it: the smallest store.
    edge("the smallest store", Sizes { m: 1, e: 1, b: 1 },
        vec![Fill(0, 5), create(), copy(0, RW), Fill(0, 6), restore(0), See(0, 5), advance(0), Fill(0, 6), advance(17), commit(), Live(0)]);
    list
}

/// The edges of request A.1.
#[rustfmt::skip]
fn patterns() -> Vec<Script> {
    use Line::*;
    let create = || Answers(Call::Create, 0);
    let by_rule = |cell, rule, label, answer| Answers(Call::pattern(cell, 1, rule, label), answer);
    let copy = |cell, label| Answers(Call::copy(cell, 1, label), 0);
    let via = |cell, answer| Answers(Call::via_parent(cell, 1, RO), answer);
    let restore = |handle| Answers(Call::Restore { handle }, 0);
    let advance = |answer| Answers(Call::Advance { handle: 0 }, answer);
    let commit = || Answers(Call::Commit { handle: 0 }, 0);
    let is_rule = |handle, cell, rule| Looks(handle, cell, BY_RULE, rule);
    let is_copy = |handle, cell| Looks(handle, cell, IN_BODIES, 0);
    let each = |line: &dyn Fn(u32) -> Line| (0..4).map(line).collect::<Vec<_>>();

    let mut list = Vec::new();
    let mut edge = |name, sizes, lines: Vec<Line>| list.push(Script { name, sizes, lines });
    // Cell c follows rule c.
    let held = |label| [each(&|c| Pattern(c, c)), vec![create()], each(&|c| by_rule(c, c, label, 0))].concat();
    for (name, label) in [("each rule comes back, read-write", RW), ("each rule comes back, read-only", RO)] {
        edge(name, USUAL, [held(label), each(&|c| is_rule(1, c, c)), each(&|c| Fill(c, 9)),
            vec![restore(1)], each(&|c| SeePattern(c, c)), each(&|c| is_rule(0, c, c))].concat());
    }
    edge("an advance turns changed read-write rules into copies", USUAL, [held(RW), each(&|c| Fill(c, 9)), vec![advance(0)],
        each(&|c| is_copy(1, c)), each(&|c| Fill(c, 11)), vec![restore(1)], each(&|c| See(c, 9))].concat());
    edge("an advance keeps read-only rules", USUAL, [held(RO), each(&|c| Fill(c, 9)), vec![advance(0)],
        each(&|c| is_rule(1, c, c)), each(&|c| Fill(c, 11)), vec![restore(1)], each(&|c| SeePattern(c, c))].concat());
    edge("a scale of one, advanced", USUAL,
        vec![Pattern(0, SCALE), create(), by_rule(0, SCALE, RW, 0), is_rule(1, 0, SCALE), Fill(0, 8), advance(0), is_copy(1, 0),
             Fill(0, 0), restore(1), See(0, 8)]);

    edge("a rule above 3, with a new cell and without", USUAL,
        vec![create(), by_rule(0, 4, RO, 18), copy(0, RO), by_rule(0, 4, RO, 18), by_rule(0, 4, RW, 18),
             by_rule(0, u32::MAX, RO, 18), by_rule(0, ZEROS, RO, 0)]);
    edge("one byte off at the first and at the last place", USUAL,
        vec![Pattern(1, SCALE), create(), Byte(64, 1), by_rule(1, SCALE, RO, 18), Byte(64, 0), Byte(127, 62), by_rule(1, SCALE, RO, 18),
             Byte(127, 63), by_rule(1, ONES, RO, 18), by_rule(1, SCALE, RO, 0)]);
    edge("one byte off in the last cell of a range", USUAL,
        vec![Pattern(0, INDEX), Pattern(1, INDEX), Pattern(2, INDEX), create(), Byte(191, 0), Answers(Call::pattern(0, 3, INDEX, RW), 18),
             Looks(1, 0, IN_MEMORY, 0), Byte(191, 63), Answers(Call::pattern(0, 3, INDEX, RW), 0), is_rule(1, 2, INDEX)]);
    edge("a held cell is not compared", USUAL,
        vec![Pattern(0, ONES), create(), by_rule(0, ONES, RO, 0), Fill(0, 9), Pattern(1, ONES), Answers(Call::pattern(0, 2, ONES, RW), 0),
             restore(1), SeePattern(0, ONES), SeePattern(1, ONES)]);

    edge("via parent on a rule", USUAL,
        vec![Pattern(0, INDEX), create(), by_rule(0, INDEX, RW, 0), create(), via(0, 19), Fill(0, 9), via(0, 12), copy(0, RW), via(0, 0)]);
    edge("a copy, a rule inside it, and via parent on that", USUAL,
        vec![create(), copy(0, RW), create(), by_rule(0, ZEROS, RW, 0), create(), via(0, 19), Fill(0, 9), via(0, 12)]);
    edge("11 and 12 are put to all cells before 19", USUAL,
        vec![Fill(1, 7), create(), by_rule(0, ZEROS, RO, 0), copy(1, RO), Fill(1, 8), create(), Answers(Call::via_parent(0, 3, RO), 11),
             Answers(Call::via_parent(0, 2, RO), 12), Fill(1, 7), Answers(Call::via_parent(0, 2, RO), 19), via(1, 0),
             Answers(Call::via_parent(0, 2, RO), 19)]);

    edge("commit of a rule where the outer domain lacks the cell", USUAL,
        vec![Pattern(1, SCALE), create(), create(), by_rule(1, SCALE, RW, 0), Fill(1, 9), commit(), is_rule(1, 1, SCALE), restore(1),
             SeePattern(1, SCALE), Fill(1, 5), advance(0), is_copy(1, 1)]);
    edge("commit of a rule where the outer domain holds a copy", USUAL,
        vec![Fill(0, 7), create(), copy(0, RO), Pattern(0, INDEX), create(), by_rule(0, INDEX, RW, 0), commit(), is_copy(1, 0), restore(1),
             See(0, 7), Fill(0, 11), advance(0), Fill(0, 12), restore(1), See(0, 11)]);
    edge("commit of a copy where the outer domain holds a rule", USUAL,
        vec![create(), by_rule(0, ZEROS, RO, 0), Fill(0, 5), create(), copy(0, RW), Fill(0, 6), commit(), is_rule(1, 0, ZEROS), restore(1),
             See(0, 0), Fill(0, 4), advance(0), is_copy(1, 0)]);
    edge("a rule outside, a copy inside: oldest wins", USUAL,
        vec![Pattern(0, SCALE), create(), by_rule(0, SCALE, RW, 0), Fill(0, 9), create(), copy(0, RW), Fill(0, 11), is_rule(1, 0, SCALE),
             is_copy(2, 0), restore(1), SeePattern(0, SCALE), Live(1)]);

    edge("a held cell keeps its rule", USUAL,
        vec![Pattern(0, SCALE), create(), by_rule(0, SCALE, RO, 0), by_rule(0, ONES, RO, 0), copy(0, RW), is_rule(1, 0, SCALE), Fill(0, 9),
             restore(1), SeePattern(0, SCALE), Fill(0, 9), advance(0), is_copy(1, 0)]);
    edge("a held copy stays a copy", USUAL,
        vec![create(), copy(0, RO), by_rule(0, ZEROS, RW, 0), is_copy(1, 0), Fill(0, 3), by_rule(0, ONES, RO, 0), advance(0), restore(1), See(0, 3)]);
    edge("a rule deleted, and the cell held by a copy", USUAL,
        vec![create(), by_rule(0, ZEROS, RW, 0), Answers(Call::delete(1, 0, 1), 0), Looks(1, 0, IN_MEMORY, 0), Fill(0, 2), copy(0, RO),
             Fill(0, 9), restore(1), See(0, 2)]);
    edge("kinds 0 and 1 take any rule number", USUAL,
        vec![create(), Answers(Call::copy(0, 1, RW).with_rule(4), 0), create(), Answers(Call::via_parent(0, 1, RW).with_rule(u32::MAX), 0)]);

    edge("7 and 8 come before 18, and 18 before 16", Sizes { e: 1, ..USUAL },
        vec![create(), Answers(Call::pattern(0, 1, 4, 2), 7), Answers(Call::add(0, 1, 3, RO), 7), Answers(Call::pattern(4, 1, 4, RO), 8),
             Answers(Call::pattern(3, 2, 4, RO), 8), by_rule(0, ZEROS, RW, 0), by_rule(1, 4, RO, 18), by_rule(1, ONES, RO, 18),
             by_rule(1, ZEROS, RO, 16)]);
    edge("a rule number above B, eight times", Sizes { m: 8, e: 8, b: 1 },
        [(0..8).map(|c| Pattern(c, SCALE)).collect(), vec![create(), Answers(Call::pattern(0, 8, SCALE, RW), 0), Answers(Call::Open, 0)],
         (0..8).map(|c| Fill(c, 9)).collect(), vec![restore(1)], (0..8).map(|c| SeePattern(c, SCALE)).collect(),
         (0..8).map(|c| is_rule(1, c, SCALE)).collect(), vec![advance(0), Fill(0, 9), Fill(7, 9), advance(17)]].concat());
    edge("a copy in body 2 beside two cells by rule 2", USUAL,
        vec![Fill(2, 7), create(), Answers(Call::copy(0, 3, RW), 0), Answers(Call::delete(1, 0, 2), 0), Pattern(0, INDEX), Pattern(1, INDEX),
             Answers(Call::pattern(0, 2, INDEX, RW), 0), Answers(Call::Open, 0), Fill(0, 1), Fill(1, 1), Fill(2, 1), restore(1),
             SeePattern(0, INDEX), SeePattern(1, INDEX), See(2, 7), Fill(1, 1), Fill(2, 1), advance(0), is_rule(1, 0, INDEX), is_copy(1, 1)]);
    edge("a rule takes no body", Sizes { b: 1, ..USUAL },
        vec![create(), copy(0, RO), Answers(Call::copy(1, 1, RO), 17), by_rule(1, ZEROS, RO, 0), Fill(1, 5), advance(0), by_rule(1, ZEROS, RW, 0),
             advance(17)]);
    edge("an advance counts a changed read-write rule", Sizes { b: 2, ..USUAL },
        vec![create(), copy(0, RO), by_rule(1, ZEROS, RW, 0), Fill(1, 5), advance(0), is_copy(1, 1), Fill(1, 6), advance(17)]);
    edge("the smallest store, by a rule", Sizes { m: 1, e: 1, b: 1 },
        vec![Pattern(0, SCALE), create(), by_rule(0, SCALE, RW, 0), Fill(0, 6), restore(0), SeePattern(0, SCALE), advance(0), is_rule(1, 0, SCALE),
             Fill(0, 6), advance(0), is_copy(1, 0), Fill(0, 7), advance(17), commit(), Live(0)]);
    list
}

/// The edges of request A.2: an advance copies the changed cells alone.
#[rustfmt::skip]
fn shorter_advances() -> Vec<Script> {
    use Line::*;
    let create = || Answers(Call::Create, 0);
    let add = |call| Answers(call, 0);
    let restore = |handle| Answers(Call::Restore { handle }, 0);
    let advance = |answer| Answers(Call::Advance { handle: 0 }, answer);
    // So many cells are copied.
    let copies = |k: u64| Takes(Call::Advance { handle: 0 }, if k == 0 { 0 } else { 70 * k + 2 });
    let is_rule = |handle, cell, rule| Looks(handle, cell, BY_RULE, rule);
    let is_copy = |handle, cell| Looks(handle, cell, IN_BODIES, 0);
    // A cell is via parent exactly where it may not be deleted further out.
    let via = |out, cell| Answers(Call::delete(out, cell, 1), 14);
    let fill = |byte| (0..4).map(|c| Fill(c, byte)).collect::<Vec<_>>();
    let see = |byte| (0..4).map(|c| See(c, byte)).collect::<Vec<_>>();

    let mut list = Vec::new();
    let mut edge = |name, sizes, lines: Vec<Line>| list.push(Script { name, sizes, lines });
    // Domain 1 holds all four cells as copies of 7, read-write.
    let held = || [fill(7), vec![create(), add(Call::copy(0, 4, RW))]].concat();
    edge("nothing has changed", USUAL, [held(), vec![copies(0), copies(0)], fill(9), vec![restore(1)], see(7)].concat());
    edge("nothing has changed, and no body is free", Sizes { b: 4, ..USUAL },
        [held(), vec![copies(0), Fill(3, 9), advance(17), Fill(3, 7), copies(0)]].concat());
    edge("a domain that holds nothing", USUAL, vec![create(), copies(0), create(), copies(0)]);
    edge("the first byte of a cell", USUAL, [held(), vec![Byte(64, 8), copies(1), Byte(64, 9), restore(1), Byte(64, 7), See(1, 7)]].concat());
    edge("the last byte of a cell", USUAL, [held(), vec![Byte(127, 8), copies(1), Byte(127, 9), restore(1), Byte(127, 7), See(1, 7)]].concat());
    edge("changed, and changed back", USUAL,
        [held(), vec![Fill(2, 9), Fill(2, 7), copies(0), Byte(191, 9), Byte(191, 7), copies(0)]].concat());
    edge("changed, advanced, and changed back", USUAL,
        [held(), vec![Fill(2, 9), copies(1), Fill(2, 7), copies(1), Fill(2, 9), restore(1), See(2, 7)]].concat());
    edge("some have changed", USUAL,
        [held(), vec![Fill(0, 9), Fill(3, 9), copies(2), copies(0)], fill(11), vec![restore(1), See(0, 9), See(1, 7), See(2, 7), See(3, 9)]].concat());
    edge("all have changed, and bodies are enough", USUAL,
        [held(), fill(9), vec![copies(4), copies(0)], fill(11), vec![copies(4), restore(1)], see(11)].concat());
    edge("all have changed, and a body is missing", Sizes { b: 7, ..USUAL },
        [held(), fill(9), vec![advance(17), Fill(1, 7), copies(3), Fill(1, 9), copies(1)], fill(11), vec![restore(1)], see(9)].concat());
    edge("three have changed, and a body is missing", Sizes { b: 6, ..USUAL },
        [held(), vec![Fill(0, 9), Fill(1, 9), Fill(3, 9), advance(17), Fill(1, 7), copies(2)]].concat());

    edge("a changed read-only cell is neither copied nor counted", Sizes { b: 3, ..USUAL },
        vec![Fill(0, 7), Fill(1, 7), create(), add(Call::copy(0, 1, RO)), add(Call::copy(1, 1, RW)), Fill(0, 9), copies(0), Fill(1, 9), copies(1),
             Fill(1, 11), restore(1), See(0, 7), See(1, 9)]);

    // Domain 1 holds 7 in all cells, domain 2 the first two via parent.
    let rests = || [held(), vec![create(), add(Call::via_parent(0, 2, RW))]].concat();
    edge("via parent, unchanged and then changed", USUAL,
        [rests(), vec![copies(0), via(1, 0), via(1, 1), Fill(1, 9), copies(1), via(1, 0), Fill(0, 9), copies(1), Answers(Call::delete(1, 0, 2), 0),
                       Fill(0, 11), Fill(1, 11), restore(2), See(0, 9), See(1, 9)]].concat());
    edge("via parent, changed and changed back", USUAL, [rests(), vec![Fill(1, 9), Fill(1, 7), copies(0), via(1, 1)]].concat());
    edge("via parent, changed in the last byte", USUAL, [rests(), vec![Byte(127, 9), copies(1), via(1, 0), Answers(Call::delete(1, 1, 1), 0)]].concat());
    edge("via parent of via parent", Sizes { e: 12, ..USUAL },
        [rests(), vec![create(), add(Call::via_parent(0, 2, RW)), copies(0), via(2, 0), Fill(0, 9), copies(1), via(1, 0), via(2, 1), is_copy(3, 0),
                       Fill(0, 11), restore(3), See(0, 9), restore(2), See(0, 7)]].concat());
    edge("via parent takes no body while it is unchanged", Sizes { b: 5, ..USUAL },
        [rests(), vec![copies(0), Fill(0, 9), copies(1), Fill(1, 9), advance(17), Fill(1, 7), copies(0)]].concat());

    // Domain 1 holds 7, domain 2 its own copy of 9.
    let later = || vec![Fill(0, 7), create(), add(Call::copy(0, 1, RW)), Fill(0, 9), create(), add(Call::copy(0, 1, RW))];
    edge("the domain's own value counts: like it", USUAL, [later(), vec![copies(0), Fill(0, 11), restore(2), See(0, 9), restore(1), See(0, 7)]].concat());
    edge("the domain's own value counts: like the parent's", USUAL,
        [later(), vec![Fill(0, 7), copies(1), Fill(0, 11), restore(2), See(0, 7)]].concat());

    edge("a rule, unchanged and then changed", Sizes { b: 1, ..USUAL },
        vec![Pattern(0, INDEX), create(), add(Call::pattern(0, 1, INDEX, RW)), copies(0), is_rule(1, 0, INDEX), Byte(63, 0), copies(1), is_copy(1, 0),
             Byte(63, 63), advance(17), Byte(63, 0), copies(0), Fill(0, 1), restore(1), Byte(63, 63), SeePattern(0, INDEX)]);
    edge("a rule, changed and changed back", USUAL,
        vec![Pattern(0, SCALE), create(), add(Call::pattern(0, 1, SCALE, RW)), Fill(0, 0), Pattern(0, SCALE), copies(0), is_rule(1, 0, SCALE),
             Fill(0, 0), restore(1), SeePattern(0, SCALE)]);
    edge("another rule's bytes are a change", USUAL,
        vec![create(), add(Call::pattern(0, 1, ZEROS, RW)), Pattern(0, ONES), copies(1), is_copy(1, 0), Fill(0, 1), restore(1), SeePattern(0, ONES)]);
    edge("each kind, unchanged and changed", Sizes { m: 6, e: 12, b: 11 },
        vec![create(), add(Call::copy(0, 6, RW)), create(), add(Call::via_parent(0, 2, RW)), add(Call::pattern(2, 2, ZEROS, RW)),
             add(Call::copy(4, 2, RW)), copies(0), Fill(1, 9), Fill(3, 9), Fill(5, 9), copies(3), via(1, 0), Answers(Call::delete(1, 1, 1), 0),
             is_rule(2, 2, ZEROS), is_copy(2, 3), is_copy(2, 4), is_copy(2, 5), restore(2), See(0, 0), See(1, 9), See(2, 0), See(3, 9), See(4, 0), See(5, 9)]);
    list
}

/// The nine ranges of a tile, in a memory of 16 cells: three via the domain around it, which has to
/// hold cells 0 to 3, three copies and three by rules. They do not rise by cell. Eleven cells.
pub const TILE: [Record; 9] = [
    Record::copy(15, 1, RW),
    Record::via_parent(0, 1, RW),
    Record::pattern(12, 2, SCALE, RW),
    Record::copy(4, 1, RW),
    Record::via_parent(1, 1, RO),
    Record::pattern(5, 1, ZEROS, RW),
    Record::via_parent(2, 1, RW),
    Record::copy(8, 1, RO),
    Record::pattern(9, 2, INDEX, RO),
];

/// So many records of one cell each, from cell 0 on.
pub fn one_cell_records(many: u32, kind: u32, label: u32) -> Vec<Record> {
    (0..many)
        .map(|cell| Record::new(cell, 1, kind, label))
        .collect()
}

/// The edges of request A.3: an add of several ranges.
#[rustfmt::skip]
fn lists() -> Vec<Script> {
    use Line::*;
    use Record as R;
    let create = || Answers(Call::Create, 0);
    let add = |call| Answers(call, 0);
    let list = |records: &[R], answer| Answers(Call::ranges(records), answer);
    // A list that is done: so many copies, and so many entries taken or raised.
    let takes = |records: &[R], copies: u64, entries: u64| {
        Takes(Call::ranges(records), 64 * copies + if entries == 0 { 0 } else { 6 * entries + 2 })
    };
    let restore = |handle| Answers(Call::Restore { handle }, 0);
    let copies = |k: u64| Takes(Call::Advance { handle: 0 }, if k == 0 { 0 } else { 70 * k + 2 });
    let is_rule = |handle, cell, rule| Looks(handle, cell, BY_RULE, rule);
    let is_copy = |handle, cell| Looks(handle, cell, IN_BODIES, 0);
    let is_free = |handle, cell| Looks(handle, cell, IN_MEMORY, 0);
    let via = |out, cell| Answers(Call::delete(out, cell, 1), 14);
    let fill = |cells: std::ops::Range<u32>, byte| cells.map(|c| Fill(c, byte)).collect::<Vec<_>>();
    let see = |cells: std::ops::Range<u32>, byte| cells.map(|c| See(c, byte)).collect::<Vec<_>>();

    let mut list_of = Vec::new();
    let mut edge = |name, sizes, lines: Vec<Line>| list_of.push(Script { name, sizes, lines });
    let eight = Sizes { m: 8, e: 8, b: 8 };
    let large = Sizes { m: 16, e: 24, b: 16 };

    // Cells 0 to 3 have 7, and domain 1 holds them; then come the values of the tile's cells.
    let tile = || [fill(0..4, 7), vec![create(), add(Call::copy(0, 4, RW)), Fill(4, 14), Fill(8, 18), Fill(15, 25), Pattern(9, INDEX), Pattern(10, INDEX),
                   Pattern(12, SCALE), Pattern(13, SCALE), create()]].concat();
    let back = || [see(0..3, 7), vec![See(4, 14), See(5, 0), See(8, 18), SeePattern(9, INDEX), SeePattern(10, INDEX), SeePattern(12, SCALE),
                   SeePattern(13, SCALE), See(15, 25)]].concat();
    edge("nine ranges of a tile", large,
        [tile(), vec![takes(&TILE, 3, 11), via(1, 0), via(1, 1), via(1, 2), is_copy(2, 4), is_copy(2, 8), is_copy(2, 15), is_rule(2, 5, ZEROS),
                      is_rule(2, 9, INDEX), is_rule(2, 12, SCALE), is_rule(2, 13, SCALE), is_free(2, 6), takes(&TILE, 0, 0)],
         fill(0..16, 99), vec![restore(2)], back(), see(6..8, 99)].concat());
    // Read-only: cells 1, 8, 9 and 10. The domain around it holds the others via parent's cells only.
    edge("nine ranges of a tile, committed", large,
        [tile(), vec![takes(&TILE, 3, 11), Answers(Call::Commit { handle: 0 }, 0)], fill(0..16, 99), vec![restore(1)], back(), vec![See(3, 7)]].concat());

    edge("no record, one, 64 and 65", Sizes { m: 65, e: 65, b: 1 },
        vec![create(), list(&[], 20), takes(&[R::pattern(64, 1, ZEROS, RO)], 0, 1), list(&one_cell_records(65, 2, RO), 20), is_free(1, 0),
             takes(&one_cell_records(64, 2, RO), 0, 64), is_rule(1, 63, ZEROS), takes(&one_cell_records(64, 2, RO), 0, 0), list(&one_cell_records(65, 2, RO), 20)]);
    edge("64 copies of one cell", USUAL,
        vec![Fill(1, 7), create(), list(&[R::copy(1, 1, RO); 65], 20), takes(&[R::copy(1, 1, RO); 64], 1, 1), takes(&[R::copy(1, 1, RW); 64], 0, 1),
             Fill(1, 9), restore(1), See(1, 7)]);
    edge("20 comes after 5 and 6", USUAL,
        vec![Answers(Call::ranges([]), 5), create(), Answers(Call::ranges([]).on(7), 5), Answers(Call::ranges([R::copy(0, 1, RO); 65]).on(7), 5), create(),
             Answers(Call::ranges([]).on(1), 6), Answers(Call::ranges([R::copy(0, 1, RO); 65]).on(1), 6), Answers(Call::ranges([]).on(2), 20)]);
    edge("20 comes before any record's questions", USUAL,
        vec![create(), list(&[R::new(0, 1, 3, RO); 65], 20), list(&[R::new(0, 1, 3, RO); 64], 7), list(&[R::copy(4, 1, RO); 65], 20),
             list(&[R::copy(4, 1, RO); 64], 8), list(&[R::pattern(0, 1, 4, RO); 65], 20)]);
    edge("a list of one record is the plain add", Sizes { e: 2, b: 1, ..USUAL },
        vec![Fill(0, 7), create(), list(&[R::new(0, 1, 3, 0)], 7), list(&[R::copy(0, 1, 2)], 7), list(&[R::copy(0, 0, RO)], 8), list(&[R::copy(3, 2, RO)], 8),
             list(&[R::via_parent(0, 1, RO)], 11), list(&[R::pattern(0, 1, ZEROS, RO)], 18), list(&[R::copy(0, 3, RO)], 16), list(&[R::copy(0, 2, RO)], 17),
             takes(&[R::copy(0, 1, RO)], 1, 1), takes(&[R::copy(0, 1, RO)], 0, 0), takes(&[R::copy(0, 1, RW)], 0, 1), Fill(0, 9), restore(1), See(0, 7)]);

    // Two records on one cell.
    for (name, labels, raised) in [
        ("read-only, then read-write", [RO, RW], true), ("read-write, then read-only", [RW, RO], true),
        ("read-only twice", [RO, RO], false), ("read-write twice", [RW, RW], true),
    ] {
        let records = labels.map(|label| R::copy(0, 1, label));
        edge(name, USUAL, vec![Fill(0, 7), create(), takes(&records, 1, 1), Fill(0, 9), copies(raised as u64), Fill(0, 11), restore(1),
                               See(0, if raised { 9 } else { 7 })]);
    }
    let parent = |cell| vec![create(), add(Call::copy(cell, 1, RW)), create()];
    edge("a copy, then by a rule", USUAL, vec![create(), takes(&[R::copy(0, 1, RO), R::pattern(0, 1, ZEROS, RO)], 1, 1), is_copy(1, 0)]);
    edge("by a rule, then a copy", USUAL, vec![create(), takes(&[R::pattern(0, 1, ZEROS, RO), R::copy(0, 1, RO)], 0, 1), is_rule(1, 0, ZEROS)]);
    edge("by one rule, then by another", USUAL,
        vec![Pattern(0, SCALE), create(), takes(&[R::pattern(0, 1, SCALE, RO), R::pattern(0, 1, ONES, RW)], 0, 1), is_rule(1, 0, SCALE), Fill(0, 1), copies(1)]);
    edge("a copy, then via parent", USUAL,
        [parent(0), vec![takes(&[R::copy(0, 1, RO), R::via_parent(0, 1, RW)], 1, 1), add(Call::delete(1, 0, 1)), is_copy(2, 0)]].concat());
    edge("via parent, then a copy", USUAL, [parent(0), vec![takes(&[R::via_parent(0, 1, RO), R::copy(0, 1, RW)], 0, 1), via(1, 0)]].concat());
    edge("by a rule, then via parent", USUAL,
        [parent(0), vec![takes(&[R::pattern(0, 1, ZEROS, RO), R::via_parent(0, 1, RO)], 0, 1), is_rule(2, 0, ZEROS)]].concat());
    edge("via parent, then by a rule", USUAL, [parent(0), vec![takes(&[R::via_parent(0, 1, RO), R::pattern(0, 1, ONES, RO)], 0, 1), via(1, 0)]].concat());

    // A cell that an earlier record has taken is held: 11, 12, 18 and 19 are not put for it.
    edge("taken cells are not asked for: no parent", USUAL,
        vec![create(), list(&[R::via_parent(0, 1, RO), R::copy(0, 1, RO)], 11), takes(&[R::copy(0, 1, RO), R::via_parent(0, 1, RO)], 1, 1),
             list(&[R::copy(1, 1, RO), R::via_parent(1, 2, RO)], 11), is_free(1, 1)]);
    edge("taken cells are not asked for: the parent's value", USUAL,
        [vec![Fill(0, 7)], parent(0), vec![Fill(0, 9), list(&[R::via_parent(0, 1, RO), R::copy(0, 1, RO)], 12),
              takes(&[R::copy(0, 1, RO), R::via_parent(0, 1, RO)], 1, 1), Fill(0, 11), restore(2), See(0, 9)]].concat());
    edge("taken cells are not asked for: a rule's bytes", USUAL,
        vec![Fill(0, 7), create(), list(&[R::pattern(0, 1, ONES, RO), R::copy(0, 1, RO)], 18), takes(&[R::copy(0, 1, RO), R::pattern(0, 1, ONES, RO)], 1, 1),
             list(&[R::copy(1, 1, RO), R::pattern(1, 1, 4, RO)], 18), is_free(1, 1)]);
    edge("taken cells are not asked for: a rule further out", USUAL,
        vec![create(), add(Call::pattern(0, 1, ZEROS, RO)), create(), list(&[R::via_parent(0, 1, RO), R::copy(0, 1, RO)], 19),
             takes(&[R::copy(0, 1, RO), R::via_parent(0, 1, RO)], 1, 1)]);

    // Refused after records that would do: nothing is held.
    let after_two = |record, answer| vec![list(&[R::copy(0, 1, RW), R::pattern(1, 1, ZEROS, RW), record], answer), is_free(0, 0), is_free(0, 1)];
    edge("refused after two records that would do", USUAL,
        [vec![Fill(2, 7), create()], after_two(R::new(2, 1, 3, RO), 7), after_two(R::copy(2, 1, 2), 7), after_two(R::copy(2, 0, RO), 8),
         after_two(R::copy(2, 3, RO), 8), after_two(R::copy(u32::MAX, 2, RO), 8), after_two(R::via_parent(2, 1, RO), 11),
         after_two(R::pattern(2, 1, ZEROS, RO), 18), after_two(R::pattern(2, 1, 4, RO), 18),
         vec![takes(&[R::copy(0, 1, RW), R::pattern(1, 1, ZEROS, RW), R::copy(2, 1, RO)], 2, 3)]].concat());
    edge("refused after two, with a parent", Sizes { m: 5, ..USUAL },
        [vec![Fill(2, 7), create(), add(Call::copy(2, 1, RW)), add(Call::pattern(3, 1, ZEROS, RO)), create()], after_two(R::via_parent(2, 3, RO), 11),
         vec![Fill(2, 9)], after_two(R::via_parent(2, 1, RO), 12), vec![Fill(2, 7)], after_two(R::via_parent(3, 1, RO), 19),
         vec![takes(&[R::copy(0, 1, RW), R::pattern(1, 1, ZEROS, RW), R::via_parent(2, 1, RO)], 1, 3), via(1, 2)]].concat());
    edge("the first record that is refused tells the number", USUAL,
        vec![create(), list(&[R::copy(4, 1, RO), R::new(0, 1, 3, RO)], 8), list(&[R::via_parent(0, 1, RO), R::new(0, 1, 3, RO)], 11),
             list(&[R::pattern(0, 1, ONES, RO), R::copy(4, 1, RO)], 18), list(&[R::copy(0, 1, RO), R::pattern(0, 1, 4, RO), R::copy(0, 0, RO)], 18)]);

    // Room over the whole list.
    let four = one_cell_records(4, 0, RO);
    edge("entries short by one over the list", Sizes { e: 3, ..USUAL }, vec![create(), list(&four, 16), is_free(1, 0), takes(&four[1..], 3, 3), list(&four, 16)]);
    edge("entries just enough over the list", Sizes { e: 4, ..USUAL }, vec![create(), takes(&four, 4, 4)]);
    edge("bodies short by one over the list", Sizes { b: 3, ..USUAL },
        vec![create(), list(&four, 17), is_free(1, 0), takes(&four[..3], 3, 3), list(&four, 17), takes(&[R::pattern(3, 1, ZEROS, RO)], 0, 1), takes(&four, 0, 0)]);
    edge("bodies just enough over the list", Sizes { b: 4, ..USUAL }, vec![create(), takes(&four, 4, 4)]);
    edge("16 comes before 17", Sizes { e: 3, b: 2, ..USUAL }, vec![create(), list(&four, 16), list(&four[..3], 17)]);
    edge("a cell in two records takes one entry and one body", Sizes { e: 3, b: 3, ..USUAL },
        vec![create(), takes(&[R::copy(0, 2, RO), R::copy(1, 2, RO), R::copy(0, 3, RO)], 3, 3)]);
    edge("bodies are for those that are copies first", Sizes { b: 2, ..USUAL },
        vec![create(), list(&[R::copy(0, 2, RO), R::pattern(2, 1, ZEROS, RO), R::copy(2, 2, RO)], 17),
             takes(&[R::copy(0, 2, RO), R::pattern(2, 2, ZEROS, RO), R::copy(2, 2, RO)], 2, 4)]);

    // Room is asked last. With domain 1's cell 15 eight of nine cells have an entry.
    let nine = R::copy(0, 9, RO);
    let full = || [vec![Fill(15, 7), Fill(14, 7)], parent(15)].concat();
    let sizes = Sizes { m: 16, e: 9, b: 16 };
    edge("room is asked after every record: 7, 8 and 18", Sizes { e: 8, ..sizes },
        vec![Fill(10, 7), create(), list(&[nine, R::new(0, 1, 3, RO)], 7), list(&[nine, R::copy(0, 1, 2)], 7), list(&[nine, R::copy(16, 1, RO)], 8),
             list(&[nine, R::pattern(10, 1, ZEROS, RO)], 18), list(&[nine, R::pattern(0, 1, 4, RO)], 18), list(&[nine, R::copy(0, 1, RO)], 16),
             takes(&[R::copy(0, 8, RO), R::copy(0, 1, RO)], 8, 8)]);
    edge("room is asked after every record: 11, 12 and 19", sizes,
        [full(), vec![list(&[nine, R::via_parent(14, 1, RO)], 11), Fill(15, 9), list(&[nine, R::via_parent(15, 1, RO)], 12), Fill(15, 7),
                      list(&[nine, R::via_parent(15, 1, RO)], 16), takes(&[R::copy(0, 7, RO), R::via_parent(15, 1, RO)], 7, 8)]].concat());
    edge("room is asked after every record: 19", sizes,
        vec![create(), add(Call::pattern(15, 1, ZEROS, RO)), create(), list(&[nine, R::via_parent(15, 1, RO)], 19)]);
    edge("room is asked after every record: bodies", Sizes { e: 16, b: 8, ..sizes },
        vec![Fill(10, 7), create(), list(&[nine, R::new(0, 1, 3, RO)], 7), list(&[nine, R::pattern(10, 1, ZEROS, RO)], 18), list(&[nine, R::copy(0, 0, RO)], 8),
             list(&[nine, R::pattern(11, 1, ZEROS, RO)], 17)]);
    edge("a record sees cells for which there is no room", Sizes { e: 8, ..sizes },
        vec![create(), list(&[nine, R::via_parent(8, 1, RO)], 16), list(&[nine, R::pattern(0, 9, ONES, RO)], 16), list(&[nine, R::via_parent(0, 10, RO)], 11),
             list(&[nine, nine, nine], 16)]);

    // Ranges that meet: bytes rise by cell all the same, which the comparison of every cut sees.
    let values = || (0..8).map(|c| Fill(c, 10 + c as u8)).collect::<Vec<_>>();
    let come_back = || [fill(0..8, 99), vec![restore(1)], (0..8).map(|c| See(c, 10 + c as u8)).collect()].concat();
    for (name, records) in [
        ("touching", [R::copy(0, 3, RW), R::copy(3, 2, RO), R::copy(5, 3, RW)]), ("reversed", [R::copy(6, 2, RW), R::copy(3, 3, RO), R::copy(0, 3, RW)]),
        ("overlapping", [R::copy(2, 4, RO), R::copy(0, 4, RW), R::copy(3, 5, RW)]), ("one inside another", [R::copy(3, 2, RW), R::copy(0, 8, RO), R::copy(7, 1, RW)]),
    ] {
        edge(name, eight, [values(), vec![create(), takes(&records, 8, 8)], come_back()].concat());
    }
    edge("with cells that are held already", eight,
        [values(), vec![create(), add(Call::copy(3, 2, RO)), takes(&[R::copy(4, 4, RO), R::copy(0, 4, RW), R::copy(3, 2, RW)], 6, 8)], come_back(),
         fill(0..8, 50), vec![Answers(Call::Advance { handle: 0 }, 17)]].concat());
    edge("an entry that two records raise is one entry", USUAL,
        vec![Fill(0, 7), create(), add(Call::copy(0, 2, RO)), takes(&[R::copy(0, 1, RW), R::pattern(0, 1, ONES, RW)], 0, 1),
             takes(&[R::copy(0, 2, RO), R::copy(0, 2, RW), R::copy(1, 1, RW)], 0, 1), Fill(0, 9), copies(1)]);
    edge("an entry that is taken and raised is one entry", USUAL,
        vec![Fill(0, 7), create(), takes(&[R::copy(0, 1, RO), R::copy(0, 1, RW), R::copy(0, 1, RW)], 1, 1), Fill(0, 9), copies(1)]);
    list_of
}

/// The edges of request A.4: an inner advance gives the next domain out what it lacks.
#[rustfmt::skip]
fn inner_advances() -> Vec<Script> {
    use Line::*;
    let create = || Answers(Call::Create, 0);
    let add = |call| Answers(call, 0);
    let restore = |handle| Answers(Call::Restore { handle }, 0);
    let advance = |answer| Answers(Call::Advance { handle: 0 }, answer);
    let commit = || Answers(Call::Commit { handle: 0 }, 0);
    // So many cells are copied, and so many of them given outwards.
    let gives = |k: u64, g: u64| Takes(Call::Advance { handle: 0 }, if k == 0 { 0 } else { 70 * k + 6 * g + 2 });
    let is_rule = |handle, cell, rule| Looks(handle, cell, BY_RULE, rule);
    let is_copy = |handle, cell| Looks(handle, cell, IN_BODIES, 0);
    // A cell can be deleted exactly where it is held.
    let lacks = |handle, cell| Answers(Call::delete(handle, cell, 1), 13);
    let fill = |byte| (0..4).map(|c| Fill(c, byte)).collect::<Vec<_>>();
    let see = |byte| (0..4).map(|c| See(c, byte)).collect::<Vec<_>>();

    let mut list = Vec::new();
    let mut edge = |name, sizes, lines: Vec<Line>| list.push(Script { name, sizes, lines });
    // Cycle 1 holds nothing, tile 2 copies cell 0 = 7 read-write.
    let held = || vec![Fill(0, 7), create(), create(), add(Call::copy(0, 1, RW))];
    let written = || [held(), vec![Fill(0, 9)]].concat();
    let given = || [written(), vec![gives(1, 1)]].concat();
    edge("the cycle goes back to its own point", USUAL, [given(), vec![Fill(0, 11), restore(1), See(0, 7), Live(1)]].concat());
    edge("the tile goes back to its new point", USUAL,
        [given(), vec![Fill(0, 11), restore(2), See(0, 9), Live(2), restore(1), See(0, 7), Live(1)]].concat());
    edge("what is unchanged is not given", USUAL,
        [held(), vec![gives(0, 0), lacks(1, 0), Fill(0, 9), gives(1, 1), Fill(0, 11), restore(1), See(0, 7)]].concat());
    edge("changed back, and so not given", USUAL,
        [written(), vec![Fill(0, 7), gives(0, 0), lacks(1, 0), Byte(63, 8), gives(1, 1), Fill(0, 11), restore(1), See(0, 7)]].concat());
    edge("given once: the first value stays outside", USUAL,
        [given(), vec![Fill(0, 11), gives(1, 0), Fill(0, 13), restore(2), See(0, 11), restore(1), See(0, 7)]].concat());
    edge("given read-write", USUAL, [given(), vec![restore(1), Fill(0, 5), gives(1, 0), Fill(0, 6), restore(1), See(0, 5)]].concat());
    edge("given, and committed: oldest wins", USUAL,
        [given(), vec![Fill(0, 11), commit(), restore(1), See(0, 7), Fill(0, 5), gives(1, 0), restore(1), See(0, 5)]].concat());
    edge("given, and deleted outside", USUAL, [given(), vec![add(Call::delete(1, 0, 1)), Fill(0, 11), restore(1), See(0, 9), lacks(1, 0)]].concat());
    edge("given, and deleted inside", USUAL,
        [given(), vec![add(Call::delete(2, 0, 1)), Fill(0, 11), restore(2), See(0, 11), restore(1), See(0, 7)]].concat());
    edge("the outermost gives nothing", USUAL,
        vec![Fill(0, 7), create(), add(Call::copy(0, 1, RW)), Fill(0, 9), gives(1, 0), Fill(0, 11), restore(1), See(0, 9)]);
    edge("a changed read-only cell is not given", USUAL,
        vec![Fill(0, 7), create(), create(), add(Call::copy(0, 1, RO)), Fill(0, 9), gives(0, 0), lacks(1, 0), restore(1), See(0, 7)]);

    // Channel 3 is inside tile 2, which is inside cycle 1; both hold nothing.
    let three = || vec![Fill(0, 7), create(), create(), create(), add(Call::copy(0, 1, RW)), Fill(0, 9), gives(1, 1), lacks(1, 0), is_copy(2, 0)];
    edge("three domains: the middle one gets it", USUAL,
        [three(), vec![Fill(0, 11), restore(3), See(0, 9), restore(2), See(0, 7), Fill(0, 12), restore(1), See(0, 7)]].concat());
    edge("three domains: committed, and given once more", USUAL,
        [three(), vec![commit(), Fill(0, 11), gives(1, 1), is_copy(1, 0), Fill(0, 13), restore(1), See(0, 7)]].concat());
    edge("three domains: committed, given and gone back one", USUAL,
        [three(), vec![commit(), Fill(0, 11), gives(1, 1), Fill(0, 13), restore(2), See(0, 11), restore(1), See(0, 7)]].concat());
    // Cycle 1 holds 7, and 8 stood when tile 2 began.
    let further = |label| vec![Fill(0, 7), create(), add(Call::copy(0, 1, label)), Fill(0, 8), create(), create(), add(Call::copy(0, 1, RW)), Fill(0, 9),
                               gives(1, 1)];
    edge("a cell that a domain further out holds is given", USUAL,
        [further(RW), vec![Fill(0, 11), restore(3), See(0, 9), restore(2), See(0, 8), restore(1), See(0, 7)]].concat());
    edge("a cell that is read-only further out is given", USUAL,
        [further(RO), vec![Fill(0, 11), restore(2), See(0, 8), restore(1), See(0, 7), Fill(0, 5), gives(0, 0)]].concat());
    edge("the eighth domain gives to the seventh", USUAL,
        [vec![Fill(0, 7)], (1..=8).map(CreateGives).collect(), vec![add(Call::copy(0, 1, RW)), Fill(0, 9), gives(1, 1), lacks(6, 0), Fill(0, 11), restore(7),
                                                                   See(0, 7), Live(7)]].concat());

    // What the next domain out holds stays as it is there.
    let both = |label| vec![Fill(0, 7), create(), add(Call::copy(0, 1, label)), Fill(0, 8), create(), add(Call::copy(0, 1, RW)), Fill(0, 9),
                            gives(1, 0)];
    edge("held outside, read-write: not given", USUAL, [both(RW), vec![Fill(0, 11), restore(2), See(0, 9), restore(1), See(0, 7)]].concat());
    edge("held outside, read-only: neither given nor raised", USUAL,
        [both(RO), vec![restore(1), See(0, 7), Fill(0, 11), gives(0, 0), restore(1), See(0, 7)]].concat());
    edge("via parent is never given", USUAL,
        vec![Fill(0, 7), create(), add(Call::copy(0, 1, RO)), create(), add(Call::via_parent(0, 1, RW)), Fill(0, 9), gives(1, 0), Fill(0, 11), restore(2),
             See(0, 9), restore(1), See(0, 7), Fill(0, 11), gives(0, 0)]);
    edge("some are held outside and some are not", Sizes { b: 10, ..USUAL },
        [fill(7), vec![create(), add(Call::copy(1, 2, RW)), create(), add(Call::copy(0, 4, RW))], fill(9), vec![gives(4, 2)], fill(11), vec![restore(2)],
         see(9), vec![restore(1)], see(7)].concat());
    edge("some have changed and some have not", USUAL,
        [fill(7), vec![create(), create(), add(Call::copy(0, 4, RW)), Fill(1, 9), Byte(255, 9), gives(2, 2), lacks(1, 0), is_copy(1, 1), lacks(1, 2)],
         fill(11), vec![restore(2), See(0, 7), See(1, 9), See(2, 7), Byte(255, 7), See(3, 7), restore(1)], see(7)].concat());

    let by_rule = || vec![Pattern(0, SCALE), create(), create(), add(Call::pattern(0, 1, SCALE, RW)), Fill(0, 9)];
    edge("a rule goes out as a rule", Sizes { b: 1, ..USUAL },
        [by_rule(), vec![gives(1, 1), is_rule(1, 0, SCALE), is_copy(2, 0), Fill(0, 11), restore(2), See(0, 9), restore(1), SeePattern(0, SCALE),
                         is_rule(1, 0, SCALE)]].concat());
    edge("a rule that was given is read-write", USUAL,
        [by_rule(), vec![gives(1, 1), restore(1), Fill(0, 5), gives(1, 0), is_copy(1, 0), Fill(0, 6), restore(1), See(0, 5)]].concat());
    edge("a rule that was given is no ground for via parent", USUAL,
        [by_rule(), vec![gives(1, 1), commit(), is_rule(1, 0, SCALE), restore(1), create(), Answers(Call::via_parent(0, 1, RO), 19)]].concat());
    edge("each rule, and a copy beside them", Sizes { m: 5, e: 10, b: 6 },
        [(0..4).map(|c| Pattern(c, c)).collect(), vec![Fill(4, 7), create(), create()], (0..4).map(|c| add(Call::pattern(c, 1, c, RW))).collect(),
         vec![add(Call::copy(4, 1, RW))], (0..5).map(|c| Fill(c, 9)).collect(), vec![gives(5, 5)], (0..4).map(|c| is_rule(1, c, c)).collect(),
         (0..5).map(|c| Fill(c, 11)).collect(), vec![restore(1)], (0..4).map(|c| SeePattern(c, c)).collect(), vec![See(4, 7)]].concat());

    // Tile 2 holds two cells; both have changed.
    let two = || vec![Fill(0, 7), Fill(1, 7), create(), create(), add(Call::copy(0, 2, RW)), Fill(0, 9), Fill(1, 9)];
    edge("entries just enough", Sizes { e: 4, ..USUAL }, [two(), vec![gives(2, 2), Fill(0, 11), restore(1), See(0, 7), See(1, 7)]].concat());
    edge("an entry is missing", Sizes { e: 3, ..USUAL },
        [two(), vec![advance(16), Fill(0, 7), gives(1, 1), Fill(0, 9), advance(16), Fill(0, 7), gives(0, 0)]].concat());
    edge("bodies just enough", Sizes { b: 4, ..USUAL }, [two(), vec![gives(2, 2), Fill(0, 11), restore(2), See(0, 9), restore(1), See(0, 7)]].concat());
    edge("a body is missing, since a body given is not free", Sizes { b: 3, ..USUAL },
        [two(), vec![advance(17), Fill(0, 7), gives(1, 1), Fill(1, 10), advance(17)]].concat());
    edge("16 comes before 17 in an advance", Sizes { e: 3, b: 2, ..USUAL },
        [two(), vec![advance(16), Fill(0, 7), advance(17), Fill(1, 7), gives(0, 0)]].concat());
    edge("no entry is needed for what is held outside", Sizes { e: 2, ..USUAL },
        vec![Fill(0, 7), create(), add(Call::copy(0, 1, RO)), create(), add(Call::copy(0, 1, RW)), Fill(0, 9), gives(1, 0), Fill(0, 11), restore(1),
             See(0, 7)]);
    edge("the smallest store has no entry to give", Sizes { m: 1, e: 1, b: 2 },
        vec![Fill(0, 7), create(), create(), add(Call::copy(0, 1, RW)), gives(0, 0), Fill(0, 9), advance(16), commit(), gives(1, 0)]);
    // Places that were freed lie before and between those in use: the given cells take the lowest ones.
    edge("places in holes of the table", Sizes { m: 6, e: 10, b: 10 },
        [(0..6).map(|c| Fill(c, 7)).collect(), vec![create(), add(Call::copy(4, 2, RW)), create(), add(Call::copy(0, 4, RW)), add(Call::delete(1, 5, 1)),
          add(Call::delete(0, 1, 1))], (0..4).map(|c| Fill(c, 9)).collect(), vec![gives(3, 3), Fill(0, 11), restore(1), See(0, 7), See(2, 7),
                                                                                  See(3, 7)]].concat());
    list
}
