//! The baseline is the same store as the library: on random sessions of small sizes, and on larger tables in every layout that is
//! measured, both give the same answers and leave the same buffers, word for word and byte for byte. Only so does it make sense to
//! compare their times.

use domain_bench::measure::{Layout, Shape, laid_down};
use domain_bench::stores::Baseline;
use domain_lend::Linked;
use domain_model::calls::{Record, refusals};
use domain_model::rules::pattern;
use domain_model::{Buffers, Call, FULL, Rng, STOPPED, Sizes, Store};
use std::collections::BTreeMap;

fn one_in(random: &mut Rng, bound: u64) -> bool {
    random.below(bound) == 0
}

/// A list of ranges in so many cells from `from` on: mostly a few records, which meet each other, and now and then as many as there may
/// be, one more, or none.
fn choose_list(random: &mut Rng, from: u32, cells: u32) -> Call {
    let many = match random.below(20) {
        0 => 0,
        1 => 64,
        2 => 65,
        _ => random.between(1, 6),
    };
    let records = (0..many).map(|_| {
        let past = u64::from(one_in(random, 60));
        let first = random.below(u64::from(cells) + past) as u32;
        let count = match random.below(60) {
            0 => 0,
            1 => u32::MAX,
            _ => random.between(1, cells.saturating_sub(first).clamp(1, 3).into()) as u32,
        };
        let kind = match random.below(60) {
            0 => 3,
            1..=14 => 1,
            15..=29 => 2,
            _ => 0,
        };
        let label = random.below(2) as u32 + u32::from(one_in(random, 80)) * 2;
        let rule = random.below(4) as u32 + u32::from(one_in(random, 40)) * 4;
        Record::new(from + first, count, kind, label).with_rule(rule)
    });
    Call::ranges(records.collect::<Vec<_>>())
}

/// A call about so many cells from `from` on.
fn choose(random: &mut Rng, buffers: &Buffers, from: u32, cells: u32) -> Call {
    let word = |at: usize| buffers.table.get(at).copied();
    let live = word(4).unwrap_or(0).min(8);
    let any = match random.below(6) {
        0 | 1 => 0,
        2 => random.below(12) as u32,
        _ => word(8 + random.below(live.max(1).into()) as usize).unwrap_or(1),
    };
    if live == 0 && random.below(4) > 0 {
        return Call::Create;
    }
    let innermost = if one_in(random, 8) { any } else { 0 };
    let past = one_in(random, 6) as u32;
    let first = random.below((cells + past).into()) as u32;
    let count = match random.below(12) {
        0 => u32::MAX,
        1 => random.below(u64::from(cells) + 1) as u32,
        _ => random.between(1, cells.saturating_sub(first).max(1).into()) as u32,
    };
    let first = from + first;
    let label = random.below(2) as u32;
    match random.below(120) {
        100..=119 => choose_list(random, from, cells).on(innermost),
        0..=1 => Call::Make,
        2..=6 => Call::Open,
        7..=21 => Call::Create,
        22..=36 => Call::add(first, count, one_in(random, 20) as u32 * 3, label).on(innermost),
        37..=45 => Call::pattern(first, count, random.below(5) as u32, label).on(innermost),
        46..=55 => Call::via_parent(first, count, label + one_in(random, 30) as u32).on(innermost),
        56..=62 => Call::delete(any, first, count),
        63..=68 => Call::Commit { handle: innermost },
        69..=81 => Call::Advance { handle: innermost },
        82..=91 => Call::Restore { handle: any },
        92..=94 => Call::List,
        _ => Call::Look {
            handle: any,
            cell: from + random.below(u64::from(cells) + 1) as u32,
        },
    }
}

/// The program writes some cells from `first` on: one byte over and over, one byte alone, or the bytes of a rule, for which so many
/// neighbours are written that a pattern of several cells is met too.
fn write(random: &mut Rng, memory: &mut [u8], first: usize) {
    let byte = random.below(4) as u8;
    let (bytes, count) = match random.below(5) {
        0 | 1 => ([byte; 64], 1),
        2 => {
            let place = *random.pick(&[0, 31, 63]);
            if let Some(at) = memory.get_mut(64 * first + place) {
                *at = byte;
            }
            return;
        }
        _ => (
            pattern(random.below(4) as u32).expect("a rule"),
            random.between(1, 3),
        ),
    };
    let cells = memory.as_chunks_mut().0.iter_mut();
    for cell in cells.skip(first).take(count as usize) {
        *cell = bytes;
    }
}

/// Changes a table in a way that leaves it nearly right.
fn damage(random: &mut Rng, table: &mut [u32], sizes: Sizes) {
    let words = sizes.pairs_at() as u64;
    let word = if one_in(random, 6) {
        random.between(words, table.len() as u64 - 1)
    } else {
        random.below(words)
    } as usize;
    if one_in(random, 10) {
        // The last handles.
        table[5] = u32::MAX - random.below(2) as u32;
        return;
    }
    let other = table[random.below(words) as usize];
    table[word] = match random.below(7) {
        0 => table[word] ^ 1 << random.below(32),
        // The bits that tell an entry's kind, and the highest that has to be zero.
        6 => table[word] ^ 1 << random.between(24, 26),
        1 => table[word].wrapping_add(1),
        2 => table[word].wrapping_sub(1),
        3 => other,
        4 => 0,
        _ => random.below(8) as u32,
    };
}

/// Lengths for these sizes, now and then one of them a little short.
fn buffers(random: &mut Rng, sizes: Sizes) -> Buffers {
    let mut lengths = sizes.lengths();
    if one_in(random, 30) {
        let change = random.between(1, 6) as usize;
        match random.below(3) {
            0 => lengths.memory -= change,
            1 => lengths.bodies -= change,
            _ => lengths.table -= change,
        }
    }
    Buffers::filled(lengths, 0, 0)
}

/// Mostly all that a call needs.
fn budget(random: &mut Rng, most: u64) -> u64 {
    match random.below(12) {
        0 => random.below(most),
        1 => random.below(30),
        _ => FULL,
    }
}

/// Makes the call on equal buffers, by the library and by the baseline. The answer's number, if all is the same.
fn same(
    ours: &mut Buffers,
    theirs: &mut Buffers,
    call: &Call,
    budget: u64,
    what: impl Fn() -> String,
) -> u32 {
    let reply = Linked.call(ours, call, budget);
    let expected = Baseline.call(theirs, call, budget);
    let what = || format!("{call} with budget {budget}, {}", what());
    assert_eq!(reply, expected, "{}", what());
    assert_eq!(ours.differs(theirs), None, "{}", what());
    reply.code
}

/// Entries in use.
fn used(buffers: &Buffers) -> usize {
    let Some(sizes) = buffers.lengths().sizes() else {
        return 0;
    };
    let entries = buffers.table[16..].chunks(2).take(sizes.e as usize);
    entries.filter(|pair| pair[0] != 0).count()
}

/// Advances that gave cells outwards, and such as had no entry for them.
#[derive(Default)]
struct Inner {
    gave: u64,
    short: u64,
}

impl Inner {
    fn count(&mut self, call: &Call, number: u32, before: usize, after: &Buffers) {
        if matches!(call, Call::Advance { .. }) {
            self.gave += u64::from(number == 0 && used(after) > before);
            self.short += u64::from(number == 16);
        }
    }
}

#[test]
fn same_answers_and_buffers() {
    let mut random = Rng::new(0x1234_5678_9ABC_DEF1);
    let mut numbers = BTreeMap::new();
    let mut calls = 0u64;
    let mut inner = Inner::default();
    for session in 0..1_500 {
        let mut size = |most| random.between(1, most) as u32;
        let (m, e, b) = (size(5), size(8), size(8));
        let sizes = Sizes { m, e, b };
        let mut ours = buffers(&mut random, sizes);
        let mut theirs = ours.clone();
        let mut last = 2;
        for _ in 0..100 {
            // Mostly a session goes on as a program would: an opening after a cut, a make where there is no store.
            let call = match last {
                2 if random.below(8) > 0 => Call::Make,
                3 | STOPPED if random.below(8) > 0 => Call::Open,
                4 if one_in(&mut random, 4) => Call::Make,
                _ => choose(&mut random, &ours, 0, m),
            };
            // More often before an advance, which else finds nothing to copy.
            let seldom = match call {
                Call::Advance { .. } => 2,
                _ => 6,
            };
            if one_in(&mut random, seldom) {
                let cell = random.below(ours.memory.len() as u64 / 64 + 1) as usize;
                write(&mut random, &mut ours.memory, cell);
            }
            let undamaged = ours.table.to_vec();
            let damaged = one_in(&mut random, 12) && ours.lengths() == sizes.lengths();
            if damaged {
                damage(&mut random, &mut ours.table, sizes);
            }
            theirs.copy_from(&ours);
            let budget = budget(&mut random, 300);
            let before = used(&ours);
            last = same(&mut ours, &mut theirs, &call, budget, || {
                format!("session {session} on {undamaged:?}")
            });
            inner.count(&call, last, before, &ours);
            *numbers.entry(last).or_insert(0u64) += 1;
            calls += 1;
            if damaged && ![0, STOPPED].contains(&last) && random.below(4) > 0 {
                // Refused and so unchanged: back to the right table, to go on with a rich one.
                ours.table.copy_from_slice(&undamaged);
            }
        }
    }
    let Inner { gave, short } = inner;
    println!("{calls} calls; {gave} advances gave cells; answers by number: {numbers:?}");
    assert!(
        gave >= 100 && short >= 20,
        "{gave} gave cells, {short} had no entry"
    );
    for number in refusals().chain([0, STOPPED]) {
        assert!(
            numbers.contains_key(&number),
            "no call was answered by {number}"
        );
    }
}

/// The layouts whose cells are neighbours, and the others, which need a memory that is a power of two.
const NEIGHBOURS: [Layout; 5] = [
    Layout::Contiguous,
    Layout::Reversed,
    Layout::Random,
    Layout::Deleted,
    Layout::Last,
];
const APART: [Layout; 2] = [Layout::Scattered, Layout::Near];

/// Shapes with cells in one group of 64 and in many, in a last group that is not whole, and in a memory whose groups are mostly empty.
fn shapes() -> Vec<Shape> {
    let mut all = Vec::new();
    for (memory, places, cells) in [
        (100usize, 128, 100),
        (100, 512, 100),
        (1_024, 64, 9),
        (1_024, 1_024, 300),
        (65_536, 256, 64),
        (65_536, 4_096, 1_024),
    ] {
        let apart = APART.iter().filter(|_| memory.is_power_of_two());
        for &layout in NEIGHBOURS.iter().chain(apart) {
            all.extend([1, 3].map(|domains| Shape {
                memory,
                places,
                domains,
                layout,
                cells,
            }));
        }
    }
    all.retain(Shape::fits);
    all
}

/// A call about the cells of a shape: some neighbours of one of them, or all of them.
fn choose_in(random: &mut Rng, buffers: &Buffers, shape: &Shape) -> Call {
    let cell = shape.cell(random.below(shape.cells as u64) as usize);
    let (from, cells) = match random.below(3) {
        0 => (shape.first(), shape.cells),
        _ => (cell.saturating_sub(2), 5),
    };
    choose(random, buffers, from as u32, cells as u32)
}

/// The same with two domains more, as far as there is room: one holds some of the cells via parent and others by rules, one inside it
/// the first of them via parent.
fn with_inner(held: &Buffers, shape: &Shape) -> Buffers {
    let mut inner = held.clone();
    Linked.call(&mut inner, &Call::Create, FULL);
    for index in 0..shape.cells.min(20) {
        let (cell, rule) = (shape.cell(index) as u32, index as u32 % 4);
        let call = if index % 3 < 2 {
            Call::via_parent(cell, 1, 1)
        } else {
            inner.write_cell(cell, &pattern(rule).expect("a rule"));
            Call::pattern(cell, 1, rule, rule % 2)
        };
        Linked.call(&mut inner, &call, FULL);
    }
    Linked.call(&mut inner, &Call::Create, FULL);
    for index in 0..shape.cells.min(2) {
        Linked.call(
            &mut inner,
            &Call::via_parent(shape.cell(index) as u32, 1, 1),
            FULL,
        );
    }
    inner
}

/// The cells of a shape in a domain inside one that lacks most of them: by copies, every fifth by a rule. The one around holds every
/// fourth, read-only, and had others before, so that places are free between those in use. As far as there is room.
fn inside(held: &Buffers, shape: &Shape) -> Buffers {
    let mut buffers = held.clone();
    let cell = |index: usize| shape.cell(index) as u32;
    for index in (4..shape.cells).step_by(5) {
        buffers.write_cell(cell(index), &pattern(index as u32 % 4).expect("a rule"));
    }
    let every = |apart: usize, label| {
        let cells = (0..shape.cells).step_by(apart);
        cells.map(move |index| Record::copy(cell(index), 1, label))
    };
    let by_rule = (4..shape.cells).step_by(5);
    let by_rule = by_rule.map(|index| Record::pattern(cell(index), 1, index as u32 % 4, 1));
    let lists = |records: Vec<Record>| {
        let lists = records.chunks(64).map(Call::ranges);
        lists.collect::<Vec<_>>()
    };
    let deleted = (0..shape.cells).step_by(8);
    let calls = [
        vec![Call::Make, Call::Create],
        lists(every(4, 0).collect()),
        vec![Call::Create],
        lists(by_rule.collect()),
        lists(every(1, 1).collect()),
        deleted
            .map(|index| Call::delete(1, cell(index), 1))
            .collect(),
    ];
    for call in calls.into_iter().flatten() {
        Linked.call(&mut buffers, &call, FULL);
    }
    buffers
}

/// Lists of ranges about the cells of a shape: the first 64 of them one by one, in falling order; ranges of three that overlap; and each
/// cell by two kinds, the second of which would not do.
fn lists(shape: &Shape) -> [Call; 4] {
    let cell = |at: usize| shape.cell(at % shape.cells) as u32;
    let most = shape.memory as u32 - 3;
    let one_by_one: Vec<Record> = (0..64)
        .rev()
        .map(|at| Record::copy(cell(at), 1, 1))
        .collect();
    let wide: Vec<Record> = (0..20)
        .map(|at| Record::copy(cell(7 * at).min(most), 3, at as u32 % 2))
        .collect();
    let twice = (0..9).flat_map(|at| {
        let label = at as u32 % 2;
        [
            Record::copy(cell(at), 1, 1 - label),
            Record::pattern(cell(at), 1, 1, label),
            Record::via_parent(cell(at), 1, 0),
        ]
    });
    let refused = [&wide[..], &[Record::new(0, 1, 3, 0)]].concat();
    [one_by_one, wide, twice.collect(), refused].map(Call::ranges)
}

/// Every call that meets a table of this shape, about its cells.
fn calls(shape: &Shape) -> [Call; 14] {
    let (first, cells) = (shape.first() as u32, shape.cells as u32);
    let (one, outer) = (shape.cell(0) as u32, shape.domains as u32);
    // The third cell is held by a rule in the domain further in.
    let third = shape.cell(2) as u32;
    [
        Call::List,
        Call::Look {
            handle: 1,
            cell: one,
        },
        Call::Restore { handle: 1 },
        Call::Restore { handle: 0 },
        Call::Advance { handle: 0 },
        Call::Commit { handle: 0 },
        Call::delete(0, first, cells),
        Call::delete(outer, one, 1),
        Call::via_parent(first, cells, 1),
        Call::add(first, cells, 0, 0),
        Call::Look {
            handle: outer + 1,
            cell: third,
        },
        Call::via_parent(third, 1, 0),
        Call::pattern(third, 1, 2, 1),
        Call::pattern(first, cells, 4, 0),
    ]
}

#[test]
fn same_in_every_layout() {
    let mut random = Rng::new(0x0FED_CBA9_8765_4321);
    let mut numbers = BTreeMap::new();
    let mut inner = Inner::default();
    for shape in shapes() {
        let held = laid_down(shape);
        let (mut ours, mut theirs) = (held.clone(), held.clone());
        let mut check = |random: &mut Rng, ours: &mut Buffers, call: &Call| {
            theirs.copy_from(ours);
            let budget = budget(random, 70 * shape.cells as u64);
            let number = same(ours, &mut theirs, call, budget, || format!("{shape:?}"));
            *numbers.entry(number).or_insert(0u64) += 1;
            number
        };
        // Each call by itself on the table as it was laid down, with one cell written, and advances with nothing changed, with every
        // third cell changed in one byte and with all of them; then a session.
        for table in [&held, &with_inner(&held, &shape), &inside(&held, &shape)] {
            for call in calls(&shape).into_iter().chain(lists(&shape)) {
                ours.copy_from(table);
                ours.memory[64 * shape.cell(0)..][..64].fill(7);
                check(&mut random, &mut ours, &call);
            }
            for apart in [shape.cells + 1, 3, 1] {
                ours.copy_from(table);
                for index in (apart - 1..shape.cells).step_by(apart) {
                    let byte = [0, 63, 31][index % 3];
                    ours.memory[64 * shape.cell(index) + byte] ^= 1;
                }
                let (advance, before) = (Call::Advance { handle: 0 }, used(&ours));
                let number = check(&mut random, &mut ours, &advance);
                inner.count(&advance, number, before, &ours);
            }
        }
        ours.copy_from(&held);
        for _ in 0..60 {
            let call = choose_in(&mut random, &ours, &shape);
            if one_in(&mut random, 6) {
                let cell = shape.cell(random.below(shape.cells as u64) as usize);
                write(&mut random, &mut ours.memory, cell);
            }
            let damaged = one_in(&mut random, 8);
            if damaged {
                let sizes = ours.sizes();
                damage(&mut random, &mut ours.table, sizes);
            }
            let number = check(&mut random, &mut ours, &call);
            if number == STOPPED {
                check(&mut random, &mut ours, &Call::Open);
            }
            // Back to the rich table.
            if damaged || call == Call::Make || [2, 3].contains(&number) {
                ours.copy_from(&held);
            }
        }
    }
    let Inner { gave, short } = inner;
    println!("{gave} advances gave cells; answers by number: {numbers:?}");
    assert!(
        gave > 20 && short > 0,
        "{gave} gave cells, {short} had no entry"
    );
    for number in [0, 4, 7, 11, 12, 13, 14, 16, 17, 18, 19, 20, STOPPED] {
        assert!(
            numbers.contains_key(&number),
            "no call was answered by {number}"
        );
    }
}

/// The lists that are measured, on the stores that they are measured in: each list after the one before, cut and whole.
#[test]
fn same_in_the_measured_lists() {
    let mut random = Rng::new(0x00C0_FFEE);
    for case in domain_bench::lists::cases() {
        let mut ours = case.laid_down();
        let mut theirs = ours.clone();
        for list in case.lists() {
            // At no byte, among the bytes, among the pairs, and whole.
            for most in [1, 64 * 64, 70 * 64] {
                let (mut one, mut other) = (ours.clone(), ours.clone());
                let budget = random.below(most);
                same(&mut one, &mut other, &list, budget, || case.name.into());
            }
            let number = same(&mut ours, &mut theirs, &list, FULL, || case.name.into());
            assert_eq!(number, 0, "{}", case.name);
        }
    }
}
