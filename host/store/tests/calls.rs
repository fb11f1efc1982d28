//! The wrapper hands every argument and answer on as it is: the edges of the calls, through the
//! safe interface.

use domain_store::{
    Buffers, Domain, Handle, Innermost, Kind, Label, Outcome, Place, Range, Refusal, Rule, Store,
    ffi::{self, Lent},
};

fn fresh() -> Buffers {
    sized(4, 8, 8)
}

fn sized(m: u32, e: u32, b: u32) -> Buffers {
    let mut buffers = Buffers::allocate(m, e, b).unwrap();
    buffers.store().make().unwrap();
    buffers
}

/// A new domain that holds cell 0, which has this byte.
fn hold(store: &mut Store, byte: u8, kind: Kind, label: Label) -> Handle {
    store.cell_mut(0).fill(byte);
    let domain = store.create().unwrap();
    store.add(domain, 0..1, kind, label).unwrap();
    domain
}

/// The same by a copy, read-write.
fn copy(store: &mut Store, byte: u8) -> Handle {
    hold(store, byte, Kind::Copy, Label::ReadWrite)
}

fn is_filled(store: &Store, cell: u32, byte: u8) -> bool {
    store.cell(cell).iter().all(|found| *found == byte)
}

#[test]
fn a_copy_comes_back() {
    let mut buffers = fresh();
    let mut store = buffers.store();
    let one = copy(&mut store, 7);
    store.cell_mut(0).fill(9);
    // Nobody inside ends, so a restore stores the bytes alone.
    assert_eq!(store.restore(one), Ok(64));
    assert!(is_filled(&store, 0, 7));
}

/// Cycle 1 holds nothing, tile 2 copies cell 0 = 7 read-write.
fn cycle_and_tile(buffers: &mut Buffers) -> (Store<'_>, Handle, Handle) {
    let mut store = buffers.store();
    let cycle = store.create().unwrap();
    let tile = copy(&mut store, 7);
    (store, cycle, tile)
}

#[test]
fn an_inner_advance_keeps_the_outer_point() {
    for restored in [1, 2] {
        let mut buffers = fresh();
        let (mut store, cycle, tile) = cycle_and_tile(&mut buffers);
        assert_eq!(store.advance(tile), Ok(0));
        assert_eq!(store.delete(cycle, 0..1), Err(Refusal::NotHeld));
        store.cell_mut(0).fill(9);
        assert_eq!(store.advance(tile), Ok(78));
        store.cell_mut(0).fill(11);
        store.restore(Handle::new(restored).unwrap()).unwrap();
        assert!(is_filled(&store, 0, if restored == 1 { 7 } else { 9 }));
        // The cycle holds the cell read-write by now, with the value that it was given.
        store.restore(cycle).unwrap();
        assert!(is_filled(&store, 0, 7));
        store.cell_mut(0).fill(5);
        assert_eq!(store.advance(cycle), Ok(72));
        store.cell_mut(0).fill(6);
        store.restore(cycle).unwrap();
        assert!(is_filled(&store, 0, 5));
    }
}

/// Whichever store an inner advance is cut at, the cycle goes back to its own point, and the tile to its
/// old point or to its new one.
#[test]
fn every_cut_of_an_inner_advance_keeps_both_points() {
    for budget in 0..=78 {
        for handle in [1, 2] {
            let mut buffers = fresh();
            let (mut store, _, tile) = cycle_and_tile(&mut buffers);
            store.cell_mut(0).fill(9);
            let outcome = store.advance_with_budget(tile, budget).unwrap();
            assert_eq!((outcome.steps(), outcome.is_done()), (budget, budget == 78));
            // 64 bytes, four pairs and word 6: from there on the advance is made.
            let made = budget >= 73;
            let steps = store.open().unwrap();
            assert_eq!(steps, if made && budget < 78 { 5 } else { 0 });
            store.cell_mut(0).fill(11);
            store.restore(Handle::new(handle).unwrap()).unwrap();
            let byte = if handle == 2 && made { 9 } else { 7 };
            assert!(is_filled(&store, 0, byte), "{handle} at budget {budget}");
        }
    }
}

#[test]
fn an_inner_advance_needs_entries_for_what_it_gives() {
    // Two cells held; entries and bodies for both, and one too few of each.
    for (entries, bodies, advanced) in [
        (4, 4, Ok(2 * 76 + 2)),
        (3, 4, Err(Refusal::NoFreeEntry)),
        (4, 3, Err(Refusal::NoFreeBody)),
        (3, 3, Err(Refusal::NoFreeEntry)),
    ] {
        let mut buffers = sized(4, entries, bodies);
        let (mut store, _, tile) = cycle_and_tile(&mut buffers);
        store.add(tile, 1..2, Kind::Copy, Label::ReadWrite).unwrap();
        store.memory_mut().fill(9);
        assert_eq!(store.advance(tile), advanced);
        // One of them by itself has room in every case.
        if advanced.is_err() {
            store.cell_mut(1).fill(0);
            assert_eq!(store.advance(tile), Ok(78));
        }
    }
}

#[test]
fn what_the_parent_holds_is_not_given() {
    let mut buffers = fresh();
    let mut store = buffers.store();
    let one = hold(&mut store, 7, Kind::Copy, Label::ReadOnly);
    let two = copy(&mut store, 8);
    store.cell_mut(0).fill(9);
    assert_eq!(store.advance(two), Ok(72));
    store.restore(one).unwrap();
    assert!(is_filled(&store, 0, 7));
    // It is read-only as before, so that an advance leaves it.
    store.cell_mut(0).fill(11);
    assert_eq!(store.advance(one), Ok(0));
    store.restore(one).unwrap();
    assert!(is_filled(&store, 0, 7));
}

#[test]
fn a_rule_is_given_as_a_rule() {
    // One body, which the new copy takes.
    let mut buffers = sized(4, 8, 1);
    let mut store = buffers.store();
    let one = store.create().unwrap();
    *store.cell_mut(0) = Rule::Scale.bytes();
    let two = store.create().unwrap();
    let scale = Kind::Pattern(Rule::Scale);
    store.add(two, 0..1, scale, Label::ReadWrite).unwrap();
    store.cell_mut(0).fill(9);
    assert_eq!(store.advance(two), Ok(78));
    assert_eq!(store.look_place(one, 0), Ok(Place::Rule(Rule::Scale)));
    assert!(matches!(store.look_place(two, 0), Ok(Place::Bodies { .. })));
    store.restore(one).unwrap();
    assert_eq!(store.cell(0), &Rule::Scale.bytes());
}

#[test]
fn a_commit_raises_the_label() {
    let mut buffers = fresh();
    let mut store = buffers.store();
    let one = hold(&mut store, 7, Kind::Copy, Label::ReadOnly);
    let two = copy(&mut store, 7);
    store.cell_mut(0).fill(9);
    store.commit(two).unwrap();
    store.advance(one).unwrap();
    store.cell_mut(0).fill(11);
    store.restore(one).unwrap();
    assert!(is_filled(&store, 0, 9));
}

#[test]
fn via_parent_needs_the_parents_bytes() {
    let mut buffers = fresh();
    let mut store = buffers.store();
    copy(&mut store, 7);
    store.cell_mut(0).fill(9);
    let two = store.create().unwrap();
    let added = store.add(two, 0..1, Kind::ViaParent, Label::ReadWrite);
    assert_eq!(added, Err(Refusal::MemoryDiffers));
    let added = store.add(two, 0..2, Kind::ViaParent, Label::ReadWrite);
    assert_eq!(added, Err(Refusal::ParentLacksCell));
}

#[test]
fn a_second_add_keeps_the_first_value() {
    let mut buffers = fresh();
    let mut store = buffers.store();
    copy(&mut store, 7);
    let two = hold(&mut store, 7, Kind::ViaParent, Label::ReadWrite);
    store.cell_mut(0).fill(9);
    assert_eq!(store.add(two, 0..1, Kind::Copy, Label::ReadWrite), Ok(0));
    store.restore(two).unwrap();
    assert!(is_filled(&store, 0, 7));
}

#[test]
fn the_oldest_value_wins() {
    let mut buffers = fresh();
    let mut store = buffers.store();
    let one = copy(&mut store, 7);
    let two = copy(&mut store, 9);
    store.restore(one).unwrap();
    assert!(is_filled(&store, 0, 7));
    assert_eq!(*store.list().unwrap(), [one]);
    assert_eq!(store.restore(two), Err(Refusal::NoSuchDomain));
}

#[test]
fn a_cell_that_the_child_relies_on_stays() {
    let mut buffers = fresh();
    let mut store = buffers.store();
    let one = copy(&mut store, 7);
    let two = hold(&mut store, 7, Kind::ViaParent, Label::ReadOnly);
    assert_eq!(store.delete(one, 0..1), Err(Refusal::ChildRelies));
    store.delete(two, 0..1).unwrap();
    store.delete(one, 0..1).unwrap();
    assert_eq!(store.delete(one, 0..1), Err(Refusal::NotHeld));
}

#[test]
fn room_is_counted() {
    for (bodies, advanced) in [(1, Err(Refusal::NoFreeBody)), (2, Ok(72))] {
        let mut buffers = sized(4, 8, bodies);
        let mut store = buffers.store();
        let one = copy(&mut store, 7);
        // An unchanged cell needs no body.
        assert_eq!(store.advance(one), Ok(0));
        store.cell_mut(0).fill(9);
        assert_eq!(store.advance(one), advanced);
        store.cell_mut(0).fill(11);
        store.restore(one).unwrap();
        assert!(is_filled(&store, 0, if advanced.is_ok() { 9 } else { 7 }));
    }
    let mut buffers = sized(4, 1, 8);
    let mut store = buffers.store();
    let one = copy(&mut store, 7);
    let mut add = |cells| store.add(one, cells, Kind::Copy, Label::ReadWrite);
    assert_eq!(add(0..2), Err(Refusal::NoFreeEntry));
    assert_eq!(add(0..1), Ok(0));
}

#[test]
fn steps_are_told() {
    let mut buffers = fresh();
    let mut store = buffers.store();
    let one = store.create().unwrap();
    let added = store.add(one, 0..2, Kind::Copy, Label::ReadWrite);
    assert_eq!(added, Ok(2 * 64 + 3 * 4 + 2));
    assert_eq!(store.delete(one, 0..1), Ok(3 * 2 + 2));
    assert_eq!(store.commit(one), Ok(3 * 4 + 2));
}

#[test]
fn eight_domains_and_no_more() {
    let mut buffers = fresh();
    let mut store = buffers.store();
    let mut made = Vec::new();
    for number in 1..=8 {
        made.push(store.create().unwrap());
        assert_eq!(made.last().unwrap().get(), number);
    }
    assert_eq!(store.create(), Err(Refusal::TooManyDomains));
    assert_eq!(store.list().unwrap().to_vec(), made);
    assert_eq!(store.list().unwrap().into_iter().collect::<Vec<_>>(), made);
}

#[test]
fn ranges_are_handed_on() {
    let mut buffers = fresh();
    let mut store = buffers.store();
    let one = store.create().unwrap();
    let mut add = |cells| store.add(one, cells, Kind::Copy, Label::ReadOnly);
    assert!(add(3..4).is_ok());
    assert_eq!(add(4..5), Err(Refusal::Range));
    assert_eq!(add(2..2), Err(Refusal::Range));
    #[allow(clippy::reversed_empty_ranges)]
    let reversed = 3..1;
    assert_eq!(add(reversed), Err(Refusal::Range));
    assert_eq!(add(0..u32::MAX), Err(Refusal::Range));
    assert_eq!(add(u32::MAX - 1..u32::MAX), Err(Refusal::Range));
    assert!(add(0..4).is_ok());
}

/// The nine ranges of a tile: 21 cells, of which 9 are copies.
const TILE: [Range; 9] = [
    Range::via_parent(0..2),
    Range::via_parent(2..4).read_write(),
    Range::copy(16..18).read_write(),
    Range::copy(12..14).read_write(),
    Range::copy(8..10).read_write(),
    Range::copy(4..6).read_write(),
    Range::by_rule(Rule::Scale, 20..24).read_write(),
    Range::by_rule(Rule::Zeros, 24..28).read_write(),
    Range::copy(30..31),
];

/// A cycle that holds the first four cells, and a tile inside it that holds nothing yet.
fn before_the_tile(buffers: &mut Buffers) -> (Store<'_>, Handle) {
    let mut store = buffers.store();
    store.memory_mut().fill(7);
    for (rule, cells) in [(Rule::Scale, 20..24), (Rule::Zeros, 24..28)] {
        for cell in cells {
            *store.cell_mut(cell) = rule.bytes();
        }
    }
    let cycle = store.create().unwrap();
    store
        .add(cycle, 0..4, Kind::Copy, Label::ReadWrite)
        .unwrap();
    let tile = store.create().unwrap();
    (store, tile)
}

#[test]
fn nine_ranges_are_held_together() {
    let mut buffers = sized(32, 32, 16);
    let (mut store, tile) = before_the_tile(&mut buffers);
    assert_eq!(store.add_ranges(tile, &TILE), Ok(9 * 64 + 21 * 6 + 2));
    let before = store.memory().to_vec();
    for cell in TILE.iter().flat_map(Range::cells) {
        store.cell_mut(cell).fill(99);
    }
    assert!(store.memory() != before);
    store.restore(tile).unwrap();
    assert_eq!(store.memory(), before);
    // Once more: nothing is new.
    assert_eq!(store.add_ranges(Innermost, &TILE), Ok(0));
}

/// Each range, and how it is held, as single adds hold it.
#[test]
fn ranges_are_held_as_single_adds_hold_them() {
    let mut buffers = sized(32, 32, 16);
    let (mut store, tile) = before_the_tile(&mut buffers);
    store.add_ranges(tile, &TILE).unwrap();
    let mut others = sized(32, 32, 16);
    let (mut other, _) = before_the_tile(&mut others);
    for range in TILE {
        other
            .add(tile, range.cells(), range.kind(), range.label())
            .unwrap();
    }
    for cell in 0..32 {
        assert_eq!(store.look(tile, cell), other.look(tile, cell));
        let rule = |place| match place {
            Ok(Place::Rule(rule)) => Some(rule),
            _ => None,
        };
        let places = [&store, &other].map(|store| store.look_place(tile, cell));
        assert_eq!(rule(places[0]), rule(places[1]), "cell {cell}");
    }
    // The parent's cells that are held via parent, and read-write cells: the same in both.
    let deleted = [&mut store, &mut other].map(|store| {
        store.memory_mut().fill(50);
        let cycle = store.list().unwrap()[0];
        (store.delete(cycle, 0..1), store.advance(tile))
    });
    assert_eq!(deleted[0], deleted[1]);
}

/// Whichever store the list is cut at, all nine ranges are held or none.
#[test]
fn every_cut_of_a_list_is_all_or_none() {
    let need = 9 * 64 + 21 * 6 + 2;
    let mut held = [0, 0];
    for budget in 0..=need {
        let mut buffers = sized(32, 32, 16);
        let (mut store, tile) = before_the_tile(&mut buffers);
        let outcome = store.add_ranges_with_budget(tile, &TILE, budget).unwrap();
        assert_eq!(
            (outcome.steps(), outcome.is_done()),
            (budget, budget == need)
        );
        store.open().unwrap();
        let held_now = TILE
            .map(|range| store.delete(tile, range.cells()).is_ok())
            .iter()
            .filter(|held| **held)
            .count();
        assert!(
            held_now == 0 || held_now == 9,
            "budget {budget}: {held_now}"
        );
        held[held_now / 9] += 1;
    }
    // From word 6 on, which is stored after 576 bytes and 84 words of pairs.
    assert_eq!(held, [9 * 64 + 84 + 1, 42 + 2]);
}

#[test]
fn a_list_of_one_is_the_plain_add() {
    for range in TILE {
        for budget in [0, 1, 64, 130, 135, 140, u64::MAX] {
            let (mut one, mut other) = (sized(32, 32, 16), sized(32, 32, 16));
            let (mut store, tile) = before_the_tile(&mut one);
            let listed = store.add_ranges_with_budget(tile, &[range], budget);
            let (mut plain, _) = before_the_tile(&mut other);
            let (cells, kind, label) = (range.cells(), range.kind(), range.label());
            let added = plain.add_with_budget(tile, cells, kind, label, budget);
            assert_eq!(listed, added, "{range:?}");
            assert_eq!(store.table(), plain.table());
            assert_eq!(store.bodies(), plain.bodies());
        }
    }
}

#[test]
fn a_list_has_from_1_to_64_ranges() {
    let mut buffers = sized(128, 64, 64);
    let mut store = buffers.store();
    let one = store.create().unwrap();
    let cells: Vec<Range> = (0..70).map(|cell| Range::copy(cell..cell + 1)).collect();
    for (many, answer) in [
        (0, Err(Refusal::NumberOfRanges)),
        (65, Err(Refusal::NumberOfRanges)),
        (70, Err(Refusal::NumberOfRanges)),
        (64, Ok(64 * 70 + 2)),
        (1, Ok(0)),
    ] {
        assert_eq!(store.add_ranges(one, &cells[..many]), answer, "{many}");
    }
    // The handle comes first, and the ranges after.
    let dead = Handle::new(9).unwrap();
    assert_eq!(store.add_ranges(dead, &[]), Err(Refusal::NoSuchDomain));
    store.create().unwrap();
    assert_eq!(store.add_ranges(one, &[]), Err(Refusal::NotInnermost));
    let past = [Range::copy(128..129); 65];
    let added = store.add_ranges(Innermost, &past);
    assert_eq!(added, Err(Refusal::NumberOfRanges));
    let added = store.add_ranges(Innermost, &past[..64]);
    assert_eq!(added, Err(Refusal::Range));
}

#[test]
fn a_later_range_finds_what_an_earlier_one_took() {
    let mut buffers = fresh();
    let mut store = buffers.store();
    store.memory_mut().fill(7);
    let one = store.create().unwrap();
    // By a copy, so that neither a parent nor a rule is asked for; and read-write by the last.
    let ranges = [
        Range::copy(0..2),
        Range::via_parent(1..2),
        Range::by_rule(Rule::Ones, 0..2).read_write(),
        Range::copy(0..1),
    ];
    assert_eq!(store.add_ranges(one, &ranges), Ok(2 * 70 + 2));
    store.memory_mut().fill(9);
    assert_eq!(store.advance(one), Ok(2 * 70 + 2));
    // The other way round they are asked for.
    let turned = [Range::via_parent(2..3), Range::copy(2..3)];
    let added = store.add_ranges(one, &turned);
    assert_eq!(added, Err(Refusal::ParentLacksCell));
    let turned = [Range::by_rule(Rule::Ones, 2..3), Range::copy(2..3)];
    let added = store.add_ranges(one, &turned);
    assert_eq!(added, Err(Refusal::PatternDiffers));
}

#[test]
fn where_one_range_is_refused_none_is_held() {
    let mut buffers = fresh();
    let mut store = buffers.store();
    store.memory_mut().fill(7);
    let one = store.create().unwrap();
    for (last, refusal) in [
        (Range::copy(4..5), Refusal::Range),
        (Range::copy(2..2), Refusal::Range),
        (Range::via_parent(3..4), Refusal::ParentLacksCell),
        (Range::by_rule(Rule::Ones, 3..4), Refusal::PatternDiffers),
    ] {
        let ranges = [Range::copy(0..1), Range::copy(1..3).read_write(), last];
        assert_eq!(store.add_ranges(one, &ranges), Err(refusal));
        assert_eq!(store.delete(one, 0..1), Err(Refusal::NotHeld));
    }
}

#[test]
fn room_is_asked_for_all_ranges_and_last() {
    let four = [0, 1, 2, 3].map(|cell| Range::copy(cell..cell + 1));
    for (entries, bodies, answer) in [
        (4, 4, Ok(4 * 70 + 2)),
        (3, 8, Err(Refusal::NoFreeEntry)),
        (8, 3, Err(Refusal::NoFreeBody)),
    ] {
        let mut buffers = sized(4, entries, bodies);
        let mut store = buffers.store();
        let one = store.create().unwrap();
        // A range that is refused comes first, also where there is no room for those before it.
        let past = [&four[..], &[Range::copy(4..5)]].concat();
        assert_eq!(store.add_ranges(one, &past), Err(Refusal::Range));
        assert_eq!(store.add_ranges(one, &four), answer);
        // Cells that come twice take room once.
        let mut buffers = sized(4, 4, 4);
        let mut store = buffers.store();
        let one = store.create().unwrap();
        let twice = [four, four].concat();
        assert_eq!(store.add_ranges(one, &twice), Ok(4 * 70 + 2));
    }
}

#[test]
fn nobody_is_innermost_in_an_empty_store() {
    let mut buffers = fresh();
    let mut store = buffers.store();
    let one = store.create().unwrap();
    store.commit(one).unwrap();
    assert_eq!(store.restore(Innermost), Err(Refusal::NoSuchDomain));
    assert_eq!(store.commit(one), Err(Refusal::NoSuchDomain));
    // A handle is given out once.
    assert_eq!(store.create().unwrap().get(), 2);
}

#[test]
fn innermost_is_the_last_created() {
    let mut buffers = fresh();
    let mut store = buffers.store();
    let one = store.create().unwrap();
    store
        .add(Innermost, 0..1, Kind::Copy, Label::ReadOnly)
        .unwrap();
    let two = store.create().unwrap();
    assert_eq!(
        store.add(Domain::from(one), 1..2, Kind::Copy, Label::ReadOnly),
        Err(Refusal::NotInnermost)
    );
    assert_eq!(store.advance(one), Err(Refusal::NotInnermost));
    assert_eq!(store.commit(one), Err(Refusal::NotInnermost));
    store.commit(Innermost).unwrap();
    assert_eq!(store.look(two, 0), Err(Refusal::NoSuchDomain));
    store.commit(Innermost).unwrap();
    assert!(store.list().unwrap().is_empty());
}

#[test]
fn a_look_shows_what_a_restore_leaves() {
    let mut buffers = fresh();
    let mut store = buffers.store();
    store.cell_mut(2).fill(7);
    let one = store.create().unwrap();
    let two = store.create().unwrap();
    store.add(two, 2..3, Kind::Copy, Label::ReadWrite).unwrap();
    store.cell_mut(2).fill(9);
    assert_eq!(store.look(one, 2), Ok(&[7; 64]));
    let Place::Bodies { offset } = store.look_place(one, 2).unwrap() else {
        panic!("the cell is held")
    };
    assert_eq!(store.bodies()[offset..offset + 64], [7; 64]);
    assert_eq!(store.look_place(one, 1), Ok(Place::Memory { offset: 64 }));
    assert_eq!(store.look(one, 4), Err(Refusal::Range));
    assert_eq!(
        store.look(Handle::new(77).unwrap(), 4),
        Err(Refusal::NoSuchDomain)
    );
}

/// A store whose only domain holds cell c by rule c, all with this label.
fn by_each_rule(buffers: &mut Buffers, label: Label) -> (Store<'_>, Handle) {
    let mut store = buffers.store();
    let one = store.create().unwrap();
    for (cell, rule) in (0..).zip(Rule::ALL) {
        *store.cell_mut(cell) = rule.bytes();
        let added = store.add(one, cell..cell + 1, Kind::Pattern(rule), label);
        // No byte is stored: one entry, two words.
        assert_eq!(added, Ok(3 * 2 + 2));
    }
    (store, one)
}

#[test]
fn each_rule_comes_back() {
    for label in [Label::ReadOnly, Label::ReadWrite] {
        let mut buffers = fresh();
        let (mut store, one) = by_each_rule(&mut buffers, label);
        store.memory_mut().fill(200);
        for (cell, rule) in (0..).zip(Rule::ALL) {
            assert_eq!(store.look_place(one, cell), Ok(Place::Rule(rule)));
            assert_eq!(store.look(one, cell), Ok(&rule.bytes()));
        }
        assert_eq!(store.restore(one), Ok(4 * 64));
        for (cell, rule) in (0..).zip(Rule::ALL) {
            assert_eq!(store.cell(cell), &rule.bytes());
        }
    }
}

#[test]
fn an_advance_turns_read_write_rules_into_copies() {
    for (label, steps, byte) in [
        (Label::ReadOnly, 0, None),
        (Label::ReadWrite, 4 * 64 + 3 * 8 + 2, Some(9)),
    ] {
        let mut buffers = fresh();
        let (mut store, one) = by_each_rule(&mut buffers, label);
        store.memory_mut().fill(9);
        assert_eq!(store.advance(one), Ok(steps));
        store.memory_mut().fill(200);
        store.restore(one).unwrap();
        for (cell, rule) in (0..).zip(Rule::ALL) {
            let wanted = byte.map_or(rule.bytes(), |byte| [byte; 64]);
            assert_eq!(store.cell(cell), &wanted, "{rule:?}");
            let by_rule = store.look_place(one, cell) == Ok(Place::Rule(rule));
            assert_eq!(by_rule, byte.is_none(), "{rule:?}");
        }
    }
}

/// Four cells of 7 that the only domain holds as copies, read-write.
fn four_copies(buffers: &mut Buffers) -> (Store<'_>, Handle) {
    let mut store = buffers.store();
    store.memory_mut().fill(7);
    let one = store.create().unwrap();
    store.add(one, 0..4, Kind::Copy, Label::ReadWrite).unwrap();
    (store, one)
}

#[test]
fn an_advance_copies_what_changed() {
    let mut buffers = fresh();
    let (mut store, one) = four_copies(&mut buffers);
    let places = |store: &Store| [0, 1, 2, 3].map(|cell| store.look_place(one, cell).unwrap());
    let first = places(&store);
    for budget in [0, 1, u64::MAX] {
        let outcome = store.advance_with_budget(one, budget).unwrap();
        assert_eq!((outcome.steps(), outcome.is_done()), (0, true));
    }
    // The first byte of one cell, the last byte of another.
    store.memory_mut()[64] = 9;
    store.memory_mut()[3 * 64 + 63] = 9;
    assert_eq!(store.advance(one), Ok(2 * 70 + 2));
    let then = places(&store);
    assert_eq!((then[0], then[2]), (first[0], first[2]));
    assert!(then[1] != first[1] && then[3] != first[3]);
    // Written and written back is unchanged.
    store.cell_mut(2).fill(9);
    store.cell_mut(2).fill(7);
    assert_eq!(store.advance(one), Ok(0));
    let kept = store.memory().to_vec();
    store.memory_mut().fill(200);
    store.restore(one).unwrap();
    assert_eq!(store.memory(), kept);
}

#[test]
fn an_advance_needs_bodies_for_what_changed() {
    // Four copies, and two bodies besides.
    let mut buffers = sized(4, 8, 6);
    let (mut store, one) = four_copies(&mut buffers);
    store.memory_mut()[..3 * 64].fill(9);
    assert_eq!(store.advance(one), Err(Refusal::NoFreeBody));
    store.cell_mut(1).fill(7);
    assert_eq!(store.advance(one), Ok(2 * 70 + 2));
}

#[test]
fn an_unchanged_cell_stays_via_parent_or_by_its_rule() {
    let mut buffers = sized(4, 8, 3);
    let mut store = buffers.store();
    let one = store.create().unwrap();
    store.add(one, 0..2, Kind::Copy, Label::ReadWrite).unwrap();
    let two = store.create().unwrap();
    let zeros = Kind::Pattern(Rule::Zeros);
    store
        .add(two, 0..1, Kind::ViaParent, Label::ReadWrite)
        .unwrap();
    store.add(two, 1..2, zeros, Label::ReadWrite).unwrap();
    assert_eq!(store.advance(two), Ok(0));
    assert_eq!(store.delete(one, 0..1), Err(Refusal::ChildRelies));
    assert_eq!(store.look_place(two, 1), Ok(Place::Rule(Rule::Zeros)));
    // One of them at a time: there is one free body.
    store.memory_mut()[63] = 1;
    assert_eq!(store.advance(two), Ok(72));
    assert_eq!(store.look_place(two, 1), Ok(Place::Rule(Rule::Zeros)));
    store.memory_mut()[64] = 1;
    assert_eq!(store.advance(two), Err(Refusal::NoFreeBody));
    // The first cell is a copy now, so that nobody relies on the parent's.
    store.delete(one, 0..1).unwrap();
}

#[test]
fn a_pattern_has_to_be_in_memory() {
    let mut buffers = fresh();
    let mut store = buffers.store();
    let one = store.create().unwrap();
    for cell in 0..3 {
        *store.cell_mut(cell) = Rule::Index.bytes();
    }
    let index = Kind::Pattern(Rule::Index);
    for place in [0, 63, 2 * 64 + 63] {
        store.memory_mut()[place] ^= 1;
        let added = store.add(one, 0..3, index, Label::ReadWrite);
        assert_eq!(added, Err(Refusal::PatternDiffers), "byte {place}");
        store.memory_mut()[place] ^= 1;
    }
    assert_eq!(store.add(one, 0..3, index, Label::ReadWrite), Ok(20));
    // Held cells are not compared, and keep their rule.
    store.memory_mut().fill(9);
    let again = Kind::Pattern(Rule::Ones);
    assert_eq!(store.add(one, 0..3, again, Label::ReadOnly), Ok(0));
    assert_eq!(store.look_place(one, 2), Ok(Place::Rule(Rule::Index)));
}

#[test]
fn via_parent_never_rests_on_a_rule() {
    let mut buffers = fresh();
    let mut store = buffers.store();
    copy(&mut store, 0);
    hold(&mut store, 0, Kind::Pattern(Rule::Zeros), Label::ReadWrite);
    let three = store.create().unwrap();
    let add = |store: &mut Store| store.add(three, 0..1, Kind::ViaParent, Label::ReadOnly);
    assert_eq!(add(&mut store), Err(Refusal::ParentHoldsByRule));
    store.cell_mut(0).fill(9);
    assert_eq!(add(&mut store), Err(Refusal::MemoryDiffers));
}

#[test]
fn rules_need_entries_and_no_bodies() {
    let mut buffers = sized(8, 8, 1);
    let mut store = buffers.store();
    for cell in 0..8 {
        *store.cell_mut(cell) = Rule::Scale.bytes();
    }
    let one = store.create().unwrap();
    let scale = Kind::Pattern(Rule::Scale);
    assert_eq!(store.add(one, 0..8, scale, Label::ReadWrite), Ok(50));
    assert_eq!(store.open(), Ok(0));
    store.memory_mut().fill(0);
    assert_eq!(store.restore(one), Ok(8 * 64));
    assert!((0..8).all(|cell| store.cell(cell) == &Rule::Scale.bytes()));
    // Unchanged, they stay by their rule; changed, they need a body each.
    assert_eq!(store.advance(one), Ok(0));
    store.memory_mut()[..2 * 64].fill(0);
    assert_eq!(store.advance(one), Err(Refusal::NoFreeBody));
    store.restore(one).unwrap();
    let two = store.create().unwrap();
    let added = store.add(two, 0..1, scale, Label::ReadOnly);
    assert_eq!(added, Err(Refusal::NoFreeEntry));
}

#[test]
fn a_commit_keeps_rules() {
    let mut buffers = fresh();
    let mut store = buffers.store();
    let one = hold(&mut store, 0, Kind::Copy, Label::ReadOnly);
    let two = store.create().unwrap();
    let zeros = Kind::Pattern(Rule::Zeros);
    store.add(two, 0..2, zeros, Label::ReadWrite).unwrap();
    store.commit(two).unwrap();
    // The outer copy stays where there is one; where there is none, the rule moves.
    assert!(matches!(store.look_place(one, 0), Ok(Place::Bodies { .. })));
    assert_eq!(store.look_place(one, 1), Ok(Place::Rule(Rule::Zeros)));
}

/// A scale of one that is held by its rule, and a new scale written over it: whichever store the
/// advance is cut at, the domain goes back to the one or to the other.
#[test]
fn every_cut_of_a_scale_of_one_is_old_or_new() {
    for budget in 0..=72 {
        let mut buffers = fresh();
        let mut store = buffers.store();
        *store.cell_mut(0) = Rule::Scale.bytes();
        let one = store.create().unwrap();
        let scale = Kind::Pattern(Rule::Scale);
        store.add(one, 0..1, scale, Label::ReadWrite).unwrap();
        store.cell_mut(0).fill(8);
        let outcome = store.advance_with_budget(one, budget).unwrap();
        assert_eq!((outcome.steps(), outcome.is_done()), (budget, budget == 72));
        store.open().unwrap();
        store.cell_mut(0).fill(0);
        store.restore(one).unwrap();
        let kept = if budget < 69 {
            Rule::Scale.bytes()
        } else {
            [8; 64]
        };
        assert_eq!(store.cell(0), &kept, "budget {budget}");
    }
}

#[test]
fn every_cut_of_an_advance_is_old_or_new() {
    let mut outcomes = [0, 0];
    for budget in 0..=72 {
        let mut buffers = fresh();
        let mut store = buffers.store();
        let one = copy(&mut store, 7);
        store.cell_mut(0).fill(9);
        let outcome = store.advance_with_budget(one, budget).unwrap();
        if budget < 72 {
            assert_eq!(outcome, Outcome::Stopped { steps: budget });
        } else {
            assert_eq!(
                outcome,
                Outcome::Done {
                    steps: 72,
                    value: ()
                }
            );
        }
        if (69..72).contains(&budget) {
            assert_eq!(store.list(), Err(Refusal::Pending));
            assert_eq!(store.restore(one), Err(Refusal::Pending));
        }
        let steps = store.open().unwrap();
        assert_eq!(steps, if (69..72).contains(&budget) { 3 } else { 0 });
        store.cell_mut(0).fill(0);
        store.restore(one).unwrap();
        let made = budget >= 69;
        assert!(
            is_filled(&store, 0, if made { 9 } else { 7 }),
            "budget {budget}"
        );
        outcomes[usize::from(made)] += 1;
    }
    assert_eq!(outcomes, [69, 4]);
}

#[test]
fn a_stopped_create_tells_no_handle() {
    let mut buffers = fresh();
    let mut store = buffers.store();
    let outcome = store.create_with_budget(10).unwrap();
    assert_eq!(
        (outcome.steps(), outcome.is_stopped(), outcome.done()),
        (10, true, None)
    );
    store.open().unwrap();
    assert_eq!(store.list().unwrap().last().unwrap().get(), 1);
    let outcome = store.create_with_budget(11).unwrap();
    assert_eq!(
        (
            outcome.steps(),
            outcome.is_done(),
            outcome.done().map(Handle::get)
        ),
        (11, true, Some(2))
    );
}

#[test]
fn a_cut_make_leaves_no_store() {
    let mut buffers = fresh();
    let mut store = buffers.store();
    store.create().unwrap();
    assert_eq!(store.make_with_budget(0), Ok(Outcome::Stopped { steps: 0 }));
    assert_eq!(store.list().unwrap().len(), 1);
    for budget in 1..33 {
        assert_eq!(
            store.make_with_budget(budget),
            Ok(Outcome::Stopped { steps: budget })
        );
        assert_eq!(store.open(), Err(Refusal::NoStore));
        assert_eq!(store.list(), Err(Refusal::NoStore));
    }
    assert_eq!(
        store.make_with_budget(33),
        Ok(Outcome::Done {
            steps: 33,
            value: ()
        })
    );
    assert_eq!(store.create().unwrap().get(), 1);
}

#[test]
fn wrong_lengths_are_refused_by_every_call() {
    let one = Handle::new(1).unwrap();
    for (memory, bodies, table) in [
        (0, 64, 42),
        (63, 64, 42),
        (64, 0, 42),
        (64, 65, 42),
        (64, 64, 0),
        (64, 64, 36),
        (64, 64, 41),
        (64, 64, 43),
    ] {
        let (mut memory, mut bodies, mut table) =
            (vec![1; memory], vec![2; bodies], vec![3; table]);
        let before = (memory.clone(), bodies.clone(), table.clone());
        let mut store = Store::new(&mut memory, &mut bodies, &mut table);
        let cells = 0..1;
        assert_eq!(store.make(), Err(Refusal::Lengths));
        assert_eq!(store.open(), Err(Refusal::Lengths));
        assert_eq!(store.create(), Err(Refusal::Lengths));
        assert_eq!(
            store.add(one, cells.clone(), Kind::Copy, Label::ReadOnly),
            Err(Refusal::Lengths)
        );
        let ranges = [Range::copy(cells.clone()); 65];
        for many in [0, 2, 65] {
            let added = store.add_ranges(one, &ranges[..many]);
            assert_eq!(added, Err(Refusal::Lengths));
        }
        assert_eq!(store.delete(one, cells), Err(Refusal::Lengths));
        assert_eq!(store.commit(one), Err(Refusal::Lengths));
        assert_eq!(store.advance(one), Err(Refusal::Lengths));
        assert_eq!(store.restore(one), Err(Refusal::Lengths));
        assert_eq!(store.list(), Err(Refusal::Lengths));
        assert_eq!(store.look(one, 0), Err(Refusal::Lengths));
        assert_eq!((memory, bodies, table), before);
    }
}

#[test]
fn a_corrupt_table_is_refused_and_kept() {
    let mut buffers = fresh();
    let mut store = buffers.store();
    store.create().unwrap();
    let (memory, bodies, table) = store.into_buffers();
    table[4] = 9;
    let before = table.to_vec();
    let mut store = Store::new(memory, bodies, table);
    assert_eq!(store.open(), Err(Refusal::Corrupt));
    assert_eq!(store.create(), Err(Refusal::Corrupt));
    assert_eq!(store.restore(Innermost), Err(Refusal::Corrupt));
    assert_eq!(store.look(Innermost, 0), Err(Refusal::Corrupt));
    assert_eq!(store.table(), before);
}

#[test]
fn the_largest_store_works() {
    let mut buffers = sized(65_536, 4_096, 4_096);
    let mut store = buffers.store();
    store.memory_mut().fill(7);
    let one = store.create().unwrap();
    store
        .add(one, 61_440..65_536, Kind::Copy, Label::ReadWrite)
        .unwrap();
    store.memory_mut()[61_440 * 64..].fill(9);
    assert_eq!(store.advance(one), Err(Refusal::NoFreeBody));
    assert_eq!(store.restore(one), Ok(64 * 4_096));
    assert!(store.memory().iter().all(|byte| *byte == 7));
}

#[test]
fn the_raw_functions_set_their_out_parameters() {
    let (mut memory, mut bodies, mut table) = ([0_u8; 64], [0_u8; 64], [5_u32; 42]);
    let lent = Lent::new(&mut memory, &mut bodies, &mut table);
    let (mut steps, mut handle, mut handles, mut count) = (77, 77, [77; 8], 77);
    let (mut place, mut offset, mut rule) = (77, 77, 77);
    // SAFETY: the arrays are as long as is said, and nothing overlaps.
    unsafe {
        assert_eq!(lent.create(u64::MAX, &mut steps, &mut handle), 2);
        assert_eq!((steps, handle), (0, 0));
        assert_eq!(lent.list(handles.as_mut_ptr(), &mut count), 2);
        assert_eq!((handles, count), ([0; 8], 0));
        assert_eq!(lent.look(0, 0, &mut place, &mut offset, &mut rule), 2);
        assert_eq!((place, offset, rule), (0, 0, 0));
        assert_eq!(lent.make(u64::MAX, &mut steps), 0);
        assert_eq!(steps, 19);
        assert_eq!(lent.create(u64::MAX, &mut steps, &mut handle), 0);
        // Wrong kinds, labels and rules reach the library only from here.
        for (kind, rule, label, answer) in [
            (3, 0, 0, 7),
            (0, 0, 2, 7),
            (2, 4, 2, 7),
            (2, 4, 0, 18),
            (2, u32::MAX, 1, 18),
        ] {
            steps = 77;
            let number = lent.add(handle, 0, 1, kind, rule, label, u64::MAX, &mut steps);
            assert_eq!((number, steps), (answer, 0));
        }
        // A look at a cell that is held by a rule.
        assert_eq!(lent.add(handle, 0, 1, 2, 0, 0, u64::MAX, &mut steps), 0);
        assert_eq!(steps, 8);
        (place, offset, rule) = (77, 77, 77);
        assert_eq!(lent.look(0, 0, &mut place, &mut offset, &mut rule), 0);
        assert_eq!((place, offset, rule), (3, 0, 0));
    }
}

/// A list by its numbers: NULL where it has no ranges, wrong numbers in any of them, and far more than
/// there may be.
#[test]
fn the_raw_list_is_taken_as_it_is() {
    let (mut memory, mut bodies, mut table) = ([0_u8; 256], [0_u8; 256], [0_u32; 60]);
    let lent = Lent::new(&mut memory, &mut bodies, &mut table);
    let none = std::ptr::null();
    let good = ffi::Range::from(Range::copy(0..1).read_write());
    let (mut steps, mut handle) = (77, 77);
    // SAFETY: the arrays are as long as is said, and nothing overlaps.
    unsafe {
        assert_eq!(lent.add_ranges(0, none, 0, u64::MAX, &mut steps), 2);
        assert_eq!(steps, 0);
        assert_eq!(lent.make(u64::MAX, &mut steps), 0);
        assert_eq!(lent.add_ranges(0, none, 0, u64::MAX, &mut steps), 5);
        assert_eq!(lent.create(u64::MAX, &mut steps, &mut handle), 0);
        steps = 77;
        assert_eq!(lent.add_ranges(handle, none, 0, u64::MAX, &mut steps), 20);
        assert_eq!(steps, 0);
        // The lowest bits of a length say nothing of it.
        let many = vec![good; (1 << 16) + 1];
        for len in [65, 128, 256, 257, 1 << 16, many.len()] {
            steps = 77;
            let number = lent.add_ranges(handle, many.as_ptr(), len, u64::MAX, &mut steps);
            assert_eq!((number, steps), (20, 0), "{len} ranges");
        }
        for (wrong, answer) in [
            (ffi::Range { kind: 3, ..good }, 7),
            (ffi::Range { label: 2, ..good }, 7),
            (
                ffi::Range {
                    kind: 2,
                    rule: 4,
                    ..good
                },
                18,
            ),
            (
                ffi::Range {
                    first: u32::MAX,
                    count: 2,
                    ..good
                },
                8,
            ),
            (ffi::Range { count: 0, ..good }, 8),
        ] {
            for list in [
                vec![wrong, good],
                vec![good, wrong],
                vec![good, wrong, good],
            ] {
                steps = 77;
                let (ranges, len) = (list.as_ptr(), list.len());
                let number = lent.add_ranges(handle, ranges, len, u64::MAX, &mut steps);
                assert_eq!((number, steps), (answer, 0), "{list:?}");
            }
        }
        // A rule number that a copy ignores.
        let list = [
            ffi::Range {
                rule: u32::MAX,
                ..good
            },
            good,
        ];
        assert_eq!(
            lent.add_ranges(handle, list.as_ptr(), 2, u64::MAX, &mut steps),
            0
        );
        assert_eq!(steps, 72);
        assert_eq!(list[1], good);
    }
}
