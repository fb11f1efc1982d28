//! Request A.3 by hand: what a list of records holds, its questions and their order, its steps, the
//! places it takes, and what each cut leaves.

mod meant;

use domain_model::calls::{
    COPY, PATTERN, READ_ONLY as RO, READ_WRITE as RW, RECORDS, Record, VIA_PARENT,
};
use domain_model::edges::{TILE, one_cell_records};
use domain_model::rules::{INDEX, ONES, SCALE, ZEROS};
use domain_model::{
    Buffer, Buffers, Call, Ended, FULL, Fault, Holding, Kept, Model, Notebook, Reading, Rng, Sizes,
    State, Step, Verdict, Work, plan, table,
};
use meant::Meant;

const EIGHT: Sizes = Sizes { m: 8, e: 8, b: 8 };

/// A store with one domain that holds nothing.
fn one_domain(sizes: Sizes) -> Meant {
    let mut meant = Meant::fresh(sizes, 7);
    assert_eq!(meant.play(&Call::Create).0, 0);
    meant
}

/// Domain 1 holds cells 0 to 3 as copies, read-write, and cell 4 by a rule; domain 2, inside it, holds
/// nothing.
fn two_domains(sizes: Sizes) -> Meant {
    let mut meant = one_domain(sizes);
    meant.follow(4, SCALE);
    for call in [
        Call::copy(0, 4, RW),
        Call::pattern(4, 1, SCALE, RW),
        Call::Create,
    ] {
        assert_eq!(meant.play(&call).0, 0, "{call}");
    }
    meant
}

fn answer(meant: &Meant, records: &[Record]) -> u32 {
    match meant.verdict(&Call::ranges(records)) {
        Verdict::Refused(number) => number,
        _ => 0,
    }
}

/// The store that a reading is, and how many pairs are pending.
fn store(reading: &Reading) -> (&State, u32) {
    match reading {
        Reading::Store { state, pending } => (state, *pending),
        other => panic!("{other:?}"),
    }
}

/// After each number of steps the list is made whole, from word 6 on, or not made at all.
fn whole_at_every_cut(meant: &mut Meant, work: &Work) {
    let before = meant.state().clone();
    let turn = work.byte_steps() + 2 * work.words + 1;
    for k in 0..=work.need {
        let reading = work.reading_after(&meant.reading, k);
        let (state, pending) = store(&reading);
        let made = work.words > 0 && k >= turn || k == work.need;
        assert_eq!(state, if made { &work.after } else { &before }, "at {k}");
        let waiting = if made && k < work.need { work.words } else { 0 };
        assert_eq!(u64::from(pending), waiting, "after {k} steps");
        let mut memory = meant.memory.clone();
        work.memory_after(&mut memory, k);
        assert_eq!(memory, meant.memory, "after {k} steps");
    }
}

fn held(state: &State, cell: u32) -> Option<Holding> {
    state
        .domains
        .last()
        .expect("live")
        .cells
        .get(&cell)
        .copied()
}

#[test]
fn nine_ranges_of_a_tile() {
    let mut meant = Meant::fresh(Sizes { m: 16, e: 15, b: 7 }, 7);
    for (cell, rule) in [
        (5, ZEROS),
        (9, INDEX),
        (10, INDEX),
        (12, SCALE),
        (13, SCALE),
    ] {
        meant.follow(cell, rule);
    }
    for call in [Call::Create, Call::copy(0, 4, RW), Call::Create] {
        assert_eq!(meant.play(&call).0, 0, "{call}");
    }
    // Three copies of 64 bytes; eleven entries of two words each: 3p + 2 with p = 22.
    let work = meant.work(&Call::ranges(TILE));
    assert_eq!((work.byte_steps(), work.words, work.need), (192, 22, 260));
    let taken: Vec<u32> = work.taken.iter().map(|(cell, _)| *cell).collect();
    assert_eq!(taken, [4, 8, 15]);
    whole_at_every_cut(&mut meant, &work);

    let (copy, via) = (Kept::Copy([7; 64]), Kept::ViaParent);
    let should = [
        (0, via, true),
        (1, via, false),
        (2, via, true),
        (4, copy, true),
        (5, Kept::Rule(ZEROS), true),
        (8, copy, false),
        (9, Kept::Rule(INDEX), false),
        (10, Kept::Rule(INDEX), false),
        (12, Kept::Rule(SCALE), true),
        (13, Kept::Rule(SCALE), true),
        (15, copy, true),
    ];
    let should = should.map(|(cell, kept, read_write)| (cell, Holding { read_write, kept }));
    let cells = work.after.domains[1].cells.clone();
    assert_eq!(cells.into_iter().collect::<Vec<_>>(), should);

    let memory = meant.memory.clone();
    meant.carry_out(&work);
    meant.memory.fill(99);
    assert_eq!(meant.play(&Call::Restore { handle: 2 }).0, 0);
    for (cell, _) in should {
        let at = 64 * cell as usize;
        assert_eq!(*meant.cell(cell), memory[at..at + 64], "cell {cell}");
    }
    assert_eq!(*meant.cell(3), [99; 64]);
}

#[test]
fn so_many_records() {
    let meant = one_domain(EIGHT);
    for many in [0, 1, 2, 9, 63, 64, 65, 66, 128, 256, 257, 1_000] {
        let records = vec![Record::copy(1, 1, RO); many];
        let should = if RECORDS.contains(&many) { 0 } else { 20 };
        assert_eq!(answer(&meant, &records), should, "{many} records");
        // One cell, however many records name it.
        if should == 0 {
            assert_eq!(meant.work(&Call::ranges(records)).need, 72);
        }
    }
}

/// 20 comes after 5 and 6, and before any record's questions.
#[test]
fn the_place_of_question_20() {
    let number = |meant: &Meant, call: Call| match meant.verdict(&call) {
        Verdict::Refused(number) => number,
        other => panic!("{call}: {other:?}"),
    };
    let wrong = Record::new(99, 0, 3, 2);
    let nobody = Meant::fresh(EIGHT, 0);
    let meant = two_domains(Sizes { e: 16, ..EIGHT });
    for many in [0, 65] {
        let list = |handle| Call::ranges(vec![wrong; many]).on(handle);
        assert_eq!(number(&nobody, list(0)), 5, "{many} records, nobody live");
        assert_eq!(number(&meant, list(3)), 5, "{many} records, a dead handle");
        assert_eq!(
            number(&meant, list(1)),
            6,
            "{many} records, an outer domain"
        );
        for innermost in [0, 2] {
            assert_eq!(number(&meant, list(innermost)), 20, "{many} records");
        }
    }
    assert_eq!(number(&meant, Call::ranges([wrong; 64])), 7);
}

/// Two records on one cell that the next domain out holds: the first fixes kind and value, either may
/// make it read-write, and it is one entry.
#[test]
fn two_records_on_one_cell() {
    let mut meant = two_domains(Sizes { e: 16, ..EIGHT });
    meant.follow(0, ZEROS);
    let mut state = meant.state().clone();
    // The parent's value is zeros too, so that every kind will do.
    state.domains[0].cells.get_mut(&0).expect("held").kept = Kept::Copy([0; 64]);
    *meant.state() = state;
    let kinds = [
        (COPY, Kept::Copy([0; 64]), 64),
        (VIA_PARENT, Kept::ViaParent, 0),
        (PATTERN, Kept::Rule(ZEROS), 0),
    ];
    for (first, kept, bytes) in kinds {
        for (second, _, _) in kinds {
            for (one, other) in [(RO, RO), (RO, RW), (RW, RO), (RW, RW)] {
                let list = [
                    Record::new(0, 1, first, one),
                    Record::new(0, 1, second, other),
                ];
                let work = meant.work(&Call::ranges(list));
                let read_write = one | other == RW;
                assert_eq!(held(&work.after, 0), Some(Holding { read_write, kept }));
                assert_eq!((work.words, work.need), (2, bytes + 8), "{list:?}");
                whole_at_every_cut(&mut meant, &work);
            }
        }
    }
}

/// A cell that an earlier record has taken is held: 11, 12, 18 and 19 are not put for it, and a rule
/// above 3 is refused all the same.
#[test]
fn taken_cells_are_not_asked_for() {
    let mut meant = two_domains(Sizes { e: 16, ..EIGHT });
    meant.cell(1).fill(9);
    let via = |cell| Record::via_parent(cell, 1, RW);
    let ones = |cell| Record::pattern(cell, 1, ONES, RW);
    // Cell 1 differs from the parent's value, 4 is held by a rule there, 5 is not held there.
    for (record, number) in [(via(1), 12), (via(4), 19), (via(5), 11), (ones(1), 18)] {
        assert_eq!(answer(&meant, &[record]), number);
        let copy = Record::copy(record.first, 1, RO);
        assert_eq!(answer(&meant, &[copy, record]), 0, "after a copy");
        assert_eq!(answer(&meant, &[record, copy]), number, "before a copy");
        let other = Record::copy(7, 1, RO);
        assert_eq!(answer(&meant, &[other, record]), number, "beside a copy");
        // Of a range only the cell that is not taken yet is asked for.
        let wider = Record {
            first: record.first - 1,
            count: 2,
            ..record
        };
        let both = Record::copy(record.first - 1, 2, RO);
        assert_eq!(answer(&meant, &[both, wider]), 0);
        assert_eq!(answer(&meant, &[copy, other, both, wider]), 0);
    }
    let copy = Record::copy(6, 1, RO);
    let no_rule = Record::pattern(6, 1, 4, RO);
    assert_eq!(answer(&meant, &[copy, no_rule]), 18);
}

/// Each question of a record before the next record's first one.
#[test]
fn record_by_record() {
    let mut meant = two_domains(Sizes { e: 16, ..EIGHT });
    meant.cell(1).fill(9);
    let no = [
        (Record::new(0, 1, 3, RO), 7),
        (Record::copy(0, 1, 2), 7),
        (Record::copy(0, 0, RO), 8),
        (Record::copy(7, 2, RO), 8),
        (Record::copy(u32::MAX, 2, RO), 8),
        (Record::via_parent(5, 1, RO), 11),
        (Record::via_parent(1, 1, RO), 12),
        (Record::pattern(5, 1, ONES, RO), 18),
        (Record::pattern(5, 1, 4, RO), 18),
        (Record::via_parent(4, 1, RO), 19),
    ];
    let good = [Record::copy(6, 1, RW), Record::via_parent(0, 1, RO)];
    for (first, number) in no {
        for (second, _) in no {
            let list = [good[0], first, good[1], second];
            assert_eq!(answer(&meant, &list), number, "{list:?}");
        }
        // After two records that would do, and as the last of 64.
        assert_eq!(answer(&meant, &[good[0], good[1], first]), number);
        let mut many = vec![good[0]; 63];
        assert_eq!(answer(&meant, &many), 0);
        many.push(first);
        assert_eq!(answer(&meant, &many), number);
    }
}

/// E = 8 and nine new cells: room is asked once every record was asked all of its questions.
#[test]
fn room_is_asked_last() {
    let nine = Record::copy(0, 9, RO);
    let sizes = Sizes { m: 16, e: 8, b: 16 };
    for sizes in [
        sizes,
        Sizes {
            e: 16,
            b: 8,
            ..sizes
        },
    ] {
        let short = if sizes.e == 8 { 16 } else { 17 };
        let mut meant = one_domain(sizes);
        for (record, number) in [
            (Record::new(0, 1, 3, RO), 7),
            (Record::copy(16, 1, RO), 8),
            (Record::via_parent(9, 1, RO), 11),
            (Record::pattern(9, 1, ONES, RO), 18),
            (Record::pattern(0, 1, 4, RO), 18),
        ] {
            assert_eq!(answer(&meant, &[nine, record]), number);
            assert_eq!(answer(&meant, &[nine, nine, record]), number);
        }
        // Cells for which there is no room are seen by the later records all the same.
        for record in [
            Record::via_parent(8, 1, RO),
            Record::pattern(0, 9, ONES, RW),
            Record::copy(3, 2, RW),
        ] {
            assert_eq!(answer(&meant, &[nine, record]), short);
        }
        // 12 and 19, with a parent that holds two cells.
        meant.follow(15, SCALE);
        for call in [
            Call::copy(14, 1, RO),
            Call::pattern(15, 1, SCALE, RO),
            Call::Create,
        ] {
            assert_eq!(meant.play(&call).0, 0);
        }
        let via = Record::via_parent;
        assert_eq!(answer(&meant, &[nine, via(14, 2, RO)]), 19);
        meant.cell(14).fill(9);
        assert_eq!(answer(&meant, &[nine, via(14, 1, RO)]), 12);
        assert_eq!(answer(&meant, &[nine, via(13, 2, RO)]), 11);
        meant.cell(14).fill(7);
        assert_eq!(answer(&meant, &[nine, via(14, 1, RO)]), short);
    }
}

/// Entries and bodies for the whole list: just enough, and one short though each record fits alone.
#[test]
fn room_over_the_list() {
    for copies in 2..=6 {
        for rules in 0..=2 {
            let mut list = one_cell_records(copies, COPY, RW);
            list.extend((copies..copies + rules).map(|cell| Record::pattern(cell, 1, ONES, RO)));
            // Once more in another order, by other kinds: these cells are held by then.
            let again: Vec<Record> = list.iter().rev().copied().collect();
            list.extend(again.iter().map(|record| Record {
                kind: VIA_PARENT,
                ..*record
            }));
            let wanted = (copies + rules, copies);
            for (e, b, number) in [
                (wanted.0, wanted.1, 0),
                (wanted.0 - 1, 8, 16),
                (8, wanted.1 - 1, 17),
                (wanted.0 - 1, wanted.1 - 1, 16),
            ] {
                let mut meant = one_domain(Sizes { m: 8, e, b });
                meant.memory.fill(255);
                assert_eq!(answer(&meant, &list), number, "E = {e}, B = {b}: {list:?}");
            }
        }
    }
}

/// The stores of a call on these buffers, with the lowest free places.
fn stores(buffers: &Buffers, call: &Call) -> Vec<Step> {
    let model = Model::default();
    let reading = table::reading(&buffers.decode(None));
    match model.verdict(buffers.lengths(), &reading, &buffers.memory, call) {
        Verdict::Work(work) => {
            let steps = plan::lowest(model, buffers, call, &work).expect("places");
            assert_eq!(steps.len() as u64, work.need, "{call}");
            steps
        }
        other => panic!("{call}: {other:?}"),
    }
}

fn made(sizes: Sizes, calls: &[Call]) -> Buffers {
    let mut buffers = Buffers::filled(sizes.lengths(), 0, 0);
    for cell in 0..sizes.m {
        buffers.write_cell(cell, &[10 + cell as u8; 64]);
    }
    for call in [&[Call::Make, Call::Create], calls].concat() {
        plan::play(&stores(&buffers, &call), &mut buffers);
    }
    buffers
}

/// The bytes of a copy in a body, and table words.
fn bytes(body: usize, byte: u32) -> impl Iterator<Item = Step> {
    (0..64).map(move |i| Step {
        buffer: Buffer::Bodies,
        at: 64 * body + i,
        value: byte,
    })
}

fn word(at: usize, value: u32) -> Step {
    Step {
        buffer: Buffer::Table,
        at,
        value,
    }
}

/// Pairs from `base` on, word 6, the words, word 6.
fn journal(base: usize, words: &[(usize, u32)]) -> Vec<Step> {
    let mut steps = Vec::new();
    for (at, (place, value)) in words.iter().enumerate() {
        steps.push(word(base + 2 * at, *place as u32));
        steps.push(word(base + 2 * at + 1, *value));
    }
    steps.push(word(6, words.len() as u32));
    steps.extend(words.iter().map(|(place, value)| word(*place, *value)));
    steps.push(word(6, 0));
    steps
}

/// Reversed, touching and overlapping ranges: places and bytes rise by cell over the whole call, and
/// there is one journal.
#[test]
fn every_store_by_hand() {
    let sizes = Sizes { m: 4, e: 4, b: 4 };
    let fresh = made(sizes, &[]);
    let copy = Record::copy;
    let words = [
        (16, 0x1000_0000),
        (17, 0),
        (18, 0x1800_0002),
        (19, 1),
        (20, 0x1800_0003),
        (21, 2),
    ];
    for list in [
        vec![copy(2, 2, RW), copy(0, 1, RO)],
        vec![copy(3, 1, RW), copy(2, 1, RW), copy(0, 1, RO)],
        vec![
            copy(3, 1, RO),
            copy(0, 1, RO),
            copy(2, 2, RW),
            copy(0, 1, RO),
        ],
    ] {
        let mut should: Vec<Step> = [(0, 10), (1, 12), (2, 13)]
            .into_iter()
            .flat_map(|(body, byte)| bytes(body, byte))
            .collect();
        should.extend(journal(24, &words));
        assert_eq!(
            stores(&fresh, &Call::ranges(list.clone())),
            should,
            "{list:?}"
        );
    }

    // With a hole: cells 0 to 2 are held, then 1 is not.
    let calls = [Call::copy(0, 3, RO), Call::delete(1, 1, 1)];
    let holed = made(sizes, &calls);
    let list = [
        copy(3, 1, RW),
        copy(1, 1, RO),
        copy(0, 1, RW),
        copy(0, 1, RW),
    ];
    let mut should: Vec<Step> = bytes(1, 11).chain(bytes(3, 13)).collect();
    let words = [
        (16, 0x1800_0000),
        (17, 0),
        (18, 0x1000_0001),
        (19, 1),
        (22, 0x1800_0003),
        (23, 3),
    ];
    should.extend(journal(24, &words));
    assert_eq!(stores(&holed, &Call::ranges(list)), should);

    // A rule takes an entry among the others and no body: cell 0 by a copy, 1 by a rule, 3 by a copy.
    let mut buffers = fresh;
    buffers.write_cell(1, &[255; 64]);
    let list = [
        copy(3, 1, RO),
        Record::pattern(1, 1, ONES, RO),
        copy(0, 1, RO),
    ];
    let mut should: Vec<Step> = bytes(0, 10).chain(bytes(1, 13)).collect();
    let words = [
        (16, 0x1000_0000),
        (17, 0),
        (18, 0x1200_0001),
        (19, 1),
        (20, 0x1000_0003),
        (21, 1),
    ];
    should.extend(journal(24, &words));
    assert_eq!(stores(&buffers, &Call::ranges(list)), should);
}

/// A record at random, near the cells that two domains hold.
fn any_record(random: &mut Rng) -> Record {
    let (first, count) = (random.below(8) as u32, random.between(1, 3) as u32);
    let (kind, label) = (random.below(3) as u32, random.below(2) as u32);
    let rule = *random.pick(&[ZEROS, SCALE, SCALE, 4]);
    Record::new(first, count, kind, label).with_rule(rule)
}

/// A list means what its records mean one after another, and a list of one is the plain add.
#[test]
fn the_fold_of_its_records() {
    let mut random = Rng::new(31);
    let mut answers = [0; 2];
    for _ in 0..3_000 {
        let sizes = Sizes {
            e: 40,
            b: 40,
            ..EIGHT
        };
        let mut meant = two_domains(sizes);
        for cell in [2, 3, 4, 5] {
            match random.below(3) {
                0 => meant.cell(cell).fill(9),
                _ => meant.follow(cell, *random.pick(&[ZEROS, SCALE])),
            }
        }
        let many = random.between(1, 6);
        let list: Vec<Record> = (0..many).map(|_| any_record(&mut random)).collect();
        let (mut one_by_one, mut number) = (two_domains(sizes), 0);
        one_by_one.memory.clone_from(&meant.memory);
        for record in &list {
            let (handle, record) = (0, *record);
            let plain = Call::Add { handle, record };
            let alone = one_by_one.verdict(&plain);
            assert_eq!(alone, one_by_one.verdict(&Call::ranges([record])));
            number = one_by_one.play(&plain).0;
            if number != 0 {
                break;
            }
        }
        assert_eq!(answer(&meant, &list), number, "{list:?}");
        answers[(number == 0) as usize] += 1;
        if number != 0 {
            continue;
        }
        let work = meant.work(&Call::ranges(list.clone()));
        assert_eq!(work.after, *one_by_one.state(), "{list:?}");
        // Steps from the two states: bytes for each new copy, two words for each changed entry.
        let (old, new) = (
            &meant.state().domains[1].cells,
            &work.after.domains[1].cells,
        );
        let changed = new.iter().filter(|(c, held)| old.get(c) != Some(held));
        let copies = changed.clone().filter(|(_, held)| held.kept.is_copy());
        let (p, copies) = (2 * changed.count() as u64, copies.count() as u64);
        let need = 64 * copies + if p == 0 { 0 } else { 3 * p + 2 };
        assert_eq!((work.words, work.need), (p, need), "{list:?}");
        if work.need < 500 {
            whole_at_every_cut(&mut meant, &work);
        }
    }
    assert!(answers.iter().all(|times| *times > 300), "{answers:?}");
}

/// The longest list that takes every entry and body: 70E + 2 steps, within the bound 70E + 32.
#[test]
fn the_bound_stays() {
    let sizes = Sizes {
        m: 64,
        e: 64,
        b: 64,
    };
    let work = one_domain(sizes).work(&Call::ranges(one_cell_records(64, COPY, RW)));
    assert_eq!(work.need, 70 * 64 + 2);
    assert!(work.need <= 70 * 64 + 32);
}

/// The notebook's line, record by record.
#[test]
fn the_line_of_each_record() {
    let mut memory = vec![0; 64 * 4];
    let mut book = Notebook::new(None);
    let done = |book: &mut Notebook, call: Call, memory: &[u8]| {
        book.call(&call, FULL, Ended::Done, 0, memory).unwrap()
    };
    done(&mut book, Call::Create, &memory);
    let list = [
        Record::copy(0, 2, RO),
        Record::pattern(1, 2, ZEROS, RW),
        Record::copy(1, 1, RO),
    ];
    done(&mut book, Call::ranges(list), &memory);
    // 1 and 2 are held read-write, 0 read-only, 3 not at all: writes to 0 and 3 are spoilt.
    memory.fill(9);
    book.write(0, memory.len());
    let count = done(&mut book, Call::Restore { handle: 1 }, &memory).unwrap();
    assert_eq!((count.differ, count.looked_at), (128, 128));
}

/// A stopped list is carried out whole by an opening that takes a step, or not at all.
#[test]
fn a_stopped_list_is_carried_out_whole() {
    let list = Call::ranges([Record::copy(0, 1, RW), Record::copy(1, 1, RW)]);
    for (steps, looked_at) in [(0, 0), (5, 128)] {
        let mut memory = vec![0; 128];
        let mut book = Notebook::new(None);
        let mut call = |call: &Call, ended, steps, memory: &[u8]| {
            book.call(call, 3, ended, steps, memory).unwrap()
        };
        call(&Call::Create, Ended::Done, 0, &memory);
        call(&list, Ended::Stopped, 0, &memory);
        call(&Call::Open, Ended::Done, steps, &memory);
        memory.fill(9);
        book.write(0, 128);
        let count = book.zero_count(1, &memory).unwrap().expect("counted");
        assert_eq!(count.looked_at, looked_at);
    }
}

/// The error of a journal for each record: some cut leaves the first records held without the last,
/// and an opening that took steps there would have the notebook believe that all are held.
#[test]
fn a_journal_for_each_record_is_neither_all_nor_none() {
    let mut meant = one_domain(EIGHT);
    let list = Call::ranges([Record::copy(0, 1, RW), Record::copy(1, 1, RW)]);
    let right = meant.work(&list);
    let model = Model {
        fault: Some(Fault::JournalForEachRecord),
    };
    let verdict = model.verdict(meant.lengths, &meant.reading, &meant.memory, &list);
    let Verdict::Work(wrong) = verdict else {
        panic!("{verdict:?}");
    };
    assert_eq!((right.need, wrong.need), (142, 144));
    assert_eq!(right.after, wrong.after);
    let before = meant.state().clone();
    let half = |k: &u64| {
        let reading = wrong.reading_after(&meant.reading, *k);
        let (state, _) = store(&reading);
        *state != before && *state != wrong.after
    };
    // From the first record's word 6, which is step 69, to before that of the second.
    let halves: Vec<u64> = (0..=wrong.need).filter(half).collect();
    assert_eq!(halves, (69..=140).collect::<Vec<u64>>());
}
