//! The numbers: document 01's questions, the header's constants and this crate say the same, and the library answers by them.

use domain_store::{
    Buffers, Handle, Innermost, Kind, Label, MAX_RANGES, Range, Refusal, Rule, Store, ffi,
};
use std::collections::BTreeMap;

/// Document 01, "Questions put to every call, in this order", with those of requests A.1, A.3 and A.4: the number, the question, and what a
/// no is called here. Request A.4 retires 15.
#[rustfmt::skip]
const QUESTIONS: &[(u32, &str, Refusal)] = &[
    (1, "Are the three lengths allowed?", Refusal::Lengths),
    (2, "Are words 0 to 3 and 7 right for these lengths?", Refusal::NoStore),
    (3, "Is word 6 zero?", Refusal::Pending),
    (4, "Is the table, pending pairs included, as described above?", Refusal::Corrupt),
    (5, "Does the handle name a live domain?", Refusal::NoSuchDomain),
    (6, "Is it the innermost?", Refusal::NotInnermost),
    (7, "Is the kind 0 to 2 and the label 0 or 1?", Refusal::KindOrLabel),
    (8, "Is the count at least 1 and first + count at most m?", Refusal::Range),
    (9, "Are fewer than 8 domains live?", Refusal::TooManyDomains),
    (10, "Is word 5 below 4,294,967,295?", Refusal::NoHandleLeft),
    (11, "Does the next domain out hold every newly held cell?", Refusal::ParentLacksCell),
    (12, "Does memory equal that domain's value in each of them?", Refusal::MemoryDiffers),
    (13, "Does the domain hold every cell?", Refusal::NotHeld),
    (14, "Is none of them held via parent by the next domain in?", Refusal::ChildRelies),
    (16, "Are live entries plus newly held cells, and cells given outwards, at most E?", Refusal::NoFreeEntry),
    (17, "Are copies in use plus new bodies at most B?", Refusal::NoFreeBody),
    (18, "Is the rule at most 3, and memory like it in every newly held cell?", Refusal::PatternDiffers),
    (19, "Does the next domain out hold none of them by a rule?", Refusal::ParentHoldsByRule),
    (20, "Are there at least 1 and at most 64 records?", Refusal::NumberOfRanges),
];

/// The retired number, which keeps its name.
#[allow(deprecated)]
const RETIRED: (u32, Refusal) = (15, Refusal::ParentLacksReadWrite);

/// The header's constants: name and number.
fn constants() -> BTreeMap<String, u32> {
    let header = include_str!("../../../include/domain_store.h");
    header
        .lines()
        .filter_map(|line| line.strip_prefix("#define DS_"))
        .map(|line| {
            let (name, value) = line.split_once(' ').expect("a value");
            let number = value.strip_suffix('u').and_then(|value| value.parse().ok());
            let number = number.unwrap_or_else(|| panic!("DS_{name} is {value}"));
            (format!("DS_{name}"), number)
        })
        .collect()
}

/// `NoStore` is `DS_REFUSED_NO_STORE` in C.
fn name_in_c(refusal: Refusal) -> String {
    format!("{refusal:?}")
        .chars()
        .fold("DS_REFUSED".into(), |name, letter| match letter {
            'A'..='Z' => format!("{name}_{letter}"),
            _ => format!("{name}{}", letter.to_ascii_uppercase()),
        })
}

#[test]
fn header_crate_and_document_01_number_alike() {
    let asked: Vec<(u32, Refusal)> = QUESTIONS.iter().map(|row| (row.0, row.2)).collect();
    let told: Vec<(u32, Refusal)> = Refusal::ALL.iter().map(|r| (r.number(), *r)).collect();
    assert_eq!(told, asked);

    let mut expected: BTreeMap<String, u32> = asked
        .iter()
        .chain([&RETIRED])
        .map(|(number, refusal)| (name_in_c(*refusal), *number))
        .collect();
    expected.extend(
        [
            ("DS_DONE", ffi::DONE),
            ("DS_STOPPED", ffi::STOPPED),
            ("DS_IN_MEMORY", ffi::IN_MEMORY),
            ("DS_IN_BODIES", ffi::IN_BODIES),
            ("DS_BY_RULE", ffi::BY_RULE),
            ("DS_COPY", Kind::Copy.number()),
            ("DS_VIA_PARENT", Kind::ViaParent.number()),
            ("DS_PATTERN", Kind::Pattern(Rule::Zeros).number()),
            ("DS_RULE_ZEROS", Rule::Zeros.number()),
            ("DS_RULE_ONES", Rule::Ones.number()),
            ("DS_RULE_INDEX", Rule::Index.number()),
            ("DS_RULE_SCALE", Rule::Scale.number()),
            ("DS_READ_ONLY", Label::ReadOnly.number()),
            ("DS_READ_WRITE", Label::ReadWrite.number()),
        ]
        .map(|(name, number)| (name.to_string(), number)),
    );
    assert_eq!(constants(), expected);
    // Document 01 has no numbers for these two: they are the library's own.
    assert_eq!((ffi::DONE, ffi::STOPPED), (0, 255));
}

#[test]
fn a_number_is_one_refusal_or_none() {
    for number in 0..=300 {
        let rows: Vec<_> = QUESTIONS.iter().filter(|row| row.0 == number).collect();
        let found = Refusal::from_number(number);
        assert_eq!(found, rows.first().map(|row| row.2), "{number}");
        assert!(rows.len() <= 1);
    }
}

/// No call answers 15 any more: what was refused by it is done, and where there is no entry for what is given, 16 tells so.
#[test]
fn a_retired_number_is_kept_and_not_answered() {
    let (number, refusal) = RETIRED;
    assert_eq!(refusal.number(), number);
    assert_eq!(Refusal::from_number(number), None);
    assert!(!Refusal::ALL.contains(&refusal));
    for (entries, advanced) in [(2, Ok(78)), (1, Err(Refusal::NoFreeEntry))] {
        let mut buffers = store(4, entries, 8, 2);
        let mut store = buffers.store();
        let two = Handle::new(2).unwrap();
        store.add(two, 0..1, Kind::Copy, Label::ReadWrite).unwrap();
        assert_eq!(store.advance(two), Ok(0));
        store.cell_mut(0).fill(9);
        assert_eq!(store.advance(two), advanced);
    }
}

#[test]
fn each_refusal_says_what_and_what_to_do() {
    for refusal in Refusal::ALL.iter().chain([&RETIRED.1]) {
        let text = refusal.to_string();
        assert!(text.ends_with('.') && text.contains(": "), "{text}");
        assert!(!text.contains("  "), "{text}");
    }
}

/// A store of these sizes with so many domains.
fn store(m: u32, e: u32, b: u32, domains: u32) -> Buffers {
    let mut buffers = Buffers::allocate(m, e, b).unwrap();
    let mut store = buffers.store();
    store.make().unwrap();
    for _ in 0..domains {
        store.create().unwrap();
    }
    buffers
}

/// A call that the question is answered by no for, and the earlier ones by yes.
fn provoked(number: u32) -> Option<Refusal> {
    let mut buffers = store(4, 8, 8, 2);
    let mut small = store(4, 1, 1, 1);
    let mut store = buffers.store();
    let mut small = small.store();
    let (one, two) = (Handle::new(1).unwrap(), Handle::new(2).unwrap());
    let (copy, rw) = (Kind::Copy, Label::ReadWrite);
    match number {
        1 => Store::new(&mut [0; 63], &mut [0; 64], &mut [0; 42])
            .make()
            .err(),
        2 => Store::new(&mut [0; 64], &mut [0; 64], &mut [0; 42])
            .open()
            .err(),
        3 => {
            assert!(store.create_with_budget(8).unwrap().is_stopped());
            store.list().err()
        }
        4 => {
            let (memory, bodies, table) = store.into_buffers();
            table[4] = 1;
            Store::new(memory, bodies, table).list().err()
        }
        5 => store.look(Handle::new(3).unwrap(), 4).err(),
        6 => store.commit(one).err(),
        7 => by_number(&mut buffers),
        8 => store.add(two, 3..5, copy, rw).err(),
        9 => {
            (2..8).for_each(|_| assert!(store.create().is_ok()));
            store.create().err()
        }
        10 => {
            let (memory, bodies, table) = store.into_buffers();
            table[5] = u32::MAX;
            Store::new(memory, bodies, table).create().err()
        }
        11 => store.add(two, 0..1, Kind::ViaParent, rw).err(),
        12 | 14 => {
            store.commit(two).unwrap();
            store.add(one, 0..2, copy, rw).unwrap();
            store.create().unwrap();
            store.cell_mut(1).fill(9);
            store.add(Innermost, 0..1, Kind::ViaParent, rw).unwrap();
            match number {
                12 => store.add(Innermost, 0..2, Kind::ViaParent, rw).err(),
                _ => store.delete(one, 0..2).err(),
            }
        }
        13 => store.delete(one, 0..1).err(),
        16 => small.add(one, 0..2, copy, rw).err(),
        17 => {
            small.add(one, 0..1, copy, rw).unwrap();
            small.cell_mut(0).fill(9);
            small.advance(one).err()
        }
        18 => store.add(two, 0..1, Kind::Pattern(Rule::Ones), rw).err(),
        19 => {
            store.commit(two).unwrap();
            let zeros = Kind::Pattern(Rule::Zeros);
            store.add(one, 0..1, zeros, rw).unwrap();
            store.create().unwrap();
            store.add(Innermost, 0..1, Kind::ViaParent, rw).err()
        }
        20 => {
            let most = vec![Range::copy(0..1); MAX_RANGES + 1];
            assert_eq!(store.add_ranges(two, &most), store.add_ranges(two, &[]));
            assert!(store.add_ranges(two, &most[1..]).is_ok());
            store.add_ranges(two, &most).err()
        }
        _ => None,
    }
}

/// Kinds and labels of this crate cannot be wrong, so number 7 is met by the C function alone.
fn by_number(buffers: &mut Buffers) -> Option<Refusal> {
    let (memory, bodies, table) = buffers.store().into_buffers();
    let mut steps = 0;
    // SAFETY: three slices with their lengths, and an out parameter of its own.
    let number = unsafe {
        ffi::Lent::new(memory, bodies, table).add(0, 0, 1, 3, 0, 0, u64::MAX, &mut steps)
    };
    Refusal::from_number(number)
}

#[test]
fn the_library_answers_by_these_numbers() {
    for (number, question, refusal) in QUESTIONS {
        assert_eq!(provoked(*number), Some(*refusal), "{number}: {question}");
    }
}
