//! The table of document 01: what is written is read back, and each rule of question 4 is looked
//! at.

use domain_model::table::{Broken, MAGIC, encode, reading};
use domain_model::{Buffers, Decoded, Domain, Holding, Kept, Place, Reading, Sizes, State};
use std::collections::BTreeMap;

type Places = BTreeMap<(usize, u32), Place>;

/// Buffers with these bodies and this table, read.
fn decode(bodies: &[u8], table: &[u32]) -> Result<Decoded, Broken> {
    let mut buffers = Buffers::filled(SIZES.lengths(), 0, 0);
    buffers.bodies.copy_from_slice(bodies);
    buffers.table.copy_from_slice(table);
    buffers.decode(None)
}

const SIZES: Sizes = Sizes { m: 4, e: 6, b: 5 };

/// Domain 3 holds cell 0 as a copy in body 4 and cell 2 in body 1; domain 7 holds cell 0 via
/// parent.
fn sample() -> (Vec<u8>, Vec<u32>, State, Places) {
    let bodies: Vec<u8> = (0..64 * SIZES.b as usize)
        .map(|i| (i / 64) as u8 + 10)
        .collect();
    let copy = |read_write, byte| Holding {
        read_write,
        kept: Kept::Copy([byte; 64]),
    };
    let outer = Domain {
        handle: 3,
        cells: BTreeMap::from([(0, copy(true, 14)), (2, copy(false, 11))]),
    };
    let inner = Domain {
        handle: 7,
        cells: BTreeMap::from([(
            0,
            Holding {
                read_write: true,
                kept: Kept::ViaParent,
            },
        )]),
    };
    let state = State {
        next: 9,
        domains: vec![outer, inner],
    };
    let places = BTreeMap::from([
        ((0, 0), Place { entry: 5, body: 4 }),
        ((0, 2), Place { entry: 0, body: 1 }),
        ((1, 0), Place { entry: 2, body: 0 }),
    ]);
    let mut table = encode(SIZES, &state, &places);
    table.resize(SIZES.lengths().table, 0xDEAD);
    (bodies, table, state, places)
}

#[test]
fn written_and_read_back() {
    let (bodies, table, state, places) = sample();
    assert_eq!(table[..8], [MAGIC, 4, 6, 5, 2, 9, 0, 0]);
    assert_eq!(table[8..16], [3, 7, 0, 0, 0, 0, 0, 0]);
    assert_eq!(
        table[16..28],
        [
            0x1000_0002,
            1,
            0,
            0,
            0x2C00_0000,
            0,
            0,
            0,
            0,
            0,
            0x1800_0000,
            4
        ]
    );
    let read = decode(&bodies, &table).expect("a store");
    assert_eq!((&read.state, &read.places), (&state, &places));
    assert!(read.pairs.is_empty());
    assert_eq!(
        read.free_entries().into_iter().collect::<Vec<_>>(),
        [1, 3, 4]
    );
    assert_eq!(
        read.free_bodies().into_iter().collect::<Vec<_>>(),
        [0, 2, 3]
    );
}

fn damaged(edits: &[(usize, u32)]) -> Option<Broken> {
    let (bodies, mut table, ..) = sample();
    for (word, value) in edits {
        table[*word] = *value;
    }
    decode(&bodies, &table).err()
}

#[test]
fn each_rule() {
    for edit in [(0, 0), (0, MAGIC + 1), (1, 5), (2, 5), (3, 6), (7, 1)] {
        assert_eq!(damaged(&[edit]), Some(Broken::Header), "{edit:x?}");
    }
    let broken: [(&str, &[(usize, u32)]); 31] = [
        ("nine domains", &[(4, 9)]),
        ("fewer domains than handles", &[(4, 1)]),
        ("more domains than handles", &[(4, 3)]),
        ("next handle 0", &[(5, 0)]),
        ("next handle not above the last", &[(5, 7)]),
        ("handles equal", &[(8, 7)]),
        ("handles falling", &[(8, 8)]),
        ("handle 0", &[(8, 0)]),
        ("an unused handle word", &[(15, 1)]),
        ("a free entry with a second word", &[(19, 1)]),
        ("depth 0", &[(16, 0x0000_0002)]),
        ("depth 3", &[(16, 0x3000_0002)]),
        ("a spare bit, lowest", &[(16, 0x1001_0002)]),
        ("a spare bit, highest", &[(16, 0x1100_0002)]),
        ("a spare bit beside a rule", &[(16, 0x1300_0002)]),
        ("a rule above 3", &[(16, 0x1200_0002), (17, 4)]),
        ("via parent and by a rule", &[(20, 0x2E00_0000), (21, 0)]),
        ("via parent on a rule", &[(26, 0x1A00_0000), (27, 0)]),
        ("a cell past memory", &[(16, 0x1000_0004)]),
        ("a body past the bodies", &[(17, 5)]),
        ("a shared body", &[(17, 4)]),
        ("a cell twice", &[(16, 0x1000_0000)]),
        ("a cell twice, copy and via parent", &[(16, 0x2000_0000)]),
        ("via parent with a body", &[(21, 1)]),
        ("via parent at depth 1", &[(16, 0x1400_0002), (17, 0)]),
        ("via parent of a cell not held", &[(20, 0x2C00_0001)]),
        (
            "via parent, and the outer entry is gone",
            &[(26, 0), (27, 0)],
        ),
        ("too many pairs", &[(6, 23)]),
        ("very many pairs", &[(6, u32::MAX)]),
        ("a pair that names word 6", &[(6, 1), (28, 6), (29, 0)]),
        ("a pair that names a pair", &[(6, 1), (28, 28), (29, 0)]),
    ];
    for (name, edits) in broken {
        let pending = edits.iter().any(|(w, v)| *w == 6 && *v != 0);
        match damaged(edits) {
            Some(Broken::Table { pending: p, .. }) => assert_eq!(p, pending, "{name}"),
            other => panic!("{name}: {other:?}"),
        }
    }
    let good: [(&str, &[(usize, u32)]); 8] = [
        ("the highest next handle", &[(5, u32::MAX)]),
        ("another label", &[(16, 0x1800_0002)]),
        ("another cell", &[(16, 0x1000_0003)]),
        ("an entry gone", &[(16, 0), (17, 0)]),
        ("bodies exchanged", &[(17, 4), (27, 1)]),
        ("a rule where a copy was", &[(16, 0x1200_0002)]),
        (
            "a rule with the number of a body",
            &[(16, 0x1200_0002), (17, 3), (27, 3)],
        ),
        ("a rule inside a copy", &[(20, 0x2A00_0000), (21, 3)]),
    ];
    for (name, edits) in good {
        assert_eq!(damaged(edits), None, "{name}");
    }
}

/// While pairs are pending, the table with each named word replaced is what counts; raw words may
/// be anything.
#[test]
fn pending_pairs() {
    let (bodies, right, state, _) = sample();
    let mut table = right.clone();
    // Every word that may be named: 2E + 10 pairs.
    let named: Vec<usize> = [4, 5].into_iter().chain(8..28).collect();
    assert_eq!(named.len(), 22);
    for (i, word) in named.iter().enumerate() {
        table[28 + 2 * i] = *word as u32;
        table[28 + 2 * i + 1] = right[*word];
        table[*word] = 0xFFFF_FFFF;
    }
    table[6] = 22;
    let read = decode(&bodies, &table);
    assert_eq!(
        reading(&read),
        Reading::Store {
            state: state.clone(),
            pending: 22
        }
    );
    // One pair less: the last word stands raw, and is wrong.
    table[6] = 21;
    assert_eq!(
        reading(&decode(&bodies, &table)),
        Reading::Damaged { pending: true }
    );
    // Two pairs that name the same word, or fall.
    for (a, b) in [(8, 8), (9, 8)] {
        let mut table = right.clone();
        table[6] = 2;
        table[28..32].copy_from_slice(&[a, right[a as usize], b, right[b as usize]]);
        assert_eq!(
            reading(&decode(&bodies, &table)),
            Reading::Damaged { pending: true }
        );
    }
}

/// Cells by rules are written and read back: bit 25, and the rule as the second word, whatever B is.
#[test]
fn rules_written_and_read_back() {
    let held = |read_write, kept| Holding { read_write, kept };
    let cells = BTreeMap::from([
        (0, held(true, Kept::Rule(3))),
        (1, held(false, Kept::Rule(3))),
        (2, held(true, Kept::Copy([10; 64]))),
        (3, held(false, Kept::Rule(0))),
    ]);
    let state = State {
        next: 2,
        domains: vec![Domain { handle: 1, cells }],
    };
    let places: Places = (0..4)
        .map(|c| ((0, c), Place { entry: c, body: 0 }))
        .collect();
    // One body alone, so that rule 3 is above every body's number.
    let sizes = Sizes { m: 4, e: 4, b: 1 };
    let mut buffers = Buffers::filled(sizes.lengths(), 10, 0);
    let table = encode(sizes, &state, &places);
    assert_eq!(
        table[16..24],
        [
            0x1A00_0000,
            3,
            0x1200_0001,
            3,
            0x1800_0002,
            0,
            0x1200_0003,
            0
        ]
    );
    buffers.table[..24].copy_from_slice(&table);
    let read = buffers.decode(None).expect("a store");
    assert_eq!((&read.state, &read.places), (&state, &places));
    assert_eq!((state.copies(), state.patterns()), (1, 3));
    assert!(read.free_bodies().is_empty());
}
