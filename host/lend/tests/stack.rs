//! How much stack each C function uses, at the largest sizes: instrument threads have small stacks, so the header, the README and the
//! crate's page say it. A call is made on a stack of its own that was painted before; what it has overwritten is what it used. The test
//! fails where that is more than they say or far less, where they differ, or where a call is not named there.

// The library is built for this processor, and the change of stack is written for it.
#![cfg(target_arch = "x86_64")]

use domain_lend::{Outs, lent, run};
use domain_model::rules::{SCALE, pattern};
use domain_model::{Buffers, Call, FULL, Record, STOPPED, Sizes};
use std::collections::BTreeMap;
use std::ffi::c_void;
use std::io::Write;
use std::path::Path;

const KB: usize = 1_000;

/// What a statement may be too high by: the figures are rounded up, and should follow a library that needs less.
const TOO_HIGH: usize = 5 * KB;

/// Where the figures are stated, from the root of the repository.
const STATED_IN: [&str; 3] = [
    "include/domain_store.h",
    "README.md",
    "host/store/src/lib.rs",
];

/// The painted stack: more than any call may use.
const STACK: usize = 1 << 20;

/// In 16 bytes each, so that its top is aligned as a call expects it.
#[repr(align(16))]
#[derive(Clone, Copy)]
struct Sixteen([u8; 16]);

/// Makes the call on the stack that ends at `top`.
///
/// # Safety
/// `top` is aligned to 16 bytes and ends a buffer that is large enough for the call; `work` does not unwind.
unsafe fn on_stack(top: *mut u8, work: extern "C" fn(*mut c_void), argument: *mut c_void) {
    // SAFETY: r12 survives a call, so the old stack pointer is there again afterwards.
    unsafe {
        std::arch::asm!(
            "xchg rsp, r12",
            "call {work}",
            "mov rsp, r12",
            work = in(reg) work,
            inout("r12") top => _,
            in("rdi") argument,
            clobber_abi("C"),
        );
    }
}

/// The bytes of stack that `work` uses, from its first push on. It must not panic, since nothing could unwind over the change of stack.
fn used_by<F: FnMut()>(mut work: F) -> usize {
    extern "C" fn call<F: FnMut()>(work: *mut c_void) {
        // SAFETY: `used_by` passes its own closure, which it does not use meanwhile.
        unsafe { (*work.cast::<F>())() }
    }
    let work: *mut F = &mut work;
    let paint = 0xA5;
    let mut stack = vec![Sixteen([paint; 16]); STACK / 16];
    // SAFETY: the top is the end of a large enough buffer, aligned as its elements are.
    unsafe {
        on_stack(
            stack.as_mut_ptr().add(stack.len()).cast(),
            call::<F>,
            work.cast(),
        )
    };
    let untouched = stack
        .iter()
        .flat_map(|sixteen| sixteen.0)
        .take_while(|&byte| byte == paint)
        .count();
    assert!(untouched > 0, "a call used the whole painted stack");
    STACK - untouched
}

/// A store, with the most stack that each call was seen to use in it.
struct Probe {
    buffers: Buffers,
    used: BTreeMap<&'static str, usize>,
}

impl Probe {
    /// Makes one call on the painted stack and notes what it used. It has to give this number: it would not use what it uses when it
    /// answers so.
    fn call(&mut self, number: u32, call: &Call, budget: u64) {
        let (lent, mut outs, mut found) = (lent(&mut self.buffers), Outs::new(), u32::MAX);
        // SAFETY: buffers and out parameters of this test's own.
        let bytes = used_by(|| found = unsafe { run(lent, call, budget, &mut outs) });
        assert_eq!(found, number, "{call} with budget {budget}");
        let most = self.used.entry(call.name()).or_insert(0);
        *most = bytes.max(*most);
    }

    fn done(&mut self, call: Call) {
        self.call(0, &call, FULL);
    }

    fn refused(&mut self, number: u32, call: Call) {
        self.call(number, &call, FULL);
    }

    /// A call that is stopped, and the opening after it.
    fn stopped(&mut self, call: Call, budget: u64) {
        self.call(STOPPED, &call, budget);
        self.done(Call::Open);
    }
}

/// Calls of every kind on a store of m cells and so many places: done, refused, stopped, and with what a stopped one left pending.
fn used_in(m: u32, places: u32) -> BTreeMap<&'static str, usize> {
    let sizes = Sizes {
        m,
        e: places,
        b: places,
    };
    let mut probe = Probe {
        buffers: Buffers::filled(sizes.lengths(), 0, 0),
        used: BTreeMap::new(),
    };
    probe.buffers.memory.fill(7);
    const ADVANCE: Call = Call::Advance { handle: 0 };
    const COMMIT: Call = Call::Commit { handle: 0 };
    let restore = |handle| Call::Restore { handle };
    let look = |handle, cell| Call::Look { handle, cell };
    // A quarter of the places for each: two domains of copies, one of them advanced, and one via parent.
    let part = places / 4;
    let first = m - part;

    // Nothing made yet.
    probe.refused(2, Call::Open);
    probe.done(Call::Make);
    probe.call(STOPPED, &Call::Make, 20);
    probe.done(Call::Make);
    probe.refused(5, ADVANCE);

    // The first domain copies cells at the end of memory.
    probe.done(Call::Create);
    probe.stopped(Call::copy(first, part, 0), 200);
    probe.done(Call::copy(first, part, 0));
    probe.done(Call::copy(first, part, 1));
    // The second holds them via parent, and the third copies them; it is cut in its table part.
    probe.call(STOPPED, &Call::Create, 8);
    probe.refused(3, Call::List);
    probe.done(Call::Open);
    probe.done(Call::via_parent(first, part, 1));
    probe.done(Call::Create);
    let late = 64 * u64::from(part) + 4 * u64::from(part) + 10;
    probe.call(STOPPED, &Call::copy(first, part, 1), late);
    probe.stopped(Call::Open, 5);

    probe.done(Call::List);
    probe.done(look(2, m - 1));
    probe.done(look(1, 0));
    probe.refused(8, look(1, m));

    // Nothing has changed; then every cell, and the copies take the last quarter of the places.
    probe.done(ADVANCE);
    probe.buffers.memory.fill(8);
    probe.done(ADVANCE);
    probe.buffers.memory.fill(7);
    probe.stopped(ADVANCE, 100);
    probe.done(Call::delete(0, first, 1));
    probe.refused(14, Call::delete(1, first, 1));
    probe.refused(13, Call::delete(0, first, 1));
    probe.stopped(COMMIT, 9);
    probe.done(restore(0));
    probe.done(COMMIT);
    probe.done(restore(2));
    // Via parent, unchanged and changed.
    probe.done(ADVANCE);
    probe.buffers.memory.fill(8);
    probe.stopped(ADVANCE, 100);
    probe.stopped(restore(1), 100);
    probe.done(restore(1));
    probe.buffers.memory.fill(9);
    probe.done(Call::Advance { handle: 1 });
    probe.done(COMMIT);
    by_rule(&mut probe, m, places);
    by_lists(&mut probe, m, places);
    giving(&mut probe, m, places);
    probe.used
}

/// Cells that follow a rule, as many as there are entries: the calls that meet such cells.
fn by_rule(probe: &mut Probe, m: u32, places: u32) {
    let first = m - places;
    let scale = pattern(SCALE).expect("a rule");
    for cell in first..m {
        probe.buffers.write_cell(cell, &scale);
    }
    probe.done(Call::Create);
    probe.refused(18, Call::pattern(first - 1, 1, SCALE, 1));
    probe.stopped(Call::pattern(first, places, SCALE, 0), 50);
    probe.done(Call::pattern(first, places, SCALE, 0));
    probe.done(Call::pattern(first, places, SCALE, 1));
    let look = |handle| Call::Look {
        handle,
        cell: m - 1,
    };
    probe.done(look(0));
    probe.done(Call::Create);
    probe.refused(19, Call::via_parent(first, places, 1));
    probe.done(look(0));
    probe.buffers.memory.fill(9);
    probe.done(Call::Commit { handle: 0 });
    probe.stopped(Call::Restore { handle: 0 }, 100);
    probe.done(Call::Restore { handle: 0 });
    // By rules that memory follows, and then with other bytes in every cell.
    probe.done(Call::Advance { handle: 0 });
    probe.buffers.memory.fill(9);
    probe.stopped(Call::Advance { handle: 0 }, 100);
    probe.done(Call::Advance { handle: 0 });
    probe.done(Call::Commit { handle: 0 });
}

/// Lists of 64 records: of all kinds, over all entries and as many bodies, in falling order and one over the other; done, refused at the
/// first question on a list, at the last record and for room, and stopped.
fn by_lists(probe: &mut Probe, m: u32, places: u32) {
    let scale = pattern(SCALE).expect("a rule");
    // The outer domain holds an eighth of the places, and what is left is for the list.
    let (held, part) = (places / 8, places / 64);
    let first = m - places;
    probe.buffers.memory.fill(7);
    probe.done(Call::Create);
    probe.done(Call::copy(first, held, 1));
    probe.done(Call::Create);
    for cell in m - held..m {
        probe.buffers.write_cell(cell, &scale);
    }
    // Via the parent the first eighth, copies in between, by a rule the last eighth.
    let records: Vec<Record> = (0..64)
        .rev()
        .map(|at| {
            let first = first + part * at;
            match at {
                0..8 => Record::via_parent(first, part, at % 2),
                8..56 => Record::copy(first, part, at % 2),
                _ => Record::pattern(first, part, SCALE, at % 2),
            }
        })
        .collect();
    let with_last = |last: Record| {
        let mut records = records.clone();
        records[63] = last;
        Call::ranges(records)
    };
    probe.refused(20, Call::ranges([]));
    probe.refused(20, Call::ranges([records[0]; 65]));
    probe.refused(7, with_last(Record::new(first, 1, 3, 0)));
    probe.refused(8, with_last(Record::copy(m, 1, 0)));
    probe.refused(18, with_last(Record::pattern(first - 1, 1, SCALE, 0)));
    probe.refused(11, with_last(Record::via_parent(first - 1, 1, 0)));
    // As many new cells as there are entries, of which the outer domain has an eighth.
    probe.refused(16, Call::ranges(records.clone()));
    // What fits: seven eighths.
    let fits = Call::ranges(records[8..].to_vec());
    probe.stopped(fits.clone(), 100);
    let copied = 64 * u64::from(part) * 48;
    probe.stopped(fits.clone(), copied + 50);
    probe.done(fits.clone());
    // Nothing new; and every label raised, by 64 records that name all cells.
    probe.done(fits);
    let all = Record::copy(first, held * 7, 1);
    probe.done(Call::ranges([all; 64]));
    probe.done(Call::Commit { handle: 0 });
    probe.done(Call::Commit { handle: 0 });
}

/// An inner advance that gives as many cells as there are entries for, half of them by a rule: done, stopped in its bytes and in its
/// table part, and refused for bodies and for entries.
fn giving(probe: &mut Probe, m: u32, places: u32) {
    const ADVANCE: Call = Call::Advance { handle: 0 };
    let scale = pattern(SCALE).expect("a rule");
    let (first, half) = (m - places, places / 2);
    probe.buffers.memory.fill(7);
    for cell in first..first + half / 2 {
        probe.buffers.write_cell(cell, &scale);
    }
    probe.done(Call::Create);
    probe.done(Call::Create);
    probe.done(Call::pattern(first, half / 2, SCALE, 1));
    probe.done(Call::copy(first + half / 2, half / 2, 1));
    probe.buffers.memory.fill(8);
    probe.stopped(ADVANCE, 100);
    probe.stopped(ADVANCE, 64 * u64::from(half) + 50);
    probe.done(ADVANCE);
    // The other domain holds all of it by now, so that no entry is needed; but bodies are.
    probe.buffers.memory.fill(9);
    probe.refused(17, ADVANCE);
    probe.done(Call::Restore { handle: 0 });
    probe.done(Call::Commit { handle: 0 });
    // The last entries are in use, and none is left for what would be given.
    probe.done(Call::Create);
    probe.done(Call::copy(first + half, half, 1));
    probe.buffers.memory.fill(10);
    probe.refused(16, ADVANCE);
    probe.done(Call::Commit { handle: 0 });
    probe.done(Call::Commit { handle: 0 });
}

/// What a text says of each call, in bytes: after its first "Stack" and the next colon come groups, each of names and so many KB, up to
/// a full stop.
fn stated(file: &str) -> BTreeMap<String, usize> {
    let path = Path::new(env!("CARGO_MANIFEST_DIR"))
        .join("../..")
        .join(file);
    let text = std::fs::read_to_string(&path)
        .unwrap_or_else(|error| panic!("{}: {error}", path.display()));
    let figures = text
        .split_once("Stack")
        .and_then(|(_, text)| text.split_once(':'))
        .and_then(|(_, text)| text.split_once('.'))
        .unwrap_or_else(|| panic!("{file} has no figures of the stack"))
        .0
        .replace("//!", " ");
    let mut all = BTreeMap::new();
    for group in figures.split(';') {
        let words: Vec<&str> = group
            .split([' ', ',', '*', '\n'])
            .filter(|word| !word.is_empty())
            .collect();
        let [names @ .., figure, "KB"] = &words[..] else {
            panic!("{file}: no figure in {group:?}");
        };
        let figure: usize = figure
            .parse()
            .unwrap_or_else(|_| panic!("{file}: no figure in {group:?}"));
        for name in names {
            all.insert(name.trim_start_matches("ds_").to_string(), figure * KB);
        }
    }
    all
}

#[test]
fn every_call_uses_the_stack_that_is_stated() {
    let stated_in = STATED_IN.map(|file| (file, stated(file)));
    let (_, stated) = &stated_in[0];
    for (file, others) in &stated_in[1..] {
        assert_eq!(others, stated, "{file} and {} differ", STATED_IN[0]);
    }
    let (largest, small) = (used_in(65_536, 4_096), used_in(1_024, 64));
    assert!(Call::NAMES.iter().all(|name| largest.contains_key(name)));

    let kb = |bytes: usize| format!("{:.1}", bytes as f64 / KB as f64);
    let mut text = String::from(
        "\nStack of each call in KB (1,000 bytes): measured at m = 65,536 and E = B = 4,096; at m = 1,024 and E = B = 64; stated\n",
    );
    let mut wrong = Vec::new();
    for (name, &bytes) in &largest {
        let Some(&said) = stated.get(*name) else {
            wrong.push(format!("{name} is not named"));
            continue;
        };
        text += &format!(
            "  {name:<10} {:>6} {:>6} {:>6}\n",
            kb(bytes),
            kb(small[name]),
            said / KB
        );
        if bytes > said || said > bytes + TOO_HIGH {
            wrong.push(format!(
                "{name} uses {} KB, and {} are stated",
                kb(bytes),
                said / KB
            ));
        }
    }
    text += &format!(
        "stack: {} calls use what header, README and crate's page state, at most {} KB\n",
        largest.len() - wrong.len(),
        largest.values().copied().max().map_or("0".into(), kb)
    );
    // Not by `print!`, which a passing test keeps to itself.
    std::io::stdout()
        .write_all(text.as_bytes())
        .expect("stdout takes it");
    assert!(wrong.is_empty(), "{}", wrong.join("\n"));
}
