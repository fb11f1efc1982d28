//! The same store without proofs, as a plain systems program: the format, the questions and the journal of document 01, with the cells
//! of request A.1 that follow a pattern, the shorter advances of request A.2, the add of several ranges of request A.3 and the inner
//! advances of request A.4, which give the next domain out what it lacks.
//!
//! It is here to be measured beside the library, so it makes no use of it. What it does:
//!
//! - The table is checked in one pass over the entries, which passes over runs of free ones eight at a time; a second pass is taken
//!   only where an entry is via parent, and a third one only where there are rules besides. The pass counts entries and copies in use
//!   and notes where the last entry in use stands: later passes end there.
//! - The pass marks which depths hold each cell. Marks stand in blocks of 64, and a directory has the block of each group of 64 cells.
//!   A block is taken and cleared when the first of its cells is marked, and the next call clears what the directory says of it, so
//!   that nothing is done for cells that no entry names, however large memory is.
//! - For the calls that look for entries by cell (restore, advance and add via parent), the pass also notes the last entry of each cell,
//!   and for each entry the one before it with the same cell. So a holder is found at once, wherever it stands.
//! - Restore and advance take their cells in order by the directory. Advance compares each read-write cell with what is held in one pass
//!   over the entries, and sets a bit for each that has changed: cells that have not are not met again. Which of the changed ones the
//!   next domain out lacks is told by their marks; the entries that it is given are noted in order of cell, and the walk over the
//!   entries that stages the new copies meets the free places for them too.
//! - An add of several ranges checks the table once. A cell that a range takes is marked as held, so that a later range sees it, and gets
//!   a bit in the word of its block, with a byte that says how it is kept; cells that read-write ranges name have a bit in another word.
//!   The bits are then met in order of cell, for bytes and entries of the whole list.
//! - Look searches depths and entries by nested loops, which is a form that the store's specification names.
//! - Notes are kept in an area of the thread that all calls use again: it is all zeros at first and never cleared as a whole, nor does
//!   a call touch more of it than it needs. On the stack, each call would touch every page of a large frame.
//! - 64 bytes are copied at once where the budget suffices. Table words are stored one after another with volatile stores: their
//!   order is what a cut relies on, and a compiler may reorder or drop plain ones.

use core::cell::RefCell;
use core::ops::Range;
use domain_model::{Buffers, Call, Record, Reply, STOPPED};

/// The magic number of a made store.
const MAGIC: u32 = 0xCD51_1E01;

const READ_WRITE: u32 = 1 << 27;
const VIA_PARENT: u32 = 1 << 26;
const BY_RULE: u32 = 1 << 25;
/// Bits of an entry that are always zero.
const SPARE: u32 = 0x01FF_0000;
/// The kinds of add.
const COPY: u32 = 0;
const FROM_PARENT: u32 = 1;
const PATTERN: u32 = 2;
const MAX_CELLS: usize = 65_536;
const MAX_PLACES: usize = 4_096;
const CELL: usize = 64;
/// The most ranges that an add takes.
const MAX_RANGES: usize = 64;
/// Cells whose marks stand in one block.
const GROUP: usize = 64;
const MAX_GROUPS: usize = MAX_CELLS / GROUP;

/// The bytes of each rule, by its number.
static PATTERNS: [[u8; CELL]; 4] = patterns();

const fn patterns() -> [[u8; CELL]; 4] {
    let mut all = [[0; CELL], [255; CELL], [0; CELL], [0; CELL]];
    let mut place = 0;
    while place < CELL {
        all[2][place] = place as u8;
        all[3][place] = [0, 0, 128, 63][place % 4];
        place += 1;
    }
    all
}

/// The lent buffers.
struct Slices<'a> {
    memory: &'a mut [u8],
    bodies: &'a mut [u8],
    table: &'a mut [u32],
}

/// m, E and B, as the lengths give them.
#[derive(Clone, Copy)]
struct Shape {
    cells: usize,
    entries: usize,
    bodies: usize,
}

/// What the pass over the table found out, for the later questions. What earlier calls left here is never believed: see at each array
/// what makes a value of it count.
struct Notes {
    /// For each group of 64 cells the number of its block, or 0, which is a block that stays without marks.
    directory: [u16; MAX_GROUPS],
    /// A bit for each group that has a block, to meet these in order.
    marked: [u64; MAX_GROUPS / 64],
    /// Blocks of marks: for each cell, bit d - 1 tells that depth d holds it. Those up to `blocks` count.
    marks: [[u8; GROUP]; 1 + MAX_GROUPS],
    blocks: usize,
    /// The group of each of these blocks.
    groups: [u16; 1 + MAX_GROUPS],
    /// For each mark that is not zero, the last entry of its cell; and for each entry that is not the first of its cell, the one before
    /// it. Only where a call asked for them.
    last: [[u16; GROUP]; 1 + MAX_GROUPS],
    before: [u16; MAX_PLACES],
    /// For each body, 1 where it is in use. Bytes, since neighbours that share a word would wait for each other's stores.
    used: [u8; MAX_PLACES],
    /// For each cell of a block, the depths that hold it by a rule: only while question 4 asks for them.
    ruled: [[u8; GROUP]; 1 + MAX_GROUPS],
    /// Where the last entry in use ends.
    end: usize,
    entries: usize,
    copies: usize,
}

impl Notes {
    const fn new() -> Self {
        Notes {
            directory: [0; MAX_GROUPS],
            marked: [0; MAX_GROUPS / 64],
            marks: [[0; GROUP]; 1 + MAX_GROUPS],
            blocks: 0,
            groups: [0; 1 + MAX_GROUPS],
            last: [[0; GROUP]; 1 + MAX_GROUPS],
            before: [0; MAX_PLACES],
            used: [0; MAX_PLACES],
            ruled: [[0; GROUP]; 1 + MAX_GROUPS],
            end: 0,
            entries: 0,
            copies: 0,
        }
    }

    /// No cell is marked and no body in use. The directory is cleared where the call before took blocks; whole, if these were many.
    fn clear(&mut self, shape: Shape) {
        if self.blocks <= 64 {
            for &group in &self.groups[1..=self.blocks] {
                self.directory[group as usize] = 0;
            }
        } else {
            self.directory.fill(0);
        }
        self.marked.fill(0);
        self.used[..shape.bodies].fill(0);
        self.blocks = 0;
    }

    /// A block for a group that has none.
    #[inline]
    fn take_block(&mut self, group: usize) -> usize {
        self.blocks += 1;
        self.directory[group] = self.blocks as u16;
        self.groups[self.blocks] = group as u16;
        self.marked[group / 64] |= 1 << (group % 64);
        self.marks[self.blocks] = [0; GROUP];
        self.blocks
    }

    /// Marks the cell of an entry, and notes the entry where that is asked for. False if this depth has the cell already.
    #[inline]
    fn mark<const FIND: bool>(&mut self, bit: u8, cell: usize, place: usize) -> bool {
        let (group, at) = (cell / GROUP, cell % GROUP);
        let mut block = self.directory[group] as usize;
        if block == 0 {
            block = self.take_block(group);
        }
        let marks = &mut self.marks[block][at];
        let fresh = *marks & bit == 0;
        *marks |= bit;
        if FIND {
            self.before[place] = self.last[block][at];
            self.last[block][at] = place as u16;
        }
        fresh
    }

    /// The depths that hold each cell of a group.
    #[inline]
    fn group(&self, group: usize) -> &[u8; GROUP] {
        &self.marks[self.directory[group] as usize]
    }

    #[inline]
    fn holds(&self, depth: usize, cell: usize) -> bool {
        self.group(cell / GROUP)[cell % GROUP] >> (depth - 1) & 1 == 1
    }

    /// Whether an advance of this depth gives a changed cell outwards: there is a domain around it, which lacks the cell.
    #[inline]
    fn gives(&self, depth: usize, cell: usize) -> bool {
        depth > 1 && !self.holds(depth - 1, cell)
    }

    /// The cells of a range that this depth does not hold, rising.
    #[inline]
    fn not_held(&self, depth: usize, range: Range<usize>) -> impl Iterator<Item = usize> {
        (range.start / GROUP..range.end.div_ceil(GROUP)).flat_map(move |group| {
            let first = group * GROUP;
            let from = range.start.max(first);
            let to = range.end.min(first + GROUP);
            let marks = &self.group(group)[from - first..to - first];
            (from..to)
                .zip(marks)
                .filter(move |(_, marks)| **marks >> (depth - 1) & 1 == 0)
                .map(|(cell, _)| cell)
        })
    }

    /// Hands each cell that has some of these marks to `visit`, rising, with those marks. Eight cells at a time, since most have none.
    #[inline]
    fn each_cell<E>(
        &self,
        wanted: u8,
        mut visit: impl FnMut(usize, u8) -> Result<(), E>,
    ) -> Result<(), E> {
        for (at, &word) in self.marked.iter().enumerate() {
            let mut groups = word;
            while groups != 0 {
                let group = 64 * at + groups.trailing_zeros() as usize;
                groups &= groups - 1;
                for (eight, &marks) in self.group(group).as_chunks().0.iter().enumerate() {
                    let mut marks = u64::from_le_bytes(marks) & u64::from_le_bytes([wanted; 8]);
                    while marks != 0 {
                        let at = marks.trailing_zeros() / 8;
                        let cell = GROUP * group + 8 * eight + at as usize;
                        visit(cell, (marks >> (8 * at)) as u8)?;
                        marks &= !(0xFF << (8 * at));
                    }
                }
            }
        }
        Ok(())
    }

    /// The entry by which this depth holds the cell, as it does.
    #[inline]
    fn find(&self, table: &[u32], depth: usize, cell: usize) -> usize {
        let block = self.directory[cell / GROUP] as usize;
        let mut place = self.last[block][cell % GROUP] as usize;
        while depth_of(entry(table, place).0) != depth {
            place = self.before[place] as usize;
        }
        place
    }

    /// Hands each cell whose bit is set in the word of its block to `visit`, rising.
    #[inline]
    fn each_chosen<E>(
        &self,
        chosen: &[u64],
        mut visit: impl FnMut(usize) -> Result<(), E>,
    ) -> Result<(), E> {
        for (at, &word) in self.marked.iter().enumerate() {
            let mut groups = word;
            while groups != 0 {
                let group = 64 * at + groups.trailing_zeros() as usize;
                groups &= groups - 1;
                let mut cells = chosen[self.directory[group] as usize];
                while cells != 0 {
                    visit(GROUP * group + cells.trailing_zeros() as usize)?;
                    cells &= cells - 1;
                }
            }
        }
        Ok(())
    }

    /// The 64 bytes behind an entry: those of its rule, of its body, or for via parent of the next copy outwards.
    #[inline]
    fn bytes_behind<'a>(
        &self,
        table: &[u32],
        bodies: &'a [u8],
        mut place: usize,
    ) -> &'a [u8; CELL] {
        loop {
            let (first, second) = entry(table, place);
            if first & (VIA_PARENT | BY_RULE) == 0 {
                return cell_at(bodies, second as usize);
            }
            if first & BY_RULE != 0 {
                return &PATTERNS[second as usize];
            }
            place = self.find(table, depth_of(first) - 1, cell_of(first));
        }
    }

    /// Whether some via parent entry rests on a rule: the depths that hold a cell by one are marked, and then looked at from one depth
    /// further in.
    fn rests_on_rule(&mut self, all: &[[u32; 2]]) -> bool {
        let Notes {
            directory,
            ruled,
            blocks,
            ..
        } = self;
        ruled[..=*blocks].fill([0; GROUP]);
        let place = |cell: usize| (directory[cell / GROUP] as usize, cell % GROUP);
        for &[first, _] in all.iter().filter(|pair| pair[0] & BY_RULE != 0) {
            let (block, at) = place(cell_of(first));
            ruled[block][at] |= 1 << (depth_of(first) - 1);
        }
        all.iter().any(|&[first, _]| {
            let (block, at) = place(cell_of(first));
            first & VIA_PARENT != 0 && ruled[block][at] >> (depth_of(first) - 2) & 1 == 1
        })
    }
}

/// The area that the calls of a thread use again and again, each part as its call says.
struct Scratch {
    notes: Notes,
    /// For each block a bit for some of its cells. Commit: those that raise a label. Advance: those that have changed. Add of several
    /// ranges: those that are newly held.
    chosen: [u64; 1 + MAX_GROUPS],
    /// Add of several ranges. For each block a bit for the cells that a read-write range names; and for each chosen cell how it is kept.
    raising: [u64; 1 + MAX_GROUPS],
    kept: [[Kept; GROUP]; 1 + MAX_GROUPS],
    /// Add of several ranges: the entries to be taken. Advance: those that are given outwards.
    staged: [(u32, u32); MAX_PLACES],
    /// Advance: the new body of each entry, or `u16::MAX`.
    body_for: [u16; MAX_PLACES],
    /// Open: the words that pending pairs may name.
    meant: [u32; 16 + 2 * MAX_PLACES],
}

/// How an add keeps a cell.
#[derive(Clone, Copy)]
#[repr(u8)]
enum Kept {
    Copy,
    ViaParent,
    Rule0,
    Rule1,
    Rule2,
    Rule3,
}

impl Kept {
    /// By a kind and a rule that were asked for.
    fn of(record: &Record) -> Kept {
        match (record.kind, record.rule) {
            (COPY, _) => Kept::Copy,
            (FROM_PARENT, _) => Kept::ViaParent,
            (_, 0) => Kept::Rule0,
            (_, 1) => Kept::Rule1,
            (_, 2) => Kept::Rule2,
            _ => Kept::Rule3,
        }
    }
}

thread_local! {
    static SCRATCH: RefCell<Scratch> = const {
        RefCell::new(Scratch {
            notes: Notes::new(),
            chosen: [0; 1 + MAX_GROUPS],
            raising: [0; 1 + MAX_GROUPS],
            kept: [[Kept::Copy; GROUP]; 1 + MAX_GROUPS],
            staged: [(0, 0); MAX_PLACES],
            body_for: [0; MAX_PLACES],
            meant: [0; 16 + 2 * MAX_PLACES],
        })
    };
}

/// The 64 bytes of a cell or a body. An array, which a compiler compares without a loop or a call.
#[inline]
fn cell_at(bytes: &[u8], number: usize) -> &[u8; CELL] {
    bytes[CELL * number..]
        .first_chunk()
        .expect("a checked table names cells and bodies that there are")
}

#[inline]
fn depth_of(word: u32) -> usize {
    (word >> 28) as usize
}

#[inline]
fn cell_of(word: u32) -> usize {
    (word & 0xFFFF) as usize
}

#[inline]
fn entry(table: &[u32], place: usize) -> (u32, u32) {
    (table[16 + 2 * place], table[17 + 2 * place])
}

/// The first so many entries.
#[inline]
fn entries(table: &[u32], count: usize) -> &[[u32; 2]] {
    table[16..16 + 2 * count].as_chunks().0
}

/// Question 1.
fn shape(lent: &Slices) -> Result<Shape, u32> {
    let whole = |length: usize, most: usize| {
        (length.is_multiple_of(CELL) && (1..=most).contains(&(length / CELL)))
            .then_some(length / CELL)
            .ok_or(1u32)
    };
    let cells = whole(lent.memory.len(), MAX_CELLS)?;
    let bodies = whole(lent.bodies.len(), MAX_PLACES)?;
    let words = lent.table.len().checked_sub(36).ok_or(1u32)?;
    if !words.is_multiple_of(6) || !(1..=MAX_PLACES).contains(&(words / 6)) {
        return Err(1);
    }
    Ok(Shape {
        cells,
        entries: words / 6,
        bodies,
    })
}

/// Questions 1 and 2.
fn header(lent: &Slices) -> Result<Shape, u32> {
    let shape = shape(lent)?;
    let table = &*lent.table;
    let right = table[0] == MAGIC
        && table[1] as usize == shape.cells
        && table[2] as usize == shape.entries
        && table[3] as usize == shape.bodies
        && table[7] == 0;
    if right { Ok(shape) } else { Err(2) }
}

/// The words before the entries.
fn check_head(table: &[u32]) -> bool {
    let live = table[4] as usize;
    let next = table[5];
    if live > 8 || next == 0 {
        return false;
    }
    let mut last = 0;
    for &handle in &table[8..8 + live] {
        if handle <= last || handle >= next {
            return false;
        }
        last = handle;
    }
    table[8 + live..16].iter().all(|&word| word == 0)
}

/// How many entries from here on are free, most of them looked at eight at a time. A function of its own in the machine code too: it
/// would take the registers of the loop that calls it.
#[inline(never)]
fn free_run(all: &[[u32; 2]]) -> usize {
    let eights = all.as_chunks::<8>().0.iter();
    let free =
        |eight: &&[[u32; 2]; 8]| eight.as_flattened().iter().fold(0, |all, word| all | word) == 0;
    let run = 8 * eights.take_while(free).count();
    run + all[run..]
        .iter()
        .take_while(|pair| **pair == [0, 0])
        .count()
}

/// Question 4 for a table without pending pairs: one pass over the entries sets the marks, and a second one, taken only when some
/// entry is via parent, asks whether the next domain out holds its cell, by no rule. `FIND`: entries are to be found by depth and cell.
fn check_words<const FIND: bool>(table: &[u32], shape: Shape, notes: &mut Notes) -> bool {
    if !check_head(table) {
        return false;
    }
    let live = table[4];
    notes.clear(shape);
    let all = entries(table, shape.entries);
    let (mut free, mut parents, mut rules, mut end, mut place) = (0, 0, 0, all.len(), 0);
    while let Some(&[first, second]) = all.get(place) {
        if first == 0 {
            let run = free_run(&all[place..]);
            if run == 0 {
                return false;
            }
            free += run;
            if place + run == all.len() {
                end = place;
            }
            place += run;
            continue;
        }
        let (outer, cell) = ((first >> 28).wrapping_sub(1), cell_of(first));
        if outer >= live || first & SPARE != 0 || cell >= shape.cells {
            return false;
        }
        if !notes.mark::<FIND>(1 << outer, cell, place) {
            return false;
        }
        if first & VIA_PARENT != 0 {
            if outer == 0 || second != 0 || first & BY_RULE != 0 {
                return false;
            }
            parents += 1;
        } else if first & BY_RULE != 0 {
            if second as usize >= PATTERNS.len() {
                return false;
            }
            rules += 1;
        } else {
            if second as usize >= shape.bodies {
                return false;
            }
            let used = &mut notes.used[second as usize];
            if *used != 0 {
                return false;
            }
            *used = 1;
        }
        place += 1;
    }
    let out_holds = |&[first, _]: &[u32; 2]| {
        first & VIA_PARENT == 0 || notes.holds(depth_of(first) - 1, cell_of(first))
    };
    if parents > 0 && !all[..end].iter().all(out_holds) {
        return false;
    }
    if parents > 0 && rules > 0 && notes.rests_on_rule(&all[..end]) {
        return false;
    }
    let count = all.len() - free;
    (notes.end, notes.entries, notes.copies) = (end, count, count - parents - rules);
    true
}

/// Question 4 for open: the pairs are checked and laid over a copy of the words that they may name.
fn check_pending(table: &[u32], shape: Shape, scratch: &mut Scratch) -> bool {
    let pending = table[6] as usize;
    if pending == 0 {
        return check_words::<false>(table, shape, &mut scratch.notes);
    }
    if pending > 2 * shape.entries + 10 {
        return false;
    }
    let end = 16 + 2 * shape.entries;
    let meant = &mut scratch.meant[..end];
    meant.copy_from_slice(&table[..end]);
    let mut last = 0;
    for pair in table[end..end + 2 * pending].chunks_exact(2) {
        let word = pair[0] as usize;
        if word <= last || word >= end || !(word == 4 || word == 5 || word >= 8) {
            return false;
        }
        meant[word] = pair[1];
        last = word;
    }
    check_words::<false>(meant, shape, &mut scratch.notes)
}

/// Questions 1 to 4, as every call but make and open is put them.
fn check<const FIND: bool>(lent: &Slices, notes: &mut Notes) -> Result<Shape, u32> {
    let shape = header(lent)?;
    if lent.table[6] != 0 {
        return Err(3);
    }
    if check_words::<FIND>(lent.table, shape, notes) {
        Ok(shape)
    } else {
        Err(4)
    }
}

/// Question 5: the depth of a handle.
fn depth_of_handle(table: &[u32], handle: u32) -> Result<usize, u32> {
    let live = table[4] as usize;
    if handle == 0 {
        return if live > 0 { Ok(live) } else { Err(5) };
    }
    table[8..8 + live]
        .iter()
        .position(|&known| known == handle)
        .map(|index| index + 1)
        .ok_or(5)
}

/// Questions 5 and 6.
fn innermost(table: &[u32], handle: u32) -> Result<usize, u32> {
    let depth = depth_of_handle(table, handle)?;
    if depth == table[4] as usize {
        Ok(depth)
    } else {
        Err(6)
    }
}

/// Question 8.
fn range(first: u32, count: u32, cells: usize) -> Result<Range<usize>, u32> {
    let end = first as u64 + count as u64;
    if count >= 1 && end <= cells as u64 {
        Ok(first as usize..end as usize)
    } else {
        Err(8)
    }
}

/// The entry by which the outermost of the depths `from..=to` that hold the cell holds it. A function of its own in the machine code
/// too: inlined into a large one its loop has too few registers.
#[inline(never)]
fn first_holder(all: &[[u32; 2]], from: usize, to: usize, cell: usize) -> Option<usize> {
    for depth in from..=to {
        let wanted = (depth as u32) << 28 | cell as u32;
        let is_it = |pair: &[u32; 2]| pair[0] & !(READ_WRITE | VIA_PARENT | BY_RULE) == wanted;
        let (fours, rest) = all.as_chunks::<4>();
        // Four at a time, or the loop's speed would depend on where in the program it comes to stand.
        for (group, four) in fours.iter().enumerate() {
            if is_it(&four[0]) | is_it(&four[1]) | is_it(&four[2]) | is_it(&four[3]) {
                return four.iter().position(is_it).map(|place| 4 * group + place);
            }
        }
        if let Some(place) = rest.iter().position(is_it) {
            return Some(4 * fours.len() + place);
        }
    }
    None
}

/// Free bodies, lowest first.
struct FreeBodies<'a> {
    used: &'a [u8],
    next: usize,
}

impl<'a> FreeBodies<'a> {
    fn new(used: &'a [u8]) -> Self {
        FreeBodies { used, next: 0 }
    }

    /// Asked only as often as question 17 allows.
    #[inline]
    fn take(&mut self) -> usize {
        // Eight at a time over those in use.
        while self.used[self.next..].first_chunk() == Some(&[1u8; 8]) {
            self.next += 8;
        }
        while self.used[self.next] != 0 {
            self.next += 1;
        }
        self.next += 1;
        self.next - 1
    }
}

/// The end of a call whose budget is used up.
struct Stop;

/// Counts the stores of a call against its budget.
struct Stores {
    budget: u64,
    made: u64,
}

impl Stores {
    fn new(budget: u64) -> Self {
        Stores { budget, made: 0 }
    }

    #[inline]
    fn word(&mut self, table: &mut [u32], index: usize, value: u32) -> Result<(), Stop> {
        if self.made == self.budget {
            return Err(Stop);
        }
        let place: &mut u32 = &mut table[index];
        // Volatile: the order of these stores is the whole point of the journal.
        unsafe { core::ptr::write_volatile(place, value) };
        self.made += 1;
        Ok(())
    }

    /// The 64 bytes of a cell, or as many as the budget still allows.
    #[inline]
    fn cell(&mut self, to: &mut [u8], from: &[u8]) -> Result<(), Stop> {
        let left = self.budget - self.made;
        if left >= CELL as u64 {
            to[..CELL].copy_from_slice(&from[..CELL]);
            self.made += CELL as u64;
            return Ok(());
        }
        let left = left as usize;
        to[..left].copy_from_slice(&from[..left]);
        self.made += left as u64;
        Err(Stop)
    }

    fn answer(&self, end: Result<(), Stop>) -> (u32, u64) {
        match end {
            Ok(()) => (0, self.made),
            Err(Stop) => (STOPPED, self.made),
        }
    }
}

/// Writes pairs behind the entries, then word 6, the words and word 6 again.
struct Journal {
    base: usize,
    pairs: usize,
}

impl Journal {
    fn new(shape: Shape) -> Self {
        // The bytes stored before must not sink below the first pair.
        core::sync::atomic::compiler_fence(core::sync::atomic::Ordering::SeqCst);
        Journal {
            base: 16 + 2 * shape.entries,
            pairs: 0,
        }
    }

    #[inline]
    fn pair(
        &mut self,
        stores: &mut Stores,
        table: &mut [u32],
        word: usize,
        value: u32,
    ) -> Result<(), Stop> {
        let at = self.base + 2 * self.pairs;
        stores.word(table, at, word as u32)?;
        stores.word(table, at + 1, value)?;
        self.pairs += 1;
        Ok(())
    }

    #[inline]
    fn entry(
        &mut self,
        stores: &mut Stores,
        table: &mut [u32],
        place: usize,
        words: (u32, u32),
    ) -> Result<(), Stop> {
        self.pair(stores, table, 16 + 2 * place, words.0)?;
        self.pair(stores, table, 17 + 2 * place, words.1)
    }

    /// The entries of an advance: those with a new body become copies, and the given ones take the lowest free places.
    #[inline]
    fn advanced(
        &mut self,
        stores: &mut Stores,
        table: &mut [u32],
        body_for: &[u16],
        given: &[(u32, u32)],
    ) -> Result<(), Stop> {
        let mut given = given.iter();
        for (place, &body) in body_for.iter().enumerate() {
            if body != u16::MAX {
                let word = entry(table, place).0 & !(VIA_PARENT | BY_RULE);
                self.entry(stores, table, place, (word, body as u32))?;
            } else if !given.as_slice().is_empty() && entry(table, place).0 == 0 {
                let words = given.next().copied().unwrap_or_default();
                self.entry(stores, table, place, words)?;
            }
        }
        for (place, &words) in (body_for.len()..).zip(given) {
            self.entry(stores, table, place, words)?;
        }
        Ok(())
    }

    fn finish(self, stores: &mut Stores, table: &mut [u32]) -> Result<(), Stop> {
        if self.pairs == 0 {
            return Ok(());
        }
        stores.word(table, 6, self.pairs as u32)?;
        put_in_place(stores, table, self.base, self.pairs)
    }
}

/// The pending words, and word 6 after them.
fn put_in_place(
    stores: &mut Stores,
    table: &mut [u32],
    base: usize,
    pairs: usize,
) -> Result<(), Stop> {
    for index in 0..pairs {
        let (word, value) = (table[base + 2 * index], table[base + 2 * index + 1]);
        stores.word(table, word as usize, value)?;
    }
    stores.word(table, 6, 0)
}

/// The answer and the steps of a call that was not refused. The calls are functions of their own in the machine code too: in one
/// function they would share its registers.
type Answer = (u32, u64);

#[inline(never)]
fn make(lent: Slices, budget: u64) -> Result<Answer, u32> {
    let shape = shape(&lent)?;
    let mut stores = Stores::new(budget);
    let table = lent.table;
    let end = (|| {
        stores.word(table, 0, 0)?;
        stores.word(table, 1, shape.cells as u32)?;
        stores.word(table, 2, shape.entries as u32)?;
        stores.word(table, 3, shape.bodies as u32)?;
        stores.word(table, 4, 0)?;
        stores.word(table, 5, 1)?;
        for word in 6..16 + 2 * shape.entries {
            stores.word(table, word, 0)?;
        }
        stores.word(table, 0, MAGIC)
    })();
    Ok(stores.answer(end))
}

#[inline(never)]
fn open(lent: Slices, budget: u64, scratch: &mut Scratch) -> Result<Answer, u32> {
    let shape = header(&lent)?;
    let table = lent.table;
    if !check_pending(table, shape, scratch) {
        return Err(4);
    }
    let pairs = table[6] as usize;
    if pairs == 0 {
        return Ok((0, 0));
    }
    let mut stores = Stores::new(budget);
    let end = put_in_place(&mut stores, table, 16 + 2 * shape.entries, pairs);
    Ok(stores.answer(end))
}

/// The answer, the steps and the new handle (0 unless done).
#[inline(never)]
fn create(lent: Slices, budget: u64, notes: &mut Notes) -> Result<(Answer, u32), u32> {
    let shape = check::<false>(&lent, notes)?;
    let table = lent.table;
    let live = table[4] as usize;
    let handle = table[5];
    if live >= 8 {
        return Err(9);
    }
    if handle == u32::MAX {
        return Err(10);
    }
    let mut stores = Stores::new(budget);
    let mut journal = Journal::new(shape);
    let end = (|| {
        journal.pair(&mut stores, table, 4, live as u32 + 1)?;
        journal.pair(&mut stores, table, 5, handle + 1)?;
        journal.pair(&mut stores, table, 8 + live, handle)?;
        journal.finish(&mut stores, table)
    })();
    let answer = stores.answer(end);
    Ok((answer, if answer.0 == 0 { handle } else { 0 }))
}

#[inline(never)]
fn add(
    lent: Slices,
    handle: u32,
    add: Record,
    budget: u64,
    notes: &mut Notes,
) -> Result<Answer, u32> {
    let (kind, label) = (add.kind, add.label);
    let shape = if kind == FROM_PARENT {
        check::<true>(&lent, notes)?
    } else {
        check::<false>(&lent, notes)?
    };
    let notes = &*notes;
    let (memory, bodies, table) = (lent.memory, lent.bodies, lent.table);
    let depth = innermost(table, handle)?;
    let range = kind_and_range(&add, shape)?;
    let fresh = || notes.not_held(depth, range.clone());
    let new = fresh().count();
    fits(&add, &range, depth, (memory, bodies, table), notes)?;
    if notes.entries + new > shape.entries {
        return Err(16);
    }
    if kind == COPY && notes.copies + new > shape.bodies {
        return Err(17);
    }
    let mut stores = Stores::new(budget);
    let end = (|| {
        if kind == COPY {
            let mut free = FreeBodies::new(&notes.used);
            for cell in fresh() {
                let body = free.take();
                stores.cell(&mut bodies[CELL * body..], &memory[CELL * cell..])?;
            }
        }
        // The lowest free entries in order of cell, and the lowest free bodies too: one walk over the entries meets both in order.
        let mut free = FreeBodies::new(&notes.used);
        let mut fresh = fresh();
        let mut journal = Journal::new(shape);
        let mut words = |cell: usize| {
            let (bit, second) = match kind {
                COPY => (0, free.take() as u32),
                FROM_PARENT => (VIA_PARENT, 0),
                _ => (BY_RULE, add.rule),
            };
            let word = (depth as u32) << 28 | label << 27 | bit | cell as u32;
            (word, second)
        };
        for place in 0..notes.end {
            let (word, second) = entry(table, place);
            if word == 0 {
                if let Some(cell) = fresh.next() {
                    journal.entry(&mut stores, table, place, words(cell))?;
                }
            } else if label == 1
                && depth_of(word) == depth
                && word & READ_WRITE == 0
                && range.contains(&cell_of(word))
            {
                journal.entry(&mut stores, table, place, (word | READ_WRITE, second))?;
            }
        }
        for (place, cell) in (notes.end..).zip(fresh) {
            journal.entry(&mut stores, table, place, words(cell))?;
        }
        journal.finish(&mut stores, table)
    })();
    Ok(stores.answer(end))
}

/// Questions 7 and 8: the cells of a range.
fn kind_and_range(record: &Record, shape: Shape) -> Result<Range<usize>, u32> {
    if record.kind > PATTERN || record.label > 1 {
        return Err(7);
    }
    range(record.first, record.count, shape.cells)
}

/// Questions 11, 12, 18 and 19 for those cells of a range that the innermost depth does not hold yet.
#[inline]
fn fits(
    record: &Record,
    range: &Range<usize>,
    depth: usize,
    (memory, bodies, table): (&[u8], &[u8], &[u32]),
    notes: &Notes,
) -> Result<(), u32> {
    let fresh = || notes.not_held(depth, range.clone());
    match record.kind {
        FROM_PARENT => {
            let lacks = |cell| depth == 1 || !notes.holds(depth - 1, cell);
            if fresh().any(lacks) {
                return Err(11);
            }
            let mut by_rule = 0;
            for cell in fresh() {
                let place = notes.find(table, depth - 1, cell);
                if cell_at(memory, cell) != notes.bytes_behind(table, bodies, place) {
                    return Err(12);
                }
                by_rule |= entry(table, place).0 & BY_RULE;
            }
            if by_rule != 0 {
                return Err(19);
            }
        }
        PATTERN => {
            let pattern = PATTERNS.get(record.rule as usize).ok_or(18u32)?;
            if fresh().any(|cell| cell_at(memory, cell) != pattern) {
                return Err(18);
            }
        }
        _ => {}
    }
    Ok(())
}

/// The part of a range that lies in a group, as a bit for each cell.
#[inline]
fn part_of(range: &Range<usize>, group: usize) -> u64 {
    let first = group * GROUP;
    let from = range.start.max(first) - first;
    let to = range.end.min(first + GROUP) - first;
    u64::MAX >> (GROUP - (to - from)) << from
}

/// Which of these cells of a block have the mark.
#[inline]
fn marked_of(marks: &[u8; GROUP], part: u64, bit: u8) -> u64 {
    if part.is_power_of_two() {
        let at = part.trailing_zeros();
        return u64::from(marks[at as usize] & bit != 0) << at;
    }
    let cells = marks.iter().enumerate();
    part & cells.fold(0, |all, (at, marks)| {
        all | u64::from(marks & bit != 0) << at
    })
}

/// The new cells of a list, and those of them that are copies.
#[derive(Default)]
struct Taken {
    cells: usize,
    copies: usize,
}

/// A range takes its cells: those that the innermost depth does not hold are marked and chosen, and all of them raised where it is
/// read-write.
#[inline]
fn take(
    record: &Record,
    range: &Range<usize>,
    depth: usize,
    scratch: &mut Scratch,
    taken: &mut Taken,
) {
    let (kept, bit) = (Kept::of(record), 1 << (depth - 1));
    for group in range.start / GROUP..range.end.div_ceil(GROUP) {
        let part = part_of(range, group);
        let mut block = scratch.notes.directory[group] as usize;
        if block == 0 {
            block = scratch.notes.take_block(group);
            scratch.chosen[block] = 0;
            scratch.raising[block] = 0;
        }
        let marks = &mut scratch.notes.marks[block];
        let new = part & !marked_of(marks, part, bit);
        scratch.chosen[block] |= new;
        if record.label == 1 {
            scratch.raising[block] |= part;
        }
        let count = new.count_ones() as usize;
        taken.cells += count;
        if record.kind == COPY {
            taken.copies += count;
        }
        let mut left = new;
        while left != 0 {
            let at = left.trailing_zeros() as usize;
            marks[at] |= bit;
            scratch.kept[block][at] = kept;
            left &= left - 1;
        }
    }
}

/// An add of several ranges.
#[inline(never)]
fn add_ranges(
    lent: Slices,
    handle: u32,
    records: &[Record],
    budget: u64,
    scratch: &mut Scratch,
) -> Result<Answer, u32> {
    let looks_out = |record: &Record| record.kind == FROM_PARENT;
    let shape = if records.iter().take(MAX_RANGES).any(looks_out) {
        check::<true>(&lent, &mut scratch.notes)?
    } else {
        check::<false>(&lent, &mut scratch.notes)?
    };
    let (memory, bodies, table) = (lent.memory, lent.bodies, lent.table);
    let depth = innermost(table, handle)?;
    if !(1..=MAX_RANGES).contains(&records.len()) {
        return Err(20);
    }
    scratch.chosen[..=scratch.notes.blocks].fill(0);
    scratch.raising[..=scratch.notes.blocks].fill(0);
    let (mut taken, mut raises) = (Taken::default(), false);
    for record in records {
        let range = kind_and_range(record, shape)?;
        fits(
            record,
            &range,
            depth,
            (memory, bodies, table),
            &scratch.notes,
        )?;
        take(record, &range, depth, scratch, &mut taken);
        raises |= record.label == 1;
    }
    let Scratch {
        notes,
        chosen,
        raising,
        kept,
        staged,
        ..
    } = scratch;
    let notes = &*notes;
    if notes.entries + taken.cells > shape.entries {
        return Err(16);
    }
    if notes.copies + taken.copies > shape.bodies {
        return Err(17);
    }
    let place = |cell: usize| (notes.directory[cell / GROUP] as usize, cell % GROUP);
    let raised = |cell: usize| {
        let (block, at) = place(cell);
        raising[block] >> at & 1 == 1
    };
    let mut stores = Stores::new(budget);
    let end = (|| {
        // In order of cell: the bytes of the copies, and what goes into the entries.
        let (mut free, mut count) = (FreeBodies::new(&notes.used), 0);
        notes.each_chosen(&chosen[..], |cell| {
            let (block, at) = place(cell);
            let (bit, second) = match kept[block][at] {
                Kept::Copy => {
                    let body = free.take();
                    stores.cell(&mut bodies[CELL * body..], cell_at(memory, cell))?;
                    (0, body as u32)
                }
                Kept::ViaParent => (VIA_PARENT, 0),
                rule => (BY_RULE, rule as u32 - Kept::Rule0 as u32),
            };
            let label = u32::from(raised(cell)) << 27;
            staged[count] = ((depth as u32) << 28 | label | bit | cell as u32, second);
            count += 1;
            Ok(())
        })?;
        // The lowest free entries in that order: one walk over the entries meets them and those that are raised.
        let mut staged = staged[..count].iter();
        let mut journal = Journal::new(shape);
        for place in 0..notes.end {
            let (word, second) = entry(table, place);
            if word == 0 {
                if let Some(&words) = staged.next() {
                    journal.entry(&mut stores, table, place, words)?;
                }
            } else if raises
                && depth_of(word) == depth
                && word & READ_WRITE == 0
                && raised(cell_of(word))
            {
                journal.entry(&mut stores, table, place, (word | READ_WRITE, second))?;
            }
        }
        for (place, &words) in (notes.end..).zip(staged) {
            journal.entry(&mut stores, table, place, words)?;
        }
        journal.finish(&mut stores, table)
    })();
    Ok(stores.answer(end))
}

#[inline(never)]
fn delete(
    lent: Slices,
    handle: u32,
    first: u32,
    count: u32,
    budget: u64,
    notes: &mut Notes,
) -> Result<Answer, u32> {
    let shape = check::<false>(&lent, notes)?;
    let table = lent.table;
    let depth = depth_of_handle(table, handle)?;
    let range = range(first, count, shape.cells)?;
    if notes.not_held(depth, range.clone()).next().is_some() {
        return Err(13);
    }
    for &[word, _] in entries(table, notes.end) {
        let child = depth_of(word) == depth + 1 && word & VIA_PARENT != 0;
        if child && range.contains(&cell_of(word)) {
            return Err(14);
        }
    }
    let mut stores = Stores::new(budget);
    let mut journal = Journal::new(shape);
    let end = (|| {
        for place in 0..notes.end {
            let (word, _) = entry(table, place);
            if depth_of(word) == depth && range.contains(&cell_of(word)) {
                journal.entry(&mut stores, table, place, (0, 0))?;
            }
        }
        journal.finish(&mut stores, table)
    })();
    Ok(stores.answer(end))
}

#[inline(never)]
fn commit(lent: Slices, handle: u32, budget: u64, scratch: &mut Scratch) -> Result<Answer, u32> {
    let Scratch {
        notes,
        chosen: raising,
        ..
    } = scratch;
    let shape = check::<false>(&lent, notes)?;
    let table = lent.table;
    let depth = innermost(table, handle)?;
    // The cells that the innermost domain holds read-write: they raise the label further out.
    let block = |cell: usize| notes.directory[cell / GROUP] as usize;
    if depth > 1 {
        raising[..=notes.blocks].fill(0);
        for &[word, _] in entries(table, notes.end) {
            if depth_of(word) == depth && word & READ_WRITE != 0 {
                raising[block(cell_of(word))] |= 1 << (cell_of(word) % GROUP);
            }
        }
    }
    let mut stores = Stores::new(budget);
    let mut journal = Journal::new(shape);
    let end = (|| {
        journal.pair(&mut stores, table, 4, depth as u32 - 1)?;
        journal.pair(&mut stores, table, 7 + depth, 0)?;
        for place in 0..notes.end {
            let (word, second) = entry(table, place);
            let cell = cell_of(word);
            if depth_of(word) == depth {
                let words = if depth == 1 || notes.holds(depth - 1, cell) {
                    (0, 0)
                } else {
                    (word - (1 << 28), second)
                };
                journal.entry(&mut stores, table, place, words)?;
            } else if word != 0
                && depth_of(word) + 1 == depth
                && word & READ_WRITE == 0
                && raising[block(cell)] >> (cell % GROUP) & 1 == 1
            {
                journal.entry(&mut stores, table, place, (word | READ_WRITE, second))?;
            }
        }
        journal.finish(&mut stores, table)
    })();
    Ok(stores.answer(end))
}

/// Which read-write cells of the innermost domain have changed: a bit for each in the word of its block. Gives their number, and how
/// many of them the next domain out lacks.
fn changed(
    lent: &Slices,
    depth: usize,
    notes: &Notes,
    chosen: &mut [u64; 1 + MAX_GROUPS],
) -> (usize, usize) {
    let (memory, bodies, table) = (&*lent.memory, &*lent.bodies, &*lent.table);
    chosen[..=notes.blocks].fill(0);
    let (mut count, mut given) = (0, 0);
    for (place, &[word, _]) in entries(table, notes.end).iter().enumerate() {
        if depth_of(word) != depth || word & READ_WRITE == 0 {
            continue;
        }
        let cell = cell_of(word);
        if cell_at(memory, cell) != notes.bytes_behind(table, bodies, place) {
            chosen[notes.directory[cell / GROUP] as usize] |= 1 << (cell % GROUP);
            count += 1;
            given += usize::from(notes.gives(depth, cell));
        }
    }
    (count, given)
}

#[inline(never)]
fn advance(lent: Slices, handle: u32, budget: u64, scratch: &mut Scratch) -> Result<Answer, u32> {
    let Scratch {
        notes,
        chosen,
        staged,
        body_for,
        ..
    } = scratch;
    let shape = check::<true>(&lent, notes)?;
    let notes = &*notes;
    let depth = innermost(lent.table, handle)?;
    let (count, given) = changed(&lent, depth, notes, chosen);
    if notes.entries + given > shape.entries {
        return Err(16);
    }
    if notes.copies + count > shape.bodies {
        return Err(17);
    }
    if count == 0 {
        return Ok((0, 0));
    }
    let (memory, bodies, table) = (lent.memory, lent.bodies, lent.table);
    let body_for = &mut body_for[..notes.end];
    body_for.fill(u16::MAX);
    let mut stores = Stores::new(budget);
    let end = (|| {
        // In order of cell: the bytes of the copies, and the entries that are given, as they stand but one depth further out.
        let (mut free, mut staging) = (FreeBodies::new(&notes.used), staged.iter_mut());
        notes.each_chosen(&chosen[..], |cell| {
            let body = free.take();
            let place = notes.find(table, depth, cell);
            body_for[place] = body as u16;
            if notes.gives(depth, cell) {
                let (word, second) = entry(table, place);
                *staging.next().expect("room was asked for") = (word - (1 << 28), second);
            }
            stores.cell(&mut bodies[CELL * body..], cell_at(memory, cell))
        })?;
        let mut journal = Journal::new(shape);
        journal.advanced(&mut stores, table, body_for, &staged[..given])?;
        journal.finish(&mut stores, table)
    })();
    Ok(stores.answer(end))
}

#[inline(never)]
fn restore(lent: Slices, handle: u32, budget: u64, notes: &mut Notes) -> Result<Answer, u32> {
    let shape = check::<true>(&lent, notes)?;
    let notes = &*notes;
    let (memory, bodies, table) = (lent.memory, lent.bodies, lent.table);
    let depth = depth_of_handle(table, handle)?;
    let live = table[4] as usize;
    let mut stores = Stores::new(budget);
    let end = (|| {
        // The lowest mark from this depth inwards is the outermost holder.
        notes.each_cell(u8::MAX << (depth - 1), |cell, inwards| {
            let holder = 1 + inwards.trailing_zeros() as usize;
            let place = notes.find(table, holder, cell);
            let bytes = notes.bytes_behind(table, bodies, place);
            stores.cell(&mut memory[CELL * cell..], bytes)
        })?;
        if depth == live {
            return Ok(());
        }
        let mut journal = Journal::new(shape);
        journal.pair(&mut stores, table, 4, depth as u32)?;
        for word in 8 + depth..8 + live {
            journal.pair(&mut stores, table, word, 0)?;
        }
        for place in 0..notes.end {
            if depth_of(entry(table, place).0) > depth {
                journal.entry(&mut stores, table, place, (0, 0))?;
            }
        }
        journal.finish(&mut stores, table)
    })();
    Ok(stores.answer(end))
}

/// The handles outermost first, and their number.
#[inline(never)]
fn list(lent: &Slices, notes: &mut Notes) -> Result<([u32; 8], u32), u32> {
    check::<false>(lent, notes)?;
    let mut handles = [0; 8];
    handles.copy_from_slice(&lent.table[8..16]);
    Ok((handles, lent.table[4]))
}

/// What look tells: the place (1 memory, 2 bodies, 3 a rule), the offset of the 64 bytes, the rule.
type Place = (u32, u64, u32);

/// Where the bytes behind an entry stand, by searches.
fn searched(all: &[[u32; 2]], mut place: usize) -> Place {
    loop {
        let [first, second] = all[place];
        if first & BY_RULE != 0 {
            return (3, 0, second);
        }
        if first & VIA_PARENT == 0 {
            return (2, (CELL * second as usize) as u64, 0);
        }
        let out = depth_of(first) - 1;
        place = first_holder(all, out, out, cell_of(first))
            .expect("a checked table has a holder further out");
    }
}

/// Where a looked-for cell stands.
#[inline(never)]
fn look(lent: &Slices, handle: u32, cell: u32, notes: &mut Notes) -> Result<Place, u32> {
    let shape = check::<false>(lent, notes)?;
    let table = &*lent.table;
    let depth = depth_of_handle(table, handle)?;
    range(cell, 1, shape.cells)?;
    let live = table[4] as usize;
    let all = entries(table, notes.end);
    Ok(match first_holder(all, depth, live, cell as usize) {
        Some(place) => searched(all, place),
        None => (1, (CELL * cell as usize) as u64, 0),
    })
}

/// Makes the call.
pub fn call(buffers: &mut Buffers, call: &Call, budget: u64) -> Reply {
    let lent = Slices {
        memory: &mut buffers.memory,
        bodies: &mut buffers.bodies,
        table: &mut buffers.table,
    };
    SCRATCH.with_borrow_mut(|scratch| call_on(lent, call, budget, scratch))
}

fn call_on(lent: Slices, call: &Call, budget: u64, scratch: &mut Scratch) -> Reply {
    let mut reply = Reply::default();
    let notes = &mut scratch.notes;
    let answer = match *call {
        Call::Make => make(lent, budget),
        Call::Open => open(lent, budget, scratch),
        Call::Create => create(lent, budget, notes).map(|(answer, handle)| {
            reply.handle = handle;
            answer
        }),
        Call::Add { handle, record } => add(lent, handle, record, budget, notes),
        Call::AddRanges {
            handle,
            ref records,
        } => add_ranges(lent, handle, records, budget, scratch),
        Call::Delete {
            handle,
            first,
            count,
        } => delete(lent, handle, first, count, budget, notes),
        Call::Commit { handle } => commit(lent, handle, budget, scratch),
        Call::Advance { handle } => advance(lent, handle, budget, scratch),
        Call::Restore { handle } => restore(lent, handle, budget, notes),
        Call::List => list(&lent, notes).map(|(handles, count)| {
            (reply.handles, reply.count) = (handles, count);
            (0, 0)
        }),
        Call::Look { handle, cell } => look(&lent, handle, cell, notes).map(|told| {
            (reply.place, reply.offset, reply.rule) = told;
            (0, 0)
        }),
    };
    (reply.code, reply.steps) = answer.unwrap_or_else(|number| (number, 0));
    reply
}
