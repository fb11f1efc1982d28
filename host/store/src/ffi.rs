//! The C functions of the proved library, as `include/domain_store.h` declares them.
//!
//! These are for tests and for programs that need the raw numbers. Everything else goes through
//! [`Store`](crate::Store), which cannot be called wrongly. Every function returns [`DONE`],
//! [`STOPPED`] or the number of a [`Refusal`](crate::Refusal), and sets its out parameters in every
//! case, to 0 where there is nothing to tell. [`Lent`] has each of them as a method, with the
//! buffers named once.
//!
//! # What a caller owes
//!
//! No proof can see these, so they are the safety conditions of every function here:
//!
//! - each pointer is aligned and points to as many elements as the length beside it says (lengths
//!   count elements, not bytes), and an out parameter points to one value (`handles` of [`ds_list`]
//!   to eight);
//! - no pointer is null, save that of a buffer of length 0: such a call is refused as
//!   [`Lengths`](crate::Refusal::Lengths) and does not look at it; and save that of a list of no
//!   ranges: such a call is refused as [`NumberOfRanges`](crate::Refusal::NumberOfRanges), where no
//!   earlier question refuses it, and does not look at it either. Out parameters are stored to by
//!   every call, so none of them is ever null;
//! - buffers, out parameters and the list of ranges do not overlap;
//! - nothing else stores into them while the call runs, so only one call at a time is made on a
//!   store.
//!
//! A pointer is `*const` where the call never stores into that buffer.
//!
//! ```
//! use domain_store::ffi::{DONE, ds_make};
//!
//! let (memory, bodies, mut table) = ([0_u8; 64], [0_u8; 64], [0_u32; 42]);
//! let mut steps = 0;
//! // SAFETY: the arrays have the lengths that are said, do not overlap, and are used by nothing else.
//! let number = unsafe {
//!     ds_make(
//!         memory.as_ptr(),
//!         memory.len(),
//!         bodies.as_ptr(),
//!         bodies.len(),
//!         table.as_mut_ptr(),
//!         table.len(),
//!         u64::MAX,
//!         &mut steps,
//!     )
//! };
//! assert_eq!((number, steps), (DONE, 19));
//! ```

/// The answer of a call that was carried out.
pub const DONE: u32 = 0;

/// The answer of a call that its budget stopped.
pub const STOPPED: u32 = 255;

/// What [`ds_look`] puts into `place` for a part of memory.
pub const IN_MEMORY: u32 = 1;

/// What [`ds_look`] puts into `place` for a part of bodies.
pub const IN_BODIES: u32 = 2;

/// What [`ds_look`] puts into `place` for a cell that is held by a rule: no part of a buffer.
pub const BY_RULE: u32 = 3;

/// One range of the list that [`ds_add_ranges`] takes, by the numbers that [`ds_add`] takes: `struct
/// ds_range` of the header. [`Range`](crate::Range) is the same with names for the numbers.
#[derive(Clone, Copy, Debug, PartialEq, Eq, Hash)]
#[repr(C)]
pub struct Range {
    /// The first cell.
    pub first: u32,
    /// The number of cells.
    pub count: u32,
    /// 0 for a copy, 1 for via parent, 2 for a pattern.
    pub kind: u32,
    /// A pattern's rule, from 0 to 3; other kinds ignore it.
    pub rule: u32,
    /// 0 for read-only, 1 for read-write.
    pub label: u32,
}

/// The lent buffers as every C function takes them first: a pointer and a length in elements each.
#[derive(Clone, Copy, Debug)]
pub struct Lent {
    /// Memory's first byte.
    pub memory: *mut u8,
    /// Memory's bytes.
    pub memory_len: usize,
    /// The first byte of bodies.
    pub bodies: *mut u8,
    /// The bytes of bodies.
    pub bodies_len: usize,
    /// The table's first word.
    pub table: *mut u32,
    /// The table's words.
    pub table_len: usize,
}

impl Lent {
    /// These parts of memory, as pointers and lengths.
    ///
    /// ```
    /// use domain_store::ffi::{DONE, Lent};
    ///
    /// let (mut memory, mut bodies, mut table) = ([0_u8; 64], [0_u8; 64], [0_u32; 42]);
    /// let lent = Lent::new(&mut memory, &mut bodies, &mut table);
    /// let mut steps = 0;
    /// // SAFETY: three arrays that do not overlap and that nothing else uses.
    /// assert_eq!(unsafe { lent.make(u64::MAX, &mut steps) }, DONE);
    /// ```
    pub fn new(memory: *mut [u8], bodies: *mut [u8], table: *mut [u32]) -> Lent {
        Lent {
            memory: memory.cast(),
            memory_len: memory.len(),
            bodies: bodies.cast(),
            bodies_len: bodies.len(),
            table: table.cast(),
            table_len: table.len(),
        }
    }
}

/// Declares each C function, and the method of [`Lent`] that calls it. `const` and `mut` say whether
/// the call stores into memory, bodies and table.
macro_rules! functions {
    ($($(#[$doc:meta])* $function:ident, $method:ident: $memory:tt $bodies:tt $table:tt ($($argument:ident: $type:ty),*);)*) => {
        unsafe extern "C" {
            $(
                $(#[$doc])*
                pub fn $function(
                    memory: *$memory u8,
                    memory_len: usize,
                    bodies: *$bodies u8,
                    bodies_len: usize,
                    table: *$table u32,
                    table_len: usize,
                    $($argument: $type),*
                ) -> u32;
            )*
        }

        impl Lent {
            $(
                $(#[$doc])*
                ///
                /// # Safety
                ///
                /// As the [module](self) says of every function.
                #[allow(clippy::too_many_arguments)]
                pub unsafe fn $method(self, $($argument: $type),*) -> u32 {
                    // SAFETY: the caller answers for the pointers.
                    unsafe {
                        $function(
                            self.memory,
                            self.memory_len,
                            self.bodies,
                            self.bodies_len,
                            self.table,
                            self.table_len,
                            $($argument),*
                        )
                    }
                }
            )*
        }

        /// Each function with its parameters, to be held beside the header.
        #[cfg(test)]
        const DECLARED: &[(&str, [&str; 3], &[(&str, &str)])] = &[$((
            stringify!($function),
            [stringify!($memory), stringify!($bodies), stringify!($table)],
            &[$((stringify!($argument), stringify!($type))),*],
        )),*];
    };
}

functions! {
    /// Makes a fresh store: no domains, next handle 1. Stores into the table; what it held before is
    /// gone once the first store is made.
    ds_make, make: const const mut (budget: u64, steps: *mut u64);

    /// Opens a store: finishes what a stopped call left pending. Stores into the table.
    ds_open, open: const const mut (budget: u64, steps: *mut u64);

    /// Creates a domain inside the innermost one. Stores into the table; `handle` is 0 unless the
    /// call is done.
    ds_create, create: const const mut (budget: u64, steps: *mut u64, handle: *mut u32);

    /// Holds cells in the innermost domain. `kind` is 0 for a copy, 1 for via parent, 2 for a
    /// pattern, whose `rule` is from 0 to 3 (other kinds ignore it); `label` is 0 for read-only, 1
    /// for read-write. Stores into bodies and the table.
    ds_add, add: const mut mut (
        handle: u32, first: u32, count: u32, kind: u32, rule: u32, label: u32, budget: u64,
        steps: *mut u64
    );

    /// Holds several ranges of cells in the innermost domain, `ranges_len` of them (1 to 64) from
    /// `ranges` on: all or none. They act in their order. Stores into bodies and the table.
    ds_add_ranges, add_ranges: const mut mut (
        handle: u32, ranges: *const Range, ranges_len: usize, budget: u64, steps: *mut u64
    );

    /// Frees cells that a domain holds. Stores into the table.
    ds_delete, delete: const const mut (
        handle: u32, first: u32, count: u32, budget: u64, steps: *mut u64
    );

    /// Ends the innermost domain and hands its cells to its parent. Stores into the table.
    ds_commit, commit: const const mut (handle: u32, budget: u64, steps: *mut u64);

    /// Moves the innermost domain's checkpoint to now. Stores into bodies and the table.
    ds_advance, advance: const mut mut (handle: u32, budget: u64, steps: *mut u64);

    /// Puts memory back to a domain's checkpoint and ends the domains inside it. Stores into memory
    /// and the table.
    ds_restore, restore: mut const mut (handle: u32, budget: u64, steps: *mut u64);

    /// Tells the live domains, outermost first: their number in `count`, their handles in the eight
    /// words at `handles`. Stores nothing.
    ds_list, list: const const const (handles: *mut u32, count: *mut u32);

    /// Tells where the 64 bytes stand that a restore would leave in a cell: `place` is
    /// [`IN_MEMORY`], [`IN_BODIES`] or 0 when refused, and `offset` counts bytes from the start of
    /// that buffer. With [`BY_RULE`] they stand nowhere: `offset` is 0 and `rule` the number of the
    /// rule that they follow (0 elsewhere). Stores nothing.
    ds_look, look: const const const (
        handle: u32, cell: u32, place: *mut u32, offset: *mut u64, rule: *mut u32
    );
}

#[cfg(test)]
mod tests {
    use super::{DECLARED, Range};
    use std::mem::{align_of, offset_of, size_of};

    const HEADER: &str = include_str!("../../../include/domain_store.h");

    /// A parameter of C as Rust writes it: name and type.
    fn in_rust(parameter: &str) -> (String, String) {
        let (constant, rest) = match parameter.trim().strip_prefix("const ") {
            Some(rest) => ("*const", rest),
            None => ("*mut", parameter.trim()),
        };
        let rest = rest.strip_prefix("struct ").unwrap_or(rest);
        let (kind, name) = rest.split_once(' ').expect("a type and a name");
        let kind = match kind {
            "uint8_t" => "u8",
            "uint32_t" => "u32",
            "uint64_t" => "u64",
            "size_t" => "usize",
            "ds_range" => "Range",
            other => panic!("the type {other}"),
        };
        let bare = name.trim_start_matches('*').trim_end_matches("[8]");
        let kind = match bare == name {
            true => kind.to_string(),
            false => format!("{constant} {kind}"),
        };
        (bare.to_string(), kind)
    }

    #[test]
    fn every_function_is_declared_as_in_the_header() {
        let in_header: Vec<(String, Vec<(String, String)>)> = HEADER
            .split("\nuint32_t ")
            .skip(1)
            .map(|text| {
                let (name, text) = text.split_once('(').expect("parameters");
                let (parameters, _) = text.split_once(')').expect("their end");
                (name.into(), parameters.split(',').map(in_rust).collect())
            })
            .collect();
        let here: Vec<(String, Vec<(String, String)>)> = DECLARED
            .iter()
            .map(|(name, [memory, bodies, table], others)| {
                let buffers = [
                    ("memory", format!("*{memory} u8")),
                    ("memory_len", "usize".into()),
                    ("bodies", format!("*{bodies} u8")),
                    ("bodies_len", "usize".into()),
                    ("table", format!("*{table} u32")),
                    ("table_len", "usize".into()),
                ];
                let others = others.iter().map(|(name, kind)| (*name, kind.to_string()));
                let all = buffers.into_iter().chain(others);
                let all = all.map(|(name, kind)| (name.to_string(), kind)).collect();
                (name.to_string(), all)
            })
            .collect();
        assert_eq!(here, in_header);
    }

    #[test]
    fn a_range_is_laid_out_as_in_the_header() {
        let (_, text) = HEADER
            .split_once("\nstruct ds_range {")
            .expect("the struct");
        let (text, _) = text.split_once('}').expect("its end");
        let fields: Vec<(String, String)> = text
            .split(';')
            .map(str::trim)
            .filter(|field| !field.is_empty())
            .map(in_rust)
            .collect();
        let here = [
            ("first", offset_of!(Range, first)),
            ("count", offset_of!(Range, count)),
            ("kind", offset_of!(Range, kind)),
            ("rule", offset_of!(Range, rule)),
            ("label", offset_of!(Range, label)),
        ];
        // Words one after another have no filling between them.
        assert!(
            here.iter()
                .enumerate()
                .all(|(at, (_, offset))| *offset == 4 * at)
        );
        assert_eq!((size_of::<Range>(), align_of::<Range>()), (20, 4));
        let here = here.map(|(name, _)| (name.to_string(), "u32".to_string()));
        assert_eq!(fields, here);
    }
}
