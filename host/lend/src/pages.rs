//! Buffers beside pages that nobody may touch: any load or store past that side is a fault. The
//! pages are shared with every child that is forked later.

use crate::{Lent, Range};
use core::ffi::{c_int, c_long, c_void};
use core::ptr::slice_from_raw_parts_mut;
use domain_model::{Buffer, Buffers, Lengths, Record};

pub const NONE: c_int = 0;
pub const READ: c_int = 1;
pub const READ_WRITE: c_int = 3;
const SHARED_ANONYMOUS: c_int = 0x21;

pub const PAGE: usize = 4096;

unsafe extern "C" {
    fn mmap(
        address: *mut c_void,
        length: usize,
        protection: c_int,
        flags: c_int,
        file: c_int,
        offset: c_long,
    ) -> *mut c_void;
    fn mprotect(address: *mut c_void, length: usize, protection: c_int) -> c_int;
    fn munmap(address: *mut c_void, length: usize) -> c_int;
}

/// Some pages, filled with zeros at first.
pub struct Pages {
    start: *mut u8,
    length: usize,
}

impl Pages {
    pub fn new(length: usize, protection: c_int) -> Pages {
        let length = length.div_ceil(PAGE) * PAGE;
        // SAFETY: a fresh mapping, at an address that the system picks, touches nothing else.
        let start = unsafe {
            mmap(
                core::ptr::null_mut(),
                length,
                protection,
                SHARED_ANONYMOUS,
                -1,
                0,
            )
        };
        assert!(start as isize != -1, "no pages to be had");
        Pages {
            start: start.cast(),
            length,
        }
    }

    pub fn start(&self) -> *mut u8 {
        self.start
    }
}

impl Drop for Pages {
    fn drop(&mut self) {
        // SAFETY: nothing points into the mapping any more.
        unsafe { munmap(self.start.cast(), self.length) };
    }
}

/// Which side of each buffer stands right at a closed page.
#[derive(Clone, Copy, PartialEq, Eq, Debug)]
pub enum Side {
    Before,
    After,
}

/// A list of records that can be read and not stored to, right at a page that nobody may touch.
pub struct Listed {
    _pages: Pages,
    start: *const Range,
}

impl Listed {
    pub fn new(records: &[Record], side: Side) -> Listed {
        let len = size_of_val(records);
        let room = len.div_ceil(PAGE).max(1) * PAGE;
        let pages = Pages::new(PAGE + room + PAGE, NONE);
        let open = pages.start().wrapping_add(PAGE);
        let start = match side {
            Side::Before => open,
            Side::After => open.wrapping_add(room - len),
        };
        // SAFETY: the pages are this list's own, and the records fit into the open ones.
        unsafe {
            assert_eq!(mprotect(open.cast(), room, READ_WRITE), 0);
            start.copy_from_nonoverlapping(records.as_ptr().cast(), len);
            assert_eq!(mprotect(open.cast(), room, READ), 0);
        }
        Listed {
            _pages: pages,
            start: start.cast(),
        }
    }

    /// The first of the records. It lives as long as this does.
    pub fn start(&self) -> *const Range {
        self.start
    }
}

/// One buffer between its closed pages. Addresses and lengths are in bytes.
#[derive(Clone, Copy)]
pub struct Stretch {
    pub buffer: Buffer,
    pub pages: usize,
    pub pages_len: usize,
    pub start: usize,
    pub len: usize,
}

impl Stretch {
    /// Allows or forbids loads and stores, in this process; false where the system refuses.
    #[must_use]
    pub fn allow(&self, how: c_int) -> bool {
        // SAFETY: the pages are the arena's own, and no reference into them is held.
        unsafe { mprotect(self.pages as *mut c_void, self.pages_len, how) == 0 }
    }

    /// The bytes as they stand. Nothing may store into them meanwhile.
    fn bytes(&self) -> &[u8] {
        // SAFETY: so many bytes stand there, in the arena's own pages.
        unsafe { core::slice::from_raw_parts(self.start as *const u8, self.len) }
    }

    fn load(&self, bytes: &[u8]) {
        assert_eq!(bytes.len(), self.len);
        // SAFETY: as many bytes, in pages of the arena's own.
        unsafe { (self.start as *mut u8).copy_from_nonoverlapping(bytes.as_ptr(), bytes.len()) };
    }
}

/// The lent buffers, each between pages that nobody may touch.
pub struct Arena {
    _pages: Pages,
    pub lengths: Lengths,
    pub stretches: [Stretch; 3],
}

/// The bytes of each buffer.
fn bytes(buffers: &Buffers) -> [&[u8]; 3] {
    let table = buffers.table.as_ptr().cast();
    // SAFETY: a word is four bytes, any of which are good bytes.
    let table = unsafe { core::slice::from_raw_parts(table, 4 * buffers.table.len()) };
    [&buffers.memory, &buffers.bodies, table]
}

fn bytes_mut(buffers: &mut Buffers) -> [&mut [u8]; 3] {
    let table = buffers.table.as_mut_ptr().cast();
    // SAFETY: a word is four bytes, any of which are a good word.
    let table = unsafe { core::slice::from_raw_parts_mut(table, 4 * buffers.table.len()) };
    [&mut buffers.memory, &mut buffers.bodies, table]
}

impl Arena {
    pub fn new(lengths: Lengths, side: Side) -> Arena {
        let wanted = [
            (Buffer::Memory, lengths.memory),
            (Buffer::Bodies, lengths.bodies),
            (Buffer::Table, 4 * lengths.table),
        ];
        // At least one page each, and a closed one before and after.
        let room = |len: usize| len.div_ceil(PAGE).max(1) * PAGE;
        let all: usize = wanted.iter().map(|(_, len)| room(*len) + PAGE).sum();
        let pages = Pages::new(PAGE + all, NONE);
        let mut next = pages.start() as usize + PAGE;
        let stretches = wanted.map(|(buffer, len)| {
            let (pages, pages_len) = (next, room(len));
            next += pages_len + PAGE;
            let start = match side {
                Side::Before => pages,
                Side::After => pages + pages_len - len,
            };
            let stretch = Stretch {
                buffer,
                pages,
                pages_len,
                start,
                len,
            };
            assert!(stretch.allow(READ_WRITE), "pages cannot be opened");
            stretch
        });
        Arena {
            _pages: pages,
            lengths,
            stretches,
        }
    }

    /// The buffers as C takes them.
    pub fn lent(&self) -> Lent {
        let [memory, bodies, table] = self.stretches;
        Lent::new(
            slice_from_raw_parts_mut(memory.start as *mut u8, memory.len),
            slice_from_raw_parts_mut(bodies.start as *mut u8, bodies.len),
            slice_from_raw_parts_mut(table.start as *mut u32, table.len / 4),
        )
    }

    /// Takes over the contents of these buffers, whose lengths are the arena's.
    pub fn load(&self, buffers: &Buffers) {
        for (stretch, from) in self.stretches.iter().zip(bytes(buffers)) {
            stretch.load(from);
        }
    }

    /// The same from another arena. Allocates nothing.
    pub fn load_from(&self, other: &Arena) {
        for (stretch, from) in self.stretches.iter().zip(&other.stretches) {
            stretch.load(from.bytes());
        }
    }

    /// A copy of the buffers as they stand.
    pub fn buffers(&self) -> Buffers {
        let mut buffers = Buffers::filled(self.lengths, 0, 0);
        self.copy_into(&mut buffers);
        buffers
    }

    /// Copies the buffers as they stand.
    pub fn copy_into(&self, buffers: &mut Buffers) {
        for (stretch, to) in self.stretches.iter().zip(bytes_mut(buffers)) {
            to.copy_from_slice(stretch.bytes());
        }
    }

    /// Whether the buffers stand as the copy has them.
    pub fn equals(&self, buffers: &Buffers) -> bool {
        let mut both = self.stretches.iter().zip(bytes(buffers));
        both.all(|(stretch, bytes)| stretch.bytes() == bytes)
    }

    /// The buffer and byte at an address.
    pub fn place(&self, address: usize) -> Option<(Stretch, usize)> {
        self.stretches
            .iter()
            .find(|stretch| (stretch.start..stretch.start + stretch.len).contains(&address))
            .map(|stretch| (*stretch, address - stretch.start))
    }
}
