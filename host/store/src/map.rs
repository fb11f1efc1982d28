//! Buffers in a file that is mapped into memory.

use std::ffi::{c_int, c_void};
use std::fmt;
use std::fs::{self, File, OpenOptions};
use std::io::{self, Read};
use std::os::fd::{AsRawFd, RawFd};
use std::path::{Path, PathBuf};
use std::ptr::{self, NonNull};
use std::slice;

use crate::{Sizes, Store};

// The C library is linked into every Rust program, so these need a declaration and no crate. The
// numbers are Linux's for x86-64.
unsafe extern "C" {
    fn mmap(
        address: *mut c_void,
        length: usize,
        protection: c_int,
        flags: c_int,
        file: c_int,
        offset: i64,
    ) -> *mut c_void;
    fn munmap(address: *mut c_void, length: usize) -> c_int;
    fn msync(address: *mut c_void, length: usize, flags: c_int) -> c_int;
    fn flock(file: c_int, operation: c_int) -> c_int;
}

const PROT_READ: c_int = 1;
const PROT_WRITE: c_int = 2;
const MAP_SHARED: c_int = 1;
const MS_SYNC: c_int = 4;
const LOCK_EX: c_int = 2;
const LOCK_NB: c_int = 4;

/// Where the parts of a file begin: at multiples of this many bytes. It is part of the file's form
/// and the same on every machine.
const PAGE: usize = 4_096;

fn whole_pages(length: usize) -> usize {
    length.next_multiple_of(PAGE)
}

/// Where each buffer stands in the file, in bytes.
struct Layout {
    bodies: usize,
    table: usize,
    length: usize,
}

impl Layout {
    fn of(sizes: &Sizes) -> Layout {
        let bodies = whole_pages(sizes.memory_len());
        let table = bodies + whole_pages(sizes.bodies_len());
        let length = table + whole_pages(sizes.table_len() * size_of::<u32>());
        Layout {
            bodies,
            table,
            length,
        }
    }
}

/// A file's bytes in memory, shared with every process that maps the file.
struct Mapping {
    start: NonNull<u8>,
    length: usize,
}

impl Mapping {
    fn new(file: RawFd, length: usize) -> io::Result<Mapping> {
        // SAFETY: a new mapping, at an address that the kernel picks, touches nothing that the
        // program has.
        let start = unsafe {
            mmap(
                ptr::null_mut(),
                length,
                PROT_READ | PROT_WRITE,
                MAP_SHARED,
                file,
                0,
            )
        };
        if start.addr() == usize::MAX {
            return Err(io::Error::last_os_error());
        }
        match NonNull::new(start.cast()) {
            Some(start) => Ok(Mapping { start, length }),
            None => Err(io::Error::other("the file was mapped at address 0")),
        }
    }

    fn sync(&self) -> io::Result<()> {
        // SAFETY: the pages are this mapping's own.
        match unsafe { msync(self.start.as_ptr().cast(), self.length, MS_SYNC) } {
            0 => Ok(()),
            _ => Err(io::Error::last_os_error()),
        }
    }
}

impl Drop for Mapping {
    fn drop(&mut self) {
        // SAFETY: the pages are this mapping's own, and every reference into them borrowed it and
        // has ended.
        unsafe { munmap(self.start.as_ptr().cast(), self.length) };
    }
}

// SAFETY: the mapping is owned memory like any other; nothing about it belongs to one thread.
unsafe impl Send for Mapping {}
// SAFETY: a shared reference to it gives no access to the bytes; it can only ask the kernel to
// write them out.
unsafe impl Sync for Mapping {}

/// Three buffers in a file that is mapped into memory, so that a store outlives its process.
///
/// ```
/// use domain_store::{Innermost, Kind, Label, MappedBuffers};
///
/// # let path = std::env::temp_dir().join(format!("domain_store_doc_{}", std::process::id()));
/// # let _ = std::fs::remove_file(&path);
/// // The first process makes a store with a domain that holds cell 0, and changes the cell.
/// let mut buffers = MappedBuffers::create(&path, 4, 8, 8)?;
/// let mut store = buffers.store();
/// store.make()?;
/// store.cell_mut(0).fill(7);
/// let cycle = store.create()?;
/// store.add(cycle, 0..1, Kind::Copy, Label::ReadWrite)?;
/// store.cell_mut(0).fill(9);
/// drop(buffers); // or the process ends, or is killed, at any moment
///
/// // The next process opens the store first, whatever happened, and finds everything in its place.
/// let mut buffers = MappedBuffers::open(&path, 4, 8, 8)?;
/// let mut store = buffers.store();
/// store.open()?;
/// assert_eq!(store.cell(0), &[9; 64]);
/// store.restore(cycle)?;
/// assert_eq!(store.cell(0), &[7; 64]);
/// # drop(buffers);
/// # std::fs::remove_file(&path)?;
/// # Ok::<(), Box<dyn std::error::Error>>(())
/// ```
///
/// # What a mapped store survives
///
/// - **A process that ends at any moment, also by SIGKILL: yes.** Each store to a buffer is in the
///   kernel's copy of the file at once and in the order in which it was made, and the next process
///   that maps the file sees it. It has to call [`Store::open`] before anything else, which finds
///   the interrupted call wholly made or not made.
/// - **A loss of power, or a crash of the kernel: not promised.** The kernel writes pages to the
///   disk when it likes and in any order, so the file may then have a later page beside an earlier
///   one. [`sync`](MappedBuffers::sync) writes everything out, so what stood in the buffers then is
///   on the disk when it returns, and stays there if nothing is stored after it; during the stores
///   that follow, nothing is promised again.
///
/// # The file
///
/// Memory, then bodies, then the table, each beginning at a multiple of 4,096 bytes, with zeros
/// behind it up to the next:
///
/// | Part | Begins at | Length in bytes |
/// |---|---|---|
/// | memory | 0 | 64 m |
/// | bodies | 64 m, rounded up | 64 b |
/// | table | bodies' begin + 64 b rounded up | 4 (36 + 6 e), words in the machine's order (little-endian on x86-64) |
///
/// The file ends with the table's last page and is mapped whole (`MAP_SHARED`). It does not say its
/// own sizes: the table's words 1 to 3 do, once there is a store, and [`Store::open`] refuses a
/// store of other sizes.
///
/// # What the program owes
///
/// The file is locked (`flock`) while it is mapped, so a second [`open`](MappedBuffers::open) is an
/// error and not a store with two masters. A process that does not ask for the lock can still write
/// to the file or cut it short; no program can see that, and then nothing is promised.
pub struct MappedBuffers {
    // In this order: the mapping ends before the lock does.
    mapping: Mapping,
    file: File,
    sizes: Sizes,
    path: PathBuf,
}

impl MappedBuffers {
    /// Creates the file, for `m` cells, `e` entries and `b` bodies, filled with zeros, and maps it.
    /// There is no store in it yet: [`Store::make`] makes one.
    ///
    /// The whole file is written once, so that a full disk is an error here and not a fault at some
    /// later store.
    ///
    /// # Errors
    ///
    /// Where a size is not allowed, the file exists already, or the file cannot be written or
    /// mapped.
    ///
    /// ```
    /// # use domain_store::MappedBuffers;
    /// # use std::io::ErrorKind;
    /// # let path = std::env::temp_dir().join(format!("domain_store_doc_create_{}", std::process::id()));
    /// # let _ = std::fs::remove_file(&path);
    /// let buffers = MappedBuffers::create(&path, 4, 8, 8)?;
    /// assert_eq!(std::fs::metadata(&path)?.len(), 3 * 4_096);
    ///
    /// let error = MappedBuffers::create(&path, 4, 8, 8).unwrap_err();
    /// assert_eq!(error.kind(), ErrorKind::AlreadyExists);
    /// # drop(buffers);
    /// # std::fs::remove_file(&path)?;
    /// # Ok::<(), Box<dyn std::error::Error>>(())
    /// ```
    pub fn create(path: impl AsRef<Path>, m: u32, e: u32, b: u32) -> io::Result<MappedBuffers> {
        let path = path.as_ref();
        let sizes = Sizes::new(m, e, b)
            .map_err(|error| io::Error::new(io::ErrorKind::InvalidInput, error))?;
        let mut file = OpenOptions::new()
            .read(true)
            .write(true)
            .create_new(true)
            .open(path)?;
        let filled = (|| {
            lock(&file, path)?;
            io::copy(
                &mut io::repeat(0).take(Layout::of(&sizes).length as u64),
                &mut file,
            )?;
            file.sync_all()?;
            // The file's name is on the disk only when its folder is.
            let folder = path
                .parent()
                .filter(|folder| !folder.as_os_str().is_empty());
            File::open(folder.unwrap_or(Path::new(".")))?.sync_all()
        })();
        if let Err(error) = filled {
            // The file is this call's own, and half a file is of no use to anyone.
            let _ = fs::remove_file(path);
            return Err(error);
        }
        MappedBuffers::map(file, path, sizes)
    }

    /// Maps a file that [`create`](MappedBuffers::create) made with the same sizes. Call
    /// [`Store::open`] on its store before any other call: the process before may have been ended
    /// inside one.
    ///
    /// # Errors
    ///
    /// Where a size is not allowed, there is no such file, its length is not the one for these
    /// sizes, another process has it mapped, or it cannot be mapped.
    ///
    /// ```
    /// # use domain_store::MappedBuffers;
    /// # use std::io::ErrorKind;
    /// # let path = std::env::temp_dir().join(format!("domain_store_doc_open_{}", std::process::id()));
    /// # let _ = std::fs::remove_file(&path);
    /// let buffers = MappedBuffers::create(&path, 4, 8, 8)?;
    /// // While it is mapped, nobody else gets it.
    /// assert_eq!(MappedBuffers::open(&path, 4, 8, 8).unwrap_err().kind(), ErrorKind::WouldBlock);
    /// drop(buffers);
    ///
    /// let error = MappedBuffers::open(&path, 65_536, 8, 8).unwrap_err();
    /// assert_eq!(error.kind(), ErrorKind::InvalidData);
    /// # std::fs::remove_file(&path)?;
    /// # Ok::<(), Box<dyn std::error::Error>>(())
    /// ```
    pub fn open(path: impl AsRef<Path>, m: u32, e: u32, b: u32) -> io::Result<MappedBuffers> {
        let path = path.as_ref();
        let sizes = Sizes::new(m, e, b)
            .map_err(|error| io::Error::new(io::ErrorKind::InvalidInput, error))?;
        let file = OpenOptions::new().read(true).write(true).open(path)?;
        lock(&file, path)?;
        let (found, wanted) = (file.metadata()?.len(), Layout::of(&sizes).length as u64);
        if found != wanted {
            return Err(io::Error::new(
                io::ErrorKind::InvalidData,
                format!(
                    "{} has {found} bytes, and a store of {m} cells, {e} entries and {b} bodies \
                     has {wanted}: name the sizes that the file was created with, or create it \
                     anew if that was interrupted",
                    path.display()
                ),
            ));
        }
        MappedBuffers::map(file, path, sizes)
    }

    fn map(file: File, path: &Path, sizes: Sizes) -> io::Result<MappedBuffers> {
        let mapping = Mapping::new(file.as_raw_fd(), Layout::of(&sizes).length)?;
        Ok(MappedBuffers {
            mapping,
            file,
            sizes,
            path: path.to_path_buf(),
        })
    }

    /// The sizes that were asked for.
    pub fn sizes(&self) -> Sizes {
        self.sizes
    }

    /// The file's path, as it was given.
    pub fn path(&self) -> &Path {
        &self.path
    }

    /// The store over these buffers. Nothing is called: the store is as the file has it, which is
    /// none at all after [`create`](MappedBuffers::create).
    pub fn store(&mut self) -> Store<'_> {
        let layout = Layout::of(&self.sizes);
        let start = self.mapping.start.as_ptr();
        // SAFETY: the mapping is as long as the layout says, so each part lies inside it; the parts
        // do not overlap; the table begins at a multiple of a page and so of a word; any bytes are
        // good bytes and words. The slices borrow `self` uniquely, and the lock keeps other
        // processes that ask for it away.
        let (memory, bodies, table) = unsafe {
            (
                slice::from_raw_parts_mut(start, self.sizes.memory_len()),
                slice::from_raw_parts_mut(start.add(layout.bodies), self.sizes.bodies_len()),
                slice::from_raw_parts_mut(
                    start.add(layout.table).cast::<u32>(),
                    self.sizes.table_len(),
                ),
            )
        };
        Store::new(memory, bodies, table)
    }

    /// Writes all buffers to the disk, and returns when that is done (`msync`). A store that only
    /// has to outlive its process needs no sync.
    ///
    /// # Errors
    ///
    /// Where the disk cannot take the bytes. Then nothing is promised of what it has.
    ///
    /// ```
    /// # use domain_store::MappedBuffers;
    /// # let path = std::env::temp_dir().join(format!("domain_store_doc_sync_{}", std::process::id()));
    /// # let _ = std::fs::remove_file(&path);
    /// let mut buffers = MappedBuffers::create(&path, 4, 8, 8)?;
    /// buffers.store().make()?;
    /// buffers.sync()?;
    /// # drop(buffers);
    /// # std::fs::remove_file(&path)?;
    /// # Ok::<(), Box<dyn std::error::Error>>(())
    /// ```
    pub fn sync(&self) -> io::Result<()> {
        self.mapping.sync()?;
        // The file's length and times, besides its pages.
        self.file.sync_all()
    }
}

impl fmt::Debug for MappedBuffers {
    fn fmt(&self, f: &mut fmt::Formatter<'_>) -> fmt::Result {
        f.debug_struct("MappedBuffers")
            .field("path", &self.path)
            .field("sizes", &self.sizes)
            .finish_non_exhaustive()
    }
}

/// Takes the file for this process, until it is closed or the process ends.
fn lock(file: &File, path: &Path) -> io::Result<()> {
    // SAFETY: the call has no pointer, and the file is open.
    if unsafe { flock(file.as_raw_fd(), LOCK_EX | LOCK_NB) } == 0 {
        return Ok(());
    }
    let error = io::Error::last_os_error();
    if error.kind() == io::ErrorKind::WouldBlock {
        return Err(io::Error::new(
            io::ErrorKind::WouldBlock,
            format!(
                "{} is mapped by another process, or twice by this one: a store has one master \
                 at a time",
                path.display()
            ),
        ));
    }
    Err(error)
}
