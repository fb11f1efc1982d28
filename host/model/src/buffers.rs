//! The three lent buffers, each with guard elements on both sides: a store outside a buffer is seen
//! at once.

use crate::calls::{Lengths, Sizes};
use crate::rng::Rng;
use std::fmt::LowerHex;
use std::ops::{Deref, DerefMut};

/// Which of the lent buffers.
#[derive(Clone, Copy, PartialEq, Eq, Debug)]
pub enum Buffer {
    Memory,
    Bodies,
    Table,
}

/// A value with a pattern that guards are filled with.
pub trait Pattern: Copy + Eq + Default + LowerHex {
    fn pattern(at: usize) -> Self;
}

impl Pattern for u8 {
    fn pattern(at: usize) -> u8 {
        (at as u8).wrapping_mul(37) ^ 0xA5
    }
}

impl Pattern for u32 {
    fn pattern(at: usize) -> u32 {
        (at as u32).wrapping_mul(0x0101_6B45) ^ 0xC0DE_D00D
    }
}

impl Pattern for u64 {
    fn pattern(at: usize) -> u64 {
        (at as u64).wrapping_mul(0x0101_6B45_0000_0013) ^ 0xC0DE_D00D_FEED_BEEF
    }
}

/// Guard elements on each side: more than a cell, so that a store one cell off is seen too, and a
/// multiple of 64, so that a buffer that is not shifted stands where an allocation would.
const GUARD: usize = 128;

/// A run of elements with guards around it. It is a slice of the elements in every respect.
#[derive(Clone)]
pub struct Guarded<T> {
    all: Vec<T>,
    from: usize,
    len: usize,
}

impl<T: Pattern> Guarded<T> {
    /// `shift` moves the start, so that a byte buffer is not always aligned.
    pub fn new(len: usize, shift: usize, mut fill: impl FnMut(usize) -> T) -> Guarded<T> {
        let from = GUARD + shift;
        let mut all: Vec<T> = (0..from + len + GUARD).map(T::pattern).collect();
        for (at, place) in all[from..from + len].iter_mut().enumerate() {
            *place = fill(at);
        }
        Guarded { all, from, len }
    }

    /// These elements in a buffer of another length: cut off, or followed by zeros.
    fn resized(&self, len: usize) -> Guarded<T> {
        Guarded::new(len, 0, |at| self.get(at).copied().unwrap_or_default())
    }

    /// Where the first guard element that lost its value lies, counted from the buffer's start.
    fn strayed(&self) -> Option<isize> {
        let mut outside = (0..self.from).chain(self.from + self.len..self.all.len());
        outside
            .find(|at| self.all[*at] != T::pattern(*at))
            .map(|at| at as isize - self.from as isize)
    }

    fn copy_from(&mut self, other: &Guarded<T>) {
        self.from = other.from;
        self.len = other.len;
        self.all.clear();
        self.all.extend_from_slice(&other.all);
    }

    /// The first element that is not as it should be, in words.
    fn differs(&self, name: &str, should: &Guarded<T>) -> Option<String> {
        // Mostly they are equal, and that is seen fastest as a whole.
        if self == should {
            return None;
        }
        if self.len != should.len {
            return Some(format!("{name} has another length"));
        }
        let at = self.iter().zip(&**should).position(|(a, b)| a != b)?;
        Some(format!(
            "{name}[{at}] is 0x{:x} and should be 0x{:x}",
            self[at], should[at]
        ))
    }
}

impl<T> Deref for Guarded<T> {
    type Target = [T];

    fn deref(&self) -> &[T] {
        &self.all[self.from..self.from + self.len]
    }
}

impl<T> DerefMut for Guarded<T> {
    fn deref_mut(&mut self) -> &mut [T] {
        &mut self.all[self.from..self.from + self.len]
    }
}

/// The elements count; the guards have a question of their own.
impl<T: Eq> PartialEq for Guarded<T> {
    fn eq(&self, other: &Guarded<T>) -> bool {
        **self == **other
    }
}

impl<T: Eq> Eq for Guarded<T> {}

/// Memory, bodies and table.
#[derive(Clone, PartialEq, Eq)]
pub struct Buffers {
    pub memory: Guarded<u8>,
    pub bodies: Guarded<u8>,
    pub table: Guarded<u32>,
}

impl Buffers {
    /// Buffers in which all bytes are the same, and all words.
    pub fn filled(lengths: Lengths, byte: u8, word: u32) -> Buffers {
        Buffers {
            memory: Guarded::new(lengths.memory, 0, |_| byte),
            bodies: Guarded::new(lengths.bodies, 0, |_| byte),
            table: Guarded::new(lengths.table, 0, |_| word),
        }
    }

    /// Buffers of these lengths with any contents: what a program lends before make.
    pub fn any(lengths: Lengths, seed: u64) -> Buffers {
        let mut rng = Rng::new(seed);
        let shift = (rng.below(8) as usize, rng.below(8) as usize);
        // Contents that differ from byte to byte, yet with many zeros: both kinds of leftover are
        // met in practice.
        let zeros = rng.chance(300);
        let mut draw = |_| if zeros { 0 } else { rng.draw() };
        Buffers {
            memory: Guarded::new(lengths.memory, shift.0, |at| draw(at) as u8),
            bodies: Guarded::new(lengths.bodies, shift.1, |at| draw(at) as u8),
            table: Guarded::new(lengths.table, 0, |at| draw(at) as u32),
        }
    }

    /// These contents in buffers of other lengths: cut off, or followed by zeros.
    pub fn resized(&self, lengths: Lengths) -> Buffers {
        Buffers {
            memory: self.memory.resized(lengths.memory),
            bodies: self.bodies.resized(lengths.bodies),
            table: self.table.resized(lengths.table),
        }
    }

    pub fn lengths(&self) -> Lengths {
        Lengths {
            memory: self.memory.len,
            bodies: self.bodies.len,
            table: self.table.len,
        }
    }

    /// The sizes of a store in these buffers; only for buffers whose lengths are known to be
    /// allowed.
    pub fn sizes(&self) -> Sizes {
        self.lengths().sizes().expect("allowed lengths")
    }

    /// Takes over the contents of other buffers without new allocations: this is done for every
    /// cut.
    pub fn copy_from(&mut self, other: &Buffers) {
        self.memory.copy_from(&other.memory);
        self.bodies.copy_from(&other.bodies);
        self.table.copy_from(&other.table);
    }

    /// The program writes a cell.
    pub fn write_cell(&mut self, cell: u32, bytes: &[u8; 64]) {
        self.memory[64 * cell as usize..][..64].copy_from_slice(bytes);
    }

    /// The first guard element that lost its value, in words.
    pub fn strayed(&self) -> Option<String> {
        let named = [
            ("memory", self.memory.strayed()),
            ("bodies", self.bodies.strayed()),
            ("table", self.table.strayed()),
        ];
        named.into_iter().find_map(|(name, at)| {
            at.map(|at| format!("element {at} of {name} lies outside and was stored to"))
        })
    }

    /// The first place where two sets of buffers differ, in words: `self` is what is there, `other`
    /// what should be.
    pub fn differs(&self, other: &Buffers) -> Option<String> {
        self.memory
            .differs("memory", &other.memory)
            .or_else(|| self.bodies.differs("bodies", &other.bodies))
            .or_else(|| self.table.differs("table", &other.table))
    }
}
