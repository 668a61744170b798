//! Floats by their bits, and cells.

use std::fmt;

/// A float as its 32 bits: `==` is bit for bit, so that a NaN equals itself and -0.0 is not +0.0.
/// A run takes every NaN that it is given as 7FC00000, and a cell that it does not store to keeps
/// its own.
#[derive(Copy, Clone, Default, PartialEq, Eq, Hash)]
#[repr(transparent)]
pub struct Float(u32);

impl Float {
    /// The float of these bits.
    pub const fn from_bits(bits: u32) -> Self {
        Self(bits)
    }

    /// The bits.
    pub const fn bits(self) -> u32 {
        self.0
    }

    /// The number.
    pub fn number(self) -> f32 {
        f32::from_bits(self.0)
    }
}

impl From<f32> for Float {
    fn from(number: f32) -> Self {
        Self(number.to_bits())
    }
}

impl From<Float> for f32 {
    fn from(float: Float) -> Self {
        float.number()
    }
}

impl fmt::Debug for Float {
    fn fmt(&self, f: &mut fmt::Formatter<'_>) -> fmt::Result {
        write!(f, "{:?} ({:08X})", self.number(), self.0)
    }
}

/// What a variable or a context name holds.
#[derive(Copy, Clone, Debug, Default, PartialEq, Eq, Hash)]
pub enum Cell {
    /// Nothing.
    #[default]
    Missing,
    /// A float.
    Float(Float),
    /// A 64-bit hash.
    Hash(u64),
    /// A value that is the host's alone, with 64 bits of its own beside it.
    Other(u64),
}

impl From<f32> for Cell {
    fn from(number: f32) -> Self {
        Self::Float(number.into())
    }
}

impl From<Float> for Cell {
    fn from(float: Float) -> Self {
        Self::Float(float)
    }
}

/// A cell for each of the 256 names that a program can have, all missing at first. A program of `n`
/// names reads and writes the first `n`; the others stay as they are.
#[derive(Clone, PartialEq, Eq)]
pub struct Cells {
    kinds: [u8; Self::MOST],
    values: [u64; Self::MOST],
}

impl Cells {
    const MOST: usize = 256;

    /// Missing cells.
    pub const fn new() -> Self {
        Self {
            kinds: [0; Self::MOST],
            values: [0; Self::MOST],
        }
    }

    /// The cell of a name.
    pub fn get(&self, name: u8) -> Cell {
        let i = usize::from(name);
        match (self.kinds[i], self.values[i]) {
            (0, _) => Cell::Missing,
            (1, bits) => Cell::Float(Float(bits as u32)),
            (2, hash) => Cell::Hash(hash),
            (_, other) => Cell::Other(other),
        }
    }

    /// Gives a name this cell.
    pub fn set(&mut self, name: u8, cell: Cell) {
        let (kind, value) = match cell {
            Cell::Missing => (0, 0),
            Cell::Float(float) => (1, u64::from(float.0)),
            Cell::Hash(hash) => (2, hash),
            Cell::Other(other) => (3, other),
        };
        self.kinds[usize::from(name)] = kind;
        self.values[usize::from(name)] = value;
    }

    /// Kinds and values of the first `names` cells, at most 256.
    pub(crate) fn first(&self, names: u16) -> (&[u8], &[u64]) {
        let n = usize::from(names);
        (&self.kinds[..n], &self.values[..n])
    }

    /// The same, to be lent.
    pub(crate) fn lend(&mut self, names: u16) -> (&mut [u8], &mut [u64]) {
        let n = usize::from(names);
        (&mut self.kinds[..n], &mut self.values[..n])
    }
}

impl Default for Cells {
    fn default() -> Self {
        Self::new()
    }
}

/// The cells that are not missing, by name.
impl fmt::Debug for Cells {
    fn fmt(&self, f: &mut fmt::Formatter<'_>) -> fmt::Result {
        let all = (0..=u8::MAX).map(|name| (name, self.get(name)));
        f.debug_map()
            .entries(all.filter(|(_, cell)| *cell != Cell::Missing))
            .finish()
    }
}
