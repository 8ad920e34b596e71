//! Outputs and work room as a caller lends them, with guards around.

/// Cells on either side of what is lent; a call must leave them alone.
const GUARD: usize = 4;

/// An element of a lent slice, seen as bits so that NaNs compare too.
pub trait Cell: Copy {
    fn from_bits(bits: u64) -> Self;
    fn bits(self) -> u64;
    /// Old contents that the program `replay` computes as well: no double is a NaN.
    fn by_place(place: usize) -> Self;
}

/// Old contents of a number or a word in a stored request: this and its place.
const FIRST_BY_PLACE: u32 = 3_000_000_000;

impl Cell for u64 {
    fn from_bits(bits: u64) -> Self {
        bits
    }
    fn bits(self) -> u64 {
        self
    }
    fn by_place(place: usize) -> Self {
        u64::from(FIRST_BY_PLACE) + place as u64
    }
}

impl Cell for u32 {
    fn from_bits(bits: u64) -> Self {
        bits as u32
    }
    fn bits(self) -> u64 {
        self.into()
    }
    fn by_place(place: usize) -> Self {
        FIRST_BY_PLACE + place as u32
    }
}

impl Cell for f64 {
    fn from_bits(bits: u64) -> Self {
        f64::from_bits(bits)
    }
    fn bits(self) -> u64 {
        self.to_bits()
    }
    fn by_place(place: usize) -> Self {
        1.5 + place as f64
    }
}

/// No two neighbours alike; as doubles they are signalling NaNs.
fn junk(place: usize) -> u64 {
    0x7ff4_0000_5ca1_0000 | (place as u64 & 0xffff)
}

/// What a slice holds before a call. The guards around it hold junk in either case.
#[derive(Clone, Copy, PartialEq)]
pub enum Old {
    Junk,
    ByPlace,
}

/// A slice to be lent, filled with old contents.
pub struct Lent<T> {
    cells: Vec<T>,
    length: usize,
    old: Old,
}

impl<T: Cell> Lent<T> {
    pub fn new(length: usize, old: Old) -> Self {
        let mut lent = Lent {
            cells: Vec::new(),
            length: 0,
            old,
        };
        lent.lend(length);
        lent
    }

    pub fn old(&self) -> Old {
        self.old
    }

    /// Fills the slice with old contents again, at another length; the memory is reused.
    pub fn lend(&mut self, length: usize) -> &mut [T] {
        let all = length + 2 * GUARD;
        if self.cells.len() < all {
            self.cells.resize(all, T::from_bits(0));
        }
        self.length = length;
        for (place, cell) in self.cells[..all].iter_mut().enumerate() {
            *cell = T::from_bits(junk(place));
        }
        if self.old == Old::ByPlace {
            for (place, cell) in self.slice().iter_mut().enumerate() {
                *cell = T::by_place(place);
            }
        }
        self.slice()
    }

    pub fn slice(&mut self) -> &mut [T] {
        &mut self.cells[GUARD..GUARD + self.length]
    }

    pub fn guards_stand(&self) -> bool {
        let behind = GUARD + self.length;
        (0..GUARD)
            .chain(behind..behind + GUARD)
            .all(|place| self.cells[place].bits() == T::from_bits(junk(place)).bits())
    }

    /// The lent part.
    pub fn contents(&self) -> Vec<u64> {
        self.cells[GUARD..GUARD + self.length]
            .iter()
            .map(|cell| cell.bits())
            .collect()
    }

    pub fn is_zero(&self) -> bool {
        self.cells[GUARD..GUARD + self.length]
            .iter()
            .all(|cell| cell.bits() == 0)
    }
}
