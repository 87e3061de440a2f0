//! Squares, sets of them, and their images under the symmetries of the board.
use crate::raw;
use std::fmt;
use Symmetry::*;

/// A square: A1 is number 0, B1 is 1, H1 is 7, A2 is 8, H8 is 63.
#[derive(Clone, Copy, PartialEq, Eq, PartialOrd, Ord, Hash)]
pub struct Square(u8);

impl Square {
    /// The square with a number from 0 to 63; None for any other number.
    pub const fn new(number: u8) -> Option<Square> {
        match number {
            0..=63 => Some(Square(number)),
            _ => None,
        }
    }

    pub const fn number(self) -> u8 {
        self.0
    }

    /// The square's bit in a mask.
    pub const fn bit(self) -> u64 {
        1 << self.0
    }

    /// The square to which a symmetry sends this one.
    #[must_use]
    pub fn image(self, symmetry: Symmetry) -> Square {
        Squares(self.bit()).image(symmetry).into_iter().next().unwrap_or(self)
    }
}

impl fmt::Display for Square {
    fn fmt(&self, f: &mut fmt::Formatter<'_>) -> fmt::Result {
        write!(f, "{}{}", char::from(b'A' + self.0 % 8), self.0 / 8 + 1)
    }
}

impl fmt::Debug for Square {
    fn fmt(&self, f: &mut fmt::Formatter<'_>) -> fmt::Result {
        fmt::Display::fmt(self, f)
    }
}

/// The text is not the name of a square, which is a letter from A to H, in either case, and a digit from 1 to 8.
#[derive(Clone, Copy, PartialEq, Eq, Debug)]
pub struct SquareError;

impl fmt::Display for SquareError {
    fn fmt(&self, f: &mut fmt::Formatter<'_>) -> fmt::Result {
        f.write_str("not the name of a square")
    }
}

impl std::error::Error for SquareError {}

impl std::str::FromStr for Square {
    type Err = SquareError;

    fn from_str(name: &str) -> Result<Square, SquareError> {
        match name.to_ascii_uppercase().as_bytes() {
            [column @ b'A'..=b'H', row @ b'1'..=b'8'] => Ok(Square(column - b'A' + 8 * (row - b'1'))),
            _ => Err(SquareError),
        }
    }
}

/// A set of squares. `into_iter()` yields them in the order of their numbers, and the set prints as `A1,H1`.
#[derive(Clone, Copy, PartialEq, Eq, Hash, Default)]
pub struct Squares(pub u64);

impl Squares {
    /// The mask: square n is bit n.
    pub const fn mask(self) -> u64 {
        self.0
    }

    pub const fn len(self) -> usize {
        self.0.count_ones() as usize
    }

    pub const fn is_empty(self) -> bool {
        self.0 == 0
    }

    pub const fn contains(self, square: Square) -> bool {
        self.0 & square.bit() != 0
    }

    /// The squares to which a symmetry sends these.
    #[must_use]
    pub fn image(self, symmetry: Symmetry) -> Squares {
        let mut image = 0;
        // SAFETY: the pointer is to a number of this call's own.
        let status = unsafe { raw::ffosolve_image(self.0, symmetry as u32, &mut image) };
        debug_assert_eq!(status, 0, "the library knows eight symmetries");
        Squares(image)
    }
}

impl IntoIterator for Squares {
    type Item = Square;
    type IntoIter = std::vec::IntoIter<Square>;

    fn into_iter(self) -> Self::IntoIter {
        let squares: Vec<_> = (0..64).map(Square).filter(|square| self.contains(*square)).collect();
        squares.into_iter()
    }
}

impl fmt::Display for Squares {
    fn fmt(&self, f: &mut fmt::Formatter<'_>) -> fmt::Result {
        let names: Vec<String> = self.into_iter().map(|square| square.to_string()).collect();
        f.write_str(&names.join(","))
    }
}

impl fmt::Debug for Squares {
    fn fmt(&self, f: &mut fmt::Formatter<'_>) -> fmt::Result {
        write!(f, "Squares({self})")
    }
}

/// A rotation or reflection of the board, named for what it does to the square in column c and row r, both from 0.
#[derive(Clone, Copy, PartialEq, Eq, Hash, Debug)]
pub enum Symmetry {
    /// (c, r) stays.
    Identity = 0,
    /// (c, r) goes to (7 - c, r).
    FlipColumns = 1,
    /// (c, r) goes to (c, 7 - r).
    FlipRows = 2,
    /// (c, r) goes to (7 - c, 7 - r).
    HalfTurn = 3,
    /// (c, r) goes to (r, c).
    Transpose = 4,
    /// (c, r) goes to (7 - r, c).
    TurnRight = 5,
    /// (c, r) goes to (r, 7 - c).
    TurnLeft = 6,
    /// (c, r) goes to (7 - r, 7 - c).
    AntiTranspose = 7,
}

impl Symmetry {
    /// All eight, in the order of their numbers in `ffosolve.h`.
    pub const ALL: [Symmetry; 8] =
        [Identity, FlipColumns, FlipRows, HalfTurn, Transpose, TurnRight, TurnLeft, AntiTranspose];

    /// The symmetry that undoes this one.
    #[must_use]
    pub const fn inverse(self) -> Symmetry {
        match self {
            TurnRight => TurnLeft,
            TurnLeft => TurnRight,
            _ => self,
        }
    }
}
