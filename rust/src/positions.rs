//! A position, and the rules of the game.
use crate::{raw, Error, Line, ObfError, Side, Square, Squares, Symmetry};
use std::fmt;
use std::hash::{Hash, Hasher};

/// The discs of the mover, which is the side to move, and those of the other side. No square has both. A position knows
/// the mover's colour, but equals one of the other colour with the same masks, since both have the same answer. `{:?}`
/// prints `Position(LINE)`, with its OBF line.
#[derive(Clone, Copy)]
pub struct Position {
    pub(crate) masks: raw::Position,
    pub(crate) side: Side,
}

impl Position {
    /// The position with the masks of the mover's discs and of the other side's. A1 is bit 0 of a mask, and H8 bit 63.
    /// Black is to move.
    ///
    /// # Errors
    /// `SharedSquare` if the masks share a bit.
    pub const fn new(own: u64, opp: u64) -> Result<Position, Error> {
        match own & opp {
            0 => Ok(Position { masks: raw::Position { own, opp }, side: Side::Black }),
            _ => Err(Error::SharedSquare),
        }
    }

    /// The position in which a game begins.
    pub const fn start() -> Position {
        let masks = raw::Position { own: 0x0000_0008_1000_0000, opp: 0x0000_0010_0800_0000 };
        Position { masks, side: Side::Black }
    }

    /// The position with the same masks in which the mover has this colour.
    #[must_use]
    pub const fn with_side(self, side: Side) -> Position {
        Position { side, ..self }
    }

    /// The colour of the side to move.
    pub const fn side(self) -> Side {
        self.side
    }

    /// The position of a line of OBF text, which is read or refused as by `Line::from_obf`.
    pub fn from_obf<T: AsRef<[u8]> + ?Sized>(text: &T) -> Result<Position, ObfError> {
        Ok(Line::from_obf(text)?.position)
    }

    /// The position as an OBF line: 64 squares, and ` X;` if Black is to move, or ` O;`.
    pub fn to_obf(self) -> String {
        let (own, opp) = match self.side {
            Side::Black => ('X', 'O'),
            Side::White => ('O', 'X'),
        };
        let letter = |square: u32| match (self.masks.own >> square & 1, self.masks.opp >> square & 1) {
            (1, _) => own,
            (_, 1) => opp,
            _ => '-',
        };
        (0..64).map(letter).chain([' ', own, ';']).collect()
    }

    /// The mover's discs.
    pub const fn own(self) -> Squares {
        Squares(self.masks.own)
    }

    /// The other side's discs.
    pub const fn opp(self) -> Squares {
        Squares(self.masks.opp)
    }

    /// The squares without a disc.
    pub const fn empties(self) -> Squares {
        Squares(!(self.masks.own | self.masks.opp))
    }

    /// The position after a pass, in which the other side is to move.
    #[must_use]
    pub const fn passed(self) -> Position {
        let raw::Position { own, opp } = self.masks;
        Position { masks: raw::Position { own: opp, opp: own }, side: self.side.other() }
    }

    /// The legal moves.
    pub fn moves(self) -> Squares {
        let mut moves = 0;
        // SAFETY: the pointer is to a number of this call's own.
        let status = unsafe { raw::ffosolve_moves(self.masks, &mut moves) };
        debug_assert_eq!(status, 0, "the masks of a position share no square");
        Squares(moves)
    }

    /// Whether the side to move has no legal move, but the other side has one.
    pub fn must_pass(self) -> bool {
        self.moves().is_empty() && !self.passed().moves().is_empty()
    }

    /// Whether neither side has a legal move.
    pub fn is_over(self) -> bool {
        self.moves().is_empty() && self.passed().moves().is_empty()
    }

    /// The position after a move to a square, in which the other side is to move.
    ///
    /// # Errors
    /// `NoMove` if the move is not legal.
    pub fn play(self, square: Square) -> Result<Position, Error> {
        let mut after = raw::Position::default();
        // SAFETY: the pointer is to a position of this call's own.
        match unsafe { raw::ffosolve_play(self.masks, square.number(), &mut after) } {
            0 => Ok(Position { masks: after, side: self.side.other() }),
            _ => Err(Error::NoMove),
        }
    }

    /// The position after a symmetry of the board; the side to move stays. Its score is the same, and the images of the
    /// best moves are its best moves.
    #[must_use]
    pub fn image(self, symmetry: Symmetry) -> Position {
        let masks = raw::Position { own: self.own().image(symmetry).0, opp: self.opp().image(symmetry).0 };
        Position { masks, ..self }
    }

    /// The canonical position, which is the same for all eight images of a position, and which books hold; and the
    /// first symmetry, in the order of `Symmetry::ALL`, that leads to it. It is the image whose mask of the mover's
    /// discs is the least number, and if several have it, whose other mask is.
    pub fn canonical(self) -> (Position, Symmetry) {
        let (mut canonical, mut symmetry) = (raw::Position::default(), 0);
        // SAFETY: the pointers are to a position and a number of this call's own.
        let status = unsafe { raw::ffosolve_canonical(self.masks, &mut canonical, &mut symmetry) };
        debug_assert_eq!(status, 0, "the masks of a position share no square");
        (Position { masks: canonical, ..self }, Symmetry::ALL[symmetry as usize])
    }
}

impl PartialEq for Position {
    fn eq(&self, other: &Position) -> bool {
        self.masks == other.masks
    }
}

impl Eq for Position {}

impl Hash for Position {
    fn hash<H: Hasher>(&self, state: &mut H) {
        self.masks.hash(state);
    }
}

impl fmt::Debug for Position {
    fn fmt(&self, f: &mut fmt::Formatter<'_>) -> fmt::Result {
        write!(f, "Position({})", self.to_obf())
    }
}

impl std::str::FromStr for Position {
    type Err = ObfError;

    fn from_str(text: &str) -> Result<Position, ObfError> {
        Position::from_obf(text)
    }
}
