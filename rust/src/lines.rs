//! Lines of OBF text.
use crate::{raw, ObfError, Position, Square};
use std::fmt;

/// The colour of the side to move.
#[derive(Clone, Copy, PartialEq, Eq, Hash, Debug)]
pub enum Side {
    Black,
    White,
}

impl Side {
    /// The other colour.
    #[must_use]
    pub const fn other(self) -> Side {
        match self {
            Side::Black => Side::White,
            Side::White => Side::Black,
        }
    }
}

/// What a line lists with a score: a move, a pass, or the end of the game. It prints as `H1`, `PS` or `--`.
#[derive(Clone, Copy, PartialEq, Eq, Hash, Debug)]
pub enum Listed {
    Move(Square),
    Pass,
    Over,
}

impl fmt::Display for Listed {
    fn fmt(&self, f: &mut fmt::Formatter<'_>) -> fmt::Result {
        match self {
            Listed::Move(square) => fmt::Display::fmt(square, f),
            Listed::Pass => f.write_str("PS"),
            Listed::Over => f.write_str("--"),
        }
    }
}

/// What a line of OBF text says.
#[derive(Clone, PartialEq, Eq, Hash, Debug)]
pub struct Line {
    pub position: Position,
    /// The side to move, as the position has it.
    pub side: Side,
    /// The moves that the line lists, in their order, each with its score from -64 to 64. They may be illegal, and the
    /// scores wrong.
    pub listed: Vec<(Listed, i8)>,
}

impl Line {
    /// Reads a line of OBF text, with its end or without: 64 squares from A1 on, the side to move, and fields such as
    /// `H1:+62;`. Black is one of `X x * B b`, white one of `O o W w`, an empty square `-` or `.`. Blanks before the
    /// squares and before the side are skipped.
    ///
    /// # Errors
    /// `NoPosition` if the line is blank or a comment, otherwise the first fault from the left; `NoMemory`.
    pub fn from_obf<T: AsRef<[u8]> + ?Sized>(text: &T) -> Result<Line, ObfError> {
        let text = text.as_ref();
        let text = text.strip_suffix(b"\n").unwrap_or(text);
        let text = text.strip_suffix(b"\r").unwrap_or(text);
        let mut listed = vec![raw::Listed::default(); text.len() / 4]; // a move has at least four bytes, as in `A1:0`
        let (room, mut line, mut at) = (listed.len(), raw::Line::default(), 0);
        let (from, to) = (text.as_ptr(), listed.as_mut_ptr());
        // SAFETY: the text has this length, and `listed` this room; what is written is this call's own.
        let status = unsafe { raw::ffosolve_read_line(from, text.len(), &mut line, to, room, &mut at) };
        ObfError::of_status(status, at)?;
        let side = if line.side == 0 { Side::Black } else { Side::White };
        let listed = listed.iter().take(line.listed).map(|found| {
            let what = match (found.kind, Square::new(found.square)) {
                (0, Some(square)) => Listed::Move(square),
                (1, _) => Listed::Pass,
                _ => Listed::Over,
            };
            (what, found.score as i8)
        });
        Ok(Line { position: Position { masks: line.position, side }, side, listed: listed.collect() })
    }
}

impl std::str::FromStr for Line {
    type Err = ObfError;

    fn from_str(text: &str) -> Result<Line, ObfError> {
        Line::from_obf(text)
    }
}
