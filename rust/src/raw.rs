//! The calls of `ffosolve.h`, which says what each takes, writes and refuses. No pointer may be null.

/// The discs of the mover, and those of the other side.
#[repr(C)]
#[derive(Clone, Copy, PartialEq, Eq, Hash, Debug, Default)]
pub struct Position {
    pub own: u64,
    pub opp: u64,
}

/// The score, how it is reached (0 by moves, 1 by a pass, 2 the game is over), and the mask of the best moves.
#[repr(C)]
#[derive(Clone, Copy, PartialEq, Eq, Hash, Debug, Default)]
pub struct Answer {
    pub score: i32,
    pub kind: i32,
    pub best: u64,
}

/// A position that a line holds, how many moves the line lists, and the side to move (0 black, 1 white).
#[repr(C)]
#[derive(Clone, Copy, PartialEq, Eq, Hash, Debug, Default)]
pub struct Line {
    pub position: Position,
    pub listed: usize,
    pub side: i32,
}

/// A move that a line lists: its score, what it is (0 a move, 1 a pass, 2 the end of the game), and the square.
#[repr(C)]
#[derive(Clone, Copy, PartialEq, Eq, Hash, Debug, Default)]
pub struct Listed {
    pub score: i32,
    pub kind: i32,
    pub square: u8,
}

/// The score of each move at its square's number, with 127 at the other squares; and the mask of the moves.
#[repr(C)]
#[derive(Clone, Copy, PartialEq, Eq, Hash, Debug)]
pub struct MoveScores {
    pub scores: [i8; 64],
    pub moves: u64,
}

extern "C" {
    pub fn ffosolve_solve(position: Position, scoring: u32, entries: usize, answer: *mut Answer) -> i32;
    pub fn ffosolve_confirm(
        position: Position, scoring: u32, entries: usize, claim: Answer, answer: *mut Answer,
    ) -> i32;
    pub fn ffosolve_solve_all(
        positions: *const Position, count: usize, scoring: u32, entries: usize, answers: *mut Answer, room: usize,
        at: *mut usize,
    ) -> i32;
    pub fn ffosolve_move_scores(
        position: Position, scoring: u32, entries: usize, scores: *mut [i8; 64], moves: *mut u64,
    ) -> i32;
    pub fn ffosolve_move_scores_all(
        positions: *const Position, count: usize, scoring: u32, entries: usize, found: *mut MoveScores, room: usize,
        at: *mut usize,
    ) -> i32;
    pub fn ffosolve_moves(position: Position, moves: *mut u64) -> i32;
    pub fn ffosolve_play(position: Position, square: u8, after: *mut Position) -> i32;
    pub fn ffosolve_canonical(position: Position, canonical: *mut Position, symmetry: *mut u32) -> i32;
    pub fn ffosolve_image(mask: u64, symmetry: u32, image: *mut u64) -> i32;
    pub fn ffosolve_read_line(
        text: *const u8, length: usize, line: *mut Line, listed: *mut Listed, room: usize, at: *mut usize,
    ) -> i32;
    pub fn ffosolve_limit(limit: u32) -> usize;
    pub fn ffosolve_version() -> u32;
}
