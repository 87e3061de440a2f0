//! Exact answers for Othello endgames, by a solver whose answers are proved.
//!
//! ```
//! use ffosolve::{Position, Solver};
//!
//! let position = Position::from_obf("-OXXXXX-XXXXXXXOXXXXXXXXXXXXXXXXXXXOXXXXXXXXXXXXXXXXXXXXXXXXXXXX X;")?;
//! let answer = Solver::new().solve(position)?;
//! assert_eq!(answer.score, 62);
//! assert_eq!(answer.squares().to_string(), "H1");
//! # Ok::<(), Box<dyn std::error::Error>>(())
//! ```
//!
//! The crate links the library `libffosolve.a`, or with the feature `shared` the library `libffosolve.so`. It looks in
//! the folder that `FFOSOLVE_LIB_DIR` names when it is built; otherwise where pkg-config says, or in `/usr/local/lib`.
//!
//! Calls share nothing, so threads may call at the same time. Two more empty squares take some 2 to 20 times as long.
//! `Solver::threads` gives a call several threads, and `Solver::timeout` ends it. For 14 empty squares a call needs up
//! to 32 KiB of stack, and for 60 up to 128 KiB.

mod errors;
mod lines;
mod positions;
mod programs;
pub mod raw;
mod solvers;
mod squares;
mod transcripts;

pub use errors::{Error, ObfError};
pub use lines::{Line, Listed, Side};
pub use positions::Position;
pub use solvers::{library_version, table_entries, Answer, Best, Scoring, Solver};
pub use solvers::{DEFAULT_EMPTIES, MOST_EMPTIES, MOST_ENTRIES};
pub use squares::{Square, SquareError, Squares, Symmetry};
pub use transcripts::TranscriptError;
