//! The solver, its scorings, its limits and its answers.
use crate::programs::{left, Asked, Program, FFOSCORES, FFOSOLVE};
use crate::{raw, Error, Position, Side, Square, Squares};
use std::num::NonZeroUsize;
use std::thread::available_parallelism;
use std::time::{Duration, Instant};

/// The greatest number of empty squares in a position to solve.
pub const MOST_EMPTIES: usize = 60;
/// The greatest number of empty squares in a position that a `Solver` takes, unless `max_empties` sets another.
pub const DEFAULT_EMPTIES: usize = 20;
/// The greatest number of entries in a table.
pub const MOST_ENTRIES: usize = 4_194_304;
/// How many positions with up to 8 empty squares the library solves in 0.4 seconds at most.
const BRIEF: usize = 4_096;
/// The greatest number of threads that a program adds to its first one.
const MOST_WORKERS: usize = 64;

/// What a score counts when the game is over, for the side to move.
#[derive(Clone, Copy, PartialEq, Eq, Hash, Debug, Default)]
pub enum Scoring {
    /// Its discs minus the other side's; the winner gets the empty squares.
    #[default]
    Winner = 0,
    /// Its discs minus the other side's.
    Discs = 1,
    /// 1, 0 or -1 for a win, a draw or a loss.
    Sign = 2,
}

impl TryFrom<u32> for Scoring {
    type Error = Error;

    fn try_from(number: u32) -> Result<Scoring, Error> {
        [Scoring::Winner, Scoring::Discs, Scoring::Sign].get(number as usize).copied().ok_or(Error::UnknownScoring)
    }
}

/// How a score is reached.
#[derive(Clone, Copy, PartialEq, Eq, Hash, Debug)]
pub enum Best {
    /// By each of these moves, and by no other.
    Moves(Squares),
    /// By a pass: the side to move has no move, and the other side has one.
    Pass,
    /// The game is over: neither side has a move.
    Over,
}

/// The score of a position for the side to move, -64 to 64, and how it is reached.
#[derive(Clone, Copy, PartialEq, Eq, Hash, Debug)]
pub struct Answer {
    pub score: i8,
    pub best: Best,
}

impl Answer {
    /// The best moves; none if the side to move has to pass or the game is over.
    pub const fn squares(self) -> Squares {
        match self.best {
            Best::Moves(squares) => squares,
            Best::Pass | Best::Over => Squares(0),
        }
    }

    fn of_raw(answer: raw::Answer) -> Answer {
        let best = match answer.kind {
            0 => Best::Moves(Squares(answer.best)),
            1 => Best::Pass,
            _ => Best::Over,
        };
        Answer { score: answer.score as i8, best }
    }
}

/// A suitable number of table entries, of 32 bytes each, for positions with `empties` empty squares. The size of a
/// table changes how long an answer takes, never the answer.
pub const fn table_entries(empties: usize) -> usize {
    match empties {
        0..=10 => 0,
        11..=14 => 4_096,
        15..=22 => 65_536,
        _ => 1_000_000,
    }
}

/// The version of the linked library as a number: 10000 times its first part, 100 times the second, and the third.
pub fn library_version() -> u32 {
    // SAFETY: the call takes nothing.
    unsafe { raw::ffosolve_version() }
}

/// Solves positions under a scoring. Each call searches with a new table, and keeps nothing.
///
/// With several threads or a timeout, a call that may take more than 0.4 seconds, as one for a position with at least
/// 15 empty squares, runs the program `ffosolve` or `ffoscores` of the library's version. It has to be in the linked
/// library's folder, in the one above, in `bin` beside the library's `lib`, or on the path. It ends with the call or
/// the thread that makes this; Ctrl-C does not end it.
///
/// # Errors
/// Each call tests for `TooManyEmpties` (of the first such position, whose index is counted from 0), `TooManyEntries`,
/// `TimedOut` and `NoMemory`, in this order. With a program, also for `NoProgram`, for `NoProcess` if the system
/// refuses a process, and for `ProgramEnded` if the program ends too early.
#[derive(Clone, Copy, PartialEq, Eq, Hash, Debug)]
pub struct Solver {
    scoring: Scoring,
    entries: Option<usize>,
    max_empties: usize,
    threads: usize,
    timeout: Option<Duration>,
}

/// A call of the library for many positions, which writes an `R` for each.
type CallForAll<R> = unsafe extern "C" fn(*const raw::Position, usize, u32, usize, *mut R, usize, *mut usize) -> i32;

impl Solver {
    /// A solver under `Scoring::Winner` for positions with up to `DEFAULT_EMPTIES` empty squares. It chooses the size
    /// of its tables by the empty squares (`table_entries`), and starts no program.
    pub const fn new() -> Solver {
        Solver { scoring: Scoring::Winner, entries: None, max_empties: DEFAULT_EMPTIES, threads: 1, timeout: None }
    }

    /// The solver under another scoring.
    #[must_use]
    pub const fn scoring(self, scoring: Scoring) -> Solver {
        Solver { scoring, ..self }
    }

    /// The solver with tables of this many entries. With more than `MOST_ENTRIES` its calls are refused.
    #[must_use]
    pub const fn entries(self, entries: usize) -> Solver {
        Solver { entries: Some(entries), ..self }
    }

    /// The solver for positions with up to this many empty squares, but no more than `MOST_EMPTIES`. Others might take
    /// hopelessly long, and are refused.
    #[must_use]
    pub const fn max_empties(self, most: usize) -> Solver {
        let max_empties = if most < MOST_EMPTIES { most } else { MOST_EMPTIES };
        Solver { max_empties, ..self }
    }

    /// The solver with up to this many threads for a call, but no more than 65. From 16 empty squares on (17 for
    /// `move_scores`), they search a position together.
    #[must_use]
    pub const fn threads(self, threads: usize) -> Solver {
        Solver { threads, ..self }
    }

    /// The solver with a thread for each processor that this process may use.
    #[must_use]
    pub fn threads_all(self) -> Solver {
        self.threads(available_parallelism().map_or(1, NonZeroUsize::get))
    }

    /// The solver whose calls end with `TimedOut` after this time.
    #[must_use]
    pub const fn timeout(self, timeout: Duration) -> Solver {
        Solver { timeout: Some(timeout), ..self }
    }

    /// The answer for a position.
    pub fn solve(&self, position: Position) -> Result<Answer, Error> {
        self.solve_all(&[position]).map(|answers| answers[0])
    }

    /// The answer for a position, found by testing the claimed score first. The claim may be wrong: it is right if the
    /// result equals it. From 6 empty squares on, this is faster than `solve` if most claimed scores are right.
    pub fn confirm(&self, position: Position, claim: Answer) -> Result<Answer, Error> {
        let (entries, asked) = self.plan(&[position])?;
        if let Some(asked) = asked {
            let (line, score) = (position.canonical().0.with_side(Side::Black).to_obf(), claim.score.clamp(-64, 64));
            let book = Some(format!("% ffobook 2 {}\n{line} PS:{score:+03};\n", self.scoring_name()));
            return Asked { book, ..asked }.find(FFOSOLVE, &[position]).map(|answers| answers[0]);
        }
        let claim = raw::Answer { score: claim.score.into(), ..Default::default() }; // nothing but the score matters
        let mut answer = raw::Answer::default();
        // SAFETY: the pointer is to an answer of this call's own.
        let status = unsafe { raw::ffosolve_confirm(position.masks, self.scoring as u32, entries, claim, &mut answer) };
        Error::of_status(status, 0).map(|()| Answer::of_raw(answer))
    }

    /// The answers for positions, in their order. One table serves them all; with a program, one serves 15,000.
    pub fn solve_all(&self, positions: &[Position]) -> Result<Vec<Answer>, Error> {
        self.call_all(raw::ffosolve_solve_all, raw::Answer::default(), Answer::of_raw, FFOSOLVE, positions)
    }

    /// Each legal move with its score for the side to move, in the order of the squares; empty without a legal move.
    /// One table serves all moves.
    pub fn move_scores(&self, position: Position) -> Result<Vec<(Square, i8)>, Error> {
        self.move_scores_all(&[position]).map(|mut found| found.remove(0))
    }

    /// What `move_scores` returns for each position, in their order, with tables as `solve_all` has them.
    pub fn move_scores_all(&self, positions: &[Position]) -> Result<Vec<Vec<(Square, i8)>>, Error> {
        let unset = raw::MoveScores { scores: [0; 64], moves: 0 };
        let read = |found: raw::MoveScores| {
            let scored = |square: Square| (square, found.scores[usize::from(square.number())]);
            Squares(found.moves).into_iter().map(scored).collect()
        };
        self.call_all(raw::ffosolve_move_scores_all, unset, read, FFOSCORES, positions)
    }

    /// What `read` makes of each record that `call` writes for positions, or what `program` finds.
    fn call_all<R: Copy, A>(
        &self, call: CallForAll<R>, unset: R, read: fn(R) -> A, program: Program<A>, positions: &[Position],
    ) -> Result<Vec<A>, Error> {
        let (entries, asked) = self.plan(positions)?;
        if let Some(asked) = asked {
            return asked.find(program, positions);
        }
        let (mut found, mut at, count) = (vec![unset; positions.len()], 0, positions.len());
        let masks: Vec<_> = positions.iter().map(|position| position.masks).collect();
        let (scoring, from) = (self.scoring as u32, masks.as_ptr());
        // SAFETY: both lists have `count` elements, and are this call's own.
        let status = unsafe { call(from, count, scoring, entries, found.as_mut_ptr(), count, &mut at) };
        Error::of_status(status, at).map(|()| found.into_iter().map(read).collect())
    }

    /// The entries of a table for positions, and what is asked of a program, if it solves them. Refuses the first that
    /// has too many empty squares, too large a table, and a call without time.
    fn plan(&self, positions: &[Position]) -> Result<(usize, Option<Asked>), Error> {
        let (empties, most) = (|| positions.iter().map(|position| position.empties().len()), self.max_empties);
        if let Some((index, empties)) = empties().enumerate().find(|(_, count)| *count > most) {
            return Err(Error::TooManyEmpties { index, empties, most });
        }
        let (greatest, scoring) = (empties().max().unwrap_or(0), self.scoring_name());
        let entries = self.entries.unwrap_or_else(|| table_entries(greatest));
        if entries > MOST_ENTRIES {
            return Err(Error::TooManyEntries);
        }
        let end = self.timeout.and_then(|timeout| Instant::now().checked_add(timeout));
        left(end)?;
        // A position counts as four that have one empty square less.
        let is_brief = positions.len() <= BRIEF.checked_shr(2 * greatest.saturating_sub(8) as u32).unwrap_or(0);
        let workers = self.threads.saturating_sub(1).min(MOST_WORKERS);
        let options = format!("--workers={workers} --table={entries} --scoring={scoring} --max-empties={MOST_EMPTIES}");
        let is_asked = !is_brief && (workers > 0 || end.is_some());
        Ok((entries, is_asked.then_some(Asked { options, book: None, end })))
    }

    fn scoring_name(&self) -> String {
        format!("{:?}", self.scoring).to_lowercase()
    }
}

impl Default for Solver {
    fn default() -> Solver {
        Solver::new()
    }
}
