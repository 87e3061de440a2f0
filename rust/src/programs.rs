//! Runs the programs `ffosolve` and `ffoscores`, whose threads search a position together, and which can be ended.
use crate::{library_version, Answer, Best, Error, Line, Listed, Position, Square, Squares};
use std::collections::BTreeMap;
use std::env;
use std::fs::File;
use std::io::{self, ErrorKind, Read, Seek, Write};
use std::os::raw::{c_char, c_int, c_uint, c_ulong};
use std::os::unix::io::{AsRawFd, FromRawFd, OwnedFd};
use std::os::unix::net::UnixStream;
use std::os::unix::process::{parent_id, CommandExt, ExitStatusExt};
use std::path::{Path, PathBuf};
use std::process::{self, Child, Command};
use std::time::{Duration, Instant};

// Calls of the C library, which `std` links. The crate `libc` has them, too, but nobody gets that without a registry.
const PR_SET_PDEATHSIG: c_int = 1;
const SIGINT: c_int = 2;
const SIGKILL: c_ulong = 9;
const SIG_IGN: usize = 1;
const MFD_CLOEXEC: c_uint = 1;
const F_SETFD: c_int = 2;
extern "C" {
    fn prctl(option: c_int, ...) -> c_int;
    fn signal(number: c_int, handler: usize) -> usize;
    fn memfd_create(name: *const c_char, flags: c_uint) -> c_int;
    fn fcntl(file: c_int, command: c_int, ...) -> c_int;
}

/// The folder of the linked library.
pub(crate) const FOLDER: &str = env!("FFOSOLVE_FOLDER");
/// How many positions a program's list may have: one of 1 MiB or less.
const MOST_IN_LIST: usize = 15_000;

/// The time that is left until `end`, if there is an end; `TimedOut` if none is left.
pub(crate) fn left(end: Option<Instant>) -> Result<Option<Duration>, Error> {
    match end.map(|end| end.saturating_duration_since(Instant::now())) {
        Some(Duration::ZERO) => Err(Error::TimedOut),
        left => Ok(left),
    }
}

/// What a call asks of a program: its options, between blanks, the text of a book if there is one, and when it ends.
pub(crate) struct Asked {
    pub(crate) options: String,
    pub(crate) book: Option<String>,
    pub(crate) end: Option<Instant>,
}

/// A program's name, and what a row says that it prints for a position; None for other rows.
pub(crate) type Program<A> = (&'static str, fn(&str) -> Option<A>);

pub(crate) const FFOSOLVE: Program<Answer> = ("ffosolve", answer_of);
pub(crate) const FFOSCORES: Program<Vec<(Square, i8)>> = ("ffoscores", scores_of);

/// The answer in a row of a report, such as `1 +64 A1,H1 unlisted`.
fn answer_of(row: &str) -> Option<Answer> {
    let mut words = row.split(' ').skip(1);
    let score = words.next()?.parse().ok()?;
    let bit = |name: &str| name.parse().ok().map(Square::bit);
    let best = match words.next()? {
        "PS" => Best::Pass,
        "--" => Best::Over,
        moves => Best::Moves(Squares(moves.split(',').map(bit).sum::<Option<u64>>()?)),
    };
    Some(Answer { score, best })
}

/// The scores of the moves that a line lists, in the order of the squares.
fn scores_of(row: &str) -> Option<Vec<(Square, i8)>> {
    let listed = Line::from_obf(row).ok()?.listed.into_iter();
    let of_move = |(what, score)| if let Listed::Move(square) = what { Some((square, score)) } else { None };
    Some(BTreeMap::from_iter(listed.filter_map(of_move)).into_iter().collect())
}

impl Asked {
    /// What a program finds for positions, in their order.
    pub(crate) fn find<A>(&self, (name, read): Program<A>, positions: &[Position]) -> Result<Vec<A>, Error> {
        let (path, mut found) = (self.path_of(name)?, Vec::with_capacity(positions.len()));
        for list in positions.chunks(MOST_IN_LIST) {
            let lines: String = list.iter().map(|position| position.to_obf() + "\n").collect();
            let (status, printed) = self.run(&path, &self.options, &lines).map_err(error_of)?;
            let rows: Vec<_> = printed.lines().filter_map(read).collect();
            if printed.ends_with("out of memory\n") {
                return Err(Error::NoMemory);
            } else if status != 0 || rows.len() != list.len() {
                return Err(Error::ProgramEnded { status });
            }
            found.extend(rows);
        }
        Ok(found)
    }

    /// The path of the program that has the library's version. It is in the library's folder; in the one above, as in a
    /// checkout; in `bin` beside the library's `lib`; or on the path.
    fn path_of(&self, name: &'static str) -> Result<PathBuf, Error> {
        let (library, path) = (Path::new(FOLDER), env::var_os("PATH").unwrap_or_default());
        let is_lib = |folder: &&Path| folder.ends_with("lib") || folder.ends_with("lib64");
        let bins = library.ancestors().filter(is_lib).map(|folder| folder.with_file_name("bin"));
        let folders = [library.to_owned(), library.join("..")].into_iter().chain(bins).chain(env::split_paths(&path));
        let (version, wanted) = (library_version(), format!("{name} {}\n", version_text(library_version())));
        for place in folders.map(|folder| folder.join(name)).filter(|place| place.is_file()) {
            match self.run(&place, "--version", "") {
                Ok((0, printed)) if printed == wanted => return Ok(place),
                Ok((status, _)) if status < 0 => return Err(Error::ProgramEnded { status }),
                Err(why) if why.kind() != ErrorKind::PermissionDenied => return Err(error_of(why)),
                _ => {}
            }
        }
        Err(Error::NoProgram { name, version })
    }

    /// Runs a program with options and a list. Returns its status, or minus the number of the signal that ended it, and
    /// what it printed on both outputs. If it does not end in time, the error is of kind `TimedOut`.
    fn run(&self, path: &Path, options: &str, list: &str) -> io::Result<(i32, String)> {
        let ((mut ours, theirs), book, parent) = (UnixStream::pair()?, self.book.as_deref(), process::id());
        let book_file = file_of(book.unwrap_or(""))?;
        let (mut printed, mut piece, number) = (Vec::new(), [0; 4096], book_file.as_raw_fd());
        let mut command = Command::new(path);
        command.args(options.split(' ')).args(book.map(|_| format!("--book-in=/dev/fd/{number}")));
        command.stdin(file_of(list)?).stdout(OwnedFd::from(theirs.try_clone()?)).stderr(OwnedFd::from(theirs));
        // SAFETY: it makes only system calls.
        unsafe { command.pre_exec(move || prepare(parent, number)) };
        let mut running = Running(command.spawn()?);
        drop(command); // and with it this process's copy of the end that the program writes to
        loop {
            ours.set_read_timeout(left(self.end).map_err(|_| ErrorKind::TimedOut)?)?;
            match ours.read(&mut piece) {
                Ok(0) => break,
                Ok(count) => printed.extend_from_slice(&piece[..count]),
                Err(why) if matches!(why.kind(), ErrorKind::WouldBlock | ErrorKind::Interrupted) => {}
                Err(why) => return Err(why),
            }
        }
        let status = running.0.wait()?;
        let status = status.code().unwrap_or_else(|| -status.signal().unwrap_or(0));
        Ok((status, String::from_utf8_lossy(&printed).into_owned()))
    }
}

/// A library's version, such as `1.2.0`.
pub(crate) fn version_text(number: u32) -> String {
    format!("{}.{}.{}", number / 10_000, number / 100 % 100, number % 100)
}

fn error_of(why: io::Error) -> Error {
    match why.kind() {
        ErrorKind::TimedOut => Error::TimedOut,
        _ => Error::NoProcess { os_error: why.raw_os_error().unwrap_or(0) },
    }
}

/// A process, which is killed when this is dropped.
struct Running(Child);

impl Drop for Running {
    fn drop(&mut self) {
        let _ = self.0.kill().and_then(|()| self.0.wait()); // it may have ended
    }
}

/// A file in memory with this text, to be read from its beginning.
fn file_of(text: &str) -> io::Result<File> {
    // SAFETY: the name ends with NUL; a new descriptor is of nobody else.
    let mut file = match unsafe { memfd_create(b"list\0".as_ptr().cast(), MFD_CLOEXEC) } {
        -1 => return Err(io::Error::last_os_error()),
        number => unsafe { File::from_raw_fd(number) },
    };
    file.write_all(text.as_bytes())?;
    file.rewind()?;
    Ok(file)
}

/// Prepares a process that a thread of `parent` has started and that has yet to become a program: it is killed when the
/// thread ends, Ctrl-C is for `parent` alone, and the program has the descriptor `kept`.
fn prepare(parent: u32, kept: c_int) -> io::Result<()> {
    // SAFETY: the calls take numbers.
    unsafe {
        signal(SIGINT, SIG_IGN);
        if prctl(PR_SET_PDEATHSIG, SIGKILL) != 0 || fcntl(kept, F_SETFD, 0) != 0 {
            return Err(io::Error::last_os_error());
        }
    }
    // If `parent` has already ended, nothing would kill the process.
    (parent_id() == parent).then_some(()).ok_or_else(|| ErrorKind::BrokenPipe.into())
}
