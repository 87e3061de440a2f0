//! Why calls and lines are refused.
use crate::programs::{version_text, FOLDER};
use crate::MOST_ENTRIES;
use std::{fmt, io};

/// Defines errors. A row has a status of the library, the variant, the name of the number in it, and the text. This
/// text is also the first paragraph of the variant's documentation. The rows in `own` are this crate's own: they have
/// the types of their fields and, after `with`, what stands for `{}`.
macro_rules! refusals {
    ($($(#[$about:meta])* $name:ident {
        $($(#[$doc:meta])* $status:literal $variant:ident $({ $at:ident })?: $text:literal,)*
        $(own { $(
            $(#[$why:meta])* $own:ident $({ $($field:ident: $type:ty),* })?: $says:literal $(with $given:expr)?,
        )* })?
    })*) => {$(
        $(#[$about])*
        #[derive(Clone, Copy, PartialEq, Eq, Debug)]
        #[non_exhaustive]
        pub enum $name {
            $(#[doc = $text] $(#[doc = ""] #[$doc])* $variant $({ $at: usize })?,)*
            $($(#[doc = $says] $(#[doc = ""] #[$why])* $own $({ $($field: $type),* })?,)*)?
            /// A status that this crate does not know: the library is newer.
            Other { status: i32 },
        }

        impl $name {
            /// `Err` with the error for a status and the number that the library wrote; `Ok` for status 0.
            #[allow(unused_variables)] // no row of `Error` has a number
            pub(crate) fn of_status(status: i32, at: usize) -> Result<(), $name> {
                match status {
                    0 => Ok(()),
                    $($status => Err($name::$variant $({ $at: at })?),)*
                    _ => Err($name::Other { status }),
                }
            }
        }

        impl fmt::Display for $name {
            fn fmt(&self, f: &mut fmt::Formatter<'_>) -> fmt::Result {
                match self {
                    $($name::$variant $({ $at })? => write!(f, $text),)*
                    $($($name::$own $({ $($field),* })? => write!(f, $says $(, $given)?),)*)?
                    $name::Other { status } => write!(f, "refused with status {status}"),
                }
            }
        }

        impl std::error::Error for $name {}
    )*};
}

refusals! {
    /// Why a call is refused.
    Error {
        1 UnknownScoring: "no scoring has the number",
        2 TooManyEntries: "more than {MOST_ENTRIES} table entries",
        4 SharedSquare: "the masks share a square",
        6 NoMove: "illegal move",
        /// There is no memory for the table; never with 0 entries.
        7 NoMemory: "out of memory",
        12 UnknownSymmetry: "no symmetry has the number",
        own {
            TooManyEmpties { index: usize, empties: usize, most: usize }:
                "position at index {index}: {empties} empty squares are more than max_empties={most} of the Solver",
            TimedOut: "not finished within the timeout",
            /// With one thread and without a timeout, no call needs a program.
            NoProgram { name: &'static str, version: u32 }:
                "no process can be started: {name} {} is neither beside {FOLDER} nor on the path"
                with version_text(*version),
            NoProcess { os_error: i32 }: "no process can be started: {}" with io::Error::from_raw_os_error(*os_error),
            /// A negative status is that of a process which a signal with this number ended.
            ProgramEnded { status: i32 }: "the process that solved ended with status {status}",
        }
    }
    /// Why a line holds no position; columns are counted from 1, in bytes.
    ObfError {
        /// There is no memory for the moves that the line lists.
        7 NoMemory: "out of memory",
        8 NoPosition: "no position: the line is blank or a comment",
        9 ShortBoard { squares }: "board has {squares} of 64 squares",
        10 BadSquare { column }: "bad square at column {column}",
        /// The side to move is missing: another byte is in its place, or the line ends.
        11 BadSide { column }: "bad side at column {column}",
    }
}
