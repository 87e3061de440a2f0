"""Finds the shared library, and declares the calls that this package needs to ctypes."""
import ctypes
import functools
import os
import sys
from typing import Any, List, Union

FILE_NAME = "libffosolve.so.1"
MAJOR = 1
MOST_EMPTIES = 60
MOST_ENTRIES = 4_194_304
NO_SCORE = 127  # in an array of scores, for a square that is not a legal move
_loaded: List[ctypes.CDLL] = []


class LibraryNotFound(OSError):
    """No place that was tried has a shared library that this package can call."""


class CPosition(ctypes.Structure):
    _fields_ = [("own", ctypes.c_uint64), ("opp", ctypes.c_uint64)]


class CAnswer(ctypes.Structure):
    _fields_ = [("score", ctypes.c_int32), ("kind", ctypes.c_int32), ("best", ctypes.c_uint64)]


class CMoveScores(ctypes.Structure):
    _fields_ = [("scores", ctypes.c_int8 * 64), ("moves", ctypes.c_uint64)]


def libraries_to_try() -> List[str]:
    """The libraries to try if no path is given. If the environment variable FFOSOLVE_LIBRARY names one, only that one.
    Otherwise those in this package, the one for newer processors first; then FILE_NAME where the system's loader
    finds it; then this file in the folder `lib` of the virtual environment, if any, of Python and of /usr/local."""
    if named := os.environ.get("FFOSOLVE_LIBRARY"):
        return [os.path.abspath(named) if os.sep in named else named]
    own = [os.path.join(os.path.dirname(__file__), level, FILE_NAME) for level in ("x86-64-v3", "x86-64-v2")]
    prefixes = dict.fromkeys([sys.prefix, sys.base_prefix, "/usr/local"])
    in_lib = (os.path.join(prefix, "lib", FILE_NAME) for prefix in prefixes)
    return [*filter(os.path.exists, own), FILE_NAME, *in_lib]


def load(path: Union[str, "os.PathLike[str]", None] = None) -> ctypes.CDLL:
    """The library at `path` or, for None, the first of `libraries_to_try()` that fits. Raises LibraryNotFound."""
    errors = []
    for place in [os.path.abspath(path)] if path is not None else libraries_to_try():
        try:
            return declared(place)
        except OSError as error:
            errors.append(str(error))
    hint = "install ffosolve, or name the library by its path or by FFOSOLVE_LIBRARY"
    raise LibraryNotFound("; ".join([*dict.fromkeys(errors), hint]))


def loaded() -> ctypes.CDLL:
    """Returns the library that was loaded first, or else loads one. For the rules of the game, any library will do."""
    return _loaded[0] if _loaded else load()


@functools.lru_cache(maxsize=None)
def declared(place: str) -> ctypes.CDLL:
    library = ctypes.CDLL(place)
    size, number, to = ctypes.c_size_t, ctypes.c_uint32, ctypes.POINTER
    calls = {  # each returns an int, as ctypes takes for granted
        "confirm": [CPosition, number, size, CAnswer, to(CAnswer)],
        "solve_all": [to(CPosition), size, number, size, to(CAnswer), size, to(size)],
        "move_scores_all": [to(CPosition), size, number, size, to(CMoveScores), size, to(size)],
        "moves": [CPosition, to(ctypes.c_uint64)],
        "play": [CPosition, ctypes.c_uint8, to(CPosition)],
        "canonical": [CPosition, to(CPosition), to(number)],
        "image": [ctypes.c_uint64, number, to(ctypes.c_uint64)],
        "version": [],
    }
    for name, arguments in calls.items():
        try:
            getattr(library, f"ffosolve_{name}").argtypes = arguments
        except AttributeError as error:
            raise LibraryNotFound(f"{place} is not this package's library: {error}") from None
    if library.ffosolve_version() // 10000 != MAJOR:
        raise LibraryNotFound(f"{place} has version {library.ffosolve_version()}, not {MAJOR}.x.y")
    _loaded.append(library)
    return library


def folder_of(library: ctypes.CDLL) -> str:
    """The folder of a loaded library, whose name may be one that the system's loader has found."""
    folder = ctypes.create_string_buffer(4096)
    ctypes.CDLL(None).dlinfo(ctypes.c_void_p(library._handle), 6, folder)  # RTLD_DI_ORIGIN in dlinfo(3)
    return os.fsdecode(folder.value)


def version_of(library: ctypes.CDLL) -> str:
    number = library.ffosolve_version()
    return f"{number // 10000}.{number // 100 % 100}.{number % 100}"


def search(library: ctypes.CDLL, name: str, scoring: int, entries: int, positions: Any, found: Any) -> int:
    """Makes the call `name`, which writes what it finds for each of `positions` to `found`; returns its status. Both
    are arrays. "ffosolve_confirm" is for one position, and takes the claim from `found`."""
    if name == "ffosolve_confirm":
        return int(library.ffosolve_confirm(positions[0], scoring, entries, found[0], found))
    call, count = getattr(library, name), len(positions)
    return int(call(positions, count, scoring, entries, found, count, ctypes.c_size_t()))
