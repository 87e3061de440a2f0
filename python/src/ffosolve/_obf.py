"""Lines of OBF text, which `Position.from_obf` explains, and the files and lists that have them."""
import os
import re
import reprlib
import warnings
from typing import Any, BinaryIO, Iterable, Iterator, Optional, Tuple, Union

from ._refusals import BadSide, BadSquare, NoPosition, ShortBoard
from ._squares import NAMES
from ._text import ReadingWarning

OBF_LINE = re.compile(rb"([ \t]*)([Xx*BbOoWw.-]{0,64})([ \t]*)([Xx*BbOoWw]?)([^%]*)")
MOVES = {name.encode(): name for name in (*NAMES, "PS", "--")}
LISTED = re.compile(rb"(?:\A|;)[ \t]*([A-Ha-h][1-8]|[Pp][Ss]|--):([+-]?(?:[0-5]?[0-9]|6[0-4]))[ \t]*(?=;|\Z)")
# A side that goes on with letters, so it may not be the colour that is meant. No listed move needs a blank before it.
SIDE = re.compile(rb"^[ \t]*[-.*xobw]{64}[ \t]*(?!black\b|white\b|.ps:|.[a-h][1-8]:)([*xobw][a-z]+)", re.M | re.I)
Lines = Iterable[Union[str, bytes]]
Source = Union[str, "os.PathLike[str]", Lines]
Listed = Tuple[Tuple[str, int], ...]
BLACK, WHITE = (bytes.maketrans(b"Xx*BbOoWw-.", bits) for bits in (b"11111000000", b"00000111100"))


def parsed(text: Union[str, bytes], number: Optional[int]) -> Tuple[int, int, str, Listed]:
    """Returns (own, opp, side, listed) of the position in a line, as `Position` explains them. Raises LineRefused, with
    `number` as its `line`, and TypeError. Warns of a side such as `blanc`."""
    found: Any = OBF_LINE.match(without_end(text))
    _, letters, _, side, rest = found.groups()
    if len(letters) < 64 or not side:
        content = found.string[found.end(1):]
        if not content or content.startswith(b"%"):
            raise NoPosition(0, number)
        if len(letters) == 64:
            raise BadSide(found.end(3) + 1, number)
        raise ShortBoard(len(letters), number) if letters == content else BadSquare(found.end(2) + 1, number)
    if rest and rest[0] > 64 and (word := SIDE.match(found.string)):
        warnings.warn(f"{'' if number is None else f'line {number}: '}{side_as_read(word[1])}", ReadingWarning)
    squares = letters[::-1]
    black, white = int(squares.translate(BLACK), 2), int(squares.translate(WHITE), 2)
    listed = tuple([(MOVES[move.upper()], int(score)) for move, score in LISTED.findall(rest)]) if rest else ()
    return (black, white, "X", listed) if side in b"Xx*Bb" else (white, black, "O", listed)


def side_as_read(word: bytes) -> str:
    """A message on the side in a match of the pattern SIDE."""
    side = word.decode()
    return f"the side {side} is read as {'White' if side[0] in 'OoWw' else 'Black'}: only its first letter counts"


def bytes_of(text: Union[str, bytes]) -> bytes:
    if not isinstance(text, (str, bytes, bytearray)):
        raise TypeError(f"OBF text is of the type str or bytes, not {type(text).__name__}")
    return text.encode("utf-8", "surrogatepass") if isinstance(text, str) else text


def without_end(text: Union[str, bytes]) -> bytes:
    """The bytes of a line without its end, which is LF, CR LF, CR or nothing."""
    line = bytes_of(text)
    line = line[:-1] if line.endswith(b"\n") else line
    return line[:-1] if line.endswith(b"\r") else line


def lines_of(source: Source) -> Lines:
    """The lines of `source`, a path or an iterable of lines. A path's file is opened at once, and closed after its last
    line. Raises OSError for a file that can't be opened or read, and TypeError for another source."""
    is_text = isinstance(source, (bytes, bytearray)) or isinstance(source, str) and "\n" in source
    if is_text or not isinstance(source, (str, os.PathLike)) and not hasattr(source, "__iter__"):
        what = "a text, which parse_lines reads" if is_text else reprlib.repr(source)
        raise TypeError(f"lines are read from a path or an iterable of lines such as an open file, not from {what}")
    return lines_in(open(source, "rb")) if isinstance(source, (str, os.PathLike)) else source


def lines_in(file: BinaryIO) -> Iterator[bytes]:
    with file:
        yield from file
