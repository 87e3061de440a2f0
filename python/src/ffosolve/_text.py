"""Reads lines of text, and shows the names of files in messages and commands."""
import gzip
import io
import os
import re
import shlex
import zlib
from typing import Any, BinaryIO, Iterator, Optional, Union

MOST_BYTES = 1_048_576  # in a line with its end; ffosolve takes as many in a whole list
BOOK_HEADER = "% ffobook 2 "  # the first line of a book is this and the scoring
# A line of a book, as ffosolve writes it, except that the moves may be in another order. The group has the score.
ENTRY = re.compile(rb"[XO-]{64} X;(?= ..:([+-]\d\d);)(?: (?:PS|--):\1;|(?: [A-H][1-8]:\1;)+)\n")
MARKS = (b"\xef\xbb\xbf", b"\xff\xfe", b"\xfe\xff")  # byte-order marks of UTF-8 and UTF-16
ARCHIVES = (b"PK\3\4", b"\x1f\x8b")  # how a .zip and a .gz begin


class NotText(ValueError):
    """A file can't be read as a text or as a WTHOR file of games. The message says why."""


class ReadingWarning(UserWarning):
    """A line or a file is read, but maybe not as it was meant. The message says why."""


class Unpacked(gzip.GzipFile):
    """The content of a .gz file. Raises OSError if that is damaged."""

    def read(self, size: Optional[int] = -1) -> bytes:
        try:
            return super().read(size)
        except (EOFError, zlib.error) as why:
            raise OSError(str(why)) from None


def unpacked(file: Any) -> Any:
    """The file itself or, of a .gz file, its content."""
    content: Any = Unpacked(fileobj=file) if file.peek(2).startswith(ARCHIVES[1]) else None
    return io.BufferedReader(content) if content else file


def text_lines(file: BinaryIO, name: str, may_have_nul: bool = False) -> Iterator[bytes]:
    """Yields the lines of a text, with their line ends. Raises NotText, with `name` in the message, for a file of
    another kind, a line of more than MOST_BYTES bytes and, unless `may_have_nul`, one with a NUL byte."""
    number, line = 1, file.readline(MOST_BYTES + 1)
    if line.startswith(MARKS):
        remove = "tail -c +4 <OLD >NEW" if line.startswith(MARKS[0]) else "iconv -f utf-16 -t utf-8 <OLD >NEW"
        raise NotText(f"cannot read {name}: it begins with a byte-order mark; `{remove}` writes a copy without")
    refuse_archive(line, name)
    if not line.endswith(b"\n") and b"\r" in line.rstrip() and b"\0" not in line:
        raise NotText(f"cannot read {name}: its lines end with CR alone")
    while line:
        if len(line) > MOST_BYTES:
            raise NotText(f"cannot read {name}: its line {number} has more than {MOST_BYTES} bytes")
        if not may_have_nul and b"\0" in line:
            raise NotText(f"cannot read {name}: its line {number} has a NUL byte, so it is not a text")
        yield line
        number, line = number + 1, file.readline(MOST_BYTES + 1)


def refuse_archive(head: bytes, name: str) -> None:
    """Raises NotText, with `name` in the message, if `head`, how a file begins, is that of an archive."""
    if head.startswith(ARCHIVES):
        raise NotText(f"cannot read {name}: it is an archive (.zip or .gz), so unpack it first")


def shown(name: Union[str, "os.PathLike[str]"]) -> str:
    """A file's name for a message. It is quoted for bash if it is empty or has characters that can't be printed."""
    name = os.fspath(name)
    if name.isprintable():
        return name or "''"
    quoted = repr(os.fsencode(name) + b'"')  # in single quotes, since there is a double one in it
    return f"${quoted[1:-2]}'"


def typed(name: Union[str, "os.PathLike[str]"]) -> str:
    """A file's name as a word of a command in a message."""
    name = os.path.join("." if os.fspath(name).startswith("-") else "", name)
    return shlex.quote(name) if name.isprintable() else shown(name)
