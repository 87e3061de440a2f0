"""The folder of a run: its list, what solves that, and the results of parts, those of other lists and options, too."""
import collections
import contextlib
import filecmp
import json
import os
import stat
from pathlib import Path
from typing import BinaryIO, Dict, Iterator, List, NamedTuple, Optional, Tuple

from .._command_line import MISSING, MISUSED, Refusal, lock_file, refusing, say, write_whole
from .._obf import SIDE, side_as_read
from .._text import shown, text_lines, typed
from .solve import (FORM, FRONT, Pack, Solved, Task, content_of, digest_of, empties_of, opened, parts_of, read_record,
                    read_task, sealed, sha256)

LOCK = "run.lock"
GROWTH = 2.35  # factor of the work for each further empty square, as measured from 14 to 22 of them
LINE, PART = GROWTH ** 7, GROWTH ** 14  # the work of any line (10 microseconds) and of any part (a program's start)
SYNCED_SECONDS = 1  # results of parts that took less may be lost if the power fails
Files = Dict[str, Tuple[bytes, int]]  # {name: (content, mode)}


def weight_of(empties: List[int], most: int) -> float:
    """Returns the expected work for a part with these `empties_of`: GROWTH ** n more for a line with n <= `most`."""
    lines = collections.Counter(empties)
    return PART + sum(times * (LINE + (GROWTH ** count if count <= most else 0)) for count, times in lines.items())


class Part(NamedTuple):
    number: int  # from 0
    start: int  # its offset in bytes
    size: int  # in bytes
    first: int  # the number of its first line, from 1
    lines: int
    printed: int  # how many lines the program prints for it
    most: int  # the greatest number of empty squares
    digest: str  # see `digest_of`
    weight: float  # the expected work

    def __str__(self) -> str:
        return f"part {self.number:07d} (lines {self.first} to {self.first + self.lines - 1})"


def cut(file: BinaryIO, name: str, task: Task) -> Iterator[Part]:
    """Yields the parts of a list. Refuses a file that is no text. Warns of a side such as `blanc`, once."""
    start, first, is_warned, limit = 0, 1, False, task["options"]["--max-empties"]
    for number, lines in enumerate(parts_of(text_lines(file, name, may_have_nul=True), task["lines"])):
        text = b"".join(lines)
        fronts = FRONT.findall(text)
        if not is_warned and max(map(len, fronts), default=0) > 64 and (side := SIDE.search(text)):
            say(f"{name} line {first + text[:side.start()].count(10)}: {side_as_read(side[1])}")
            is_warned = True
        empties = empties_of(fronts) or [0]
        printed = len(fronts) + 2 if task["program"] == "ffosolve" else len(lines)
        yield Part(number, start, len(text), first, len(lines), printed, max(empties),
                   digest_of(task, text, max(empties)), weight_of(empties, limit))
        start, first = start + len(text), first + len(lines)


def inspect(folder: Path) -> None:
    """Refuses a folder that has files but no LOCK or task, or that another user, except root, owns or may write."""
    place = opened(folder)
    found = sorted(os.listdir(place))
    for name in "", *sorted({*found} - {"results"}):  # which may be shared
        with contextlib.suppress(FileNotFoundError):  # which a run that works is writing
            about, path = os.stat(place / name, follow_symlinks=not name), folder / name
            if about.st_uid not in (0, os.geteuid()):
                raise Refusal(f"{shown(path)} belongs to another user: name another folder", MISUSED)
            if about.st_mode & 0o022 and not stat.S_ISLNK(about.st_mode):
                raise Refusal(f"other users may write {shown(path)}: name another folder, or type chmod go-w "
                              f"{typed(path)}", MISUSED)
    if found and LOCK not in found and not read_task(place):
        raise Refusal(f"{shown(folder)} has files that are not ffosolve-many's, or those of an earlier version, such as"
                      f" {shown(found[0])}: name a new or an empty folder", MISUSED)


def lock(folder: Path) -> Path:
    """Makes a folder if needed, and locks it. Returns it as `opened`. Refuses what `inspect` refuses."""
    folder.mkdir(0o755, parents=True, exist_ok=True)
    inspect(folder)
    place = opened(folder)
    if os.access(place, os.W_OK):  # otherwise, no run can change anything there
        lock_file(os.open(place / LOCK, os.O_RDWR | os.O_CREAT, 0o644), folder, "run")
    return place


class Run:
    """A list that is solved in a folder, in `parts`: see `cut`."""

    def __init__(self, folder: Path, task: Task, source: Path, name: str, files: Files, is_remote: bool) -> None:
        """Begins or continues a run. `files` are the programs and any --book-in. `is_remote`: other machines solve the
        list; then, if no program works from the folder (such as one mounted noexec), memory holds the files."""
        self.folder, self.task, self.name = folder, task, name
        self.statuses: Dict[str, int] = {}  # the program's, for each solved part's digest
        with refusing("read", name), source.open("rb") as file:
            self.parts = [*cut(file, name, task)]
        self.count = sum(part.lines for part in self.parts)
        with refusing("write", folder):
            self.place = lock(folder)
            contents = {name: content for name, (content, _) in files.items()}
            task.update(parts=len(self.parts), files={name: sha256(content) for name, content in contents.items()},
                        known=read_task(self.place).get("known", {}))
            for part in self.unsolved():
                self.check(part, content_of(self.path(part)))
            code = Path(__file__).with_name("solve.py").read_bytes()
            self.pack = Pack(code.decode(), task, {}, self.place)
            try:
                (self.place / "results").mkdir(0o755, exist_ok=True)
                path = self.place / "list"
                if not (path.is_file() and filecmp.cmp(path, source, shallow=False)):
                    with source.open("rb") as file:
                        write_whole({str(path): file}, replaces=True, mode=os.fstat(file.fileno()).st_mode & 0o644)
                self.keep_files({**files, "solve.py": (code, 0o666)})
                if is_remote and self.pack.test():
                    self.pack = Pack(code.decode(), task, contents, self.place)
                self.test()
                self.keep_files({"task": (sealed(FORM, json.dumps(task, indent=1).encode()), 0o666)})
            except OSError:  # such as on a full disk, which does not matter if all parts are solved
                if self.unsolved():
                    raise

    def keep_files(self, files: Files) -> None:
        """Writes files of the folder, which no other user may write, unless they are there."""
        for name, (content, mode) in files.items():
            if content_of(self.place / name) != content:
                write_whole({str(self.place / name): [content]}, replaces=True, mode=mode & 0o755)

    def test(self, is_due: bool = False) -> None:
        """Refuses if no program works on this machine, which is found out at first, and again if a test `is_due`."""
        if fault := self.pack.test(is_due):
            raise Refusal(f"on this machine {fault}", MISSING)

    def path(self, part: Part) -> Path:
        return self.place / "results" / part.digest

    def text(self, part: Part) -> bytes:
        with refusing("read", self.folder / "list"), (self.place / "list").open("rb") as file:
            file.seek(part.start)
            return file.read(part.size)

    @property
    def solved_count(self) -> int:
        return len(self.parts) - len(self.unsolved())

    def unsolved(self) -> List[Part]:
        return [part for part in self.parts if part.digest not in self.statuses]

    def check(self, part: Part, record: bytes) -> Optional[Solved]:
        """Notes and returns the results in a record of a part, or returns None if they are damaged or not complete."""
        found = read_record(part.digest, record)
        wanted = part.printed, self.task["program"] == "ffosolve"
        if not found or (found.output.count(b"\n"), bool(found.book)) != wanted:
            return None
        self.statuses[part.digest] = found.status
        return found

    def keep(self, part: Part, record: bytes, why: str) -> Tuple[Optional[Solved], str]:
        """Stores a complete record of a part. Returns its results; or None and a reason, `why` if there is one."""
        if found := self.check(part, record):
            with refusing("write", self.folder / "results" / part.digest):
                mode = (self.place / "list").stat().st_mode & 0o666
                write_whole({str(self.path(part)): [record]}, True, mode, is_synced=found.seconds >= SYNCED_SECONDS)
        return found, "" if found else why or "its results are not complete"

    def solve(self, part: Part) -> Tuple[Optional[Solved], str]:
        """Solves a part on this machine. Returns its results, or None and the reason; then a known line is tested."""
        self.test()
        found, why = self.keep(part, *self.pack.solve(self.pack.program, self.text(part), part.most))
        if not found:
            self.test(is_due=True)
        return found, why

    def solved(self) -> Iterator[Tuple[Part, Solved]]:
        """Yields each part and its results. Solves it again if its record has been damaged or removed meanwhile."""
        for part in self.parts:
            found, why = self.check(part, content_of(self.path(part))), ""
            if not found:
                found, why = self.solve(part)
            if not found:
                raise Refusal(f"{part} was changed meanwhile, and can't be solved again: {why}")
            yield part, found

    def output(self) -> Iterator[bytes]:
        """Yields, in pieces, what the program would print if it solved the whole list at once."""
        if self.task["program"] == "ffoscores":
            yield from (found.output for _, found in self.solved())
            return
        count = refused = 0
        yield b"[1]\n"
        for part, found in self.solved():
            rows = [row.partition(b" ") for row in found.output.split(b"\n")[1:-2]]
            count, refused = count + len(rows), refused + int(found.output.rpartition(b" ")[2])
            yield b"".join([b"%d %b\n" % (part.first - 1 + int(number), rest) for number, _, rest in rows])
        yield b"solved %d refused %d\n" % (count - refused, refused)

    def clean(self, prunes: bool) -> None:
        """Removes what killed processes were writing, if possible. If this `prunes`, also results that are not its."""
        with contextlib.nullcontext() if prunes else contextlib.suppress(OSError):
            for path in [*self.place.glob("*.????????.new"), *(self.place / "results").glob("?" * 64 + "*")]:
                if path.name.endswith(".new") or prunes and path.name not in self.statuses and len(path.name) == 64:
                    path.unlink()
