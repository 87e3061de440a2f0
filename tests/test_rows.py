"""Output worked out from the rules, books that are read or refused, and files and streams that end or fail.

In the tables of tests/rows/PROGRAM, a row's last cell is a line of a list. Each other cell is what PROGRAM prints for
that line, without the line's number, with the options that head the column. `read` is for test_library.py."""
import os
import re
from pathlib import Path

import pytest

from tests.support import MOST_BYTES, ROOT, SECONDS, built, ends, limited, outcome, run, stored, worked_rows, write
from ffosolve import MOST_ENTRIES

pytestmark = pytest.mark.usefixtures("folder")
LINES = worked_rows("ffosolve/positions")[0]
LIST = b"\n".join(LINES)
PROGRAMS = {"ffosolve": 1, "ffoscores": 3}  # and the status of each if files are too many or too large
NOTHING = b"[1]\nsolved 0 refused 0\n"
SEVEN = b"X" * 56
LEFT, LAST = SEVEN + b"XOOOOO-- X; G8:+64;\n", SEVEN + b"XOOOOOO- X; H8:+64;\n"
EQUAL = SEVEN + b"-OOXXOO- X; A8:+64; H8:+64;\n"
# {error that ffosolve reports: texts of books}; the texts under "" are books without an error.
BOOKS = {
    "": (b"", b"% ffobook 2 winner\n", b"% ffobook 2 discs\r\n", b"% ffobook 2 sign", b" % ffobook 2 sign",
         b"% ffobook", b"%ffobook 2 sign", b"\n% ffobook 2 sign\n", b"% ffobook 2 sign\n% ffobook 3 x\n",
         LEFT + LAST + EQUAL, *((LEFT + LAST + EQUAL)[:size] for size in (233, 236)),
         *(LEFT[:size] for size in range(73, 77))),
    "1: unknown header": (b"% ffobook 3 winner\n", b"% ffobook 2 winner \n?", b"% ffobook 2 win", b"% ffobook "),
    "1: bad square at column 1": (b"\xef", b"\0", b"?\n" + SEVEN + b"XOOOOO-- X;\n?"),
    "2: not in order": (LAST + LEFT + EQUAL, LAST + LAST),
    "3: not in order": (b"% ffobook 2 winner\n" + LAST + LEFT + EQUAL,),
    "1: not canonical": (b"-OXXXXX-XXXXXXXO" + b"X" * 19 + b"O" + b"X" * 28 + b" X; H1:+62;",
                         SEVEN + b"XOOOOO-- O; G8:+64;\n"),
    "1: no moves": (SEVEN + b"XOOOOO-- X;\n?", *(LEFT[:size] for size in range(66, 73))),
    "3: no moves": (b"\n% x\n" + SEVEN + b"XOOOOO-- X; G9:+64;",),
    "1: board has 1 of 64 squares": (LEFT[:1],),
    "1: board has 63 of 64 squares": (LEFT[:63],),
    "1: bad side at column 65": (LEFT[:64],),
    "1: bad side at column 66": (LEFT[:65],),
    "2: board has 1 of 64 squares": (LEFT + b"X",),
}
KINDS, SCORES = stored("examples", "kinds.obf"), stored("examples", "kinds.scores")
TWO = KINDS.split(b"\n")[1] + b"\n"  # a position with two empty squares, and the right scores of both moves
SOLVED = SCORES.split(b"\n")[1] + b"\n"
BOARD = TWO[:66]


def whole_lines(lines):
    return b"".join(line + b"\n" for line in lines)


def report(cells):
    """Returns the report of ffosolve with a row for each cell that is not empty: its number, from 1, and the cell."""
    rows = [b"%d %s" % row for row in enumerate(cells, 1) if row[1]]
    refused = sum(b" refused: " in row for row in rows)
    return whole_lines([b"[1]", *rows, b"solved %d refused %d" % (len(rows) - refused, refused)])


@pytest.mark.parametrize("name, status, printed", (("ffosolve", 0, report), ("ffoscores", 1, whole_lines)))
def test_programs_print_the_worked_rows(name, status, printed):
    tables = [f"{name}/{path.stem}" for path in ROOT.glob(f"tests/rows/{name}/*.tsv")]
    assert tables
    for table in tables:
        lines, columns = worked_rows(table)
        for words in columns.keys() - {"read"}:
            wanted = (status, printed(columns[words]), b"")
            for text in (b"\n".join(lines), whole_lines(lines)):
                ends(wanted, built(name), "--max-empties", "20", *words.split(), input=text)


def reads(text, error):
    """Asserts that ffosolve reads text as a book or, unless `error` is empty, reports `book line ` and `error`."""
    Path("it.book").write_bytes(text)
    wanted = (3, b"", f"ffosolve: book line {error}\n".encode()) if error else (0, NOTHING, b"")
    ends(wanted, built(), "--book-in", "it.book")


@pytest.mark.parametrize("error", BOOKS)
def test_a_book_is_read_or_its_first_fault_is_reported(error):
    for text in BOOKS[error]:
        reads(text, error)


@pytest.mark.parametrize("line, error", (
    (LEFT, ""), (LEFT[:63], "board has 63 of 64 squares"), (LEFT[:64], "bad side at column 65"),
    (LEFT[:66] + b"\n", "no moves"), (LEFT[:66] + b"; G8:+6x", "no moves"), (b"%" + LEFT, ""),
))
def test_a_line_across_the_first_65536_bytes_is_judged_as_a_whole(line, error):
    for size in range(1, len(line) + 1):
        reads(b"%" * (65_536 - size - 1) + b"\n" + line, error and f"2: {error}")


def test_a_terminal_is_refused_as_a_book():
    numbers = os.openpty()
    name = os.ttyname(numbers[1])
    error = f"ffosolve: cannot read {name}\nffosolve: it is neither a file nor a pipe\n"
    ends((3, "", error), built(), "--book-in", name)
    for number in numbers:
        os.close(number)


@pytest.mark.parametrize("lines, error", (
    ("yes ?", "1: bad square at column 1"),
    ("yes ? | tr -d '\\n'", "1: bad square at column 1"),
    ("(echo '% ffobook 3 winner'; yes %)", "1: unknown header"),
    (f"(echo; yes '{'X' * 64}')", "2: bad side at column 65"),
    (f"(printf {'X' * 64}; yes ? | tr -d '\\n')", "1: bad side at column 65"),
    (f"(printf '%%\\n{'X' * 64}\\r'; yes ? | tr -d '\\n')", "2: bad side at column 65"),
))
def test_the_first_fault_of_an_endless_pipe_is_refused(lines, error):
    words = f"{lines} 2>/dev/null | (ulimit -v 1000000; exec '{built()}' --book-in /dev/stdin)"
    ends((3, "", f"ffosolve: book line {error}\n"), "sh", "-c", words)


def test_the_largest_file_and_64_files_are_read_but_not_65():
    write("blank", b" " * MOST_BYTES)
    write("over", LINES[0])
    rows = b"".join(b"[%d]\n1 -64 -- unlisted\nsolved 1 refused 0\n" % (number + 1) for number in range(64))
    scores = whole_lines([LINES[0][:66] + b"; --:-64;"] * 64)
    for name, of_blank, of_64 in (("ffosolve", NOTHING, rows), ("ffoscores", b" " * MOST_BYTES + b"\n", scores)):
        ends((0, of_blank, b""), built(name), "blank")
        ends((0, of_64, b""), built(name), *["over"] * 64)
        ends((PROGRAMS[name], "", f"{name}: more than 64 files\n"), built(name), *["over"] * 65)
    ends((0, b"[1]\n1 +64 -- unlisted\nsolved 1 refused 0\n", b""), built(), input=b"X" * MOST_BYTES)


@pytest.mark.parametrize("names, words, why", (
    ("ffosolve ffoscores", "", "cannot read standard input"),
    ("ffosolve ffoscores", "list .", "cannot read .\n{name}: it is a folder"),
    ("ffosolve ffoscores", "list none.obf", "cannot read none.obf"),
    ("ffosolve ffoscores", "list none.obf none", "cannot read none.obf"),
    *(("ffosolve ffoscores", f"-- {word}", f"cannot read {word}") for word in ("--best", "-x", "--help")),
    ("ffosolve", "--book-in . list", "cannot read .\n{name}: it is a folder"),
    ("ffosolve", "--book-in none.book none.obf", "cannot read none.book"),
    ("ffosolve", "--book-in bad.book none.obf", "book line 1: bad square at column 1"),
    ("ffosolve", "--book-in large.book none.obf", "book line 2: bad square at column 1"),
    ("ffoscores", "list large none.obf", "cannot read none.obf"),
    ("ffoscores", "list large list large", f"file 2 is larger than {MOST_BYTES} bytes"),
    ("ffoscores", "list " * 65, "more than 64 files"),
    ("ffoscores", "list " * 65 + "none.obf", "cannot read none.obf"),
))
def test_an_error_in_any_file_is_reported_before_anything_is_printed(names, words, why):
    """ffosolve reads a book before any list; ffoscores reads all lists, then checks their sizes and number."""
    write("list", TWO)
    write("large", b" " * (MOST_BYTES + 1))
    write("bad.book", b"?\n")
    write("large.book", b" " * (MOST_BYTES + 1) + b"\n?")
    folder = os.open(".", os.O_RDONLY)
    for name in names.split():
        ends((3, "", f"{name}: {why.format(name=name)}\n"), built(name), *words.split(), stdin=folder)
    os.close(folder)


def test_a_too_large_file_is_read_only_to_one_byte_past_the_limit_and_refused_even_if_nothing_can_be_reported():
    with open("large.obf", "wb") as large:
        large.truncate(256 << 20)
    for name, status in PROGRAMS.items():
        wanted = (status, "", f"{name}: file 1 is larger than {MOST_BYTES} bytes\n")
        ends(wanted, built(name), "large.obf", preexec_fn=limited(RLIMIT_AS=64 << 20))
        ends(wanted, built(name), input=" " * (MOST_BYTES + 1))
        with open("large.obf", "rb") as large:
            ends(wanted, built(name), stdin=large)
            assert os.lseek(large.fileno(), 0, os.SEEK_CUR) == MOST_BYTES + 1
        with open("/dev/full", "wb") as full:
            ends((status, "", None), built(name), "large.obf", stderr=full)


@pytest.mark.parametrize("name, words", (("ffosolve", ["--book-out", "it.book"]), ("ffoscores", []),
                                         ("ffosolve", ["--help"])))
def test_an_output_that_fails_in_the_middle_is_reported_and_no_book_is_written(name, words):
    _, whole, *_ = outcome(built(name), *words, input=LIST)
    for size in [*range(0, len(whole), 7), len(whole) - 1]:
        with open("out", "wb") as out:
            wanted = (3, None, f"{name}: cannot write standard output\n".encode())
            ends(wanted, built(name), *words, input=LIST, stdout=out, preexec_fn=limited(RLIMIT_FSIZE=size))
        assert Path("out").read_bytes() == whole[:size]
        assert not Path("it.book").exists()


def test_each_line_is_printed_as_one_line_that_ends_with_lf():
    unlisted, columns = worked_rows("ffoscores/unlisted")
    rows = [("", *row) for row in zip(KINDS.splitlines(), SCORES.splitlines(), strict=True)]
    rows += [(words, *row) for words, cells in columns.items() for row in zip(unlisted, cells)]
    for words, line, printed in rows:
        is_wrong = re.search(rb"^% refused: |; % (not read: |best move |\S+ is )", printed) is not None
        for end in (b"\n", b"\r\n", b""):
            wanted = (int(is_wrong), printed + b"\n" if line + end else b"", b"")
            ends(wanted, built("ffoscores"), *words.split(), input=line + end)
    names = "rows.obf", ROOT / "examples/kinds.obf", "rows.obf"
    write("rows.obf", b"\n".join(unlisted))
    rows = whole_lines(columns["--scoring winner --complete"])
    for words in ("--workers 0", "--workers=3", "--table 0"):
        ends((1, rows + SCORES + rows, b""), built("ffoscores"), "--complete", *words.split(), *names)


def test_ffoscores_does_not_change_its_own_output_and_ffosolve_agrees_with_it():
    tables = [worked_rows(f"ffoscores/{name}")[1]["--scoring winner"] for name in ("unlisted", "remarks")]
    for text in (SCORES, *(whole_lines(cells).replace(b"\r\n", b"\n") for cells in tables)):
        ends((0, text, b""), built("ffoscores"), input=text)
    rows = run(built(), input=SCORES, check=True).stdout.splitlines()[1:-1]
    assert [row.split()[-1] for row in rows] == [b"agree"] * 8


def test_files_and_odd_texts_are_printed_again_and_options_set_the_limit_the_table_and_the_scoring():
    write("kinds.obf", KINDS)
    over, scored = (text.split(b"\n")[6] for text in (KINDS, SCORES))
    whole, wrong = MOST_BYTES // len(TWO), b"% refused: bad square at column 1: "
    for words, status, printed, text in (
        ("", 1, SCORES, KINDS),
        ("kinds.obf", 1, SCORES, b""),
        ("./kinds.obf --table=65536 --scoring winner", 1, SCORES, b""),
        ("-- kinds.obf kinds.obf", 1, SCORES * 2, b"X"),
        ("/dev/stdin", 1, SCORES, KINDS),
        ("", 0, b"", b""),
        ("", 0, b"\n", b"\n"),
        ("", 0, b"%\n", b"%"),
        ("", 1, wrong + b"\xff\0\n", b"\xff\0"),
        ("", 1, SOLVED[:83] + b" % not read: \0, not read: \xff\xfe %\xff\n", BOARD + b"; \0 ;;\xff\xfe ;%\xff"),
        ("", 1, wrong + b"\0" * MOST_BYTES + b"\n", b"\0" * MOST_BYTES),
        ("", 0, SOLVED * whole, TWO * whole),
        ("--max-empties=2", 0, SOLVED, TWO),
        ("--max-empties=1", 1, b"% refused: 2 empties, limit 1: " + TWO, TWO),
        ("--table 0", 1, SCORES, KINDS),
        ("--table 1", 1, SCORES, KINDS),
        (f"--table {MOST_ENTRIES}", 1, SCORES, KINDS),
        ("--scoring=discs", 1, b"%s X; --:+16; %% --:+32 is +16%s\n" % (over[:64], scored[75:]), over + b"\n"),
        ("--scoring sign", 1, BOARD + b"; A1:+01; H1:+01; % H1:+62 is +01, A1:+52 is +01 % listed right\n", TWO),
    ):
        ends((status, printed, b""), built("ffoscores"), *words.split(), input=text)
    ends((0, report([b"refused: 2 empties, limit 1"]), b""), built(), "--max-empties", "1", input=TWO)


def test_position_40_of_the_ffo_test_has_the_published_best_move_alone():
    line = next(line for line in stored("examples", "ffo-40-58.obf").splitlines() if b"% 40" in line)
    for entries in (65_536, 4_000_000):
        ends((0, b"[1]\n1 +38 A2 agree\nsolved 1 refused 0\n", b""), built(), "--table", entries, input=line,
             timeout=5 * SECONDS)
    board, comment = re.escape(line[:66]), re.escape(line[line.index(b" % 40"):])
    ran = run(built("ffoscores"), input=line, timeout=5 * SECONDS)  # for a busy machine
    assert (ran.returncode, ran.stderr) == (0, b"")
    moves = rb"; A2:\+38; [A-H][1-8]:(...);( [A-H][1-8]:[+-]\d\d;){8,}"
    found = re.fullmatch(board + moves + comment + b"\n", ran.stdout)
    assert found and int(found[1]) < 38, ran.stdout
