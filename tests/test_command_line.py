"""ffosolve and ffoscores: --help, --version, --progress, refused words, and a full or closed output. Of all four
programs: the exit statuses."""
import re

import pytest

from tests.prefix import VERSION
from tests.support import MOST_BYTES, ROOT, SECONDS, built, ends, positions, run, write
from ffosolve import MOST_ENTRIES

PROGRAMS = ("ffosolve", "ffoscores")
PROGRESS = re.compile(rb"ffosolve: solved (\d+) of (\d+) in (\d+) s\r?\n")

# (command line, refused word)
REFUSED = [
    ("--best", "--best"), ("-x", "-x"), ("-xh", "-x"), ("--TABLE", "--TABLE"), ("--tabel", "--tabel"),
    ("--max", "--max"), ("--helpp", "--helpp"), ("a --best", "--best"), ("--table x --best", "--best"),
    ("--help=3", "3"), ("--version=1", "1"), ("--complete=1", "1"), ("--table", "--table"), ("--table -- 5", "--table"),
    ("--max-empties", "--max-empties"), ("--scoring", "--scoring"), ("--scoring=", "--scoring"),
    ("--scoring best", "best"), ("--scoring=sig", "sig"), ("--table=", ""), ("--table x", "x"),
    ("--table x --help", "x"), ("--table=-3", "-3"), (f"--table {MOST_ENTRIES + 1}", f"{MOST_ENTRIES + 1}"),
    ("--max-empties=61", "61"), ("--workers 65", "65"), ("--table 5 --table 6", "--table"),
    ("--complete --complete", "--complete"), ("--scoring discs --scoring best", "--scoring"),
]
REFUSED_BY_ONE = {
    "ffosolve": [("--book-in", "--book-in"), ("--book-out --help", "--book-out"), ("--progress=1", "1")],
    "ffoscores": [(f"{word} 2", word) for word in ("--book-in", "--book-out", "--progress")],
}


@pytest.fixture
def pipe(start):
    """An input that stays empty and open: a program that reads it does not end."""
    return start("sleep", SECONDS).stdout


@pytest.mark.parametrize("name", PROGRAMS)
def test_a_wrong_command_line_is_refused_and_the_word_is_named(pipe, name):
    for line, word in REFUSED + REFUSED_BY_ONE[name]:
        ran = run(built(name), *line.split(), stdin=pipe, text=True)
        assert (ran.returncode, ran.stdout) == (2, ""), line
        assert re.search(f"'{re.escape(word)}('| <)", ran.stderr.split("\n")[0]), (line, ran.stderr)
    ends((2, "", f"{name}: cannot read the command line\n"), built(name), b"\xff.obf", stdin=pipe)


@pytest.mark.parametrize("name", PROGRAMS)
def test_help_and_version_are_printed_whatever_follows_and_the_help_names_the_limits(pipe, name):
    text = run(built(name), "--help", text=True).stdout
    assert f"\n\nUsage: {name} [OPTIONS] [FILES]...\n" in text
    for line in ("--help", "-h", "-hx", "--help --best", "none.obf -h"):
        ends((0, text, ""), built(name), *line.split(), stdin=pipe)
    for line in ("--version", "-V", "-Vx", "--table 5 --version", "--max-empties=60 --workers=64 --version"):
        ends((0, f"{name} {VERSION}\n", ""), built(name), *line.split(), stdin=pipe)
    text = " ".join(text.split())
    assert re.findall(r"--(\S+) <N> [^<]*?\b0 to (\d+)", text) == [("max-empties", "60"), ("workers", "64")]
    assert set(re.findall(r"(?:files, at most|more than) (\d+)", text)) == {"64"}
    assert set(re.findall(r"(\d+) MiB", text)) == {"1"}


@pytest.mark.parametrize("names, what, words", (
    ("ffosolve", "all reports were printed", "right"),
    ("ffosolve", "--help", "--help"),
    ("ffosolve", "a file larger than 1 MiB", "large"),
    ("ffosolve", "a file or a stream can't be read", "none.obf"),
    ("ffosolve", "the book of --book-in is refused", "--book-in wrong right"),
    ("ffosolve", "--book-out would overwrite another file", "--book-out wrong right"),
    ("ffosolve ffoscores", "more than 64 files", "right " * 65),
    ("ffosolve ffoscores ffosolve-many ffosolve-games", "the command line is refused", "--best"),
    ("ffoscores", "no line is refused and there is no remark", "right"),
    ("ffoscores", "--version", "--version"),
    ("ffoscores", "a line is refused", "wrong"),
    ("ffoscores", "a file that can't be read", "none.obf"),
    ("ffoscores", "is larger than 1 MiB", "large"),
    ("ffosolve-many", "done", "--quiet right"),
    ("ffosolve-many", "there is a remark or a refused line", "--quiet --scores wrong"),
    ("ffosolve-many ffosolve-games", "a file can't be read", "none.obf"),
    ("ffosolve-games", "done", "--empties=9 right"),
    ("ffosolve-games", "a game is refused", "--empties=9 wrong"),
    ("ffosolve-games", "--empties is missing", "wrong"),
))
def test_help_has_the_status_of_each_end(folder, names, what, words):
    write("right", b"")
    write("wrong", b"?\n")
    write("large", b" " * (MOST_BYTES + 1))
    for name in names.split():
        program = built(name) if name in PROGRAMS else ROOT / "bin" / name
        listed = re.split(r"\n(?:Exit )?status:\n", run(program, "--help", text=True).stdout)[1].partition("\n\n")[0]
        rows = [" ".join(row.split()) for row in re.split(r"\n(?=  \d)", listed)]
        assert [int(row[0]) for row in rows if what in row] == [run(program, *words.split()).returncode], name


@pytest.mark.parametrize("name, list_", zip(PROGRAMS, ("/dev/null", ROOT / "examples/kinds.obf")))
def test_a_full_or_closed_output_is_reported_even_for_an_empty_list(folder, name, list_):
    for word in ("--help", "--version", list_):
        for output in (">/dev/full", ">&-"):
            wanted = (3, "", f"{name}: cannot write standard output\n")
            ends(wanted, "sh", "-c", f'exec "$0" "$1" {output}', built(name), word)


@pytest.mark.parametrize("log", (True, False))
def test_counts_rise_five_seconds_apart_in_a_log_and_on_a_terminal(folder, start, log):
    write("long", positions(500, 18, 18))  # which takes minutes
    solver = f"exec {built()} --progress --workers 1 long >/dev/null"
    stream = start("sh", "-c", solver).stderr if log else start("script", "-qec", solver, "/dev/null").stdout
    text = b"".join(stream.readline() for _ in range(3))
    assert re.fullmatch(rb"(%s){3}" % PROGRESS.pattern, text)
    (one, two, three), counts, at = zip(*(map(int, line) for line in PROGRESS.findall(text)))
    assert 0 < one < two < three < 500 and set(counts) == {500}, text
    assert 5 <= at[0] and at[0] + 4 < at[1] and at[1] + 4 < at[2], text


@pytest.mark.parametrize("files, count", ((["short"], b"20"), (["short", "short"], b"40")))
def test_the_report_is_the_same_even_if_standard_error_fails_and_the_last_line_counts_all(folder, files, count):
    write("short", positions(20, 10, 10) + b"% comment\n-\n")  # of which one line is refused
    plain = run(built(), *files, check=True)
    ran = run(built(), "--progress", *files, check=True)
    assert (plain.stdout, plain.stderr) == (ran.stdout, b"")
    assert [line[:2] for line in PROGRESS.findall(ran.stderr)][-1:] == [(count, count)]
    assert PROGRESS.sub(b"", ran.stderr) == b""
    for errors in ("2>/dev/full", "2>&-"):
        ends((0, plain.stdout, b""), "sh", "-c", f'exec "$0" --progress "$@" {errors}', built(), *files)
