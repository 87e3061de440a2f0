"""ffosolve --book-out: where it writes, that a book is written whole or not at all, and that no other file is lost."""
import os
import shutil
import socket
import stat
from pathlib import Path

import pytest

from tests.support import (MOST_BYTES, NOBODY, SECONDS, built, ends, limited, positions, preload, run, stored,
                           unshared, write)

pytestmark = pytest.mark.usefixtures("folder")
TEXT, REPORT, BOOK = (stored("examples", f"first.{end}") for end in ("obf", "report", "book"))
OLD = BOOK + b"% an old book, longer than the new one\n" * 99
NOTES = b"notes, not a book\n"
DONE = (0, REPORT, b"")
NO_BOOK = (3, b"", b"ffosolve: it.book is not a book and would be overwritten\n")
DENIED, IN_THE_WAY = "permission denied", "another file is in the way"


@pytest.fixture(scope="module", autouse=True)
def program(shared_folder):
    """Sets PROGRAM, a copy of ffosolve, since the checkout may be closed to NOBODY."""
    global PROGRAM
    PROGRAM = shutil.copy(built(), shared_folder)


def unwritten(cause, name="it.book", report=b""):
    """Makes the (status, output, error) that a run has to end with if it can't write the book `name`: the error is a
    line with the name and, unless `cause` is empty, one with the cause; the output is `report`."""
    return 3, report, "".join(f"ffosolve: {line}\n" for line in (f"cannot write {name}", cause) if line).encode()


def content(path):
    """Returns the bytes of a file or, for a symbolic link, the path to which the link points."""
    return os.readlink(path) if os.path.islink(path) else Path(path).read_bytes()


def solves(wanted, name="it.book", *words, **how):
    """Runs ffosolve --book-out NAME with `words` and input TEXT; asserts `wanted`, its (status, output, error)."""
    ends(wanted, PROGRAM, "--book-out", name, *words, input=TEXT, **how)


def left(files):
    """Opens the test's folder and files to all, asserts that these are `files`, {name: content}, and removes them."""
    os.chmod(os.getcwd(), 0o755)
    for name in os.listdir():
        os.path.islink(name) or os.chmod(name, 0o644)
    assert {name: content(name) for name in os.listdir()} == files
    for name in files:
        os.remove(name)


def keeps(before, wanted, after={}, mode=0o644, folder_mode=0o755, **how):
    """Makes the files `before`, {name: content, or of a symbolic link its target}. Asserts that ffosolve with
    --book-out it.book ends as `wanted`, and that the folder then has these files, but the contents `after`."""
    for name, text in before.items():
        os.symlink(text, name) if isinstance(text, str) else write(name, text, mode)
    os.chmod(".", folder_mode)
    solves(wanted, **how)
    left({**before, **after})


@pytest.mark.parametrize("scoring, score", (("discs", "+63"), ("winner", "+64"), ("sign", "+01")))
def test_a_book_has_the_scoring_of_its_run_and_not_that_of_the_book_that_is_read(scoring, score):
    write("read.book", BOOK)
    words = ("--scoring", scoring, "--book-in", "read.book", "--book-out", "it.book", "--workers", "64")
    run(PROGRAM, *words, input=b"--OOOOO" + b"X" * 57 + b" X\n", check=True)
    book = f"% ffobook 2 {scoring}\n{'X' * 57}OOOOO-- X; G8:{score};\n"
    left({"it.book": book.encode(), "read.book": BOOK})


def test_a_thousand_positions_are_written_and_read_again():
    write("list", positions(1000, 3, 6))
    run(PROGRAM, "--book-out", "it.book", "list", check=True)
    assert len(content("it.book").splitlines()) == 1 + 1000
    run(PROGRAM, "--book-in", "it.book", "--book-out", "again.book", "list", check=True)
    assert content("again.book") == content("it.book")


def test_a_new_file_with_the_old_permissions_replaces_the_old_book():
    write("it.book", OLD, 0o640)
    os.link("it.book", "twin.book")
    solves(DONE)
    assert stat.S_IMODE(os.lstat("it.book").st_mode) == 0o640
    left({"it.book": BOOK, "twin.book": OLD})


OVER, LINKED = {"it.book": OLD}, {"there": OLD, "it.book": "there"}


@pytest.mark.parametrize("before, folder_mode, mode, wanted, after", (
    (OVER, 0o555, 0o666, unwritten(DENIED), {}),
    (OVER, 0o777, 0o444, unwritten(DENIED), {}),
    (LINKED, 0o777, 0o444, unwritten(DENIED), {}),
    # A file that can't be read might not be a book.
    (OVER, 0o777, 0o222, (3, b"", b"ffosolve: cannot read it.book\nffosolve: permission denied\n"), {}),
    # Only the file's owner may replace it.
    (OVER, 0o1777, 0o666, *((unwritten(DENIED, report=REPORT), {}) if NOBODY else (DONE, {"it.book": BOOK}))),
))
def test_a_place_without_permission_is_refused(before, folder_mode, mode, wanted, after):
    keeps(before, wanted, after, mode, folder_mode, **NOBODY)


def test_a_book_is_on_the_disk_before_it_replaces_the_old_one_which_a_full_or_broken_disk_keeps(shared_folder):
    for how, cause in (({"preexec_fn": limited(RLIMIT_FSIZE=100)}, "the file would be too large"),
                       ({"env": preload(shared_folder, NO_SYNC="yes")}, "")):
        for before in (OVER, {}):
            keeps(before, unwritten(cause, report=REPORT), **how)
    for _ in range(2):
        solves((0, REPORT, b"sync rename "), env=preload(shared_folder, WATCHED="yes"))


def test_other_files_with_the_names_of_temporary_files_are_left_alone():
    names = ["it.book.part", *(f"it.book.{number}.part" for number in range(100))]
    for others, wanted, book in ((names, unwritten(IN_THE_WAY), OLD), (names[:-1], DONE, BOOK)):
        keeps({**OVER, **dict.fromkeys(others, b"of another")}, wanted, {"it.book": book})


@pytest.mark.parametrize("before, new, closed, mode, cause", (
    (OVER, {"it.book": NOTES}, "it.book", 0o666, IN_THE_WAY), (OVER, {"it.book": BOOK}, "it.book", 0o444, DENIED),
    (OVER, {"it.book": OLD}, "it.book", 0o222, DENIED),
    (OVER, {"it.book.0.part": NOTES}, "it.book.0.part", 0o666, IN_THE_WAY),
    (OVER, {}, ".", 0, DENIED), ({}, {}, ".", 0, DENIED),
))
def test_what_is_there_stays_if_a_file_appears_or_the_folder_is_closed_during_the_run(
        start, before, new, closed, mode, cause):
    before = {"list": TEXT * 2000, **before}  # the report is more than a pipe holds
    os.chmod(".", 0o777)
    for name, text in before.items():
        write(name, text, 0o666)
    program = start(PROGRAM, "--book-out", "it.book", "list", **NOBODY)
    first = program.stdout.read(1)
    for name, text in new.items():
        write(name, text)
    os.chmod(closed, mode)
    report, error = program.communicate(timeout=SECONDS)
    assert (first, report[-3:]) == (b"[", b" 0\n")
    assert (program.returncode, b"", error) == unwritten(cause)
    left({**before, **new})


@pytest.mark.parametrize("linked, words", (("list", ("list",)), ("read", ("--book-in", "read", "long"))))
def test_what_is_read_stays_if_a_link_to_it_appears_during_the_run_as_the_book(start, linked, words):
    files = {"list": BOOK.splitlines(True)[0] + TEXT * 2000, "long": TEXT * 2000, "read": BOOK}
    for name, text in files.items():
        write(name, text)
    program = start(PROGRAM, "--book-out", "it.book", *words)
    program.stdout.read(1)
    os.symlink(linked, "it.book")
    error = program.communicate(timeout=SECONDS)[1]
    assert (program.returncode, b"", error) == unwritten(IN_THE_WAY)
    left({**files, "it.book": linked})


def test_a_link_to_no_file_stays_and_its_target_is_made():
    keeps({"it.book": "no/there"}, unwritten(""))
    keeps({"it.book": "there"}, DONE, {"there": BOOK})


def test_a_pipe_gets_the_book(start):
    os.mkfifo("it.book")
    os.symlink("it.book", "link.book")
    for name in ("it.book", "link.book"):
        reader = start("cat", "it.book")
        solves(DONE, name)
        assert reader.communicate(timeout=SECONDS)[0] == BOOK
    assert stat.S_ISFIFO(os.lstat("it.book").st_mode) and os.path.islink("link.book")


def test_a_full_device_is_reported_and_another_can_be_both_list_and_book():
    full, empty = unwritten("no space left", "full", REPORT), (0, b"[1]\nsolved 0 refused 0\n", b"")
    for name, number, lists, wanted in (("full", 7, [], full), ("null", 3, ["null"], empty)):
        if os.getuid() == 0:  # root might replace the machine's own device
            os.mknod(name, stat.S_IFCHR | 0o666, os.makedev(1, number))
        else:
            os.symlink(f"/dev/{name}", name)
        solves(wanted, name, *lists)
        assert stat.S_ISCHR(os.stat(name).st_mode)


def test_a_list_that_is_read_is_not_overwritten_under_any_of_its_names():
    for name in ("list", "other"):
        write(name, TEXT)
    os.link("list", "twin")
    os.symlink("list", "link")
    os.symlink("link", "far")
    for name in ("list", "./list", "twin", "link", "far"):
        for lists in (("list",), ("other", "list", "other"), ("far",)):
            solves(unwritten("it is in use", name), name, *lists)
    left({"list": TEXT, "other": TEXT, "twin": TEXT, "link": "list", "far": "link"})


def test_a_list_is_not_overwritten_where_it_is_mounted():
    write("list", TEXT)
    script = """mkdir at; : >it.book; mount --bind . at; mount --bind list it.book
        for name in it.book at/list; do "$0" --book-out $name list || echo $?; done; cat list"""
    error = b"".join(unwritten("it is in use", name)[2] for name in ("it.book", "at/list"))
    ends((0, b"3\n3\n" + TEXT, error), *unshared(), "sh", "-ec", script, PROGRAM)


def test_files_with_one_inode_number_on_two_file_systems_are_two_files():
    write("list", TEXT)
    script = """mkdir one two; mount -t tmpfs none one; mount -t tmpfs none two; cp list one; : >two/it.book
        [ $(stat -c %i one/list) = $(stat -c %i two/it.book) ]
        "$0" --book-out two/it.book one/list >&2; cat two/it.book"""
    ends((0, BOOK, REPORT), *unshared(), "sh", "-ec", script, PROGRAM)


@pytest.mark.parametrize("place, wanted", (
    ("", unwritten("", "")), ("no/it.book", unwritten("", "no/it.book")),
    ("notes/it.book", unwritten("a part of its name is not a folder", "notes/it.book")),
    ("folder", unwritten("it is a folder", "folder")), ("link", unwritten("it is a folder", "link")),
    ("loop", unwritten("too many links lead to it", "loop")), ("socket", unwritten("", "socket")),
    ("b" * 251, unwritten("its name is too long", "b" * 251)),
    ("notes", (3, b"", NO_BOOK[2].replace(b"it.book", b"notes"))),
))
def test_files_are_counted_and_measured_then_the_place_of_the_book_is_tried_then_positions_are_solved(place, wanted):
    write("list", TEXT)
    write("notes", NOTES)
    os.mkdir("folder")
    os.symlink("folder", "link")
    os.symlink("loop", "loop")
    socket.socket(socket.AF_UNIX).bind("socket")
    write("large", b" " * (MOST_BYTES + 1))
    write("long", b"-" * 27 + b"OX" + b"-" * 6 + b"XO" + b"-" * 27 + b" X\n")  # solving it would take too long
    os.mkfifo("pipe")  # reading it would never end
    writer = os.open("pipe", os.O_RDWR)
    solves((1, b"", b"ffosolve: more than 64 files\n"), place, *["list"] * 65, "pipe")
    os.close(writer)
    solves((1, b"", b"ffosolve: file 2 is larger than %d bytes\n" % MOST_BYTES), place, "list", "large")
    solves(wanted, place, "--max-empties", "60", "long")
    assert (content("notes"), os.listdir("folder"), len(os.listdir())) == (NOTES, [], 9)


@pytest.mark.parametrize("before, place", ((OVER, "it.book"), (LINKED, "there")))
def test_only_a_book_or_an_empty_file_is_overwritten(before, place):
    for old in (b"", b"% ffobook 2 sign\n" + 99 * b"% longer than the new one\n"):
        keeps({**before, place: old}, DONE, {place: BOOK})
    for old in (NOTES, TEXT, b"\n", b"% ffobook 3 winner\n", b"% ffobook 2 winners\n", content(PROGRAM)):
        for mode in (0o644, 0o444):
            keeps({**before, place: old}, NO_BOOK, mode=mode)


@pytest.mark.parametrize("old, wanted", ((NOTES, NO_BOOK), (b"", unwritten(IN_THE_WAY))))
def test_the_log_that_standard_output_goes_to_is_not_overwritten(old, wanted):
    os.symlink("/proc/self/fd/1", "it.book")
    write("log", old)
    with open("log", "ab") as log:
        solves((3, None, wanted[2]), stdout=log)
    assert content("log") == (old or REPORT)


def test_the_book_that_is_read_is_not_overwritten_and_can_be_merged_as_the_error_says(install):
    write("it.book", read := b"% ffobook 2 winner\n" + b"X" * 64 + b" X; --:+64;\n")
    os.symlink("it.book", "link")
    os.link("it.book", "twin")
    for name in ("it.book", "./it.book", os.path.abspath("it.book"), "link", "twin"):
        advice = f"write --book-out NEW, then ffosolve-many --merge-books {name} NEW"
        error = f"ffosolve: {name} is read and would be overwritten: {advice}\n".encode()
        for book in ("it.book", "twin"):
            solves((3, b"", error), name, "--book-in", book)
            assert (content("it.book"), len(os.listdir())) == (read, 3)
    solves(DONE, "new", "--book-in", "it.book")
    merged = run(install("plain"), "--merge-books", "it.book", "new", check=True).stdout
    assert set(merged.splitlines()) == set(BOOK.splitlines() + read.splitlines())


def test_two_runs_at_once_leave_one_whole_book(start):
    write("first", TEXT)
    write("other", TEXT.splitlines(keepends=True)[1])
    header, *_, last = BOOK.splitlines(keepends=True)
    for _ in range(20):
        runs = [start(PROGRAM, "--book-out", "it.book", name) for name in ("first", "other")]
        assert {one.wait(timeout=SECONDS) for one in runs} <= {0, 3}
        assert content("it.book") in (BOOK, header + last)
        assert sorted(os.listdir()) == ["first", "it.book", "other"]
