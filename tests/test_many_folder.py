"""ffosolve-many cuts a list into parts, goes on after any interruption, and uses only complete results of a part."""
import ast
import errno
import io
import os
import random
import re
import shutil
import signal
import stat
import sys
import threading
import time
import zlib
from collections import Counter
from pathlib import Path
from unittest import mock

import pytest

from ffosolve._command_line import counted
from ffosolve._many import folder, solve
from tests.many import ACTING, BOARD, INTERRUPTED, WORDS, files
from tests.support import (MOST_BYTES, NOBODY, SECONDS, ends, limited, positions, preload, processes_in, run, unshared,
                           wait_until, write)

SOLVE = (sys.executable, "work/solve.py")


@pytest.mark.parametrize("program, book, whole", [
    ("ffosolve", b"%", b"[1]\n1 +02 A1 agree\nsolved 1 refused 0\n"),
    ("ffoscores", b"", b"A1:+02;\n%\n% blank and comment\n\n% blank\n\r\n")])
def test_results_are_complete_with_a_row_for_each_line_and_on_the_disk_if_they_took_a_second(
        tmp_path, program, book, whole):
    task = {"program": program, "options": {"--max-empties": 20}, "lines": 9}
    text = BOARD + b" X;\n\n%\n \t% X\n\r\n \t\r"
    (part,) = folder.cut(io.BytesIO(text), "list", task)
    one = folder.Run.__new__(folder.Run)
    one.folder, one.place, one.task, one.statuses = tmp_path, tmp_path, task, {}
    write(tmp_path / "list", text)
    (tmp_path / "results").mkdir()
    for output in (whole, whole[:-1], b"", whole + b"\n", whole.partition(b"\n")[2]):
        for seconds in (0.9, 1.0):
            record = solve.sealed(part.digest, b"0 %d %.3f\n" % (len(output), seconds) + output + book)
            with mock.patch.object(os, "fsync") as synced:
                assert bool(one.keep(part, record, "")[0]) == (output == whole)
            assert synced.call_count == (output == whole and seconds == 1)


def test_a_side_that_goes_on_with_letters_is_named_once(capfd):
    task = {"program": "ffosolve", "options": {"--max-empties": 20}, "lines": 1}
    fit = ((side, "", "") for side in (" black;", " WHITE", "XA1:+02;", "ops:-02;", " * blanc"))
    for side, word, colour in ((" blanc;", "blanc", "Black"), ("\tbianco", "bianco", "Black"),
                               ("Weiss % X", "Weiss", "White"), ("OX O;", "OX", "White"), *fit):
        text = f"% {BOARD.decode()} blanc\n\n{BOARD.decode()} X\n  {BOARD.decode()}{side}\n"
        assert len([*folder.cut(io.BytesIO(2 * text.encode()), "list", task)]) == 8
        told = f"ffosolve: list line 4: the side {word} is read as {colour}: only its first letter counts\n"
        assert capfd.readouterr().err == (told if word else "")


def test_the_lock_of_a_run_that_ends_is_waited_for_and_a_folder_that_takes_its_place_is_not_used(tmp_path):
    place = folder.lock(tmp_path / "new/work")
    (lock,) = (path for path in Path("/proc/self/fd").iterdir() if path.resolve().name == folder.LOCK)
    threading.Timer(0.5, os.close, [int(lock.name)]).start()
    assert folder.lock(tmp_path / "new/work") == place
    (tmp_path / "new").rename(tmp_path / "old")
    write(tmp_path / "new/work/task", "")
    assert os.listdir(place) == [folder.LOCK]


def test_a_file_system_without_locks_is_named(tmp_path, capfd):
    for number in (errno.ENOSYS, errno.ENOLCK, errno.EOPNOTSUPP):
        writing = mock.patch.object(os, "listdir", return_value=[folder.LOCK, "a file that a run is writing"])
        with mock.patch("fcntl.flock", side_effect=OSError(number, os.strerror(number))), writing:
            folder.lock(tmp_path)
        assert (f"cannot lock {tmp_path}, since its file system has no flock ({os.strerror(number)}): let no other run "
                "work there, or name another folder\n") in capfd.readouterr().err


def test_a_folder_of_another_user_or_that_others_may_write_is_refused_and_not_used(case):
    case.folder.chmod(0o777)
    run(case.ACTS, "--cut", *WORDS, **NOBODY)
    if NOBODY:
        case.refused(2, "work belongs to another user: name another folder\n", *WORDS, places={"WORDS": "words"})
        shutil.rmtree("work")
    case.many(*WORDS, umask=0)
    assert not [path for path in Path().glob("work/**/*") if path.lstat().st_mode & 0o022]
    os.rename("work", "-my work")
    for path, mode in (("", 0o775), ("", 0o757), ("/ffosolve-0", 0o777), ("/task", 0o646)):
        os.chmod(f"-my work{path}", mode)
        command = f"chmod go-w './-my work{path}'\n"
        words = ("--lines=20", "--", "-my work", "list.obf")
        message = f"other users may write -my work{path}: name another folder, or type {command}"
        case.refused(2, message, *words, by=case.ACTS, places={"WORDS": f"{case.folder}/words"})  # runs no program
        run("sh", "-c", command, check=True)
        case.many(*words, message=", 3 of them solved before")
    if NOBODY:
        os.chown("-my work/solve.py", NOBODY["user"], 0)
        case.refused(2, "-my work/solve.py belongs to another user: name another folder\n", *words)


def test_a_group_that_may_write_the_results_solves_parts_of_a_folder(case):
    run(case.MANY, "--cut", *WORDS)
    os.chmod("work/results", 0o2775)
    if NOBODY:
        os.chown("work/results", 0, NOBODY["group"])
    ends((0, "", ""), *SOLVE, "0-1", umask=0o077, **NOBODY)
    assert {path: stat.S_IMODE(path.stat().st_mode) for path in Path("work/results").iterdir()} == {
        case.record(0): 0o644, case.record(1): 0o644}
    case.many(*WORDS, message="in 3 parts, 2 of them solved before;")


def test_a_part_whose_results_are_not_complete_is_solved_again(case):
    case.many(*WORDS)
    path, task = case.record(1), solve.read_task(Path("work"))
    whole, text = path.read_bytes(), case.SMALL[68 * 20:68 * 40]
    found = solve.read_record(path.name, whole)

    def record(text=text, found=found, **options):
        """Returns a record, with the right digest, of other results or for other lines or options."""
        head = b"%d %d %.3f\n" % (found.status, len(found.output), found.seconds)
        changed = {**task, "options": {**task["options"], **options}}
        return solve.sealed(solve.digest_of(changed, text), head + found.output + found.book)

    assert record() == whole
    for spoiled in (None, b"", whole[:-1], whole[:whole[:-1].rindex(b"\n") + 1], bytes(len(whole)), whole + b"\n",
                    whole.replace(b"+", b"-", 1), case.record(0).read_bytes(),
                    record(text=text[:-1]), record(**{"--complete": ""}), record(found=found._replace(book=b"")),
                    record(found=found._replace(output=found.output + b"\n")), "sparse"):
        path.unlink() if spoiled is None else path.write_bytes(b"" if spoiled == "sparse" else spoiled)
        os.truncate(path, 1 << 40) if spoiled == "sparse" else None
        case.many(*WORDS, message="in 3 parts, 2 of them solved before;")
        assert path.read_bytes().endswith(found.output + found.book)


def test_files_that_are_damaged_or_missing_or_links_or_pipes_are_written_again_and_others_stay(case):
    words = (*WORDS, "--book-in=one.book")
    case.many(*words)
    record = case.record(1)
    for name in ("other", "work/notes", "work/list.new", "work/results/mine.txt"):
        write(name, "?")
    before, paths = files(), [Path("work", name) for name in ("list", "ffosolve-0", "book-in", "solve.py", "task")]
    for spoiled in (paths, *zip(paths), [record]):
        for spoil in (lambda path: os.truncate(path, path.stat().st_size - 5), os.unlink,
                      lambda path: (path.unlink(), os.mkfifo(path)),
                      lambda path: (path.unlink(), path.symlink_to(case.folder / "other"))):
            for path in spoiled:
                spoil(path)
            case.many(*words, message=f"in 3 parts, {2 if record in spoiled else 3} of them solved before;")
            before[record] = files()[record] if record in spoiled else before[record]
            assert files() == before
    for task in (Path("work/task").read_bytes(), b""):
        write("work/list", b"%" + case.SMALL[1:])
        write("work/task", task)
        case.many(*words, message="in 3 parts, 3 of them solved before;")
        assert files() == before
    shutil.rmtree("work/results")
    case.many(*words, message="in 3 parts, 0 of them solved before;")


def least_last(lines, usual):
    """Returns the parts of a list, by their definition: each ends with the last line of the least checksum among those
    that may be its last one, if the list goes on after these."""
    parts, most = [], max(1, 7 * usual // 4)
    while len(lines) > most:
        sums = [zlib.crc32(line) for line in lines[:most]]
        end = max(at for at in range(most) if sums[at] == min(sums)) + 1
        parts.append(lines[:end])
        lines = lines[end:]
    return parts + [lines] * bool(lines)


@pytest.mark.parametrize("usual", [1, 2, 3, 10, 40])
def test_parts_end_by_what_the_lines_are_and_have_as_many_as_asked_on_average(usual):
    rng = random.Random(1)
    lines = [b"%x\n" % rng.getrandbits(99) for _ in range(60 * usual)]
    parts = [*solve.parts_of(iter(lines), usual)]
    assert parts == least_last(lines, usual)
    assert max(map(len, parts)) <= 2 * usual and 0.8 < 60 / len(parts) < 1.2
    assert [*solve.parts_of(iter([b"% X\n"] * 70), 20)] == [[b"% X\n"] * 35] * 2
    assert [*solve.parts_of(iter([]), usual)] == []


def test_a_changed_line_costs_one_part():
    """On average, hardly more: the line may be the last one of a part."""
    rng = random.Random(1)
    lines = [b"%x\n" % rng.getrandbits(99) for _ in range(2000)]
    before, costs = {*map(tuple, solve.parts_of(iter(lines), 20))}, Counter()
    for at in (rng.randrange(2000) for _ in range(60)):
        for name, new in (("removed", lines[:at] + lines[at + 1:]), ("claimed", [*lines[:at], b"%", *lines[at + 1:]]),
                          ("inserted", [*lines[:at], b"%", *lines[at:]]), ("moved", lines[at:] + lines[:at]),
                          ("added", lines + [b"%"])):
            costs[name] += len({*map(tuple, solve.parts_of(iter(new), 20))} - before)
    assert max(costs[name] for name in ("removed", "claimed", "inserted", "added")) < 60 * 1.3
    assert costs["moved"] < 60 * 5


def test_a_list_may_change_and_only_the_parts_that_hold_the_change_are_solved(case):
    """The other results stay until they are pruned. Files that are not results stay always."""
    case.many(*WORDS, message=": 60 lines in 3 parts, 0 of them solved before")
    changed = case.SMALL.replace(case.lines[29], case.lines[29][:-1] + b" A1:+02;\n")
    for text, parts, solved in ((changed, 3, 2), (case.SMALL, 3, 3), (case.SMALL[68:], 3, 2),
                                (case.SMALL + case.SMALL, 6, 4), (case.SMALL[68 * 20:], 2, 2),
                                (case.SMALL[68 * 20:] + case.SMALL[:68 * 20], 3, 3), (b"% X\n", 1, 0), (b"", 0, 0)):
        case.write_list(text)
        case.many(*WORDS, message=f" in {counted(parts, 'part')}, {solved} of them solved before")
    case.write_list(case.SMALL)
    results = {*Path("work/results").iterdir()}
    write("work/results/mine.txt", "?")
    for name in ("list", f"results/{'0' * 64}"):
        write(f"work/{name}.01234567.new", "?")  # of a process that was killed
    case.many(*WORDS, message=", 3 of them solved before")
    assert {*Path("work/results").iterdir()} == results | {Path("work/results/mine.txt")}
    assert not [*Path("work").glob("*.new")]
    case.write_list(case.SMALL + b"% FAIL\n")
    case.many("--prune", *WORDS, by=case.ACTS, status=1)
    case.many("--prune", *WORDS)
    kept = {case.record(number) for number in range(len(os.listdir("work/results")) - 1)}
    assert {*Path("work/results").iterdir()} == kept | {Path("work/results/mine.txt")} and len(kept) < len(results)
    case.many(*WORDS, message=f", {len(kept)} of them solved before")
    end = BOARD.replace(b"X", b"O", 1) + b" X;"
    for text in (case.SMALL + end, case.SMALL + end + b" A1:+02;\n"):  # the former without an end of its last line
        case.write_list(text)
        case.many(*WORDS, message=", 2 of them solved before")
    assert b" differ\n" in case.one
    by = case.install("changing", ("folder", "{str(path): file}", "{str(path): [b'?' * 9999]}"))  # while it is copied
    case.many(WORDS[0], "changed", "list.obf", by=by, status=1, message="not solved: 3 of 3 parts")
    case.many(WORDS[0], "changed", "list.obf", message=", 0 of them solved before")


def test_equal_parts_are_solved_once(case):
    case.write_list(case.SMALL[:68] * 100 + case.SMALL[68:136] * 10)
    case.many(*WORDS, by=case.ACTS, places={"WORDS": "words"}, message=" in 4 parts, 0 of them solved before")
    assert Path("words").read_text().count("--book-out=") == 1 + 3  # the first one is for the known line
    assert case.parts_solved() == 3
    case.many(*WORDS, message=" in 4 parts, 4 of them solved before")
    cut = run(case.MANY, "--cut", "other", *WORDS[2:], "--lines=20", text=True).stdout
    assert cut == "4 parts, 0 of them solved; python3 other/solve.py 0-3 solves the others\n"
    ends((0, "", ""), sys.executable, "other/solve.py", "0-3")
    assert len(os.listdir("other/results")) == 3


def test_options_that_change_results_keep_theirs_beside_and_others_change_nothing(case):
    write("other.book", b"% ffobook 2 winner\n")
    for words in ((), ("--complete",), ("--scoring=sign",)):
        case.write_list(case.SMALL, *words)
        for before in (0, 3):
            case.many(*WORDS, *words, message=f", {before} of them solved before")
    for words in ((), ("--complete",)):
        scores = run(case.MANY.with_name("ffoscores"), *words, "list.obf").stdout
        for before in (0, 3):
            case.many("--scores", *words, *WORDS[:3], output=scores, message=f", {before} of them solved before")
    case.write_list(case.SMALL)
    for words in (("--book-in=one.book",), ("--book-in=other.book",), ("--table=9", "--workers=1", "--jobs=3"), ()):
        case.many(*WORDS, *words, message=", 3 of them solved before")
    case.many("--lines=6", *WORDS[1:], message=" in 10 parts, 0 of them solved before")
    case.many(*WORDS, message=" in 3 parts, 3 of them solved before")
    assert {path.name for path in Path("work").iterdir()} == {
        folder.LOCK, "list", "ffosolve-0", "ffoscores-0", "book-in", "results", "solve.py", "task"}


def test_another_limit_of_empty_squares_takes_over_the_parts_in_which_no_line_is_refused_for_it(case):
    """The first parts have at most 2 empty squares. A line that is refused for another reason has no limit."""
    wrong = b"-" * 64 + b" ?\n" + b"-" * 63 + b" X\n" + b"-" * 65 + b" X\n"
    text = wrong + positions(60, 2, 2) + case.SMALL
    parts = [b"".join(part) for part in least_last(text.splitlines(keepends=True), 20)]
    most = [max(line.count(b"-") for line in part.splitlines() if line not in wrong) for part in parts]
    assert len({*most}) > 1
    known = set()
    for limit in (3, 4, 20, 3, 2, 1, 4):
        new = {(at, limit if most[at] > limit else None) for at in range(len(parts))}
        case.write_list(text, f"--max-empties={limit}")
        case.many(*WORDS, f"--max-empties={limit}", message=f", {len(new & known)} of them solved before")
        known |= new


def test_only_the_parts_that_failed_are_solved_again(case):
    case.write_list(case.SMALL + b"% FAIL\n" + case.SMALL + b"% DIE\n")
    part = r"part (\d{7}) \(lines \d+ to \d+\)"
    message = rf"not solved: 2 of (\d) parts: {part}, {part}\. The same command solves only these\n"
    for _ in range(2):
        errors = case.many(*WORDS, by=case.ACTS, status=1)
        count, *failed = map(int, re.search(message, errors).groups())
        for why in ("ffosolve: out of memory", "killed by SIGKILL"):
            assert re.search(f": this machine failed {part}: {why}\n", errors)
        assert [number for number in range(count) if not case.record(number).exists()] == failed
        assert not os.path.exists("joined.book")
    case.many(*WORDS, message=f", {count - 2} of them solved before")
    case.many("--scores", "--lines=20", "work2", "list.obf", by=case.ACTS, status=3,
              message=f"not solved: 2 of {count} parts: ")


def test_a_record_that_is_damaged_late_is_solved_again(case):
    late = "    open(run.path(run.parts[1]), 'r+').write('?'), os.unlink(run.path(run.parts[2]))\n"
    printed = "    print_all(run.output())\n"
    by = case.install("damaging", ("command", printed, late + printed), script=ACTING)
    for message in (", 0 of them", ", 3 of them"):
        case.many(*WORDS, by=by, message=message)
        case.many(*WORDS, message=", 3 of them solved before")
    spoil = f"lambda text: text[:-5] if open('{case.record(1)}').read(1) == '?' else text"
    ran = run(by, *WORDS, env={**os.environ, "SPOIL": spoil})
    why = b"was changed meanwhile, and can't be solved again: its results are not complete\n"
    assert (ran.returncode, case.one.startswith(ran.stdout)) == (3, True)
    assert ran.stderr.endswith(b"part 0000001 (lines 21 to 40) " + why)


def test_a_part_is_solved_with_the_options_and_the_program_of_the_folder_or_not_at_all(case):
    run(case.ACTS, "--cut", *WORDS)
    for place, old, new, why in (
            ("task", b'"--max-empties": 20', b'"--max-empties": 0', "damaged: run ffosolve-many again"),
            ("task", b'"parts": 3', b'"parts": 7', "damaged: run ffosolve-many again"),
            ("task", Path("work/task").read_bytes(), b"[]", "damaged: run ffosolve-many again"),
            ("ffosolve-0", b"real", b"rear", "the program is damaged")):
        whole = Path("work", place).read_bytes()
        Path("work", place).write_bytes(whole.replace(old, new, 1))
        assert Path("work", place).read_bytes() != whole
        ran = run(*SOLVE, "0", text=True)
        assert (ran.returncode, ran.stdout, os.listdir("work/results")) == (1, "", [])
        assert re.search(f"^solve.py 0: .*{why}\n$", ran.stderr)
        Path("work", place).write_bytes(whole)
    places = {**os.environ, "SPOIL_KNOWN": "lambda text: text.replace(b'H1', b'A1')"}
    ends((1, "", "solve.py 0: the program solves a known line wrong\n"), *SOLVE, "0", env=places)
    ends((0, "", ""), *SOLVE, "0")
    case.many(*WORDS, by=case.ACTS, message="in 3 parts, 1 of them")


def test_a_part_is_not_solved_in_vain(case):
    run(case.ACTS, "--cut", *WORDS)
    for how, why in (({"preexec_fn": limited(RLIMIT_FSIZE=4000)}, "File too large"), (NOBODY, "Permission denied")):
        words = write(case.folder / "words", "", 0o666)
        ran = run(*SOLVE, "1-2", text=True, env={**os.environ, "WORDS": str(words)}, **how)
        failed = re.findall(r"^part (.*): .*: (.*)\n", ran.stderr, re.M)
        assert (ran.returncode, failed) == (1, [("0000001", why), ("0000002", why)])
        assert words.read_text().count("\n") == 1  # the program has run for the known line alone


def test_results_are_new_files_once_they_are_on_the_disk_and_files_that_may_not_be_read_are_named(case):
    run(case.MANY, "--cut", *WORDS, "--book-in=one.book")
    write("other", "?")
    os.chmod("work/results", 0o777)
    os.symlink(case.folder / "other", case.record(0))
    write(case.record(1), "", 0o600 if NOBODY else 0o100)
    ran = run(*SOLVE, "0-2", env=preload(case.folder, WATCHED=""), text=True, **NOBODY)
    why = f"part 0000001: results/{case.record(1).name}: Permission denied\n"
    assert (ran.returncode, ran.stderr) == (1, f"sync rename sync rename {why}")
    assert [case.record(number).lstat().st_size > 99 for number in range(3)] == [True, False, True]
    assert Path("other").read_text() == "?"
    path = case.record(2)
    os.remove(path)
    os.mkdir(path)
    ends((1, "", f"part 0000002: results/{path.name}: Is a directory\n"), *SOLVE, "2")
    case.many(*WORDS, "--book-in=one.book", status=3, message=f"cannot write {path}: Is a directory\n")
    for name, why in (("book-in", "the program can't solve a known line: ffosolve: cannot read book-in"),
                      ("ffosolve-0", "[Errno 13] Permission denied: 'ffosolve-0'")):
        Path("work", name).chmod(0o111)
        ends((1, "", f"solve.py 0: {why}\n"), *SOLVE, "0", **NOBODY)


def test_an_interrupt_or_a_lack_of_memory_or_an_old_python_ends_solve_py_without_a_traceback(case):
    run(case.ACTS, "--cut", *WORDS)
    ran = case.start(*SOLVE, "0-2", env={**os.environ, "LAST": "0"})
    wait_until(lambda: [*Path("work/results").glob(f"{case.record(0).name}.*.new")])
    assert (end(case, ran, signal.SIGINT), ran.returncode) == ((b"", ""), -signal.SIGINT)
    case.many(*WORDS)
    assert len(os.listdir("work/results")) == 3
    os.truncate("work/ffosolve-0", 1 << 30)
    ends((1, "", "solve.py 0: out of memory\n"), *SOLVE, "0", preexec_fn=limited(RLIMIT_AS=200 << 20))
    ast.parse(Path(solve.__file__).read_text(), feature_version=(3, 7))
    code = "import runpy, sys; sys.version_info = (3, 7, 1); runpy.run_path('work/solve.py', run_name='__main__')"
    error = f"solve.py needs Python 3.8 or later, and this is {sys.version.split()[0]}\n"
    ends((1, "", error), sys.executable, "-c", code)


def test_a_folder_where_no_program_may_run_is_refused(case):
    mount = 'mkdir work && mount -t tmpfs -o noexec,mode=755 none work && exec "$0" "$@"'
    unshare, *words = unshared()
    case.many(*words, "sh", "-c", mount, case.MANY, *WORDS, by=unshare, status=4,
              message="can't solve a known line: setpriv: failed to execute ffosolve-0: Permission denied\n")


def test_a_program_that_fails_for_a_part_and_then_for_a_known_line_ends_the_run(case):
    script = '#!/bin/sh\necho >>runs; [ $(wc -l <runs) -le 5 ] || { echo broken >&2; exit 9; }; exec "@real@" "$@"\n'
    by = case.install("breaking", script=script)
    errors = case.many("--jobs=1", "--lines=1", *WORDS[1:], by=by, status=4)
    assert " failed part " not in errors
    assert errors.endswith("on this machine the program can't solve a known line: broken\n")
    assert case.parts_solved() == 3
    failing = b"".join(b"%% FAIL %d\n" % number for number in range(7))
    case.write_list(case.SMALL[:68 * 3] + failing + case.SMALL[68 * 3:68 * 6])
    errors = case.many("--jobs=1", "--lines=1", "other", *WORDS[2:], by=case.ACTS, status=1)
    assert (errors.count(" failed part "), "not solved: 7 of 13 parts" in errors) == (7, True)


def test_copies_of_files_that_others_may_not_read_may_not_be_read_by_others(case):
    for name in ("list.obf", "one.book"):
        os.chmod(name, 0o600)
    case.many(*WORDS, "--book-in=one.book")
    modes = {path.name: stat.S_IMODE(path.stat().st_mode) for path in Path("work").rglob("*") if path.is_file()}
    secret = {"list", "book-in", *(case.record(number).name for number in range(3))}
    assert {name for name, mode in modes.items() if not mode & 0o077} == secret
    shutil.rmtree("work/results")
    run(case.MANY, "--cut", *WORDS, "--book-in=one.book")
    run(*SOLVE, "1")
    assert stat.S_IMODE(case.record(1).stat().st_mode) == 0o600


def test_a_finished_folder_that_may_not_be_written_prints_its_report(case):
    case.many(*WORDS[:3])
    Path("work", folder.LOCK).unlink()
    case.many(*WORDS, message=", 3 of them solved before")
    write("work/solve.py", "of an earlier version")
    Path("work", folder.LOCK).unlink()
    case.folder.chmod(0o777)
    os.chmod("work", 0o555)
    before = files()
    case.many(*WORDS, message=", 3 of them solved before", **NOBODY)
    assert files() == before
    case.record(1).unlink()
    case.refused(3, "cannot write work: Permission denied\n", "--quiet", *WORDS, **NOBODY)
    os.chmod("work", 0o755)


def test_a_full_disk_ends_the_run_and_it_goes_on_when_there_is_room(case):
    full, text = {"preexec_fn": limited(RLIMIT_FSIZE=1000)}, b"3 parts, 3 of them solved\n"
    case.many("--cut", *WORDS, status=3, message="cannot write work: File too large\n", **full)
    case.many(*WORDS)
    Path("work/list").unlink()
    case.many("--cut", *WORDS[:3], output=text, **full)
    shutil.rmtree("work")
    is_late, storing = "len(os.listdir(self.place / 'results')) == 5", "write_whole({str(self.path(part))"
    by = case.install("full", ("folder", storing, f"{is_late} and open('/dev/full', 'wb', 0).write(b'?'), {storing}"))
    words = ("--jobs=1", "--lines=5", *WORDS[1:])
    case.many(*words, by=by, status=3, message=": No space left on device\n")
    done = len([path for path in Path("work/results").iterdir() if path.stat().st_size])
    assert done >= 5  # a part that was begun may have been solved meanwhile
    case.many(*words, message=f", {done} of them solved before")


def test_a_list_is_read_from_standard_input_from_where_it_stands_and_from_a_pipe(case):
    case.many("--lines=20", "work", "-", message="-: 60 lines in 3 parts", input=case.SMALL, umask=0o022)
    assert stat.S_IMODE(os.stat("work/list").st_mode) == 0o644
    case.many("--lines=20", "work", "/dev/stdin", message=", 3 of them solved before", input=case.SMALL)
    assert {*os.listdir("work")} == {folder.LOCK, "list", "ffosolve-0", "results", "solve.py", "task"}
    with open("list.obf", "rb") as file:
        case.many("--lines=20", "work", "-", message=", 3 of them solved before", stdin=file)
    case.refused(3, f"cannot copy - to {os.environ['TMPDIR']}: File too large", "work", "-", input=case.SMALL,
                 preexec_fn=limited(RLIMIT_FSIZE=1000))
    ends((3, "", "ffosolve-many: cannot read -: standard input is closed\n"), "sh", "-c", '"$0" work - <&-', case.MANY)
    write("whole.obf", b"%\n\n" + case.SMALL)
    for command in ('{ read a; read b; "$0" in - --book-out "$1"; } <whole.obf',
                    '"$0" pipe <(cat list.obf) --book-in <(cat one.book) --book-out "$1"'):
        case.many("-c", command, case.MANY, "joined.book", by="bash", message=": 60 lines in 1 part")
    assert Path("pipe", "book-in").read_bytes() == Path("one.book").read_bytes()
    assert os.listdir(os.environ["TMPDIR"]) == []


def test_texts_that_are_not_lists_are_refused_and_no_part_has_more_bytes_than_a_file_may_have(case):
    for text, message in ((b"\xef\xbb\xbf" + case.SMALL, "it begins with a byte-order mark"),
                          (case.SMALL.decode().encode("utf-16"), "it begins with a byte-order mark"),
                          (case.SMALL.replace(b"\r", b"").replace(b"\n", b"\r"), "its lines end with CR alone"),
                          (b"\r" + case.SMALL.partition(b"\n")[0].rstrip(), "its lines end with CR alone")):
        write("other.obf", text)
        case.refused(3, f"cannot read other.obf: {message}", "other.obf")
        case.refused(3, f"cannot read -: {message}", "work", "-", input=text)
    case.write_list(case.SMALL.partition(b"\n")[0].rstrip() + b"\r")  # its only line ends with CR but no LF
    case.many("list.obf")
    Path("empty").mkdir()
    for name in ("a/b/work", "empty"):
        case.refused(3, "cannot read -: its line 1 has more than 1048576 bytes\n", name, "-",
                     input=b"%" * (MOST_BYTES + 1))
    half = b"%" * (MOST_BYTES // 2 - 1) + b"\n"
    for text, parts in (half * 4, b"2 parts,"), (b"%" + half * 4, b"3 parts,"), ((b"%" + half) * 3, b"3 parts,"):
        assert run(case.MANY, "--cut", "--lines=10", "work", "-", input=text).stdout.startswith(parts)


def test_a_folder_with_other_files_or_of_an_earlier_version_is_refused_and_untouched(case):
    """One that is empty, or was just begun, or whose program did not work at first, is used."""
    message = ("{} has files that are not ffosolve-many's, or those of an earlier version, such as {}: name a new "
               "or an empty folder\n")
    for place, names, first in (("one", "copy", "copy"), ("two", "lock copy", "copy"), ("a.new", "a.new", "a.new"),
                                ("three", "results/0000000 task list", "list"),
                                ("work", "lock asked.json run-0123456789ab/list", "asked.json")):
        for name in names.split():
            write(Path(place, name), "the work of ffosolve-many, form 1")
        case.refused(2, message.format(place, first), place, "list.obf")
    case.refused(2, message.format(".", "a.new"), ".", "list.obf")
    Path("empty").mkdir()
    for place, *names in (["empty"], ["locked", folder.LOCK], ["copying", folder.LOCK, "list"],
                          ["begun", folder.LOCK, "task"]):
        for name in names:
            write(Path(place, name), "[]")
        case.many(place, "list.obf")
    fails = {"SPOIL_KNOWN": "lambda text: sys.exit('broken') if b'H1' in text else text"}
    for place, text in (("new", case.SMALL), ("other", case.SMALL[68:])):  # a list without results may change
        case.many(place, "list.obf", by=case.ACTS, places=fails, status=4, message="solve a known line: broken\n")
        case.write_list(text)
        case.many(place, "list.obf")


SIGNALLED = ("--jobs=2", "--lines=5", *WORDS[1:])


def begin(case, *program, last=99):
    """Starts `program` with SIGNALLED in a new session. case.ACTS takes 45 s per part after the first `last` parts."""
    places = {**os.environ, "PAUSE": "0.15", "LAST": str(last)}
    return case.start(*program, *SIGNALLED, start_new_session=True, env=places)


def at_work(case, done):
    """Starts a run of 12 parts; returns its process once `done` parts are solved and two are being solved."""
    ran = begin(case, case.ACTS, last=done)
    wait_until(lambda: case.parts_solved() >= done and len(case.programs()) == 2)
    return ran


def end(case, ran, *signals):
    """Sends signals to a run, and waits until it ends. Asserts that all its processes have ended one second later, or
    some seconds later if the machine is busy. Returns (its output as bytes, its errors as text)."""
    for number in signals:
        ran.send_signal(number)
    output, errors = ran.communicate(timeout=SECONDS)
    wait_until(lambda: not processes_in(case.folder), 1 + os.getloadavg()[0] / os.cpu_count())
    return output, errors.decode()


def test_a_signal_or_two_together_end_all_processes_within_a_second_and_the_command_goes_on(case):
    pairs = [(signal.SIGINT, signal.SIGTERM), (signal.SIGTERM, signal.SIGINT), (signal.SIGHUP, signal.SIGINT)]
    together = [(signal.SIGSTOP, *pair, signal.SIGCONT) for pair in pairs]  # so that both come at once
    alone = [(number,) for number in (signal.SIGTERM, signal.SIGINT, signal.SIGHUP, signal.SIGKILL)]
    for at, numbers in enumerate(alone + 2 * together):
        ran = at_work(case, min(8, 2 + 2 * at))
        output, errors = end(case, ran, *numbers)
        assert (-ran.returncode in numbers, output) == (True, b"")
        assert re.search(f"^.*\n{'' if signal.SIGKILL in numbers else INTERRUPTED}$", errors)  # no traceback
    case.many(*SIGNALLED, by=case.ACTS, message=f"lines in 12 parts, {case.parts_solved()} of them solved before")


def test_a_signal_ends_the_run_while_python_ignores_exceptions_or_starts(case):
    ignoring = """    class Ignoring:
        def __del__(self):
            open("begun", "w").close()
            time.sleep(SECONDS)
    Ignoring()
    time.sleep(SECONDS)
    run = run_of(""".replace("SECONDS", str(SECONDS))
    by = case.install("ignoring", ("command", "    run = run_of(", ignoring),
                      ("command", "import re\n", "import re, time\n"))
    slow = "import argparse, time\nopen('begun', 'w').close()\ntime.sleep(40)\n"
    importing = case.install("starting", ("command", "import argparse\n", slow))
    for by, number, told in ((by, signal.SIGTERM, INTERRUPTED), (by, signal.SIGINT, INTERRUPTED),
                             (importing, signal.SIGINT, "")):
        Path("begun").unlink(missing_ok=True)
        ran = begin(case, by)
        wait_until(Path("begun").exists)
        assert (end(case, ran, number), ran.returncode) == ((b"", told), -number)


def test_a_program_does_not_start_once_its_caller_has_ended(case):
    run(case.MANY, "--cut", *WORDS)
    code = "import solve as it; print(*it.GUARD, it.opened('.') / 'ffosolve-0', sep='\\n')"
    words = run(sys.executable, "-c", code, cwd="work", text=True).stdout.splitlines()
    ran = run(*words, text=True)
    assert ran.stdout == "" and "/ffosolve-0: No such file or directory" in ran.stderr


MAY_USE = sorted(os.sched_getaffinity(0))


@pytest.mark.parametrize("words, processors", [((), MAY_USE), ((), MAY_USE[:1]), (("--jobs=20",), MAY_USE[:1])])
def test_as_many_parts_are_solved_at_once_as_there_are_jobs_by_default_one_for_each_processor_that_may_be_used(
        case, words, processors):
    ran = case.start("taskset", "-c", ",".join(map(str, processors)), case.ACTS, *words, "--lines=1", *WORDS[1:],
                     env={**os.environ, "PAUSE": "45"})
    count = 20 if words else len(processors)
    wait_until(lambda: len(case.programs()) == count)
    time.sleep(0.5)  # in which more might begin
    assert len(case.programs()) == count
    end(case, ran, signal.SIGTERM)


def test_signals_that_the_caller_ignores_do_not_end_the_run_such_as_that_of_a_terminal_that_closes_after_nohup(case):
    for number, last in ((signal.SIGKILL, 0), (signal.SIGTERM, 99)):  # the former ends long programs, too
        ran = begin(case, "sh", "-c", 'trap "" INT TERM; exec nohup "$@"', "sh", case.ACTS, last=last)
        wait_until(lambda: len(case.programs()) == 2)  # not only that for the known line
        output, _ = end(case, ran, signal.SIGINT, signal.SIGHUP, number)
        wanted = (b"", -number) if number == signal.SIGKILL else (case.one, 0)
        assert (output, ran.returncode) == wanted


def test_control_c_on_a_terminal_is_no_signal_for_the_programs_and_they_end_first_if_memory_is_short(case):
    """Meanwhile, a second command in the folder is refused."""
    ran = at_work(case, 0)
    case.many(*SIGNALLED, by=case.ACTS, status=3,
              message="another run works in work: wait for its end, or name another folder\n")
    assert ran.poll() is None
    assert os.getpgid(ran.pid) not in map(os.getpgid, case.programs())
    assert {Path(f"/proc/{number}/oom_score_adj").read_text() for number in case.programs()} == {"1000\n"}
    assert end(case, ran, signal.SIGINT)[1].count("\n") == 2  # the first line, and that it was interrupted


def test_kills_at_random_moments_lose_nothing(case):
    rng = random.Random(1)
    for _ in range(10):
        ran = begin(case, case.ACTS)
        time.sleep(rng.uniform(0, 2))
        one = rng.choice([*processes_in(case.folder)] or [ran.pid])
        run("sh", "-c", 'kill -s KILL -- "$0"', rng.choice((-ran.pid, ran.pid, one)))  # -N is process group N
        output, _ = end(case, ran)
        assert ran.returncode in ((0, -9) if output else (1, 3, 4, -9))
        assert output in (case.one, b"")
        if ran.returncode == 0 or rng.randrange(4) == 0:
            case.many(*SIGNALLED, by=case.ACTS)
            shutil.rmtree("work")
