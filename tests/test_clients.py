"""Programs that use the library, built and run as documented, and the packages for Python and Rust."""
import email
import functools
import inspect
import os
import random
import re
import shlex
import shutil
import signal
import sys
import tarfile
import zipfile
from pathlib import Path

import psutil
import pytest

import ffosolve
from tests.games import NAMES, masks_after, random_games, random_positions, squares_of, transcript_rows
from tests.prefix import CXX, PIP, PREFIX, VERSION, C
from tests.support import ROOT, SECONDS, built, ends, limited, need, run, stored, wait_until, write

pytestmark = pytest.mark.usefixtures("installed")
PROCESSORS = sorted(os.sched_getaffinity(0))[:2]  # two that a process may use, if there are two
PAGE = "docs/check-evaluation.md"  # its program reads a list of positions, and their scores
CMAKE = f"""cmake_minimum_required(VERSION 3.16)
project(clients C CXX)
add_executable(program answers.c)
{{}}find_package(ffosolve {VERSION} EXACT CONFIG REQUIRED)
add_executable(shared answers.c)
add_executable(in_cxx answers.cpp)
target_link_libraries(shared ffosolve::ffosolve)
target_link_libraries(in_cxx ffosolve::ffosolve)
"""
# A made-up library: each function of these prints the numbers that it gets. The others are never called.
PRINTED_IN_C = r"""#include <stdint.h>
#include <stdio.h>
struct position { uint64_t own, opp; };
struct answer { int32_t score, kind; uint64_t best; };
int ffosolve_confirm(struct position position, uint32_t scoring, size_t entries, struct answer claim) {
    return printf("confirm %u %zu %d\n", scoring, entries, claim.score) < 0;
}
int ffosolve_solve_all(void *positions, size_t count, uint32_t scoring, size_t entries) {
    return printf("solve_all %zu %u %zu\n", count, scoring, entries) < 0;
}
int ffosolve_move_scores_all(void *positions, size_t count, uint32_t scoring, size_t entries) {
    return printf("move_scores_all %zu %u %zu\n", count, scoring, entries) < 0;
}
void ffosolve_canonical(void) {}
void ffosolve_read_line(void) {}
void ffosolve_version(void) {}
"""
ASKED_IN_RUST = """use ffosolve::*;
fn main() {
    let [few, some, many] = [8, 12, 20].map(|empties| Position::new(1, !1 << empties).expect("masks apart"));
    for solver in [Solver::new(), Solver::new().scoring(Scoring::Sign).entries(5)] {
        for position in [few, some, many] {
            solver.solve(position).expect("an answer");
            solver.confirm(position, Answer { score: 7, best: Best::Pass }).expect("an answer");
            solver.move_scores(position).expect("scores");
        }
        solver.solve_all(&[some, many, few]).expect("answers");
        solver.move_scores_all(&[some, few]).expect("scores");
        solver.threads(2).solve_all(&[few; 4096]).expect("answers");
    }
}
"""
# Makes each call for the position in its first word, with a number of threads or `all`, and maybe a timeout in seconds;
# prints what it returns.
CALLED_IN_RUST = """use ffosolve::*;
fn main() {
    let words: Vec<_> = std::env::args().collect();
    let position = Position::from_obf(&words[1]).expect("a position");
    let mut solver = Solver::new().max_empties(60).scoring(Scoring::Sign).threads_all();
    if words[2] != "all" {
        solver = solver.threads(words[2].parse().expect("a number"));
    }
    for word in &words[3..] {
        solver = solver.timeout(std::time::Duration::from_secs_f64(word.parse().expect("a number")));
    }
    let print = |found: Result<String, Error>| println!("{}", found.unwrap_or_else(|error| error.to_string()));
    print(solver.solve(position).map(|found| format!("{found:?}")));
    print(solver.confirm(position, Answer { score: -7, best: Best::Pass }).map(|found| format!("{found:?}")));
    print(solver.move_scores(position).map(|found| format!("{found:?}")));
    print(solver.solve_all(&[position; 15_001]).map(|found| found.len().to_string()));
}
"""
# A made-up ffosolve or ffoscores of the version $OF. After $ACTS, it notes its words, its book, and how often each line
# is in its list.
NOTING = r"""#!/bin/sh
name=${0##*/}
eval "$ACTS"
[ "$1" != --version ] || { echo "$name $OF"; exit; }
cat >"$NOTES.list"
{
    echo "$name $*" | sed 's,/fd/.*,/fd/N,'
    case $* in *--book-in=*) cat "${5#*=}" ;; esac
    sort "$NOTES.list" | uniq -c | tr -s ' '
} >>"$NOTES"
case $name in
ffosolve) echo '[1]'; awk '{ print NR " -01 D3,C4 unlisted" } END { print "solved 1 refused 0" }' "$NOTES.list" ;;
ffoscores) sed 's/$/ C4:+01; D3:-01;/' "$NOTES.list" ;;
esac
"""

# Reads transcripts, each before a NUL byte. Prints the masks of the last position, or the number and the word of the
# refused move.
PLAYED_IN_RUST = """use std::io::{stdin, BufRead};
fn main() {
    for text in stdin().lock().split(0) {
        let text = String::from_utf8(text.expect("a text")).expect("UTF-8");
        match ffosolve::Position::start().positions(&text) {
            Ok(positions) => positions.last().map_or((), |last| println!("{} {}", last.own().0, last.opp().0)),
            Err(error) => println!("{} {}", error.number, error.word),
        }
    }
}
"""


def asked(scoring, few, some, many):
    """Yields the lines that ASKED_IN_RUST has to print for a solver, with its tables for each number of squares."""
    for entries in (few, some, many):
        yield from (f"solve_all 1 {scoring} {entries}", f"confirm {scoring} {entries} 7")
        yield f"move_scores_all 1 {scoring} {entries}"
    yield from (f"solve_all 3 {scoring} {many}", f"move_scores_all 2 {scoring} {some}")
    yield f"solve_all 4096 {scoring} {few}"


def shown(language, *names):
    """Returns the only code block in `language` of the documents `names`, by default README.md and docs/library.md, and
    the output that the comments in the block show."""
    texts = "".join((ROOT / name).read_text() for name in names or ("README.md", "docs/library.md"))
    (block,) = re.findall(rf"^```{language}\n(.*?)^```$", texts, re.MULTILINE | re.DOTALL)
    return block, "".join(f"{line}\n" for line in re.findall(r"(?:  # |// )(.*)$", block, re.MULTILINE))


def answers_of(*command):
    """Asserts what an example program prints: for examples/masks.txt; for two positions of which the first has two best
    moves; for none; and for a position that is refused or not written as two masks."""
    masks, answers = (stored("examples", f"{name}.txt").decode().splitlines(True) for name in ("masks", "answers"))
    assert PREFIX.make(*command, input="".join(masks)).stdout == "".join(answers)
    played = PREFIX.make(*command, input=masks[2] + "fffffff8 7fffffff00000007\n").stdout
    assert played == answers[2] + "+08 H8\nA1 of A1,H1\nPS\nH1 of H1\n"
    ran = PREFIX.run(*command)
    assert (ran.returncode, ran.stdout, ran.stderr) == (0, "", "")
    longer = f"1{0:016}"  # than a mask
    for wrong in ("3 2", "1 x", "3", "1 2 4 8", longer, f"{longer} {longer}"):
        ran = PREFIX.run(*command, input=f"{masks[0]}{wrong}\n")
        is_refused = "position 2: the masks share a square" in ran.stderr
        assert (ran.returncode, ran.stdout, is_refused) == (1, "", wrong == "3 2"), ran
        assert "empty squares" not in ran.stderr, wrong  # it would name them if it read this as other masks


def test_examples_in_c_and_cxx_are_built_by_pkg_config():
    assert PREFIX.make("pkg-config", "--modversion", "ffosolve").stdout.strip() == VERSION
    flags = shlex.split(PREFIX.make("pkg-config", "--cflags", "--libs", "ffosolve").stdout)
    source = PREFIX.shipped / "examples/c/answers.c"
    for compiler, *words in ((C,), (C, "-static"), (CXX,)):
        answers_of(PREFIX.compile(compiler, "by-pkg-config", [*words, source], "-x", "none", *flags))


def test_examples_in_c_and_cxx_are_built_by_cmake():
    """The CMake code of docs/library.md links one program with the static library; CMAKE, the text around it, finds the
    package once more, and links two with the shared library. The command cmake fails if the code asks for a newer or
    exactly another version than is installed, and without the static library."""
    (first, second, _), (block, _) = VERSION.split("."), shown("cmake")
    for name in ("answers.c", "answers.cpp"):
        write(PREFIX.work / "cmake" / name, (PREFIX.shipped / "examples/c/answers.c").read_text())
    configure = ("cmake", "-S", "cmake", "-B", "cmake-built", f"-DCMAKE_PREFIX_PATH={PREFIX.folder}")
    write(PREFIX.work / "cmake/CMakeLists.txt", CMAKE.format(block))
    PREFIX.make(*configure)
    PREFIX.make("cmake", "--build", "cmake-built")
    for name in ("program", "shared", "in_cxx"):
        answers_of(PREFIX.work / "cmake-built" / name)
    PREFIX.archive.rename(PREFIX.work / "archive")
    ran = PREFIX.run(*configure)
    (PREFIX.work / "archive").rename(PREFIX.archive)
    assert (ran.returncode != 0, f"{PREFIX.archive} is missing" in ran.stderr) == (True, True)
    for other in (f"{first}.{int(second) + 1}", "1.0 EXACT"):
        write(PREFIX.work / "cmake/CMakeLists.txt", CMAKE.format(block.replace(" 1.0 ", f" {other} ")))
        ran = PREFIX.run(*configure)
        assert (ran.returncode != 0, VERSION in ran.stderr) == (True, True), other


@pytest.mark.parametrize("compiler", [C, CXX], ids=["C", "C++"])
def test_the_example_with_a_limit_of_time_stops_a_call(compiler):
    """A game's start takes too long; a process left at it would hold the standard output open, so that `ends` would
    fail. The programs begin with the signal of the timer ignored."""
    program = PREFIX.compile(compiler, "limited", [PREFIX.shipped / "examples/c/limited.c"])
    for words, wanted in (
        ("60 fffffff7ffff7f7c 800008002", (0, "+62\n", "")), ("60 3 2", (1, "the masks share a square\n", "")),
        ("60 800008002 fffffff7ffff7f7c", (0, "-40\n", "")),  # -39 if discs alone counted
        ("1 0000000810000000 0000001008000000", (1, "not solved in 1 s\n", "")),
        *((wrong, (2, "", "usage: limited SECONDS OWN OPP\n")) for wrong in ("0 1 2", "1 2", "1 2 x", "x 1 2")),
    ):
        ends(wanted, "timeout", "30", "env", "--ignore-signal=ALRM", program, *words.split())


@pytest.mark.parametrize("compiler", [C, CXX], ids=["C", "C++"])
def test_the_example_for_all_processors_runs_the_program_for_hard_positions(compiler):
    """The first one has 2 empty squares, the third 20: FFO 40, whose score is published."""
    program = PREFIX.compile(compiler, "all_processors", [PREFIX.shipped / "examples/c/all_processors.c"])
    of_ffo, lacks = "8080c0c48c8080 10783f3b737e79", "setpriv: failed to execute ffosolve: No such file or directory\n"
    for folder, masks, wanted in (
        ("none", "fffffff7ffff7f7c 800008002", (0, "+62\n", "")), ("bin", "3 2", (1, "the masks share a square\n", "")),
        ("bin", of_ffo, (0, "+38\n", "")), ("none", of_ffo, (3, "", lacks)),
        ("none", "1", (2, "", "usage: all_processors OWN OPP\n")),
    ):
        ends(wanted, "env", f"PATH={PREFIX.folder}/{folder}:/usr/bin:/bin", program, *masks.split())


def test_the_example_in_python_runs():
    script = [PREFIX.site and sys.executable, PREFIX.shipped / "examples/python/answers.py"]
    answers_of(*script)
    answers_of(*script, PREFIX.shared)


def test_the_example_in_rust_runs():
    PREFIX.cargo("build", "--quiet", "--example", "answers")
    answers_of(PREFIX.work / "target/debug/examples/answers")


@pytest.mark.parametrize("language, names", [
    ("c", []), ("cpp", []), *(("python", [name]) for name in ("README.md", "docs/library.md", PAGE)), ("rust", []),
])
def test_each_program_of_the_documents_prints_what_is_shown(language, names):
    listed = re.search(r"^> (\S{64} X; .*\n)", (ROOT / PAGE).read_text(), re.MULTILINE)[1]
    write(PREFIX.work / "list.obf", listed)
    write(PREFIX.work / "list.scores", run(built("ffoscores"), input=listed.encode()).stdout)
    block, wanted = shown(language, *names)
    assert wanted != ""
    if language == "python":
        command = [PREFIX.site and sys.executable, "-c", block]
    elif language == "rust":
        program = f"fn main() -> Result<(), Box<dyn std::error::Error>> {{\n{block}Ok(())\n}}\n"
        command = [PREFIX.rust_client("readme", program)]
    else:
        source = write(PREFIX.work / f"shown.{language}", block)
        command = [PREFIX.compile(C if language == "c" else CXX, "shown", [source])]
    assert PREFIX.make(*command).stdout == wanted


def test_the_packages_own_tests_pass_where_it_is_installed():
    """Runs those that need the installed files: examples of the help, types, processes and the library. The others test
    the package of the checkout."""
    pytest.importorskip("mypy")
    assert (PREFIX.site / "ffosolve/py.typed").exists()
    some = "examples_of_the_help or mypy_sees or calls_of_several_threads or limits_and_versions"
    words = (sys.executable, "-m", "pytest", "-q", "-p", "no:cacheprovider", PREFIX.work / "python/tests", "-k", some)
    assert re.search(r"(?m)^4 passed", PREFIX.make(*words).stdout)


def test_pip_installs_the_packages_program():
    program = PREFIX.site / "bin/ffosolve-games"
    assert PREFIX.make(program, "--version").stdout == f"ffosolve-games {ffosolve.__version__}\n"
    assert re.search(r"\A\S{64} O; % -, game 1\n\Z", PREFIX.make(program, "--empties=59", input="f5").stdout)


def test_a_library_of_another_version_or_without_a_call_is_refused():
    older, lacking = "has version 20000, not 1.x.y", "is not this package's library"
    for missing, number, why in (("", 10203, ""), ("", 20000, older), ("ffosolve_play", 10203, lacking)):
        calls = PREFIX.calls - {missing}
        source = write(PREFIX.work / "other.c", "".join(f"int {name}(void) {{ return {number}; }}\n" for name in calls))
        other = PREFIX.work / f"other-{len(calls)}-{number}.so"
        PREFIX.make("cc", "-shared", "-fPIC", "-o", other, source)
        env = {**PREFIX.environment, "FFOSOLVE_LIBRARY": str(other)}
        ran = PREFIX.run(PREFIX.site and sys.executable, "-c", "import ffosolve; ffosolve.Solver()", env=env)
        is_refused = why in ran.stderr and str(other) in ran.stderr
        assert (is_refused if why else ran.returncode == 0), ran


def archives(source, *kinds):
    """Builds archives of the package for Python in the folder `source`, one of each of `kinds`, such as "sdist", by
    the build backend. Returns the archives' paths."""
    pytest.importorskip("hatchling")
    hooks = [f"import sys, hatchling.build as made; print(made.build_{kind}(sys.argv[1]))" for kind in kinds]
    names = [PREFIX.make(sys.executable, "-Bc", hook, PREFIX.work, cwd=source).stdout.strip() for hook in hooks]
    return [PREFIX.work / name for name in names]


def test_pip_installs_the_packages_source_archive_and_an_editable_wheel():
    wanted = sorted(os.listdir(PREFIX.site / "ffosolve"))
    for path, place in zip(archives(PREFIX.work / "python", "sdist", "editable"), ("of-archive", "editable")):
        PREFIX.make(*PIP, "--target", PREFIX.work / place, path)
    assert sorted(os.listdir(PREFIX.work / "of-archive/ffosolve")) == wanted
    assert (PREFIX.work / "editable/ffosolve.pth").read_text() == str(PREFIX.work / "python/src")


def test_the_wheel_and_the_source_archive_are_fit_to_be_published():
    head, paths = f"ffosolve-{ffosolve.__version__}", archives(ROOT / "python", "wheel", "sdist")
    assert ([path.name for path in paths]) == [f"{head}-py3-none-any.whl", f"{head}.tar.gz"]
    with zipfile.ZipFile(paths[0]) as wheel, tarfile.open(paths[1]) as archive:
        licence, metadata = (wheel.read(f"{head}.dist-info/{name}") for name in ("LICENSE", "METADATA"))
        of_archive = [archive.extractfile(f"{head}/{name}").read() for name in ("LICENSE", "PKG-INFO")]
    assert (licence, of_archive) == (stored("LICENSE"), [licence, metadata])
    fields = email.message_from_string(metadata.decode())
    for field in ("Summary", "Author-email", "License", "Project-URL", "Requires-Python"):
        assert fields[field], field
    assert fields["Version"] == ffosolve.__version__
    assert fields["Description-Content-Type"] == "text/markdown"
    assert fields.get_payload() == inspect.getdoc(ffosolve) + "\n"
    assert run("twine", "check", "--strict", *paths, check=True).stdout.count(b"PASSED") == 2


@pytest.mark.parametrize("features", [(), ("--features", "shared")])
def test_the_crates_own_tests_pass_with_either_library(features):
    ran = PREFIX.cargo("test", *features)
    assert "warning" not in ran.stderr
    program = re.search(r"Running tests/calls.rs \((.*)\)", ran.stderr)[1]
    needed = PREFIX.make("readelf", "-d", PREFIX.work / program).stdout
    assert ("[libffosolve.so.1]" in needed) == bool(features), needed
    assert ran.stdout.count("\ntest result: ok. ") > 2, ran.stdout


def test_clippy_and_rustfmt_have_nothing_to_say():
    need("cargo-clippy", "cargo-fmt")
    PREFIX.cargo("clippy", "--quiet", "--all-targets", "--", "--deny", "warnings")
    PREFIX.cargo("fmt", "--check")


def test_a_missing_program_is_named_with_the_version_of_the_library():
    source = """fn main() {
    let position = ffosolve::Position::new(1, !1 << 20).expect("masks apart");
    print!("{}", ffosolve::Solver::new().threads(2).solve(position).expect_err("no program"));
}
"""
    calls = "".join(f"int {name}(void) {{ return 11203; }}\n" for name in PREFIX.calls)
    printed = PREFIX.make(PREFIX.rust_client_of("later", source, calls), env={"PATH": "/usr/bin:/bin"}).stdout
    assert printed.startswith("no process can be started: ffosolve 1.12.3 is neither beside "), printed


def test_a_changed_library_is_linked_anew():
    for number in (1, 2):
        calls = "".join(f"int {name}(void) {{ return {number}; }}\n" for name in PREFIX.calls)
        program = PREFIX.rust_client_of("anew", 'fn main() { print!("{}", ffosolve::library_version()) }', calls)
        assert PREFIX.make(program).stdout == str(number)


def test_the_compiler_that_the_manifest_names_takes_all_of_a_copy_of_the_crate_alone():
    crate = shutil.copytree(PREFIX.shipped / "rust", PREFIX.work / "oldest/rust")  # without what another cargo made
    oldest = re.search(r'^rust-version = "(.+)"$', (crate / "Cargo.toml").read_text(), re.MULTILINE)[1]
    folders = [folder for folder in os.get_exec_path() if os.path.exists(f"{folder}/rustc")
               and run(f"{folder}/rustc", "--version", text=True).stdout.startswith(f"rustc {oldest}.")]
    folder = folders[0] if folders else pytest.skip(f"rustc {oldest} is missing")
    env = {**PREFIX.environment, "RUSTC": f"{folder}/rustc", "CARGO_TARGET_DIR": str(PREFIX.work / "oldest/target")}
    PREFIX.make(f"{folder}/cargo", "check", "--quiet", "--all-targets", cwd=crate, env=env)


def test_the_library_gets_the_scoring_the_table_and_the_claim_that_were_asked_for():
    """Builds ASKED_IN_RUST with a made-up library, PRINTED_IN_C, whose functions print what they get."""
    program = PREFIX.rust_client_of("asked", ASKED_IN_RUST, PRINTED_IN_C)
    wanted = [*asked(0, 0, 4096, 65536), *asked(2, 5, 5, 5)]  # by default the tables that ffosolve.h suggests
    assert PREFIX.make(program).stdout.splitlines() == wanted


@pytest.fixture(scope="module")
def called(installed):
    """A function that runs CALLED_IN_RUST, by default for a game's start, with made-up programs that do `acts` and are
    of the version `of`. They are on the path, after files that can't be run, or elsewhere, in `folder`. The library is
    in `place`. Returns the lines that it prints, and the programs' notes."""
    @functools.cache
    def client(place):
        library = write(PREFIX.work / place / "libffosolve.a", PREFIX.archive.read_bytes()).parent
        return PREFIX.rust_client(f"called-{len(place)}", CALLED_IN_RUST, FFOSOLVE_LIB_DIR=str(library))

    def call(*words, acts="", of=VERSION, line=ffosolve.START.to_obf(), place="alone", folder="noting", **how):
        notes, path = write(PREFIX.work / "notes", ""), f"{PREFIX.work}/wrong:{PREFIX.work}/noting:/usr/bin:/bin"
        for name in ("ffosolve", "ffoscores"):
            write(PREFIX.work / folder / name, NOTING)
            write(PREFIX.work / "wrong" / name, "")
        env = {"PATH": path if folder == "noting" else "/usr/bin:/bin", "ACTS": acts, "OF": of, "NOTES": str(notes)}
        ran = PREFIX.make(client(place), line, *words, env=env, **how)
        return ran.stdout.splitlines(), notes.read_text().splitlines()

    return call


@pytest.mark.parametrize("words, workers", (
    (["3"], 2), (["1", "60"], 0), (["99"], 64), (["all", "60"], len(PROCESSORS) - 1)))
def test_programs_get_the_options_the_claim_and_lists_for_several_threads_or_a_timeout(called, words, workers):
    printed, notes = called(*words, preexec_fn=lambda: os.sched_setaffinity(0, PROCESSORS))
    answer, line = "Answer { score: -1, best: Moves(Squares(D3,C4)) }", ffosolve.START.to_obf()
    assert printed == [answer, answer, "[(D3, -1), (C4, 1)]", "15001"]
    options = f"--workers={workers} --table=1000000 --scoring=sign --max-empties=60"
    book = ["% ffobook 2 sign", ffosolve.START.canonical().to_obf(moves={"PS": -7})]
    assert notes == [
        f"ffosolve {options}", f" 1 {line}", f"ffosolve {options} --book-in=/dev/fd/N", *book, f" 1 {line}",
        f"ffoscores {options}", f" 1 {line}", f"ffosolve {options}", f" 15000 {line}", f"ffosolve {options}",
        f" 1 {line}"]


@pytest.mark.parametrize("place, folder", (
    ("a/lib64", "a/bin"), ("b/lib/x86_64-linux-gnu", "b/bin"), ("c/library", "c"), ("beside", "beside")))
def test_programs_are_found_by_the_place_of_the_library(called, place, folder):
    assert called("3", place=place, folder=folder)[0][-1] == "15001"


@pytest.mark.parametrize("words, how, why", (
    (["3"], {"of": "9.9.9"}, f"no process can be started: NAME {VERSION} is neither beside ALONE nor on the path"),
    (["3"], {"acts": "kill -9 $$"}, "the process that solved ended with status -9"),
    (["3"], {"acts": '[ "$1" = --version ] || exit 3'}, "the process that solved ended with status 3"),
    (["3"], {"acts": '[ "$1" = --version ] || exit 0'}, "the process that solved ended with status 0"),
    (["3"], {"acts": "[ $1 = --version ] || { NOTES=$NOTES.not; trap 'exit 3' EXIT; }"},
     "the process that solved ended with status 3"),
    (["3"], {"acts": '[ "$1" = --version ] || { echo "$name: out of memory" >&2; exit 1; }'}, "out of memory"),
    (["3"], {"preexec_fn": limited(RLIMIT_NOFILE=5)}, "no process can be started: Too many open files (os error 24)"),
    (["1", "0"], {}, "not finished within the timeout"),
    (["1", "0.3"], {"acts": "exec sleep 60"}, "not finished within the timeout"),
    (["3", "0.3"], {"acts": '[ "$1" = --version ] || exec sleep 60'}, "not finished within the timeout"),
))
def test_a_call_without_its_program_or_time_is_refused_with_the_reason(called, words, how, why):
    why = why.replace("ALONE", str(PREFIX.work / "alone"))
    names = ("ffosolve", "ffosolve", "ffoscores", "ffosolve")
    assert called(*words, **how) == ([why.replace("NAME", name) for name in names], [])


@pytest.mark.parametrize("words, empties, calls", (
    (["3"], 14, 3), (["1", "60"], 14, 3), (["3"], 15, 0), (["1", "60"], 15, 0), (["1"], 15, 4)))
def test_brief_calls_and_those_of_one_thread_without_a_timeout_need_no_program(called, words, empties, calls):
    ((own, opp),) = random_positions(1, [empties])
    line = ffosolve.Position(own, opp).to_obf()
    refused = ["is neither beside" in text for text in called(*words, of="9.9.9", line=line)[0]]
    assert refused == [False] * calls + [True] * (4 - calls)


def solvers_of(process):
    """Returns the processes of ffosolve that a process has started and that do not only tell their version."""
    running = [it for it in psutil.process_iter(["ppid", "name", "cmdline"]) if it.info["ppid"] == process.pid]
    return [it for it in running if it.info["name"] == "ffosolve" and "--version" not in it.info["cmdline"]]


def test_the_program_of_a_call_ends_with_its_process_and_in_rust_not_by_ctrl_c(start):
    """The position is the start of a game, which no program solves."""
    start_line, masks = ffosolve.START.to_obf(), [f"{mask:x}" for mask in ffosolve.START]
    rust = [PREFIX.rust_client("ended", CALLED_IN_RUST), start_line, 2]
    in_c = [PREFIX.compile(C, "all_processors", [PREFIX.shipped / "examples/c/all_processors.c"]), *masks]
    for words in (rust, in_c):
        ran = start("env", f"PATH={PREFIX.folder}/bin:{os.environ['PATH']}", *words)
        wait_until(lambda: solvers_of(ran))
        (solver,) = solvers_of(ran)
        if words == rust:
            ignored = re.search(r"SigIgn:\t(\w+)", Path(f"/proc/{solver.pid}/status").read_text())[1]
            assert int(ignored, 16) & 1 << signal.SIGINT - 1
        ran.kill()
        assert psutil.wait_procs([solver], timeout=SECONDS)[1] == []


def test_rust_reads_transcripts_as_the_table_says_and_others_as_python():
    rng, games = random.Random(8), random_games(500, seed=8)
    odd = ["", ",", "-", " - ", "\u2013", "--", "pass", "1.", " 12 ", "2001 ", " 3)", "%", "*", "x", " 33-31",
           " (40:24).", "[+4]", " +2", "[2]", "\x1c", "\u2003", "5", "\u0661"]
    wanted = [(text, f"{len(moves) + 1} {word}" if word else "{} {}".format(*masks_after(moves)))
              for moves, word, text in transcript_rows()]
    count = len(wanted)
    for game in games:
        words = [rng.choice((str, str.upper, " ".join))(NAMES[square].lower()) for square in squares_of(game)]
        parts = [it for word in words[:rng.randrange(60)] for it in (rng.choice([*odd, *[" "] * 400]), word)]
        text = "".join([*parts, rng.choice(odd)])
        try:
            wanted.append((text, "{} {}".format(*ffosolve.Solver().positions(text)[-1])))
        except ffosolve.GameRefused as why:
            wanted.append((text, str(why.move)))
    assert 100 < sum(" " in line for _, line in wanted[count:]) < 400
    program = PREFIX.rust_client("played", PLAYED_IN_RUST)
    printed = PREFIX.make(program, input="".join(f"{text}\0" for text, _ in wanted)).stdout.splitlines()
    for (text, line), found in zip(wanted, printed, strict=True):
        assert f"{found} ".startswith(f"{line} "), text


def test_a_folder_without_the_library_is_refused_and_pkg_config_asked_only_if_none_is_named():
    PREFIX.cargo("check", "--quiet", env={**PREFIX.environment, "FFOSOLVE_LIB_DIR": ""})
    ran = PREFIX.cargo("check", check=False, env={**PREFIX.environment, "FFOSOLVE_LIB_DIR": "/nowhere"})
    why = "/nowhere/libffosolve.a is missing: install ffosolve, or set FFOSOLVE_LIB_DIR to its folder"
    assert ran.returncode != 0 and why in ran.stderr, ran
