"""The library for C and C++: its files, header and calls, and the statuses in C, C++, Python and Rust. Python, C and
ffosolve read lines with random faults alike; Python and C read tests/rows/ffosolve/lines.tsv, too."""
import itertools
import random
import re
from unittest import mock

import pytest

import ffosolve
from ffosolve._refusals import REFUSALS, OtherRefusal
from tests.games import random_positions
from tests.library import LANGUAGES, Calls, declarations
from tests.prefix import LONGEST, NUMBER, PREFIX, STRICT, VERSION, C
from tests.support import built, limited, run, stored, worked_rows, write

pytestmark = [pytest.mark.usefixtures("installed"), pytest.mark.filterwarnings("ignore::ffosolve.ReadingWarning")]
COMPILERS = [*itertools.product(("cc", "clang"), ("c90", "c99", "c11", "c17", "c2x"), ("c",)),
             *itertools.product(("c++", "clang++"), ("c++11", "c++14", "c++17", "c++20"), ("cpp",))]
# The texts of the header that Python does not have.
TEXTS_OF_LINES = {"SKIPPED": "no position: the line is blank or a comment", "SHORT_BOARD": "fewer than 64 squares",
                  "BAD_SQUARE": "bad square", "BAD_SIDE": "bad side"}


def position(own, opp):
    return {"own": own, "opp": opp}


def answer(score, kind, best):
    return {"score": score, "kind": kind, "best": best}


def scores(of):
    """Returns a list of the scores in {square: score}, and of FFOSOLVE_NO_SCORE for other squares."""
    return [of.get(square, 127) for square in range(64)]


# Positions with two empty squares, before a pass, at the end of a game, at its start, and two that are refused.
CORNERS, PASSED = position(0xfffffff7ffff7f7c, 0x800008002), position(0x800008002, 0xfffffff7ffff7f7c)
PASS, OVER = position(0x7e, 0xffffffffffffff80), position(0xffffffff, 0xffff000000000000)
EMPTY, START = position(0, 2 ** 64 - 1), position(0x810000000, 0x1008000000)
SHARED, WIDE = position(3, 2), position(1, 6)
BOARD = b"-OXXXXX-XXXXXXXOXXXXXXXXXXXXXXXXXXXOXXXXXXXXXXXXXXXXXXXXXXXXXXXX"  # of CORNERS
CLAIM = answer(62, 0, 0x80)
MORE = ffosolve.MOST_ENTRIES + 1
# C code for a module that grants `granted` requests for memory, and refuses the next one.
REFUSING = """#include <stdlib.h>
static int granted;
void *__real_malloc(size_t size);
void *__wrap_malloc(size_t size) { return granted-- ? __real_malloc(size) : NULL; }
"""
# A program that makes each search for each position (OWN OPP) of its input, until one is refused.
SEARCHES = """#include "ffosolve.h"
#include <stdio.h>
int main(void) {
    ffosolve_position it;
    ffosolve_answer answer = {0, 0, 1};
    ffosolve_move_scores_of found;
    int is_refused = 0;
    while (!is_refused && scanf("%lu %lu", &it.own, &it.opp) == 2)
        is_refused = ffosolve_solve(it, 0, 1024, &answer) || ffosolve_confirm(it, 1, 0, answer, &answer) ||
                     ffosolve_move_scores(it, 2, 1024, found.scores, &found.moves) ||
                     ffosolve_solve_all(&it, 1, 0, 1024, &answer, 1, NULL);
    return is_refused;
}
"""
LINES, COLUMNS = worked_rows("ffosolve/lines")
MOVES = {**{ffosolve.square_name(number): (0, number) for number in range(64)}, "PS": (1, 64), "--": (2, 64)}  # in C
PIECES = b"| w|ps:-4;|--:0;|I1:+1|h8:64 ;|B2:+65;| |\t|%|;|:|?|-|X|O|b|\r|\0|\x80|\xff".split(b"|")
STATUSES_IN_RUST = """
fn main() {
    let position = ffosolve::Position::new(1, !1).expect("masks apart");
    for _ in 1..=99 {
        let (solved, read) = (ffosolve::Solver::new().solve(position), ffosolve::Line::from_obf(""));
        println!("{}; {}", solved.expect_err("a status"), read.expect_err("a status"));
    }
}
"""


def test_it_exports_and_the_crate_declares_exactly_the_calls_of_the_header():
    assert set(re.findall(r"pub fn (ffosolve_\w+)", stored("rust/src/raw.rs").decode())) == PREFIX.calls
    for words in (["-D", PREFIX.shared], ["-g", PREFIX.archive]):
        exported = {*re.findall(r" T (\w+)", PREFIX.make("nm", "--defined-only", *words).stdout)}
        assert exported == PREFIX.calls
        assert "ffosolve_solve" in exported


def test_the_shared_object_has_its_names_and_needs_only_the_c_library():
    major = VERSION.split(".")[0]
    for name in ("libffosolve.so", f"libffosolve.so.{major}"):
        assert (PREFIX.libraries / name).resolve().name == f"libffosolve.so.{VERSION}"
    printed = PREFIX.make("readelf", "-d", "-l", "-V", "-W", PREFIX.shared).stdout
    assert re.findall(r"\(NEEDED\).*\[(.*)\]", printed) == ["libc.so.6"]
    assert re.findall(r"GNU_STACK.*\b(RWE?)\b", printed) == ["RW"]
    for part in (f"soname: [libffosolve.so.{major}]", "GNU_RELRO", "BIND_NOW", f"Name: FFOSOLVE_{major}"):
        assert part in printed


def test_swig_wraps_the_header():
    write(PREFIX.work / "wrap.i", '%{\n#include "ffosolve.h"\n%}\n%include "stdint.i"\n%include "ffosolve.h"\n')
    PREFIX.make("swig", "-Wall", "-Werror", "-python", "-module", "wrap", f"-I{PREFIX.header.parent}", "wrap.i")
    made = (PREFIX.work / "wrap.py").read_text()
    for name in [f"def {name}(" for name in PREFIX.calls] + ["class ffosolve_position(", "class ffosolve_answer("]:
        assert name in made


@pytest.mark.parametrize(("compiler", "standard", "language"), COMPILERS)
def test_each_compiler_takes_the_header_in_each_standard_and_warns_if_a_status_is_ignored(compiler, standard, language):
    """Ignores the status of every function that returns one, whether it is in the library or inline in the header."""
    declared = re.findall(r"^(?:static __inline__ )?int32_t (ffosolve_\w+)\(([^)]*)\)", PREFIX.text, re.MULTILINE)
    names = {name for name, _ in declared}
    assert names >= {"ffosolve_solve", "ffosolve_solve_all_or_null", "ffosolve_read_line_or_null"}
    source = '#include "ffosolve.h"\nint main(void) { return FFOSOLVE_VERSION == 0; }\n'
    source += "".join(f"#undef {name}\n" for name in names)
    for name, parameters in declared:
        arguments = re.findall(r"(\w+)(?:\[\d+\])?(?:,|$)", parameters)
        source += f"void {name}_unused({parameters}) {{ {name}({', '.join(arguments)}); }}\n"
    file, words = write(PREFIX.work / f"unused.{language}", source), [compiler, f"-std={standard}"]
    PREFIX.make(PREFIX.compile([*words, *STRICT, "-Wno-unused-result"], "unused", [file]))
    errors = PREFIX.run(*words, "-Werror=unused-result", "-c", "-I", PREFIX.header.parent, file).stderr
    assert len(re.findall(r"\[-Werror[=,](?:-W)?unused-result\]", errors)) == len(names)


def test_a_status_has_one_name_number_and_text_in_each_language():
    """STATUSES_IN_RUST calls a made-up library: each function returns 1 at its first call, then 2, 3 and so on."""
    listed = re.findall(r"FFOSOLVE_(\w+) = (\d+)", PREFIX.text.split("enum ffosolve_status {")[1].split("}")[0])
    assert listed == [(it.name, str(it.value)) for it in ffosolve.Status]
    source = "".join(f"int {name}(void) {{ static int status; return ++status; }}\n" for name in PREFIX.calls)
    program = PREFIX.rust_client_of("statuses", STATUSES_IN_RUST, source)
    of_calls = {number: REFUSALS[number].reason for number in (1, 2, 4, 6, 7, 12)}
    of_lines = {number: REFUSALS[number]().reason for number in (7, 8, 9, 10, 11)}
    for number, in_rust in enumerate(PREFIX.make(program).stdout.splitlines(), 1):
        other = OtherRefusal(number).reason
        assert in_rust == f"{of_calls.get(number, other)}; {of_lines.get(number, other)}"


@pytest.fixture(scope="module", params=LANGUAGES)
def call(request, installed):
    declared = declarations() + "const char *ffosolve_status_text(int32_t status);"
    return Calls(f"calls_{request.param}", declared, language=request.param)


def test_names_have_their_numbers_and_the_library_has_the_limits_and_the_version_of_the_header(call):
    for kind, names in (("scoring", "WINNER DISCS SIGN"), ("kind", "MOVES PASS OVER"), ("side", "BLACK WHITE"),
                        ("limits", "LIMIT_ENTRIES LIMIT_EMPTIES LIMIT_SCORINGS"),
                        ("symmetry", " ".join(ffosolve.Symmetry.__members__))):
        assert call.ffi.typeof(f"enum ffosolve_{kind}").elements == {
            number: f"FFOSOLVE_{name}" for number, name in enumerate(names.split())}
    limits = [ffosolve.MOST_ENTRIES, 60, 3, 0]
    assert [call.lib.ffosolve_limit(number) for number in range(4)] == limits
    assert [call.lib.FFOSOLVE_MOST_ENTRIES, call.lib.FFOSOLVE_MOST_EMPTIES] == limits[:2]
    assert (call.lib.FFOSOLVE_NO_SCORE, call.lib.ffosolve_version()) == (127, NUMBER)
    texts = [TEXTS_OF_LINES.get(it.name) or REFUSALS[it].reason for it in ffosolve.Status if it.value]
    in_c = [call.ffi.string(call.lib.ffosolve_status_text(number)) for number in range(-1, len(texts) + 2)]
    assert b", ".join(in_c).decode() == ", ".join(["unknown status", "done", *texts, "unknown status"])


def test_the_header_and_the_packages_name_the_signs_of_a_win_a_draw_and_a_loss(call):
    ended = {"win": position(2 ** 64 - 1, 0), "draw": position(0xffffffff, 0xffffffff << 32), "loss": EMPTY}
    wanted = {name: call("solve", it, 2, 0)[1]["score"] for name, it in ended.items()}
    for text in (PREFIX.text, stored("rust/src/solvers.rs").decode(), ffosolve.Scoring.__doc__):
        (words,) = re.findall(r"(-?\d), (-?\d) or (-?\d)\s+for a (\w+), a (\w+) or a (\w+)", text)
        assert dict(zip(words[3:], map(int, words[:3]))) == wanted


def test_a_position_gets_its_answer_or_the_scores_of_its_moves(call):
    assert call("solve", PASSED, 0, 64) == [0, answer(-40, 0, 0x80)]
    assert call("solve", PASSED, 1, 64) == [0, answer(-39, 0, 0x80)]
    assert call("solve", PASSED, 2, 64) == [0, answer(-1, 0, 0x80)]
    assert call("solve", PASS, 0, 0) == [0, answer(-64, 1, 0)]
    assert call("solve", PASS, 2, ffosolve.MOST_ENTRIES) == [0, answer(-1, 1, 0)]
    assert call("solve", OVER, 0, 64) == [0, answer(32, 2, 0)]
    claims = [answer(*it) for it in itertools.product((62, 0, 1000, -64), (0, 1, 2, 7), (0x80, 0x81, 0))]
    assert call("confirm", CORNERS, 0, 64, claims) == [0, answer(62, 0, 0x80)]
    assert call("move_scores", CORNERS, 0, 64) == [0, *scores({0: 52, 7: 62}), 0x81]
    assert call("move_scores", CORNERS, 2, 0) == [0, *scores({0: 1, 7: 1}), 0x81]
    assert call("move_scores", [PASS, OVER], [0, 1, 2], [0, 64]) == [0, *scores({}), 0]


def test_a_list_gets_its_results_in_order(call):
    answers = [answer(62, 0, 0x80), answer(-40, 0, 0x80), answer(-64, 2, 0)]
    assert call("solve_all", (CORNERS, PASSED, EMPTY), 0, 64, 3) == [0, *answers]
    assert call("solve_all", (CORNERS, PASSED), 1, 64, 2) == [0, answers[0], answer(-39, 0, 0x80)]
    by_moves = (({0: 52, 7: 62}, 0x81), ({7: -40}, 0x80), ({}, 0))
    found = [{"scores": scores(of), "moves": moves} for of, moves in by_moves]
    assert call("move_scores_all", (CORNERS, PASSED, EMPTY), 0, 64, 3) == [0, *found]
    assert call(["solve_all", "move_scores_all"], (), [0, 1, 2], [0, 64], 0) == [0]


def test_a_scoring_then_a_table_then_a_number_then_the_first_wrong_position_is_refused(call):
    of_one, of_list = ["solve", "confirm", "move_scores"], ["solve_all", "move_scores_all"]
    assert call(of_one, [SHARED, PASSED], [3, 2 ** 32 - 1], [64, MORE, 2 ** 64 - 1], CLAIM) == [1]
    assert call(of_list, (SHARED,), 3, [MORE, 64], [0, 1]) == [1]
    assert call(of_one, SHARED, [0, 1, 2], MORE, CLAIM) == [2]
    assert call(of_list, (SHARED,), 2, MORE, [0, 1]) == [2]
    assert call(of_list, [(CORNERS, it) for it in (PASSED, WIDE, SHARED)], 0, 64, [0, 1, 3]) == [3]
    assert call("solve_all", (CORNERS, WIDE, SHARED), 0, 64, 2) == [3]
    assert call(of_one, SHARED, [0, 1, 2], [0, 64], CLAIM) == [4]
    assert call(of_list, (CORNERS, PASSED, SHARED), 0, 64, 3) == [4, 2]
    assert call(of_one, WIDE, [0, 1, 2], [0, 64], CLAIM) == [5]
    assert call(of_list, (CORNERS, WIDE, SHARED), 0, 64, 3) == [5, 1]


def test_moves_images_and_canonical_positions_follow_the_rules(call):
    assert call("moves", START) == [0, 0x102004080000]
    assert call("moves", CORNERS) == [0, 0x81]
    assert call("moves", position(0, 1)) == [0, 0]
    assert call("play", START, 19) == [0, position(0x1000000000, 0x818080000)]
    assert call("play", START, [0, 27, 63, 64, 255]) == [6]
    assert call(["moves", "play", "canonical"], position(5, 4), 200) == [4]
    images = [0x600, 0x6000, 0x6000000000000, 0x60000000000000, 0x20200, 0x404000, 0x2020000000000, 0x40400000000000]
    assert [call("image", 0x600, number) for number in range(8)] == [[0, image] for image in images]
    assert call("image", 0, [8, 255, 256, 2 ** 32 - 1]) == [12]
    for of, canonical, symmetry in (
        (position(0xffffffffffffff80, 0x7e), position(0x1ffffffffffffff, 0x7e00000000000000), 3),
        (position(0xffffffffffffff80, 0x7c), position(0x1ffffffffffffff, 0x3e00000000000000), 3),
        (position(0xffffffffffffff18, 0x66), position(0x18ffffffffffffff, 0x6600000000000000), 2),
        (PASS, position(0x7e, 0xffffffffffffff01), 1),
        (CORNERS, position(0x3efeffffefffffff, 0x4001000010000000), 3),
        (WIDE, WIDE, 0),
    ):
        assert call("canonical", of) == [0, canonical, symmetry]


def read_as(it, side, *moves, room=8):
    """Returns what ffosolve_read_line gives for a position, its side to move (0 black, 1 white), and (score, kind,
    square) for each listed move."""
    listed = [{"score": score, "kind": kind, "square": square} for score, kind, square in moves[:room]]
    return [0, {"position": it, "listed": len(moves), "side": side}, *listed]


def test_a_line_is_read_with_as_many_moves_as_have_room_or_its_first_fault_is_found(call):
    for room in range(4):
        read = read_as(CORNERS, 0, (62, 0, 7), (52, 0, 0), room=room)
        assert call("read_line", BOARD + b" X; H1:+62; a1:52;", room) == read
    odd = b" \t" + BOARD + b"\tw;PS:-4;;--:0;H8:+64 ;h1:+65;note;A1:-64% B1:1;"
    assert call("read_line", odd, 5) == read_as(PASSED, 1, (-4, 1, 64), (0, 2, 64), (64, 0, 63), (-64, 0, 0))
    assert call("read_line", BOARD + b" X", 5) == read_as(CORNERS, 0)
    assert call("read_line", BOARD + b"O", 5) == read_as(PASSED, 1)
    assert call("read_line", [b"", b" \t", b"  % X"], 5) == [8]
    assert call("read_line", BOARD[:62], 5) == [9, 62]
    assert call("read_line", BOARD[:63], 5) == [9, 63]
    assert call("read_line", b"?" + BOARD, 5) == [10, 1]
    assert call("read_line", [BOARD, BOARD + b"\0"], 5) == [11, 65]
    assert call("read_line", BOARD + b" ", 5) == [11, 66]
    assert call("read_line", b" " + BOARD + b"  -; H1:+62;", 5) == [11, 68]


@pytest.mark.parametrize("language", LANGUAGES)
def test_the_header_passes_on_no_null_pointer_of_an_empty_list_or_text(language):
    """In place of the library's calls, `called` gets what the inline functions of the header pass on."""
    inline = re.findall(r"^static __inline__ int32_t (\w+)_or_null(\([^)]*\))", PREFIX.text, re.MULTILINE)
    declared = re.sub(r"^\w+ \w+\([^;]*;", "", declarations(), flags=re.MULTILINE) + "".join(
        f'int32_t {name}_or_null{of}; extern "Python+C" int32_t {name}{of};' for name, of in inline)
    undefined = "".join(f"#undef {name}\n" for name, _ in inline)
    made = Calls(f"nulls_{language}", declared, undefined, language=language)
    called, null, line = mock.Mock(return_value=7), made.ffi.NULL, made.ffi.new("ffosolve_line *")
    for name, _ in inline:
        made.ffi.def_extern(name)(called)
        given = (null, 0, line, null, 0, null) if "line" in name else (null, 0, 2, 65, null, 0, null)
        assert getattr(made.lib, f"{name}_or_null")(*given) == 7
    passed = [[it if isinstance(it, int) else it != null for it in call.args] for call in called.call_args_list]
    assert passed == [[True, 0, 2, 65, True, 0, True]] * 2 + [[True, 0, True, True, 0, True]]


def test_a_call_without_memory_returns_its_status():
    """Each call is made five times: the first request for memory is refused, the second one, and so on."""
    call = Calls("memory", declarations() + "extern int granted;", REFUSING, "-Wl,--wrap=malloc")
    for requests, *words in (
        (2, "solve", CORNERS, 0, 64), (2, "confirm", CORNERS, 0, 64, CLAIM), (2, "move_scores", CORNERS, 0, 64),
        (2, "solve_all", (CORNERS,), 0, 64, 1), (2, "move_scores_all", (CORNERS,), 0, 64, 1),
        (1, "read_line", BOARD + b" X;A1:0", 0), (0, "solve", CORNERS, 0, 0),
    ):
        found = []
        for granted in range(5):
            call.lib.granted = granted
            found.append(call(*words))
        assert found == [[7]] * requests + [[0, *found[-1][1:]]] * (5 - requests)


def test_the_stack_that_the_header_names_is_enough():
    """Calls for 14 empty squares return on a stack of 32 KiB. On one of 128 KiB, a call for the first position of a
    game does not crash within two seconds."""
    assert "32 KiB are enough for 14 empty squares and 128 KiB for 60" in re.sub(r"\s+", " ", PREFIX.text)
    program = PREFIX.compile(C, "searches", [write(PREFIX.work / "searches.c", SEARCHES)])
    text = "".join(f"{own} {opp}\n" for own, opp in random_positions(20, [14]))
    PREFIX.make(program, input=text, env={}, preexec_fn=limited(RLIMIT_STACK=32 << 10))
    how = {"input": "{own} {opp}\n".format(**START), "preexec_fn": limited(RLIMIT_STACK=128 << 10)}
    assert PREFIX.run("timeout", "2", program, env={}, **how).returncode == 124


def read(source, shown, reader=ffosolve.parse_lines):
    """Reads `source` by `reader`, a function of the Python package. Returns {line number: what `shown` returns for the
    line's Position or for the error} without blank lines and comments."""
    refused = []
    found = {line.number: shown(line) for line in reader(source, refused=refused.append)}
    return found | {error.line: shown(error) for error in refused}


def row(it):
    """Returns `OWN OPP SIDE MOVE:SCORE ..`, with masks of 16 hex digits, or `refused: ` and the reason."""
    if isinstance(it, ffosolve.LineRefused):
        return f"refused: {it.reason}"
    return f"{it.own:016x} {it.opp:016x} {it.side}" + "".join(" %s:%s" % move for move in it.listed)


def in_c(it):
    """Returns what the call ffosolve_read_line gives for the same line, with room for eight listed moves."""
    if isinstance(it, ffosolve.LineRefused):
        return [it.status, it.at]
    listed = [(score, *MOVES[move]) for move, score in it.listed]
    return read_as(position(it.own, it.opp), "XO".index(it.side), *listed)


@pytest.fixture(scope="module")
def text():
    """Random lines of LINES with up to three PIECES, each inserted or put in place of some bytes."""
    chance = random.Random(5)
    lines = chance.choices(LINES, k=10_000)
    for number, line in enumerate(lines):
        for _ in range(chance.randrange(4)):
            at = chance.choice((chance.randrange(64), chance.randrange(64, 80)))
            line = line[:at] + chance.choice(PIECES) + line[at + chance.choice((0, 0, 1, 5, 99)):]
        lines[number] = line
    return b"\n".join(lines)


def test_python_and_c_read_worked_and_odd_lines_alike(call, text):
    worked = {number: cell.decode() for number, cell in enumerate(COLUMNS["read"], 1) if cell}
    for lines, wanted in ((b"\n".join(LINES), worked), (text, read(text, row))):
        assert read(lines, row) == wanted
        assert read((line + b"\n" for line in lines.split(b"\n")), row, ffosolve.read_lines) == wanted
        found = [call("read_line", line.removesuffix(b"\r"), 8) for line in lines.split(b"\n")]
        assert {number: what for number, what in enumerate(found, 1) if what != [8]} == read(lines, in_c)


def test_the_report_of_odd_lines_is_what_python_finds(text):
    ran = run(built(), "--max-empties=20", input=text, check=True, timeout=LONGEST)
    report = ran.stdout.decode().splitlines()[1:-1]
    assert report == [f"{number} {words}" for number, words in sorted(read(text, reported).items())]
    kinds = {re.sub(r"\d+", "N", row.partition(" ")[2]) if "refused" in row else row.split()[-1] for row in report}
    refused = ("N empties, limit N", "board has N of N squares", "bad square at column N", "bad side at column N")
    assert kinds >= {"agree", "differ", "unlisted", *(f"refused: {why}" for why in refused)}


def reported(it):
    """Returns what ffosolve --max-empties=20 prints after the line's number."""
    if isinstance(it, ffosolve.LineRefused):
        return f"refused: {it.reason}"
    if it.empties > 20:
        return f"refused: {it.empties} empties, limit 20"
    answer = ffosolve.Solver(PREFIX.shared).solve(it)
    most = max((score for _, score in it.listed), default=None)
    best = {move for move, score in it.listed if score == most}
    agrees = most == answer.score and best <= set(str(answer).split()[1].split(","))
    return f"{answer} {'unlisted' if not it.listed else 'agree' if agrees else 'differ'}"
