"""compare_scores in Python: how far an evaluation's scores are from those that a Solver finds, that ffoscores printed,
or that are known."""
import inspect
import io
import math
import re
from pathlib import Path
from unittest import mock

import pytest

from tests.support import built, run, stored, write
from ffosolve import Position, Solver, TimedOut, compare_scores, masks_of

BOARD = "-OXXXXX-XXXXXXXOXXXXXXXXXXXXXXXXXXXOXXXXXXXXXXXXXXXXXXXXXXXXXXXX X;"
AT_PASS = "-OOOOOOXXXXXXXXXXXXXXXXXXXXXXXXXXXXXXXXXXXXXXXXXXXXXXXXXXXXXXXXX O;"  # -64
BOTH = Position.from_obf(BOARD), Position.from_obf(AT_PASS)
MOVES = {"H1": 62, "A1": 52}  # of BOARD
LONG = "9" * 400
LISTED = f"""% an evaluation
{BOARD} H1:+62; A1:+52;

{BOARD} a1:60.5;\tH1:+61.75 ;% by version 2
{BOARD} H1:+62.0; H1:.5; A1:70.
{AT_PASS} Ps:-60;
{BOARD} D4:+2; PS:+64; A1 :+52; H1:6e1; note
{BOARD}
{BOARD[:60]}
"""
KINDS, SCORES = (stored("examples", f"kinds.{end}").splitlines() for end in ("obf", "scores"))


def told(found):
    """The fields of a comparison up to `unread`, with None for NaN; of a wrong score, those before its position."""
    fields = [None if it != it else it for it in vars(found).values()][:14]
    assert all(it.position.to_obf()[:64] in LISTED + "".join(map(Position.to_obf, BOTH)) for it in found.wrong)
    return (*fields[:2], [it[:4] for it in found.wrong], *fields[3:])


@pytest.fixture
def scored(folder):
    """The lines that ffoscores prints for LISTED. The files list.obf and list.scores have LISTED and these lines."""
    write("list.obf", LISTED)
    write("list.scores", printed := run(built("ffoscores"), "list.obf").stdout)
    return printed.splitlines()


def test_errors_are_the_differences_of_the_scores(scored):
    wrong = [(4, "A1", 60.5, 52), (4, "H1", 61.75, 62), (5, "H1", 0.5, 62), (5, "A1", 70, 52), (6, "PS", -60, -64)]
    errors = [8.5, -0.25, -61.5, 18, 4]
    sizes = list(map(abs, errors))
    found = compare_scores("list.obf", "list.scores")
    square, square_of_others = (8.5**2 + 0.25**2 + 61.5**2 + 18**2 + more for more in (16, 0))
    assert told(found) == (6, 8, wrong, sum(sizes) / 8, math.sqrt(square / 8), sum(errors) / 8, 61.5, 3, 10 / 3, 2 / 3,
                           {9: "board has 60 of 64 squares"}, 0, 2, 3)
    assert [it.error for it in found.wrong] == sizes
    assert str(found) == ("lines 6 moves 8 wrong 5 mean error 11.53 root mean square 22.90 bias -3.91 greatest 61.5 "
                          "choices 3 mean loss 3.33 best 67% refused 1 unsolved 0 illegal 2 unread 3")
    pass_alone = (1, 1, wrong[4:], 4, 4, 4, 4, 0, None, None, {}, 0, 0, 0)
    others = (5, 7, wrong[:4], 88.25 / 7, math.sqrt(square_of_others / 7), -35.25 / 7, 61.5, 3, 10 / 3, 2 / 3, {}, 0,
              2, 3)
    assert [(count, told(part)) for count, part in found.by_empties.items()] == [(1, pass_alone), (2, others)]
    assert str(found.by_empties[1]).endswith(" greatest 4 choices 0 refused 0 unsolved 0 illegal 0 unread 0")


def test_a_solver_finds_what_ffoscores_prints(scored):
    wanted = compare_scores("list.obf", "list.scores")
    for solver in (None, Solver(), Solver(entries=64)):
        assert compare_scores("list.obf", solver, threads=2) == compare_scores(LISTED.splitlines(), solver) == wanted
    found = compare_scores("list.obf", Solver(max_empties=1))
    two, short = "2 empty squares, which Solver(max_empties=2) takes", "board has 60 of 64 squares"
    assert told(found)[:2] + (found.refused,) == (1, 1, {**dict.fromkeys((2, 4, 5, 7, 8), two), 9: short})
    write("list.scores", run(built("ffoscores"), "--max-empties=1", "list.obf").stdout)
    two = "2 empties, limit 1, which --max-empties 2 takes"
    assert compare_scores("list.obf", "list.scores").refused == {**dict.fromkeys((2, 4, 5, 7, 8), two), 9: short}
    assert told(compare_scores([f"{BOARD} H1:+60;"], Solver(scoring="sign")))[2] == [(1, "H1", 60, 1)]


def test_positions_have_scores_without_a_file():
    board, at_pass = BOTH
    over = board.play("H1").play_all("")
    found = compare_scores({board: 60.5, at_pass: -64})
    root = math.sqrt(1.5**2 / 2)
    assert told(found) == (2, 2, [(1, None, 60.5, 62)], 0.75, root, -0.75, 1.5, 0, None, None, {}, 0, 0, 0)
    assert list(found.by_empties) == [1, 2]
    moves = {"h1": 3, "A1": 3.5, "D4": 9}
    found = compare_scores(iter([(board, moves), (at_pass, {"PS": -64}), (board, {"H1": 62}), (over, {})]))
    root = math.sqrt((59**2 + 48.5**2) / 4)
    assert told(found) == (4, 4, [(1, "H1", 3, 62), (1, "A1", 3.5, 52)], 107.5 / 4, root, -107.5 / 4, 59, 2, 5, 0.5, {},
                           0, 1, 0)
    assert compare_scores([(board, {"A1": 52, "H1": 52})]).mean_loss == 10  # of equal ones the first


@pytest.mark.parametrize("listed, known, by_moves, alone", (
    ([(BOTH[0], 1), (BOTH[0], 2), (BOTH[1], 3), (BOTH[1], {"PS": 4})], {}, [], BOTH),
    ([(BOTH[0], 1), (BOTH[0], {"A1": 2}), (BOTH[0], {"H1": 2}), (BOTH[1], 3)], {}, BOTH[:1], BOTH[1:]),
    ([(BOTH[0], 1), (BOTH[1], {"PS": 4})], {BOTH[0]: 62, tuple(BOTH[1]): -64}, [], []),
    ([(BOTH[0], {"H1": 1})], {BOTH[0]: Solver().solve(BOTH[0])}, BOTH[:1], []),
    ([(BOTH[0], {"H1": 1}), (BOTH[0], 1), (BOTH[1], 1)], {BOTH[0]: MOVES, BOTH[1]: {}}, [], BOTH[1:]),
    ([(BOTH[0], {}), (BOTH[1], {})], {}, [], []),
))
def test_each_position_is_solved_once_unless_it_is_known_and_its_moves_only_if_they_have_scores(
        listed, known, by_moves, alone):
    solver = mock.Mock(spec=Solver, wraps=Solver(), max_empties=2)
    found = compare_scores(listed, solver, known=known, threads=3)
    assert (told(found), found.lines) == (told(compare_scores(listed)), len(listed))
    for call, positions in ((solver.move_scores_all, by_moves), (solver.solve_all, alone)):
        assert call.call_args == mock.call(list(positions), threads=3, timeout=None, each=None)


def test_arrays_of_answers_are_known():
    pytest.importorskip("numpy")
    lines, answers = [BOARD[:60], "", BOARD, f"{AT_PASS} PS:-60;", BOARD], Solver().solve_arrays(*masks_of(BOTH * 2))
    found = compare_scores(lines, Solver(max_empties=0), known=type(answers)(*(it[:3] for it in answers)))
    assert (found.lines, [*found.refused], told(found)[2]) == (3, [1], [(4, "PS", -60, -64)])
    with pytest.raises(ValueError, match="^4 known scores are not those of 3 positions$"):
        compare_scores(lines, known=answers)


def test_a_timeout_is_for_both_calls():
    for scores in (2, {"F5": 2}):
        listed = {Position.start(): scores, BOTH[0]: 60, BOTH[1]: {"PS": -60}}
        solver = Solver(max_empties=60)
        with pytest.raises(TimedOut, match="^not finished within 1 seconds; positions solved: [0-2] of 3$") as late:
            compare_scores(listed, solver, timeout=1)
        found = late.value.found
        assert (found.unsolved, found.lines, list(found.by_empties)[-1]) == (3 - found.lines, late.value.done, 60)
        for limited in (compare_scores(listed, solver, each=0.1), compare_scores(
                listed, known={it: None if it == Position.start() else solver.solve(it) for it in listed})):
            assert (limited.lines, limited.unsolved, limited.by_empties[60].unsolved) == (2, 1, 1)
            assert [it.error for it in limited.wrong] == [2, 4]
    with pytest.raises(ValueError, match="^timeout is at least 0, not -1$"):
        compare_scores({BOTH[0]: 60}, timeout=-1)
    solver = mock.Mock(spec=Solver, wraps=Solver(), max_empties=2)
    assert compare_scores(dict.fromkeys(BOTH, 2), solver, timeout=9).lines == 2
    assert 8 < solver.solve_all.call_args.kwargs["timeout"] < solver.move_scores_all.call_args.kwargs["timeout"] < 9


@pytest.mark.parametrize("listed, known, error, why", (
    ({BOTH[0]: "60"}, {}, TypeError, "the score of a position is a number, not '60'"),
    ({BOTH[0]: {"H1": None}}, {}, TypeError, "the score of H1 is a number, not None"),
    ({BOTH[0]: {"H9": 2}}, {}, ValueError, "a move is the name of a square, PS or --, not 'H9'"),
    ({BOTH[0]: {"h1": float("nan")}}, {}, ValueError, "the score of H1 is a finite number, not nan"),
    ({BOTH[0]: float("-inf")}, {}, ValueError, "the score of a position is a finite number, not -inf"),
    *((wrong, {}, TypeError, ".*") for wrong in (7, [7], [(1, 2, 3)], [("A1", 3)])),
    *(({BOTH[0]: 60}, {BOTH[0]: wrong}, ValueError, f"not the exact scores of the legal moves in {BOARD} .*")
      for wrong in (65, -66, 1.5, {"H1": 62}, {**MOVES, "B1": 2}, {"PS": 2}, {"H1": 1, "A1": 99})),
))
def test_lists_and_scores_that_do_not_fit_are_refused(listed, known, error, why):
    with pytest.raises(error, match=f"^{why}$"):
        compare_scores(listed, known=known)


def test_scores_of_many_digits_are_not_read(scored):
    texts = (LONG, f"+{LONG}.5", "-" + "9" * 5000, f"1e{LONG}", f".{LONG}x", "9" * 16)
    found = compare_scores([f"{BOARD} A1:{text}; H1:+62.{LONG}" for text in texts], [scored[1]] * len(texts))
    assert told(found)[:3] == (6, 6, [(at, "H1", 63.0, 62) for at in range(1, 7)])
    assert (found.illegal, found.unread) == (0, 6)
    found = compare_scores([f"{BOARD} A1:-{'9' * 15}; H1:000000000000062.0"], scored[1:2])
    assert (found.greatest_error, found.moves, found.unread) == (10 ** 15 + 51, 2, 0)


def test_paths_files_and_lines_are_read_alike(scored):
    wanted, printed = compare_scores("list.obf", "list.scores"), b"\n".join(scored)
    with open("list.obf", encoding="utf-8") as listed, open("list.scores", encoding="utf-8") as file:
        assert compare_scores(listed, file) == wanted
    assert compare_scores(Path("list.obf"), scored) == wanted
    assert compare_scores(LISTED.replace("\n", "\r\n").splitlines(True), io.BytesIO(printed)) == wanted
    with pytest.raises(TypeError):
        compare_scores(LISTED, "list.scores")
    with pytest.raises(FileNotFoundError):
        compare_scores("list.obf", "none.scores")


def test_lines_of_every_kind_are_counted():
    found = compare_scores(KINDS, SCORES)
    assert (found.lines, found.moves, found.mean_error, found.greatest_error) == (8, 11, 27 / 11, 12)
    assert (len(found.refused), found.illegal, found.unread) == (5, 0, 3)
    assert [it[:3] for it in found.wrong] == [(3, "H1", 60), (4, "A1", 62), (12, "A1", 64.0), (12, "H1", 65)]
    for found in (compare_scores(SCORES, SCORES), compare_scores(SCORES)):
        assert told(found)[:7] + told(found)[8:11] == (8, 13, [], 0, 0, 0, 0, 0, 1, {})


@pytest.mark.parametrize("empty", ([], ["% X", ""]))
def test_an_empty_list_has_no_errors(empty):
    for found in (compare_scores(empty, empty), compare_scores(empty)):
        assert told(found) == (0, 0, [], None, None, None, 0, 0, None, None, {}, 0, 0, 0) and found.by_empties == {}
        assert str(found) == "lines 0 moves 0 wrong 0 choices 0 refused 0 unsolved 0 illegal 0 unread 0"


def test_the_worst_positions_are_boards_with_both_scores(scored, tmp_path):
    """The board is in several lines: its greatest error is in line 5."""
    found = compare_scores("list.obf", "list.scores")
    board, at_pass = worst = found.worst()
    assert (board.line, board.error, board.listed, board.exact) == (5, 61.5, {"H1": 0.5, "A1": 70}, {None: 62, **MOVES})
    assert (at_pass.line, at_pass.listed, at_pass.exact) == (6, {"PS": -60}, {None: -64, "PS": -64})
    assert (found.worst(1), [*found.by_empties[1].worst()]) == ([board], [at_pass])
    text = str(worst)
    assert re.search(r"^line 5: error 61.5\n +A .*\n1 +\+52\(\+70\) .* \+62\*\(\+0.5\)\n", text)
    assert text.endswith("\nO has to pass: -64 (-60)")
    alone = compare_scores({BOTH[0]: 60}).worst()[0]
    assert str(alone.show()).endswith("\nX is to move: +62 (+60)") and alone._repr_svg_() == alone.show()._repr_svg_()
    assert compare_scores({BOTH[0]: 62}).worst() == []


def test_a_notebook_shows_a_table_and_a_page_has_the_boards_too(scored, tmp_path):
    found = compare_scores([*LISTED.splitlines(), f"{BOARD[:65]}< X"], Solver())
    found.save(tmp_path / "errors.html")
    page = (tmp_path / "errors.html").read_text()
    assert all(part in page for part in (found._repr_html_(), found.worst()._repr_html_(), "<title>", "charset"))
    rows = [re.sub("<[^>]*>", " ", row).split() for row in re.findall("<tr>(.*?)</tr>", found._repr_html_())]
    assert [row[:5] for row in rows[1:]] == [["1", "1", "1", "1", "4.00"], ["2", "5", "7", "4", "12.61"],
                                             ["all", "6", "8", "5", "11.53"]]
    assert (rows[1][5:], rows[3][5:]) == (["4.00", "+4.00", "4"], ["22.90", "-3.91", "61.5", "3.33", "67%"])
    assert re.findall("width: ([0-9]+)px", found._repr_html_()) == ["38", "120", "110"]
    assert "<p>1 refused: board has 60 of 64 squares<br>1 refused: bad side at column 66<br>unsolved: 0;" in page
    assert "nan" not in compare_scores([])._repr_html_()
    for tag in ("svg", "td", "tr", "table", "figure", "p", "body", "html"):
        assert page.count(f"</{tag}>") == len(re.findall(f"<{tag}[ >]", page)), tag
    with pytest.raises(ValueError, match="a comparison is saved as a page, so its file's name ends with .html: it.htm"):
        found.save("it.htm")


def test_wrong_scores_become_a_table_of_pandas(scored):
    pandas = pytest.importorskip("pandas")
    table = pandas.DataFrame(compare_scores("list.obf", "list.scores").wrong)
    assert [*table.columns] == ["line", "move", "listed", "exact", "position"]
    assert (table.listed - table.exact).abs().tolist() == [8.5, 0.25, 61.5, 18, 4]
    assert [*table.position] == [BOTH[0]] * 4 + [BOTH[1]]


def test_the_help_shows_how_to_see_progress():
    """In place of tqdm, a function that has its arguments."""
    code = inspect.getdoc(compare_scores).split("With tqdm, this shows how far it is:\n\n")[1].split("\n\n")[0]
    seen = {"solver": Solver(), "positions": BOTH, "evaluated": {BOTH[0]: {"H1": 60}, BOTH[1]: {"PS": -60}},
            "compare_scores": compare_scores, "tqdm": lambda of, total: (seen.update(total=total), of)[1]}
    exec(inspect.cleandoc(code), seen)
    assert (seen["total"], seen["found"].mean_error) == (2, 3)


def refuses(number, listed, scored):
    why = f"^line {number} of the scores is not what ffoscores prints for line {number} of "
    with pytest.raises(ValueError, match=why):
        compare_scores(listed, scored)


def test_output_for_another_list_is_refused(scored):
    listed, other = LISTED.encode().splitlines(), scored[1][:35] + b"X" + scored[1][36:]  # with the same moves
    refuses(2, listed, [scored[0], other, *scored[2:]])
    refuses(5, listed, scored[:4])
    refuses(10, listed, scored + scored[1:2])
    refuses(9, listed, scored[:8] + scored[1:2])
    refuses(1, listed[1:], scored)
    refuses(3, listed, scored[:1] + scored[3:])
    refuses(3, KINDS, KINDS)  # the list again


@pytest.mark.parametrize("line, moves, others", (
    (SCORES[1], 2, (b"", b"H1:+62;", b"A1:+52;", b"H1:+62; A1:+52; D4:+2;", b"H1:+62; A1:+52; PS:+2;",
                    b"H1:+62; A1:+52; H1:+62;", b"PS:+62;", b"--:+62;", b"H1:+62; A1:+52.0;", b"% H1:+62; A1:+52;")),
    (SCORES[5], 1, (b"--:-64;", b"A1:-64;", b"B1:-64;")),
    (SCORES[6], 1, (b"PS:+32;", b"A1:+32;", b"B1:+32;")),
))
def test_scores_of_some_moves_or_of_others_are_refused_and_a_pass_and_the_end_of_a_game_are_moves(line, moves, others):
    assert compare_scores([line], [line]).moves == moves
    for other in others:
        refuses(1, [line], [line[:67] + b" " + other])
