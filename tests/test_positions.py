"""The class Position: its rules, compared with bench/player.py, its text and pictures."""
import io
import itertools
import os
import random
import re
import sys

import pytest

from bench import player

from .support import ROOT, run
from .games import NAMES, positions_of, random_games, squares_of, transcript
from ffosolve import Answer, Kind, Position, ReadingWarning, Scoring, Solver, parse_lines

# In the first position White has no move; in the second neither side has one, and 16 squares are empty.
AT_PASS = "-OOOOOOXXXXXXXXXXXXXXXXXXXXXXXXXXXXXXXXXXXXXXXXXXXXXXXXXXXXXXXXX O;"
FINISHED = "XXXXXXXXXXXXXXXXXXXXXXXXXXXXXXXX----------------OOOOOOOOOOOOOOOO X;"
BOARD = "--XXXXX--OOOXX-O-OOOXXOX-OXOXOXXOXXXOXXX--XOXOXX-XXXOOO--OOOOO-- X;"
SCORES = {"A2": 38, "b1": 36, "H8": -40, "A1": 38, "H1": 0}  # of moves in BOARD


def test_moves_passes_and_ends_are_those_of_the_plain_player():
    ends = 0
    for own, opp, is_black, _ in itertools.chain(*(player.random_game(random.Random(seed)) for seed in range(60))):
        position, other = Position(own, opp, "OX"[is_black]), player.moves(opp, own) != 0
        numbers = [square.bit_length() - 1 for square in player.squares_in(player.moves(own, opp))]
        names = [NAMES[number] for number in numbers]
        assert (position.legal_moves, position.must_pass) == (names, not names and other)
        assert position.is_over == (not names and not other)
        moves = *range(-1, 66), *NAMES, *map(str.lower, NAMES), "PS"
        taken = [move for move in moves if position.is_legal(move)]
        assert taken == numbers + names + [*map(str.lower, names)] + ["PS"] * position.must_pass
        for number, name in zip(numbers, names):
            after = player.line(*player.after(own, opp, 1 << number), not is_black)
            assert [position.play(move).to_obf() for move in (name, name.lower(), number)] == [after] * 3
        if position.is_over:
            ends += 1
            scores = player.values(own, opp)
            assert [position.score(scoring) for scoring in Scoring] == list(scores)
            assert (position.score(), position.score("discs")) == scores[:2]
    assert ends == 60


def test_a_transcript_plays_on_from_any_position():
    start = Position.start()
    for number, game in enumerate(random_games(100, seed=77)):
        squares, text = squares_of(game), transcript(game).upper()
        cut, known = number % len(squares), positions_of(squares)
        middle, end = start.play_all(text[:2 * cut]), player.line(*known[min(known)])
        assert middle.to_obf() == player.line(*known[60 - cut])
        with_passes = [NAMES[move] if move is not None else "--" for move in game]
        noted = " ".join(with_passes) + " pass pass 33-31 % f5"
        for at, moves in ((middle, text[2 * cut:]), (middle, squares[cut:]), (start, with_passes), (start, noted)):
            found = at.play_all(moves)
            assert end in (found.to_obf(), found.passed().to_obf())
            assert found.is_over


def test_only_rules_and_solvers_need_a_library_and_rules_take_that_of_a_solver():
    code = """if True:
        import sys
        from ffosolve import START, LibraryNotFound, Solver, read_lines
        position, = read_lines([sys.argv[2]])
        print(position.to_obf())
        print(position.show())
        for call in (Solver, lambda: START.legal_moves):
            try:
                print(call())
            except LibraryNotFound as error:
                print(type(error).__name__)
        print(Solver(sys.argv[1]).solve(position), START.legal_moves)
    """
    words = (sys.executable, "-c", code, os.path.abspath(os.environ["FFOSOLVE_LIBRARY"]), AT_PASS)
    ran = run(*words, cwd=ROOT / "python/src", env={"FFOSOLVE_LIBRARY": "/nowhere/it.so"}, text=True)
    shown = f"{AT_PASS}\n{Position.from_obf(AT_PASS)}\n"
    found = "LibraryNotFound\nLibraryNotFound\n-64 PS ['D3', 'C4', 'F5', 'E6']\n"
    assert ran.stdout == shown + found, ran.stderr


def test_an_answer_reads_as_its_row_of_a_report_and_its_board_names_a_pass_and_an_end():
    for line, text, mover, state in (
        (AT_PASS, "-64 PS", "White", "has to pass: -64"),
        (FINISHED, "+32 --", "Black", "scores +32: the game is over"),
        (AT_PASS.replace(" O", " X"), "+64 A1", "Black", "is to move"),
    ):
        position = Position.from_obf(line)
        answer = Solver().solve(position)
        board, scores = position.show(answer), dict.fromkeys(answer.squares, answer.score)
        assert (str(answer), str(board)) == (text, str(position.show(scores)).replace("is to move", state))
        for it in (board, *[position, position.show({}), position.show(side="X")] * position.is_over):
            assert it._repr_svg_().count(f">{mover} {state}</text>") == 1
    two = Answer(0, Kind.MOVES, 0x81)
    assert (str(two), f"{two}", f"{two:>10}") == ("+00 A1,H1", "+00 A1,H1", " +00 A1,H1")
    assert repr(two) == "Answer(score=0, kind=<Kind.MOVES: 0>, best=129)"


def test_a_board_as_text_has_letters_scores_and_the_side_to_move():
    position = Position.from_obf(BOARD)
    rows = [f"{row + 1} {' '.join(BOARD[8 * row:8 * row + 8])}" for row in range(8)]
    assert str(position).splitlines() == ["  A B C D E F G H", *rows, "X is to move"]
    of_white = Position.from_obf(BOARD.replace(" X;", " O;"))
    assert str(of_white).splitlines() == ["  A B C D E F G H", *rows, "O is to move"]
    assert str(Position(*of_white)) == str(of_white).translate(str.maketrans("XO", "OX"))
    shown = str(position.show(SCORES, side="O")).splitlines()
    assert shown[1] == "1 +38*  +36    O    O    O    O    O   +0"
    assert (shown[2][:6], shown[8][-4:], shown[-1]) == ("2 +38*", " -40", "O is to move")


def picture(svg):
    """Returns a function from x and y, in pixels from the left and the top, to the picture's colour there (hex)."""
    png = run("rsvg-convert", input=svg.encode(), check=True).stdout
    picture = pytest.importorskip("PIL.Image").open(io.BytesIO(png)).convert("RGB")
    return lambda x, y: "".join(f"{part:02x}" for part in picture.getpixel((x, y)))


def test_a_picture_has_discs_scores_and_marks_in_their_squares():
    """A square is 44 pixels wide, and the margin 22. A disc covers the middle of its square, but no corner."""
    position, corners = Position.from_obf(BOARD), [(22 + 44 * (at % 8), 22 + 44 * (at // 8)) for at in range(64)]
    assert "".join(re.findall(r">(\w)</text>", position._repr_svg_())) == "A1B2C3D4E5F6G7H8"
    black, white, green, yellow = "111111", "fafafa", "2f8f5b", "ffd54a"
    for board, mover, other in ((position, black, white), (position.show(side="O"), white, black)):
        at = picture(board._repr_svg_())
        colours = {"X": mover, "O": other, "-": green}
        assert [at(x + 22, y + 22) for x, y in corners] == [colours[letter] for letter in BOARD[:64]]
        assert ({at(x + 4, y + 4) for x, y in corners}, at(32, 391)) == ({green}, mover)
    at = picture(position.show(SCORES)._repr_svg_())
    for name, letter, (x, y) in zip(NAMES, BOARD, corners):
        assert at(x + 4, y + 4) == (yellow if name in ("A1", "A2") else green), name
        colours = {at(x + right, y + down) for right in range(8, 36) for down in range(14, 30)}
        if letter == "-":
            assert (len(colours) > 3) == (name in ("A1", "A2", "B1", "H1", "H8")), name


@pytest.mark.parametrize("side, mover", (
    ("blanc", "X"), ("bianco;", "X"), ("wit% w", "O"), ("Weiss", "O"), ("oscuro", "O"), ("*x A1:+02;", "X"),
    ("OO", "O")))
def test_a_side_that_goes_on_with_letters_is_read_with_a_warning(side, mover):
    """The first letter counts. The words black and white, a move after the side, other words and comments get none."""
    lines = [f"{'-' * 64} {it}" for it in ("X", side, "XA1:+02;", "Ops:-2", "X to move", "X% blanc", "black", "White;")]
    with pytest.warns(ReadingWarning) as warned:
        sides = [position.side for position in parse_lines("\n".join(lines))]
    assert sides == ["X", mover, "X", "O", "X", "X", "X", "O"]
    word, colour = re.match("\\W*\\w+", side)[0], {"X": "Black", "O": "White"}[mover]
    message = f"the side {word} is read as {colour}: only its first letter counts"
    assert [str(it.message) for it in warned] == [f"line 2: {message}"]
    with pytest.warns(ReadingWarning, match=f"^{re.escape(message)}$"):
        assert Position.from_obf(lines[1]).side == mover
