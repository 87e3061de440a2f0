"""Games for tests: transcripts, records of WTHOR files, books with their exact scores, and runs of ffosolve-games; and
random positions.

A position is (own, opp, is_black): the masks of the mover's and the other side's discs, and whether Black moves. In a
WTHOR file, a game has two scores, in Black's discs: theoretical, after perfect play from a position, and real."""
import random
import struct

from bench import player
from tests.support import ROOT, run, stored, write
from ffosolve import Position

PROGRAM = ROOT / "bin/ffosolve-games"
NAMES = [column + row for row in "12345678" for column in "ABCDEFGH"]
SQUARE_BYTES = [10 * row + column for row in range(1, 9) for column in range(1, 9)]  # for A1, B1, .. H8 in a WTHOR file


def random_games(count, seed):
    """Returns the list of moves of each of `count` whole random games: squares 0 (A1) to 63 (H8), None for a pass."""
    rng = random.Random(seed)
    games = (player.random_game(rng) for _ in range(count))
    return [[move.bit_length() - 1 if move else None for *_, move in game][1:] for game in games]


def random_positions(count, empties):
    """Returns a list of `count` Positions from random games, with numbers of empty squares from `empties`, in turn."""
    rng, found = random.Random(1), []
    while len(found) < count:
        discs = 64 - empties[len(found) % len(empties)]
        at = [(own, opp) for own, opp, *_ in player.random_game(rng) if (own | opp).bit_count() == discs]
        found += [Position(*masks) for masks in at[:1]]
    return found


def positions_of(squares):
    """Returns {number of empty squares: position} for the start and for the positions after the moves to `squares`, up
    to the first illegal move. A pass may be None or left out."""
    at = (*player.START, True)
    found = {60: at}
    for square in squares_of(squares):
        own, opp, is_black = at
        if not player.moves(own, opp):
            own, opp, is_black = opp, own, not is_black
        if not player.moves(own, opp) >> square & 1:
            break
        at = (*player.after(own, opp, 1 << square), not is_black)
        found[64 - (at[0] | at[1]).bit_count()] = at
    return found


def discs_of_black(position):
    """Black's discs after perfect play from a position. The winner also gets the empty squares; a draw is 32."""
    score = player.values(*position[:2])[0]
    return 32 + (score if position[2] else -score) // 2


def real_score(game):
    """Returns the real score of a game: the `discs_of_black` at its end, or 40 if its moves stop before the end."""
    positions = positions_of(game)
    own, opp, _ = last = positions[min(positions)]
    return 40 if player.moves(own, opp) or player.moves(opp, own) else discs_of_black(last)


def squares_of(game):
    return [square for square in game if square is not None]


def transcript(game):
    return "".join(NAMES[square].lower() for square in game if square is not None)


def transcript_rows():
    """Returns the rows of the table tests/rows/transcripts.tsv. Each has a list of the squares that are played, then
    the word that is refused, or "", and the transcript."""
    rows = stored("tests/rows/transcripts.tsv").decode().removesuffix("\n").split("\n")[1:]
    cells = (row.split("\t", 2) for row in rows)
    return [(moves.split(), word, text) for moves, word, text in cells]


def masks_after(moves):
    """Returns the masks (own, opp) of the position after moves, given by the names of their squares."""
    positions = positions_of([NAMES.index(move) for move in moves])
    return positions[min(positions)][:2]


def record(game, theoretical=33, real=None):
    """Returns the record of a game in a WTHOR file, with both scores; the real one is by default `real_score(game)`."""
    head = struct.pack("<HHHBB", 7, 300, 301, real_score(game) if real is None else real, theoretical)
    return head + bytes(SQUARE_BYTES[square] for square in squares_of(game)).ljust(60, b"\0")


def wthor(records, empties=22, count=None, board=8, kind=0, another=0):
    count = len(records) if count is None else count
    return struct.pack("<4BIHHBBBB", 20, 1, 12, 31, count, another, 2001, board, kind, empties, 0) + b"".join(records)


def line_of(position, comment):
    return f"{player.line(*position)} % {comment}\n"


def book_of(positions):
    """Returns a book with the exact scores of positions, but not sorted, and with `--` in place of best moves."""
    lines = (f"{Position(own, opp).canonical().to_obf()} --:{player.values(own, opp)[0]:+03};\n"
             for own, opp, _ in positions)
    return "% ffobook 2 winner\n" + "".join(lines)


def games(*words, status=None, out="", err="", **how):
    """Runs `ffosolve-games WORDS`. Asserts its output, unless `out` is None; its errors, the lines of `err`, each after
    the program's name; and its status, by default 1 if `err` has a line, else 0."""
    ran = run(PROGRAM, *words, **how)
    assert ran.stderr.decode() == "".join(f"ffosolve-games: {line}\n" for line in err.splitlines()), words
    assert out is None or ran.stdout.decode() == out, words
    assert ran.returncode == (bool(err) if status is None else status), words


def reads(name, content, *words, **expected):
    """Writes `content` to the file `name`, and calls `games` with that name as the last word."""
    write(name, content)
    games(*words, name, **expected)
