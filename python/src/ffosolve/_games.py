"""Reads games from transcripts and WTHOR files, plays them by the library's rules, and corrects scores in a file."""
import contextlib
import io
import os
import re
import struct
import warnings
from typing import Any, BinaryIO, Callable, Iterator, List, NamedTuple, Optional, Sequence, Tuple, Union

from ._positions import NO_SQUARE, START, Position, played
from ._refusals import NoMove
from ._squares import NAMES
from ._text import NotText, ReadingWarning, refuse_archive, shown, text_lines, unpacked
from ._transcripts import PASSES, SPREAD, Transcript, transcripts_in

PASS = 64  # instead of a square's number
WORDS = {**{name.lower(): number for number, name in enumerate(NAMES)}, **dict.fromkeys(PASSES, PASS)}
HEADER = struct.Struct("<4x I H H B B B x")  # games, other records, year, size of the board, kind, empty squares
EMPTIES_BYTE = 14  # in the header: the number of empty squares
RECORD, REAL, SCORE, FIRST_MOVE = 68, 6, 7, 8  # the length of a game's record in bytes, and offsets in it
NUMBERS = struct.Struct("<HHH")  # how a record begins: the numbers, from 0, of the tournament, of Black and of White
PLAYER, TOURNAMENT = 20, 26  # bytes of a name, with the NUL after it, in a file of players or tournaments
SQUARE_NUMBERS = range(64)
# The number of the square that each byte stands for in a WTHOR file: ten times the row plus the column, both from 1.
SQUARES = bytes(WORDS.get(f"{chr(96 + byte % 10)}{byte // 10}", NO_SQUARE) for byte in range(256))
TEXT = bytes([*b"\t\n\v\f\r", *range(32, 256)])  # a text begins with one of these; a WTHOR file begins with the century


class GameRefused(ValueError):
    """A game can't be read or played, or ends before the position that is asked for. `game` is its number. `move`
    counts moves without passes up to the illegal or last one; it is None if the game can't be read or has no moves."""

    def __init__(self, reason: str, game: int, move: Optional[int] = None) -> None:
        super().__init__(f"game {game}" + ("" if move is None else f", move {move}") + f": {reason}")
        self.reason, self.game, self.move = reason, game, move

    def __reduce__(self) -> Tuple[Any, ...]:
        return type(self), (self.reason, self.game, self.move)


class Game(NamedTuple):
    """A game as it stands in a file or transcript; its moves may be illegal and its scores wrong.

    `number` counts from 1: it is the game's line in a text, or its place in a WTHOR file. Only a WTHOR file has scores.
    A score is the number of Black's discs, 0 to 64; the winner also gets the empty squares. `score` is the theoretical
    score, after perfect play from the position with `empties` empty squares; `empties` is None if the file does not say
    how many. `real` is the score of the game as it was played.

    `year`, `players` (Black's and White's names) and `tournament` are None unless a WTHOR file or, for the names, the
    files beside it say them: see `read_games`; or, except for the tournament, a game in GGF. That may have a `date`,
    and another first position, `start`. `result` is what a transcript ends with, such as `33-31` or `*`, or that of a
    game in GGF, such as `+2.00` (Black's discs minus White's) or `-64.00:t` (out of time)."""

    number: int
    moves: Sequence[int] = ()  # squares' numbers, PASS or NO_SQUARE
    words: Sequence[object] = ()  # each move as the file has it: a word in lower case, or a byte
    score: Optional[int] = None
    real: Optional[int] = None
    fault: Optional[str] = None  # why it can't be read, or None
    empties: Optional[int] = None
    year: Optional[int] = None
    players: Optional[Tuple[str, str]] = None
    tournament: Optional[str] = None
    date: Optional[str] = None
    result: Optional[str] = None
    start: Position = START

    @classmethod
    def of_text(cls, text: str, number: int = 1) -> "Game":
        """The game of a transcript such as `f5d6c3` or `1. F5 2. D6`: squares with blanks, commas, hyphens or nothing
        between them, and with or without move numbers. A pass may be left out, or written `pass`, `ps`, `pa` or `--`. A
        result, such as `33-31`, may come last. Headers in brackets before the moves and everything from `%` on are
        skipped. A game in GGF, `(;GM[Othello] .. ;)`, is read, too; one of another kind or board gets a `fault`, as do
        several games, a game in SGF, or with marks such as `f5!`."""
        first, *others = games_of(text, number)
        return first if not others else cls(number, fault="it has several games in GGF: read_games reads them")

    @property
    def squares(self) -> List[str]:
        """The names of the moves' squares, such as "F5", without passes. For a move that is not a square, the list has
        the word of the transcript in lower case, or the value of the byte in the WTHOR file, such as "99"."""
        return [NAMES[move] if move in SQUARE_NUMBERS else str(self._word(at))
                for at, move in enumerate(self.moves) if move != PASS]

    def turns(self) -> List[Tuple[Position, str]]:
        """The moves of the game without passes, each as the position in which it is made and the name of its square. If
        the other side has to pass before a move, the position is the one after the pass. Raises the same as
        `Solver.positions`. This prints the moves that lose discs:

            for position, square in game.turns():
                if position.empties <= solver.max_empties:
                    scores = solver.move_scores(position)
                    if scores[square] < max(scores.values()):
                        print(position.side, square, scores[square], "instead of", max(scores.values()))
        """
        return [(at if at.legal_moves else at.passed(), square) for at, square in zip(positions_of(self), self.squares)]

    def _word(self, at: int) -> object:
        """What the file or transcript has for the move at an index; without its words, what `moves` has."""
        return self.words[at] if at < len(self.words) else self.moves[at]


def games_of(text: str, number: int) -> List[Game]:
    """The games on a line, of which only one in GGF may have several. One that can't be read has a `fault`."""
    try:
        return [game_of(transcript, number) for transcript in transcripts_in(text)]
    except ValueError as why:
        return [Game(number, fault=str(why))]


def game_of(transcript: Transcript, number: int) -> Game:
    words, result, board, headers = transcript
    date, black, white = (headers.get(name) or None for name in ("DT", "PB", "PW"))
    year = re.match(r"\d{4}(?!\d)", date or "")
    return Game(
        number, [WORDS.get(word, NO_SQUARE) for word in words], words, year=int(year[0]) if year else None,
        players=(black, white) if black and white else None, date=date, result=result or None,
        start=Position.from_obf(board[1:]))


def read_games(source: "Union[str, os.PathLike[str], io.BufferedIOBase, io.RawIOBase]",
               refused: Optional[Callable[[GameRefused], object]] = None) -> Iterator[Game]:
    """Yields the games of a WTHOR file, or of a text with a game in each line, in their order. `source` is a path or a
    file opened in binary mode; it may be a .gz file. A line of a text may have any form that `Game.of_text` reads, and
    several games in GGF; lines without a move are skipped. The names of players and tournaments come from the files
    WTHOR.JOU and WTHOR.TRN in the folder of a WTHOR file, or from its only file .JOU and .TRN; a ReadingWarning says if
    there are several.

    Raises GameRefused for a game with a `fault`, such as the last one of a WTHOR file of wrong length; if `refused` is
    given, it is called with the error instead. An illegal move is refused only by `Solver.positions`. Raises ValueError
    for a file of another kind, TypeError for another source, OSError. This prints games with wrong theoretical scores:

        solver = Solver(max_empties=24)
        for game in read_games("WTH_2001.wtb"):
            position = solver.positions(game)[:61 - game.empties][-1]
            score = position.score() if position.is_over else solver.solve(position).score
            if 2 * game.score - 64 != (score if position.side == "X" else -score):
                print(game.number, game.score)
    """
    with contextlib.ExitStack() as stack:
        if isinstance(source, (str, os.PathLike)):
            file: Any = stack.enter_context(open(source, "rb"))
        elif hasattr(source, "readinto"):
            file = io.BufferedReader(source)  # type: ignore[arg-type]
            stack.callback(file.detach)  # the caller's file stays open
        else:
            what = type(source).__name__
            raise TypeError(f"games are read from a path or from a file opened for bytes, not from {what}")
        name = getattr(file, "name", None)
        for game in games_in(file, name if isinstance(name, str) else "the file")[0]:
            if game.fault is None:
                yield game
            elif refused is None:
                raise GameRefused(game.fault, game.number)
            else:
                refused(GameRefused(game.fault, game.number))


def games_in(file: Any, name: str) -> Tuple[Iterator[Game], Optional[int]]:
    """Returns (games of a file, number of empty squares at their theoretical scores). The number is 0 if the header of
    a WTHOR file gives none, and None for a text. Raises NotText, with `name` in it, for other files, also for a WTHOR
    file without games on 8 by 8 squares. The lines of a text are tested only while the games are iterated over."""
    file = unpacked(file)
    refuse_archive(file.peek(4), name)
    if not name.lower().endswith((".wtb", ".wtb.gz")) and file.peek(1)[:1].strip(TEXT) == b"":
        if SPREAD.search(file.peek(1)):
            why = "a game is on several lines, as in a PGN or SGF file, but a text has one game in each line"
            raise NotText(f"cannot read {name}: {why}")
        lines = enumerate(text_lines(file, name), 1)
        games = (game for number, line in lines for game in games_of(line.decode("utf-8", "replace"), number))
        return (game for game in games if game.moves or game.fault), None
    head = file.read(HEADER.size)
    count, other, year, board, kind, empties = HEADER.unpack(head.ljust(HEADER.size, b"\0"))
    for is_wrong, why in (
        (not head, "it is empty"),
        (len(head) < HEADER.size, f"it ends within its header of {HEADER.size} bytes"),
        (b"\0" not in head, "it begins like a text"),
        (board not in (0, 8), f"its board has {board} by {board} squares"),
        (other, f"its header counts {other} records of another kind, like a file of players or tournaments"),
        (kind > 1, f"byte 14 of its header is {kind}, and has to be 0 or 1"),
        (empties > 60, f"its theoretical scores are for {empties} empty squares, but a game has only 60"),
    ):
        if is_wrong:
            raise NotText(f"{name} is not a WTHOR file of games: {why}")
    return records(file, count, year, empties), empties


def records(file: Any, count: int, year: int, empties: int) -> Iterator[Game]:
    """Yields the games after a WTHOR file's header. If its length is wrong, the last one has a `fault` and no moves."""
    path = getattr(file, "name", None) or None
    players, tournaments = (names_beside(path, it) if isinstance(path, str) else b"" for it in (".jou", ".trn"))
    counts = f"its header counts {count} game{'s' * (count != 1)}"
    for number in range(1, count + 1):
        record = file.read(RECORD)
        if len(record) < RECORD:
            where = f"after {len(record)} of the {RECORD} bytes of this game" if record else "before this game"
            yield Game(number, fault=f"the file ends {where}, but {counts}")
            return
        written = record[FIRST_MOVE:].rstrip(b"\0")
        tournament, *sides = NUMBERS.unpack_from(record)
        black, white = (name_in(players, PLAYER, side) for side in sides)
        yield Game(
            number, written.translate(SQUARES), written, record[SCORE], record[REAL], empties=empties or None,
            year=year or None, players=(black, white) if black and white else None,
            tournament=name_in(tournaments, TOURNAMENT, tournament) or None)
    if file.read(1):
        yield Game(count + 1, fault=f"the file goes on, but {counts}")


def names_beside(path: str, suffix: str) -> bytes:
    """The content of the file of players or tournaments, with this suffix, in the folder of a WTHOR file: the one named
    WTHOR, or the only one; b"" if there is none. Warns if there are several."""
    folder = os.path.dirname(path) or "."
    with contextlib.suppress(OSError):
        found = [it for it in os.scandir(folder) if it.name.lower().endswith(suffix) and it.is_file()]
        named = [it for it in found if it.name.lower() == f"wthor{suffix}"] or found
        if len(named) > 1:
            several = " and ".join(sorted(shown(it.name) for it in named))
            warnings.warn(f"names are left out, since the folder {shown(folder)} has {several}: name the right one "
                          f"WTHOR{suffix.upper()}", ReadingWarning)
        elif named:
            with open(named[0], "rb") as file:
                return file.read()
    return b""


def name_in(content: bytes, size: int, number: int) -> str:
    """The name with a number, from 0, in the content of a file of names of `size` bytes; "" if it has none."""
    at = HEADER.size + size * number
    text = content[at:at + size].partition(b"\0")[0].decode("latin-1")
    return "".join(filter(str.isprintable, text)).strip()


def positions_of(game: Game) -> List[Position]:
    """The positions of a game: the start, and the one after each move except passes. Raises GameRefused."""
    if game.fault is not None:
        raise GameRefused(game.fault, game.number)
    found = [game.start]
    try:
        for position in played(game.start, moves_of(game)):
            if position.last_move != "PS":
                found.append(position)
    except NoMove as why:
        raise GameRefused(why.reason, game.number, len(found)) from None
    return found


def moves_of(game: Game) -> Iterator[Union[int, str]]:
    """Yields the moves of a game as `Position.play` takes them. Raises NoMove at a move that is not a square."""
    for at, move in enumerate(game.moves):
        if move != PASS and move not in SQUARE_NUMBERS:
            raise NoMove(reason=f"{game._word(at)!r} is not a square")
        yield "PS" if move == PASS else move


def position_with(empties: int, game: Game, found: List[Position]) -> Position:
    """The first of a game's positions `found` with `empties` empty squares. Raises GameRefused if there is none."""
    if (first := found[0].empties) < empties:
        raise GameRefused(f"it begins with {first} empty squares; {empties} are asked for", game.number)
    if (left := found[-1].empties) <= empties:
        return found[first - empties]
    if not game.moves:
        raise GameRefused("it has no moves", game.number)
    why = f"it ends here, with {left} empty square{'s' * (left > 1)}; {empties} are asked for"
    raise GameRefused(why, game.number, len(found) - 1)


def corrected(file: BinaryIO, empties: int, right: Sequence[Tuple[Game, Optional[int], Optional[int]]]
              ) -> Iterator[bytes]:
    """Yields the pieces of a copy of a WTHOR file. `right` has its games, each with the theoretical and the real score
    to write, or None for one that stays. A header without a number of empty squares gets `empties`. No other byte
    changes. Raises NotText if the file has other games."""
    header = bytearray(file.read(HEADER.size).ljust(HEADER.size, b"\0"))
    header[EMPTIES_BYTE] = header[EMPTIES_BYTE] or empties
    yield header
    for game, exact, real in right:
        record = bytearray(file.read(RECORD))
        if len(record) < RECORD or record[FIRST_MOVE:].rstrip(b"\0") != game.words:
            raise NotText(f"{shown(file.name)} has changed since its games were read")
        record[SCORE] = record[SCORE] if exact is None else exact
        record[REAL] = record[REAL] if real is None else real
        yield record
    yield from iter(lambda: file.read(1 << 16), b"")


def discs_of_black(score: int, side: str) -> int:
    """Converts a score for the mover, `side`, to a number of Black's discs; the winner also gets the empty squares."""
    return 32 + (score if side == "X" else -score) // 2
