"""Positions, the moves that lead from one to the next, and lists with a position in each line."""
import contextlib
import copy
import operator
import reprlib
from typing import (Any, Callable, Dict, Iterable, Iterator, List, Mapping, NamedTuple, Optional, Tuple, Type, TypeVar,
                    Union)

from ._answers import Answer, Kind, Scoring
from ._boards import OTHER, SIDES, Board, checked_score, checked_side
from ._library import CAnswer, CPosition, LibraryNotFound, loaded, search
from ._obf import MOVES, Lines, Listed, Source, bytes_of, lines_of, parsed
from ._refusals import LineRefused, NoMemory, NoMove, NoPosition, Refused, Status
from ._squares import (NAMES, Symmetry, accept, c_position, c_positions, canonical_form, mask_of, moves, number_of,
                       size_of, square_names, square_of)
from ._transcripts import PASSES, transcript_words

P = TypeVar("P", bound="Position")
NO_SQUARE = 255  # a number that the library takes for no square
STATES = {Kind.PASS: "has to pass: {:+}", Kind.OVER: "scores {:+}: the game is over"}


class Discs(NamedTuple):
    """How many discs each side has."""

    black: int
    white: int


class Position:
    """The masks of the discs of the side to move (`own`) and of the other side (`opp`), and the mover's colour, `side`.

    Square A1 is bit 0 of a mask and H8 bit 63. `side` is "X" (Black) or "O" (White). Raises ValueError for another side
    and TypeError for a mask that is not a whole number. Only texts and pictures depend on `side`: positions with equal
    masks are equal, and so are their answers. A position also equals the tuple of its masks, and `own, opp = position`
    takes them apart.

    A position does not change: `play`, `play_all` and `passed` return a new one, of the same class, and so does
    `_replace(own=.., opp=.., side=..)`, which Python 3.13 also calls `copy.replace`. The shared library knows the
    rules: without it, calls for moves, scores and images raise LibraryNotFound. Only these and a Solver look at the
    masks: they raise ValueError for one outside 0 to 2**64 - 1, and SharedSquare if a square is in both."""

    __slots__ = ("_all",)  # one tuple of all, since `__setattr__` makes assignments slow
    __match_args__ = ("own", "opp")
    _all: Tuple[Tuple[int, int], str, Optional[str], Listed, Optional[int]]

    def __new__(cls: Type[P], own: int, opp: int, side: str = "X") -> P:
        if type(own) is not int or type(opp) is not int:
            own, opp = mask_of(own), mask_of(opp)
        position: P = create(cls)
        fill(position, ((own, opp), side if side == "X" else checked_side(side), None, (), None))
        return position

    def __setattr__(self, name: str, *value: Any) -> None:
        """Assigns or deletes an attribute of a subclass; raises AttributeError for one of a Position."""
        if name in Position.__slots__:
            raise AttributeError(f"a Position does not change, so {name} stays")
        change: Any = object.__setattr__ if value else object.__delattr__
        change(self, name, *value)

    __delattr__ = __setattr__

    def __setstate__(self, state: Tuple[Optional[Dict[str, Any]], Dict[str, Any]]) -> None:
        """Fills a copy, or what pickle reads, with all attributes."""
        for name, value in {**(state[0] or {}), **state[1]}.items():
            object.__setattr__(self, name, value)

    @classmethod
    def start(cls: Type[P]) -> P:
        """The position in which a game begins."""
        return cls(*START)

    @classmethod
    def from_obf(cls: Type[P], text: Union[str, bytes]) -> P:
        """The position of a line of OBF text. The line has 64 squares in the order A1, B1, .. H8, the side to move, and
        maybe moves with their scores such as `H1:+62;`, which become `listed`.

        Any of `X x * B b` stands for Black, any of `O o W w` for White, and `-` or `.` for an empty square. Blanks and
        tabs before the squares and the side are skipped. After the side, any text but moves with scores is skipped; a
        ReadingWarning names a side such as `blanc`, which is read as Black. Raises NoPosition, ShortBoard, BadSquare
        and BadSide (ValueErrors), NoMemory and TypeError. Needs no library."""
        return read_line(text, None, cls)

    def to_obf(self, side: Optional[str] = None, moves: Union[Mapping[str, float], Iterable[Tuple[str, float]]] = ()
               ) -> str:
        """The position as an OBF line: 64 squares, ` X;` or ` O;`, and ` H1:+62;` for each of `moves`. These are the
        position's `listed`, for example, or what `Solver.move_scores` returns. If `side` is given and not the
        position's, all colours are exchanged. Raises ValueError for a side other than "X" and "O" and for another word
        than a move, TypeError for a score that is not a number."""
        text = Board(self.own, self.opp, self.side if side is None else side).to_obf()
        for move, score in moves.items() if isinstance(moves, Mapping) else moves:
            name = MOVES.get(str(move).upper().encode())
            if name is None:
                raise ValueError(f"a move is listed by the name of a square, as PS or as --, not as {move!r}")
            text += f" {name}:{checked_score(name, score):+03};"
        return text

    @property
    def own(self) -> int:
        """The mask of the discs of the side to move."""
        return self._all[0][0]

    @property
    def opp(self) -> int:
        """The mask of the discs of the other side."""
        return self._all[0][1]

    @property
    def side(self) -> str:
        """The colour of the side to move: "X" (Black) or "O" (White)."""
        return self._all[1]

    @property
    def last_move(self) -> Optional[str]:
        """The move that led from another position to this one, such as "F5" or "PS"; None if that is not known."""
        return self._all[2]

    @property
    def listed(self) -> Listed:
        """Each move that the position's line of OBF text lists with a whole score from -64 to 64, and this score, in
        order, such as `(("H1", 62), ("A1", 52))`. "PS" is a pass, and "--" the end of the game. The moves may be
        illegal and the scores wrong."""
        return self._all[3]

    @property
    def number(self) -> Optional[int]:
        """The line's number, from 1, if `read_lines` or `parse_lines` read the position's line; otherwise None."""
        return self._all[4]

    @property
    def empties(self) -> int:
        """How many squares are empty."""
        own, opp = self._all[0]
        return 64 - size_of(own | opp)

    @property
    def discs(self) -> Discs:
        """How many discs Black and White have."""
        own, opp = size_of(self.own), size_of(self.opp)
        return Discs(own, opp) if self.side == "X" else Discs(opp, own)

    def piece_at(self, square: Union[int, str]) -> Optional[str]:
        """"X" if a black disc is on a square, "O" if a white one is, None if it is empty. `square` is a name such as
        "F5" or a number. Raises ValueError for a name or number that no square has, TypeError for other types."""
        bit = 1 << square_of(square)
        return self.side if self.own & bit else OTHER[self.side] if self.opp & bit else None

    @property
    def legal_moves(self) -> List[str]:
        """The names of the squares that the side to move may play, in the order A1, B1, .. H8."""
        return square_names(moves(self))

    def is_legal(self, square: Union[int, str]) -> bool:
        """Whether `play` takes a move. Raises ValueError for a name that no square has, TypeError for other types."""
        if is_pass(square):
            return self.must_pass
        number = number_of(square)
        return 0 <= number < 64 and bool(moves(self) >> number & 1)

    @property
    def must_pass(self) -> bool:
        """Whether the side to move has no legal move, but the other side has one."""
        return not moves(self) and moves(self.passed()) != 0

    @property
    def is_over(self) -> bool:
        """Whether neither side has a legal move."""
        return not moves(self) and not moves(self.passed())

    def play(self: P, square: Union[int, str]) -> P:
        """The position after a move; the other side is to move. `square` is a name such as "F5" or a number, 0 to 63,
        or a pass: "PS", "pass", "pa" or "--". Raises NoMove for an illegal move and another number, ValueError for
        another name, TypeError for other types."""
        if is_pass(square):
            if not self.must_pass:
                raise illegal_move(self, "a pass")
            return self.passed()
        number, after = number_of(square), CPosition()
        is_square = 0 <= number < 64
        status = loaded().ffosolve_play(c_position(self), number if is_square else NO_SQUARE, after)
        if status == Status.NO_MOVE:
            raise illegal_move(self, NAMES[number] if is_square else f"square {number}")
        accept(status)
        return following(self, after.own, after.opp, NAMES[number])

    def play_all(self: P, squares: Union[str, Iterable[Union[int, str]]]) -> P:
        """The position after several moves. `squares` is a transcript such as "f5d6c3", in any form that `Game.of_text`
        reads, or a list of what `play` takes. Passes may be left out. Raises TypeError for another object, ValueError
        for other transcripts, and NoMove for an illegal move or no square. It counts moves from 1, without passes."""
        if isinstance(squares, bytes) or not hasattr(squares, "__iter__"):
            raise TypeError(f"moves are a transcript or a list of squares, not {reprlib.repr(squares)}")
        squares, position = transcript_words(squares) if isinstance(squares, str) else squares, self
        moves(self)  # raises SharedSquare, and ValueError for a wrong mask
        try:
            for position in played(self, squares):
                pass
        except ValueError as why:
            raise NoMove(reason=f"move {self.empties - position.empties + 1}: {why}") from None
        return position

    def passed(self: P) -> P:
        """The position after a pass, even if a pass is not legal. The other side is to move."""
        own, opp = self._all[0]
        return following(self, opp, own, "PS")

    def score(self, scoring: Union[Scoring, int, str] = Scoring.WINNER) -> int:
        """The mover's score, if the game is over; else raises ValueError. Raises TooManyEmpties and UnknownScoring."""
        if not self.is_over:
            raise ValueError(f"the game is not over, so only a Solver finds the score: {self.to_obf()}")
        found = (CAnswer * 1)()
        number = Scoring(scoring)  # type: ignore[arg-type]
        accept(search(loaded(), "ffosolve_solve_all", number, 0, c_positions([*self]), found))
        return int(found[0].score)

    def canonical(self: P) -> P:
        """The same position for all eight images of a position under the symmetries of the board: the image with the
        least `own` and, among these, the least `opp`."""
        own, opp, _ = canonical_form(self)
        return type(self)(own, opp, self.side)

    @property
    def canonical_symmetry(self) -> Symmetry:
        """The first Symmetry that leads to `canonical()`. `canonical_symmetry.square("F5")` is the square that F5
        becomes there, and `canonical_symmetry.inverse` leads back."""
        return canonical_form(self)[2]

    def image(self: P, symmetry: int) -> P:
        """The image under a Symmetry or the one with a number, 0 to 7. Raises UnknownSymmetry for another number."""
        move = Symmetry(operator.index(symmetry)).mask
        return type(self)(move(self.own), move(self.opp), self.side)

    def symmetries(self: P) -> List[P]:
        """The eight images of the position, in the order of Symmetry. Some are equal if the position is symmetric."""
        return [self.image(symmetry) for symmetry in Symmetry]

    def show(self, scores: Union[Mapping[str, float], Answer, None] = None, side: Optional[str] = None) -> Board:
        """The board, which a notebook shows as a picture and print() as text. If `scores` is {square's name: score}, as
        from `Solver.move_scores`, each score is written into its square, and the best are marked. If it is an Answer,
        the score is written into each best move's square or, for a pass or a finished game, below the board. A finished
        game has its score there in any case, if there is a library. The picture marks the disc of `last_move`. If
        `side` is given and not the position's, all colours are exchanged. Raises the same as Board."""
        state = "is to move"
        if isinstance(scores, Answer):
            state = STATES.get(scores.kind, state).format(scores.score)
            scores = dict.fromkeys(scores.squares, scores.score)
        elif scores is not None and not isinstance(scores, Mapping):
            wanted = "scores are an Answer, or a mapping from squares' names such as move_scores returns"
            raise TypeError(f"{wanted}, not {reprlib.repr(scores)}")
        else:
            with contextlib.suppress(LibraryNotFound, Refused, ValueError):  # as while the game goes on
                state = STATES[Kind.OVER].format(self.score())
        last = self.last_move if self.last_move in NAMES else None
        return Board(self.own, self.opp, self.side if side is None else side, scores, state, last)

    def __str__(self) -> str:
        return str(self.show())

    def __repr__(self) -> str:
        side = "" if self.side == "X" else f", side={self.side!r}"
        return f"{type(self).__name__}(own={self.own!r}, opp={self.opp!r}{side})"

    def __iter__(self) -> Iterator[int]:
        return iter(self._all[0])

    def __eq__(self, other: object) -> bool:
        if isinstance(other, Position):
            return self._all[0] == other._all[0]
        if isinstance(other, tuple):
            return self._all[0] == other
        return NotImplemented

    def __hash__(self) -> int:
        return hash(self._all[0])

    def __getnewargs__(self) -> Tuple[int, int]:
        return self._all[0]

    def _asdict(self) -> Dict[str, Any]:
        return {"own": self.own, "opp": self.opp, "side": self.side}

    def _replace(self: P, **changes: Any) -> P:
        """Returns a copy with other masks or another side. With other masks, it is another board, of which neither the
        last move nor a line is known."""
        changed, position = Position(**{**Position._asdict(self), **changes}), copy.copy(self)
        fill(position, changed._all if changed != self else (*changed._all[:2], *self._all[2:]))
        return position

    __replace__ = _replace

    def _repr_svg_(self) -> str:
        return self.show()._repr_svg_()


create: Any = object.__new__
fill = vars(Position)["_all"].__set__
START = Position(0x0000000810000000, 0x0000001008000000)  # Black, on E4 and D5, is to move


def is_pass(move: object) -> bool:
    return isinstance(move, str) and move.lower() in PASSES


def played(position: P, moves: Iterable[Union[int, str]]) -> Iterator[P]:
    """Yields the position after each of `moves`. Passes may be left out, and those after the end of the game are
    skipped. Raises the same as `Position.play`."""
    for move in moves:
        if is_pass(move) and position.is_over:
            continue
        try:
            position = position.play(move)
        except NoMove:
            if is_pass(move) or not position.must_pass:
                raise
            position = position.passed().play(move)
        yield position


def illegal_move(position: Position, move: str) -> NoMove:
    """The refusal of an illegal move. Its text names `move`, and ends with the board and the side as an OBF line."""
    mover = SIDES[position.side]
    without = ": the game is over" if position.is_over else f": {mover} has to pass"
    why = f" for {mover}" if position.legal_moves else without
    return NoMove(reason=f"{move} is not a legal move{why} in {position.to_obf()}")


def following(before: P, own: int, opp: int, move: str) -> P:
    """The position with these masks to which `move` leads from `before`; the other side is to move."""
    side = OTHER[before._all[1]]
    position = type(before)(own, opp, side)
    fill(position, ((own, opp), side, move, (), None))
    return position


def read_line(text: Union[str, bytes], number: Optional[int], kind: Type[P]) -> P:
    """Reads a line of OBF text as a position of the class `kind`, and raises the same as `Position.from_obf`. `number`,
    which may be None, becomes the `number` of the position or the `line` of the LineRefused."""
    try:
        own, opp, side, listed = parsed(text, number)
        line = kind(own, opp, side)
    except MemoryError:
        raise NoMemory() from None
    fill(line, ((own, opp), side, None, listed, number))
    return line


def read_lines(source: Source, refused: Optional[Callable[[LineRefused], object]] = None) -> Iterator[Position]:
    """Yields the positions of lines of OBF text, in their order. `source` is a path, or an iterable of lines such as an
    open file. Blank lines and comments are skipped. Any other line without a position raises ShortBoard, BadSquare or
    BadSide, whose `line` is the line's number. If `refused` is given, it is called with the error, and reading goes on:

        wrong = []
        positions = list(read_lines("a.obf", refused=wrong.append))

    Raises NoMemory, OSError if the file can't be read, and TypeError for another source. `parse_lines` reads a text."""
    return positions_in(lines_of(source), refused)


def parse_lines(text: Union[str, bytes], refused: Optional[Callable[[LineRefused], object]] = None
                ) -> Iterator[Position]:
    """Yields the positions of the lines of a text, as `read_lines` does for a file."""
    return positions_in(bytes_of(text).split(b"\n"), refused)


def positions_in(lines: Lines, refused: Optional[Callable[[LineRefused], object]]) -> Iterator[Position]:
    for number, text in enumerate(lines, 1):
        try:
            yield read_line(text, number, Position)
        except NoPosition:
            continue
        except LineRefused as error:
            if refused is None:
                raise
            refused(error)
