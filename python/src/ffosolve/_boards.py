"""Shows boards as pictures and as text."""
import numbers
import os
import reprlib
from typing import Dict, Iterator, Mapping, Optional, Union

from ._squares import NAMES, square_name, square_number

SIDES = {"X": "Black", "O": "White"}
OTHER = {"X": "O", "O": "X"}
SQUARE, MARGIN, FOOT = 44, 22, 34  # pixels
BOARD = 8 * SQUARE
COLOURS = {"X": "#111111", "O": "#fafafa"}
GREEN, LINES, INK, MARK, LAST = "#2f8f5b", "#14472c", "#333333", "#ffd54a", "#d0402b"
GRID = f"M{{0}} {MARGIN}v{BOARD}M{MARGIN} {{0}}h{BOARD}"
LABEL = f'<text x="{{}}" y="{{}}" fill="{INK}">{{}}</text>'


def checked_side(side: str) -> str:
    if side not in SIDES:
        raise ValueError(f"the side to move is 'X' or 'O', not {side!r}")
    return side


def checked_score(name: str, score: float) -> float:
    if not isinstance(score, numbers.Real):
        raise TypeError(f"the score of {name} is a number, not {reprlib.repr(score)}")
    return score


class Board:
    """A board that a notebook shows as a picture, and that prints as text.

    `own`, `opp` and `side` are those of a Position: the masks of the discs of the side to move and of the other side,
    and the colour of the side to move, "X" or "O". Below the board, this colour and `state` follow, as "X is to move".
    `scores` is {name of an empty square: score}: each score is shown in its square, and the highest are marked. The
    picture marks the disc on the square `last_move`, if that is given. Other scores, `listed`, are shown in parentheses
    after the `scores` of the same squares. Raises ValueError for another side, a score of no empty square, or a
    `last_move` without a disc; TypeError for a score that is not a number."""

    def __init__(self, own: int, opp: int, side: str, scores: Optional[Mapping[str, float]] = None,
                 state: str = "is to move", last_move: Optional[str] = None,
                 listed: Optional[Mapping[str, float]] = None) -> None:
        self.state = state
        self.side, other = checked_side(side), OTHER[side]
        self.letters = [side if own >> at & 1 else other if opp >> at & 1 else "-" for at in range(64)]
        self.scores: Dict[int, float] = {square_number(name): score for name, score in (scores or {}).items()}
        for at, score in self.scores.items():
            checked_score(square_name(at), score)
            if self.letters[at] != "-":
                raise ValueError(f"{square_name(at)} has a score, but is not empty")
        self.listed = {square_number(name): f"({round(score, 1):+g})" for name, score in (listed or {}).items()}
        self.best = max(self.scores.values(), default=None)
        self.last = None if last_move is None else square_number(last_move)
        if self.last is not None and self.letters[self.last] == "-":
            raise ValueError(f"{square_name(self.last)} was the last move, but is empty")

    def to_obf(self) -> str:
        """The board as an OBF line: 64 squares, and ` X;` or ` O;`."""
        return "".join(self.letters) + f" {self.side};"

    def __str__(self) -> str:
        texts = [*self.letters]
        for at, score in self.scores.items():
            texts[at] = f"{score:+}" + "*" * (score == self.best) + self.listed.get(at, "")
        width = max(4, *map(len, texts)) if self.scores else 1
        rows = [texts[first:first + 8] for first in range(0, 64, 8)]
        lines = [" ".join(f"{text:>{width}}" for text in row) for row in ["ABCDEFGH", *rows]]
        return "\n".join([*map("{} {}".format, " 12345678", lines), f"{self.side} {self.state}"])

    __repr__ = __str__

    def save(self, path: "Union[str, os.PathLike[str]]") -> None:
        """Writes the picture to a file, whose name ends with `.svg`. Raises ValueError for another end, and OSError."""
        if not os.fspath(path).lower().endswith(".svg"):
            raise ValueError(f"a board is saved as a picture in SVG, so its file's name ends with .svg: {path}")
        with open(path, "w", encoding="utf-8") as file:
            file.write(f"{self._repr_svg_()}\n")

    def _repr_svg_(self) -> str:
        width, height = BOARD + 2 * MARGIN, BOARD + MARGIN + FOOT
        state = f"{SIDES[self.side]} {self.state}"
        return "\n".join([
            f'<svg xmlns="http://www.w3.org/2000/svg" width="{width}" height="{height}" viewBox="0 0 {width} {height}"'
            f' font-family="sans-serif" font-size="13" text-anchor="middle">',
            f"<title>Othello board, {state}</title>",
            f'<rect width="{width}" height="{height}" fill="#ffffff"/>',
            f'<rect x="{MARGIN}" y="{MARGIN}" width="{BOARD}" height="{BOARD}" fill="{GREEN}"/>',
            *(part for at in range(64) for part in self._square(at)),
            f'<path d="{"".join(map(GRID.format, range(MARGIN, MARGIN + BOARD + 1, SQUARE)))}" stroke="{LINES}"/>',
            *(LABEL.format(x, y, name) for at in range(8) for x, y, name in (
                (MARGIN + at * SQUARE + SQUARE // 2, MARGIN - 7, NAMES[at][0]),
                (MARGIN // 2, MARGIN + at * SQUARE + SQUARE // 2 + 5, at + 1))),
            disc(self.side, MARGIN + 10, height - FOOT // 2, 9),
            f'<text x="{MARGIN + 26}" y="{height - FOOT // 2 + 5}" text-anchor="start" fill="{INK}">{state}</text>',
            "</svg>",
        ])

    def _square(self, at: int) -> Iterator[str]:
        left, top = MARGIN + at % 8 * SQUARE, MARGIN + at // 8 * SQUARE
        x, y = left + SQUARE // 2, top + SQUARE // 2
        if self.letters[at] != "-":
            yield disc(self.letters[at], x, y, SQUARE * 2 // 5)
            if at == self.last:
                yield f'<circle cx="{x}" cy="{y}" r="5" fill="{LAST}"/>'
        elif at in self.scores:
            is_best = self.scores[at] == self.best
            if is_best:
                yield f'<rect x="{left}" y="{top}" width="{SQUARE}" height="{SQUARE}" fill="{MARK}"/>'
            how = f'fill="{INK}" font-weight="bold"' if is_best else 'fill="#ffffff"'
            yield f'<text x="{x}" y="{y - 4 if at in self.listed else y + 5}" {how}>{self.scores[at]:+}</text>'
            if at in self.listed:
                yield f'<text x="{x}" y="{y + 13}" {how} font-size="11">{self.listed[at]}</text>'


def disc(side: str, x: int, y: int, radius: int) -> str:
    return f'<circle cx="{x}" cy="{y}" r="{radius}" fill="{COLOURS[side]}" stroke="{LINES}"/>'
