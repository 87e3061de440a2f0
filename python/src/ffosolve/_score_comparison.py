"""Compares the scores of an evaluation with the exact ones, which a Solver finds, ffoscores printed or are known."""
import collections
import dataclasses
import html
import itertools
import math
import os
import re
import time
from typing import Any, Dict, Iterable, Iterator, List, Mapping, NamedTuple, Optional, Tuple, Union

from ._answers import Answer
from ._arrays import Answers
from ._boards import GREEN, Board, checked_score
from ._library import NO_SCORE
from ._obf import OBF_LINE, MOVES, Source, lines_of, without_end
from ._positions import Position, read_line
from ._processes import Seconds, SolverCall, Count, TimedOut
from ._refusals import LineRefused, NoPosition
from ._solvers import Solver, as_position
from ._squares import NAMES

LISTED_SCORE = re.compile(rb"([A-Ha-h][1-8]|[Pp][Ss]|--):([+-]?(?:\d{1,15}(?:\.\d*)?|\.\d+))")
Values = Union[float, Mapping[str, float]]
Evaluated = Union[Source, Mapping[Position, Values], Iterable[Tuple[Position, Values]]]
Known = Union[Mapping[Position, Union[int, Answer, Mapping[str, int], None]], Answers]
Scores = List[Tuple[Optional[str], float]]  # of moves, or with None of the position
Exact = Dict[Optional[str], int]  # of each move, or with None of the position alone
Row = Tuple["ListEntry", Exact]
HEADS = ("empty squares", "positions", "scores", "wrong", "mean error", "root mean square", "bias", "greatest error",
         "mean loss", "best moves")
PAGE = """<!DOCTYPE html>
<html lang="en"><meta charset="utf-8"><title>Errors of an evaluation</title>
<body style="font-family: sans-serif"><h1>Errors of an evaluation</h1>
{}
<p>On the boards, each move has its exact score and, in parentheses, the one in the list.</p>
{}
</body></html>
"""
WITHOUT_MOVE = {None: "is to move", "PS": "has to pass", "--": "has no move, and the game is over"}


class WrongScore(NamedTuple):
    """A score that is not the exact one. `line` is the number of its line or position in the list, from 1. `move` is
    None if the score is one of the `position` itself. `pandas.DataFrame(found.wrong)` has a column for each name."""

    line: int
    move: Optional[str]
    listed: float
    exact: int
    position: Position

    @property
    def error(self) -> float:
        return abs(self.listed - self.exact)


class EvaluatedPosition(NamedTuple):
    """A position of a list, with its line: {move: score in the list} and {move: exact score}, for legal moves or, with
    None in place of a move, for the position itself."""

    line: int
    position: Position
    listed: Dict[Optional[str], float]
    exact: Exact

    @property
    def error(self) -> float:
        """The greatest error of a score in the list, without sign."""
        return max((abs(score - self.exact[move]) for move, score in self.listed.items()), default=0)

    def show(self) -> Board:
        """The board, with the exact score of each move and, in parentheses, that in the list."""
        exact = {move: score for move, score in self.exact.items() if move in NAMES}
        listed = {move: score for move, score in self.listed.items() if move in exact}
        states = [f"{text}: {self.exact[it]:+} ({round(self.listed[it], 1):+g})" for it, text in WITHOUT_MOVE.items()
                  if it in self.listed]
        own, opp = self.position
        return Board(own, opp, self.position.side, exact, "; ".join(states) or WITHOUT_MOVE[None], listed=listed)

    def _repr_svg_(self) -> str:
        return self.show()._repr_svg_()


class WorstPositions(List[EvaluatedPosition]):
    """Positions that a notebook shows as boards, and that print as text."""

    def __str__(self) -> str:
        return "\n\n".join(f"line {it.line}: error {it.error:.4g}\n{it.show()}" for it in self)

    __repr__ = __str__

    def _repr_html_(self) -> str:
        return "\n".join(
            f'<figure style="display: inline-block; margin: 8px">{it._repr_svg_()}\n'
            f"<figcaption>line {it.line}: error {it.error:.4g}</figcaption></figure>" for it in self)


@dataclasses.dataclass(frozen=True, repr=False)
class ScoreComparison:
    """How far scores are from the exact ones, in discs. A mean of nothing is NaN. A notebook shows a table.

    The chosen move of a position is the one with the highest score in the list, and the first of several. `choices`
    counts the positions in which there is one, and at least one other legal move.

    `lines` counts positions, without `refused` and `unsolved` ones; `moves` the scores of their legal moves and of
    themselves. `wrong` has the scores that are not exact, in the order of the list. The means are over all `moves`;
    `mean_error` and `greatest_error` are without sign, and `bias` is the mean of score minus exact score: it is above 0
    if the evaluation is too hopeful. `mean_loss` is how much less the chosen moves are worth than best ones, and
    `best_share` the share of `choices` whose chosen move is a best one, 0.0 to 1.0.

    `refused` has the reason for each line without a position, or whose position the Solver or `ffoscores` refused;
    `unsolved` counts positions that took too long, `illegal` scores of illegal moves, `unread` other pieces between
    semicolons. `by_empties` has the same for each number of empty squares, in rising order."""

    lines: int
    moves: int
    wrong: List[WrongScore]
    mean_error: float
    root_mean_square_error: float
    bias: float
    greatest_error: float
    choices: int
    mean_loss: float
    best_share: float
    refused: Dict[int, str]
    unsolved: int
    illegal: int
    unread: int
    by_empties: "Dict[int, ScoreComparison]"
    _rows: List[Row] = dataclasses.field(compare=False)

    def __str__(self) -> str:
        errors = chosen = ""
        if self.moves:
            errors = (f"mean error {self.mean_error:.2f} root mean square {self.root_mean_square_error:.2f} "
                      f"bias {self.bias:+.2f} greatest {self.greatest_error:g} ")
        if self.choices:
            chosen = f"mean loss {self.mean_loss:.2f} best {self.best_share:.0%} "
        return (f"lines {self.lines} moves {self.moves} wrong {len(self.wrong)} {errors}choices {self.choices} {chosen}"
                f"refused {len(self.refused)} unsolved {self.unsolved} illegal {self.illegal} unread {self.unread}")

    __repr__ = __str__

    def worst(self, n: int = 12) -> WorstPositions:
        """The `n` positions with the greatest errors, the greatest first. One that is in several lines is there once,
        with the scores of the line with its greatest error. A notebook shows them as boards."""
        found: Dict[Position, EvaluatedPosition] = {}
        for entry, exact in self._rows:
            worth = worth_of(exact)
            listed = {move: score for move, score in entry.scores if move in worth}
            it = EvaluatedPosition(entry.number, entry.position, listed, worth)
            if it.error > (found[it.position].error if it.position in found else 0):
                found[it.position] = it
        return WorstPositions(sorted(found.values(), key=lambda it: -it.error)[:n])

    def save(self, path: "Union[str, os.PathLike[str]]", n: int = 12) -> None:
        """Writes a page with the table and the `worst(n)` positions to a file, whose name ends with `.html`. Raises
        ValueError for another end, and OSError."""
        if not os.fspath(path).lower().endswith(".html"):
            raise ValueError(f"a comparison is saved as a page, so its file's name ends with .html: {path}")
        with open(path, "w", encoding="utf-8") as file:
            file.write(PAGE.format(self._repr_html_(), self.worst(n)._repr_html_()))

    def _repr_html_(self) -> str:
        parts = [*self.by_empties.items(), ("all", self)]
        most = max([part.mean_error for _, part in parts if part.moves], default=0)
        rows = ["".join(f"<th>{head}</th>" for head in HEADS), *(part._cells(str(name), most) for name, part in parts)]
        texts = [f"{count} refused: {why}" for why, count in collections.Counter(self.refused.values()).most_common()]
        texts.append(f"unsolved: {self.unsolved}; scores of illegal moves: {self.illegal}; unread: {self.unread}")
        table = "\n".join(f"<tr>{row}</tr>" for row in rows)
        about = "<br>".join(map(html.escape, texts))
        return f'<table style="text-align: right; border-spacing: 12px 2px">\n{table}\n</table>\n<p>{about}</p>'

    def _cells(self, name: str, most: float) -> str:
        """The cells of the table's row for this part. The longest bar is for a mean error of `most` discs."""
        width = 120 * self.mean_error / most if self.moves and most else 0
        bar = f'<span style="display: inline-block; height: 10px; width: {width:.0f}px; background: {GREEN}"></span>'
        cells = [name, str(self.lines), str(self.moves), str(len(self.wrong)), f"{bar} {self.mean_error:.2f}",
                 f"{self.root_mean_square_error:.2f}", f"{self.bias:+.2f}", f"{self.greatest_error:.4g}",
                 f"{self.mean_loss:.2f}", f"{self.best_share:.0%}"]
        return "".join(f"<td>{re.sub('[+]?nan%?', '', cell)}</td>" for cell in cells)


def compare_scores(listed: Evaluated, scored: Union[Source, Solver, None] = None, *, known: Optional[Known] = None,
                   threads: Count = 1, timeout: Seconds = None, each: Seconds = None) -> ScoreComparison:
    """Compares the scores of an evaluation with the exact ones.

    `listed` is {position: its score}, {position: {move: its score}}, an iterable of such pairs, or a list in OBF: a
    path, an open file or an iterable of lines. A score is for the side to move. In OBF it may be any decimal number
    with up to 15 digits before its point, such as +61.5.

    The exact scores are found by the Solver `scored`, by default `Solver()`, on so many `threads`, and within `each`
    seconds for each position. If no move of a position is listed, only the position's own score is found, which is
    faster. What is `known` is not solved: {position: score, Answer, {move: score} with all legal moves, or None for one
    that counts as `unsolved`}, or the Answers of `Solver.solve_arrays` for all positions of the list. Instead of a
    Solver, `scored` may be a path or the lines of what `ffoscores` printed for the list.

        evaluated = {position: {"F5": 1.5, "D6": -2.0} for position in positions}
        for empties, found in compare_scores(evaluated).by_empties.items():
            print(empties, found)

        print(compare_scores("list.obf", "list.scores"))

    With tqdm, this shows how far it is:

        scores = tqdm(solver.move_scores_iter(positions, threads=None), total=len(positions))
        found = compare_scores(evaluated, known=dict(zip(positions, scores)))

    Raises ValueError if a line of `scored` does not score each legal move of the position in the same line of the list,
    for a score that is no finite number or is of another word than a move, or for `known` scores that don't fit;
    TimedOut after `timeout` seconds, with the ScoreComparison of what is solved; LibraryNotFound; and OSError and
    TypeError as `read_lines` does."""
    entries = list_entries(listed)
    if scored is None or isinstance(scored, Solver):
        solver = scored or Solver()
        call = solver._call(timeout)
        found = comparison(list(solved(list(entries), solver, known, threads, call, each)))
        call.unsolved = [found.unsolved]
        return call.kept(found, found.lines + found.unsolved)
    return comparison(list(printed(entries, scored)))


def comparison(read: List[Tuple["ListEntry", Union[Exact, str, None]]]) -> ScoreComparison:
    """Compares the scores of entries with their exact ones. These are None for one that took too long, and the reason
    for a refused one."""
    lines = [(entry, exact) for entry, exact in read if isinstance(exact, dict)]
    groups: Dict[int, List[Row]] = {}
    for entry, exact in sorted(lines, key=lambda line: int(line[0].position.empties)):
        groups.setdefault(entry.position.empties, []).append((entry, exact))
    late = collections.Counter(entry.position.empties for entry, exact in read if exact is None)
    refused = {entry.number: why for entry, why in read if isinstance(why, str)}
    by_empties = {count: summary(groups.get(count, []), {}, late[count], {}) for count in sorted({*groups, *late})}
    return summary(lines, refused, sum(late.values()), by_empties)


class ListEntry(NamedTuple):
    """A line or pair of a list: its number, its Position or the LineRefused of the line, and its scores."""

    number: int
    position: Any
    scores: Scores
    unread: int = 0


def list_entries(listed: Evaluated) -> Iterator[ListEntry]:
    pairs: Any = listed.items() if isinstance(listed, Mapping) else lines_of(listed)  # type: ignore[arg-type]
    for number, it in enumerate(pairs, 1):
        if isinstance(it, (str, bytes, bytearray)):
            found: Any = OBF_LINE.match(without_end(it))
            pieces = [piece for piece in (part.strip(b" \t") for part in found[5].split(b";")) if piece]
            matches = [match for match in map(LISTED_SCORE.fullmatch, pieces) if match]
            scores: Scores = [(MOVES[of[1].upper()], float(of[2]) if b"." in of[2] else int(of[2])) for of in matches]
            yield ListEntry(number, position_in(it, number), scores, len(pieces) - len(matches))
        elif isinstance(it, tuple) and len(it) == 2:
            yield ListEntry(number, as_position(it[0]), as_scores(it[1]))
        else:
            raise TypeError(f"a list has lines of OBF, or pairs of a position and its scores, not {it!r}")


def as_scores(values: Values) -> Scores:
    scores: Scores = []
    for move, score in values.items() if isinstance(values, Mapping) else [(None, values)]:
        name = None if move is None else MOVES.get(str(move).upper().encode())
        if name is None and move is not None:
            raise ValueError(f"a move is the name of a square, PS or --, not {move!r}")
        if not math.isfinite(checked_score(name or "a position", score)):
            raise ValueError(f"the score of {name or 'a position'} is a finite number, not {score}")
        scores.append((name, score))
    return scores


def solved(entries: List[ListEntry], solver: Solver, known: Optional[Known], threads: Count, call: SolverCall,
           each: Seconds) -> Iterator[Tuple[ListEntry, Union[Exact, str, None]]]:
    """Yields each entry that is a position or refused, with what `comparison` takes. Solves what is not known: all
    moves of a position if a square is listed, otherwise the position alone."""
    exact = known_scores(known, [it.position for it in entries if isinstance(it.position, Position)])

    def lacks(entry: ListEntry) -> bool:
        return entry.position not in exact or None in (exact[entry.position] or ()) and has_squares(entry)

    taken = [it for it in entries if isinstance(it.position, Position) and it.position.empties <= solver.max_empties]
    calls: Any = (solver.move_scores_all, has_squares), (solver.solve_all, bool)
    for find, is_for in calls:
        rest = list(dict.fromkeys(it.position for it in taken if it.scores and lacks(it) and is_for(it)))
        left = None if call.end == math.inf else max(0, call.end - time.monotonic())
        try:
            found = find(rest, threads=threads, timeout=left, each=each)
        except TimedOut as why:
            found, call.is_late = why.found, True
        exact.update(exact_of_all(zip(rest, found)))
    exact = {**dict.fromkeys((it.position for it in taken), {}), **exact}  # nothing is asked of those without scores
    for entry in entries:
        if isinstance(entry.position, Position):
            empties = entry.position.empties
            more = f"{empties} empty squares, which Solver(max_empties={empties}) takes"
            yield entry, more if lacks(entry) else exact[entry.position]
        elif not isinstance(entry.position, NoPosition):
            yield entry, entry.position.reason


def has_squares(entry: ListEntry) -> bool:
    """Whether the scores of an entry are of moves that its position may have."""
    return any(move in NAMES for move, _ in entry.scores) and bool(entry.position.legal_moves)


def known_scores(known: Optional[Known], positions: List[Position]) -> Dict[Position, Optional[Exact]]:
    """The exact scores in `known`, as `compare_scores` takes it; an empty {move: score} tells nothing."""
    if isinstance(known, Answers):
        if len(known.score) != len(positions):
            raise ValueError(f"{len(known.score)} known scores are not those of {len(positions)} positions")
        known = dict(zip(positions, (None if score == NO_SCORE else score for score in known.score.tolist())))
    return exact_of_all((as_position(position), found) for position, found in (known or {}).items() if found != {})


def exact_of_all(pairs: Iterable[Tuple[Position, Any]]) -> Dict[Position, Optional[Exact]]:
    return {position: None if found is None else exact_of(position, found) for position, found in pairs}


def exact_of(position: Position, found: Union[int, Answer, Mapping[str, int]]) -> Exact:
    """The exact scores of a position, from what is known or found of it. Raises ValueError for wrong ones."""
    scores, moves = dict(as_scores(found.score if isinstance(found, Answer) else found)), moves_to_score(position)
    if None in scores and not position.legal_moves:
        scores = {moves[0]: scores[None]}
    if scores.keys() not in ({None}, {*moves}) or any(score not in range(-64, 65) for score in scores.values()):
        raise ValueError(f"not the exact scores of the legal moves in {position.to_obf()} {found!r}")
    return {move: int(score) for move, score in scores.items()}


def printed(entries: Iterable[ListEntry], scored: Source) -> Iterator[Tuple[ListEntry, Union[Exact, str]]]:
    """Yields what `solved` does, by the lines that `ffoscores` printed. Raises ValueError as `compare_scores` does."""
    nothing = ListEntry(0, NoPosition(), [])
    for number, (entry, text) in enumerate(itertools.zip_longest(entries, lines_of(scored)), 1):
        entry, text = entry or nothing, text or b""
        line, exact = entry.position, position_in(text, number)
        if isinstance(line, NoPosition) and isinstance(exact, NoPosition):
            continue
        refused = re.match(rb"% refused: ((\d+) empties, limit \d+|[^:]*): ", without_end(text))
        answers = (isinstance(exact, Position) and exact == line
                   and sorted(move for move, _ in exact.listed) == sorted(moves_to_score(exact)))
        if not (refused and isinstance(exact, NoPosition)) and not answers:
            raise ValueError(f"line {number} of the scores is not what ffoscores prints for line {number} of the list")
        if refused:
            more = b", which --max-empties %b takes" % refused[2] if refused[2] else b""
            yield entry, (refused[1] + more).decode(errors="replace")
        else:
            yield entry, dict(exact.listed)


def moves_to_score(position: Position) -> List[str]:
    """The legal moves. A pass and the end of a game count as moves."""
    return position.legal_moves or ["PS" if position.must_pass else "--"]


def position_in(text: Union[str, bytes], number: int) -> Any:
    try:
        return read_line(text, number, Position)
    except LineRefused as error:
        return error


def worth_of(exact: Exact) -> Exact:
    """The exact scores of moves and, with None, of the position."""
    return {None: max(exact.values(), default=0), **exact}


def summary(rows: List[Row], refused: Dict[int, str], unsolved: int, by_empties: Dict[int, ScoreComparison]
            ) -> ScoreComparison:
    legal: List[WrongScore] = []  # some of them may be exact
    losses: List[int] = []
    for entry, exact in rows:
        worth = worth_of(exact)
        found = [WrongScore(entry.number, move, score, worth[move], entry.position) for move, score in entry.scores
                 if move in worth]
        legal += found
        chosen = max([it for it in found if it.move], key=lambda it: it.listed, default=None)
        losses += [worth[None] - chosen.exact] if chosen and len(exact) > 1 else []
    wrong = [it for it in legal if it.error]
    illegal = sum(len(entry.scores) for entry, _ in rows) - len(legal)
    errors, sizes = [it.listed - it.exact for it in legal], [it.error for it in legal]
    root = math.sqrt(mean_of([size * size for size in sizes])) if sizes else math.nan
    return ScoreComparison(
        len(rows), len(legal), wrong, mean_of(sizes), root, mean_of(errors), max(sizes, default=0), len(losses),
        mean_of(losses), mean_of([not loss for loss in losses]), refused, unsolved, illegal,
        sum(entry.unread for entry, _ in rows), by_empties, rows)


def mean_of(numbers: List[Any]) -> float:
    return float(sum(numbers) / len(numbers)) if numbers else math.nan
