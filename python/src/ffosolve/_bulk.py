"""Solves many positions: cuts them into batches, solves these on threads, and yields the results in order."""
import contextlib
import queue
import sys
import threading
import time
from collections import deque
from typing import Any, Callable, Deque, Iterable, Iterator, List, NamedTuple, Tuple, TypeVar, Union

from ._processes import CHECK_SECONDS, LIGHTEST, SolverCall, TimedOut, is_brief
from ._refusals import Refused
from ._squares import c_positions, checked_position, checked_positions

A = TypeVar("A")
B = TypeVar("B")
BatchOrRefusal = Union["Batch", Refused]

# Positions of this weight together are solved in some hundredths of a second. A position with up to 8 empty squares
# weighs 1, and each further empty square doubles the weight, so one with 16 is heavy enough for a batch of its own.
MOST_WEIGHT = 256
MOST_IN_LIST = 15_000  # of a program's list, which has at most 1 MiB
MOST_SECONDS = 0.01  # for so long, positions are read before the first ones are solved
BATCHES_AHEAD = 32  # batches that are read ahead for each thread, so that a slow one does not hold up the other threads


class Batch(NamedTuple):
    positions: Any  # an array of CPositions
    empties: int  # the greatest number of empty squares in one


def slices_of(empties: List[int], call: SolverCall, at_once: bool) -> Iterator[Tuple[slice, int]]:
    """Cuts positions, given by their numbers of empty squares, into slices; yields each with its greatest number. The
    library solves a slice in a brief call (see `is_brief`). If a slice's first position alone takes longer, a program
    solves the slice and, if `at_once`, also the positions after it, up to the `most_weight` of the call."""
    gets_all = at_once and not is_brief(1, max(empties, default=0)) and call.has_program()
    start = greatest = weight = 0
    for at, count in enumerate(empties):
        more = 1 << max(0, count - LIGHTEST)
        weight += more
        fits = (weight <= min(MOST_WEIGHT, call.most_weight)
                and is_brief(1, greatest) == is_brief(at + 1 - start, max(greatest, count)))
        joins = gets_all and not is_brief(1, greatest) and at - start < MOST_IN_LIST and weight <= call.most_weight
        if at > start and not (fits or joins):
            yield slice(start, at), greatest
            start, greatest, weight = at, 0, more
        greatest = max(greatest, count)
    if empties:
        yield slice(start, len(empties)), greatest


def batches_of(positions: Iterable[Iterable[int]], max_empties: int, call: SolverCall, at_once: bool
               ) -> Iterator[BatchOrRefusal]:
    """Yields Batches of `positions`; reads all before if `at_once`. At a refused position, yields Batches of those
    before it, then the Refused, or raises it if `at_once`. Raises TypeError, and ValueError for a wrong mask."""
    masks: List[int] = []
    empties: List[int] = []
    weight, end = 0, time.monotonic() + MOST_SECONDS

    def batches() -> Iterator[Batch]:
        for at, most in slices_of(empties, call, at_once):
            yield Batch(c_positions(masks[2 * at.start:2 * at.stop]), most)

    for index, position in enumerate(checked_positions(positions)):
        try:
            own, opp, count = checked_position(position, max_empties, index)
        except Refused as refusal:
            yield from batches()
            if at_once:
                raise
            yield refusal
            return
        masks += own, opp
        empties.append(count)
        weight += 1 << max(0, count - LIGHTEST)
        if not at_once and (weight >= MOST_WEIGHT or time.monotonic() > end):
            yield from batches()
            masks, empties, weight, end = [], [], 0, time.monotonic() + MOST_SECONDS
    yield from batches()


def in_order(call: SolverCall, solve: Callable[[A], Iterable[B]], batches: Iterable[A], threads: int) -> Iterator[B]:
    """Calls `solve` with each of `batches`, on up to `threads` new threads or, if that is 1 or none can be started, on
    the caller's. Yields the items that it returns, in order. Stops `call`, of which this is a part, when closed. Raises
    what `solve` and `batches` do; TimedOut with the number of positions."""
    # An exception of a signal's handler may leave a Future locked, but not a SimpleQueue.
    tasks: "queue.SimpleQueue[Any]" = queue.SimpleQueue()
    waiting: Deque["queue.SimpleQueue[Any]"] = deque()  # for each batch, a queue that gets its result

    def work() -> None:
        taken: Iterator[Any] = iter(tasks.get, None)
        for results, batch in taken:
            try:
                results.put(solve(batch))
            except BaseException as error:
                results.put(error)
        tasks.put(None)  # ends the next thread

    try:
        if threads == 1 or not is_started(work):
            for batch in batches:
                yield from call.counted(solve(batch))
            return
        for number, batch in enumerate(batches):
            if 0 < number < threads:
                is_started(work)
            waiting.append(queue.SimpleQueue())
            tasks.put((waiting[-1], batch))
            while waiting and (not waiting[0].empty() or len(waiting) >= BATCHES_AHEAD * threads):
                yield from call.counted(result_of(waiting.popleft(), call))
        while waiting:
            yield from call.counted(result_of(waiting.popleft(), call))
    except TimedOut:
        raise call.timed_out(call.done) from None
    finally:
        call.is_left = True
        tasks.put(None)


def is_started(work: Callable[[], None]) -> bool:
    """Starts a thread. Returns whether that was possible; while Python is ending, it may not be."""
    with contextlib.suppress(RuntimeError):
        if not sys.is_finalizing():  # otherwise, Python 3.11 would wait for ever
            threading.Thread(target=work, name="ffosolve", daemon=True).start()
            return True
    return False


def result_of(results: "queue.SimpleQueue[Any]", call: SolverCall) -> Any:
    """Returns the result in a queue or, if it is an exception, raises it. Waits for it until `call` is left: at the end
    of its time, what solves it puts a result there."""
    result = None
    while result is None:
        if results.empty():
            call.check()
        with contextlib.suppress(queue.Empty):
            result = results.get(timeout=CHECK_SECONDS)
    if isinstance(result, BaseException):
        raise result
    return result
