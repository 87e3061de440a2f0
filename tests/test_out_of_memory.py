"""ffosolve and ffoscores without enough memory: in run n, the nth request for memory is refused."""
import pytest

from tests.support import ROOT, built, outcome, outcomes, refuse_threads, stored

TEXT, PRINTED = stored("crates", "ffosolve", "stdin"), stored("crates", "ffosolve", "stdout")
KINDS, SCORES = stored("examples", "kinds.obf"), stored("examples", "kinds.scores")
EXAMPLES = ROOT / "examples"
FILES = ("--book-in", EXAMPLES / "first.book", "--book-out", "it.book", EXAMPLES / "first.obf", EXAMPLES / "kinds.obf")


@pytest.mark.parametrize("words, threads, prepare", (
    ((), 3, refuse_threads),
    (("--workers", "0", *FILES), 2, refuse_threads),
    (("--workers", "2", *FILES), 4, refuse_threads),
    (("--workers", "2", *FILES), 4, None),
))
def test_each_refused_request_ends_ffosolve_unless_it_starts_a_thread(folder, words, threads, prepare):
    assert outcome(built(), input=TEXT) == (0, PRINTED, b"", {})
    done, reported = outcome(built(), *words, input=TEXT), (1, b"", b"ffosolve: out of memory\n", {})
    *refused, last = outcomes(built(), *words, input=TEXT, preexec_fn=prepare)
    assert last == done
    assert [run for run in enumerate(refused, 1) if run[1] not in (done, reported)] == []
    assert len(refused) >= 10 * threads
    if prepare:  # otherwise the number of the request that starts a thread varies from run to run
        # One more run goes on: that without room for all words of the command line at once.
        assert refused.count(done) == threads + 1


def test_more_than_nine_in_ten_refused_requests_end_ffoscores_and_others_change_nothing(folder):
    done, error = (1, SCORES, b"", {}), b"ffoscores: out of memory\n"
    *refused, last = outcomes(built("ffoscores"), "--table", "100", input=KINDS)
    assert last == done
    ended = [run for run in enumerate(refused, 1) if run[1] != done]
    assert [run for run in ended if run[1] != (3, SCORES[:len(run[1][1])], error, {})] == []
    assert 10 * len(ended) > 9 * len(refused)
