"""Runs some of the crates' tests, proved, with and without refused memory; and all, unproved, with runtime checks."""
import re

import pytest

from tests.prefix import LEVELS
from tests.support import ROOT, is_v3, need, outcomes, run

# Parts of the names of the tests that are run here. Others go on after a refused request, or need two threads.
TESTS = (
    "written_lines::", "fault_texts::", "tables::", "searches::", "books::find::", "boards::limits::",
    "boards::memory::", "boards::steps::", "prints_a_front", "a_full_writer", "a_desk_on_one_thread",
    "a_clients_memory", "gives_a_book", "clients_alone", "clients_are_refused", "gates_are_called", "a_refused_finish",
    "a_refused_submit", "an_unread_text",
)
# Tests that each refused request ends, and the number of their requests (None: any number). They show that a lack of
# memory is reported before all other faults, and that nothing is requested after the last step that can report it.
ENDED = {
    "tests::boards::desks::a_clients_memory_comes_first": 3,
    "tests::boards::memory::no_step_after_the_last_submit_takes_memory": None,
}
REPORTS = ("AllocError", "AllocFailed { .. }", "Kind(OutOfMemory)", "Memory")  # how these tests report out of memory


def test_a_crates_test_passes_or_reports_only_out_of_memory_at_each_refused_request(folder):
    program = ROOT / "out" / LEVELS[is_v3()] / "crate_tests_tests"
    run("make", "-s", "-C", ROOT, program.relative_to(ROOT), check=True, text=True, timeout=None)
    listed = run(program, "--list", check=True, text=True).stdout
    assert [part for part in TESTS if part not in listed] == []
    tests = re.findall(rf"^(tests::\S*(?:{'|'.join(TESTS)})\S*): test$", listed, re.M)
    assert ENDED.keys() <= set(tests)
    for test in tests:
        *refused, last = outcomes(program, test, text=True)
        ended = [run for run in enumerate(refused, 1) if run[1][0] != 0]
        assert last[0] == 0, (test, last)
        for number, (_, _, errors, _) in ended:
            reports = re.findall(r"^\w+: (.*)$", errors, re.M)
            assert len(reports) == 1 and reports[0] in REPORTS, f"{test}: request {number}: {errors}"
        if test in ENDED:
            assert (len(refused), len(ended)) == (ENDED[test] or len(refused),) * 2, test


@pytest.mark.timeout(2700)
def test_all_tests_are_in_one_crate_and_pass():
    sources = {path: path.read_text().count("#[test]") for path in ROOT.glob("crates/*/src/**/*.rt")}
    crate = ROOT / "crates/crate_tests"
    assert [path for path, count in sources.items() if count and crate not in path.parents] == []
    # This takes 400 seconds on a busy machine.
    ran = run("rt", "try", "--test", "--seconds", 900, cwd=crate, text=True, timeout=2700)
    printed = ran.stdout + ran.stderr
    assert "run=ended status=0 " in printed
    assert len(re.findall(r"^test \S+ \.\.\. ok$", printed, re.M)) == sum(sources.values()), printed


def test_the_search_in_plain_rust_has_the_counts_that_those_tests_expect():
    need("rustc")
    expected = (ROOT / "crates/crate_tests/src/tests/searches/counts.rt").read_text()
    printed = run(ROOT / "bench/run", "counts", text=True, check=True).stdout
    # rt fmt may lay out a row in several lines.
    assert re.findall(r"\d+", printed) == re.findall(r"\d+", expected[expected.index("const COUNTS:"):])


def test_the_checkout_has_no_link_which_rt_ci_would_refuse():
    assert [path for path in ROOT.rglob("*") if path.is_symlink() and ".git" not in path.parts] == []
