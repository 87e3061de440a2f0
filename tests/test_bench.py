"""The programs in bench/: their usage, and weights of the search; results of the FFO endgame test in docs/ffo.md."""
import itertools
import os
import re
import runpy
from types import SimpleNamespace

import pytest

from tests.support import ROOT, run, stored


def test_the_document_has_every_published_score_and_move():
    page, lines = (stored(name).decode() for name in ("docs/ffo.md", "examples/ffo-40-58.obf"))
    published = re.findall(r" [XO]; (.*); % (\d+)$", lines, re.M)
    assert len(published) == 15
    for listed, number in published:
        _, score, moves, *_ = re.search(rf"^\| {number} \| (.*)$", page, re.M)[1].split(" | ")
        claims = [claim.split(":") for claim in listed.split("; ")]
        assert {claim for _, claim in claims} == {score}
        assert {move for move, _ in claims} <= {*moves.split(", ")}


def test_the_benchmark_prints_its_usage():
    ran = run(ROOT / "bench/run", "x", text=True)
    assert (ran.returncode, ran.stdout, "    bench/run counts " in ran.stderr) == (1, "", True)


@pytest.mark.parametrize("words, of_ffosolve, row", (
    ("3 x86-64-v3", (3, 4, 2), r"FFO 40, 0 entries \| x86-64-v3 \| 2.00 s \| 8.00 s \| 0.25"),
    ("tables 18 18", (0.6, 0.9, 0.5, 0.7, 0.4), "18" + r" \| 0.2 s" * 6),
))
def test_the_least_times_count_and_a_ratio_is_proved_by_plain(monkeypatch, capsys, words, of_ffosolve, row):
    """Nothing is run: the processor seconds are made up, and a process has them as its ID. Each list takes ffosolve
    those of `of_ffosolve` in turn, the empty list 0.2, and the same search in plain Rust takes 9, 11 and 8."""
    taken = {}

    def begin(words, **how):
        if "peer" in words[0]:
            seconds = (9, 11, 8)
        else:
            seconds = of_ffosolve if os.path.getsize(words[-1]) else (0.2,)
        return SimpleNamespace(pid=next(taken.setdefault(tuple(words), itertools.cycle(seconds))), args=words)

    monkeypatch.setattr("subprocess.Popen", begin)
    monkeypatch.setattr("subprocess.run", lambda *words, **how: None)
    monkeypatch.setattr("os.wait4", lambda pid, _: (pid, 0, SimpleNamespace(ru_utime=pid / 4, ru_stime=pid * 3 / 4)))
    monkeypatch.setattr("sys.argv", ["bench/run", *words.split()])
    monkeypatch.setattr("sys.dont_write_bytecode", True)
    monkeypatch.syspath_prepend(ROOT / "bench")
    runpy.run_path(str(ROOT / "bench/run"))
    assert re.search(rf"(?m)^\| {row} \|$", capsys.readouterr().out)


def test_bench_weights_fits_planted_weights_and_prints_the_same_again_in_the_form_of_weights_rt(folder):
    for words in (["-o", "weights"], ["--test", "-o", "planted"]):
        run("rustc", "-Copt-level=3", *words, ROOT / "bench/weights.rs", check=True)
    run("./planted", check=True)
    printed, again = (run("./weights", 160, text=True, check=True).stdout for _ in range(2))
    assert printed == again
    kept = (ROOT / "crates/endgame_search/src/weights.rt").read_text()
    assert re.sub(r"-?\d+,?\s*", "", printed) == re.sub(r"-?\d+,?\s*", "", kept)
    assert len(re.findall(r" -?\d+,", kept)) == len(re.findall(r" -?\d+,", printed)) == 6_561
