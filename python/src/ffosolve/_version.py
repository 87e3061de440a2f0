"""Finds out the version of this package. Run as a program, this file prints it."""
import functools
import importlib.metadata
import subprocess
from pathlib import Path
from typing import List

COMMIT = "$Format:%h$"  # which `git archive` replaces: see .gitattributes


@functools.lru_cache(maxsize=None)
def version() -> str:
    """The version by which pip and apt know the package. In a checkout: what the file VERSION has and, if commits came
    after its last change, their number and the last of them, as in 1.0.0+12.g0123456 or, before the release 1.1.0,
    1.1.0.dev12+g0123456. A clone with only the last commits, or `git archive`, does not know the number: 1.0.0+g0123456
    or 1.1.0.dev0+g0123456. A mere copy of the package has 0+unknown."""
    sources = Path(__file__).absolute().parent.parent
    for known in importlib.metadata.distributions(name="ffosolve", path=[str(sources)]):
        return known.version
    if (sources.parent / "PKG-INFO").exists():  # of a source archive
        return importlib.metadata.PathDistribution(sources.parent).version
    root = sources.parent.parent
    if sources != root / "python/src" or not (root / "VERSION").exists():
        return "0+unknown"
    release = (root / "VERSION").read_text().strip()
    try:
        is_shallow, head = git(root, "rev-parse", "--is-shallow-repository", "HEAD")
        if is_shallow == "true":
            return f"{release}+g{head[:7]}"
        last, *_ = git(root, "rev-list", "--max-count=1", head, "--", "VERSION")
        later = git(root, "rev-list", f"{last}..{head}")
        if release.endswith(".dev0"):
            return f"{release[:-1]}{len(later)}+g{head[:7]}"
        return f"{release}+{len(later)}.g{head[:7]}" if later else release
    except (OSError, subprocess.CalledProcessError, ValueError):  # no checkout
        return release if COMMIT.startswith("$") or "+" in release else f"{release}+g{COMMIT[:7]}"


def git(root: Path, *words: str) -> List[str]:
    command = ["git", f"--git-dir={root / '.git'}", *words]
    return subprocess.check_output(command, cwd=root, stderr=subprocess.DEVNULL, encoding="ascii").split()


if __name__ == "__main__":
    print(version())
