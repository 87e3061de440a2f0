"""Python is clean for mypy and flake8, shell for shellcheck. Their settings are in setup.cfg and .shellcheckrc. No
modules of the package for Python import each other in a circle, or those above them in docs/architecture.md."""
import ast
import collections
import functools
import graphlib
import re
import symtable

import pytest

from tests.prefix import names_of_files
from tests.support import ROOT, run, stored, write

accepts = functools.partial(run, cwd=ROOT, text=True, timeout=300, check=True)


def test_types():
    accepts("mypy")


@pytest.mark.parametrize("words, language", (
    (["flake8", "."], r"python\d?"), (["shellcheck", "share/completions/bash"], "(ba)?sh")), ids=("python", "shell"))
def test_files_and_scripts(words, language):
    """The first line of a script names an interpreter, whose name the pattern `language` matches."""
    accepts(*words, *(name for name in names_of_files() if re.match(rf"#!.*\b{language}\n".encode(), stored(name))))


def imported(module):
    """Yields the files of the modules of the package that a file imports, in functions and for types, too."""
    text = module.read_text()
    assert not re.search(r"(?m)^ *(from|import) ffosolve\b", text), f"{module}: an import without a dot"
    for node in ast.walk(ast.parse(text)):
        if isinstance(node, ast.ImportFrom) and node.level:
            place = module.parents[node.level - 1].joinpath(*(node.module or "").split("."))
            files = [place / f"{it.name}.py" for it in node.names] if place.is_dir() else [place.with_suffix(".py")]
            yield from (file if file.exists() else place / "__init__.py" for file in files)


def test_modules_import_from_their_row_of_the_map_in_architecture_or_lower_ones_and_never_in_a_circle():
    package = ROOT / "python/src/ffosolve"
    uses = {module: [*imported(module)] for module in package.rglob("*.py")}
    graphlib.TopologicalSorter(uses).prepare()
    rows = stored("docs/architecture.md").decode().split("its row or lower ones:\n\n```text\n")[1].split("\n```")[0]
    depths = {package / f"{name}.py": depth for depth, row in enumerate(rows.split("\n"))
              for name in row.partition("   ")[0].split()}
    assert depths.keys() == {module for module in uses if module.name != "__init__.py"}
    for module, depth in depths.items():
        assert [it for it in uses[module] if depths.get(it, depth) < depth] == [], module


def test_a_name_of_the_package_stands_for_one_thing():
    """Each program has a name, a help in three pieces, and a function that runs it."""
    named = collections.Counter()
    for module in (ROOT / "python/src/ffosolve").rglob("*.py"):
        symbols = symtable.symtable(module.read_text(), str(module), "exec").get_symbols()
        named.update(it.get_name() for it in symbols if it.is_assigned())
    assert named["Position"] == 1
    assert {name for name, count in named.items() if count > 1} == {"NAME", "USAGE", "WHAT", "MORE", "main"}


def test_no_line_of_the_crates_has_more_than_160_columns():
    """In files in must-fail/, a text to replace, or its replacement, has to be one line, however long it is."""
    for name in names_of_files():
        if name.startswith("crates/") and "/must-fail/" not in name:
            assert max(map(len, stored(name).decode().split("\n"))) <= 160, name


def test_no_test_module_imports_another():
    tests = [path for folder in ("tests", "python/tests") for path in (ROOT / folder).glob("test_*.py")]
    assert len(tests) > 20
    assert [path.name for path in tests if re.search(r"(?m)^ *(from|import) .*\btest_", path.read_text())] == []


def test_recipes(folder):
    """make prints each recipe, with the variables of make filled in, after a line that names the target. `make help`
    lists those of both makefiles. The shell that does nothing is for recipes that call make: they are run."""
    targets = re.findall(r"^make (\S+) +\w", run("make", "-s", "help", cwd=ROOT, text=True).stdout, re.M)
    assert {"all", "look", "install", "check", "dist", "deb", "wheel"} <= {*targets}
    words = ("make", "-nBk", "--trace", "SHELL=/bin/true", "CPU=x86-64-v2", *targets)
    printed = run(*words, cwd=ROOT, text=True).stdout
    recipes = re.findall(r"^\S+:(\d+): (?:update )?target '(?:.*/)?(.*?)' .*\n((?:(?!\S+:\d+: ).*\n)+)", printed, re.M)
    assert {"check", "dist", "libffosolve.so"} <= {target for _, target, _ in recipes}
    accepts("shellcheck", "-s", "sh", *{write(folder / f"{at}-{to}", f"set -eu\n{text}") for at, to, text in recipes})
