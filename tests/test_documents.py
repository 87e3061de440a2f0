"""The commands in the documents print what is shown there, and the files, definitions and numbers that documents name
are those of the checkout.

All commands of a document in blocks `console` run in one folder, with links to the checkout's files. A block `sh` is
not run, since it is for another machine or takes long. Git has to ignore all files that either kind of block makes.
"""
import os
import re

import pytest

from tests.prefix import blocks_of, names_of_files, print_what_is_shown
from tests.support import MOST_BYTES, ROOT, built, ends, need, run, stored

DOCUMENTS = ["README.md", "CONTRIBUTING.md", *sorted(f"docs/{path.name}" for path in ROOT.glob("docs/*.md"))]
TEXTS = {name: stored(name).decode() for name in DOCUMENTS}
MADE = re.compile(r"(?: -o |[^<>&\d]>|bin/ffosolve-many (?:--scheduler \S+ )?)([\w./-]+)")  # in a block `sh`
# A line that declares NAME as a definition, field, function, constant, type or variant.
DECLARES = (r"(?m)^ *(?:(?:[\w()\"]+ )*(?:NAME *:|(?:record|data|fn|const|struct|enum|trait|type) NAME\b)|NAME[,({]|"
            r"pub use [^;]*\bNAME\b)")


@pytest.mark.parametrize("name", TEXTS)
def test_commands_print_what_is_shown_and_leave_only_ignored_files(folder, name):
    built()
    for linked in {path.partition("/")[0] for path in names_of_files() if not path.startswith(".")}:
        os.symlink(ROOT / linked, linked)
    print_what_is_shown(TEXTS[name])
    left = [made for made in os.listdir() if not os.path.islink(made)]
    left += [made for made in MADE.findall(blocks_of(TEXTS[name], "sh")) if not made.startswith("/")]
    ignored = run("git", "-C", ROOT, "check-ignore", "--no-index", *left, text=True).stdout.splitlines()
    assert set(left) == set(ignored)


def test_make_takes_each_command_line_of_the_documents():
    """Runs these lines so that make only prints what it would do."""
    need("make")
    texts = [(text, blocks_of(text, "(?:console|sh)")) for text in TEXTS.values()]
    lines = {" ".join(line.split()) for text, block in texts for line in (
        *re.findall(r"`(make\b[^`]*)`", text), *re.findall(r"^(?:\$ )?(make\b.*)$", block, re.M))}
    assert len(lines) > 15
    for line in lines:
        ran = run("sh", "-c", line, cwd=ROOT, env={**os.environ, "MAKEFLAGS": "n"}, text=True)
        assert (ran.returncode, ran.stderr) == (0, ""), line


def test_a_ratio_in_a_table_is_the_quotient_of_its_row():
    """Times have two decimals, so each may be 0.005 s more or less."""
    rows = re.findall(r"^\| .* \| (\S+) s \| (\S+) s \| (\S+) \|$", TEXTS["docs/performance.md"], re.M)
    assert len(rows) > 5
    for row in rows:
        one, other, ratio = map(float, row)
        assert (one - 0.005) / (other + 0.005) - 0.005 <= ratio <= (one + 0.005) / (other - 0.005) + 0.005, row


def test_the_guide_has_the_limits_of_files():
    """Its other limits are in --help, or written by `make constants`."""
    guide = " ".join(TEXTS["docs/user-guide.md"].split())
    assert {int(number.replace(",", "")) for number in re.findall("([0-9,]{5,}) bytes", guide)} == {MOST_BYTES}
    assert {*re.findall("(?:at most|more than) ([0-9]+) files", guide)} == {"64"}


def test_the_header_suggests_the_tables_that_the_packages_choose():
    """Their own tests have these sizes."""
    text = " ".join(stored("include/ffosolve.h.in").decode().split())
    assert "An entry takes 32 bytes; " in text
    assert "sizes: 0 for up to 10 empty squares, 4096 for up to 14, 65536 for up to 22, 1000000 for more. " in text


def test_stored_reports_are_what_ffosolve_prints():
    reports = sorted(ROOT.glob("examples/*.report"))
    assert reports
    for report in reports:
        ends((0, report.read_bytes(), b""), built(), report.with_suffix(".obf"))


def test_names_of_what_is_proved_lead_to_files_that_declare_them():
    proved = TEXTS["docs/guarantees.md"].split("## What is proved")[1].split("## What is only tested")[0]
    links = re.findall(r"\[`(?:\w+::)*(\w+)`\]\(\.\./(crates/.*?)\)", proved)
    assert [*re.findall(r"(?<!\[)`\w+::\w+", proved), *re.findall(r": `\w+`", proved)] == []
    assert len(links) > 100
    for name, place in links:
        assert re.search(DECLARES.replace("NAME", name), stored(place).decode()), (name, place)


def test_targets_of_links_exist_and_files_between_backticks_unless_a_build_or_installation_makes_them():
    folders = "bench bin crates docs examples include packaging python rust scripts share tests .ci".split()
    path = re.compile(rf"`((?:{'|'.join(map(re.escape, folders))})/[\w./-]*\w)")
    for name, text in TEXTS.items():
        links = [to for to in re.findall(r"\]\(([^)#]+)[^)]*\)", text) if "://" not in to]
        assert [to for to in links if not (ROOT / name).parent.joinpath(to).exists()] == [], name
        lost = [to for to in path.findall(text) if not (ROOT / to).exists() and not list(ROOT.glob(to))]
        assert [to for to in lost if not re.search(r"/out(/|$)|^share/doc/", to)] == [], name


def test_qualified_names_are_declared():
    """In three documents, a name like `Rules.flips` has to be declared in a specification Rules.antt, one like
    `laws::one_meaning` in a file laws.rt, and one like `Grid::plain_value` where `Grid` has an enum or impl."""
    qualified = re.compile(r"`([A-Z]\w*(?=\.)|\w+(?=::))(\.(?!antt|md)|::)(\w+)`")
    sources = {path: path.read_text() for path in ROOT.glob("crates/*/src/**/*.rt")}
    for name in ("definitions.md", "guarantees.md", "architecture.md"):
        for owner, mark, word in qualified.findall(TEXTS[f"docs/{name}"]):
            of_type = re.compile(rf"\b(?:impl(?:<.*>)?|enum) {owner}\b")
            files = [path for path, text in sources.items() if path.stem == owner or of_type.search(text)]
            files = files if mark == "::" else ROOT.glob(f"crates/*/specs/{owner}.antt")
            declares = re.compile(DECLARES.replace("NAME", word))
            assert any(declares.search(it.read_text()) for it in files), f"{name}: {owner}{mark}{word}"


def test_other_names_of_definitions_occur_in_sources():
    """These are the names in docs/definitions.md that look like `AreRanked` (CamelCase) or `lists_text` (`_`)."""
    sources = [*ROOT.glob("crates/*/specs/*.antt"), *ROOT.glob("crates/*/src/**/*.rt")]
    words = set(re.findall(r"\w+", "\n".join(source.read_text() for source in sources)))
    named = re.findall(r"`([A-Z]\w*[a-z][A-Z]\w*|[a-z]+_\w+)`", TEXTS["docs/definitions.md"])
    assert [word for word in named if word not in words] == []
