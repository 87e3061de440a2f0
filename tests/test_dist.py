"""make dist, deb and wheel: packages are complete and work without rt; two checkouts make the same archive."""
import hashlib
import itertools
import os
import re
import shutil
import sys
import tarfile
from functools import partial
from pathlib import Path
from types import SimpleNamespace

import pytest

from tests.prefix import (
    FIRST, FIRST_OBF, LEVELS, VERSION, WRITTEN, completed_by_zsh, copied_checkout, files_below, path_without,
    print_what_is_shown)
from tests.support import ROOT, ends, is_v3, need, run, stored, unshared, write

MAKE = ("make", "-s", f"PYTHON={sys.executable}")
COMMIT = "GIT_COMMITTER_DATE='1700000000 +0000' git -c user.name=a -c user.email=a@b commit -q -m one"
COMMIT_ALL = f"git init -q; git add -A; {COMMIT}"
PACKAGES = ["ffosolve", "libffosolve-dev", "libffosolve1", "python3-ffosolve"]
# A Python program: solves the position in its argument itself, and one with 15 empty squares by ffosolve. Prints
# versions, best moves, the files that it loaded, and the folder of the program that it ran.
SOLVE = """
import importlib.metadata, os, re, sys, ffosolve
solver = ffosolve.Solver()
best = solver.solve(ffosolve.Position.from_obf(sys.argv[1])).squares
solver.solve(ffosolve.Position(2**49 - 1, 0), timeout=60)
print(importlib.metadata.version("ffosolve"), ffosolve.__version__, solver.library_version, best)
print(ffosolve.__file__, re.search("/.*/libffosolve.*", open("/proc/self/maps").read())[0])
print(os.path.dirname(ffosolve._processes.program("ffosolve", solver._call(None))))
"""


def made(target, folder, *names, **how):
    """Runs make for a target in the checkout `folder`. Asserts that make prints only that it made the files `names` in
    out; returns their paths."""
    paths = [folder / "out" / name for name in names]
    ends((0, "".join(f"made: {path}\n" for path in paths), ""), *MAKE, "-C", folder, target, timeout=300, **how)
    return paths


def later(count, head):
    """The version of a package that is made `count` commits after the last change of the file VERSION."""
    return f"{VERSION}.dev{count}+g{head[:7]}" if WRITTEN != VERSION else f"{VERSION}+{count}.g{head[:7]}"


def for_debian(version):
    return version.replace(".dev", "~dev")


@pytest.fixture(scope="module")
def dist(shared_folder):
    """Archives of two checkouts that differ in path, times, umask, locale and time zone; the first archive, unpacked;
    their version and commit; and an environment without rt."""
    need("rt")
    first = copied_checkout(shared_folder / "a")
    run("sh", "-euc", f"git init -q; git add VERSION; {COMMIT}; {COMMIT_ALL}", cwd=first, check=True)
    second = shutil.copytree(first, shared_folder / "another place")
    head = run("git", "rev-parse", "HEAD", cwd=first, text=True).stdout.strip()
    version = later(1, head)
    name = f"ffosolve-{version}-linux-x86-64"
    os.utime(second / "README.md", (0, 0))
    other = {"umask": 0o077, "env": {**os.environ, "LC_ALL": "C", "TZ": "UTC+9"}}
    archives = [made("dist", place, f"{name}.tar.gz", **how)[0] for place, how in ((first, {}), (second, other))]
    unpacked = shared_folder / "a folder with blanks" / name
    run("tar", "-xzf", archives[0], f"--one-top-level={unpacked.parent}", check=True)
    places = {"PATH": path_without("rt", shared_folder), "TMPDIR": str(shared_folder), "PYTHONDONTWRITEBYTECODE": "1"}
    return SimpleNamespace(
        first=first, archives=archives, head=head, version=version, unpacked=unpacked, without_rt=places)


def shows(readme, at, start):
    """Asserts that the README of packages has at most 400 words, and that its commands succeed (ffoscores: status 1)
    and print the known results for first.obf and masks.txt. Its first block prepares for them with the package for
    Debian (`at` 0), its second with the archive (`at` 1). `start` runs a command."""
    need("cc", "pkg-config", "man")
    text = readme.read_text()
    assert len(text.split()) <= 400
    blocks = [re.sub("^    ", "", block, flags=re.M) for block in re.findall(r"(?:^    .*\n)+", text, re.M)]
    commands = re.findall(r"^(?!\[1\]|\d \S|solved).+$", "".join(blocks[2:]), re.M)
    assert (len(commands), FIRST in blocks) == (6, True)
    for command in commands:
        ran = start("sh", "-c", blocks[at] + command)
        assert (ran.stderr, ran.returncode) == ("", int("ffoscores" in command)), ran
        if command.endswith("first.obf"):
            assert ran.stdout == FIRST
        if "masks.txt" in command:
            assert ran.stdout == stored("examples/answers.txt").decode()


def test_two_checkouts_make_the_same_bytes(dist):
    first, second = (hashlib.sha256(path.read_bytes()).hexdigest() for path in dist.archives)
    assert first == second
    assert Path(f"{dist.archives[0]}.sha256").read_text() == f"{first}  {dist.archives[0].name}\n"


def test_entries_are_sorted_in_one_folder_with_the_time_of_the_commit_and_owner_0(dist):
    with tarfile.open(dist.archives[0]) as archive:
        entries = archive.getmembers()
    names = [entry.name.split("/") for entry in entries]
    assert (names, {top for top, *_ in names}) == (sorted(names), {dist.unpacked.name})
    owners = {(entry.uid, entry.gid, entry.uname, entry.gname, entry.mtime) for entry in entries}
    assert owners == {(0, 0, "", "", 1700000000)}
    assert {oct(entry.mode) for entry in entries} <= {"0o644", "0o755", "0o777"}
    ends((0, "", ""), "git", "-C", dist.first, "status", "--porcelain")


def test_archive_has_what_make_install_installs_except_readme(dist):
    stage, documents = dist.unpacked.parent / "stage", "share/doc/ffosolve/"
    run("make", "-s", "-C", dist.first, "install", "PREFIX=/p", f"DESTDIR={stage}", check=True)
    assert files_below(stage / "p") - files_below(dist.unpacked) == {f"{documents}README.md"}
    for name in ("docs/install.md", "CHANGELOG.md", "crates/othello_rules/specs", "examples"):
        place = dist.unpacked / name if name == "examples" else dist.unpacked / documents / name
        ends((0, "", ""), "diff", "-r", dist.first / name, place)


def test_scripts_and_package_say_the_version_of_the_build(dist):
    for place, package in ((dist.first, "python/src"), (dist.unpacked, "share/doc/ffosolve/python/src")):
        for name in ("ffosolve-many", "ffosolve-games"):
            ends((0, f"{name} {dist.version}\n", ""), place / "bin" / name, "--version")
        printed = run(sys.executable, "-Bc", "import ffosolve; print(ffosolve.__version__)", cwd=place / package)
        assert printed.stdout.decode() == f"{dist.version}\n"


@pytest.mark.parametrize("place", ("copy", "copy/python/src", "copy/lib/src"))
def test_a_mere_copy_of_the_package_has_no_known_version(folder, place):
    write("copy/VERSION" if place.endswith("lib/src") else "VERSION", "7.7.7\n")  # of another project
    shutil.copytree(ROOT / "python/src/ffosolve", Path(place, "ffosolve"))
    said = run(sys.executable, "-Bc", "import ffosolve; help(ffosolve)", cwd=place, check=True).stdout.decode()
    assert "\nVERSION\n    0+unknown\n" in said


def test_checksums_are_of_all_files(dist):
    names = re.findall(r"^[0-9a-f]{64}  \./(.*)$", (dist.unpacked / "SHA256SUMS").read_text(), re.M)
    files = {name for name in files_below(dist.unpacked) if not (dist.unpacked / name).is_symlink()}
    assert set(names) == files - {"SHA256SUMS"}
    ends((0, "", ""), "sha256sum", "--quiet", "-c", "SHA256SUMS", cwd=dist.unpacked)


def test_the_file_proved_names_commit_kit_and_the_crates_of_each_program_lowest_first(dist):
    text = (dist.unpacked / "PROVED").read_text()
    kit = run("rt", "version", text=True).stdout.strip()
    assert f"ffosolve {dist.version}, commit {dist.head}, {kit}\n" in text
    uses = dict(re.findall(r"^(\w+)[^:#\n]*:(.*)$", stored("crates.txt").decode(), re.M))
    crates = {place: line.split() for place, line in re.findall(r"^(\S+/\S+): (.*)$", text, re.M)}
    assert {place: names[-1] for place, names in crates.items()} == {
        "bin/ffosolve": "ffosolve", "bin/ffoscores": "ffoscores", "lib/libffosolve.*": "ffosolve_c"}
    for names in crates.values():
        assert len(set(names)) == len(names)
        for at, name in enumerate(names):
            assert {it for it in uses[name].split() if it in uses} <= set(names[:at])


def test_no_program_has_a_path_of_the_build(dist):
    for name in files_below(dist.unpacked):
        if name.startswith(("bin/", "lib/")):
            for place in (ROOT, dist.first, dist.unpacked, os.sep + "tmp."):
                assert os.fsencode(place) not in (dist.unpacked / name).read_bytes()


def test_files_that_texts_name_are_there(dist):
    """Documents, sources and manual pages may also name a reader's own files, in FOLDER/ or work/. Those in docs/ may
    name tests, benchmarks, proofs and packaging, which only the checkout has, but not in commands that they show."""
    named = re.compile(r"(?<![\w/<}.-])((?:[\w-]+[\w.-]*/)+[\w-]+\.(?:md|py|rs|c|h|toml|txt|obf|antt|a|so))\b")
    files = files_below(dist.unpacked)
    for path in [dist.unpacked / name for name in files]:
        if path.suffix not in (".md", ".py", ".c", ".rs", ".h", ".toml", ".pc") and path.parent.name != "man1":
            continue
        text = path.read_text()
        elsewhere = ("FOLDER/", "work/") + ("tests/", "bench/", "packaging/", "proofs/") * (path.parent.name == "docs")
        for name in named.findall(text):
            is_there = any(f"/{file}".endswith(f"/{name.lstrip('./')}") for file in files)
            assert is_there or name.startswith(elsewhere), (path, name)
        if path.suffix == ".md":
            words = re.findall(r"[\w./-]+", " ".join(re.findall(r"^(?:\$ |ffos).*$", text, re.M)))
            assert [word for word in words if (ROOT / word).is_file() and not (dist.unpacked / word).is_file()] == []


def test_the_commands_of_readme_print_what_it_shows(dist):
    shows(dist.unpacked / "README.md", 1, partial(run, cwd=dist.unpacked, env=dist.without_rt, text=True, timeout=300))


def test_the_commands_of_the_documents_run_on_the_path(dist, folder):
    """Only install.md is about a checkout, too, whose programs are in bin/."""
    os.symlink(dist.unpacked / "examples", "examples")
    env = {**dist.without_rt, "PATH": f"{dist.unpacked}/bin:{dist.without_rt['PATH']}"}
    for path in (dist.unpacked / "share/doc/ffosolve/docs").glob("*.md"):
        text = (dist.first / "docs" / path.name).read_text()
        assert path.read_text() == (text if path.name == "install.md" else text.replace("bin/ffos", "ffos"))
        print_what_is_shown(path.read_text(), env=env)


def test_ffosolve_many_has_the_programs_of_both_levels(dist, folder):
    ends((0, FIRST, ""), dist.unpacked / "bin/ffosolve-many", "--quiet", "work", FIRST_OBF, env=dist.without_rt)
    for level, program in zip(LEVELS[::-1], sorted(Path("work").glob("ffosolve-?")), strict=True):
        assert program.read_bytes() == (dist.unpacked / f"lib/ffosolve/ffosolve-{level}").read_bytes()


def test_the_program_for_the_level_that_the_loader_reports_replaces_its_starter(dist, folder, start):
    """So a signal to the starter ends the program."""
    starter = folder / "top/bin/ffosolve"
    text = (dist.unpacked / "bin/ffosolve").read_text()
    write(starter, text.replace("/lib64/ld-linux-x86-64.so.2", str(folder / "loader")))
    for level in LEVELS:
        write(folder / f"top/lib/ffosolve/ffosolve-{level}", f'#!/bin/sh\necho {level} $$ "$#" "$@"\nexit 3\n')
    os.symlink(starter, "linked")
    for line, level in (("  x86-64-v3 (supported, searched)", LEVELS[1]), ("  x86-64-v3", LEVELS[0])):
        write("loader", f"#!/bin/sh\necho '{line}'\n")
        for place in (starter, "./linked"):
            started = start(place, "a b", text=True)
            assert (started.communicate(), started.returncode) == ((f"{level} {started.pid} 1 a b\n", ""), 3)


def needs_libc_alone(path):
    """Asserts that a program or library needs no shared library but libc.so.6, and no glibc newer than 2.34."""
    printed = run("readelf", "-d", "-V", path, text=True).stdout
    versions = re.findall(r"GLIBC_([\d.]+)", printed)
    assert max(tuple(map(int, version.split("."))) for version in versions) <= (2, 34), path
    assert re.findall(r"Shared library: \[(.*)\]", printed) == ["libc.so.6"], path


def test_the_programs_need_only_the_c_library(dist, folder):
    for program in (dist.unpacked / "lib/ffosolve").iterdir():
        needs_libc_alone(program)
    empty = folder / "empty"
    shutil.copytree(dist.unpacked / "lib/ffosolve", empty / "opt")
    shutil.copy(FIRST_OBF, empty)
    libraries = re.findall(r"(/\S+) \(0x", run("ldd", empty / f"opt/ffosolve-{LEVELS[0]}", text=True).stdout)
    run("cp", "--dereference", "--parents", *libraries, empty, check=True)
    for level in LEVELS[:1 + is_v3()]:
        ends((0, FIRST, ""), *unshared(), "/usr/sbin/chroot", empty, f"/opt/ffosolve-{level}", "/first.obf", env={})


def is_used(start, version, place):
    """Asserts that the four programs, found on the path, run and have the right versions, and that Python finds the
    package in the folder `place`. `start` runs a command. Returns the path of the library that the package loads, and
    the folder of the program that it runs."""
    lines = FIRST_OBF.read_text()
    for name, of, words, text, wanted in (
        ("ffosolve", VERSION, [], lines, FIRST), ("ffoscores", VERSION, [], lines, lines),
        ("ffosolve-many", version, ["--quiet", "work", "-"], lines, FIRST),
        ("ffosolve-games", version, ["--empties=59"], "f5", f"{'-' * 27}OX------XXX{'-' * 26} O; % -, game 1\n"),
    ):
        assert start(name, "--version").stdout == f"{name} {of}\n"
        ran = start(name, *words, input=text)
        assert (ran.returncode, ran.stderr, ran.stdout) == (0, "", wanted)
    assert len(list(Path("work").glob("ffosolve-?"))) == len(LEVELS)
    shutil.rmtree("work")
    versions, files, programs = start("python3", "-c", SOLVE, lines.splitlines()[1]).stdout.splitlines()
    package, library = files.split()
    assert (versions, package) == (f"{version} {version} {VERSION} ['H1']", f"{place}/ffosolve/__init__.py")
    return library, programs


@pytest.fixture(scope="module")
def wheel(dist):
    pytest.importorskip("hatchling")
    return made("wheel", dist.first, f"ffosolve-{dist.version}-py3-none-manylinux_2_34_x86_64.whl")[0]


def test_the_wheel_has_the_same_bytes_again(dist, wheel):
    first = wheel.read_bytes()
    again, = made("wheel", dist.first, wheel.name, umask=0o077, env={**os.environ, "TZ": "UTC+9"})
    assert (again.read_bytes(), again.stat().st_mode & 0o777) == (first, 0o644)


def test_an_empty_environment_needs_only_the_wheel(dist, wheel, folder):
    if run("/usr/bin/python3", "-m", "venv", "empty", timeout=300).returncode:
        pytest.skip("venv for /usr/bin/python3 (Debian: python3-venv) is missing")
    pip, before = ("empty/bin/pip", "--disable-pip-version-check", "-q"), {*folder.glob("empty/**/*")}
    run(*pip, "install", "--no-index", wheel, timeout=300, check=True)
    package, = folder.glob("empty/lib/*/site-packages/ffosolve")
    libraries = [package / level / "libffosolve.so.1" for level in LEVELS]
    for path in (*libraries, *folder.glob("empty/lib/ffosolve/*")):
        needs_libc_alone(path)
    for library in libraries[is_v3()::-1]:  # the other one, too, as if the processor were of the lower level
        env = {"PATH": f"{folder}/empty/bin:/usr/bin:/bin"}
        found = is_used(partial(run, "env", env=env, text=True), dist.version, package.parent)
        assert found == (str(library), str(library.parent))
        library.unlink()
    run(*pip, "uninstall", "-y", "ffosolve", check=True)
    assert {*folder.glob("empty/**/*")} == before


def test_at_the_release_the_version_is_plain_and_of_a_shallow_clone_it_names_the_commit(folder):
    pytest.importorskip("hatchling")
    checkout = copied_checkout(folder / "plain")
    write(checkout / "VERSION", f"{VERSION}\n")
    run("sh", "-euc", COMMIT_ALL, cwd=checkout, check=True)
    made("wheel", checkout, f"ffosolve-{VERSION}-py3-none-manylinux_2_34_x86_64.whl")


@pytest.mark.parametrize("written, versions", (
    ("1.2.3", ["1.2.3", "1.2.3+1.gHEAD", "1.2.3+gHEAD"]),
    ("1.2.3.dev0", ["1.2.3.dev0+gHEAD", "1.2.3.dev1+gHEAD", "1.2.3.dev0+gHEAD"]),
))
def test_before_a_release_and_after_it_the_version_names_the_last_commit(folder, written, versions):
    """The versions are those at the last change of the file VERSION; a commit later; and then of a clone of depth 1 and
    of its `git archive`."""
    def is_version(wanted, place):
        head = run("git", "-C", "checkout", "rev-parse", "--short=7", "HEAD", text=True).stdout.strip()
        ends((0, f"{wanted.replace('HEAD', head)}\n", ""), sys.executable, f"{place}/python/src/ffosolve/_version.py")

    write("checkout/VERSION", f"{written}\n")
    files = ".gitattributes", "python/src/ffosolve/_version.py"
    run("cp", "--parents", *files, folder / "checkout", cwd=ROOT, check=True)
    for wanted in versions[:2]:
        run("sh", "-euc", f"date +%N >one; {COMMIT_ALL}", cwd="checkout", check=True)
        is_version(wanted, "checkout")
    run("git", "clone", "-q", "--depth=1", f"file://{folder}/checkout", "shallow", check=True)
    run("sh", "-c", "mkdir archive; git -C shallow archive HEAD | tar -xC archive", check=True)
    for place in ("shallow", "archive"):
        is_version(versions[2], place)
    write("archive/VERSION", "1.2.3+4.g0123456")  # as `make install` writes it
    is_version("1.2.3+4.g0123456", "archive")


@pytest.mark.parametrize("target", ("dist", "wheel", "deb"))
def test_without_a_commit_of_all_files_no_package_is_made(folder, target):
    """There is no git, no repository but that of a folder above, no commit, or a change after it."""
    run("sh", "-euc", f"mkdir copy; touch one; {COMMIT_ALL}", check=True)
    run("cp", "-r", *(ROOT / name for name in ("Makefile", "packaging", "VERSION", "python")), "copy", check=True)
    none = "a package needs a git commit, which it names"
    for before, environment, why in (
        ("true", {"PATH": path_without("git", folder)}, none), ("true", {}, none), ("git init -q", {}, none),
        (f"{COMMIT_ALL}; echo >>VERSION", {}, "not committed: M VERSION"),
    ):
        run("sh", "-euc", before, cwd="copy", check=True)
        ran = run(*MAKE, "-C", "copy", target, env={**os.environ, **environment}, text=True)
        assert (ran.returncode, ran.stdout) == (2, ""), ran
        assert re.match(rf"(.*git.*\n)?{why}\n", ran.stderr), ran  # a line about git may come first
    assert not Path("copy/out").exists()


def test_missing_packages_are_named_before_anything_is_proved(folder):
    why = "dpkg-checkbuilddeps: error: unmet build dependencies: one"
    run("cp", "-r", *(ROOT / name for name in ("Makefile", "packaging", "VERSION")), folder, check=True)
    write("tools/dpkg-checkbuilddeps", f"#!/bin/sh\necho '{why}' >&2\nexit 1\n")
    write("tools/rt", "#!/bin/sh\necho proves >&2\nexit 1\n")
    run("sh", "-euc", COMMIT_ALL, check=True)
    ran = run(*MAKE, "deb", env={**os.environ, "PATH": f"{folder}/tools:{os.environ['PATH']}"}, text=True)
    assert (ran.returncode, ran.stdout) == (2, "")
    assert ran.stderr.startswith(f"{why}\napt-get build-dep ./ installs them\nmake: "), ran


@pytest.fixture(scope="module")
def packages(dist):
    """Returns the paths of the packages for Debian, by their names."""
    missing = run("dpkg-checkbuilddeps", ROOT / "debian/control", text=True)
    if missing.returncode:
        pytest.skip(missing.stderr)
    version = for_debian(dist.version)
    files = [f"{name}_{version}_{'all' if name.startswith('python3') else 'amd64'}.deb" for name in PACKAGES]
    return dict(zip(PACKAGES, made("deb", dist.first, *files)))


def test_lintian_finds_nothing_but_functions_that_gcc_would_guard(packages):
    words = ("lintian", "--display-info", "--pedantic", "--tag-display-limit", "0", "--allow-root")
    ran = run(*words, *packages.values(), text=True, timeout=300)
    tags = set(re.findall("^(.: .*?: .*?)(?: .*)?$", ran.stdout, re.M))
    assert (ran.returncode, tags) == (0, {"I: ffosolve: hardening-no-fortify-functions"}), ran


def test_packages_have_the_programs_that_make_has_linked(dist, packages, folder):
    run("dpkg-deb", "-x", packages["ffosolve"], "root", check=True)
    for level, name in itertools.product(LEVELS, ("ffosolve", "ffoscores")):
        linked = (dist.first / "out" / level / name).read_bytes()
        for place in (dist.unpacked / "lib", Path("root/usr/lib")):
            assert (place / f"ffosolve/{name}-{level}").read_bytes() == linked, (place, name, level)


def test_versions_are_between_releases_in_the_order_of_commits(dist, packages):
    for package in packages.values():
        ends((0, f"{for_debian(dist.version)}\n", ""), "dpkg-deb", "-f", package, "Version")
    of_commits = "1.1.0+9.gfffffff", "1.1.0+10.g0000000", "1.2.0~", "1.2.0~dev9+gfffffff", "1.2.0~dev10+g0000000"
    for less, greater in itertools.pairwise(("1.1.0", *of_commits, "1.2.0")):
        assert run("dpkg", "--compare-versions", less, "lt", greater).returncode == 0


def test_they_have_what_the_archive_has_and_run_when_unpacked(dist, packages, folder):
    for package in packages.values():
        run("dpkg-deb", "-x", package, "root", check=True)
    documents, wanted = "share/doc/ffosolve", set()
    for name in files_below(dist.unpacked):
        if "/" in name and not name.startswith((f"{documents}/python", f"{documents}/LICENSE", f"{documents}/VERSION",
                                                "share/ffosolve")):
            name = name.replace("zsh/site-functions", "zsh/vendor-completions") + ".gz" * ("/man1/" in name)
            wanted.add(re.sub("^lib/(?!ffosolve/)", "lib/x86_64-linux-gnu/", name))
    for name in files_below(dist.unpacked / "share/ffosolve/python/src"):
        wanted.add(f"lib/python3/dist-packages/{name}")
    wanted |= {f"{documents}/{name}" for name in ("README.md", "PROVED")} | {"share/lintian/overrides/ffosolve"}
    wanted |= {f"share/doc/libffosolve-dev/{name}" for name in ("library.md", *(
        f"examples/{name}" for name in files_below(dist.first / "examples")))}
    wanted |= {f"share/doc/{name}/{file}" for name in PACKAGES for file in ("copyright", "changelog.gz")}
    found = {name for name in files_below("root/usr") if ".dist-info/" not in name}
    assert found == wanted
    ends((0, FIRST, ""), "root/usr/bin/ffosolve", f"root/usr/{documents}/examples/first.obf", env=dist.without_rt)


# Mounts an overlay over each folder of the system `top` into which packages are installed, and runs a command there, in
# the same working folder. The mounts end with it.
APART = """
top=$1 room=$2 shared=$3; shift 3
for folder in usr etc var; do
    mkdir -p "$room/$folder" "$room/work/$folder"
    mount -t overlay overlay -o "lowerdir=$top/$folder,upperdir=$room/$folder,workdir=$room/work/$folder" "$top/$folder"
done
[ -z "$top" ] || {
    mkdir -p "$top$shared"; mount --bind "$shared" "$top$shared"
    mount -t proc proc "$top/proc"; mount --rbind /dev "$top/dev"
}
exec chroot "$top/" sh -c 'cd "$0" && exec "$@"' "$PWD" "$@"
"""
APT = ("apt-get", "-q", "-y", "--allow-downgrades")
PYTHON = "/usr/lib/python3/dist-packages"


class System:
    """A Debian below the folder `top`; "" is this machine's. `run` runs a command there, and `make` one that has to
    succeed. Commands of one object alone see what it writes."""

    def __init__(self, top):
        if os.getuid() != 0:
            pytest.skip("layers over the system's folders are for root")
        layers = Path("layers").absolute()
        words = (*unshared(), "sh", "-euc", APART, "sh", top, layers, layers.parents[1])
        env = {"PATH": "/usr/sbin:/usr/bin:/sbin:/bin", "DEBIAN_FRONTEND": "noninteractive", "HOME": os.getcwd()}
        self.run = partial(run, *words, env=env, timeout=600, text=True)
        self.make = partial(self.run, check=True)

    def has_nothing_left(self):
        """Asserts that of removed packages nothing is left. Some systems keep an empty folder of documents."""
        assert self.run("dpkg-query", "-W", "*ffosolve*").stdout == ""
        found = self.make("find", "/usr", "/etc", "/var/lib/dpkg/info", "-iname", "*ffosolve*").stdout
        assert found in ("", "/usr/share/doc/ffosolve\n")


def test_apt_installs_them_and_removes_all_of_them(dist, packages, folder):
    need("dpkg-shlibdeps", "zsh", "fish", "/usr/share/bash-completion/bash_completion")
    system = System("")
    system.make(*APT, "--no-install-recommends", "install", *packages.values())
    system.make("test", "-d", f"{PYTHON}/ffosolve/__pycache__")
    library, programs = is_used(system.run, dist.version, PYTHON)
    assert (library.startswith("/usr/lib/x86_64-linux-gnu/"), os.path.realpath(programs)) == (True, "/usr/bin")
    run("dpkg-deb", "-x", packages["ffosolve"], "root", check=True)
    shows(folder / "root/usr/share/doc/ffosolve/README.md", 0, system.run)
    assert system.make("pkg-config", "--cflags", "--libs", "ffosolve").stdout.split() == ["-lffosolve"]
    # Shells find the completions by themselves.
    assert completed_by_zsh(["ffosolve --sco", "ffosolve-games che"], start=system.run)[0] == [
        "ffosolve --scoring=", "ffosolve-games check"]
    loads = ". /usr/share/bash-completion/bash_completion; _completion_loader ffosolve-many; complete -p ffosolve-many"
    assert system.run("bash", "-c", loads).stdout == "complete -F _ffosolve ffosolve-many\n"
    assert system.make("fish", "-c", "complete -C 'ffoscores --sco'").stdout.startswith("--scoring\t")
    # Debian's tools find the version that a program needs, and a package that depends on the library is installed.
    needs = "libffosolve1 (>= 1.0.0)"
    write("debian/control", "Source: one\n\nPackage: one\nArchitecture: any\n")
    fields = "Package: one\nVersion: 1\nArchitecture: all\nMaintainer: A <a@b>\nDescription: a\n"
    write("one/DEBIAN/control", f"{fields}Depends: {needs}, libffosolve-dev, python3-ffosolve\n")
    assert needs in system.make("dpkg-shlibdeps", "-O", "-eanswers").stdout
    run("dpkg-deb", "--build", "one", check=True)
    system.make("dpkg", "-i", folder / "one.deb")
    system.make("dpkg", "-P", "one")
    system.make(*APT, "purge", *PACKAGES)
    system.has_nothing_left()
    assert not Path("/usr/bin/ffosolve").exists()


def test_an_empty_debian_upgrades_the_single_package_of_before_and_goes_back(dist, packages, folder):
    """Up to version 1.1, one package had the files of all."""
    system, empty = System(str(folder / "empty")), folder / "empty"
    if run("debootstrap", "--variant=minbase", "bookworm", empty, timeout=800).returncode:
        pytest.skip("a mirror of Debian, or a right that debootstrap needs, is missing")
    for package in packages.values():
        run("dpkg-deb", "-x", package, "one", check=True)
    fields = "Package: ffosolve\nVersion: 1.1.0\nArchitecture: amd64\nMaintainer: A <a@b>\nDescription: a\n"
    provided = ", ".join(f"{name} (= 1.1.0)" for name in PACKAGES[1:])
    write("one/DEBIAN/control", f"{fields}Depends: python3\nProvides: {provided}\n")
    run("dpkg-deb", "--root-owner-group", "--build", "one", check=True)
    single = {"ffosolve": folder / "one.deb"}
    system.make("apt-get", "-q", "update")
    assert system.make("apt-get", "-s", "install", *packages.values()).stdout.count("Inst ") < 60  # with Dask it is 366
    for installed in (single, packages, single, {name: packages[name] for name in PACKAGES if "dev" not in name}):
        system.make(*APT, "install", *installed.values())
        listed = system.make("dpkg-query", "-W", "-f", "${Package} ${Status}\n", "*ffosolve*").stdout
        assert re.findall("(.*) install ok installed", listed) == [*installed]
        assert system.make("dpkg", "-V", *installed).stdout == ""
        is_used(system.run, dist.version, PYTHON)
    system.make(*APT, "remove", "libffosolve1")
    system.has_nothing_left()
