"""The library and its packages as users have them, installed under a prefix, copies of the built checkout, and what
documents show."""
import functools
import os
import re
import shutil
import subprocess
import sys
from pathlib import Path

import pytest

from .support import ROOT, need, run, stored, write

WRITTEN = stored("VERSION").decode().strip()  # ends with .dev0 until the version is released
VERSION = WRITTEN.removesuffix(".dev0")
NUMBER = sum(int(part) * 100 ** place for place, part in enumerate(VERSION.split(".")[::-1]))
LEVELS = ["x86-64-v2", "x86-64-v3"]
FIRST_OBF, FIRST = ROOT / "examples/first.obf", stored("examples", "first.report").decode()  # a list, and its report
STRICT = ["-Wall", "-Wextra", "-Wpedantic", "-Wshadow", "-Wconversion", "-Werror"]
C = ["cc", "-std=c11", *STRICT, "-O1"]
CXX = ["c++", "-std=c++11", *STRICT, "-O1", "-x", "c++"]
PIP = [sys.executable, *"-m pip --disable-pip-version-check install --quiet --no-index --no-build-isolation".split()]
LONGEST = 300  # seconds that a command may take, since compilers and solvers are slow on a busy machine
# For each line of the file `asked`, shows all completions, and appends what the line is with the first one to the file
# `completed`.
ZSHRC = """
autoload -Uz compinit; compinit -u -d $ZDOTDIR/dump
zle-line-init() {
    COLUMNS=2000
    for line in ${(f)"$(<$ZDOTDIR/asked)"}; do
        BUFFER=$line CURSOR=$#line
        zle list-choices
        zle menu-complete
        print -r -- $BUFFER >>$ZDOTDIR/completed
    done
    exit
}
zle -N zle-line-init
"""


def names_of_files():
    """Returns the paths of the checkout's files: those that git tracks, and new ones that it does not ignore."""
    words = ("git", "-c", f"safe.directory={ROOT}", "-C", ROOT, "ls-files", "-zco", "--exclude-standard")
    names = run(*words, check=True, text=True).stdout.split("\0")
    return [name for name in names if name and os.path.lexists(ROOT / name)]


def copied_checkout(folder):
    """Builds everything, and copies the checkout's files and out/, but not out/tests, logs, packages and unfinished
    files, to `folder`; returns `folder`. The copies keep their modification times, and everybody may read them."""
    run("make", "-s", "-C", ROOT, "levels", check=True, text=True, timeout=None)
    others = shutil.ignore_patterns("tests", "*.log", "*.tar.gz*", "*.deb", "*.whl", "*.new", "*.[0-9][0-9]*")
    shutil.copytree(ROOT / "out", folder / "out", ignore=others)
    run("cp", "--parents", "--preserve=mode,timestamps", *names_of_files(), folder, cwd=ROOT, check=True)
    run("chmod", "-R", "a+rX,u+w", folder, check=True)
    return folder


def files_below(folder):
    """Returns the set of the relative paths of all files and symbolic links in a folder and its subfolders."""
    return {str(path.relative_to(folder)) for path in Path(folder).rglob("*") if path.is_symlink() or not path.is_dir()}


def path_without(tool, folder):
    """Returns a value for PATH without the command `tool`: new folders in `folder`, one for each folder on PATH, with
    links to all other commands. A single folder could hold only one of several commands of the same name."""
    places = {Path(folder, f"without-{tool}-{at}"): place for at, place in enumerate(os.get_exec_path())}
    for links, place in places.items():
        links.mkdir()
        for command in set(Path(place).glob("*")) - {Path(place, tool)}:
            (links / command.name).symlink_to(command)
    return ":".join(map(str, places))


def blocks_of(text, language):
    """Returns the lines of all blocks of code in `language`."""
    return "".join(re.findall(rf"^```{language}\n(.*?)^```$", text, re.M | re.S))


def print_what_is_shown(text, **how):
    """Asserts that the commands in blocks `console` of a document print what it shows. A command begins with `$ `, and
    its continuation lines with `> `. Below, the block shows what it prints on standard output and standard error. One
    shell runs all commands, without input, and prints NUL after each. `how` is as for `run`."""
    found = re.findall(r"^\$ (.*\n(?:> .*\n)*)((?:(?!\$ ).*\n)*)", blocks_of(text, "console"), re.M)
    commands = [command.replace("\n> ", "\n") for command, _ in found]
    end = "} </dev/null; status=$?; printf '\\0'; (exit $status)\n"
    words = ("timeout", 800, "bash", "-c", "".join(f"{{ {command}{end}" for command in commands))
    ran = run(*words, timeout=860, stderr=subprocess.STDOUT, text=True, errors="replace", **how)
    printed = ran.stdout.split("\0")  # the last one comes after the last NUL
    assert len(printed) == len(commands) + 1, f"the shell hung at: {commands[len(printed) - 1:][:1]}"
    for command, (_, shown), output in zip(commands, found, printed):
        # Documents don't show blanks and CR at the ends of lines.
        assert [*map(str.rstrip, output.splitlines())] == [*map(str.rstrip, shown.splitlines())], command


def completed_by_zsh(lines, before="", start=run):
    """Returns what each of `lines` is with the first completion that zsh offers, if any, and what zsh shows. It runs
    the line `before` on a terminal, since only its line editor completes words. `start` runs a command."""
    own = Path(".zsh").absolute()
    shutil.rmtree(own, ignore_errors=True)
    write(own / "asked", "\n".join(lines))
    write(own / ".zshrc", before + ZSHRC)
    words = ("env", "-i", "PATH=/usr/bin:/bin", f"ZDOTDIR={own}", "TERM=dumb", "script", "-qec", "zsh -i", "/dev/null")
    shown = start(*words, check=True, text=True, timeout=LONGEST).stdout
    return [line.strip() for line in (own / "completed").read_text().splitlines()], shown


class Prefix:
    """The installed files, and the folder `work`, in which tests build programs that use them. There `run` runs a
    command, and `make` one that has to succeed, with its output as str."""

    def install(self, work):
        """Installs under a prefix in `work`. Copies the installed documents, which include the packages for Python and
        Rust, into `work`."""
        vars(self).clear()
        self.work, self.folder = work, (folder := work / "a prefix")
        run("make", "-s", "-C", ROOT, "install", f"PREFIX={folder}", "DESTDIR=", check=True, text=True, timeout=None)
        self.libraries, self.header = folder / "lib", folder / "include/ffosolve.h"
        self.archive, self.shared = self.libraries / "libffosolve.a", self.libraries / "libffosolve.so"
        self.shipped = folder / "share/doc/ffosolve"
        shutil.copytree(self.shipped, work, dirs_exist_ok=True)
        self.text = self.header.read_text()
        self.calls = set(re.findall(r"^\w+ (ffosolve_\w+)\(", self.text, re.MULTILINE))
        self.environment = {
            **{name: value for name, value in os.environ.items() if not name.startswith("FFOSOLVE_")},
            "LD_LIBRARY_PATH": str(self.libraries),
            "PKG_CONFIG_PATH": str(self.libraries / "pkgconfig"),
            "CARGO_TARGET_DIR": str(work / "target"),
            "CARGO_NET_OFFLINE": "true",
            "PYTHONDONTWRITEBYTECODE": "1",
            "PYTHONPATH": str(work / "site"),
        }
        self.run = functools.partial(run, text=True, timeout=LONGEST, cwd=work, env=self.environment)
        self.make = functools.partial(self.run, check=True)

    def compile(self, compiler, name, sources, *words):
        """Compiles a program `name` in C or C++ and returns its path. `words` are the options that find the header and
        link the library, by default the installed libffosolve.a."""
        libraries = words or ("-I", self.header.parent, "-x", "none", self.archive)
        self.make(*compiler, "-o", self.work / name, *sources, *libraries)
        return self.work / name

    @functools.cached_property
    def site(self):
        """The folder into which pip has installed the package for Python, without a network."""
        pytest.importorskip("pip")
        pytest.importorskip("hatchling")
        self.make(*PIP, "--target", self.work / "site", self.work / "python")
        return self.work / "site"

    def cargo(self, *words, place="rust", **how):
        """Runs cargo in a folder of `work`, by default in a copy of the crate, next to which the examples are."""
        need("cargo", "rustc", "pkg-config")
        return self.make("cargo", *words, cwd=self.work / place, **how)

    def rust_client(self, name, source, **places):
        """Builds a Rust program that uses the crate, and returns its path. `places` are variables for the build."""
        write(self.work / name / "src/main.rs", source)
        package = f'[package]\nname = "{name}"\nversion = "1.0.0"\nedition = "2021"\n'
        needs = '[dependencies]\nffosolve = { path = "../rust" }\n[workspace]\n'
        write(self.work / name / "Cargo.toml", package + needs)
        self.cargo("build", "--quiet", place=name, env={**self.environment, **places})
        return self.work / "target/debug" / name

    def rust_client_of(self, name, source, calls):
        """Builds a Rust program that uses the crate with a made-up library; `calls` is the library's source in C."""
        folder = write(self.work / f"{name}-library/calls.c", calls).parent
        self.make("cc", "-c", "calls.c", cwd=folder)
        self.make("ar", "rcs", "libffosolve.a", "calls.o", cwd=folder)
        return self.rust_client(name, source, FFOSOLVE_LIB_DIR=str(folder))


PREFIX = Prefix()


@pytest.fixture(scope="module")
def installed(shared_folder):
    """Installs for the tests of a module, which use PREFIX."""
    PREFIX.install(shared_folder)
