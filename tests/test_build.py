"""`bin/ffosolve` and make in a small checkout with a fake rt: what they build and when, and what they report."""
import functools
import hashlib
import os
import re
import signal
import subprocess
import time
from pathlib import Path
from unittest import mock

import pytest

from tests.prefix import LEVELS, path_without
from tests.support import (
    NOBODY, ROOT, SECONDS, is_v3, need, processes_in, run, stored, unshared, wait_until, write)

# A fake rt. Writes its arguments, descriptors and standard input to files, and runs the shell code $ACTS. The program
# that it builds prints what it was made of, its words, its folder and its input.
RT = r"""#!/bin/sh
ls -l /proc/$$/fd >>"$STARTS.rt"
case $1 in
version) echo "${KIT:-rattle-kit-13f} logic 0123"; exit ;;
doc) echo "$KIT_FOLDER/START-HERE.md"; exit ;;
esac
cat >>"$STARTS.read"
echo start "$@" >>"$STARTS"
printf '%s\n' 'rt: chose --jobs 4 for othello_rules' 'so far: 34 of 83 functions checked; the verdict comes last'
eval "${ACTS:-}"
echo 'rt: chose --jobs 4 for ffosolve'
mkdir -p out
[ "$1" != lib ] || exec cp "$KIT_FOLDER/libffosolve_c.a" out
[ "$1" != test ] || exec touch out/crate_tests_tests
cat >out/${PWD##*/}.o <<END
#!/bin/sh
ls -lR /proc/\$\$/fd >"\$STARTS.program"
echo "made of $(cat src/main.rt)"
printf '<%s>' "\$@"
pwd
cat
exit 3
END
"""
# Values of ACTS: rt waits some minutes for the file starts.go; reports an error; or reports work that it can't use.
WAIT = 'for left in $(seq 3000); do [ ! -e "$STARTS.go" ] || break; sleep 0.1; done\n'
FAIL = "echo 'src/main.rt:1:2: error: a goal is open'; echo 'one more line'; exit 1\n"
SPOIL = "echo 'rt: the kept work of ffosolve cannot be used: remove it'; exit 1\n"
# A fake linker and assembler: copies its first input to its output.
COPY = '#!/bin/sh\nwhile [ "$1" != -o ]; do shift; done\ncp "$3" "$2" && chmod +x "$2"\n'
LEVEL = LEVELS[is_v3()]
MADE = ["out/ffosolve", "out/ffoscores", *(f"out/library/libffosolve.{end}" for end in ("a", "so", "so.1"))]
HOW = {"text": True, "cwd": "/"}
OLD = 2.1  # after so many seconds, sources are clearly older than what the next run of bin/ffosolve notes


class Checkout:
    """A small checkout in a folder whose name has a blank, beside the folders of a fake rt and of its kit."""

    def __init__(self, folder, start):
        self.start, self.root, self.tools, self.kit = start, folder / "a checkout", folder / "tools", folder / "kit"
        users = "ffosolve", "ffoscores", "crate_tests", "ffosolve_c staticlib"
        for name in ("othello_rules", *users):
            write(self.root / f"crates/{name.split()[0]}/src/main.rt", "1\n")
        self.source = self.root / "crates/ffosolve/src/main.rt"
        needs = "".join(f"{name}: othello_rules\n" for name in users)
        write(self.root / "crates.txt", f"# low first\nothello_rules: std\n{needs}")
        files = ("bin", "packaging", "include", "scripts", "Makefile", "VERSION")
        run("cp", "-r", *files, self.root, cwd=ROOT, check=True)
        self.rt, self.link = write(self.tools / "rt", RT), write(self.kit / "bin/rattle-link", COPY)
        write(self.kit / "toolchain/bin/clang", COPY)
        self.starts = write(folder / "starts", "")
        self.script, self.log = self.root / "bin/ffosolve", self.root / "out" / LEVEL / "ffosolve.o.log"
        self.make = functools.partial(run, "make", "-s", "-C", self.root, **HOW)

    def use(self, *words, **environment):
        """Runs `script`, by default bin/ffosolve, with the arguments `words`, by default `w`, the line `read` as input,
        and added variables `environment`. Returns its CompletedProcess."""
        return run(self.script, *(words or ("w",)), input="read\n", env={**os.environ, **environment}, **HOW)

    def begin(self, **environment):
        """Starts `script` with the argument `w` and added variables `environment`, and returns its Popen."""
        return self.start(self.script, "w", env={**os.environ, **environment}, **HOW)

    def builds(self):
        return self.starts.read_text().count("start")

    def started(self, ran, text, builds, words="<w>"):
        """Asserts that the run `ran` started a program that was built from the source `text` and printed its arguments
        as `words`, and that there were `builds` builds so far. Returns the run's standard error."""
        assert (ran.returncode, ran.stdout) == (3, f"made of {text}\n{words}/\nread\n"), ran.stderr
        assert self.builds() == builds
        return ran.stderr

    def after(self, change, text, builds, **environment):
        """Runs the shell command `change` in the folder of the crate ffosolve, then `script`. Checks this run with
        `started`, which gets `text` and `builds`, and returns the run's standard error."""
        run("sh", "-euc", change, cwd=self.root / "crates/ffosolve", check=True)
        return self.started(self.use(**environment), text, builds)


@pytest.fixture
def checkout(folder, start):
    need("make", "setpriv", "flock")
    made = Checkout(folder, start)
    places = {"PATH": f"{made.tools}:/usr/bin:/bin", "STARTS": str(made.starts), "KIT_FOLDER": str(made.kit)}
    with mock.patch.dict(os.environ, places, clear=True):
        yield made


def is_refused(ran, words, before="(.*\n)*"):
    """Asserts that a run ended with status 4 and without output, and that the last line on standard error says that
    ffosolve was not built and contains `words`. The lines before match the pattern `before`, by default any."""
    assert (ran.returncode, ran.stdout) == (4, ""), ran
    assert re.search(rf"\A{before}ffosolve: not built: .*{re.escape(words)}.*\n\Z", ran.stderr)


def test_the_first_use_of_each_program_builds_it_and_later_ones_only_run_it(folder, checkout):
    printed = checkout.started(checkout.use("one", "a b"), 1, builds=1, words="<one><a b>")
    assert all(line.startswith("ffosolve: ") for line in printed.splitlines()), printed
    for words in ("minutes", "GB", str(checkout.log), "ffosolve: 0 min, 0 of 2 crates proved, now othello_rules\n"
                  "ffosolve: 0 min, 1 of 2 crates proved, now ffosolve\n"):
        assert printed.count(words) == 1, printed
    assert not ("34 of 83" in printed or "\r" in printed), printed
    assert "functions checked" in checkout.log.read_text()
    write(checkout.root / "crates/ffoscores/src/main.rt", "scores\n")
    for name, builds, text in (("ffosolve", 2, 1), ("ffoscores", 3, "scores")):
        checkout.script = folder / name
        checkout.script.symlink_to(checkout.root / "bin" / name)
        checkout.started(checkout.use(), text, builds=builds)
        assert checkout.started(checkout.use(), text, builds=builds) == ""
    ran = run("sh", "ffosolve", "w", **{**HOW, "cwd": checkout.root / "bin"})
    assert ran.stdout == f"made of 1\n<w>{checkout.root}/bin\n", ran


def test_a_built_program_is_started_without_make(folder, checkout):
    """Only the commands that bin/ffosolve still runs are on the path, and those of the fake program, ls and cat."""
    for seconds in (OLD, 0):
        checkout.use()
        time.sleep(seconds)
    for name in ("readlink", "find", "ls", "cat"):
        write(folder / "few" / name, f'#!/bin/sh\nexec /usr/bin/{name} "$@"\n')
    assert checkout.started(checkout.use(PATH=str(folder / "few")), 1, builds=1) == ""


def test_closed_standard_error_does_no_harm_to_builds_and_runs(checkout):
    for text, builds in ((1, 1), (1, 1), (2, 2)):
        write(checkout.source, f"{text}\n")
        ran = run("sh", "-c", 'exec "$0" w 2>&-', checkout.script, input="read\n", **HOW)
        assert checkout.started(ran, text, builds=builds) == ""


def test_rt_gets_no_input_and_no_lock_and_the_program_replaces_the_caller(checkout):
    below = checkout.root / "scripts/below"
    write(below, below.read_text().replace("\n", '\nls -l /proc/$$/fd >>"$STARTS.rt"\n', 1))
    ran = checkout.begin()
    ran.communicate(timeout=SECONDS)
    to_rt, to_program = Path("starts.rt").read_text(), Path("starts.program").read_text()
    assert "/dev/null\n" in to_rt
    assert "/crates\n" not in to_rt + to_program
    assert re.findall(r" (\d) -> ", to_program) == ["0", "1", "2"]
    assert f"/proc/{ran.pid}/fd:\n" in to_program
    write(checkout.source, "2\n")
    checkout.make(f"out/{LEVEL}/ffosolve.o", input="read\n")
    assert (checkout.builds(), Path("starts.read").read_text()) == (2, "")


def test_each_change_of_a_source_builds_again_and_a_new_time_does_not(checkout):
    """The changes are a new text, the old text with its old modification time, a new, a renamed and a removed file,
    a file of a crate that ffosolve uses, and crates.txt. If only out/ or must-fail/ changes, no source is read."""
    make_old = "find ../../crates* -exec touch -d yesterday {} +; cp -p src/main.rt out"
    checkout.after(f"mkdir out must-fail; touch out/kept.rt must-fail/one.rt; {make_old}", 1, builds=1)
    os.link(checkout.root / "out/ffosolve", "old")
    checkout.after("echo 2 >src/main.rt", 2, builds=2)
    assert "made of 1" in Path("old").read_text()  # a running program keeps its file
    changes = ("cp -p out/main.rt src", "touch src/one.rt", "mv src/one.rt src/other.rt", "rm src/other.rt",
               "mkdir specs; touch specs/Lib.antt", "echo 2 >../othello_rules/src/main.rt")
    for builds, change in enumerate(changes, 3):
        checkout.after(change, 1, builds)
    time.sleep(OLD)
    checkout.use()
    write(checkout.tools / "sha256sum", "#!/bin/sh\nexit 9\n")
    checkout.after("touch out/two.rt must-fail/two.rt", 1, builds=8)
    (checkout.tools / "sha256sum").unlink()
    assert checkout.after("touch stdin src/main.rt", 1, builds=8) == ""
    checkout.after("echo >>../../crates.txt", 1, builds=9)


def test_a_change_during_a_build_or_link_and_one_within_the_same_second_build_again(checkout):
    """A fake command `date` is a second ahead of file times, since these may be up to a second behind the clock."""
    checkout.started(checkout.use(ACTS="[ -e out ] || echo 2 >src/main.rt"), 2, builds=2)
    write(checkout.tools / "date", '#!/bin/sh\necho $(($(/usr/bin/date "$@") + 1))\n')
    checkout.after("echo 3 >src/main.rt", 3, builds=3)
    checkout.after("echo 4 >src/main.rt", 4, builds=4)
    linker = COPY.replace("\n", f"\necho 6 >'{checkout.source}'\nsleep 0.1\n", 1)
    checkout.after(f"cat >'{checkout.link}' <<'END'\n{linker}END\necho 5 >src/main.rt", 5, builds=5)
    checkout.started(checkout.use(), 6, builds=6)


def test_tests_run_what_is_built_and_refuse_at_once_what_would_have_to_be_proved(checkout):
    is_refused(checkout.use(PROVE="no"), "tests prove nothing", before="")
    assert checkout.builds() == 0
    checkout.use()
    checkout.started(checkout.use(PROVE="no"), 1, builds=1)


def test_a_program_that_was_removed_is_built_again_and_kept_proofs_are_not(checkout):
    for seconds in (OLD, 0):
        checkout.use()
        time.sleep(seconds)
    for lost, builds in (("out/ffosolve", 1), ("crates/ffosolve/out", 1), ("out", 2)):
        checkout.after(f"rm -r ../../{lost}", 1, builds)
        assert (checkout.root / "out/ffosolve").exists()


def test_later_runs_say_that_they_wait_and_only_one_builds_if_the_first_fails(checkout):
    for number, act, first_ends in ((1, FAIL, (4, "")), (2, "", (3, "made of 2\n<w>/\n"))):
        write(checkout.source, f"{number}\n")
        begun = checkout.builds()
        first = checkout.begin(ACTS=WAIT + act)
        wait_until(lambda: checkout.builds() > begun)
        later = [checkout.begin() for _ in range(7)]
        for ran in later:
            assert f"waiting for another build; its log is in {checkout.root}/out\n" in ran.stderr.readline()
        Path("starts.go").touch()
        for ran, wanted in ((first, first_ends), *((ran, (3, f"made of {number}\n<w>/\n")) for ran in later)):
            output, errors = ran.communicate(timeout=SECONDS)
            assert (ran.returncode, output) == wanted, errors
        assert checkout.builds() == number + 1
        Path("starts.go").unlink()
    assert sorted(os.listdir(checkout.root / "out")) == ["ffosolve", LEVEL]


def test_a_missing_tool_is_reported_and_so_is_another_kit_which_is_tried(folder, checkout):
    no_rt = "rt (rattle-kit-13b or rattle-kit-13f) is not on the path"
    no_ld = "ld is missing; Debian's package binutils has it\n"
    modules = ("psutil", "pytest", "pytest-timeout", "pytest-xdist")
    no_modules = "".join(f"false has no {name}; Debian's package python3-{name} has it for /usr/bin/python3\n"
                         for name in modules)
    packages = " ".join(f"python3-{name}" for name in modules)
    is_refused(checkout.use(PATH="/usr/bin:/bin"), no_rt, before="")
    ran = checkout.use(PATH=f"{checkout.tools}:{path_without('make', folder)}")
    assert (ran.returncode, ran.stdout, ran.stderr.count("\n")) == (4, "", 1), ran
    assert "make" in ran.stderr
    without = ("PYTHON=false", f"PATH={checkout.tools}:{path_without('ld', folder)}")
    for error, *words in (*((no_rt, target, "PATH=/usr/bin:/bin") for target in ("look", "check", "all")),
                          (f"{no_ld}{no_modules}apt-get install binutils {packages}\n", "check", *without),
                          (f"{no_ld}apt-get install binutils\n", "all", *without)):
        ran = checkout.make(*words)
        assert (ran.returncode, ran.stdout) == (2, ""), ran
        assert ran.stderr.startswith(error), ran
    assert {"apt-get", "install", *packages.split()} <= {*stored("README.md").decode().split()}
    assert checkout.builds() == 0
    for builds, kit in enumerate(("rattle-kit-13b", "rattle-kit-13f", "rattle-kit-14a", "rattle-kit-13"), 1):
        printed = checkout.after(f"echo {builds} >src/main.rt", builds, builds, KIT=kit)
        warning = f"rt is {kit} logic 0123; this checkout was proved with rattle-kit-13b and 13f; trying anyway"
        assert (f"ffosolve: {warning}\n" in printed) == (builds > 2), printed


@pytest.mark.parametrize("status, given, wanted", (
    (0, {}, "python3"), (1, {}, "/usr/bin/python3"), (0, {"PYTHON": "another"}, "another")))
def test_the_python_of_tests_is_the_first_that_has_their_modules(checkout, status, given, wanted):
    """Asked whether it has the modules, the python3 that is first on the path ends with `status`."""
    write(checkout.tools / "python3", f"#!/bin/sh\nexit {status}\n")
    ran = checkout.make("-n", "check", env={**os.environ, **given})
    assert re.findall(r"^exec env .* (\S+) -m pytest ", ran.stdout, re.M) == [wanted], ran


def test_a_failed_build_reports_its_first_error_and_runs_no_older_program(checkout):
    checkout.use()
    write(checkout.source, "2\n")
    for _ in range(2):
        is_refused(checkout.use(ACTS=FAIL), f"src/main.rt:1:2: error: a goal is open; see {checkout.log}")
    for text, builds in ((1, 3), (2, 4)):
        checkout.after(f"echo {text} >src/main.rt", text, builds)


def test_a_failed_link_reports_its_first_line_and_one_that_succeeds_is_silent(checkout):
    """The second time, there is a program of earlier sources. A change of level.s only links anew."""
    for number in (1, 2):
        write(checkout.source, f"{number}\n")
        write(checkout.link, "#!/bin/sh\necho 'ld.lld: error: no room' >&2\nexit 1\n")
        for seconds in (0, OLD, 0):
            time.sleep(seconds)
            ran = checkout.use()
            last = ran.stderr.splitlines()[-1]
            assert (ran.returncode, ran.stdout, last) == (4, "", "ld.lld: error: no room"), ran
        write(checkout.link, COPY + "echo linked >&2\n")
        assert checkout.started(checkout.use(), number, builds=number) == ""
    program = checkout.log.with_name("ffosolve")
    linked = program.stat().st_mtime_ns
    assert checkout.after("touch ../../packaging/level.s", 2, builds=2) == ""
    assert program.stat().st_mtime_ns > linked


def test_kept_work_that_cannot_be_used_is_dropped_and_built_again(checkout):
    kept = write(checkout.root / "crates/othello_rules/out/kept", "")
    printed = checkout.after("mkdir out; touch out/spoiled", 1, builds=2, ACTS=f"[ ! -e out/spoiled ] || {{ {SPOIL} }}")
    assert "dropped the old work on ffosolve" in printed
    assert kept.exists()
    write(checkout.source, "2\n")
    is_refused(checkout.use(ACTS=SPOIL), "cannot be used")
    assert checkout.builds() < 15


def test_a_program_that_cannot_be_written_leaves_nothing_and_runs_no_older_one(checkout):
    """The command mv fails, at first without moving the file, and then after moving it."""
    checkout.use()
    write(checkout.source, "2\n")
    for moves in ("", '/usr/bin/mv "$@"\n'):
        write(checkout.tools / "mv", f"#!/bin/sh\n{moves}exit 1\n")
        is_refused(checkout.use(), f"{checkout.log.with_suffix('')} can't be written")
        assert [name for name in os.listdir(checkout.log.parent) if ".new" in name] == []
    (checkout.tools / "mv").unlink()
    checkout.after("echo 1 >src/main.rt", 1, builds=4)


def test_a_full_disk_is_reported_and_the_next_run_builds(checkout):
    """The disk with out/ is full from the start, or has less room than the program needs."""
    small = 'mount -t tmpfs -o size=40k none out && head -c "$1" /dev/zero >out/filled; shift; exec "$@"'
    (checkout.root / "out").mkdir()
    write(checkout.rt, RT + 'head -c 30000 /dev/zero >>out/${PWD##*/}.o\n')
    for filled in (40960, 20000):
        words = [*unshared(), "sh", "-c", small, "sh", filled, checkout.script]
        is_refused(run(*words, **{**HOW, "cwd": checkout.root}), "written")
    checkout.started(checkout.use(), 1, builds=3)


def test_in_a_checkout_of_another_user_a_built_program_runs_and_no_other_is_built(checkout):
    """New times of sources do no harm. A source that can't be read does harm only if out/ can be written."""
    def closed(*changes):
        run("sh", "-euc", "\n".join(("chmod -R a-w .", *changes)), cwd=checkout.root, check=True)
        ran = run(checkout.script, "w", input="read\n", **HOW, **NOBODY)
        run("chmod", "-R", "u=rwX,go=rX", checkout.root, check=True)
        return ran

    unreadable = "chmod a= crates/ffosolve/src/main.rt"
    is_refused(closed(), "can't be written", before="")
    checkout.use()
    Path("starts.program").chmod(0o666)
    for changes in ((), ("chmod go= crates",), (unreadable,)):
        os.utime(checkout.source)
        assert checkout.started(closed(*changes), 1, builds=1) == ""
    assert closed(unreadable, "chmod a+w out").returncode == 4
    write(checkout.source, "2\n")
    is_refused(closed(), "can't be written", before="")


def test_a_signal_ends_the_build_and_the_run_that_waits(checkout):
    for count, number in enumerate((signal.SIGTERM, signal.SIGHUP, signal.SIGINT, signal.SIGKILL), 1):
        ran = checkout.begin(ACTS=WAIT)
        wait_until(lambda: checkout.builds() >= count)
        waits = checkout.begin()
        wait_until(lambda: any(words.startswith("flock 9") for words in processes_in(checkout.root).values()))
        for one in (waits, ran):
            one.send_signal(number)
            assert (one.communicate(timeout=SECONDS)[0], one.returncode) == ("", -number)
        wait_until(lambda: not processes_in(checkout.root))  # the fake rt would wait for longer
    checkout.started(checkout.use(), 1, builds=5)


def test_on_a_terminal_progress_is_shown_and_ctrl_c_ends_all(checkout):
    """Keys are typed when the first crate is named: Ctrl-C, or the end of the input for the program."""
    how = {**HOW, "stdin": subprocess.PIPE, "env": {**os.environ, "ACTS": WAIT}}
    for keys, goes_on, status in (("\x03", False, 128 + signal.SIGINT), ("\x04", True, 3)):
        ran = checkout.start("script", "-qec", f"exec '{checkout.script}' w", "/dev/null", **how)
        output = "".join(iter(ran.stdout.readline, "ffosolve: 0 min, 0 of 2 crates proved, now othello_rules\n"))
        if goes_on:
            Path("starts.go").touch()
        output += ran.communicate(keys, timeout=SECONDS)[0]
        assert ("made of 1" in output, ran.returncode) == (goes_on, status), output
        wait_until(lambda: not processes_in(checkout.root))


def test_each_level_is_proved_once_and_a_new_version_only_links_the_library_again(checkout):
    """If the library can't be linked because a tool fails or a function is undefined, make reports the tool's error
    or the function's name."""
    need("cc", "ar", "objcopy", "readelf")
    (checkout.kit / "c").mkdir()
    crate = "extern int heap_call(void);\nint ffosolve_moves(void) { return heap_call(); }\n"
    for name, text in (("libffosolve_c.a", crate), ("c/liblibc_c.a", "int heap_call(void) { return 3; }\n")):
        run("cc", "-fPIC", "-c", "-o", "one.o", "-x", "c", "-", input=text.encode(), check=True)
        run("ar", "rcs", checkout.kit / name, "one.o", check=True)
    for level in LEVELS:
        ran = checkout.make(f"CPU={level}", check=True)
        sums = {path: hashlib.sha256((checkout.root / path).read_bytes()).hexdigest() for path in MADE}
        assert ran.stdout.startswith("".join(f"{sums[path]}  {path}\n" for path in MADE) + "built: "), ran
        told = ran.stderr
        assert told.count(": 0 min, 0 of 2 crates proved, now othello_rules\n") == 3, told
        assert f"start run --cpu={level}\nstart lib --cpu={level}\n" in checkout.starts.read_text()
    python = write(checkout.tools / "python", '#!/bin/sh\n[ "$1" = -c ] || echo "$2" "<$MAKEFLAGS$MFLAGS$MAKELEVEL>"\n')
    assert checkout.make("-j9", "check", f"PYTHON={python}").stdout == "pytest <>\n"
    assert checkout.starts.read_text().endswith(f"start test --cpu={LEVEL}\n")
    write(checkout.root / "VERSION", "2.3.4\n")
    assert checkout.make("library").returncode == 0
    shared = run("readelf", "-d", checkout.root / "out/library/libffosolve.so", text=True).stdout
    assert "soname: [libffosolve.so.2]" in shared
    assert '"2.3.4"' in (checkout.root / "out/library/ffosolve.h").read_text()
    assert checkout.builds() == 7
    ran = checkout.make("CPU=x86-64-v4")
    assert ran.returncode == 2
    assert "CPU is x86-64-v4, but has to be one of: x86-64-v2 x86-64-v3" in ran.stderr
    write(checkout.tools / "objcopy", "#!/bin/sh\necho 'objcopy: no room' >&2\nexit 1\n")
    (checkout.log.parent / "libffosolve.o").unlink()
    assert "objcopy: no room" in checkout.make("library").stderr
    (checkout.tools / "objcopy").unlink()
    run("ar", "d", checkout.kit / "c/liblibc_c.a", "one.o", check=True)
    shared = checkout.log.parent / "libffosolve.so"
    shared.unlink()
    assert "heap_call" in checkout.make("library").stderr
    assert not shared.exists()


def test_look_prints_the_report_and_that_it_proves_nothing_or_why_there_is_no_report(folder, checkout):
    ended = "echo 'checked: ended status=3' >&2\necho 'run=ended status=3' >&2\nexit 3\n"
    write(checkout.rt, f'#!/bin/sh\nshift\necho "$@" >"$STARTS"\necho report\n{ended}')
    positions = write(folder / "a list", "")
    first = write(checkout.root / "examples/first.obf", "")
    for words, list_ in ((), first), ((f"LIST={positions}",), positions):
        said = checkout.make("look", *words).stdout
        assert said == "report\nthis proved nothing: bin/ffosolve proves the program before it first runs it\n"
        assert checkout.starts.read_text() == f"--data list.obf={list_} -- list.obf\n"
    assert "no such list" in checkout.make("look", "LIST=no such list").stderr
    write(checkout.rt, "#!/bin/sh\necho 'rt: no answer' >&2\nexit 6\n")
    ran = checkout.make("look")
    assert (ran.returncode, ran.stdout, ran.stderr.split("\n")[0]) == (2, "", "rt: no answer"), ran
