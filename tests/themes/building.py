"""`./goose`, `tools/build` and `tools/try`, over a small tree of files and a command `rt` of the tests' own: when they build
and in which order, what they hand on, and how a build ends that fails or is interrupted."""
import contextlib
import os
import pathlib
import pty
import re
import select
import shutil
import signal
import subprocess
import tempfile
import time

from helpers.harness import SECONDS, Skipped

TOP = pathlib.Path(__file__).resolve().parent.parent.parent

# The sources that a build is newer than, and the line that a stored run writes.
SOURCES = ["crates.txt", "crates/goose/src/main.rt", "crates/one/src/lib.rt", "crates/one/specs/One.antt", "crates/one/proofs/One.antt"]
STORED = "the stored run\n"

# It counts its runs. `rt lib` leaves a library and kept work; `rt run -- show` is given the stored input, and leaves the
# program.
RT = r"""#!/bin/sh
echo "$PWD $* $(cat)" >> "$RUNS"
crate=$(basename "$PWD")
mkdir -p out
{early}
echo "a line of the log" >&2
if [ "$1" = lib ]; then
    mkdir -p out/rlib out/incremental
    echo "$crate" >> out/incremental/kept
    echo "$crate" > out/rlib/stamp
    exit 0
fi
printf '%s\n' '#!/bin/sh' 'printf "<%s>" "$@"' 'cat' 'echo said >&2' 'exit 3' > out/goose
chmod +x out/goose
touch out/goose
printf '{wrote}'
exit {status}
"""


def heed_interrupts():
    """Has a script see SIGINT also where the tests run in the background of a shell, which ignores it there."""
    signal.signal(signal.SIGINT, signal.SIG_DFL)


class Tree:
    """A tree with the scripts, sources that are a day old, and a command `rt`."""

    def __init__(self, folder, early="", wrote=STORED, status=0):
        self.top = pathlib.Path(folder) / "a tree"
        self.runs = pathlib.Path(folder) / "runs"
        for name in ("goose", "tools/build", "tools/prove", "tools/try"):
            self.put(name, (TOP / name).read_text(), 0o755)
        for name in SOURCES:
            self.put(name, "")
            os.utime(self.top / name, (0, 0))
        for name, octets in (("args", "show\n"), ("stdin", "given"), ("stdout", STORED)):
            self.put(f"crates/goose/{name}", octets)
        command = RT.replace("{early}", early).replace("{wrote}", wrote.replace("\n", "\\n")).replace("{status}", str(status))
        self.put("bin/rt", command, 0o755)

    def put(self, name, octets, mode=0o644):
        file = self.top / name
        file.parent.mkdir(parents=True, exist_ok=True)
        file.write_text(octets)
        file.chmod(mode)

    def start(self, *words, folder=None, **how):
        """Starts one of the scripts."""
        path = f"{self.top / 'bin'}:{os.environ['PATH']}"
        how = {"stdout": subprocess.PIPE, "stderr": subprocess.PIPE, "stdin": subprocess.PIPE, "text": True, **how}
        how["env"] = {**os.environ, "PATH": path, "RUNS": str(self.runs)}
        return subprocess.Popen([str(word) for word in words], cwd=folder or self.top, preexec_fn=heed_interrupts, **how)

    def ended(self, started, given=""):
        """What a script writes, says and ends with; of how long it takes, that it says so."""
        wrote, said = started.communicate(given, timeout=SECONDS)
        return wrote, re.sub(r"about \d+ min;", "about N min;", said or ""), started.returncode

    def run(self, *words, given="", folder=None):
        return self.ended(self.start(*words, folder=folder), given)

    def build(self):
        return self.run(self.top / "tools" / "build")

    def ran(self):
        """The runs of `rt`: the crate, its words and its input."""
        lines = self.runs.read_text().splitlines() if self.runs.exists() else []
        return [line.rpartition("/crates/")[2] for line in lines]

    def built(self):
        """How often `rt` was run."""
        return len(self.ran())

    def program(self):
        return f"{self.top / 'crates' / 'goose' / 'out' / 'goose'}\n"

    def begun(self):
        """What a build says once, where no terminal shows how far it is."""
        return f"goose is proved and built first, in about N min; log: {self.top / 'out' / 'build.log'}\n"

    def left(self):
        """What a build leaves in out/."""
        return sorted(it.name for it in (self.top / "out").iterdir())

    def wait_for(self, name):
        """Waits for a file that `rt` leaves beside the list of its runs."""
        until = time.monotonic() + SECONDS
        while not pathlib.Path(f"{self.runs}.{name}").exists() and time.monotonic() < until:
            time.sleep(0.01)


class Builds:
    """What a function says is wrong of a tree."""

    def __init__(self, name, judge, **tree):
        self.name, self.judge, self.tree = name, judge, tree

    def why_wrong(self, _program):
        if shutil.which("bash") is None:
            return ["there is no bash"]
        with tempfile.TemporaryDirectory() as folder:
            pairs = self.judge(Tree(folder, **self.tree))
            return [f"{what}: wanted {wanted!r}, got {got!r}" for what, wanted, got in pairs if wanted != got]


# A time behind that of every file that a test makes.
AHEAD = time.time() + 86400


def first_line(said):
    """The first line of a message."""
    return said.partition("\n")[0]


def second_line(said):
    """The line of a message after the first, which says that a build has begun."""
    return first_line(said.partition("\n")[2])


def missing(tree):
    """A program that is missing is built, by one run on the stored input."""
    yield "output", (tree.program(), tree.begun(), 0), tree.build()
    yield "the run", f"{tree.top / 'crates' / 'goose'} run --jobs {most_jobs()} -- show given\n", tree.runs.read_text()
    yield "the log", "a line of the log\n", (tree.top / "out" / "build.log").read_text()
    yield "files left behind", ["build.lock", "build.log"], tree.left()


def fresh(tree):
    """A program that is newer than its sources is not built again."""
    tree.build()
    yield "output", (tree.program(), "", 0), tree.build()
    yield "builds", 1, tree.built()
    tree.put("crates/one/must-fail/an.edit", "")
    tree.put("docs/README.md", "")
    tree.build()
    yield "builds after another file changed", 1, tree.built()


def stale(tree):
    """A program that is older than a source is built again."""
    tree.build()
    program = pathlib.Path(tree.program().rstrip("\n"))
    for count, name in enumerate(SOURCES, 2):
        os.utime(program, (AHEAD, AHEAD))
        os.utime(tree.top / name, (AHEAD + 1, AHEAD + 1))
        yield f"output after {name} changed", (tree.program(), tree.begun(), 0), tree.build()
        yield f"builds after {name} changed", count, tree.built()
        os.utime(tree.top / name, (0, 0))


def edited(tree):
    """An edit while a build runs asks for another one."""
    tree.build()
    tree.build()
    yield "builds", 2, tree.built()


def broken(tree):
    """A build that fails says so with the end of its log, and leaves nothing on standard output."""
    wrote, said, status = tree.build()
    yield "output and status", ("", 1), (wrote, status)
    yield "the message", "goose was not built: rt run ended with status 7", second_line(said)
    yield "the log", True, "a line of the log" in said.splitlines()
    wrote, said, status = tree.run(tree.top / "goose", "show")
    yield "./goose", ("", 125), (wrote, status)
    yield "the message of ./goose", "goose was not built: rt run ended with status 7", second_line(said)


def other_output(tree):
    """A program that writes something else than the stored output is not handed on."""
    wrote, said, status = tree.build()
    yield "output and status", ("", 1), (wrote, status)
    yield "the message", "goose was not built: the stored run wrote something else than crates/goose/stdout", second_line(said)


def no_program(tree):
    """A build that leaves no program fails."""
    wrote, said, status = tree.build()
    yield "output and status", ("", 1), (wrote, status)
    yield "the message", f"goose was not built: rt run left no program at {tree.program()}".rstrip("\n"), second_line(said)


# Crates, two of which stand on the same one, and one of which the program does not stand on.
CRATES = """# The crates.
low: std
other: low  # with a comment
beside: low std
high: low other beside
apart: low
goose: high
"""
BELOW = ("low", "other", "beside", "high")


def with_crates(tree):
    """The tree, with five crates below the program or beside it."""
    tree.put("crates.txt", CRATES)
    tree.put("HANDLES", "Handles allowed: none.\n")
    os.utime(tree.top / "crates.txt", (0, 0))
    for name in (*BELOW, "apart"):
        for file in ("src/lib.rt", "specs/deep/It.antt", "README.md"):
            tree.put(f"crates/{name}/{file}", "")
            os.utime(tree.top / f"crates/{name}/{file}", (0, 0))
    return tree


def edit(tree, name):
    """Changes a crate's source."""
    file = tree.top / "crates" / name / ("src/main.rt" if name == "goose" else "src/lib.rt")
    file.write_text(f"{file.read_text()}a line\n")
    os.utime(file, (AHEAD, AHEAD))


def sorted_in(names, runs):
    """Runs of which those at these places stand in order."""
    at = [number for number, run in enumerate(runs) if run.split(" ")[0] in names]
    return [*runs[:at[0]], *sorted(runs[it] for it in at), *runs[at[-1] + 1:]] if at else runs


def lowest_first(tree):
    """The crates that the program stands on are proved before it, each after those that it stands on. Each of those with a
    long chain of others behind it has the most jobs."""
    if len(os.sched_getaffinity(0)) > 1:
        want_two_checks()
    yield "output", (tree.program(), tree.begun(), 0), with_crates(tree).build()
    most = most_jobs()
    wanted = [*[f"{name} lib --jobs {most} " for name in ("low", "beside", "other", "high")],
              f"goose run --jobs {most} -- show given"]
    yield "the runs", wanted, sorted_in(("other", "beside"), tree.ran())
    made = {name: (tree.top / "crates" / name / "out" / "rlib" / "stamp") for name in BELOW}
    yield "the libraries", {name: f"{name}\n" for name in BELOW}, {name: file.read_text() for name, file in made.items()}
    yield "files left behind", ["build.lock", "build.log"], tree.left()
    log = (tree.top / "out" / "build.log").read_text().splitlines()
    yield "the log", ["== beside", "== high", "== low", "== other", *["a line of the log"] * 5], sorted(log)


def most_jobs():
    """The jobs of a check with a long chain behind it."""
    return min(2, len(os.sched_getaffinity(0)))


def longest_chain(tree):
    """Of two crates that can be proved, the one with the longer chain behind it gets the most jobs, the other one."""
    want_two_checks()
    with_crates(tree).put("crates/other/src/lib.rt", "a line\n" * 1000)
    tree.build()
    wanted = ["beside lib --jobs 1 ", f"other lib --jobs {most_jobs()} "]
    yield "the runs", wanted, sorted(it for it in tree.ran() if it.startswith(("other", "beside")))


def own_tree(tree):
    """A crate is proved in a tree that has its sources, those below it with their libraries, and nothing else."""
    with_crates(tree).build()
    files = [f"crates/{name}/{file}" for name in BELOW for file in ("src/lib.rt", "specs/deep/It.antt")]
    made = [f"crates/{name}/out/rlib/{file}" for name in BELOW[:3] for file in ("sources", "stamp")]
    seen = pathlib.Path(f"{tree.runs}.high").read_text().splitlines()
    yield "the files", sorted(["./HANDLES", "./crates.txt", *[f"./{it}" for it in [*files, *made]]]), sorted(seen)
    rows = "low: std\nother: low\nbeside: low std\nhigh: low other beside\n"
    yield "crates.txt", sorted(rows.splitlines()), sorted(pathlib.Path(f"{tree.runs}.rows").read_text().splitlines())


def side_by_side(tree):
    """Two crates that do not stand on each other are proved at the same time."""
    want_two_checks()
    yield "output", (tree.program(), tree.begun(), 0), with_crates(tree).build()


def want_two_checks():
    """Skips a case where a build has no processor or no memory for a second check."""
    free = re.search(r"MemAvailable:\s+(\d+)", pathlib.Path("/proc/meminfo").read_text())
    if len(os.sched_getaffinity(0)) < 2 or int(free[1]) < 7_000_000:
        raise Skipped("a second check has no processor or no memory")


def only_what_changed(tree):
    """A crate is proved again where it, or one below it, is another than the one that its library was built of."""
    with_crates(tree).build()
    for name, wanted in (("goose", []), ("high", ["high"]), ("other", ["high", "other"]), ("low", sorted(BELOW)), ("apart", [])):
        tree.runs.unlink()
        edit(tree, name)
        yield f"output after {name} changed", (tree.program(), tree.begun(), 0), tree.build()
        lib = sorted(it.split(" ")[0] for it in tree.ran() if " lib " in it)
        yield f"crates proved after {name} changed", wanted, lib
        yield f"the program after {name} changed", f"goose run --jobs {most_jobs()} -- show given", tree.ran()[-1]
    tree.runs.unlink()
    (tree.top / "crates" / "other" / "out" / "rlib" / "sources").unlink()
    edit(tree, "goose")
    tree.build()
    yield "a library of which nothing is noted is shown to rt", ["other", "goose"], [it.split(" ")[0] for it in tree.ran()]
    kept = (tree.top / "crates" / "other" / "out" / "incremental" / "kept").read_text()
    yield "its kept work goes on", "other\n" * 4, kept


def unproved_crate(tree):
    """A crate that is not proved ends the build, and is named; what runs beside it is ended, and what it kept stays."""
    wrote, said, status = with_crates(tree).build()
    yield "output and status", ("", 1), (wrote, status)
    yield "the message", "goose was not built: the crate other was not proved", second_line(said)
    yield "the log", True, "no proof" in said.splitlines()
    log = (tree.top / "out" / "build.log").read_text()
    yield "the end of the log", "== other\nno proof\n", log[log.index("== other"):]
    yield "a path in the log", True, f"at {tree.top / 'crates' / 'low'}\n" in log
    yield "files left behind", ["build.lock", "build.log"], tree.left()
    yield from ended(tree, "beside")
    wrote, said, status = tree.run(tree.top / "goose", "show")
    yield "./goose", ("", 125), (wrote, status)
    yield "the message of ./goose", "goose was not built: the crate other was not proved", second_line(said)


def ended(tree, name):
    """The check of this crate, which had begun, was ended, and left no half of a library."""
    with contextlib.suppress(ProcessLookupError, FileNotFoundError):
        number = int(pathlib.Path(f"{tree.runs}.{name}").read_text())
        until = time.monotonic() + 10
        while time.monotonic() < until:
            os.kill(number, 0)
            time.sleep(0.01)
        yield f"the check of {name}", "ended", "runs"
    out = tree.top / "crates" / name / "out"
    yield f"a library of {name}", False, (out / "rlib").exists()


def interrupted(tree):
    """A build that is interrupted, ended or killed ends the checks that it began, and leaves nothing that is half made."""
    for number, status in ((signal.SIGINT, 130), (signal.SIGTERM, 143), (signal.SIGKILL, -9)):
        started = with_crates(tree).start(tree.top / "tools" / "build", start_new_session=True)
        tree.wait_for("low")
        started.send_signal(number)
        wrote, said, got = tree.ended(started)
        yield f"output and status after {number.name}", ("", status), (wrote, got)
        if status > 0:
            why = "goose was not built: it was interrupted. The crates that were proved by then are kept."
            yield "the message", why, second_line(said)
            yield "files left behind", ["build.lock", "build.log"], tree.left()
        yield from ended(tree, "low")
        pathlib.Path(f"{tree.runs}.low").unlink()
    pathlib.Path(f"{tree.runs}.go").touch()
    yield "the next build", (tree.program(), tree.begun(), 0), tree.build()
    kept = (tree.top / "crates" / "low" / "out" / "incremental" / "kept").read_text()
    yield "what is kept from each", "part\npart\npart\npart\nlow\n", kept
    yield "files left behind at last", ["build.lock", "build.log"], tree.left()


def two_builds(tree):
    """A build waits for another one, and takes what that one built."""
    first = with_crates(tree).start(tree.top / "tools" / "build")
    tree.wait_for("low")
    second = tree.start(tree.top / "tools" / "build")
    is_told = select.select([second.stderr], [], [], SECONDS / 2)[0]
    waits = second.stderr.readline() if is_told else ""
    pathlib.Path(f"{tree.runs}.go").touch()
    yield "the first", (tree.program(), tree.begun(), 0), tree.ended(first)
    wrote, said, status = tree.ended(second)
    yield "the second", (tree.program(), "waiting for another build to end\n", 0), (wrote, waits + said, status)
    yield "builds", 5, tree.built()


def on_a_terminal(tree):
    """A terminal is told which crates are proved, how many are done and how long it takes."""
    ours, theirs = pty.openpty()
    started = with_crates(tree).start(tree.top / "tools" / "build", stderr=theirs)
    os.close(theirs)
    said = b""
    with contextlib.suppress(OSError):
        while True:
            said += os.read(ours, 4096)
    os.close(ours)
    yield "output", (tree.program(), "", 0), tree.ended(started)
    shown = [it.strip() for it in said.decode().split("\r\033[K") if it.strip()]
    line = r"goose is proved: (\d) of 5 crates done, now ([a-z, ]+); minute 0, about \d+ left"
    told = [re.fullmatch(line, it) for it in shown]
    yield "each line's form", [], [it for it, found in zip(shown, told) if not found]
    yield "the first", ("0", "low"), told[0].groups() if told and told[0] else None
    yield "the last", ("4", "goose"), told[-1].groups() if told and told[-1] else None


def circle(tree):
    """Crates that stand on each other are told."""
    with_crates(tree).put("crates.txt", CRATES.replace("low: std", "low: high"))
    wrote, said, status = tree.build()
    yield "output and status", ("", 1), (wrote, status)
    yield "the message", "goose was not built: in crates.txt beside, high, low, other stand on each other", first_line(said)


def handed_on(tree):
    """`./goose` hands on words, standard input, both outputs and the status, also from another folder and by a link."""
    wanted = ("<check><a word>given", "said\n", 3)
    wrote, said, status = tree.run(tree.top / "goose", "check", "a word", given="given")
    yield "first, with a build", (wanted[0], tree.begun() + wanted[1], wanted[2]), (wrote, said, status)
    yield "again", wanted, tree.run(tree.top / "goose", "check", "a word", given="given")
    yield "from another folder", wanted, tree.run(tree.top / "goose", "check", "a word", given="given", folder="/")
    (tree.top / "bin" / "linked").symlink_to(tree.top / "goose")
    yield "by a link", wanted, tree.run(tree.top / "bin" / "linked", "check", "a word", given="given", folder="/")
    yield "builds", 1, tree.built()


# What `tools/try` says first.
UNPROVED = "nothing is proved: goose is compiled and run as it is, in about a minute; ./goose proves it\n"


def tried(tree):
    """`tools/try` hands on words, standard input, both outputs and the status of the unproved program, and builds nothing."""
    wanted = ("<try><--><check><a word>", f"{UNPROVED}said\nchecked: ended\n", 3)
    yield "output", wanted, tree.run(tree.top / "tools" / "try", "check", "a word", given="given")
    yield "from another folder", wanted, tree.run(tree.top / "tools" / "try", "check", "a word", given="given", folder="/")
    (tree.top / "bin" / "linked").symlink_to(tree.top / "tools" / "try")
    yield "by a link", wanted, tree.run(tree.top / "bin" / "linked", "check", "a word", given="given", folder="/")
    yield "the runs", ["goose try -- check a word given"] * 3, tree.ran()
    yield "a build", False, (tree.top / "out").exists()


def try_helps(tree):
    """`tools/try --help` says what it does, and runs nothing; the words after `--` are the program's."""
    wrote, said, status = tree.run(tree.top / "tools" / "try", "--help")
    yield "the help", ("Runs the program with the words given before anything is proved", "", 0), (wrote.partition(":")[0], said, status)
    yield "the runs", [], tree.ran()
    tree.run(tree.top / "tools" / "try", "--", "--help")
    tree.run(tree.top / "tools" / "try", "show", "--help")
    yield "the runs after words of the program", ["goose try -- --help ", "goose try -- show --help "], tree.ran()


def not_tried(tree):
    """Where `rt try` fails, what it says is handed on, and nothing is written."""
    wanted = ("", f"{UNPROVED}error: a name\nrun=none proved=no\ngoose was not run to its end: rt try ended with status 2\n", 125)
    yield "output", wanted, tree.run(tree.top / "tools" / "try", "show")


def too_much(tree):
    """Where the program writes more than `rt try` takes, that is said."""
    why = "goose was not shown: it writes more than 1 MiB, which a look does not take. Give it less, or build it: ./goose\n"
    yield "output", ("", UNPROVED + why, 125), tree.run(tree.top / "tools" / "try", "show")


# What `rt try` does: the program ends; it is refused; it writes too much.
TRIES = """printf '<%s>' "$@"
printf 'said\\nchecked: ended\\nchecked: ended status=3\\nrun=ended status=3 runners=1 proved=no\\n' >&2
exit 3"""
REFUSES = """printf 'part of a line'
printf 'error: a name\\nrun=none proved=no\\n' >&2
exit 2"""
FLOODS = """printf '| the end of a line\\nchecked: no-answer: the program wrote more than 1048576 bytes to standard output\\n' >&2
echo 'run=no-answer proved=no' >&2
exit 6"""

# What `rt` does early: it lists its tree; it waits until two have begun; it fails, beside one that takes long; it waits to
# be told.
LISTS = '[ "$crate" != high ] || (cd ../..; find . -type f > "$RUNS.high"; cat crates.txt > "$RUNS.rows")'
MEETS = """case "$crate" in other | beside)
    touch "$RUNS.$crate"
    for _ in $(seq 100); do [ -e "$RUNS.other" ] && [ -e "$RUNS.beside" ] && break || sleep 0.1; done
    [ -e "$RUNS.other" ] && [ -e "$RUNS.beside" ] || exit 1
esac"""
FAILS = """case "$crate" in
    low) echo "at $PWD" ;;
    other) for _ in $(seq 20); do [ -e "$RUNS.beside" ] || sleep 0.05; done; echo "no proof" >&2; exit 1 ;;
    beside) mkdir -p out/rlib; touch out/rlib/half; echo $$ > "$RUNS.new"; mv "$RUNS.new" "$RUNS.beside"; exec sleep 60 ;;
esac"""
WAITS = """if [ "$crate" = low ]; then
    mkdir -p out/rlib out/incremental
    touch out/rlib/half
    echo part >> out/incremental/kept
    echo $$ > "$RUNS.new"
    mv "$RUNS.new" "$RUNS.low"
    while [ ! -e "$RUNS.go" ]; do sleep 0.05; done
fi"""


def cases():
    yield Builds("a missing program is built", missing)
    yield Builds("a fresh program is not built again", fresh)
    yield Builds("a stale program is built again", stale)
    yield Builds("an edit while a build runs asks for another", edited, early="touch src/main.rt; sleep 0.05")
    yield Builds("a build that fails", broken, early="echo 'a line of the log' >&2; exit 7")
    yield Builds("a stored run that writes something else", other_output, wrote="another line\n")
    yield Builds("a build that leaves no program", no_program, early=f"printf '{STORED.rstrip()}\\n'; exit 0")
    yield Builds("the crates below are proved lowest first", lowest_first)
    yield Builds("the longest chain has the processors that others leave", longest_chain)
    yield Builds("a crate has a tree of its own", own_tree, early=LISTS)
    yield Builds("crates are proved side by side", side_by_side, early=MEETS)
    yield Builds("only what changed is proved again", only_what_changed)
    yield Builds("a crate that is not proved", unproved_crate, early=FAILS)
    yield Builds("a build that is interrupted", interrupted, early=WAITS)
    yield Builds("a build waits for another", two_builds, early=WAITS)
    yield Builds("a terminal is told how far it is", on_a_terminal)
    yield Builds("crates that stand on each other", circle)
    yield Builds("what is handed on", handed_on)
    yield Builds("the unproved program", tried, early=TRIES)
    yield Builds("the help of tools/try", try_helps, early=TRIES)
    yield Builds("an unproved program that is refused", not_tried, early=REFUSES)
    yield Builds("an unproved program that writes too much", too_much, early=FLOODS)
