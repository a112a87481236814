"""The benchmark runs, and tells a program that writes the same from one that does not."""
import os
import pathlib
import re
import shlex
import shutil
import subprocess
import tempfile

from helpers.asked_tools import TOP
from helpers.harness import SECONDS

# Seconds of two checkouts, and their ratio.
TIMES = r" \| \d+\.\d{3} \| \d+\.\d{3} \| \d+\.\d\d"
ROW = re.compile(r"(?m)^\| (small|station|dense|samples|faulty) \|.* \| (yes|no) \| \S+ \|$")


class Beside:
    """Each list has its rows, and the last column but one says whether the programs write the same."""

    def __init__(self, name, other, same):
        self.name, self.other, self.same = name, other, same

    def why_wrong(self, program):
        ran = measured(program, 20, "--beside", self.other or shlex.join(program))
        rows = ROW.findall(ran.stdout)
        why = [] if ran.returncode == 0 else [f"status {ran.returncode}: {ran.stderr}"]
        lists = [kind for kind, _ in rows]
        counts = [lists.count(kind) for kind in ("small", "station", "dense", "samples", "faulty")]
        why += [] if counts == [6, 8, 4, 5, 4] else [f"rows of the lists: {counts}"]
        return why + ([] if {same for _, same in rows} == {self.same} else [f"another column Same text in {ran.stdout}"])


def measured(program, frames, *words):
    """What the benchmark of so many frames says of a program, run once."""
    words = [TOP / "bench" / "run", "--frames", str(frames), "--repeat", "1", "--program", shlex.join(program), *words]
    return subprocess.run(words, stdin=subprocess.DEVNULL, stdout=subprocess.PIPE, stderr=subprocess.PIPE, timeout=SECONDS, text=True)


class Growth:
    """Each thing that can grow has its row."""

    name = "what grows"

    def why_wrong(self, program):
        ran = measured(program, 40, "--growth")
        rows = re.findall(r"(?m)^\| (lines|members|control|octets)[^|]*(?:\| \d+ ){4}\| \d+\.\d\d \|$", ran.stdout)
        why = [] if ran.returncode == 0 else [f"status {ran.returncode}: {ran.stderr}"]
        return why + ([] if rows == ["lines", "members", "control", "octets"] else [f"other rows: {ran.stdout}"])


class Captures:
    """Each command has a row for captures of both forms: of retransmissions, of states that come once, and of streams; and two for lists that
    `import` makes. Beside another program each row has that one's seconds and the ratio."""

    name = "captures as they are, and as lists"

    def why_wrong(self, program):
        of_bays, of_streams = ["show", "show --json", "check", "blocks", "losses", "replay"], ["show", "show --json", "check", "losses", "watch"]
        wanted = [(f"{traffic}, {form}", row) for traffic in ("goose", "events", "samples") for form in ("classic", "pcapng")
                  for row in (of_streams if traffic == "samples" else of_bays)]
        wanted += [(f"{traffic}, classic", f"import \\| {name}") for traffic, name in (("goose", "replay"), ("samples", "watch"))]
        why = self.why_other(measured(program, 300, "--captures"), wanted, "")
        return why or self.why_other(measured(program, 300, "--captures", "--beside", shlex.join(program)), wanted, r" \| (?:\d+\.\d{3}|-) \| (?:\d+\.\d\d|-)")

    def why_other(self, ran, wanted, more):
        rows = re.findall(rf"(?m)^\| (\w+, \w+) \| 300 \| ((?:[^|\\]|\\\|)+) \| \d+\.\d{{3}}{more} \|$", ran.stdout)
        is_well = ran.returncode == 0 and [it for it in rows if it[1] != "tshark -T fields"] == wanted
        return [] if is_well else [f"status {ran.returncode}: {ran.stdout}{ran.stderr}"]


# A valgrind that says another number of instructions for other words.
COUNTS = """#!/usr/bin/env bash
echo "==7== Collected : $((1000 * $5 + $6))" >&2
exec "${@:3}"
"""


class ByTurns:
    """Two checkouts have a row for each workload that the old one has, and are told apart where they print different text or fail.
    valgrind runs a workload with one list of a tenth of the lines."""

    name = "two checkouts by turns"

    def why_wrong(self, _program):
        with tempfile.TemporaryDirectory() as folder:
            old, new, other, failing = (self.checkout(pathlib.Path(folder, name), script) for name, script in (
                ("old", 'echo "$@" $(basename $PWD)'), ("new", 'sleep 0.01; echo "$@" bench'), ("other", "echo $1 9 200 3 bench"), ("failing", "exit 1")))
            ran = self.run(old, new, "3")
            rows = re.findall(rf"(?m)^\| (\w+){TIMES * 2} \|$", ran.stdout)
            why = [] if ran.returncode == 0 and rows == ["one", "two"] else [f"status {ran.returncode}: {ran.stdout}{ran.stderr}"]
            for wrong, at in ((other, "two: "), (failing, "one: ")):
                ran = self.run(old, wrong, "3")
                why += [] if ran.returncode == 1 and ran.stderr.startswith(at) else [f"{wrong.name}: {ran.stderr}"]
            ran = self.run(self.checkout(pathlib.Path(folder, "older"), '[ "$1" = b ] || echo "$@" bench'), new, "3")
            is_left_out = re.findall(rf"(?m)^\| (\w+){TIMES * 2} \|$", ran.stdout) == ["one"] and "two: the old checkout has no" in ran.stderr
            why += [] if ran.returncode == 0 and is_left_out else [f"a workload that the old one has not: {ran.stdout}{ran.stderr}"]
            ran = self.run(old, new, "three")
            why += [] if ran.returncode == 2 else [f"status {ran.returncode} of a seed that is no number"]
            return [*why, *self.why_count_wrong(pathlib.Path(folder), old, new)]

    def why_count_wrong(self, folder, old, new):
        valgrind = folder / "bin" / "valgrind"
        valgrind.parent.mkdir()
        for name in ("python3", "bash", "env"):
            (valgrind.parent / name).symlink_to(shutil.which(name))
        for script, wanted, said in ((None, [], "there is no valgrind"), (COUNTS, [("one", "1020"), ("two", "1003")], "")):
            if script:
                valgrind.write_text(script)
                valgrind.chmod(0o755)
            ran = self.run(old, new, "3", "--instructions", env={**os.environ, "PATH": str(valgrind.parent)})
            rows = re.findall(rf"(?m)^\| (\w+){TIMES * 2} \| (\d+) \| \2 \| 1\.000 \|$", ran.stdout)
            if ran.returncode or rows != wanted or said not in ran.stderr:
                yield f"instructions: {ran.stdout}{ran.stderr}"

    def checkout(self, folder, script):
        """A checkout whose workloads run this script."""
        (folder / "bench").mkdir(parents=True)
        (folder / "bench" / "workloads.txt").write_text("one job a 9 200 SEED\ntwo job b 5 SEED\n")
        program = folder / "crates" / "job" / "out" / "job"
        program.parent.mkdir(parents=True)
        program.write_text(f"#!/usr/bin/env bash\n{script}\n")
        program.chmod(0o755)
        return folder

    def run(self, *words, **how):
        return subprocess.run([TOP / "bench" / "run", *words], stdin=subprocess.DEVNULL, capture_output=True, timeout=SECONDS, text=True,
                              **how)


def cases():
    yield ByTurns()
    yield Growth()
    yield Captures()
    yield Beside("the program beside itself", None, "yes")
    yield Beside("the program beside one that writes another text", "echo", "no")
