"""`tools/wrong_bodies`, over a small tree of crates and a command `rt` of the tests' own: which wrong bodies reach which
crate, what is told of them, and the status. And every wrong body of this tree can be applied to the crate as it stands."""
import os
import pathlib
import re
import subprocess
import tempfile
import time

from helpers.harness import SECONDS

TOP = pathlib.Path(__file__).resolve().parent.parent.parent

# `rt check` refuses a crate with a file src/open.rt, and does not end with src/slow.rt. `rt must-fail CRATE` judges each edit
# by its new text. Both note their process, where they run, how many edits they may try at once, and all edits that there are.
RT = r"""#!/bin/sh
echo $$ > "$RUNS.last"
there=$(cd "${PWD%%/crates*}" && echo crates/*/must-fail/* crates/*/out crates.txt HANDLES)
out=$(cd "${PWD%%/crates*}" && find crates/*/out -type f 2>/dev/null | sort | tr '\n' ' ')
echo "$* in ${PWD#"$TMPDIR"/*/} of $RT_JOBS: $there${out:+ out: ${out% }}" >> "$RUNS"
case $1 in
    check)
        if [ -e src/open.rt ]; then echo "a goal is open"; exit 1; fi
        if [ -e src/slow.rt ]; then sleep 600; fi ;;
    must-fail)
        for edit in crates/"$2"/must-fail/*.edit; do
            case $(sed -n 's/^new: //p' "$edit") in
                other) said="refused, as it must be: src/lib.rt:1:1: error: a goal" ;;
                endless) said="refused, as it must be (only by a limit of the prover, which gave no verdict)" ;;
                same) said="NOT REFUSED: the crate is still proved with this edit" ;;
                gone) said="BAD EDIT: there is no file src/gone.rt" ;;
                killed) said="NOT TRIED: its check was killed" ;;
                *) continue ;;
            esac
            echo "rt: must-fail $2/${edit##*/}: $said"
        done ;;
esac
"""

# What stands in the tree: the new text of each wrong body, by its crate.
CRATES = "low:\nmiddle: low\nhigh: middle\n"
BODIES = {"low": {"adds_one": "other", "swaps_two": "other"}, "high": {"drops_the_last": "other"}}


class Tree:
    """A tree with the script, three crates with an edit that the gate tries and with what a build left, and a command `rt`."""

    def __init__(self, folder, bodies):
        self.top, self.room, self.runs = (pathlib.Path(folder) / name for name in ("a tree", "room", "runs"))
        self.room.mkdir()
        self.put("tools/wrong_bodies", (TOP / "tools" / "wrong_bodies").read_text(), 0o755)
        self.put("tools/running.py", (TOP / "tools" / "running.py").read_text())
        self.put("bin/rt", RT, 0o755)
        self.put("crates.txt", CRATES)
        self.put("HANDLES", "Handles allowed: none.\n")
        for crate in ("low", "middle", "high"):
            for name in ("src/lib.rt", "must-fail/of_the_gate.edit", "out/left"):
                self.put(f"crates/{crate}/{name}", "")
        for crate, edits in bodies.items():
            for name, new in edits.items():
                self.put(f"crates/{crate}/wrong_bodies/{name}.edit", f"file: src/lib.rt\nold: this\nnew: {new}\n")

    def put(self, name, octets, mode=0o644):
        file = self.top / name
        file.parent.mkdir(parents=True, exist_ok=True)
        file.write_text(octets)
        file.chmod(mode)

    def run(self, *words, end_it=False):
        """The lines that the script writes, what it says, and its status. It is ended once `rt` runs where that is asked for."""
        more = {"PATH": f"{self.top / 'bin'}:{os.environ['PATH']}", "RUNS": str(self.runs), "TMPDIR": str(self.room)}
        ran = subprocess.Popen([str(self.top / "tools" / "wrong_bodies"), *words], env={**os.environ, **more}, text=True,
                               stdin=subprocess.DEVNULL, stdout=subprocess.PIPE, stderr=subprocess.PIPE)
        while end_it and not self.ran() and ran.poll() is None:
            time.sleep(0.01)
        if end_it:
            ran.terminate()
        try:
            wrote, said = ran.communicate(timeout=SECONDS)
        finally:
            ran.kill()
        return wrote.splitlines(), said, ran.returncode

    def ran(self):
        """The lines that `rt` noted."""
        return self.runs.read_text().splitlines() if self.runs.exists() else []


class Tries:
    """What a function says is wrong of a tree."""

    def __init__(self, name, judge, bodies=None):
        self.name, self.judge, self.bodies = name, judge, bodies or BODIES

    def why_wrong(self, _program):
        with tempfile.TemporaryDirectory() as folder:
            pairs = self.judge(Tree(folder, self.bodies))
            return [f"{what}: wanted {wanted!r}, got {got!r}" for what, wanted, got in pairs if wanted != got]


def each_in_its_crate(tree):
    """The wrong bodies are tried in a copy, crate by crate, in place of those of the gate."""
    lines, said, status = tree.run("--at-once", "3")
    heads = ["low: 2 to try, crate 1 of 2", "high: 1 to try, crate 2 of 2"]
    yield "output", ([*heads, "3 refused, 0 not refused, 0 not tried"], "", 0), (lines, said, status)
    names = ("high/must-fail/drops_the_last", "low/must-fail/adds_one", "low/must-fail/swaps_two")
    edits = " ".join(f"crates/{it}.edit" for it in names)
    runs = ["check --jobs 2 in crates/low", "must-fail low in ", "check --jobs 2 in crates/high", "must-fail high in "]
    at_top = [f"{it} of 3: {edits} crates/*/out crates.txt HANDLES" for it in runs]
    yield "the runs", at_top, [re.sub(r"in \S*wrong_bodies-\w+ of", "in  of", line) for line in tree.ran()]
    yield "what is left of the copy", [], list(tree.room.iterdir())


def some_crates(tree):
    """Only the crates and the wrong bodies that are asked for are tried."""
    yield "one crate", "1 refused, 0 not refused, 0 not tried", tree.run("high")[0][-1]
    yield "a part of a name", "1 refused, 0 not refused, 0 not tried", tree.run("low", "--only", "swaps")[0][-1]
    yield "their names", (["low/adds_one", "low/swaps_two", "high/drops_the_last"], "", 0), tree.run("--list")
    yield "the names of one crate", (["high/drops_the_last"], "", 0), tree.run("high", "--list")


def proved(tree):
    """What a build proved is there in the copy, and what it kept of the crate whose wrong bodies are tried."""
    for crate in ("low", "middle", "high"):
        tree.put(f"crates/{crate}/out/incremental/kept", "")
    for name in ("low/out/rlib/stamp", "low/out/rlib/low.rlib", "middle/out/rlib/middle.rlib"):
        tree.put(f"crates/{name}", "")
    yield "the last line", "1 refused, 0 not refused, 0 not tried", tree.run("high")[0][-1]
    of_low, of_high = "crates/low/out/rlib/low.rlib crates/low/out/rlib/stamp", "crates/high/out/incremental/kept"
    yield "what is there", [f"{of_high} {of_low}"] * 2, [line.split(" out: ")[1] for line in tree.ran()]


def not_refused(tree):
    """What is not refused is told, and so is what was refused by a limit alone."""
    lines, said, status = tree.run()
    yield "output", ["low: 3 to try, crate 1 of 1",
                     "low/changes_nothing: NOT REFUSED: the crate is still proved with this edit",
                     "low/never_ends: refused, as it must be (only by a limit of the prover, which gave no verdict)",
                     "2 refused, 1 not refused, 0 not tried"], lines
    yield "message and status", ("", 1), (said, status)


def not_tried(tree):
    """What cannot be applied, what the prover gave no word on, and what belongs to no crate is told, and counts as not tried."""
    lines, said, status = tree.run()
    yield "output", ["low: 4 to try, crate 1 of 2", "low/has_no_file: BAD EDIT: there is no file src/gone.rt",
                     "low/is_killed: NOT TRIED: its check was killed", "low/is_silent: NOT TRIED: rt must-fail said nothing of it",
                     "lost: 1 to try, crate 2 of 2", "lost: NOT TRIED: there is no crate lost",
                     "1 refused, 0 not refused, 4 not tried"], lines
    yield "message and status", ("", 1), (said, status)


def unproved(tree):
    """In a crate that is not proved as it stands nothing is tried, for it would be refused with any body."""
    tree.put("crates/low/src/open.rt", "")
    lines, said, status = tree.run()
    yield "output", ["low: 2 to try, crate 1 of 2", "a goal is open", "low: NOT TRIED: low is not proved as it stands",
                     "high: 1 to try, crate 2 of 2", "1 refused, 0 not refused, 2 not tried"], lines
    yield "message and status", ("", 1), (said, status)
    yield "tries", ["must-fail high"], [line.split(" in ")[0] for line in tree.ran() if line.startswith("must-fail")]


def kept(tree):
    """The copy is left where that is asked for, and its place told."""
    lines, _, status = tree.run("--keep")
    copies = list(tree.room.iterdir())
    yield "copies", 1, len(copies)
    yield "its place", [f"The copy in which they were tried is {it}" for it in copies], lines[-2:-1]
    yield "status", 0, status


def ended(tree):
    """Where it is ended early, so is `rt`, the copy is removed, and what was not tried is counted."""
    tree.put("crates/low/src/slow.rt", "")
    lines, said, status = tree.run(end_it=True)
    yield "output", ["low: 2 to try, crate 1 of 2", "It was ended before all were tried.",
                     "0 refused, 0 not refused, 3 not tried"], lines
    yield "message and status", ("", 1), (said, status)
    yield "what is left of the copy", [], list(tree.room.iterdir())
    number = tree.runs.with_suffix(".last").read_text().strip()
    yield "whether rt still runs", False, pathlib.Path(f"/proc/{number}").exists()


def wrong_words(tree):
    """Words that are no crate with wrong bodies, and others that mean nothing, are told, and nothing is tried."""
    for words, why in ((["middle"], "middle has no wrong bodies; those that have some: low, high"),
                       (["low", "lower"], "lower is no crate; those that have some: low, high"),
                       (["--only", "nothing"], "no wrong body has 'nothing' in its name"),
                       (["--at-once", "0"], "--at-once wants a number from 1 on, not 0"),
                       (["--at-once", "two"], "argument --at-once: invalid int value: 'two'"),
                       (["--all"], "unrecognized arguments: --all")):
        lines, said, status = tree.run(*words)
        wanted = ([], f"tools/wrong_bodies: error: {why}", 2)
        yield " ".join(words), wanted, (lines, said.splitlines()[-1], status)
    lines, said, status = tree.run("--help")
    first = "Tries the wrong bodies of the folders crates/CRATE/wrong_bodies: the prover must refuse each."
    yield "help", (True, "", 0), (first in lines, said, status)
    yield "runs", [], tree.ran()


class Applied:
    """Each wrong body of a crate names its file, and each text that it replaces stands there once, on a line of its own."""

    def __init__(self, crate):
        self.name, self.crate = f"the wrong bodies of {crate} can be applied", TOP / "crates" / crate

    def why_wrong(self, _program):
        return [f"{edit.relative_to(TOP)}: {why}" for edit in edits_of(self.crate.name)
                for why in why_not_applied(self.crate, edit.read_text(encoding="utf-8").splitlines())]


def edits_of(crate):
    """The wrong bodies of a crate, those that the gate tries first."""
    folders = (TOP / "crates" / crate / "must-fail", TOP / "crates" / crate / "wrong_bodies")
    return [it for folder in folders for it in sorted(folder.glob("*.edit"))]


def why_not_applied(crate, lines):
    """Why an edit with these lines cannot be applied to a crate."""
    files, path, old = {}, "", ""
    for line in lines:
        word, _, text = line.partition(": ")
        if word == "file":
            path = text
            files[path] = (crate / path).read_text(encoding="utf-8") if (crate / path).is_file() else ""
            if not files[path]:
                yield f"there is no file {path}"
        elif word == "old":
            old, count = text, files.get(path, "").count(text)
            if count != 1:
                yield f"its old text stands {count} times in the file: {text.strip()}"
        elif word in ("new", "new:"):
            files[path] = files.get(path, "").replace(old, text)
        elif not line.startswith("# "):
            yield f"a line is not read: {line}"
    if not any(line.startswith("old: ") for line in lines):
        yield "it has no old text"


def cases():
    yield Tries("each is tried in its crate", each_in_its_crate)
    yield Tries("some crates", some_crates)
    yield Tries("what is proved is taken along", proved)
    some = {"adds_one": "other", "changes_nothing": "same", "never_ends": "endless"}
    yield Tries("some are not refused", not_refused, {"low": some})
    some = {"adds_one": "other", "has_no_file": "gone", "is_killed": "killed", "is_silent": "none"}
    yield Tries("some are not tried", not_tried, {"low": some, "lost": {"adds_one": "other"}})
    yield Tries("a crate that is not proved", unproved)
    yield Tries("a copy that is kept", kept)
    yield Tries("one that is ended early", ended)
    yield Tries("wrong words", wrong_words)
    folders = [*(TOP / "crates").glob("*/must-fail"), *(TOP / "crates").glob("*/wrong_bodies")]
    for crate in sorted({it.parent.name for it in folders}):
        yield Applied(crate)
