"""The manual page: its form, its examples, and that it, docs/FORMATS.md and the program have the same exit statuses and names
of errors. The theme `commands` has its commands and options."""
import pathlib
import re
import shlex
import shutil
import subprocess

from helpers.harness import SECONDS, Skipped

TOP = pathlib.Path(__file__).resolve().parent.parent.parent
PAGE = TOP / "docs" / "goose.1"
FORMATS = TOP / "docs" / "FORMATS.md"
# What the program writes for a name is a definition, to which its code is proved; the number of a status too.
NAMES = {
    "Of a frame": ("text_core", "Names", "name_of_cause"),
    "Of a list": ("text_core", "Names", "name_of_list_cause"),
    "Of a capture": ("text_core", "CaptureNames", "name_of_capture_cause"),
    "Of a script": ("exchange_engines", "ExchangeNames", "name_of_script_cause"),
    "Why a frame of a block is refused": ("exchange_engines", "ExchangeNames", "name_of_reason"),
}


class Linted:
    name = "docs/goose.1 is well formed"

    def why_wrong(self, _program):
        if not shutil.which("mandoc"):
            raise Skipped("there is no mandoc: run tests/get_tools")
        ran = subprocess.run(["mandoc", "-T", "lint", PAGE], stdout=subprocess.PIPE, stderr=subprocess.STDOUT)
        return ran.stdout.decode().splitlines()


class Ran:
    """An example ends well, with notes at most, and complains of nothing."""

    def __init__(self, command):
        self.name, self.command = command, command

    def why_wrong(self, program):
        command = re.sub(r"\bgoose (?=\w)", lambda _: " ".join(map(shlex.quote, program)) + " ", self.command)
        ran = subprocess.run(["bash", "-c", command], cwd=TOP, stdin=subprocess.DEVNULL, stdout=subprocess.PIPE,
                             stderr=subprocess.PIPE, timeout=SECONDS)
        why = [f"ended with status {ran.returncode}"] if ran.returncode > 1 else []
        why += [f"complained: {ran.stderr!r}"] if ran.stderr else []
        return why + ([] if ran.stdout else ["wrote nothing"])


class Statuses:
    """The program can also end with 2, where its arguments are rejected, which is no ending of a run."""

    name = "docs/goose.1 and docs/FORMATS.md have each exit status"

    def why_wrong(self, _program):
        endings = (TOP / "crates" / "engine_core" / "specs" / "Ending.antt").read_text()
        wanted = sorted({"2", *re.findall(r"(?m)^status_of \w+ = (\d)$", endings)})
        told = {"goose.1": re.findall(r"(?m)^\.It (\d)$", PAGE.read_text()),
                "FORMATS.md": re.findall(r"(?m)^\| (\d) \|", part(FORMATS.read_text(), "## Exit statuses"))}
        return [f"{file} has {found}, and not {wanted}" for file, found in told.items() if found != wanted]


class Named:
    """The names under a heading of the page are those that the program writes, and a table of docs/FORMATS.md has each."""

    def __init__(self, heading, crate, module, word):
        self.name, self.heading = f"the names in docs/goose.1, {heading}", heading
        self.source = TOP / "crates" / crate / "specs" / f"{module}.antt"
        self.word = word

    def why_wrong(self, _program):
        wanted = set(re.findall(rf'(?m)^{self.word} .* = codes "(\w+)"', self.source.read_text()))
        told = set(re.findall(r"(?m)^\.It Li (\w+)$", PAGE.read_text().partition(f".Ss {self.heading}\n")[2].split(".El")[0]))
        listed = {name for cell in re.findall(r"(?m)^\| (\w+(?:, \w+)*) \|", FORMATS.read_text()) for name in cell.split(", ")}
        why = [f"wanted {sorted(wanted)}, got {sorted(told)}"] if told != wanted or not wanted else []
        return why + [f"docs/FORMATS.md has no {name}" for name in sorted(wanted - listed)]


def part(text, heading):
    """What follows a heading, up to the next one of its level."""
    return text.partition(f"\n{heading}\n")[2].split("\n## ")[0]


def examples():
    """The page's examples that begin with goose: a line each, or, where that would be too long, a display of several."""
    shown = re.findall(r"(?m)^\.Dl (goose .*)$|^\.Bd .*\n(goose .*(?:\n.*)*?)\n\.Ed$", PAGE.read_text())
    return [line or display.replace(r"\e", "\\") for line, display in shown]


def cases():
    yield from (Linted(), Statuses())
    for heading, where in NAMES.items():
        yield Named(heading, *where)
    for command in examples():
        yield Ran(command)
