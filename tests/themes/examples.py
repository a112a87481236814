"""What the documents show of the program and of the tools is what they write."""
import os
import pathlib
import re
import shlex
import shutil
import subprocess
import tempfile

from helpers.harness import SECONDS, Skipped, first_difference

TOP = pathlib.Path(__file__).resolve().parent.parent.parent
DOCUMENTS = ["README.md", "examples/README.md", "docs/TUTORIAL.md", "docs/FORMATS.md", "docs/REPLAY.md", "docs/RECIPES.md"]
# Tools that some commands ask for, and that may not be installed; tests/get_tools says how they are.
TOOLS = ["editcap", "jq", "parallel", "tcpdump", "tshark"]


class Place:
    """A folder in which the commands of one document run. It has what the checkout has, and the files that those commands make
    which show nothing: each of them runs once, before the first command after it that does."""

    def __init__(self):
        self.folder, self.environment, self.silent, self.ran = None, None, [], 0

    def run(self, program, before, command):
        """Runs a command behind so many silent ones."""
        if not self.folder:
            self.folder = tempfile.TemporaryDirectory()
            self.environment = laid_out(pathlib.Path(self.folder.name), program)
        for silent in self.silent[self.ran:before]:
            shell(silent, self.folder.name, self.environment)
        self.ran = max(self.ran, before)
        return shell(command, self.folder.name, self.environment)


class Shown:
    """A command of a document, after `$ `, and the output under it."""

    def __init__(self, name, place, command, output):
        self.name, self.place, self.command, self.output = name, place, command, output
        self.before = len(place.silent)

    def why_wrong(self, program):
        script = "\n".join([*self.place.silent[:self.before], self.command])
        missing = [tool for tool in TOOLS if re.search(rf"(^|[|;(] ){tool} ", script, re.M) and not shutil.which(tool)]
        if missing:
            raise Skipped(f"there is no {missing[0]}: run tests/get_tools")
        ran = self.place.run(program, self.before, self.command)
        why = first_difference(self.output, ran.stdout)
        return [f"{self.command}\n{why}"] if why else []


class Left:
    """What the commands of a document make in a checkout is no change of it."""

    def __init__(self, document, place):
        self.name, self.place = f"{document}: what its commands leave is in .gitignore", place

    def why_wrong(self, program):
        if not shutil.which("git") or subprocess.run(["git", "-C", TOP, "rev-parse"], stdin=subprocess.DEVNULL, capture_output=True).returncode:
            raise Skipped("this is no checkout of git")
        self.place.run(program, len(self.place.silent), ":")
        folder = pathlib.Path(self.place.folder.name)
        # The folder is HOME too, in which other programs keep hidden files of theirs.
        left = [str(it.relative_to(folder)) for it in folder.rglob("*") if it.is_file() and not it.is_symlink()
                and it.parent.name != "bin" and not it.relative_to(folder).parts[0].startswith(".")]
        ignored = subprocess.run(["git", "-C", TOP, "check-ignore", "--no-index", "--stdin"], input="\n".join(left), capture_output=True, text=True)
        return [f"git sees {it}" for it in sorted(set(left) - set(ignored.stdout.splitlines()))]


def laid_out(folder, program):
    """Lays out what commands of documents ask for: the folders that they name, and goose beside them and on PATH."""
    for name in ("examples", "tools", "docs"):
        (folder / name).symlink_to(TOP / name)
    (folder / "bin").mkdir()
    goose = folder / "bin" / "goose"
    goose.write_text(f'#!/bin/sh\nexec {shlex.join(program)} "$@"\n')
    goose.chmod(0o755)
    (folder / "goose").symlink_to(goose)
    return {**os.environ, "GOOSE": "", "PATH": f"{goose.parent}:{os.environ['PATH']}", "HOME": str(folder)}


def shell(command, folder, environment):
    return subprocess.run(["bash", "-c", command], cwd=folder, env=environment, stdin=subprocess.DEVNULL, stdout=subprocess.PIPE,
                          stderr=subprocess.STDOUT, timeout=SECONDS)


def shown_in(document):
    """The commands of a document's console blocks."""
    place, command, output, is_console = Place(), None, [], False
    for number, line in enumerate((TOP / document).read_text().splitlines(), 1):
        starts = is_console and line.startswith("$ ")
        if (starts or line.startswith("```")) and command:
            yield Shown(f"{document} line {command[0]}", place, command[1], "".join(output).encode())
            place.silent += [] if output else [command[1]]
            command = None
        if line.startswith("```"):
            is_console = line == "```console"
        elif starts:
            command, output = (number, line[2:]), []
        elif is_console:
            output.append(line + "\n")
    yield Left(document, place)


def cases():
    for document in DOCUMENTS:
        if (TOP / document).is_file():
            yield from shown_in(document)
