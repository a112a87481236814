"""One table of commands and options: each other place that lists them has all of them, and no more. That table is what the definitions of
words_core say, with the sentences of help of its sources."""
import os
import pathlib
import re
import select
import shlex
import subprocess
import tempfile

from helpers import captured
from helpers.asked_tools import module
from helpers.harness import SECONDS, run
from oracles import objects, reading, reference
from themes.devices import words

TOP = pathlib.Path(__file__).resolve().parent.parent.parent
command_table = module("command_table")
enumerated = command_table.enumerated
COMMANDS, OPTIONS, INTAKES = list(command_table.commands()), command_table.options(), command_table.intakes()
READ, READ_HELP = command_table.reading()
NAMES = [it.name for it in COMMANDS]
ON_EVENTS = [it.name for it in COMMANDS if it.takes_options]
# What a terminal is told of each sort of input.
AWAITED = {"a script": "script", "a classic capture": "capture"}
# What a bash completes after these words, one a line.
COMPLETE = 'source "$0"; COMP_WORDS=("$@"); COMP_CWORD=$(($# - 1)); _goose; printf "%s\\n" "${COMPREPLY[@]}"'


class Equal:
    """A place has what the table has. Each place is read when the case runs."""

    def __init__(self, name, found, wanted):
        self.name, self.found, self.wanted = name, found, wanted

    def why_wrong(self, _program):
        found = self.found()
        return [] if found == self.wanted else [f"wanted {self.wanted}", f"found  {found}"]


class Says:
    """A text has these words, wherever its lines end."""

    def __init__(self, path, *wanted):
        self.path, self.wanted, self.name = path, wanted, f"what {path} lists"

    def why_wrong(self, _program):
        text = " ".join(re.sub(r"(?m)^ *///", "", (TOP / self.path).read_text()).split())
        return [f"it does not say {it!r}" for it in self.wanted if it not in text]


class Helps:
    """The program's help has the commands, and that of a command its sentence, its example, and its options."""

    name = "the program's help"

    def why_wrong(self, program):
        told = run(program, ["--help"])[0].decode()
        wanted = [(it.name, it.help) for it in COMMANDS]
        found = re.findall(r"(?m)^  ([a-z]+) +(.*)$", told.partition("\nCommands:\n")[2].partition("\n\n")[0])
        return [*([] if found == wanted else [f"wanted {wanted}", f"found  {found}"]), *(why for it in COMMANDS for why in self.why_command_wrong(program, it))]

    def why_command_wrong(self, program, command):
        told = run(program, [command.name, "--help"])[0].decode()
        wanted = [f"Example: {command.example}\n\n{command.help}\n\nUsage: goose {command.name}{command_table.usage(command)}\n"]
        wanted += [f" --{own.name} <{own.value}>" for own in command.own if own.value and own.is_option]
        yield from (f"goose {command.name} --help does not say {it!r}" for it in wanted if it not in told)
        listed = dict(re.findall(r"(?m)^ +(?:-\w, )?(--[\w-]+)(?: <\w+>)? +(.*)$", told))
        said = {READ: READ_HELP, **(OPTIONS if command.takes_options else {}), "--help": "Print help"}
        others = {f"--{own.name}" for own in command.own if own.is_option}
        if set(listed) != set(said) | others or any(listed[it] != text for it, text in said.items()):
            yield f"goose {command.name} --help lists {listed}"


class Awaits:
    """A terminal as standard input: standard error says what is awaited before anything is read, and Ctrl-D ends it."""

    def __init__(self, asked, what):
        self.name, self.asked, self.what = f"{' '.join(asked)} on a terminal", asked, what

    def why_wrong(self, program):
        near, far = os.openpty()
        started = subprocess.Popen([*program, *self.asked], stdin=far, stdout=subprocess.PIPE, stderr=subprocess.PIPE)
        os.close(far)
        with os.fdopen(near, "wb", buffering=0) as terminal, started.stdout, started.stderr:
            is_told = bool(select.select([started.stderr], [], [], SECONDS / 4)[0])
            told = os.read(started.stderr.fileno(), 400) if is_told else b""
            terminal.write(b"\4")
            wrote, status = started.stdout.read(), started.wait(timeout=SECONDS)
        wanted = f"goose {self.asked[0]}: waiting for a {self.what} on standard input (did you forget `< FILE`?)\n".encode()
        why = [] if told == wanted else [f"told {told!r}, and not {wanted!r}"]
        return why + ([] if status in (0, 3) else [f"ended with status {status}, wrote {wrote!r}"])


class Completes:
    """bash completes the commands, and the options of each."""

    name = "what tools/completion.bash completes"

    def why_wrong(self, program):
        return list(self.why_each_wrong(program))

    def why_each_wrong(self, program):
        with tempfile.TemporaryDirectory() as folder:
            goose = pathlib.Path(folder, "goose")
            goose.write_text(f'#!/bin/sh\nexec {shlex.join(program)} "$@"\n')
            goose.chmod(0o755)
            for words, wanted in self.words():
                ran = subprocess.run(["bash", "-c", COMPLETE, TOP / "tools" / "completion.bash", *words], stdout=subprocess.PIPE,
                                     env={**os.environ, "PATH": f"{folder}:{os.environ['PATH']}"}, timeout=SECONDS)
                found = ran.stdout.decode().split()
                if sorted(found) != sorted(wanted):
                    yield f"after {words}: {found}, and not {wanted}"

    def words(self):
        yield ["goose", ""], [*NAMES, "--help", "--version"]
        for command in COMMANDS:
            own = [f"--{it.name}" for it in command.own if it.is_option]
            yield ["goose", command.name, "--"], [READ, *(OPTIONS if command.takes_options else ()), *own, "--help"]


def part(text, heading):
    return text.partition(f"\n{heading}\n")[2].split("\n## ")[0]


def of_formats():
    """The tables of docs/FORMATS.md: a command with its words, what it reads and its sentence; an option with its sentence."""
    text = part((TOP / "docs" / "FORMATS.md").read_text(), "## Commands")
    rows = re.findall(r"(?m)^\| `(goose [^`]*)` \| (.*?) \| (.*?) \|", text)
    return rows, dict(re.findall(r"(?m)^\| `(--[\w-]+)` \| (.*?) \|", text))


def of_manual():
    """What the manual page has of each command, in its synopsis and in its list, and its options."""
    text = (TOP / "docs" / "goose.1").read_text()
    synopsis = {}
    for names, words in re.findall(r"(?m)^\.Nm\n\.Cm (.*)\n((?:\.(?:Op|Fl|Ar) .*\n)*)", text.partition("\n.Sh SYNOPSIS\n")[2].partition("\n.Sh ")[0] + "\n"):
        synopsis.update(dict.fromkeys(names.split(" | "), words.splitlines()))
    flags = re.findall(r"(?m)^\.It Fl -([\w-]+)$", text.partition("\nThe options are as follows:\n")[2].partition("\n.El")[0])
    return synopsis, re.findall(r"(?m)^\.It Cm (.*)$", text), [f"--{it}" for it in flags]


def manual_synopsis():
    """The options of each command in the synopsis: those that exclude each other stand in one line."""
    synopsis = dict(of_manual()[0])
    synopsis.pop("help", None)
    return {name: sorted(it for line in lines for it in line[1:].replace("| Fl", "\nOp Fl").splitlines() if it.strip())
            for name, lines in synopsis.items()}


def wanted_synopsis(command):
    shared = [f"Op Fl -{it[2:]}" for it in OPTIONS] if command.takes_options else []
    return sorted(["Op Fl r Ar file", *shared, *map(command_table.in_manual, command.own)])


def documents():
    yield Equal("the commands of docs/FORMATS.md", lambda: of_formats()[0],
                [(command_table.called(it), INTAKES[it.name], it.help) for it in COMMANDS])
    yield Equal("the options of docs/FORMATS.md", lambda: of_formats()[1], OPTIONS)
    yield Says("docs/FORMATS.md", f"| Option of {enumerated(ON_EVENTS)} |", f"| `-r FILE`, `{READ} FILE`, of every command | {READ_HELP} |")
    yield Equal("the synopsis of docs/goose.1", lambda: {name: [it.rstrip() for it in words] for name, words in manual_synopsis().items()},
                {it.name: wanted_synopsis(it) for it in COMMANDS})
    yield Equal("the commands of docs/goose.1", lambda: sorted(of_manual()[1]),
                sorted(" ".join([it.name, *map(command_table.in_manual, it.own)]) for it in COMMANDS))
    yield Equal("the options of docs/goose.1", lambda: of_manual()[2], list(OPTIONS))
    yield Says("README.md", *(f"goose {it} " for it in NAMES if it not in ("import", "rewrite")), "`import`", "`rewrite`")
    yield Says("docs/ARCHITECTURE.md", *(f"`{it}`" for it in NAMES))
    yield Says("docs/PROOFS.md", *(f"`{it}`" for it in NAMES))
    yield Says("crates/words_core/README.md", enumerated(ON_EVENTS))


def sources():
    """The program's other lists, and what it reads: a command that takes the options on events reads a list or a capture."""
    yield Says("crates/goose/src/main.rt", f"The commands are {enumerated(NAMES, '')};")
    yield Says("crates/words_core/src/words.rt", f"which the commands {enumerated(ON_EVENTS)} take")
    yield Equal("what each command reads", lambda: {name: it == command_table.EVENTS for name, it in command_table.intakes().items()},
                {it.name: it.takes_options for it in COMMANDS})


def oracles():
    """What the tests know of commands beside the sources."""
    yield Equal("the help of the slow programs", lambda: list(reference.HELP.items()), [(it.name, it.help) for it in COMMANDS])
    yield Equal("the words of the slow programs", lambda: reference.TAKES,
                {it.name: words for it in COMMANDS if (words := command_table.usage(it))})
    for name, found in (("slow programs over events", reading.COMMANDS), ("slow writers of objects", objects.COMMANDS), ("runs over captures", captured.ASKED)):
        yield Equal(f"the commands of the {name}", lambda found=found: sorted(found), sorted(ON_EVENTS))


def cases():
    yield from (*documents(), *sources(), *oracles(), Helps(), Completes())
    for command in NAMES:
        yield Awaits(words(command), AWAITED.get(INTAKES[command], "list"))
    for command in captured.ASKED:
        yield Awaits(captured.capturing(command), "capture")
