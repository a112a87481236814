"""How the tools run: what they say of themselves, which program they ask, what they are given, and how they end.

A tool ends with status 0 where it did what it was asked for, 1 where it found or left out something, 2 where its
arguments are wrong, 3 where its input has an error, 4 where reading or writing failed, 70 where the tool itself has an
error, and 127 where it needs goose and there is none.
"""
import argparse
import os
import pathlib
import re
import shlex
import subprocess
import sys
import traceback

FIND = pathlib.Path(__file__).resolve().parent / "find_goose"
# The octets that are read at once, and the most of a line: goose writes none of a tenth of that.
PIECE, MOST_LINE = 1 << 16, 1 << 20
# What goose says of its version. Other programs of that name say something else.
VERSION = re.compile(r"goose \d[\w.+-]*\n?")
# The status of a tool that has an error of its own, and the variable that has it show where.
OWN_ERROR, TRACEBACK = 70, "GOOSE_TRACEBACK"


class Ended(Exception):
    """Why a tool cannot go on, its status, and more lines that are told with it."""

    def __init__(self, why, status=3, more=()):
        super().__init__(why)
        self.status, self.more = status, more


def shown(text, kept=""):
    r"""A text whose characters that do not print, or that change how others are shown, are escapes: \x9b, \u202e. Those of kept stay."""
    if text.isprintable():
        return text
    return "".join(it if it.isprintable() or it in kept else ascii(it)[1:-1] for it in text)


class Arguments(argparse.ArgumentParser):
    """A parser of arguments that shows what it rejects."""

    def error(self, message):
        super().error(shown(message))


def arguments(text):
    """A parser of arguments whose help is the text of a tool."""
    return Arguments(description=text, formatter_class=argparse.RawDescriptionHelpFormatter)


def say(text):
    """Writes a line to standard error. What it has of a file or an argument cannot change the terminal."""
    if sys.stderr:
        print(f"{pathlib.Path(sys.argv[0]).name}: {shown(text)}", file=sys.stderr, flush=True)


def goose():
    """The command of the program, as find_goose tells it."""
    # bash quotes letters of a path by their numbers where its locale has none of them, and shlex does not read these.
    found = subprocess.run([FIND], stdin=subprocess.DEVNULL, stdout=subprocess.PIPE, env={**os.environ, "LC_ALL": "C.UTF-8"})
    if found.returncode:
        raise Ended("there is no goose to ask", found.returncode)
    words = shlex.split(os.fsdecode(found.stdout))
    version(words)
    return words


def version(words):
    """What a command says of its version, where it is goose."""
    try:
        ran = subprocess.run([*words, "--version"], stdin=subprocess.DEVNULL, stdout=subprocess.PIPE)
    except (OSError, ValueError) as why:
        raise Ended(f"{shlex.join(words)} cannot be run: {why}", 127) from None
    told = ran.stdout.decode("utf-8", "replace")
    if ran.returncode or not VERSION.fullmatch(told):
        first = told.partition("\n")[0][:100]
        raise Ended(f"{shlex.join(words)} is not the goose that reads recorded frames, or does not work: --version ended with status "
                    f"{ran.returncode} and wrote {first!r}. The variable GOOSE can name another one", 127)
    return told.strip()


def answers(words, path):
    """The lines that goose writes for a file, as they come. Its messages go where those of the tool go. A caller that wants no
    more lines closes this, and so ends goose."""
    with open(path, "rb") as given, subprocess.Popen([*goose(), *words], stdin=given, stdout=subprocess.PIPE) as ran:
        try:
            for line in ran.stdout:
                yield line.decode("latin-1").rstrip("\n")
        except GeneratorExit:
            ran.terminate()
            raise
    if ran.returncode not in (0, 1, 3):
        raise Ended(f"goose {words[0]} ended with status {ran.returncode}", ran.returncode if ran.returncode > 0 else 4)


def standard_input():
    """Standard input, which somebody can have closed."""
    if not sys.stdin:
        raise Ended("standard input is closed", 4)
    return sys.stdin


def lines_given(before=None):
    """The lines of standard input, each octet a character. Before each wait for more, what was written is handed on, or what is given
    is called."""
    return lines_of(standard_input().buffer.raw, before=before)


def lines_of(octets, path="", before=None):
    """The lines of an open file. One that is too long ends the tool."""
    begun, size, number, piece = [], 0, 1, b"first"
    while piece:
        (before or sys.stdout.flush)()
        piece = octets.read(PIECE)
        first, *others = piece.decode("latin-1").split("\n")
        begun.append(first)
        size += len(first)
        if size > MOST_LINE:
            raise Ended(f"{path and path + ': '}line {number}: it has over {MOST_LINE} octets, and no longer line is read")
        if others:
            yield "".join(begun)
            *whole, rest = others
            yield from whole
            begun, size, number = [rest], len(rest), number + len(others)
    if size:
        yield "".join(begun)


def reason(why):
    """Why the system could not read or write, and of which file, where it says so."""
    return ": ".join(str(it) for it in (why.filename, why.strerror or why) if it)


def leave(status, *lines):
    """Says why, if somebody hears it, and ends the tool although standard output or error takes no more."""
    try:
        for line in lines:
            say(line)
    except OSError:
        pass
    nowhere = os.open(os.devnull, os.O_WRONLY)
    for stream in (sys.stdout, sys.stderr):
        if stream:
            os.dup2(nowhere, stream.fileno())
    os.close(nowhere)
    sys.exit(status)


def ended(main):
    """Runs a tool, and answers its status."""
    try:
        if not sys.stdout:
            raise Ended("standard output is closed", 4)
        return main()
    except Ended as why:
        for line in (str(why), *why.more):
            say(line)
        return why.status
    except KeyboardInterrupt:
        return 130


def own_error(why):
    """What is said of an error of a tool: what and where it is, on one line unless more is asked for."""
    if os.environ.get(TRACEBACK):
        return "".join(traceback.format_exception(type(why), why, why.__traceback__)).splitlines()
    places = [(pathlib.Path(frame.f_code.co_filename), number) for frame, number in traceback.walk_tb(why.__traceback__)]
    file, number = [it for it in places if FIND.parent in it[0].resolve().parents][-1]
    told = " ".join(str(why).split())[:200]
    return [f"this is an error of the tool, {type(why).__name__}{f' ({told})' if told else ''} at {file.name}:{number}. "
            f"Please report it, with the arguments and the input; {TRACEBACK}=1 shows where it comes from"]


def end(main):
    """Runs a tool and ends with its status. A reader that goes away ends it without a word, and what nobody foresaw with a message."""
    try:
        status = ended(main)
        if sys.stdout:
            sys.stdout.flush()
    except BrokenPipeError:
        leave(141)
    except OSError as why:
        leave(4, reason(why))
    except Exception as why:
        leave(OWN_ERROR, *own_error(why))
    sys.exit(status)
