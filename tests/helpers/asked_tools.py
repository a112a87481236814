"""A run of one of the tools, and its comparison with what it must write."""
import importlib
import os
import pathlib
import shlex
import subprocess
import sys

from helpers.harness import SECONDS, clipped, first_difference

TOP = pathlib.Path(__file__).resolve().parent.parent.parent
TOOLS, EXAMPLES = TOP / "tools", TOP / "examples"


def ask(program, tool, words=(), given=b"", **how):
    """What a tool writes, its messages and its status. It asks the program that is tested."""
    ran = subprocess.run([TOOLS / tool, *words], input=given, stdout=subprocess.PIPE, stderr=subprocess.PIPE, timeout=SECONDS,
                         env={**os.environ, "GOOSE": shlex.join(program)}, **how)
    return ran.stdout, ran.stderr, ran.returncode


def module(name):
    """A module that the tools share."""
    if str(TOOLS) not in sys.path:
        sys.path.append(str(TOOLS))
    return importlib.import_module(name)


class Asked:
    """A run of a tool: its arguments, its input, and what must come of it."""

    def __init__(self, name, tool, words=(), stdin=b"", stdout=b"", status=0, stderr=()):
        self.name, self.tool, self.words, self.stdin = f"{tool}: {name}", tool, words, stdin
        self.stdout, self.status, self.stderr = stdout, status, stderr

    def why_wrong(self, program):
        wrote, complained, status = ask(program, self.tool, self.words, self.stdin)
        difference = first_difference(self.stdout, wrote)
        why = [difference] if difference else []
        why += [f"ended with status {status}, and not {self.status}: {clipped(complained)!r}"] if status != self.status else []
        why += [f"standard error lacks {part!r}: {clipped(complained)!r}" for part in self.stderr if part not in complained]
        return why + ([f"complained: {clipped(complained)!r}"] if complained and not self.stderr else [])
