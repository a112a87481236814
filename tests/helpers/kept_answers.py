"""A stand-in for the program, which tells again what that told of a capture: so the time and the memory of a tool over it are its own."""
import json
import os
import pathlib
import shlex
import subprocess
import time

from helpers.asked_tools import TOOLS
from helpers.harness import SECONDS, run

OPTIONS = ["--capture", "--json", "--skip-other"]
# Of so many lines one is read.
READ = 10


class Answers:
    """What the program tells of a capture under some commands, in a folder in which the stand-in and the capture are."""

    def __init__(self, program, folder, octets, commands):
        self.folder, self.script = folder, folder / "goose"
        (folder / "of.pcapng").write_bytes(octets)
        for command in commands:
            (folder / command).write_bytes(run(program, [command, *OPTIONS], octets)[0])
        number, _, _ = run(program, ["--version"])
        self.script.write_text(f'#!/bin/sh\ncase $1 in --version) echo {shlex.quote(number.decode().strip())};; *) exec cat "{folder}/$1";; esac\n')
        self.script.chmod(0o755)
        with open(folder / "show", "rb") as shown:
            self.some = [line for at, line in enumerate(shown) if at % READ == 0]

    def reading(self):
        """The processor time of reading all lines of goose show as JSON, by that of some."""
        before = time.process_time()
        for line in self.some:
            json.loads(line)
        return (time.process_time() - before) * READ

    def measured(self, tool, *words):
        """The processor time of a run of a tool, its peak of memory in kilobytes, and its status."""
        started = subprocess.Popen([TOOLS / tool, *words], cwd=self.folder, stdin=subprocess.DEVNULL, stdout=subprocess.DEVNULL, stderr=subprocess.DEVNULL,
                                   env={**os.environ, "GOOSE": f"{self.script}"})
        peak, ended, until = 0, (0, 0, None), time.monotonic() + SECONDS
        while not ended[0] and time.monotonic() < until:
            told = pathlib.Path(f"/proc/{started.pid}/status").read_text(encoding="ascii", errors="replace")
            peak = max([peak] + [int(line.split()[1]) for line in told.splitlines() if line.startswith("VmHWM")])
            time.sleep(0.01)
            ended = os.wait4(started.pid, os.WNOHANG)
        if not ended[0]:
            started.kill()
            raise AssertionError(f"{tool} takes over {SECONDS} s")
        started.returncode = os.waitstatus_to_exitcode(ended[1])
        return ended[2].ru_utime + ended[2].ru_stime, peak, started.returncode

    def why_slow(self, most, words, few, runs=6):
        """Why a tool takes more than so many times what reading its lines takes, beside what few packets take; of some runs the least tells."""
        owns, starts, readings = [], [], []
        for _ in range(runs):
            readings.append(self.reading())
            owns.append(self.measured(*words)[0])
            starts.append(few.measured(*words)[0])
            if min(owns) - min(starts) <= most * min(readings):
                return []
        return [f"it takes {min(owns) - min(starts):.2f} s, and reading its lines as JSON {min(readings):.2f} s"]
