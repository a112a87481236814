"""What goose says of one capture: its lines as they come, its messages, and where the capture breaks off."""
import contextlib
import fcntl
import itertools
import os
import re
import select
import subprocess
import tempfile

import output
from reporting.progress import EVERY
from running import PIECE, Ended, goose, say, version

OPTIONS = ("--capture", "--json", "--skip-other", "--unwrap")
# The operation of fcntl that sets how much a pipe holds (Linux, F_SETPIPE_SZ): Python has its name from 3.10 on.
PIPE_SIZE = 1031
NUMBER = re.compile(rb'\{"packet":(\d+)')
PASSED = re.compile(r"(\d+) of (.+), from (\d+) on")


class Broken:
    """Where a capture breaks off: the packet that would have come next, the name of the error, and what goose says of it."""

    def __init__(self, packet, error, sentence):
        self.packet, self.error, self.sentence = packet, error, sentence


class Asked:
    """The runs of goose over a capture, in order."""

    def __init__(self, path, progress, given):
        self.path, self.progress, self.given, self.goose = path, progress, given, goose()
        self.commands, self.messages, self.broken, self.packets = [], [], None, None

    def version(self):
        return version(self.goose)

    def lines(self, what, command, *words):
        """The lines of a command, as octets. What is being done is told to a terminal meanwhile."""
        return itertools.chain.from_iterable(self.parts(what, command, *words))

    def parts(self, what, command, *words):
        """The lines of a command, as many at once as a piece of its output has."""
        for octets in self.pieces(what, command, *words):
            lines = octets.split(b"\n")
            del octets
            lines.pop()
            yield lines
            del lines

    def pieces(self, what, command, *words):
        """The lines of a command with their ends, as many at once as a piece of its output has."""
        asked = [command, *OPTIONS, *words]
        self.commands.append(asked)
        with open(self.path, "rb") as given, tempfile.TemporaryFile() as said:
            ran = subprocess.Popen([*self.goose, *asked], stdin=given, stdout=subprocess.PIPE, stderr=said)
            try:
                last = yield from self.whole(what, ran.stdout, given)
            except BaseException:
                ran.kill()
                raise
            finally:
                ran.stdout.close()
                ran.wait()
            said.seek(0)
            self.end(command, ran.returncode, last, said.read().decode("utf-8", "replace"))

    def whole(self, what, pipe, given):
        """The whole lines of each piece of a pipe, and the last line."""
        rest, last, size = b"", b"", max(os.fstat(given.fileno()).st_size, 1)
        with contextlib.suppress(OSError):
            fcntl.fcntl(pipe, PIPE_SIZE, 16 * PIECE)
        while piece := self.piece(what, pipe, given, last, size):
            end = piece.rfind(b"\n") + 1
            if end:
                octets, rest = b"".join((rest, memoryview(piece)[:end])), piece[end:]
                last = octets[octets.rfind(b"\n", 0, -1) + 1:-1]
                # No piece is held while its lines are looked at, nor its lines while the next one is read.
                del piece
                yield octets
                del octets
            else:
                rest += piece
        if rest:
            yield rest + b"\n"
        return rest or last

    def piece(self, what, pipe, given, last, size):
        """The next octets of a pipe; while none come, time goes on on the terminal."""
        while self.progress.shows:
            number = NUMBER.match(last) if self.packets is None else None
            done = int(number[1]) if number else (self.packets or 0) * os.lseek(given.fileno(), 0, os.SEEK_CUR) // size
            self.progress.tell(what, done, self.packets)
            if select.select([pipe], [], [], EVERY)[0]:
                break
        return os.read(pipe.fileno(), 8 * PIECE)

    def end(self, command, status, last, said):
        """A run that has ended: with an error of the capture, or without one."""
        lines = said.splitlines()
        self.messages += lines
        if status == 3:
            self.breaks(command, output.of_object(last.decode("latin-1")) or {}, lines)
        elif status not in (0, 1):
            self.progress.clear()
            for line in lines:
                say(line)
            raise Ended(f"goose {command} ended with status {status}", status if status > 0 else 4)

    def breaks(self, command, record, lines):
        """A capture that breaks off. One that does so before its first packet is none."""
        if record.get("kind") != "capture":
            raise Ended(f"goose {command} ended with an error: {' '.join(lines)}")
        name = record["error"]
        told = next((line.partition(f"{name}: ")[2] for line in lines if f"{name}: " in line), "")
        if record["packet"] == 0:
            raise Ended(f"{self.given} is no capture that can be read: {name}: {told}", more=lines[1:])
        self.broken = Broken(record["packet"], name, told)

    def passed_over(self):
        """The frames of other protocols: how many of which, and the first packet."""
        told = next((line.partition("passed over: ")[2] for line in self.messages if "passed over: " in line), "")
        found = [PASSED.fullmatch(part) for part in told.split("; ")]
        return [(int(it[1]), it[2], int(it[3])) for it in found if it]
