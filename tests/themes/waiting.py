"""Streams that do not block: whoever made a pipe may have set it so, and "not yet" of the system is no fault. The program waits for a
slow reader and a slow writer, and writes what it writes otherwise."""
import contextlib
import fcntl
import os
import subprocess
import tempfile
import threading
import time

from helpers.capture_parts import header, record
from helpers.captured import capturing
from helpers.frames import SAMPLED, WORKED, put
from helpers.harness import SECONDS, first_difference, listed, run, untaken
from themes.devices import CHANGE, SCRIPT, words

# The least that a pipe holds; how long the program surely waits for its partner, and how long this one looks at a pipe.
PAGE, WAITED, LOOK = 4096, 0.03, 0.2
FRAMES = listed(WORKED, put(WORKED, at66=1), SAMPLED) * 60
INPUTS = {
    "show": (["show"], FRAMES), "check": (["check"], b"F 0 01\n" * 300), "rewrite": (["rewrite"], FRAMES), "replay": (words("replay"), FRAMES * 4),
    "a list with an error": (["show"], FRAMES + b"X\n"), "publish": (["publish"], SCRIPT + CHANGE * 60),
    "import": (["import"], header() + record(1, 2, WORKED) * 100), "a capture": (capturing("show"), header() + record(1, 2, WORKED) * 60),
}


def small_pipe():
    """Both ends of a pipe that holds one page."""
    read, write = os.pipe()
    fcntl.fcntl(write, fcntl.F_SETPIPE_SZ, PAGE)
    return os.fdopen(read, "rb", buffering=0), os.fdopen(write, "wb", buffering=0)


def wait_until(is_so):
    """Waits for a little while until something is so."""
    until = time.monotonic() + LOOK
    while not is_so() and time.monotonic() < until:
        time.sleep(0.001)


def drained(pipe, ended):
    """What comes from a pipe of which each page is read only when it is full, or the program has ended."""
    octets, pages = b"", 0
    while True:
        wait_until(lambda: untaken(pipe) == PAGE or ended())
        time.sleep(WAITED if pages < 3 else 0)
        some = pipe.read(PAGE)
        octets, pages = octets + some, pages + 1
        if not some:
            return octets


class SlowReader:
    """Standard output does not block, and its reader is slow: all comes, and the run ends as it does otherwise."""

    def __init__(self, name, asked, octets):
        self.name, self.asked, self.octets = f"a slow reader: {name}", asked, octets

    def why_wrong(self, program):
        wanted, said, wanted_status = run(program, self.asked, self.octets)
        read, write = small_pipe()
        os.set_blocking(write.fileno(), False)
        with read, tempfile.TemporaryFile() as stdin:
            stdin.write(self.octets)
            stdin.seek(0)
            started = subprocess.Popen([*program, *self.asked], stdin=stdin, stdout=write, stderr=subprocess.PIPE)
            write.close()
            wrote = drained(read, lambda: started.poll() is not None)
            with started.stderr:
                complained, status = started.stderr.read(), started.wait(timeout=SECONDS)
        difference = first_difference(wanted, wrote)
        why = [difference] if difference else []
        return why + ([] if (complained, status) == (said, wanted_status) else [f"ended with status {status}, and said {complained!r}"])


class SlowWriter:
    """Standard input does not block, and its writer is slow: each piece is waited for, and the end."""

    def __init__(self, name, asked, octets):
        self.name, self.asked, self.octets = f"a slow writer: {name}", asked, octets

    def feed(self, write):
        """Writes pieces, the first ones with long waits between."""
        with write, contextlib.suppress(BrokenPipeError):
            for at in range(0, len(self.octets), PAGE):
                time.sleep(WAITED if at < 3 * PAGE else 0)
                write.write(self.octets[at:at + PAGE])
                wait_until(lambda: not untaken(write))
            time.sleep(WAITED)

    def why_wrong(self, program):
        wanted = run(program, self.asked, self.octets)
        read, write = small_pipe()
        os.set_blocking(read.fileno(), False)
        feeding = threading.Thread(target=self.feed, args=(write,))
        feeding.start()
        with read:
            got = run(program, self.asked, stdin=read)
        feeding.join()
        difference = first_difference(wanted[0], got[0])
        return ([difference] if difference else []) + ([] if got[1:] == wanted[1:] else [f"status {got[2]}, said {got[1]!r}"])


class FullConsole:
    """A stream for texts to a person does not block, and is full when the program speaks: its whole text comes later."""

    def __init__(self, name, asked, octets, stream="stderr"):
        self.name, self.asked, self.octets, self.stream = f"a full {stream}: {name}", asked, octets, stream

    def why_wrong(self, program):
        wrote, said, wanted_status = run(program, self.asked, self.octets)
        wanted = said if self.stream == "stderr" else wrote
        read, write = small_pipe()
        write.write(b"x" * PAGE)
        os.set_blocking(write.fileno(), False)
        with read:
            streams = {"stdin": subprocess.PIPE, "stdout": subprocess.DEVNULL, "stderr": subprocess.DEVNULL, self.stream: write}
            started = subprocess.Popen([*program, *self.asked], **streams)
            write.close()
            with started.stdin as pipe:
                pipe.write(self.octets)
            time.sleep(2 * WAITED)
            got = read.read(PAGE)
            for some in iter(lambda: read.read(PAGE), b""):
                got += some
            status = started.wait(timeout=SECONDS)
        why = [] if got == b"x" * PAGE + wanted else [f"{got.lstrip(b'x')!r} came, and not {wanted!r}"]
        return why + ([] if wanted and status == wanted_status else [f"ended with status {status}, and not {wanted_status}"])


def cases():
    for name, (asked, octets) in INPUTS.items():
        yield SlowReader(name, asked, octets)
        yield SlowWriter(name, asked, octets)
    yield FullConsole("an error of the input", ["show"], b"X\n")
    yield FullConsole("frames that were passed over, and an error", ["show", "--skip-other"], listed(WORKED[:12] + b"\x08\x06" + bytes(46)) + b"X\n")
    yield FullConsole("a block of which no frame came", ["replay", "0002,G,D,,1,1"], b"")
    yield FullConsole("a rejected argument", ["show", "--nothing"], b"")
    yield FullConsole("a text that is no block", ["replay", "1"], b"")
    yield FullConsole("help", ["--help"], b"", "stdout")
