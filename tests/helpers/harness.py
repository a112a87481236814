"""One run of the program, held against what it must write and how it must end."""
import array
import contextlib
import fcntl
import os
import pathlib
import struct
import subprocess
import termios
import threading
import time

from oracles import reference

SECONDS = 120


class Skipped(Exception):
    """A case cannot be run here, and why."""


def clipped(octets, most=400):
    """Octets as a text for a report."""
    text = octets.decode("latin-1")
    return text if len(text) <= most else f"{text[:most]} .. ({len(text)} octets)"


def first_difference(wanted, got):
    """Where two texts differ first, or None."""
    if wanted == got:
        return None
    wanted, got = wanted.split(b"\n"), got.split(b"\n")
    pairs = zip(wanted, got)
    at = next((i for i, (a, b) in enumerate(pairs) if a != b), min(len(wanted), len(got)))
    of = lambda lines: clipped(lines[at]) if at < len(lines) else "(no such line)"
    return f"output differs in line {at + 1}\n  wanted: {of(wanted)}\n  got:    {of(got)}"


def text(lines):
    """Lines, each ended by LF, as octets."""
    return "".join(f"{line}\n" for line in lines).encode("latin-1")


def run(program, words, given=b"", **how):
    """What the program writes, its messages and its status."""
    how.setdefault("stdout", subprocess.PIPE)
    how.setdefault("stderr", subprocess.PIPE)
    if "stdin" not in how:
        how["input"] = given
    done = subprocess.run([*program, *words], timeout=SECONDS, **how)
    return done.stdout, done.stderr or b"", done.returncode


def peak_memory(words, octets):
    """The most memory of a run over an open file, in kilobytes, as the system tells it while the program runs: unlike
    what it tells afterwards, that begins anew where the program does."""
    peak = 0
    started = subprocess.Popen(words, stdin=octets, stdout=subprocess.DEVNULL, stderr=subprocess.DEVNULL)
    while started.poll() is None:
        told = pathlib.Path(f"/proc/{started.pid}/status").read_text(encoding="ascii", errors="replace")
        peak = max([peak] + [int(line.split()[1]) for line in told.splitlines() if line.startswith("VmHWM")])
    return peak


def classic_pcap(frames):
    """A capture file of Ethernet frames, one a second."""
    header = struct.pack("<IHHiIII", 0xA1B2C3D4, 2, 4, 0, 0, 65535, 1)
    return header + b"".join(struct.pack("<IIII", at, 0, len(it), len(it)) + it for at, it in enumerate(frames))


# The entries of a replay that a block has, and the most blocks of which it is said one by one that no frame came.
OF_BLOCKS = {b"act", b"refreshed", b"repeated", b"old", b"refused", b"expired", b"switched"}
MOST_UNHEARD = 16


def never_seen(blocks, wrote):
    """What a replay of these BLOCKs that wrote this says of those of which no frame came."""
    entries = [line.split(b" ") for line in wrote.splitlines()]
    heard = {int(entry[2]) for entry in entries if len(entry) > 2 and entry[1] in OF_BLOCKS}
    told = [f"goose replay: block {at} was never seen: no frame has the APPID and the gocbRef of {block}"
            + ("" if "$" in block else ". Is it in single quotes? Otherwise a shell takes words like $GO out of it")
            for at, block in enumerate(it for it in blocks if it != "--") if at not in heard]
    more = [f"goose replay: {len(told) - MOST_UNHEARD} more were never seen"] if len(told) > MOST_UNHEARD else []
    return "".join(f"{line}\n" for line in told[:MOST_UNHEARD] + more).encode()


def why_told(command, wrote, complained, status, blocks=()):
    """What is wrong with the messages of a run that meets no failing device: at status 3 they begin with the command and the
    name in the last line of its text; else a replay tells of which of its blocks no frame came, and there is nothing else."""
    if status != 3:
        wanted = never_seen(blocks, wrote)
        return [f"standard error is {complained!r}, and not {wanted!r}"] if complained != wanted else []
    number, _, name = wrote.splitlines()[-1].lstrip(b"# ").split(b" ")[:3]
    wanted = b"goose %s: line %s: %s: " % (command.encode(), number, name)
    return [] if complained.startswith(wanted) else [f"standard error begins not with {wanted!r}: {complained!r}"]


class Case:
    """A command line, its input, and what must come of it. A stdout of None is not compared."""

    def __init__(self, name, words, stdin=b"", stdout=b"", status=0, stderr=()):
        self.name, self.words, self.stdin = name, words, stdin
        self.stdout, self.status, self.stderr = stdout, status, stderr

    def run(self, program):
        return run(program, self.words, self.stdin)

    def why_wrong(self, program):
        """What is wrong with a run, in words; nothing where all is well."""
        wrote, complained, status = self.run(program)
        why = []
        if self.stdout is not None:
            difference = first_difference(self.stdout, wrote)
            why += [difference] if difference else []
        if status != self.status:
            why += [f"ended with status {status}, and not {self.status}"]
        for part in self.stderr:
            if part not in complained:
                why += [f"standard error lacks {clipped(part)!r}: {clipped(complained)!r}"]
        return why


class Pieces(Case):
    """Standard input comes in pieces; where it waits, each one only when the program has taken the one before."""

    def __init__(self, name, words, pieces, stdout, waits=False):
        super().__init__(name, words, b"".join(pieces), stdout)
        self.pieces, self.waits = pieces, waits

    def run(self, program):
        pipes = {"stdin": subprocess.PIPE, "stdout": subprocess.PIPE, "stderr": subprocess.PIPE}
        started = subprocess.Popen([*program, *self.words], bufsize=0, **pipes)
        feeding = threading.Thread(target=self.feed, args=(started.stdin,))
        feeding.start()
        wrote, complained = started.stdout.read(), started.stderr.read()
        feeding.join()
        return wrote, complained, started.wait(timeout=SECONDS)

    def feed(self, pipe):
        with pipe:
            for piece in self.pieces:
                pipe.write(piece)
                until = time.monotonic() + SECONDS / 4
                while self.waits and untaken(pipe) and time.monotonic() < until:
                    time.sleep(0.0005)


def untaken(pipe):
    """How many octets in a pipe nobody has read yet."""
    count = array.array("i", [0])
    fcntl.ioctl(pipe, termios.FIONREAD, count)
    return count[0]


def cut(octets, size):
    """Octets in pieces of this size."""
    return [octets[at:at + size] for at in range(0, len(octets), size)]


class Agreement:
    """A list of which the program writes what the slow reader writes, and which it does not change twice."""

    def __init__(self, name, octets):
        self.name, self.octets = name, octets

    def why_wrong(self, program):
        why, texts = [], {}
        for command, answer in reference.COMMANDS.items():
            lines, wanted_status = answer(self.octets)
            wrote, _, status = run(program, [command], self.octets)
            difference = first_difference(text(lines), wrote)
            why += [f"{command}: {difference}"] if difference else []
            if status != wanted_status:
                why += [f"{command} ended with status {status}, and not {wanted_status}"]
            texts[command] = wrote
        written = texts["rewrite"]
        again, _, _ = run(program, ["rewrite"], written)
        if again != written and not written.split(b"\n")[-2:][0].startswith(b"# "):
            why += ["rewriting what was rewritten changes it"]
        return why


class WellFormed:
    """Each frame has one line, which shows a frame or a fault whose place is at most the frame's size."""

    def __init__(self, name, frames):
        self.name, self.frames = name, list(frames)

    def why_wrong(self, program):
        wrote, _, status = run(program, ["show"], listed(*self.frames))
        lines = wrote.decode("ascii").splitlines()
        if status or len(lines) != len(self.frames):
            return [f"{len(lines)} lines for {len(self.frames)} frames, status {status}"]
        return [f"a strange line: {line}" for number, line in enumerate(lines, 1) if not self.is_well(number, line)][:3]

    def is_well(self, number, line):
        words = line.split(" ")
        if words[:2] == [str(number), "fault"]:
            return len(words) == 4 and int(words[2]) <= len(self.frames[number - 1])
        return len(words) > 2 and words[0] == str(number) and words[1] in reference.APDUS_READ


class WrittenReadsBack:
    """What rewriting makes of each frame is shown as the frame itself was, and is not changed again; of the frames whose
    octets it wrote anew, none is noted as not written."""

    def __init__(self, name, frames):
        self.name, self.frames = name, list(frames)

    def why_wrong(self, program):
        octets = relisted(*self.frames)
        written, _, _ = run(program, ["rewrite"], octets)
        again, _, _ = run(program, ["rewrite"], written)
        shown, _, _ = run(program, ["show"], octets)
        reshown, _, _ = run(program, ["show"], written)
        pairs = {"rewriting twice": (written, again), "showing what was rewritten": (shown, reshown)}
        why = [f"{name}: {why}" for name, pair in pairs.items() for why in [first_difference(*pair)] if why]
        checked, _, _ = run(program, ["check"], written)
        before, after = octets.split(b"\n"), written.split(b"\n")
        noted = [int(line.split()[0]) - 1 for line in checked.splitlines() if line.endswith(b" not-written")]
        return why + [f"written, and noted: {clipped(after[at])}" for at in noted if before[at] != after[at]][:3]


def listed(*frames, moment=0):
    """A list that records these frames, at a moment in milliseconds."""
    return text(f"F {moment} {bytes(frame).hex()}" for frame in frames)


def relisted(*frames, moment=0):
    """The list that is written for these frames: version 2, at a moment in microseconds."""
    return b"V2\n" + listed(*frames, moment=moment)


def show(name, frame, line):
    """One frame, and the line that shows it, without its number."""
    return Case(name, ["show"], listed(frame), text([f"1 {line}"]))


def refuse(name, frame, place, cause):
    """One frame, and its first fault."""
    return show(name, frame, f"fault {place} {cause}")


def rewrite(name, frame, written):
    """One frame, and its written form."""
    return Case(name, ["rewrite"], listed(frame), relisted(written))


def keep(name, frame):
    """One frame whose own octets rewriting keeps, because it is faulty or its written form is too long."""
    return Case(name, ["rewrite"], listed(frame), relisted(frame), status=1)


def check(name, frame, *notes):
    """One frame, and what is to be noted of it."""
    return Case(name, ["check"], listed(frame), text(f"1 {note}" for note in notes), status=1 if notes else 0)


def end_list(name, octets, before, fault):
    """A list that ends by a fault, with the shown lines before it."""
    return Case(name, ["show"], octets, text([*before, fault]), status=3)


def folder(path):
    """A case that is kept as a folder of files args, stdin, stdout, stderr and status."""
    octets = lambda name: (path / name).read_bytes() if (path / name).is_file() else b""
    words = octets("args").decode().splitlines()
    parts = [line for line in octets("stderr").splitlines() if line]
    status = int(octets("status") or b"0")
    return Case(path.name, words, octets("stdin"), octets("stdout"), status, parts)


@contextlib.contextmanager
def descriptor(path, flags=os.O_RDONLY):
    """An open file or folder, by its number, which is closed behind its block."""
    number = os.open(path, flags)
    try:
        yield number
    finally:
        os.close(number)
