"""Output is handed on before a read that may wait: each command writes what a line says before the next one comes. Readers
that go away and disks that are full are noticed by then, and input from a file is read in large blocks."""
import contextlib
import os
import select
import subprocess
import tempfile

from helpers.capture_parts import header, record
from helpers.frames import SAMPLED, WORKED, WORKED_LINE, put
from helpers.harness import SECONDS, Skipped, descriptor, listed, text
from themes.devices import CHANGE, SCRIPT, WORDS, words

# How long a text may take that should be there at once, and how long nothing more may come behind it.
SOON, QUIET = SECONDS / 4, 0.02
BLOCK = 65536
FRAME = f"F 0 {WORKED.hex()}\n".encode()
# The same of another control block.
OTHER = f"F 0 {bytes(put(WORKED, at15=2)).hex()}\n".encode()


def started(program, asked, stdout=subprocess.PIPE):
    """A run whose input is a pipe that stays open."""
    return subprocess.Popen([*program, *asked], bufsize=0, stdin=subprocess.PIPE, stdout=stdout, stderr=subprocess.PIPE)


def come(pipe, wanted):
    """What comes from a pipe, up to this many octets, and a little longer."""
    got = b""
    while select.select([pipe], [], [], QUIET if len(got) >= wanted else SOON)[0]:
        some = os.read(pipe.fileno(), BLOCK)
        got += some
        if not some:
            break
    return got


class InTurn:
    """Pieces of input, of which each is sent once the text of the one before has come, and comes alone; and what comes at the end."""

    def __init__(self, name, asked, turns, status=0, end=b""):
        self.name, self.asked, self.turns, self.status, self.end = name, asked, turns, status, end

    def why_wrong(self, program):
        run = started(program, self.asked)
        why = []
        with run.stdout, run.stdin, run.stderr:
            for number, (piece, wanted) in enumerate(self.turns):
                run.stdin.write(piece)
                got = come(run.stdout, len(wanted)) if wanted else b""
                if got != wanted:
                    why += [f"piece {number}, {piece[:40]!r}: {got!r} came, and not {wanted!r}"]
                    break
            run.stdin.close()
            rest = run.stdout.read()
            status = run.wait(timeout=SECONDS)
        why += [f"{rest!r} came at the end, and not {self.end!r}"] if rest != self.end and not why else []
        return why + ([] if status == self.status or why else [f"ended with status {status}"])


def in_turn():
    """One line in, its line out, for each command; records one by one; and the same octet by octet."""
    act, again = b" act 0 st=1 sq=0 t=0000000000000000 {true}\n", b" repeated 0 st=1 sq=0\n"
    frame, sampled = text([f"F 0 {WORKED.hex()}"]), listed(SAMPLED)
    turns = {
        "show": [(FRAME, text([f"1 {WORKED_LINE}"])), (b"C 7\n", b"2 clock 7000\n"), (b"# none\nM 8 on\n", b"4 mode 8000 on\n"), (b"C 9", b"")],
        "check": [(b"F 0 01\n", b"1 fault 1 Truncated\n"), (FRAME + b"F 0 02\n", b"3 fault 1 Truncated\n")],
        "rewrite": [(b"", b"V2\n"), (FRAME, frame), (b"C 7\n", b"C 7000\n")],
        "blocks": [(FRAME, b"1 block 0001,G,D,,1,1\n"), (FRAME + OTHER, b"3 block 0002,G,D,,1,1\n")],
        "replay": [(FRAME, b"1" + act), (FRAME, b"2" + again), (b"C 2000\n", b"3 expired 0\n")],
        "watch": [(sampled, b"1 0 3998 first\n"), (sampled, b"2 0 3998 same\n")],
        "publish": [(b"", b"V2\n"), (SCRIPT.replace(b"step,4,1000", b"step,10,2000") + CHANGE, frame), (b"poll,1\n" + b"change,5,0000000000000000,8301ff\n", None)],
        "import": [(b"", b"V2\n"), (header() + record(1, 2, WORKED), b"F 1000002 " + frame[4:]),
                   (record(3, 4, b""), b"# record 2 of 0 octets left out\n")],
    }
    state_2 = bytearray(WORKED)
    state_2[46] = 2
    turns["publish"][2] = (turns["publish"][2][0], f"F 5000 {bytes(state_2).hex()}\n".encode())
    statuses = {"check": 1, "watch": 1, "import": 1}
    for command, pieces in turns.items():
        # What stands behind the last LF gives its line at the end alone.
        whole = [it for it in pieces if it[0] != b"C 9"]
        yield InTurn(f"{command}: each line is answered before the next", words(command), whole, statuses.get(command, 0))
        yield InTurn(f"{command}: the same, octet by octet", words(command), list(octets(whole)), statuses.get(command, 0))


def octets(turns):
    """The same octet by octet: the text of a piece comes at its last octet."""
    for piece, wanted in turns:
        yield from ((piece[at:at + 1], b"") for at in range(len(piece) - 1))
        yield piece[-1:], wanted


class GoesAway:
    """The reader of the output goes away while the input is open: the next line's text ends the run, and nothing is said of it."""

    def __init__(self, name, asked, first, second):
        self.name, self.asked, self.first, self.second = name, asked, first, second

    def why_wrong(self, program):
        run = started(program, self.asked)
        with run.stdin, run.stderr:
            run.stdin.write(self.first)
            came = come(run.stdout, 1)
            run.stdout.close()
            run.stdin.write(self.second)
            status, complained = run.wait(timeout=SECONDS), run.stderr.read()
        why = [] if came else ["nothing came"]
        return why + ([] if (status, complained) == (4, b"") else [f"ended so: {status}, {complained!r}"])


class FullAtOnce:
    """Standard output is a disk that is full, and the input stays open: that is noticed before the next read."""

    def __init__(self, name, asked, piece):
        self.name, self.asked, self.piece = f"{name}: a full disk is noticed while the input waits", asked, piece

    def why_wrong(self, program):
        with descriptor("/dev/full", os.O_WRONLY) as stdout:
            run = started(program, self.asked, stdout)
        with run.stdin, run.stderr:
            # A command that writes before it reads has ended by then.
            with contextlib.suppress(BrokenPipeError):
                run.stdin.write(self.piece)
            status, complained = run.wait(timeout=SECONDS), run.stderr.read()
        return [] if (status, complained) == (4, b"read or write fault: cannot write: No space left on device\n") else [f"ended so: {status}, {complained!r}"]


def reads_so_far():
    """How often this process and the runs that have ended asked the system to read, where the system counts that."""
    try:
        with open("/proc/self/io", encoding="ascii") as told:
            return next(int(line.split()[1]) for line in told if line.startswith("syscr:"))
    except (OSError, StopIteration):
        raise Skipped("the system does not count the reads of a process") from None


class InBlocks:
    """A file is read in blocks of 64 KiB: so many reads more than of an empty one, and the read of its end."""

    def __init__(self, name, asked, unit, head=b""):
        self.name, self.asked = f"{name} reads a file in blocks", asked
        self.octets = head + unit * (16 * BLOCK // len(unit))

    def reads(self, program, octets):
        with tempfile.TemporaryFile() as stdin:
            stdin.write(octets)
            stdin.seek(0)
            before = reads_so_far()
            subprocess.run([*program, *self.asked], stdin=stdin, stdout=subprocess.DEVNULL, stderr=subprocess.DEVNULL, check=False)
            return reads_so_far() - before

    def why_wrong(self, program):
        more = self.reads(program, self.octets) - self.reads(program, b"")
        most = len(self.octets) // BLOCK + 1
        return [] if more <= most else [f"{more} reads more than of an empty file, and not at most {most}"]


def cases():
    yield from in_turn()
    inputs = {"blocks": (FRAME, OTHER), "publish": (SCRIPT + CHANGE, CHANGE), "import": (header() + record(1, 2, b"\1"), record(3, 4, b"\1"))}
    for command in ["show", "check", "rewrite", "blocks", *WORDS, "publish", "import"]:
        first, second = inputs.get(command, (b"F 0 01\n", b"F 0 02\n"))
        yield GoesAway(f"{command}: a reader that goes away", words(command), first, second)
        yield FullAtOnce(command, words(command), first)
    for command in ("show", "check", "rewrite", "blocks", *WORDS):
        yield InBlocks(command, words(command), FRAME)
    yield InBlocks("publish", ["publish"], CHANGE, SCRIPT)
    yield InBlocks("import", ["import"], record(1, 2, WORKED), header())
