"""A list is answered while it is read: text comes before the input ends, and memory does not grow with the list. Where the
system refuses memory, that is said."""
import pathlib
import resource
import subprocess
import tempfile
import threading

from helpers.capture_parts import header, record
from helpers.frames import SAMPLED, WORKED, WORKED_LINE, put
from helpers.harness import SECONDS, Skipped, first_difference, listed, peak_memory, run, text
from themes.devices import CHANGE, SCRIPT

FRAMES = 4000
SEEN_FIRST = 65536
GROWTH = 4096  # kilobytes
MOST = 8192  # kilobytes


class ComesEarly:
    """The text of the first events comes while the input is still open."""

    name = "text comes before the input ends"

    def why_wrong(self, program):
        pipes = {"stdin": subprocess.PIPE, "stdout": subprocess.PIPE, "stderr": subprocess.DEVNULL}
        started = subprocess.Popen([*program, "show"], bufsize=0, **pipes)
        seen = threading.Event()

        def feed():
            with started.stdin as into:
                rest = memoryview(listed(*[WORKED] * FRAMES))
                while rest:
                    rest = rest[into.write(rest):]
                seen.wait(SECONDS)

        feeding = threading.Thread(target=feed)
        waiting = threading.Timer(SECONDS / 4, seen.set)
        feeding.start()
        waiting.start()
        wrote = b""
        while len(wrote) < SEEN_FIRST:
            some = started.stdout.read(SEEN_FIRST)
            if not some:
                break
            wrote += some
        came_early = not seen.is_set()
        waiting.cancel()
        seen.set()
        wrote += started.stdout.read()
        feeding.join()
        status = started.wait(timeout=SECONDS)
        difference = first_difference(text(f"{n} {WORKED_LINE}" for n in range(1, FRAMES + 1)), wrote)
        why = [] if came_early else ["nothing came before the input ended"]
        return why + ([difference] if difference else []) + ([] if status == 0 else [f"ended with status {status}"])


class DoesNotGrow:
    """A long input takes no more memory than a short one, and at most so much, in kilobytes: a head, and then the same octets again
    and again."""

    def __init__(self, name, words, unit, head=b"", most=MOST):
        self.name, self.words, self.unit, self.head, self.most = f"{name} is not held", words, unit, head, most

    def peak(self, program, count):
        """The most memory of a run over so many units, in kilobytes."""
        with tempfile.TemporaryFile() as octets:
            octets.write(self.head)
            for _ in range(count // 1000):
                octets.write(self.unit * 1000)
            octets.seek(0)
            return peak_memory([*program, *self.words], octets)

    def why_wrong(self, program):
        short, long = self.peak(program, 1000), self.peak(program, 100000)
        why = [f"{short} kB for a short list, {long} kB for a long one"] if long > short + GROWTH else []
        return why + ([f"{long} kB, and not at most {self.most}"] if long > self.most else [])


class WantsMemory:
    """Where memory is refused, the whole lines of a prefix of the text stand written, and the status is 5."""

    PAGE = 4096
    AMPLE = 64 * 2**20

    def __init__(self, words, octets, name=None):
        self.name, self.words, self.octets = f"{name or words[0]} wants memory", words, octets

    def limited(self, program, most):
        """A run in so much memory."""
        how = {"preexec_fn": lambda: resource.setrlimit(resource.RLIMIT_AS, (most, most))}
        return run(program, self.words, self.octets, **how)

    def least(self, program, status):
        """About the least memory in which the program ends as it does in ample memory."""
        low, high = 0, self.AMPLE
        while high - low > self.PAGE:
            middle = (low + high) // 2 // self.PAGE * self.PAGE
            low, high = (low, middle) if self.limited(program, middle)[2] == status else (middle, high)
        return high

    def why_wrong(self, program):
        whole, _, status = self.limited(program, self.AMPLE)
        least, why, refused = self.least(program, status), [], 0
        for pages in range(1, 200):
            wrote, complained, got = self.limited(program, least - pages * self.PAGE)
            if got == 5:
                refused += 1
                why += [] if complained == b"out of memory\n" else [f"says {complained!r}"]
                is_front = whole.startswith(wrote) and wrote[-1:] in (b"", b"\n")
                why += [] if is_front else [f"wrote {wrote[-80:]!r}"]
            elif got != status:
                # The system could not even load the program.
                break
        return why[:3] or ([] if refused else ["no limit of memory gives status 5"])


class AsksForLittle:
    """For a small packet a command asks the system for hardly more memory than `import`, which keeps no record: a packet may have
    262,144 octets, and room for so many is not asked for before they come."""

    MORE = 160  # kilobytes

    def __init__(self, asked):
        self.name, self.asked = f"memory for a small packet under {asked[0]}", asked

    def asked_for(self, program, asked, lines):
        """The most memory that was asked for when so many lines stand written, in kilobytes."""
        pipes = {"stdin": subprocess.PIPE, "stdout": subprocess.PIPE, "stderr": subprocess.DEVNULL}
        started = subprocess.Popen([*program, *asked], bufsize=0, **pipes)
        with started.stdout, started.stdin:
            started.stdin.write(header() + record(1, 2, WORKED) * 4)
            for octet in iter(lambda: started.stdout.read(1), b""):
                lines -= octet == b"\n"
                if not lines:
                    break
            told = pathlib.Path(f"/proc/{started.pid}/status").read_text(encoding="ascii", errors="replace")
        started.wait(timeout=SECONDS)
        return next((int(line.split()[1]) for line in told.splitlines() if line.startswith("VmPeak")), None)

    def why_wrong(self, program):
        least = self.asked_for(program, ["import"], 5)
        if least is None:
            raise Skipped("the system does not tell how much memory was asked for")
        most = self.asked_for(program, self.asked, 4)
        return [] if most <= least + self.MORE else [f"{most} kilobytes, and under import {least}"]


def cases():
    replay, watch = ["replay", "0001,G,D,,1,1"], ["watch", "--period", "4000", "--id", "S"]
    frames = listed(b"\1", WORKED) + b"X"
    yield ComesEarly()
    for words in (["show"], ["check"], ["rewrite"], ["blocks"], replay):
        yield DoesNotGrow(f"a list under {words[0]}", words, listed(WORKED))
        yield WantsMemory(words, frames)
    yield DoesNotGrow("a list of notes", ["check"], listed(put(WORKED, at3=4, at66=1)))
    yield DoesNotGrow("a list of faults under replay", replay, listed(b"\1"))
    yield DoesNotGrow("a list of samples", watch, listed(SAMPLED))
    yield WantsMemory(watch, listed(b"\1", SAMPLED) + b"X")
    yield DoesNotGrow("a script", ["publish"], CHANGE + b"poll,4\n", SCRIPT)
    yield WantsMemory(["publish"], SCRIPT + CHANGE * 3 + b"X")
    yield DoesNotGrow("a capture", ["import"], record(1, 2, WORKED), header())
    yield DoesNotGrow("a capture of records that are left out", ["import"], record(1, 2, bytes(2001)), header())
    for words in (["show", "--capture"], ["replay", "--capture", *replay[1:]]):
        yield AsksForLittle(words)
    yield WantsMemory(["import"], header() + record(1, 2, WORKED) + b"X")
