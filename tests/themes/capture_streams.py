"""Captures that come slowly, fail or are very long, under the commands that read them: each packet is answered when its record or block
is whole; reading fails after each octet, and writing too; memory is refused, and no more is taken of a longer capture."""
import os
import resource
import signal
import subprocess
import tempfile
import threading
import time

from helpers.capture_parts import custom, header, interface, names, packet, record, section
from helpers.captured import ASKED, capturing, in_turn, why_differs
from helpers.frames import SAMPLED, WORKED, put
from helpers.harness import SECONDS, first_difference, run, text
from oracles import reading
from themes.captures import ARP, FORMS
from themes.devices import FAULT, Directory, FailsAfter, Full, TriedOnce, Unread
from themes.live import FullAtOnce, GoesAway, InBlocks, InTurn, octets
from themes.replaying import state
from themes.streaming import DoesNotGrow, WantsMemory

MOST = 3072  # kilobytes
MANY = 2_500_000
START = section() + interface()


# ---- Live --------------------------------------------------------------------


def pieces_of(form):
    """A capture, cut behind its start and behind each record or block."""
    frames = [WORKED, ARP, state(1, 0), b"", SAMPLED, put(WORKED, at15=2), WORKED[:30], state(2, 0)]
    if form == "classic":
        return [header("big"), *[record(at, 5, frame, "big") for at, frame in enumerate(frames)]]
    made = [packet(at * 10**6, frame) for at, frame in enumerate(frames)]
    return [section(), interface(), *made[:3], names(), custom(size=200), *made[3:6], section(), interface(), *made[6:]]


def live():
    for command in ASKED:
        for form in ("classic", "pcapng"):
            turns, *how = in_turn(capturing(command), pieces_of(form))
            yield InTurn(f"{command}, {form}: each packet is answered before the next", capturing(command), turns, *how)
            yield InTurn(f"{command}, {form}: the same, octet by octet", capturing(command), list(octets(turns)), *how)
    act, again = b"1 act 0 st=1 sq=0 t=0000000000000000 {true}\n", b"2 repeated 0 st=1 sq=0\n"
    other, frame = custom(size=2000), packet(1, WORKED)
    replay = capturing("replay")
    yield InTurn("a packet before half a block of another type", replay, [(START + frame + other[:999], act), (other[999:] + frame, again)])
    yield InTurn("a packet before half a packet", replay, [(START + frame + frame[:60], act), (frame[60:], again)])
    yield InTurn("a packet before the start of a section", replay, [(START + frame + START[:9], act), (START[9:] + frame, again)])
    yield InTurn("a length over the limit ends the capture at once", replay, [
        (START + frame + bytes.fromhex("06000000 04000001"), act + b"2 capture BlockLength\n")], 3)
    yield InTurn("a record over the limit ends the capture at once", replay, [
        (header() + record(1, 2, WORKED) + record(1, 2, b"", captured=262145), act + b"2 capture RecordLength\n")], 3)


# ---- Reading and writing that fail -------------------------------------------


class FailsAtEach:
    """Reading a short capture fails after each of its octets."""

    def __init__(self, form, made, *options):
        self.name, self.made, self.options = f"{' '.join([form, *options])}: reading fails after each octet", made, options

    def why_wrong(self, program):
        whole, why, commands = self.made(), [], list(ASKED)
        for size in range(len(whole) + 1):
            asked = capturing(commands[size % len(commands)], *self.options)
            lines, status, _ = reading.answered(asked, whole[:size], has_failed=True)
            written = reading.written(asked, lines, whole[:size], has_failed=True)
            got = FailsAfter("", asked, whole[:size]).run(program)
            why += [f"after {size} octets: {it}" for it in why_differs(asked, (lines, status), got, written=written)]
        return why[:5]


class WritesAtMost:
    """What a command writes of a short capture fits the place for it up to each octet: then the octets before stand written, and the
    status is 4."""

    def __init__(self, command, form, made, *options):
        self.name, self.asked = f"{' '.join([command, *options])}, {form}: writing fails after each octet", capturing(command, *options)
        self.made = made

    def limited(self, program, whole, most):
        """A run that writes into a file of at most so many octets: what is in the file then, the messages and the status."""
        def limit():
            signal.signal(signal.SIGXFSZ, signal.SIG_IGN)
            resource.setrlimit(resource.RLIMIT_FSIZE, (most, most))
        with tempfile.TemporaryFile() as stdout:
            _, complained, status = run(program, self.asked, whole, stdout=stdout, preexec_fn=limit, restore_signals=False)
            stdout.seek(0)
            return stdout.read(), complained, status

    def why_wrong(self, program):
        whole, why = self.made(), []
        lines, wanted, _ = reading.answered(self.asked, whole)
        wrote = text(reading.written(self.asked, lines, whole))
        for most in range(len(wrote) + 1):
            got, complained, status = self.limited(program, whole, most)
            is_whole = most == len(wrote)
            why += [] if got == wrote[:most] else [f"in {most} octets: {first_difference(wrote[:most], got)}"]
            why += [] if status == (wanted if is_whole else 4) else [f"in {most} octets it ended with status {status}"]
            is_told = is_whole or complained.startswith(b"read or write fault: cannot write: ")
            why += [] if is_told else [f"in {most} octets it said {complained!r}"]
        return why[:5]


def failing():
    for form, made in FORMS.items():
        yield FailsAtEach(form, made)
        for command in ASKED:
            if "little" in form:
                yield WritesAtMost(command, form, made)
    faulty = START + packet(1, WORKED[:30]) + packet(2, WORKED) + packet(3, SAMPLED)
    for command in ASKED:
        asked, long = capturing(command), START + b"".join(packet(1, put(WORKED[:66], at15=at % 256, at14=at // 256)) for at in range(9000))
        name = f"{command} --capture"
        yield Directory(f"{name} of a directory is a read fault", asked, b"", b"0 capture ReadFailed\n", 4, FAULT)
        yield Full(f"{name} on a full disk", asked, faulty, None, 4, FAULT)
        yield Full(f"{name} of a fault on a full disk", asked, b"abcd", None, 4, FAULT)
        yield Full(f"{name} of nothing on a full disk", asked, START, None)
        yield Unread(f"{name} to nobody", asked, faulty)
        yield TriedOnce(f"{name} tries no failed write again", asked, faulty)
        if command not in ("blocks", "losses"):
            yield Full(f"{name} of a long capture on a full disk", asked, long, None, 4, FAULT)
        yield GoesAway(f"{name}: a reader that goes away", asked, *going_away(command))
        yield FullAtOnce(name, asked, going_away(command)[0])
        yield InBlocks(f"{name}, pcapng,", asked, packet(1, WORKED), START)
        yield InBlocks(f"{name}, classic,", asked, record(1, 2, WORKED), header())


def going_away(command):
    """A capture's start that gives a line, and what gives another."""
    if command == "blocks":
        return START + packet(1, WORKED), packet(2, put(WORKED, at15=2))
    if command == "losses":
        return START + packet(1, WORKED) + packet(2, state(1, 2)), packet(3, state(1, 4))
    return START + packet(1, b"\1"), packet(2, b"\2")


# ---- Memory ------------------------------------------------------------------


class Long:
    """A capture of very many packets through a pipe, of which the last alone is answered by a line: the text, the status, and the most
    memory that is taken."""

    def __init__(self, name, asked, head, unit, count=MANY, last=None, end=b"", status=1):
        self.name, self.asked, self.head, self.unit, self.count = f"{count} packets: {name}", asked, head, unit, count
        self.end, self.wanted, self.status = end, b"" if last is None else b"%d %s\n" % (count + 1, last), status

    def feed(self, pipe):
        """Writes the capture; the program may have ended."""
        many = self.unit * 1000
        with pipe:
            try:
                pipe.write(self.head)
                for _ in range(self.count // 1000):
                    pipe.write(many)
                pipe.write(self.end)
            except BrokenPipeError:
                pass

    def why_wrong(self, program):
        peak = 0
        with tempfile.TemporaryFile() as stdout:
            started = subprocess.Popen([*program, *self.asked], stdin=subprocess.PIPE, stdout=stdout, stderr=subprocess.DEVNULL)
            feeding = threading.Thread(target=self.feed, args=(started.stdin,))
            feeding.start()
            while started.poll() is None:
                peak = max(peak, taken(started.pid))
                time.sleep(0.002)
            feeding.join(SECONDS)
            stdout.seek(0)
            wrote = stdout.read()
        why = [] if wrote == self.wanted else [first_difference(self.wanted, wrote)]
        why += [] if started.returncode == self.status else [f"ended with status {started.returncode}"]
        return why + ([f"{peak} kB, and not at most {MOST}"] if peak > MOST else [] if peak else ["no memory was seen"])


def taken(process):
    """The most memory that a running process took so far, in kilobytes."""
    with open(f"/proc/{process}/status", encoding="ascii", errors="replace") as told:
        return next((int(line.split()[1]) for line in told if line.startswith("VmHWM")), 0)


def memory():
    classic_fault, fault = record(1, 2, b"\1"), packet(1, b"\1")
    for command in ASKED:
        asked = capturing(command)
        yield DoesNotGrow(f"a classic capture under {command}", asked, record(1, 2, WORKED), header(), MOST)
        yield DoesNotGrow(f"a capture in pcapng under {command}", asked, packet(1, WORKED), START, MOST)
        yield WantsMemory(asked, header() + classic_fault + record(1, 2, WORKED) + record(1, 2, SAMPLED) + b"X", f"{command}, classic")
        yield WantsMemory(asked, START + fault + packet(1, WORKED) + packet(2, SAMPLED) + b"X", f"{command}, pcapng")
    yield WantsMemory(capturing("check"), section() + interface() * 4000 + fault + b"X", "4,000 interfaces")
    yield WantsMemory(capturing("check", "--skip-other"), START + packet(1, ARP) * 20 + fault + b"X", "--skip-other")
    yield DoesNotGrow("a capture of ARP, which is passed over,", capturing("check", "--skip-other"), packet(1, ARP), START, MOST)
    yield DoesNotGrow("a list of ARP, which is passed over,", ["check", "--skip-other"], b"F 1 " + ARP.hex().encode() + b"\n", b"", MOST)
    yield DoesNotGrow("a capture of sections", capturing("check"), START + packet(1, WORKED), START, MOST)
    yield DoesNotGrow("a capture of other blocks", capturing("check"), custom(size=3000), START, MOST)
    truncated = b"fault 1 Truncated"
    yield Long("classic, check", capturing("check"), header(), record(1, 2, WORKED), MANY, truncated, classic_fault)
    yield Long("pcapng, check", capturing("check"), START, packet(1, WORKED), MANY, truncated, fault)
    yield Long("pcapng, watch of another stream", ["watch", "--capture", "--period", "4000", "--id", "T"], START, packet(1, SAMPLED), MANY,
               truncated, fault)
    yield Long("classic, ARP passed over", capturing("check", "--skip-other"), header(), record(1, 2, ARP), MANY, truncated, classic_fault)
    wide = custom(size=2**24 - 16)
    yield Long("the longest blocks, passed over", capturing("check"), START, b"", 0, truncated, wide * 3 + fault)


def cases():
    yield from (*live(), *failing(), *memory())
