"""Input that fails, never ends or comes slowly, and output that takes nothing."""
import os
import resource
import signal
import subprocess
import tempfile
import tty

from helpers.capture_parts import header, record
from helpers.frames import SAMPLED, WORKED, WORKED_LINE, element, put, with_fields
from helpers.harness import Case, Pieces, Skipped, cut, descriptor, listed, relisted, run, text

FAULT = [b"read or write fault"]


class Directory(Case):
    """Standard input is a directory, so that the first read fails."""

    def run(self, program):
        with descriptor("/") as stdin:
            return run(program, self.words, stdin=stdin)


class FailsAfter(Case):
    """Standard input gives its octets and fails then: a terminal's line whose other end is closed."""

    def run(self, program):
        near, far = os.openpty()
        tty.setraw(far)
        os.write(far, self.stdin)
        os.close(far)
        with os.fdopen(near, "rb", buffering=0) as stdin:
            return run(program, self.words, stdin=stdin)


class Endless(Case):
    """Standard input is what another command writes without end."""

    def __init__(self, name, words, command, stdout):
        super().__init__(name, words, stdout=stdout, status=3)
        self.command = command

    def run(self, program):
        with descriptor("/dev/zero") as zeros:
            feeding = subprocess.Popen(self.command, stdin=zeros, stdout=subprocess.PIPE, stderr=subprocess.DEVNULL)
        try:
            with feeding.stdout as stdin:
                return run(program, self.words, stdin=stdin)
        finally:
            feeding.kill()
            feeding.wait()


class Full(Case):
    """Standard output is a disk that is full."""

    def run(self, program):
        with descriptor("/dev/full", os.O_WRONLY) as stdout:
            return run(program, self.words, self.stdin, stdout=stdout)


class PastTheLimit(Case):
    """Standard output is a file that would grow past what `ulimit -f` lets it. Where the parent ignores SIGXFSZ the write fails, else
    the system ends the program and nothing is said. Either way all stands in the file that fits."""

    LIMIT = 10240

    def __init__(self, asked, octets, is_ignored):
        super().__init__(f"{asked[0]} to a file that is limited, with SIGXFSZ {'ignored' if is_ignored else 'as usual'}", asked, octets)
        self.is_ignored = is_ignored

    def limit(self):
        """What the program starts with."""
        signal.signal(signal.SIGXFSZ, signal.SIG_IGN if self.is_ignored else signal.SIG_DFL)
        resource.setrlimit(resource.RLIMIT_FSIZE, (self.LIMIT, self.LIMIT))

    def why_wrong(self, program):
        whole = run(program, self.words, self.stdin)[0]
        with tempfile.TemporaryFile() as stdout:
            _, said, status = run(program, self.words, self.stdin, stdout=stdout, preexec_fn=self.limit)
            stdout.seek(0)
            wrote = stdout.read()
        ends = {4: b"read or write fault: cannot write: File too large\n"} if self.is_ignored else {-signal.SIGXFSZ: b"", 128 + signal.SIGXFSZ: b""}
        why = [] if len(whole) > self.LIMIT and wrote == whole[:self.LIMIT] else [f"{len(wrote)} octets of {len(whole)} were written"]
        return why + ([] if ends.get(status) == said else [f"ended with status {status}, and said {said!r}"])


def writes_so_far():
    """How often this process and the runs that have ended asked the system to write, where the system counts that."""
    try:
        with open("/proc/self/io", encoding="ascii") as told:
            return next(int(line.split()[1]) for line in told if line.startswith("syscw:"))
    except (OSError, StopIteration):
        raise Skipped("the system does not count the writes of a process") from None


class TriedOnce(Case):
    """Standard output is a disk that is full, and no write is tried again: the system is asked to write as often as by
    `show` whose first read fails, which writes one text and one message."""

    def writes(self, program, words, stdin, stdout):
        before = writes_so_far()
        subprocess.run([*program, *words], stdin=stdin, stdout=stdout, stderr=subprocess.DEVNULL, check=False)
        return writes_so_far() - before

    def why_wrong(self, program):
        with descriptor("/") as stdin, descriptor("/dev/null", os.O_WRONLY) as stdout:
            wanted = self.writes(program, ["show"], stdin, stdout)
        reading, writing = os.pipe()
        os.write(writing, self.stdin)
        os.close(writing)
        with os.fdopen(reading, "rb", buffering=0) as stdin, descriptor("/dev/full", os.O_WRONLY) as stdout:
            made = self.writes(program, self.words, stdin, stdout)
        return [] if made == wanted else [f"the system was asked to write {made} times, and not {wanted}"]


class Unread(Case):
    """Standard output is a pipe that nobody reads any more, in a program that is not stopped for it: status 4, and no word of it."""

    def __init__(self, name, words, stdin):
        super().__init__(name, words, stdin, None, 4)

    def why_wrong(self, program):
        _, complained, _ = self.run(program)
        return super().why_wrong(program) + ([f"standard error has {complained!r}"] if complained else [])

    def run(self, program):
        reading, writing = os.pipe()
        os.close(reading)
        with os.fdopen(writing, "wb", buffering=0) as stdout:
            return run(program, self.words, self.stdin, stdout=stdout, restore_signals=False)


class Unheard(Case):
    """The first read fails, and standard error is a disk that is full."""

    def run(self, program):
        with descriptor("/") as stdin, descriptor("/dev/full", os.O_WRONLY) as stderr:
            return run(program, self.words, stdin=stdin, stderr=stderr)


class Unsaid(Case):
    """Standard error is a disk that is full, and so the message is not compared."""

    def run(self, program):
        with descriptor("/dev/full", os.O_WRONLY) as stderr:
            return run(program, self.words, self.stdin, stderr=stderr)


# The words that run each command, and what it writes before it reads and before the fault of its list or script.
WORDS = {"replay": ["replay", "0001,G,D,,1,1"], "watch": ["watch", "--period", "4000", "--id", "S"]}
BEFORE = {"show": ("", ""), "check": ("", ""), "rewrite": ("V2\n", "# "), "blocks": ("", ""), "replay": ("", ""), "watch": ("", ""),
          "publish": ("V2\n", "# ")}

SCRIPT = b"control,010ccd010001,020000000001,,0001,G,D,,1,1,0,0,1\nstep,4,1000\n"
CHANGE = b"change,0,0000000000000000,8301ff\n"


def words(command):
    return WORDS.get(command, [command])


def given(command, count=1):
    """An input for which the command writes a line and more, of so many events."""
    if command == "publish":
        return SCRIPT + CHANGE * count
    if command == "blocks":
        return listed(*[with_fields(gocb_ref=element(0x80, b"%d" % at)) for at in range(count)])
    return listed(*[b"\1"] * count)


def ended(command, fault):
    """What a command writes of a list or script that has a fault and no event."""
    first, mark = BEFORE[command]
    number, cause = fault.split()
    if command == "publish" and cause == "LineForm":
        cause = "ScriptForm"
    return f"{first}{mark}{number} {'script' if command == 'publish' else 'list'} {cause}\n".encode()


def reading():
    for command in BEFORE:
        yield Directory(f"{command} of a directory is a read fault", words(command), b"", ended(command, "1 ReadFailed"), 4, FAULT)
        yield FailsAfter(f"{command}: an unfinished line gives no event", words(command), b"F 0 0", ended(command, "1 ReadFailed"),
                         4, FAULT)
        yield FailsAfter(f"{command}: an unfinished version is no line", words(command), b"V2", ended(command, "1 ReadFailed"), 4, FAULT)
        yield FailsAfter(f"{command}: a read fault behind the version", words(command), b"V2\n", ended(command, "2 ReadFailed"), 4, FAULT)
        yield FailsAfter(f"{command}: a whole line's fault comes first", words(command), b"X\nF 0 0", ended(command, "1 LineForm"), 3)
        yield Endless(f"{command} of empty lines without end", words(command), ["yes", ""], ended(command, "1000001 ListTooLong"))
        yield Endless(f"{command} of a comment without end", words(command), ["tr", "\\0", "#"], ended(command, "1 LineTooLong"))
    yield Unheard("a message that cannot be written changes no status", ["show"], b"", b"1 list ReadFailed\n", 4)
    failing = listed(WORKED)
    yield FailsAfter("whole lines are shown before a read fault", ["show"], failing,
                     text([f"1 {WORKED_LINE}", "2 list ReadFailed"]), 4, FAULT)
    yield FailsAfter("whole lines are rewritten before a read fault", ["rewrite"], failing,
                     relisted(WORKED) + b"# 2 list ReadFailed\n", 4, FAULT)
    yield FailsAfter("whole lines are checked before a read fault", ["check"], listed(put(WORKED, at66=1)),
                     b"1 not-written\n2 list ReadFailed\n", 4, FAULT)
    yield FailsAfter("entries of a replay stand before a read fault", WORDS["replay"], failing + listed(b"\1") + b"C 7",
                     b"1 act 0 st=1 sq=0 t=0000000000000000 {true}\n2 fault 1 Truncated\n3 list ReadFailed\n", 4, FAULT)
    yield from in_pieces()
    for size in (1, 2, 3, 7):
        yield Pieces(f"input in pieces of {size}", ["show"], cut(failing * 3 + b"C 7", size), text(
            [f"{n} {WORKED_LINE}" for n in (1, 2, 3)] + ["4 clock 7000"]))
    for size in (1, 2, 3, 7, 4096, 8192):
        yield Pieces(f"a long list, rewritten from pieces of {size}", ["rewrite"], cut(failing * 200, size),
                     relisted(*[WORKED] * 200))


class SameInPieces:
    """A command on an input that comes a few octets at a time writes what it writes of the whole input, and ends so."""

    def __init__(self, asked, octets, size):
        self.name, self.asked, self.octets, self.size = f"{asked[0]} in pieces of {size}", asked, octets, size

    def why_wrong(self, program):
        whole = run(program, self.asked, self.octets)
        cutting = Pieces(self.name, self.asked, cut(self.octets, self.size), b"", waits=True)
        pieces = cutting.run(program)
        return [] if pieces == whole and whole[0] else [f"whole: {whole!r}, in pieces: {pieces!r}"]


def in_pieces():
    """Every command, on an input with a version, something good, something bad and no last LF."""
    listed_input = b"V2\r\n# a comment\n" + listed(WORKED, b"\1", SAMPLED) + b"M 7 on\nC 9"
    inputs = {"publish": b"V2\n" + SCRIPT + CHANGE + b"poll,4000\nX", "import": header() + record(1, 2, WORKED) + record(3, 4, b"") + b"\0"}
    for command in [*BEFORE, "import"]:
        for size in (1, 5):
            yield SameInPieces(words(command), inputs.get(command, listed_input), size)


def writing():
    for command, (first, _) in BEFORE.items():
        asked = words(command)
        yield Full(f"{command} on a full disk", asked, given(command), None, 4, FAULT)
        yield Full(f"{command} of a long list on a full disk", asked, given(command, 20000), None, 4, FAULT)
        yield Full(f"{command} of a fault on a full disk", asked, b"X\n", None, 4, FAULT)
        yield Full(f"{command} of nothing on a full disk", asked, b"", None,
                   *((4, FAULT) if first else (0,)))
        yield Unread(f"{command} to nobody", asked, given(command))
        yield TriedOnce(f"{command} tries no failed write again", asked, given(command))
    yield from importing()
    yield Full("show of good frames on a full disk", ["show"], listed(*[WORKED] * 2000), None, 4, FAULT)
    yield Full("rewrite of good frames on a full disk", ["rewrite"], listed(*[WORKED] * 2000), None, 4, FAULT)
    yield Full("check of good frames writes nothing", ["check"], listed(*[WORKED] * 2000), None, 0)
    yield Full("help on a full disk", ["--help"], b"", None, 4, FAULT)
    yield Unread("help to nobody", ["--help"], b"")
    for asked in (["bogus"], ["show", "more"], ["replay", "no block"], []):
        yield Unsaid(f"a mistake in the arguments that cannot be told, {asked}", asked, b"", b"", 2)


def importing():
    """The same of captures."""
    short = b"V2\n# 0 capture CaptureShort\n"
    capture = header() + record(1, 2, WORKED)
    frame = f"V2\nF 1000002 {WORKED.hex()}\n".encode()
    yield Directory("import of a directory is a read fault", ["import"], b"", b"V2\n# 0 capture ReadFailed\n", 4, FAULT)
    yield FailsAfter("import: a read fault inside the header", ["import"], capture[:20], b"V2\n# 0 capture ReadFailed\n", 4, FAULT)
    yield FailsAfter("import: a read fault inside a record", ["import"], capture[:-1], b"V2\n# 1 capture ReadFailed\n", 4, FAULT)
    yield FailsAfter("import: a read fault behind a record", ["import"], capture, frame + b"# 2 capture ReadFailed\n", 4, FAULT)
    yield Full("import on a full disk", ["import"], capture, None, 4, FAULT)
    yield Full("import of nothing on a full disk", ["import"], b"", None, 4, FAULT)
    yield Full("import of a long capture on a full disk", ["import"], header() + record(1, 2, WORKED) * 20000, None, 4, FAULT)
    yield Unread("import to nobody", ["import"], capture)
    yield TriedOnce("import tries no failed write again", ["import"], capture)
    yield Endless("import of zeros without end", ["import"], ["cat"], b"V2\n# 0 capture CaptureHeader\n")
    for size in (1, 2, 3, 7, 16, 24):
        yield Pieces(f"a capture in pieces of {size}", ["import"], cut(capture, size), frame)
    yield Case("an empty capture", ["import"], b"", short, 3)


def limited():
    """Files that would grow too long, under a command that writes by and by and one that writes at once."""
    for is_ignored in (False, True):
        yield PastTheLimit(["show"], listed(WORKED) * 500, is_ignored)
        yield PastTheLimit(["publish"], SCRIPT + CHANGE * 200, is_ignored)


def cases():
    return [*reading(), *writing(), *limited()]
