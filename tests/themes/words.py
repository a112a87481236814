"""The words of the command line: which help stands at which subcommand, the version, and words that are refused."""
import pathlib
import re
import shlex
import shutil
import subprocess
import tempfile

from helpers.capture_parts import header, record
from helpers.frames import WORKED
from helpers.harness import SECONDS, Case, clipped, listed
from oracles import reading
from oracles.reference import ABOUT, HELP, OPTIONS, READ, TAKES, VERSION

TOP = pathlib.Path(__file__).resolve().parent.parent.parent
# What help says of the exit statuses above 1.
STATUSES = [b"2 wrong arguments", b"3 an error in the input", b"4 reading or writing failed", b"5 out of memory"]
# What help says of the units of moments, where that is not what it says of a command over lists.
UNITS = {
    "--help": b"Times in lists and scripts are microseconds where the first line is V2, else milliseconds",
    "import": b"Times in the output are microseconds, whatever the capture has",
    **dict.fromkeys(("rewrite", "publish"), b"Times in the input are microseconds where its first line is V2, else milliseconds"),
}
OF_LISTS = b"Times in a list are microseconds where its first line is V2, else milliseconds"
# The commands whose help begins with an example that is no capture.
ON_LISTS = ("rewrite", "publish", "watch")
# What help says of status 1, at each command that can end with it.
FOUND = {
    "--help": b"1 something was found", "check": b"1 a line was written for some frame",
    "rewrite": b"1 some frame could not be written anew", "watch": b"1 some line says another word",
    "losses": b"1 something is missing, late, silent, restarted or out of range", "import": b"1 a record was left out",
}
# What help says of a command's own words.
OWN_WORDS = {
    "replay": [b"APPID,gocbRef,datSet,goID,confRev,entries", b"0001,IED1LD/LLN0$GO$gcb,IED1LD/LLN0$ds,,1,2"],
    "watch": [b"from 2 to 65536"],
    "losses": [b"--period <[ID=]N>", b"from 2 to 65536"],
}
# What would have been right, by what the message of the parser says: it stands behind that, or that says it itself.
RIGHT = {
    b"unrecognized subcommand": f"\nThe commands are {' and '.join(', '.join(HELP).rsplit(', ', 1))}; goose --help says what each does. "
                                "A page of a capture: goose-report FILE, in a checkout tools/report FILE\n".encode(),
    b"unexpected argument": b"\nA list, script or capture is read by its name: goose COMMAND -r FILE; ",
    b"invalid value": b"\nN is a whole number from 2 to 65536: ",
    b"requires a subcommand": f"\n  [subcommands: {', '.join(HELP)}]\n".encode(),
    b"each argument": b" must be text in UTF-8, ",
    b"required arguments were not provided": b"\nUsage: goose ",
    b"a value is required": b" but none was supplied\n",
    b"cannot be used multiple times": b" cannot be used multiple times\n",
    b"cannot be used with": b"\nUsage: goose <COMMAND> [OPTIONS]\n",
    b"unexpected value": b" found; no more were expected\n",
}
# What standard error says of a text that is no control block, behind its position.
BLOCK_FORM = b"A BLOCK is APPID,gocbRef,datSet,goID,confRev,entries, for example '0001,IED1LD/LLN0$GO$gcb,IED1LD/LLN0$ds,,1,2'\n"


class Helps(Case):
    """Help goes to standard output, has these lines in this order and none of those, and ends with status 0."""

    def __init__(self, words, lines, lacking=()):
        super().__init__(" ".join(words), words)
        self.lines, self.lacking = lines, lacking

    def why_wrong(self, program):
        wrote, complained, status = self.run(program)
        why = [] if status == 0 else [f"ended with status {status}"]
        why += ["standard error is not empty"] if complained else []
        rest = [" ".join(line.split()) for line in wrote.decode("ascii", "replace").splitlines()]
        why += [f"help tells of another subcommand: {line}" for line in self.lacking if line in rest]
        for line in self.lines:
            if line not in rest:
                return [*why, f"help lacks {line!r}, or has it elsewhere: {clipped(wrote)}"]
            rest = rest[rest.index(line) + 1:]
        return why


class Begins(Case):
    """Help begins with an example that runs as it stands, that of the program where a capture FILE.pcapng is at hand, and says what
    the command's own words are, the exit statuses and where to read more."""

    def __init__(self, words):
        super().__init__(f"the example of {' '.join(words)}", words)

    def why_wrong(self, program):
        wrote, _, status = self.run(program)
        why = [] if status == 0 else [f"ended with status {status}"]
        is_whole = len(self.words) == 1
        form = r"goose \w+ --capture < FILE\.pcapng" if is_whole else rf"goose {self.words[0]}(?: .*)? < examples/[\w.]+"
        found = re.match(rf"Example: ({form})\n", wrote.decode("ascii"))
        if not found:
            return [*why, f"help begins with no example: {clipped(wrote)}"]
        command = re.sub(r"\bgoose (?=\w)", lambda _: f"{shlex.join(program)} ", found[1])
        with tempfile.TemporaryDirectory() as folder:
            shutil.copy(TOP / "examples" / "two_bays.pcapng", pathlib.Path(folder, "FILE.pcapng"))
            ran = subprocess.run(["bash", "-c", command], cwd=folder if is_whole else TOP, stdin=subprocess.DEVNULL,
                                 stdout=subprocess.PIPE, stderr=subprocess.PIPE, timeout=SECONDS)
        why += [] if ran.returncode in (0, 1) and ran.stdout and not ran.stderr else [f"the example ends so: {ran}"]
        parts = [b"Exit status: 0 ", *STATUSES, b"\nMore: man goose\n"]
        parts += [UNITS.get(self.words[0], OF_LISTS)]
        why += [] if is_whole or self.words[0] in ON_LISTS or ".pcap" in found[1] else [f"its example is of no capture: {found[1]}"]
        parts += OWN_WORDS.get(self.words[0], [])
        if self.words[0] == "check":
            parts += [b"not-written is a note and no error: the frame is valid"]
        found = FOUND.get(self.words[0], b"Exit status: 0 done, 2 wrong arguments")
        why += [f"help tells {other!r}" for other in FOUND.values() if other != found and other in wrote]
        return why + [f"help lacks {part!r}" for part in [*parts, found] if part not in wrote]


class Same(Case):
    """Two command lines are one: they write the same, say the same and end alike."""

    def __init__(self, words, others):
        super().__init__(f"{' '.join(words)} is {' '.join(others)}", words)
        self.others = others

    def why_wrong(self, program):
        mine, other = self.run(program), Case("", self.others).run(program)
        return [] if mine == other and mine[0] + mine[1] else [f"{clipped(mine[0])}, and not {clipped(other[0])}; {mine[1:]}, {other[1:]}"]


class Refuses(Case):
    """Words that are no command: a message on standard error that names the word and says what would have been right,
    nothing written, status 2."""

    def __init__(self, words, named):
        super().__init__(f"refuses {words}", words, b"X\n")
        self.named = named

    def why_wrong(self, program):
        wrote, complained, status = self.run(program)
        why = [] if status == 2 else [f"ended with status {status}"]
        why += ["standard output is not empty"] if wrote else []
        is_told = complained.startswith(b"error: ") and self.named in complained
        why += [] if is_told else [f"standard error does not name {self.named!r}: {clipped(complained)!r}"]
        right = [advice for mistake, advice in RIGHT.items() if mistake in complained]
        is_right = any(advice in complained for advice in right)
        return why + ([] if is_right else [f"standard error does not say what would be right: {clipped(complained)!r}"])


class SaysBlockForm(Case):
    """A text that is no control block: its position, which field is wrong, what form a block has, and nothing else; and the
    example that is given there is a block."""

    def __init__(self, block):
        super().__init__(f"no block: {block!r}", ["replay", "0001,G,D,,1,1", block], b"X\n", b"", 2)

    def why_wrong(self, program):
        why = super().why_wrong(program)
        complained = self.run(program)[1]
        lines = complained.splitlines(keepends=True)
        if len(lines) != 3 or (lines[0], lines[2]) != (b"block 1 BlockForm\n", BLOCK_FORM):
            return [*why, f"standard error is {clipped(complained)!r}"]
        example = re.search(rb"'(.*)'", complained)[1]
        status = subprocess.run([*program, "replay", example], stdin=subprocess.DEVNULL, timeout=SECONDS).returncode
        return why + ([] if status == 0 else [f"its example ends with status {status}"])


def helps():
    for word in ("--help", "-h"):
        yield Helps([word], [ABOUT, "Usage: goose <COMMAND>", *[f"{name} {said}" for name, said in HELP.items()],
                             "-h, --help Print help", "-V, --version Print version"])
        for name, said in HELP.items():
            options = [f"{option} {text}" for option, text in OPTIONS.items()] if name in reading.COMMANDS else []
            yield Helps([name, word], [said, f"Usage: goose {name}{TAKES[name]}", READ, *options, "-h, --help Print help"],
                        [ABOUT, *[other for other in HELP.values() if other != said]])
    yield Begins(["--help"])
    yield Same(["help"], ["--help"])
    for name in HELP:
        yield Same(["help", name], [name, "--help"])
    for words in (["help", "nothing"], ["help", "show", "more"]):
        yield Same(words, [*words[1:], "--help"])
    for name in HELP:
        yield Begins([name, "--help"])
    for word in ("--version", "-V"):
        yield Case(word, [word], b"X\n", f"{VERSION}\n".encode())


def refusals():
    for words, named in (
        ([], b"'goose' requires a subcommand"), (["nothing"], b"'nothing'"), (["Help"], b"'Help'"), (["Show"], b"'Show'"),
        (["CHECK"], b"'CHECK'"), (["rewrit"], b"'rewrit'"), (["shows"], b"'shows'"), ([""], b"''"), (["--nothing"], b"'--nothing'"),
        (["-x"], b"'-x'"), ([b"sh\xffow"], b"UTF-8"), (["show", b"\xff"], b"UTF-8"),
    ):
        yield Refuses(words, named)
    for name in (it for it in HELP if TAKES[it] == " [OPTIONS]"):
        for words, named in (
            ([name, "more"], b"'more'"), ([name, name], f"'{name}'".encode()), ([name, "--nothing"], b"'--nothing'"),
            ([name, "--version"], b"'--version'"), ([name, "--", "more"], b"'more'"), (["--", name], f"'{name}'".encode()),
        ):
            yield Refuses(words, named)
    for words, named in (
        (["replay"], b"BLOCK"), (["replay", "--nothing"], b"'--nothing'"), (["replay", "-x", "0001,G,D,,1,1"], b"'-x'"),
        (["--", "replay", "0001,G,D,,1,1"], b"'replay'"),
    ):
        yield Refuses(words, named)
    five, name = ["watch", "--period", "5"], ["--id", "S"]
    for words, named in (
        (["watch"], b"--period <N>"), (["watch", *name], b"--period <N>"), (five, b"--id <TEXT>"), (["watch", "5", "S"], b"'5'"),
        ([*five, "--id"], b"--id <TEXT>"), (["watch", "--period", *name], b"--period <N>"), ([*five, *name, *name], b"--id <TEXT>"),
        ([*five, "--period=5", *name], b"--period <N>"), ([*five, *name, "more"], b"'more'"), ([*five, "--", *name], b"'--id'"),
        ([*five, "--id", "-x"], b"'-x'"), ([*five, "--name", "S"], b"'--name'"), ([*five, "--period=6", *name], b"--period <N>"),
        (["watch", "--period", "-1", *name], b"'-1'"), (["watch", "-p", "5", *name], b"'-p'"), (["--", *five, *name], b"'watch'"),
        (["watch", "--Period", "5", *name], b"'--Period'"), ([*five, "--id", b"\xff"], b"UTF-8"),
    ):
        yield Refuses(words, named)
    for words, named in (
        (["losses", "0001,G,D,,1,1"], b"'0001,G,D,,1,1'"), (["losses", "--id", "S"], b"'--id'"), (["losses", "4000"], b"'4000'"),
        (["losses", "--period"], b"--period <[ID=]N>"), (["losses", "--period", "--capture"], b"--period <[ID=]N>"),
        (["losses", "--", "--period=5"], b"'--period"),
        (["losses", "--json", "--period=5", "--time"], b"'--time' cannot be used with '--json'"), (["losses", "--periods=5"], b"'--periods"),
        (["losses", "--capture", "--capture"], b"'--capture'"), (["--period=5", "losses"], b"'--period"),
    ):
        yield Refuses(words, named)
    for words, named in (
        *(([name, option], f"'{option}'".encode()) for name in HELP if name not in reading.COMMANDS for option in OPTIONS),
        *(([option, "show"], f"'{option}'".encode()) for option in OPTIONS), (["show", "--cap"], b"'--cap'"),
        (["show", "--skip_other"], b"'--skip_other'"), (["check", "--", "--capture"], b"'--capture'"),
        (["blocks", "--capture", "--capture"], b"'--capture'"), (["show", "--skip-other", "--capture", "--skip-other"], b"'--skip-other'"),
        (["watch", "--time", *name, "--time", "--period=5"], b"'--time'"), (["show", "--time=UTC"], b"'--time'"),
        *(([*words, "--time", "--json"], b"'--time' cannot be used with '--json'") for words in (["show"], ["replay", "0001"], [*five, *name])),
        (["check", "--json", "--time", "--capture"], b"'--time' cannot be used with '--json'"), (["blocks", "--json", "--json"], b"'--json'"), (["show", "--times"], b"'--times'"),
        (["show", "--capture=FILE"], b"'--capture'"), (["check", "--capture", "FILE"], b"'FILE'"), (["replay", "--capture"], b"BLOCK"),
        ([*five, "--id", "--capture"], b"--id <TEXT>"), (["watch", "--capture", *name], b"--period <N>"),
    ):
        yield Refuses(words, named)
    for period in ("0", "1", "65537", "99999"):
        for words, value in ((["watch", *name], "N"), (["losses"], "[ID=]N")):
            yield Refuses([*words, "--period", period], f"'--period <{value}>': {period} is not in 2..=65536".encode())
    for period in ("-1", "-5"):
        for words, value in ((["watch", *name], "N"), (["losses"], "[ID=]N")):
            yield Refuses([*words, f"--period={period}"], f"'--period <{value}>': {period} is not in 2..=65536".encode())
    for period in ("", "x", " 5", "5 ", "5.0", "0x5", "5,0", "\u0665", "9" * 30):
        yield Refuses(["watch", "--period", period, *name], f"invalid value '{period}' for '--period <N>'".encode())
        yield Refuses(["losses", "--period", period], f"invalid value '{period}' for '--period <[ID=]N>'".encode())
        yield Refuses(["losses", "--period=5", f"--period=MU01={period}", "--period", "x"], f"invalid value 'MU01={period}' for '--period <[ID=]N>'".encode())
    for block in (
        "", "0001", "0001,G,D,,1", "0001,G,D,,1,1,1", "001,G,D,,1,1", "00001,G,D,,1,1", "000g,G,D,,1,1", "0001,G,D,,,1",
        "0001,G,D,,4294967296,1", "0001,G,D,,1,12345678901", "0001,G,D,,1,-1", "0001,G\x7f,D,,1,1", "0001,G\u00e9,D,,1,1",
        " 0001,G,D,,1,1", "0001,G,D,,1,1 ",
    ):
        yield SaysBlockForm(block)


def accepted():
    """The mark `--` behind a command changes nothing, options stand anywhere before it, and a replay takes any count of blocks."""
    for name, wrote in (("show", b"1 fault 1 Truncated\n"), ("check", b"1 fault 1 Truncated\n"), ("rewrite", b"V2\nF 0 01\n")):
        yield Case(f"{name} --", [name, "--"], b"F 0 01\n", wrote, 0 if name == "show" else 1)
    capture, act = header() + record(1, 2, WORKED), b"1 act 0 st=1 sq=0 t=0000000000000000 {true}\n"
    for words in (["replay", "0001,G,D,,1,1", "--capture"], ["replay", "--capture", "--", "0001,G,D,,1,1"],
                  ["replay", "--skip-other", "--capture", "0001,G,D,,1,1"]):
        yield Case(" ".join(words), words, capture, act)
    for words in (["check", "--capture", "--"], ["blocks", "--capture", "--skip-other"], ["watch", "--id", "S", "--capture", "--period=4000"],
                  ["watch", "--capture", "--period", "4000", "--skip-other", "--id=S"], ["watch", "--period", "4000", "--id=--capture", "--capture"]):
        yield Case(" ".join(words), words, capture, b"1 block 0001,G,D,,1,1\n" if words[0] == "blocks" else b"")
    for words in (["replay", "0001,G,D,,1,1", "--time", "--capture"], ["replay", "--capture", "--time", "--", "0001,G,D,,1,1"]):
        yield Case(" ".join(words), words, capture, b"1970-01-01T00:00:01.000002Z " + act)
    for words in ([], ["--"], ["--period", "2"], ["--period=65536", "--skip-other", "--"], ["--json", "--period", "4000"], ["--time"],
                  ["--period", "MU01=2", "--time", "--period==3", "--period=A=B=+65536", "--"], ["--period=5", "--period=5"]):
        for on_capture, nothing in (([], b""), (["--capture"], header())):
            yield Case(" ".join(["losses", *on_capture, *words]), ["losses", *on_capture, *words], nothing, b"")
    blocks = [f"0001,G{at},D,,1,1" for at in range(299)]
    yield Case("replay of 300 blocks", ["replay", *blocks, "0001,G,D,,1,1"], listed(WORKED), b"1 act 299 st=1 sq=0 t=0000000000000000 {true}\n")


def cases():
    return [*helps(), *refusals(), *accepted()]
