"""The tools say what they do, refuse other arguments, and find goose where they belong first, then on PATH; how each ends."""
import os
import pathlib
import re
import shlex
import shutil
import subprocess
import sys
import tempfile
from xml.etree import ElementTree

from helpers.asked_tools import EXAMPLES, TOOLS, Asked, ask
from helpers.harness import SECONDS, clipped

# Those of a checkout alone, which have themes of their own, and what is no command.
OTHERS = {"build", "prove", "try", "wrong_bodies", "tables"}
TOLD = sorted([it for it in TOOLS.iterdir() if it.is_file() and os.access(it, os.X_OK) and it.name not in OTHERS]
              + [EXAMPLES / "replay_by_block"])


def ran(words, **how):
    return subprocess.run(words, stdin=subprocess.DEVNULL, stdout=subprocess.PIPE, stderr=subprocess.PIPE, timeout=SECONDS, **how)


class Helps:
    """--help is written to standard output and begins with what the tool does; an unknown option is refused with status 2."""

    def __init__(self, tool):
        self.tool, self.name = tool, f"{tool.name} --help"

    def why_wrong(self, _program):
        helped, refused = ran([self.tool, "--help"]), ran([self.tool, "--no-such-option"])
        source = self.tool.read_text()
        first = re.search(r'(?m)^(?:"""|# )(\S.*)$', source)[1]
        why = [] if helped.returncode == 0 and first.encode() in helped.stdout else [f"--help: {helped!r}"]
        return why + ([] if refused.returncode == 2 and refused.stderr and not refused.stdout else [f"--no-such-option: {refused!r}"])


class Finds:
    """Where find_goose finds goose, as programs are put in more and more places: on PATH, in an installation or a checkout, in the
    variable GOOSE."""

    name = "find_goose: where it belongs first, then PATH"

    def why_wrong(self, _program):
        with tempfile.TemporaryDirectory(prefix="with a blank ") as folder:
            return list(self.why_places_wrong(pathlib.Path(folder)))

    def why_places_wrong(self, top):
        for tools, goose in (("prefix/lib/goose", "prefix/bin/goose"), ("checkout/tools", "checkout/goose")):
            (top / tools).mkdir(parents=True)
            shutil.copy(TOOLS / "find_goose", top / tools)
            yield from self.why_found_wrong(top / tools, "", 127, "")
            put(top / "path" / "goose")
            yield from self.why_found_wrong(top / tools, quoted(top / "path" / "goose"), 0, "")
            put(top / goose)
            yield from self.why_found_wrong(top / tools, quoted(top / goose), 0, "")
            yield from self.why_found_wrong(top / tools, "/some/goose --with words", 0, "/some/goose --with words")
            shutil.rmtree(top / "path")

    def why_found_wrong(self, tools, wanted, status, variable):
        environment = {**os.environ, "GOOSE": variable, "PATH": f"{tools.parent.parent}/path:{tools.parent.parent.parent}/path:/usr/bin:/bin"}
        found = ran([tools / "find_goose"], env=environment)
        got = (found.stdout.decode().rstrip("\n"), found.returncode)
        if got != (wanted, status):
            yield f"wanted {(wanted, status)}, got {got}: {found.stderr!r}"
        if status and b"there is no goose" not in found.stderr:
            yield f"it does not say so: {found.stderr!r}"


def put(file):
    file.parent.mkdir(parents=True, exist_ok=True)
    file.write_text("#!/bin/sh\n")
    file.chmod(0o755)


def quoted(path):
    return str(path).replace(" ", "\\ ")


class Missing:
    """A tool that asks goose says that there is none, and ends with 127."""

    name = "draw_recording without goose"

    def why_wrong(self, _program):
        with tempfile.TemporaryDirectory() as folder:
            tools = pathlib.Path(folder) / "tools"
            shutil.copytree(TOOLS, tools)
            asked = ran([tools / "draw_recording", "/dev/null", "0001,G,D,,1,1"], env={**os.environ, "GOOSE": "", "PATH": "/usr/bin:/bin"})
        return [] if asked.returncode == 127 and b"there is no goose" in asked.stderr else [clipped(repr(asked).encode())]


class Closed:
    """A tool whose reader goes away ends without a word."""

    name = "to_json before head"

    def why_wrong(self, _program):
        command = f"yes '2 not-subscribed' | head -n 200000 | {TOOLS}/to_json | head -n 1"
        closed = ran(["bash", "-c", command])
        wanted = (b'{"line":2,"kind":"not-subscribed"}\n', b"")
        return [] if (closed.stdout, closed.stderr) == wanted else [repr(closed)]


class Shut:
    """A tool whose standard input or output is closed, or whose output takes no more, says so and ends with status 4."""

    def __init__(self, tool, *words):
        self.tool, self.words, self.name = tool, words, f"{tool} with a standard input or output that is closed"

    def why_wrong(self, program):
        return list(self.why_redirected_wrong({**os.environ, "GOOSE": shlex.join(program)}))

    def why_redirected_wrong(self, environment):
        for redirection, why in (("<&-", b"standard input is closed"), (">&-", b"standard output is closed"),
                                 (">/dev/full", b"No space left on device")):
            shut = ran(["bash", "-c", f'exec "$@" {redirection}', "bash", TOOLS / self.tool, *self.words], cwd=TOOLS.parent, env=environment)
            if shut.returncode != 4 or shut.stderr != f"{self.tool}: ".encode() + why + b"\n":
                yield f"{redirection}: {shut!r}"


class Unheard:
    """A tool whose standard error is closed too says nothing, and ends with its status."""

    name = "to_json with closed standard input and error"

    def why_wrong(self, _program):
        shut = ran(["bash", "-c", 'exec "$@" <&- 2>&-', "bash", TOOLS / "to_json"])
        return [] if (shut.returncode, shut.stdout) == (4, b"") else [f"{shut!r}"]


class Listed:
    """A case whose complaints are counted."""

    def __init__(self, case):
        self.case, self.name = case, case.name

    def why_wrong(self, program):
        return list(self.case.why_wrong(program))


class Unforeseen:
    """An error of a tool itself ends it with status 70 and a message that asks to report it, and shows where it is if asked."""

    # What goes wrong, and its name.
    errors = {"{}['a']": "KeyError", "(f := lambda: f())()": "RecursionError", "[0] * (1 << 62)": "MemoryError", "exec('assert 0')": "AssertionError"}
    name = "errors of a tool itself"

    def why_wrong(self, _program):
        with tempfile.TemporaryDirectory() as folder:
            tool = pathlib.Path(folder) / "tool"
            for wrong, name in self.errors.items():
                tool.write_text(f"import sys\nsys.path.insert(0, {str(TOOLS)!r})\nfrom running import end\n\ndef main():\n    print('so far')\n"
                                f"    {wrong}\n\nend(main)\n")
                told, shown = (ran([sys.executable, "-B", tool], env={**os.environ, "GOOSE_TRACEBACK": it}) for it in ("", "1"))
                is_told = name in told.stderr.decode() and b"Please report it" in told.stderr and told.stderr.count(b"\n") == 1
                if not is_told or (told.returncode, told.stdout) != (70, b"so far\n"):
                    yield f"{wrong}: {told!r}"
                if b"Traceback" not in shown.stderr or shown.returncode != 70:
                    yield f"{wrong}, where it is: {shown.stderr[:300]!r}"


class Unwritten:
    """A tool whose standard error takes no more ends with status 4, whatever it had to say."""

    name = "tools whose messages cannot be written"

    def why_wrong(self, _program):
        for words in (["list_to_pcap"], ["scl_blocks", "nothing.scd"], ["draw_replay", "nothing.list"]):
            full = ran(["bash", "-c", 'echo none | "$@" 2>/dev/full', "bash", TOOLS / words[0], *words[1:]])
            if full.returncode != 4 or full.stderr:
                yield f"{words}: {full!r}"


class Printed:
    """What messages have of a file or an argument cannot change the terminal: characters that do not print are told by their numbers."""

    name = "messages of texts that do not print"

    def why_wrong(self, _program):
        with tempfile.TemporaryDirectory() as folder:
            file = pathlib.Path(folder) / "of\x1b[2J\n.scd"
            file.write_text('<SCL><IED name="I"><AccessPoint name="A"><Server><LDevice inst="L&#x9b;31m"><LN0><GSEControl name="&#x202e;g&#10;h"/>'
                            "</LN0></LDevice></Server></AccessPoint></IED></SCL>")
            for words, part in ((["scl_blocks", file], rb"of\x1b[2J\n.scd: line 1: IL\x9b31m/LLN0$GO$\u202eg\nh: "),
                                (["scl_blocks", "--ied", "\x1b[31m", file], rb"there is no IED \x1b[31m in "),
                                (["scl_blocks", "--\u202e", file], rb"--\u202e"), (["to_json", f"{folder}/\x07"], rb"/\x07: No such file"),
                                (["to_csv", "--columns", "\x9b"], rb"there is no column \x9b")):
                told = ran([TOOLS / words[0], *words[1:]])
                is_clean = set(told.stderr) <= {*b"\n", *range(0x20, 0x7F)}
                is_lined = words[0] != "scl_blocks" or len(words) != 2 or all(it.startswith(b"scl_blocks: ") for it in told.stderr.splitlines())
                if part not in told.stderr or not is_clean or not is_lined:
                    yield f"{words}: {told!r}"


class Another:
    """Where the first goose on PATH is another program, tools name it, and end with 127."""

    name = "another program of the name goose"

    def why_wrong(self, _program):
        with tempfile.TemporaryDirectory() as folder:
            folder = pathlib.Path(folder)
            shutil.copytree(TOOLS, folder / "tools")
            other = folder / "path" / "goose"
            for does in ("echo goose version: v3.24.1", "exit 1", "printf '\\377'"):
                put(other)
                other.write_text(f"#!/bin/sh\n{does}\n")
                for words in (["draw_recording", EXAMPLES / "one_frame.list", "0001,G,D,,1,1"], ["report", EXAMPLES / "two_frames.pcap"]):
                    told = ran([folder / "tools" / words[0], *words[1:]], cwd=folder,
                               env={**os.environ, "GOOSE": "", "PATH": f"{other.parent}:{os.environ['PATH']}"})
                    if told.returncode != 127 or f"{other} is not the goose that reads".encode() not in told.stderr or told.stdout:
                        yield f"{does}: {told!r}"
            if sorted(it.name for it in folder.iterdir()) != ["path", "tools"]:
                yield f"left {sorted(folder.iterdir())}"


class Clean:
    """A run of each tool closes its files and does nothing that Python warns of."""

    runs = (["scl_blocks", EXAMPLES / "station.scd"], ["scl_blocks", "--json", "--subscriber", "BRK1", EXAMPLES / "station.scd"],
            ["compare_blocks", "/dev/null"], ["list_to_pcap"], ["hex_to_list"], ["to_json", EXAMPLES / "one_frame.list"],
            ["to_csv", EXAMPLES / "one_frame.list"], ["field_at", "2", "3"], ["draw_replay", EXAMPLES / "one_frame.list"],
            ["draw_replay", "--losses", "/dev/null", EXAMPLES / "one_frame.list"], ["draw_recording", EXAMPLES / "one_frame.list", "0001,G,D,,1,1"],
            ["name_members", "--scd", EXAMPLES / "station.scd"], ["scl_blocks", "--names", EXAMPLES / "station.scd"],
            ["report", "--scd", EXAMPLES / "station.scd", EXAMPLES / "two_frames.pcap"], ["report", "/dev/null"],
            ["to_comtrade", "--scd", EXAMPLES / "fault.scd", "--svid", "MU01", "-o", "fault", EXAMPLES / "fault.pcapng"],
            ["compare_captures", "--same-clock", EXAMPLES / "two_frames.pcap", EXAMPLES / "two_frames.pcapng"])
    name = "tools that leave files open"

    def why_wrong(self, program):
        with tempfile.TemporaryDirectory() as folder:
            for words in self.runs:
                told = ran([sys.executable, "-X", "dev", "-W", "error", "-B", TOOLS / words[0], *words[1:]], cwd=folder,
                           env={**os.environ, "GOOSE": shlex.join(program)})
                if told.returncode not in (0, 1, 3) or b"Warning" in told.stderr or b"Traceback" in told.stderr:
                    yield f"{words}: {told!r}"


class Harmless:
    """What comes from a file is text in a picture, whatever it is, or is no picture at all."""

    name = "draw_replay: markup among what is lost"

    def why_wrong(self, program):
        with tempfile.TemporaryDirectory() as folder:
            list_of, losses = pathlib.Path(folder) / "of.list", pathlib.Path(folder) / "losses"
            frame = re.search(r"(?m)^F \d+ (\w+)", (EXAMPLES / "one_frame.list").read_text())[1]
            list_of.write_text(f"F 0 {frame}\nF 9 {frame}\n")
            found = '"line":2,"kind":"frames-missing","appid":"0001","gocbRef":"G","from":{},"to":{},"stNum":{}'
            for values in (('"<script>alert(1)</script>"', "2", "1"), ("1", '"<script/>"', "1"), ("1", "2", '"<script/>"'), ("[]", "{}", "null")):
                losses.write_text("{" + found.format(*values) + "}\n")
                entry = b'{"line":1,"block":0,"kind":"act","stNum":1}\n'
                wrote, said, status = ask(program, "draw_replay", ["--losses", losses, list_of], entry)
                if b"<script" in wrote or status not in (0, 3) or (status == 0 and ElementTree.fromstring(wrote) is None):
                    yield f"{values}: status {status}, {said!r}: {clipped(wrote)!r}"


def objects():
    """Objects that goose replay does not write: of each draw_replay says so."""
    another = b"this is not what goose replay writes for that list"
    for line in ('{"line":2,"block":0}', '{"line":2,"block":"<","kind":"act","stNum":1}', '{"line":2,"block":0,"kind":"act"}', '{"line":2}',
                 '{"line":2,"block":0,"kind":["act"]}', '{"line":2,"block":0,"kind":"act","stNum":{}}', '{"line":"2","kind":"fault"}'):
        yield Asked(f"{line}", "draw_replay", [EXAMPLES / "one_frame.list"], f"{line}\n".encode(), status=3, stderr=[another])
    yield Asked("an object of another kind", "draw_replay", [EXAMPLES / "one_frame.list"], b'{"line":2,"block":0,"kind":"x"}\n', status=3,
                stderr=[b"line 2: goose replay writes no such line x"])


def cases():
    for words in (["to_csv"], ["list_to_pcap"], ["hex_to_list"]):
        yield Shut(*words)
    yield Unheard()
    for tool in TOLD:
        yield Helps(tool)
    yield Finds()
    yield Missing()
    yield Closed()
    yield from map(Listed, (Unforeseen(), Unwritten(), Printed(), Another(), Clean(), Harmless()))
    yield from objects()
