"""Runs of the six commands that read events, over captures and lists, held against the slow programs."""
import re

from helpers.harness import clipped, first_difference, never_seen, run, text
from oracles import links, losses, reading
from oracles.objects import numbers_read

# The words of each command, for frames of the worked block and the worked stream.
ASKED = {
    "show": ["show"], "check": ["check"], "blocks": ["blocks"], "replay": ["replay", "0001,G,D,,1,1"],
    "watch": ["watch", "--period", "4000", "--id", "S"], "losses": ["losses", "--period", "4000"],
}
PASSED = re.compile(r"(\d+) of (?:EtherType )?([0-9a-f]{4})(?: \([^;()]*(?:\([^()]*\))?[^;()]*\))?, from (\d+) on")
SAMPLES = re.compile(r' id="((?:[^"\\]|\\.)*)" samples=\d+$')


def asking(command, *options):
    """The words of a command with these options behind its name."""
    return [ASKED[command][0], *options, *ASKED[command][1:]]


def capturing(command, *options):
    """The words of a command over a capture."""
    return asking(command, reading.CAPTURE, *options)


def before_the_end(lines):
    """The lines that do not wait for the end of the input, as totals do."""
    return [it for it in lines if it.split(" ", 1)[0] not in ("end", "total")]


def in_turn(asked, pieces):
    """Pieces of an input, each with the text that it adds, and the text that the end adds."""
    whole, before, turns = b"", b"", []
    for piece in pieces:
        whole += piece
        lines, status, _ = reading.answered(asked, whole)
        wrote = text(reading.written(asked, before_the_end(lines), whole))
        turns.append((piece, wrote[len(before):]))
        before = wrote
    return turns, status, text(reading.written(asked, lines, whole))[len(before):]


def why_passed(passed, lines):
    """What is wrong with the sentences on frames that were passed over."""
    if not passed.kinds:
        return [f"said without need {lines}"] if lines else []
    if len(lines) != 1:
        return [f"{len(lines)} sentences say what was passed over"]
    parts = lines[0].partition("passed over: ")[2].split("; ")
    kinds, others = parts[:len(passed.kinds)], parts[len(passed.kinds):]
    found = [PASSED.fullmatch(part) for part in kinds]
    told = [(int(it[2], 16), (int(it[1]), int(it[3]))) if it else None for it in found]
    why = [] if told == list(passed.kinds.items()) else [f"passed over {list(passed.kinds.items())}, and said {lines[0]!r}"]
    numbers = [tuple(map(int, re.findall(r"\b\d+\b", part))) for part in others]
    wanted = [passed.others] if passed.others else []
    return why + ([] if [(it[0], it[-1]) if it else it for it in numbers] == wanted else [f"the rest are {wanted}: {others}"])


def not_judged(lines):
    """What is said of the streams whose totals are samples alone."""
    found = [SAMPLES.search(line) for line in lines]
    keys = [(None, None, None, re.sub(r"\\(.)", r"\1", it[1]).encode()) for it in found if it]
    return [f"goose losses: {it}" for it in losses.not_judged(keys)]


def why_linked(asked, octets, lines):
    """What is wrong with the sentences on packets of these octets that were not captured on Ethernet."""
    is_capture = reading.CAPTURE in reading.options_of(asked)[1]
    wanted = [f"goose {asked[0]}: {it}" for it in links.told(octets)] if is_capture else []
    return [] if lines == wanted else [f"said {lines}, and not {wanted}"]


def why_said(asked, lines, status, passed, complained, octets=None):
    """What is wrong with the messages of a run: the sentences on what was passed over, on packets of these octets that were not captured on
    Ethernet, and on streams that were not judged; behind those, where the input ended the run, the place and the name in the last line of
    its text; of a failing device, that; else which blocks were never seen."""
    # The source that fails is a terminal, on which the program says what it awaits.
    told = [line for line in complained.decode("utf-8", "replace").splitlines() if ": waiting for a " not in line]
    over = [line for line in told if "passed over: " in line]
    named = [line for line in told if asked[0] == "losses" and ": not judged: " in line]
    linked = [line for line in told if ": not Ethernet: " in line]
    rest = [line for line in told if line not in (*over, *linked, *named)]
    why = why_passed(passed, over) if passed and status in (0, 1) else []
    why += [f"said {over}"] if over and not passed else []
    why += why_linked(asked, octets, linked) if octets is not None and status in (0, 1, 3) else []
    why += [] if told[:len(over + linked)] == over + linked else [f"said not first {over + linked}: {told}"]
    why += [f"said {named}"] if status in (0, 1) and named != not_judged(lines) else []
    if status in (3, 4):
        number, sort, name = lines[-1].split(" ")
        place = {"list": f"line {number}", "capture": f"packet {number}" if number != "0" else "header"}[sort]
        begin = f"goose {asked[0]}: {place}: {name}: " if status == 3 else "read or write fault: cannot read: "
        return why + ([] if rest and rest[0].startswith(begin) else [f"standard error begins not with {begin!r}: {rest}"])
    plain = [word for word in reading.options_of(asked)[0] if word != "--"]
    unseen = never_seen(plain[1:], text(lines)).decode().splitlines() if asked[0] == "replay" else []
    return why + ([] if rest == unseen else [f"standard error is {rest}, and not {unseen}"])


def why_differs(asked, wanted, got, passed=None, written=None, octets=None):
    """What is wrong with a run over these octets that should have answered these lines and ended with this status. They are written as they
    are, or in another form."""
    (lines, wanted_status), (wrote, complained, status) = wanted, got
    wanted_text = text(lines if written is None else written)
    is_json = reading.JSON in reading.options_of(asked)[1]
    difference = first_difference(*map(numbers_read, (wanted_text, wrote))) if is_json else first_difference(wanted_text, wrote)
    why = [difference] if difference else []
    why += [f"ended with status {status}, and not {wanted_status}: {clipped(complained)!r}"] if status != wanted_status else []
    why += [] if why else why_said(asked, lines, status, passed, complained, octets)
    return [f"{' '.join(asked)}: {it}" for it in why]


def why_wrong_of(program, asked, octets, events_of=None):
    """What is wrong with a run over these octets."""
    lines, status, passed = reading.answered(asked, octets, events_of=events_of)
    written = reading.written(asked, lines, octets, events_of=events_of)
    return why_differs(asked, (lines, status), run(program, asked, octets), passed, written, octets)


class Read:
    """An input of which the program writes what the slow programs write, under each of these command lines."""

    def __init__(self, name, octets, *asked):
        self.name, self.octets = name, octets
        self.asked = asked or [capturing(command) for command in ASKED]

    def why_wrong(self, program):
        return [why for asked in self.asked for why in why_wrong_of(program, asked, self.octets)]


class EachOf:
    """The same of many inputs, each by its own name, under `show` and one more command in turn."""

    def __init__(self, name, inputs, *options):
        self.name, self.inputs, self.options = name, inputs, options

    def why_wrong(self, program):
        others = [command for command in ASKED if command != "show"]
        why, count = [], 0
        for name, octets in self.inputs():
            for command in ("show", others[count % len(others)]):
                why += [f"{name}: {it}" for it in why_wrong_of(program, asking(command, *self.options), octets)]
            count += 1
            if len(why) > 5:
                break
        return why if count else ["there is no input"]
