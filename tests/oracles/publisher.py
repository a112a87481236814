"""A slow publisher, written from docs/FORMATS.md alone: at each call it looks back over the whole list of calls."""
from oracles import reference

DECIMAL, HEXADECIMAL = b"0123456789", b"0123456789abcdefABCDEF"
MOST_STEPS = 16

# How many fields each line has, its name among them.
COUNTS = {b"control": 13, b"step": 3, b"change": 4, b"poll": 2}


def needed(holds, cause):
    """Ends the script by this cause where something does not hold."""
    if not holds:
        raise ValueError(cause)


# ---- Fields -----------------------------------------------------------------


def octets_of(digits, counts, cause="ScriptForm"):
    """The octets that hexadecimal digits say, where there is one of these counts of digits."""
    needed(len(digits) in counts and all(digit in HEXADECIMAL for digit in digits), cause)
    return bytes.fromhex(digits.decode("ascii"))


def word_of(digits):
    """Two octets as a number."""
    return reference.number_at(octets_of(digits, (4,)), 0)


def number_of(digits):
    """A number of 32 bits by its decimal digits."""
    needed(1 <= len(digits) <= 10 and all(digit in DECIMAL for digit in digits), "ScriptForm")
    needed(int(digits) <= reference.GREATEST_NUMBER, "ScriptForm")
    return int(digits)


def text_of(octets):
    """A visible text, which can be empty."""
    needed(all(0x20 <= octet <= 0x7E for octet in octets), "ScriptForm")
    return octets


def flag_of(digit):
    """A boolean by 0 or 1."""
    needed(digit in (b"0", b"1"), "ScriptForm")
    return digit == b"1"


def members_of(octets):
    """The members that octets encode."""
    try:
        return reference.members(octets, 0, len(octets), 1)
    except reference.Fault as fault:
        raise ValueError(f"Members {fault.place} {fault.cause}") from None


def frame_of(destination, source, tag, app_id, gocb_ref, dat_set, go_id, conf_rev, entries, simulation, nds_com, first):
    """What a `control` line says of every frame; stNum is that of the first state."""
    pdu = {
        "gocb_ref": text_of(gocb_ref),
        "dat_set": text_of(dat_set),
        "go_id": text_of(go_id) or None,
        "st_num": number_of(first),
        "simulation": flag_of(simulation),
        "conf_rev": number_of(conf_rev),
        "nds_com": flag_of(nds_com),
        "entries": number_of(entries),
    }
    it = {
        "destination": octets_of(destination, (12,)),
        "source": octets_of(source, (12,)),
        "tag": word_of(tag) if tag else None,
        "name": "goose",
        "app_id": word_of(app_id),
        "reserved1": 0x8000 if pdu["simulation"] else 0,
        "reserved2": 0,
        "apdu": pdu,
        "trailer": b"",
    }
    needed(pdu["st_num"] > 0, "FirstState")
    return it


# ---- How a publisher sends --------------------------------------------------


def behind(count):
    """The number behind so many, where 4294967295 is followed by 1."""
    return count % reference.GREATEST_NUMBER + 1


class Call:
    """A change or a poll: its moment, T and the members of a change, and which frame of its state it sends, from 0."""

    def __init__(self, moment, change=None):
        self.moment, self.change, self.sends = moment, change, None


def latest(calls):
    """The greatest moment of these calls."""
    return max(call.moment for call in calls)


class Script:
    """What the lines so far say: what every frame has, the wait and the lifetime of each step, and the calls."""

    def __init__(self):
        self.control, self.steps, self.calls = None, [], []

    def names_here(self):
        """The lines that can come next. That there is no step before a call is an error of another name."""
        if self.control is None:
            return [b"control"]
        return [b"change", b"poll"] + [b"step"] * (not self.calls)

    def take(self, line, version):
        """Takes a line, and answers what is written for it."""
        name, *fields = line.split(b",")
        needed(COUNTS.get(name) == 1 + len(fields) and name in self.names_here(), "ScriptForm")
        if name == b"control":
            self.control = frame_of(*fields)
        elif name == b"step":
            self.take_step(*[number_of(it) for it in fields])
        else:
            return self.take_call(version, *fields)
        return []

    def take_step(self, wait, live):
        needed(0 < wait < live, "StepTimes")
        needed(len(self.steps) < MOST_STEPS, "StepCount")
        self.steps.append((wait, live))

    def take_call(self, version, moment, *change):
        needed(self.steps, "StepCount")
        call = Call(reference.moment_of(moment, version), self.change_of(*change) if change else None)
        self.calls.append(call)
        if change:
            needed(None not in self.frames_judged(), "WouldNotFit")
        call.sends = 0 if change else self.frame_due()
        return [] if call.sends is None else [f"F {latest(self.calls)} {self.encoded(call.sends).hex()}"]

    def change_of(self, t, members):
        """T and the members of a change. All of them have an encoding, so that none is NotSpellable."""
        t, members = octets_of(t, (16,), "Hex"), octets_of(members, range(0, reference.MOST_LINE, 2), "Hex")
        members = members_of(members)
        needed(len(members) == self.control["apdu"]["entries"], "EntriesDiffer")
        return t, members

    def step(self, which):
        """The wait and the lifetime of a frame of a state."""
        return self.steps[min(which, len(self.steps) - 1)]

    def frame_due(self):
        """Which frame the last call, a poll, sends: the one behind the frame sent last, once that one's wait is over."""
        senders = [at for at, call in enumerate(self.calls) if call.sends is not None]
        if not senders:
            return None
        last = self.calls[senders[-1]].sends
        wait, _ = self.step(last)
        passed = latest(self.calls) - latest(self.calls[:senders[-1] + 1])
        return last + 1 if passed >= 1000 * wait else None

    def encoded(self, which):
        """The canonical encoding of a frame of the newest state, or None where it would be too long."""
        changes = [call.change for call in self.calls if call.change]
        pdu = {
            **self.control["apdu"],
            "live": self.step(which)[1],
            "t": changes[-1][0],
            "st_num": behind(self.control["apdu"]["st_num"] - 1 + len(changes) - 1),
            "sq_num": behind(which - 1) if which else 0,
            "members": changes[-1][1],
        }
        return reference.written_frame({**self.control, "apdu": pdu})

    def frames_judged(self):
        """The longest frame of each step: the first one, and of the last step the one with sqNum 4294967295."""
        return [self.encoded(which) for which in [*range(len(self.steps)), reference.GREATEST_NUMBER]]


def publish(octets, has_failed=False):
    """The text of `publish` and the exit status."""
    lines, script, version, number = ["V2"], Script(), 1, 0
    try:
        for number, line in reference.numbered(octets, has_failed):
            if number == 1 and line == b"V2":
                version = 2
            elif line and line[:1] != b"#":
                lines += script.take(line, version)
        number += 1
        needed(script.control, "ScriptForm")
        needed(script.steps, "StepCount")
    except ValueError as cause:
        return [*lines, f"# {number} script {cause}"], 3
    except reference.ListFault as fault:
        return [*lines, f"# {fault.line} script {fault.cause}"], fault.status()
    return lines, 0
